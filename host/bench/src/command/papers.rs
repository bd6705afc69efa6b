//! `bench completions` and `bench manual`: what a package puts beside the command.

use super::say_bytes;
use crate::arguments::{Arguments, Completions, Shell};
use crate::{manual, Status};
use clap::CommandFactory;
use clap_complete::{generate, shells};

pub fn completions(asked: &Completions) -> Result<Status, String> {
    let mut command = Arguments::command();
    let name = command.get_name().to_string();
    let mut script = Vec::new();
    match asked.shell {
        Shell::Bash => generate(shells::Bash, &mut command, name, &mut script),
        Shell::Zsh => generate(shells::Zsh, &mut command, name, &mut script),
        Shell::Fish => generate(shells::Fish, &mut command, name, &mut script),
    }
    say_bytes(&script)?;
    Ok(Status::Ran)
}

pub fn manual() -> Result<Status, String> {
    say_bytes(manual::page(Arguments::command()).as_bytes())?;
    Ok(Status::Ran)
}
