//! What each subcommand does.

mod explain;
pub mod fit;
mod gdb;
mod listing;
pub mod look;
mod papers;
mod reach;
pub mod run;
pub mod sheet;
mod shelf;
mod signature;
mod sweep;

use crate::arguments::{Cap, Command, Cut};
use crate::capability_text::{length, region, rights, type_words};
use crate::drive::Refused;
use crate::proved::engine::{self, Engine};
use crate::proved::sheets::BAD_IMAGE;
use crate::proved::{self, Refusal};
use crate::sheet::Bad;
use crate::{colour, complain, file, json, report, state_file, visible, Status};
use lent::{Capability, State};
use serde_json::Value;
use std::io::{ErrorKind, Write};
use std::path::Path;

/// Obeys a command: the exit status, or what is bad about a file.
pub fn obey(command: Command) -> Result<Status, String> {
    engine::choose(engine_of(&command));
    match command {
        Command::Run(run) => run::run(run),
        Command::Gdb(asked) => gdb::obey(asked),
        Command::Reach(asked) => reach::obey(asked),
        Command::Explain(asked) => explain::obey(&asked),
        Command::Sweep(asked) => sweep::obey(&asked),
        Command::Cut(cut) => cut_shown(&cut),
        Command::Cap(cap) => capability_shown(&cap),
        Command::Sheet(asked) => sheet::obey(&asked),
        Command::Fit(asked) => fit::obey(&asked),
        Command::Shelf(asked) => shelf::obey(&asked),
        Command::List(list) => listing::list(&list),
        Command::Assemble(assemble) => listing::assemble(&assemble),
        Command::Completions(asked) => papers::completions(&asked),
        Command::Manual => papers::manual(),
    }
}

/// The engine that a command asks for.
fn engine_of(command: &Command) -> Engine {
    match command {
        Command::Run(run) => run.engine,
        Command::Gdb(asked) => asked.from.engine,
        Command::Reach(asked) => asked.from.engine,
        Command::Shelf(asked) => asked.setting.engine,
        _ => Engine::default(),
    }
}

/// Writes to standard output; a reader that has gone away is no error.
fn say_bytes(bytes: &[u8]) -> Result<(), String> {
    let mut output = std::io::stdout().lock();
    match output.write_all(bytes).and_then(|()| output.flush()) {
        Err(error) if error.kind() != ErrorKind::BrokenPipe => {
            Err(format!("standard output: {}", file::why(&error)))
        }
        _ => Ok(()),
    }
}

/// Says something to a person, painted where that is asked for.
fn say(text: &str) -> Result<(), String> {
    say_bytes(colour::output(&visible::said(text)).as_bytes())
}

fn say_json(value: &Value) -> Result<(), String> {
    say_bytes(visible::json(&format!("{value:#}\n")).as_bytes())
}

/// Says that something was refused, with document 01's number.
fn refused(refusal: Refusal, as_json: bool) -> Result<Status, String> {
    refused_by(refusal.0, refusal.reason(), as_json)
}

/// Says that a run of a state was refused.
fn refused_state(refusal: Refusal, state: &State, as_json: bool) -> Result<Status, String> {
    if as_json {
        say_json(&json::refused_state(refusal, state))?;
    }
    complain(&report::refused(refusal, state));
    Ok(Status::Refused)
}

/// Says that a run was refused on its way, after which steps.
fn refused_on_the_way(refused: Refused, state: &State, as_json: bool) -> Result<Status, String> {
    if as_json {
        say_json(&json::refused_on_the_way(refused, state))?;
    }
    complain(&report::refused_on_the_way(refused, state));
    Ok(Status::Refused)
}

/// Says that something was refused, by which number and why.
fn refused_by(number: u64, reason: &str, as_json: bool) -> Result<Status, String> {
    if as_json {
        say_json(&json::refused(number, reason))?;
    }
    complain(&format!("refused, number {number}: {reason}"));
    Ok(Status::Refused)
}

/// Says that a sheet is bad, with the number of that answer (include/oddersnow.h).
fn refused_sheet(number: u64, path: &Path, bad: &Bad, as_json: bool) -> Result<Status, String> {
    if as_json {
        say_json(&json::refused_sheet(number, path, bad))?;
    }
    let hint = match BAD_IMAGE.contains(&number) {
        true => "; an image that is judged begins with its label, a map sheet and an empty line",
        false => "",
    };
    complain(&format!("{}{hint}", bad.shown(path)));
    Ok(Status::Refused)
}

fn read_state(path: &Path) -> Result<State, String> {
    let named = |reason: String| format!("{}: {reason}", visible::name(path));
    state_file::read(&file::read(path)?).map_err(named)
}

fn cut_shown(asked: &Cut) -> Result<Status, String> {
    match proved::cut(asked.base, asked.length) {
        Err(refusal) => refused(refusal, asked.json),
        Ok((cut, exact)) => {
            if asked.json {
                say_json(&json::cut(cut, exact))?;
            } else {
                let exact = if exact { "exact" } else { "rounded" };
                say(&format!("{}, {}, {exact}\n", region(cut), length(cut)))?;
            }
            Ok(Status::Ran)
        }
    }
}

fn capability_shown(asked: &Cap) -> Result<Status, String> {
    let value = Capability {
        address: asked.address,
        metadata: asked.metadata,
        tag: 0,
    };
    if asked.json {
        say_json(&json::capability(value))?;
        return Ok(Status::Ran);
    }
    let bounds = proved::bounds(value);
    let held = rights(value.metadata).join(" ");
    say(&format!(
        "address  {:08x}\nbounds   {}, {}\nrights   {}\ntype     {}\n",
        value.address,
        region(bounds),
        length(bounds),
        if held.is_empty() { "none" } else { &held },
        type_words(value.metadata)
    ))?;
    Ok(Status::Ran)
}
