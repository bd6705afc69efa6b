//! The bench command: runs an image on the proved machine and shows what happened, and lists it.

mod account;
mod again;
mod arguments;
mod capability_text;
mod changes;
mod colour;
mod command;
mod console;
mod course;
mod cover;
mod digits;
mod drive;
mod dump;
mod edition;
mod file;
mod gdb;
mod halt;
mod handover;
mod image;
mod json;
mod last;
mod listing;
mod manual;
mod map;
mod map_stores;
mod memory_rows;
mod names;
mod page;
mod payload;
mod probe;
mod process;
mod progress;
mod proved;
mod reach;
mod recent;
mod report;
mod request;
mod revoke;
#[cfg(test)]
mod samples;
mod save;
#[cfg(test)]
mod sequence;
mod sheet;
mod shelf;
mod stack;
mod state_file;
mod stop;
mod sweep;
mod trace;
mod trap;
mod trial;
mod verdict;
mod visible;

use arguments::Arguments;
use clap::FromArgMatches;
use std::io::Write;
use std::process::ExitCode;

/// How a command ended.
#[derive(Clone, Copy, PartialEq, Eq, Debug)]
pub enum Status {
    Ran,
    Trapped,
    /// Two sheets that were compared differ.
    Differ,
    /// No image fits the board.
    NoFit,
    /// A run could do what it never may.
    Could,
    Refused,
    Bad,
    /// The program has not come to its end.
    Running,
    /// A signal stopped it; what there was is said and saved.
    Stopped,
}

impl Status {
    /// The exit status.
    fn code(self) -> u8 {
        match self {
            Status::Ran => 0,
            Status::Trapped | Status::Differ | Status::NoFit | Status::Could => 1,
            Status::Refused => 2,
            Status::Bad => 3,
            // 4 is of ./bench: something could not be built.
            Status::Running => 5,
            Status::Stopped => stop::end(),
        }
    }
}

/// A message on standard error; where that can not be written, the exit status says it alone.
fn complain(reason: &str) {
    let line = format!("bench: {reason}\n");
    let _ = std::io::stderr().write_all(colour::error(&visible::said(&line)).as_bytes());
}

/// The command line, or its own message.
fn parsed() -> Result<Arguments, clap::Error> {
    let choice = colour::of_usage(std::env::args_os());
    let mut matches = arguments::command().color(choice).try_get_matches()?;
    Arguments::from_arg_matches_mut(&mut matches)
}

/// Says the command line's own message, with what it quotes written out, or its help, which has to be written.
fn told(usage: &clap::Error) -> Status {
    let plain = usage.render().to_string();
    let said = visible::said(&plain);
    let written = match said == plain {
        true => usage.print().and_then(|()| std::io::stdout().flush()),
        false => std::io::stderr().write_all(said.as_bytes()),
    };
    match (usage.use_stderr(), written) {
        (true, _) => Status::Bad,
        (false, Ok(())) => Status::Ran,
        (false, Err(error)) => {
            complain(&format!("standard output: {}", file::why(&error)));
            Status::Bad
        }
    }
}

fn main() -> ExitCode {
    let status = match parsed() {
        Ok(arguments) => {
            colour::ask(arguments.color);
            command::obey(arguments.command).unwrap_or_else(|reason| {
                complain(&reason);
                Status::Bad
            })
        }
        Err(usage) => told(&usage),
    };
    ExitCode::from(status.code())
}
