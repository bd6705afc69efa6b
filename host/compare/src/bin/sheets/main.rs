//! Compares the proved reader, writer and comparison of map sheets (`packaging/proved sheet_api`) with the
//! second program: sheets of every kind, then good ones with every damage of one byte and every room.
//!
//! `sheets [--cases N] [--seed S]`; a damaged sheet for every thousand cases

use compare::options::Options;
use compare::sheets::{self, Sheets, Totals};
use compare::{conclude, totals};
use std::process::ExitCode;

const CASES: u64 = 50_000;
const CASES_A_DAMAGED: u64 = 1000;

const PROVED: Sheets = Sheets {
    read: proved::sheet_read,
    write: proved::sheet_write,
    compare: proved::sheet_compare,
};

fn run(options: &Options) -> Result<String, String> {
    let outcome = sheets::compare(PROVED, options.seed, options.cases);
    let text = totals(options, outcome, Totals::complete)?;
    let damaged = (options.cases / CASES_A_DAMAGED).max(1);
    let count = sheets::compare_damaged(PROVED, options.seed, damaged)
        .map_err(|found| format!("damaged sheet {}: {}", found.case, found.text))?;
    Ok(format!(
        "{text}; {damaged} sheets in {count} damages and rooms"
    ))
}

fn main() -> ExitCode {
    conclude(Options::of_process(CASES).and_then(|options| run(&options)))
}
