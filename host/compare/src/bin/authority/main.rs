//! Searches the runs of the proved machine (`packaging/proved bench_api`) for gained authority, and
//! prints what was reached.
//!
//! `authority [--cases N] [--seed S]`, or `authority --replay FILE` for one case as text.

use compare::authority::{gains, search, Gain, Totals};
use compare::instructions::table;
use compare::machines::Machine;
use compare::options::Options;
use compare::shrink::shrink;
use compare::state::Case;
use compare::{cases_or_replay, reached, replay};
use std::path::Path;
use std::process::ExitCode;

const CASES: u64 = 100_000;

const PROVED: Machine = |state, call| call.on(state, proved::step, proved::run);

fn main() -> ExitCode {
    cases_or_replay(CASES, run, rerun)
}

fn run(options: &Options) -> Result<String, String> {
    let table = table();
    let mut totals = Totals::new(&table);
    let (seed, cases) = (options.seed, options.cases);
    search(PROVED, &table, seed, cases, Some(&mut totals)).map_err(|gain| report(seed, *gain))?;
    let text = format!("{cases} starts of seed {seed}: {:?}", totals.counts);
    let faults = totals.faults(&table);
    reached(text, &faults)
}

/// A gain, made smaller, as text to rerun.
fn report(seed: u64, gain: Gain) -> String {
    let small = shrink(gain.case, &|case: &Case| gains(PROVED, case).is_some());
    let text = replay::write(&small);
    let shown = shown(&small).unwrap_or_default();
    let number = gain.number;
    format!("{text}# {shown}\n# Rerun these lines with --replay. Start {number} of seed {seed}.")
}

/// The gain of a case in words.
fn shown(case: &Case) -> Option<String> {
    let (place, value) = gains(PROVED, case)?;
    let (address, metadata) = (value.address, value.metadata);
    Some(format!(
        "gained: {place} holds {address:08x} {metadata:08x}"
    ))
}

/// Reruns a case from a file.
fn rerun(file: &Path) -> Result<String, String> {
    let text = std::fs::read_to_string(file).map_err(|error| error.to_string())?;
    let case = replay::read(&text)?;
    shown(&case).map_or(Ok("nothing gained".to_string()), Err)
}
