//! Compares the proved machine (`packaging/proved bench_api`) with the second program on every short word, and
//! prints what the cases reached.
//!
//! `halves [--cases N] [--seed S]`, or `halves --replay FILE` for one case as text.

use compare::halves::{compare, Totals, CASES};
use compare::instructions::table;
use compare::machines::Machine;
use compare::options::Options;
use compare::told::{differing, rerun};
use compare::{cases_or_replay, reached};
use std::process::ExitCode;

const PROVED: Machine = |state, call| call.on(state, proved::step, proved::run);

fn main() -> ExitCode {
    cases_or_replay(CASES, run, |file| rerun(PROVED, file))
}

fn run(options: &Options) -> Result<String, String> {
    let table = table();
    let mut totals = Totals::new(&table);
    let (seed, cases) = (options.seed, options.cases);
    compare(PROVED, seed, cases, Some(&mut totals))
        .map_err(|found| differing(PROVED, &table, seed, *found))?;
    let text = format!("{totals}\n{cases} cases of seed {seed}");
    reached(text, &totals.faults())
}
