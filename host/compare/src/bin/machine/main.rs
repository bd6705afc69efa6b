//! Compares the proved machine (`packaging/proved bench_api`) with the second program, and prints
//! what the cases reached.
//!
//! `machine [--cases N] [--seed S]`, or `machine --replay FILE` for one case as text.

use compare::coverage::Coverage;
use compare::instructions::table;
use compare::machines::{compare, Machine};
use compare::options::Options;
use compare::told::{differing, rerun};
use compare::{cases_or_replay, reached};
use std::process::ExitCode;

const CASES: u64 = 2_150_000;

const PROVED: Machine = |state, call| call.on(state, proved::step, proved::run);

fn main() -> ExitCode {
    cases_or_replay(CASES, run, |file| rerun(PROVED, file))
}

fn run(options: &Options) -> Result<String, String> {
    let table = table();
    let mut coverage = Coverage::new(&table);
    let (seed, cases) = (options.seed, options.cases);
    compare(PROVED, &table, seed, cases, Some(&mut coverage))
        .map_err(|found| differing(PROVED, &table, seed, *found))?;
    let text = format!("{}\n{cases} cases of seed {seed}", coverage.table(&table));
    let faults = coverage.faults(&table);
    reached(text, &faults)
}
