//! Compares both proved engines (`packaging/proved bench_api`) with the second program on long runs with a watch record.
//!
//! `engine [--cases N] [--seed S]`

use compare::engines::{compare, Totals};
use compare::instructions::table;
use compare::options::Options;
use compare::{conclude, totals};
use std::process::ExitCode;

/// Programs, of each of which up to four runs are made.
const CASES: u64 = 100_000;

fn run(options: &Options) -> Result<String, String> {
    let ours = &[proved::run_watched, proved::run_quick];
    let outcome = compare(ours, &table(), options.seed, options.cases);
    totals(options, outcome, Totals::complete)
}

fn main() -> ExitCode {
    conclude(Options::of_process(CASES).and_then(|options| run(&options)))
}
