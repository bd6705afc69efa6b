//! Compares the proved machine's runs with a watch record (`packaging/proved bench_api`) with the second program's.
//!
//! `watch [--cases N] [--seed S]`

use compare::instructions::table;
use compare::options::Options;
use compare::watches::{compare, Totals};
use compare::{conclude, totals};
use lent::{Run, RunWatched};
use std::process::ExitCode;

const CASES: u64 = 3_000_000;

fn run(options: &Options) -> Result<String, String> {
    let ours = (proved::run_watched as RunWatched, proved::run as Run);
    let outcome = compare(ours, &table(), options.seed, options.cases);
    totals(options, outcome, Totals::complete)
}

fn main() -> ExitCode {
    conclude(Options::of_process(CASES).and_then(|options| run(&options)))
}
