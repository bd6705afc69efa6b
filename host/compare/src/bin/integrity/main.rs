//! Runs both proved engines (`packaging/proved bench_api`) from random starts: no byte of which the proved search (`packaging/proved
//! reach`) says that nothing held may store there changes.
//!
//! `integrity [--cases N] [--seed S]`

use compare::instructions::table;
use compare::integrity::{search, Bench, Totals};
use compare::machines::Machine;
use compare::options::Options;
use compare::{conclude, totals};
use std::process::ExitCode;

const CASES: u64 = 30_000;

const PLAIN: Machine = |state, call| call.on(state, proved::step, proved::run);

const QUICK: Machine = |state, call| call.by(state, proved::run_quick);

fn run(options: &Options) -> Result<String, String> {
    let bench = Bench {
        machines: &[PLAIN, QUICK],
        reach: proved::reach,
        sweep: proved::sweep,
    };
    let outcome = search(bench, &table(), options.seed, options.cases);
    totals(options, outcome, Totals::complete)
}

fn main() -> ExitCode {
    conclude(Options::of_process(CASES).and_then(|options| run(&options)))
}
