//! Runs both proved engines (`packaging/proved bench_api`) from pairs of random starts, which are alike but where the proved search
//! (`packaging/proved reach`) says that nothing held outside may load: nothing tells them apart.
//!
//! `secrecy [--cases N] [--seed S]`

use compare::instructions::table;
use compare::options::Options;
use compare::secrecy::{search, Bench, Program, Totals};
use compare::{conclude, totals};
use std::process::ExitCode;

const CASES: u64 = 100_000;

const PLAIN: Program = Program {
    machine: |state, call| call.on(state, proved::step, proved::run),
    watched: proved::run_watched,
};

const QUICK: Program = Program {
    machine: |state, call| call.by(state, proved::run_quick),
    watched: proved::run_quick,
};

fn run(options: &Options) -> Result<String, String> {
    let bench = Bench {
        programs: &[PLAIN, QUICK],
        outside: proved::reach_outside,
        sweep: proved::sweep,
    };
    let outcome = search(bench, &table(), options.seed, options.cases);
    totals(options, outcome, Totals::complete)
}

fn main() -> ExitCode {
    conclude(Options::of_process(CASES).and_then(|options| run(&options)))
}
