//! Compares the proved searches for capabilities (`packaging/proved reach`), of all places and from outside the range, with the
//! second program's.
//!
//! `reach [--cases N] [--seed S]`

use compare::options::Options;
use compare::reaches::{compare, Both, Searches};
use compare::{conclude, totals};
use std::process::ExitCode;

const CASES: u64 = 200_000;

const PROVED: Searches = Searches {
    all: proved::reach,
    outside: proved::reach_outside,
};

fn run(options: &Options) -> Result<String, String> {
    let outcome = compare(PROVED, options.seed, options.cases);
    totals(options, outcome, Both::complete)
}

fn main() -> ExitCode {
    conclude(Options::of_process(CASES).and_then(|options| run(&options)))
}
