//! Compares the proved cutter and bounds lookup (`packaging/proved label`) with the second program.
//!
//! `capability [--cases N] [--seed S]`

use compare::cuts::{CutAnswer, Label};
use compare::options::Options;
use compare::{conclude, cuts, totals};
use std::process::ExitCode;

const CASES: u64 = 20_000_000;

const LABEL: Label = Label {
    cut: |base, length| CutAnswer {
        number: proved::cut_number(base, length),
        low: proved::cut_low(base, length),
        high: proved::cut_high(base, length),
        exact: proved::cut_exact(base, length),
    },
    bounds: |address, metadata| {
        let low = proved::bounds_low(address, metadata);
        (low, proved::bounds_high(address, metadata))
    },
};

fn main() -> ExitCode {
    conclude(Options::of_process(CASES).and_then(|options| {
        let outcome = cuts::compare(LABEL, options.seed, options.cases);
        totals(&options, outcome, cuts::Totals::complete)
    }))
}
