//! Compares the proved lister and assembler (`packaging/proved listing_api`) with the second program.
//!
//! `listing [--cases N] [--seed S]`

use compare::listing::{compare, Lister, Totals, CASES};
use compare::options::Options;
use compare::{conclude, totals};
use std::process::ExitCode;

const PROVED: Lister = Lister {
    list: proved::list_into,
    assemble: proved::assemble_into,
};

fn main() -> ExitCode {
    conclude(Options::of_process(CASES).and_then(|options| {
        let outcome = compare(PROVED, options.seed, options.cases);
        totals(&options, outcome, Totals::complete)
    }))
}
