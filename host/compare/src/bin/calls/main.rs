//! Compares the proved lists of calls (`packaging/proved call_lists`) with the second program.
//!
//! `calls [--cases N] [--seed S]`

use compare::lists::List;
use compare::options::Options;
use compare::{conclude, lists, totals};
use std::process::ExitCode;

const CASES: u64 = 1_000_000;

fn calls(list: &mut List) -> u32 {
    let start = [list.start.address, list.start.metadata, list.start.tag];
    proved::calls(start, &list.kinds, &list.values, &mut list.words)
}

fn main() -> ExitCode {
    conclude(Options::of_process(CASES).and_then(|options| {
        let outcome = lists::compare(calls, options.seed, options.cases);
        totals(&options, outcome, lists::Totals::complete)
    }))
}
