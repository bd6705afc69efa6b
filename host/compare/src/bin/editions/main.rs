//! Compares the proved machine (`packaging/proved bench_api`) with the second program on the whole table of
//! jumps of both editions, and prints what was taken.
//!
//! `editions`, or `editions --replay FILE` for one case as text.

use compare::editions::compare;
use compare::instructions::table;
use compare::machines::Machine;
use compare::options::Options;
use compare::told::{differing, rerun};
use compare::{cases_or_replay, reached};
use std::process::ExitCode;

const PROVED: Machine = |state, call| call.on(state, proved::step, proved::run);

fn main() -> ExitCode {
    cases_or_replay(0, run, |file| rerun(PROVED, file))
}

fn run(options: &Options) -> Result<String, String> {
    let totals =
        compare(PROVED).map_err(|found| differing(PROVED, &table(), options.seed, *found))?;
    reached(totals.to_string(), &totals.faults())
}
