//! The bulk comparison of the proved program with the independent second one.
//!
//! Each comparison draws cases from a seed, asks both programs, and compares everything that they
//! answer and leave. The programs under src/bin link the proved libraries; the package `mutants`
//! runs the same comparisons against wrong machines, to see that they are told apart.

#![forbid(unsafe_code)]

pub mod aims;
pub mod authority;
pub mod capabilities;
pub mod cases;
pub mod coverage;
pub mod cuts;
pub mod derivations;
pub mod editions;
pub mod engines;
pub mod filter;
pub mod halves;
pub mod held;
pub mod images;
pub mod instructions;
pub mod integrity;
pub mod listing;
pub mod lists;
pub mod machines;
pub mod mark;
pub mod operands;
pub mod options;
pub mod programs;
pub mod random;
pub mod reaches;
pub mod refusals;
pub mod replay;
pub mod rows;
pub mod secrecy;
pub mod sheets;
pub mod short;
pub mod shrink;
pub mod starts;
pub mod state;
pub mod stretches;
pub mod survey;
pub mod sweeps;
pub mod timer;
pub mod told;
pub mod unsound;
pub mod watches;

use options::Options;
use std::fmt::Debug;
use std::path::Path;
use std::process::ExitCode;

/// The first case on which two programs differ, and how.
#[derive(Debug)]
pub struct Mismatch {
    /// The number of the case, from 1: how many were compared.
    pub case: u64,
    pub text: String,
}

/// Ends a comparison: its text and `ok`, or its text and a failure.
pub fn conclude(outcome: Result<String, String>) -> ExitCode {
    match outcome {
        Ok(text) => {
            println!("{text}\nok");
            ExitCode::SUCCESS
        }
        Err(text) => {
            println!("{text}");
            ExitCode::FAILURE
        }
    }
}

/// A program over machines: the cases that its options ask for, or one case of a file again.
pub fn cases_or_replay(
    cases: u64,
    run: fn(&Options) -> Result<String, String>,
    rerun: fn(&Path) -> Result<String, String>,
) -> ExitCode {
    conclude(
        Options::of_process(cases).and_then(|options| match &options.replay {
            Some(file) => rerun(file),
            None => run(&options),
        }),
    )
}

/// What such a program says at its end: what was reached, and what was not and should have been.
pub fn reached(text: String, faults: &[String]) -> Result<String, String> {
    if faults.is_empty() {
        Ok(text)
    } else {
        Err(format!("{text}\n{}", faults.join("\n")))
    }
}

/// What a comparison of plain numbers says at its end.
pub fn totals<T: Debug>(
    options: &Options,
    outcome: Result<T, Mismatch>,
    complete: impl Fn(&T) -> bool,
) -> Result<String, String> {
    let (cases, seed) = (options.cases, options.seed);
    match outcome {
        Ok(totals) if complete(&totals) => Ok(format!("{cases} cases of seed {seed}: {totals:?}")),
        Ok(totals) => Err(format!(
            "{cases} cases of seed {seed} miss a kind: {totals:?}"
        )),
        Err(found) => Err(format!(
            "case {} of seed {seed}: {}",
            found.case, found.text
        )),
    }
}
