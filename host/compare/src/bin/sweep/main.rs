//! Compares the proved sweeper (`packaging/proved bench_api`) with the second program: visits and passes of
//! every kind, then passes over 1 MiB.
//!
//! `sweep [--cases N] [--seed S]`

use compare::options::Options;
use compare::sweeps::{compare, compare_large, Totals};
use compare::{conclude, totals};
use std::process::ExitCode;

const CASES: u64 = 300_000;

fn run(options: &Options) -> Result<String, String> {
    let outcome = compare(proved::sweep, options.seed, options.cases);
    let text = totals(options, outcome, Totals::complete)?;
    let large = compare_large(proved::sweep, options.seed)
        .map_err(|found| format!("pass {} over 1 MiB: {}", found.case, found.text))?;
    let (passes, visits, tags) = (large.passes, large.pass_visits, large.pass_tags);
    Ok(format!(
        "{text}; {passes} passes over 1 MiB, {visits} visits, {tags} tags went"
    ))
}

fn main() -> ExitCode {
    conclude(Options::of_process(CASES).and_then(|options| run(&options)))
}
