//! Compares the proved choice of an image (`packaging/proved sheet_api`) with the second program: images
//! and boards of every kind, then every place around the edges of board regions.
//!
//! `images [--cases N] [--seed S]`

use compare::images::{compare, compare_edges, Totals};
use compare::options::Options;
use compare::{conclude, totals};
use std::process::ExitCode;

const CASES: u64 = 300_000;

fn run(options: &Options) -> Result<String, String> {
    let outcome = compare(proved::fit, options.seed, options.cases);
    let text = totals(options, outcome, Totals::complete)?;
    let edges = compare_edges(proved::fit)
        .map_err(|found| format!("edge {}: {}", found.case, found.text))?;
    Ok(format!("{text}; {edges} places at edges"))
}

fn main() -> ExitCode {
    conclude(Options::of_process(CASES).and_then(|options| run(&options)))
}
