//! What a comparison of machines says of a case on which they differ, and a case of a file again.

use crate::machines::{shown, Both, Differing, Machine};
use crate::replay;
use crate::rows::Table;
use crate::shrink::shrink;
use crate::state::Case;
use lent::PCC;
use std::path::Path;

/// A differing case, made smaller, as text to rerun.
pub fn differing(ours: Machine, table: &Table, seed: u64, found: Differing) -> String {
    let differs = |case: &Case| !Both::default().agree(ours, case);
    let small = shrink(found.case, &differs);
    let mut both = Both::default();
    both.agree(ours, &small);
    let place = small.state.capability(PCC).address;
    let word = small.state.instruction(place);
    let row = word.and_then(|word| table.find(word));
    let name = row.map_or("no instruction", |row| table.rows[row].name);
    let mut text = replay::write(&small);
    for line in both.difference().lines() {
        text.push_str(&format!("# {line}\n"));
    }
    let number = found.number;
    format!(
        "{text}# At PCC: {name}. Rerun these lines with --replay. Case {number} of seed {seed}."
    )
}

/// Reruns a case from a file.
pub fn rerun(ours: Machine, file: &Path) -> Result<String, String> {
    let text = std::fs::read_to_string(file).map_err(|error| error.to_string())?;
    let case = replay::read(&text)?;
    let mut both = Both::default();
    if both.agree(ours, &case) {
        Ok(shown(both.their_answer))
    } else {
        Err(both.difference())
    }
}
