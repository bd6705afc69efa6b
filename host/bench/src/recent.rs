//! The last steps before a stop, as the proved lister has their words.

use crate::image::lines::Lines;
use crate::last::Last;
use crate::names::Names;
use crate::proved::{digits, instruction, word_at, Counts, Refusal};
use crate::trap::Trap;
use lent::{Capability, State, PCC};
use serde_json::{json, Value};
use std::fmt::Write;

/// A step: its number from 1, where it was, its word if one was fetched, and why it trapped if it did.
#[derive(Clone, PartialEq, Eq, Debug)]
struct Step {
    number: u64,
    address: u32,
    word: Option<u32>,
    trap: Option<String>,
}

impl Step {
    /// A step from PCC and the word there, by the state after it.
    fn of(
        number: u64,
        (pcc, word): (Capability, Option<u32>),
        after: &State,
        counts: Counts,
    ) -> Step {
        let trap = (counts.trapped > 0).then(|| Trap::new(after, pcc));
        Step {
            number,
            address: pcc.address,
            word: trap.as_ref().map_or(word, |trap| trap.word),
            trap: trap.map(|trap| trap.cause),
        }
    }
}

/// The last steps of a run, in order, and how many it made.
#[derive(Clone, PartialEq, Eq, Debug)]
pub struct Recent {
    made: u64,
    steps: Vec<Step>,
}

impl Recent {
    pub fn of(last: &Last, made: u64, most: u64) -> Result<Recent, Refusal> {
        let see = |state: &State| {
            let pcc = state.capability(PCC);
            (pcc, word_at(state, pcc.address))
        };
        let steps = last.steps(made, most, see, Step::of)?;
        Ok(Recent { made, steps })
    }

    /// A line a step.
    pub fn text(&self, names: &Names, lines: &Lines) -> String {
        let mut text = format!("The last steps, {} of {}:\n", self.steps.len(), self.made);
        for step in &self.steps {
            let word = step.word.map_or("--------".into(), digits);
            let said = step.word.map_or(String::new(), instruction);
            let place = names.place(step.address);
            let place = place.strip_prefix(", ").unwrap_or("");
            let source = lines.at(step.address);
            let source = source.map_or(String::new(), |line| format!("  {line}"));
            let trap = step.trap.as_ref();
            let trap = trap.map_or(String::new(), |cause| format!("  trap: {cause}"));
            let start = format!("{:>8}  {:08x}  {word:<8}", step.number, step.address);
            let line = format!("{start}  {said:<23}  {place}{source}{trap}");
            let _ = writeln!(text, "{}", line.trim_end());
        }
        text
    }

    pub fn json(&self, lines: &Lines) -> Value {
        let step = |step: &Step| {
            json!({
                "number": step.number,
                "address": step.address,
                "word": step.word,
                "instruction": step.word.map(instruction),
                "line": lines.at(step.address),
                "trap": step.trap,
            })
        };
        self.steps.iter().map(step).collect()
    }
}

#[cfg(test)]
mod tests {
    use super::*;
    use crate::names::Name;
    use crate::samples::{coded, counting, loading, EBREAK, START};

    fn recent(start: &State, made: u64, most: u64) -> Recent {
        Recent::of(&Last::new(start, most, None), made, most).unwrap()
    }

    #[test]
    fn the_last_steps_are_in_order() {
        let recent = recent(&coded(&[0x0015_0513; 6]), 5, 2);
        let names = Names(vec![Name::new(b"loop", START + 16, 4)]);
        let shown = "The last steps, 2 of 5:
       4  2000000c  00150513  addi 10 10 1
       5  20000010  00150513  addi 10 10 1             byte 0 of loop
";
        assert_eq!(recent.text(&names, &Lines::default()), shown);
        let steps = recent.json(&Lines::default());
        assert_eq!(steps[1]["number"], 5);
        assert_eq!(steps.as_array().map(Vec::len), Some(2));
    }

    // A value that no start may hold is loaded by the first step, and the last one traps.
    #[test]
    fn a_trap_is_told_with_its_cause_and_a_load_goes_on() {
        let recent = recent(&loading(&[], counting(40, EBREAK)), 82, 3);
        let steps = recent.json(&Lines::default());
        assert_eq!(steps[2]["trap"], "breakpoint (EBREAK)");
        let told: Vec<&Value> = (0..3).map(|step| &steps[step]["address"]).collect();
        assert_eq!(told, [START + 4, START + 8, START + 12]);
        assert_eq!(steps[0]["instruction"], "addi 10 10 1");
    }
}
