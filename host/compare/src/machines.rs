//! Two machines on the same cases: the answer and every lent word, byte and bit are compared, and
//! that the revocation bits are as they were.

use crate::cases;
use crate::coverage::Coverage;
use crate::rows::Table;
use crate::state::{Call, Case};
use lent::{word_name, Answer, State};
use std::fmt::Write;

/// A machine: a call on lent state.
pub type Machine = fn(&mut State, Call) -> u64;

/// The second program.
pub fn second(state: &mut State, call: Call) -> u64 {
    call.on(state, second::step, second::run)
}

/// What each of two machines left and answered; the buffers are used again for every case.
#[derive(Default)]
pub struct Both {
    pub ours: State,
    pub theirs: State,
    pub our_answer: u64,
    pub their_answer: u64,
}

impl Both {
    /// Makes both machines take a case, the second program last. True if they agree.
    pub fn agree(&mut self, ours: Machine, case: &Case) -> bool {
        self.ours.clone_from(&case.state);
        self.theirs.clone_from(&case.state);
        self.our_answer = ours(&mut self.ours, case.call);
        self.their_answer = second(&mut self.theirs, case.call);
        self.our_answer == self.their_answer
            && self.ours == self.theirs
            && self.ours.revoked == case.state.revoked
    }

    /// How they differ.
    pub fn difference(&self) -> String {
        let mut text = String::new();
        if self.our_answer != self.their_answer {
            let (ours, theirs) = (shown(self.our_answer), shown(self.their_answer));
            let _ = writeln!(text, "answer: ours {ours}, second {theirs}");
        }
        let words = self.ours.regs.iter().zip(&self.theirs.regs).enumerate();
        for (index, (ours, theirs)) in words.filter(|(_, (a, b))| a != b) {
            let name = word_name(index);
            let _ = writeln!(text, "{name}: ours {ours:08x}, second {theirs:08x}");
        }
        let parts = [
            ("memory byte", &self.ours.mem, &self.theirs.mem),
            ("tag byte", &self.ours.tags, &self.theirs.tags),
            ("revocation byte", &self.ours.revoked, &self.theirs.revoked),
        ];
        for (name, ours, theirs) in parts {
            let bytes = ours.iter().zip(theirs).enumerate();
            for (index, (a, b)) in bytes.filter(|(_, (a, b))| a != b).take(16) {
                let _ = writeln!(text, "{name} {index:04x}: ours {a:02x}, second {b:02x}");
            }
        }
        text
    }
}

/// An answer in words.
pub fn shown(answer: u64) -> String {
    let Answer {
        number,
        trapped,
        retired,
    } = Answer::of(answer);
    format!("number {number} trapped {trapped} retired {retired}")
}

/// A case on which two machines differ.
#[derive(Debug)]
pub struct Differing {
    /// The number of the case, from 1.
    pub number: u64,
    pub case: Case,
}

/// Compares a machine with the second program on the cases of a seed; counts what was reached.
pub fn compare(
    ours: Machine,
    table: &Table,
    seed: u64,
    cases: u64,
    mut coverage: Option<&mut Coverage>,
) -> Result<(), Box<Differing>> {
    let mut case = Case::default();
    let mut both = Both::default();
    for number in 1..=cases {
        cases::make(table, seed, number, &mut case);
        if !both.agree(ours, &case) {
            return Err(Box::new(Differing { number, case }));
        }
        if let Some(coverage) = coverage.as_deref_mut() {
            coverage.count(table, &case, &both.theirs, both.their_answer);
        }
    }
    Ok(())
}

#[cfg(test)]
mod tests {
    use super::*;
    use crate::instructions::table;

    #[test]
    fn the_second_program_agrees_with_itself_and_nothing_unlisted_is_reached() {
        let table = table();
        let mut coverage = Coverage::new(&table);
        compare(second, &table, 1, 20_000, Some(&mut coverage)).unwrap();
        let faults = coverage.faults(&table);
        assert!(
            faults.iter().all(|fault| fault.starts_with("not reached")),
            "{faults:?}"
        );
    }

    #[test]
    fn changed_revocation_bits_are_found() {
        let wrong: Machine = |state, call| {
            let answer = second(state, call);
            state.revoked.iter_mut().for_each(|byte| *byte = 0);
            answer
        };
        assert!(compare(wrong, &table(), 1, 100, None).is_err());
    }
}
