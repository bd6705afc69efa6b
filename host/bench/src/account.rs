//! A run as every form of the report takes it: text, JSON and page show one account.

use crate::command::fit::Beside;
use crate::drive::{End, Outcome};
use crate::names::Names;
use crate::stack::Stack;
use crate::trap::Trap;
use crate::verdict::{Judged, Verdict};
use crate::Status;
use lent::State;

/// A run that was made, on which board and with which images.
pub struct Account<'a> {
    pub state: &'a State,
    pub outcome: &'a Outcome,
    pub trap: Option<Trap>,
    pub names: &'a Names,
    pub stack: Option<Stack>,
    /// The images that have a map sheet, each beside the board.
    pub fits: &'a [Beside<'a>],
    /// Whether memory was to be swept on the way.
    pub swept: bool,
    /// What it is judged by.
    pub judged: &'a Judged,
}

impl<'a> Account<'a> {
    /// The account of a run that left a state: its trap is the one that it stopped at, or the last that the state records.
    pub fn of(
        state: &'a State,
        outcome: &'a Outcome,
        (names, stack): (&'a Names, Option<Stack>),
        fits: &'a [Beside<'a>],
        (judged, swept): (&'a Judged, bool),
    ) -> Account<'a> {
        let trap = match &outcome.end {
            End::Trap(before) => Some(Trap::of_step(before, state)),
            End::Unhandled => Trap::recorded(state),
            _ if outcome.counts.trapped > 0 => Trap::recorded(state),
            _ => None,
        };
        Account {
            state,
            outcome,
            trap,
            names,
            stack,
            fits,
            swept,
            judged,
        }
    }

    pub fn verdict(&self) -> Verdict {
        self.judged.verdict(self.outcome)
    }

    pub fn status(&self) -> Status {
        self.judged.status(self.outcome)
    }
}
