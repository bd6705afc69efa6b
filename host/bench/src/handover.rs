//! The handover from a board's own start to an image: a run up to where PCC first is at an address.

use crate::capability_text::count;
use crate::drive::{self, End, Nobody, Outcome, Plan};
use crate::report;
use lent::{State, PCC};
use std::collections::BTreeSet;

/// Runs to the handover, by at most so many steps: how many were made, or why it is not reached.
pub fn arrive(state: &mut State, at: u32, steps: u64) -> Result<u64, String> {
    arrive_by(state, at, Plan::new(steps, &mut Nobody))
}

/// The same by a plan: through traps or to the first, with sweeps or without.
pub fn arrive_by(state: &mut State, at: u32, plan: Plan) -> Result<u64, String> {
    if is_at(state, at) {
        return Ok(0);
    }
    let plan = Plan {
        breaks: BTreeSet::from([at]),
        ..plan
    };
    let run = drive::run(state, plan);
    let outcome = run.map_err(|refused| report::refused_on_the_way(refused, state))?;
    match is_at(state, at) && !matches!(outcome.end, End::Trap(_)) {
        true => Ok(outcome.counts.steps()),
        false => Err(missed(state, at, &outcome)),
    }
}

fn is_at(state: &State, at: u32) -> bool {
    state.capability(PCC).address == at
}

fn missed(state: &State, at: u32, outcome: &Outcome) -> String {
    let steps = count(outcome.counts.steps(), "step");
    let address = |state: &State| state.capability(PCC).address;
    let why = match &outcome.end {
        End::Trap(before) => format!(
            "step {} trapped, at {:08x}",
            outcome.counts.steps(),
            address(before)
        ),
        End::Still | End::Waits(_) | End::Unhandled | End::Astray => format!(
            "after {steps} the program ended at {:08x}, where it jumps to itself",
            address(state)
        ),
        End::Steps | End::Break | End::Exit | End::Stuck(_) | End::Stopped => {
            format!("{steps} were made, and it is at {:08x}", address(state))
        }
    };
    format!("the handover at {at:08x} is not reached: {why}")
}
