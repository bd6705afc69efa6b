//! A machine on its way: calls that follow one another as one run. A run goes on where a step has loaded a value that no
//! start may hold, low above high or high above 2^32, and a call from there is refused (document 02, 13). So the steps
//! from there on are made from the last state that a call could start from, as part of a longer run.

#[cfg(test)]
mod tests;

use crate::proved::{self, Counts, Refusal, MOST_STEPS, UNSOUND};
use lent::{State, Watch};
use std::rc::Rc;

/// The most steps between a state that is kept and the one that calls go on from: states are large, steps may be single.
const NEAR: u64 = 1 << 14;

/// A state, its watch record, and what its steps are made from where no call may start at it.
#[derive(Clone)]
pub struct Course {
    state: State,
    record: Watch,
    origin: Option<Rc<Origin>>,
    /// What was counted since the origin, and how many of these steps led to the last state that a call started from.
    since: Counts,
    accepted: u64,
}

/// A state that a call started from, and its record.
struct Origin {
    state: State,
    record: Watch,
}

impl Course {
    pub fn new(state: State, record: Watch) -> Course {
        Course {
            state,
            record,
            origin: None,
            since: Counts::default(),
            accepted: 0,
        }
    }

    pub fn state(&self) -> &State {
        &self.state
    }

    pub fn into_state(self) -> State {
        self.state
    }

    pub fn record(&self) -> Watch {
        self.record
    }

    /// The state for a change otherwise than by steps. What is made of it is a start like any other.
    pub fn change(&mut self) -> &mut State {
        self.origin = None;
        (self.since, self.accepted) = (Counts::default(), 0);
        &mut self.state
    }

    /// Watches other ranges from here on. Their counts may have risen by steps that are made already.
    pub fn watch(&mut self, record: Watch) {
        self.record = record;
        if self.may_start().is_ok() {
            self.change();
            return;
        }
        let Some(Origin { state, .. }) = self.origin.as_deref() else {
            return;
        };
        let state = state.clone();
        self.origin = Some(Rc::new(Origin { state, record }));
        // Made once already, these steps are not refused.
        if let Ok((_, counted, _)) = self.made_again(self.since.steps()) {
            self.record = counted;
        }
    }

    /// Whether a call may start here, or why not.
    pub fn may_start(&mut self) -> Result<(), Refusal> {
        proved::run(&mut self.state, 0).map(|_| ())
    }

    /// Makes steps. Refused only if there is no origin, or more than 1,000,000 steps would lie between it and their end;
    /// nothing is changed then.
    pub fn run(&mut self, steps: u64) -> Result<Counts, Refusal> {
        let near = self.origin.is_some() && self.since.steps() + steps <= NEAR;
        let kept = (!near).then(|| Origin {
            state: self.state.clone(),
            record: self.record,
        });
        match proved::run_watched(&mut self.state, steps, &mut self.record) {
            Err(UNSOUND) => self.run_longer(steps),
            Err(refusal) => Err(refusal),
            Ok(made) => {
                if let Some(kept) = kept {
                    self.origin = Some(Rc::new(kept));
                    self.since = Counts::default();
                }
                self.accepted = self.since.steps();
                self.since += made;
                Ok(made)
            }
        }
    }

    /// The same as the end of a run from the last state that a call started from.
    fn run_longer(&mut self, steps: u64) -> Result<Counts, Refusal> {
        self.draw_near()?;
        let before = self.since;
        let (state, record, made) = self.made_again(before.steps() + steps)?;
        (self.state, self.record, self.since) = (state, record, made);
        Ok(made - before)
    }

    /// Makes the last state that a call started from the origin.
    fn draw_near(&mut self) -> Result<(), Refusal> {
        if self.accepted > 0 {
            let (state, record, made) = self.made_again(self.accepted)?;
            self.origin = Some(Rc::new(Origin { state, record }));
            self.since = self.since - made;
            self.accepted = 0;
        }
        Ok(())
    }

    /// What so many steps from the origin leave.
    fn made_again(&self, steps: u64) -> Result<(State, Watch, Counts), Refusal> {
        let origin = self.origin.as_deref().ok_or(UNSOUND)?;
        let (mut state, mut record) = (origin.state.clone(), origin.record);
        let made = proved::run_watched(&mut state, steps, &mut record).map_err(|_| UNSOUND)?;
        Ok((state, record, made))
    }

    /// Takes the last step back: those before it are made again.
    pub fn step_back(&mut self) -> Result<(), Refusal> {
        let (state, record, made) = self.made_again(self.since.steps() - 1)?;
        (self.state, self.record, self.since) = (state, record, made);
        Ok(())
    }

    /// How many steps the last call was made of, with those that were made again for it.
    pub fn effort(&self) -> u64 {
        self.since.steps() - self.accepted
    }

    /// How many steps have to be made again for the next one.
    pub fn again(&mut self) -> u64 {
        match self.may_start() {
            Ok(()) => 0,
            Err(_) => self.effort(),
        }
    }

    /// How many steps the next call can make, at least one. One is left over where that can be: it shows whether the
    /// program stands still.
    pub fn room(&mut self) -> u64 {
        (MOST_STEPS - 1).saturating_sub(self.again()).max(1)
    }
}
