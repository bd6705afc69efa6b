//! The last steps of a run: they are made again, one by one, from a state that was kept on the way. The proved machine
//! gives the same steps from the same state.

use crate::course::Course;
use crate::drive::Watcher;
use crate::proved::{Counts, Refusal};
use crate::sweep;
use crate::trace::{self, Before};
use lent::{State, Watch};

/// A state of a run, and how many steps led to it.
#[derive(Clone)]
pub struct Kept {
    pub made: u64,
    pub course: Course,
}

impl Kept {
    /// A state with the record that its steps are counted by.
    pub fn new(made: u64, state: &State, record: Watch) -> Kept {
        Kept {
            made,
            course: Course::new(state.clone(), record),
        }
    }
}

/// Two states of a run; from the older one on at least as many steps were made as are wanted, or it is the first.
pub struct Last {
    wanted: u64,
    sweep: Option<u64>,
    older: Kept,
    newer: Option<Kept>,
}

impl Last {
    /// For a run from this state, with a sweep after every so many steps.
    pub fn new(start: &State, wanted: u64, sweep: Option<u64>) -> Last {
        Last {
            wanted,
            sweep,
            older: Kept::new(0, start, Watch::default()),
            newer: None,
        }
    }

    /// Takes note of the state that so many steps led to, if a call may start there.
    pub fn see(&mut self, made: u64, state: &State) {
        let newest = self.newer.as_ref().unwrap_or(&self.older);
        if made < newest.made + self.wanted {
            return;
        }
        let mut kept = Kept::new(made, state, Watch::default());
        if kept.course.may_start().is_err() {
            return;
        }
        if let Some(newer) = self.newer.replace(kept) {
            self.older = newer;
        }
    }

    /// The last steps of a run that made so many, at most as many as were wanted: what is seen of the state before each,
    /// and then shown with its number, the state after it and its counts.
    pub fn steps<B, T>(
        &self,
        made: u64,
        wanted: u64,
        see: impl Fn(&State) -> B,
        show: impl Fn(u64, B, &State, Counts) -> T,
    ) -> Result<Vec<T>, Refusal> {
        let first = made.saturating_sub(wanted.min(self.wanted));
        let mut at = self.before(first)?;
        let step = |_| {
            let before = see(at.course.state());
            let counts = at.course.run(1)?;
            at.made += 1;
            let shown = show(at.made, before, at.course.state(), counts);
            swept(&mut at, self.sweep).map(|()| shown)
        };
        (first..made).map(step).collect()
    }

    /// The machine after so many steps, at or after a state that was kept.
    fn before(&self, steps: u64) -> Result<Kept, Refusal> {
        let newer = self.newer.as_ref().filter(|newer| newer.made <= steps);
        let mut at = newer.unwrap_or(&self.older).clone();
        // States that follow so closely were not kept. Where a value was then loaded that no start may hold, the run
        // may have gone on from the last of them, so that state is found again: these steps are made one by one.
        let close = at.made + self.wanted;
        while at.made < steps {
            let call = if at.made < close { 1 } else { steps - at.made };
            advance(&mut at, call, self.sweep)?;
        }
        Ok(at)
    }

    /// The last steps on lines of the trace.
    pub fn lines(&self, made: u64, wanted: u64) -> Result<Vec<String>, Refusal> {
        self.steps(made, wanted, Before::of, |number, before, after, counts| {
            trace::line(number, &before, after, counts)
        })
    }
}

/// Takes note of a run's states as it goes on, after so many steps.
pub struct Seen<'a> {
    pub last: &'a mut Last,
    pub made: u64,
}

impl Watcher for Seen<'_> {
    fn before(&mut self, state: &State) {
        self.last.see(self.made, state);
    }

    fn after(&mut self, _: &State, made: Counts) -> bool {
        self.made += made.steps();
        true
    }
}

/// Makes some steps, at most up to the next sweep, which is then made.
pub fn advance(at: &mut Kept, steps: u64, sweep: Option<u64>) -> Result<(), Refusal> {
    let call = steps.min(sweep::left(sweep, at.made)).min(at.course.room());
    at.course.run(call)?;
    at.made += call;
    swept(at, sweep)
}

/// The sweep that is made after this many steps, if one is.
fn swept(at: &mut Kept, sweep: Option<u64>) -> Result<(), Refusal> {
    if sweep::is_due(sweep, at.made) {
        sweep::pass(at.course.change(), |_| ())?;
    }
    Ok(())
}

#[cfg(test)]
mod tests;
