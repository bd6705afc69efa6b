//! A run of any number of steps, up to the exact step that traps or that a breakpoint stands at, or from which on nothing
//! changes: by calls of up to a million steps, or one by one where someone looks at each.

#[cfg(test)]
mod tests;

use crate::course::Course;
use crate::cover::Cover;
use crate::halt::{by_calls, by_steps, bytes_at, is_still, stuck, Halt, Pace, Stops};
use crate::probe;
use crate::proved::{Counts, Refusal, MOST_STEPS};
use crate::trap::Trap;
use crate::{stop, sweep};
use lent::{State, Watch, COMPARE, PCC};
use std::collections::BTreeSet;

/// The most steps one by one between two calls of a plan's watch.
const STRIDE: u64 = 1 << 16;
/// The most steps that are made again for one that is only shown. One by one, steps from where no call may start cost the
/// square of their number.
const MOST_AGAIN: u64 = 1 << 15;

/// Why a run ended.
#[derive(Clone, Default, PartialEq, Eq, Debug)]
pub enum End {
    /// All the steps were made.
    #[default]
    Steps,
    /// The program jumps to itself: every further step that was asked for retires and changes time alone.
    Still,
    /// The same, but the timer is set: it interrupts the program after so many steps, which are more than were left.
    Waits(u64),
    /// The same after a trap, of this run or one that its start records, and where traps go: nothing handles them.
    Unhandled,
    /// The same, but an end was named, and this is not it.
    Astray,
    /// A step trapped; this is the state before it.
    Trap(Box<State>),
    /// A breakpoint stands at PCC; the step there is not made.
    Break,
    /// The program came to where it ends; the step there is not made.
    Exit,
    /// All the steps were made, and nothing handles the last trap: so many further steps, with a trap among them, come again and
    /// again and change time alone.
    Stuck(u64),
    /// A signal stopped the run; the further steps are not made.
    Stopped,
}

/// How often memory was swept during a run, and how many tags went.
#[derive(Clone, Copy, Default, PartialEq, Eq, Debug)]
pub struct Swept {
    pub passes: u64,
    pub tags: u64,
}

/// A run that the machine did not go on with: why, and the steps that were made before.
#[derive(Clone, Copy, PartialEq, Eq, Debug)]
pub struct Refused {
    pub refusal: Refusal,
    pub made: Counts,
}

#[derive(Clone, Default, PartialEq, Eq, Debug)]
pub struct Outcome {
    pub counts: Counts,
    pub end: End,
    pub swept: Swept,
    /// The watch record at the end.
    pub record: Watch,
}

/// Who is shown a run, call by call. No state is copied for it.
pub trait Watcher {
    /// The state before a call.
    fn before(&mut self, _state: &State) {}

    /// The state after it and its counts; the answer is whether the run is still wanted.
    fn after(&mut self, _state: &State, _made: Counts) -> bool {
        true
    }
}

/// Nobody is shown anything.
pub struct Nobody;

impl Watcher for Nobody {}

/// What is asked of a run, and who is shown its calls.
pub struct Plan<'a> {
    pub steps: u64,
    pub through_traps: bool,
    /// The most steps of one call.
    pub call: u64,
    /// After how many steps all of memory is swept, again and again.
    pub sweep: Option<u64>,
    /// The watch record at the start.
    pub record: Watch,
    /// Where the run stops before a step.
    pub breaks: BTreeSet<u32>,
    /// Whether the first step is made though it is there.
    pub leaves: bool,
    /// Where the program has ended.
    pub exits: BTreeSet<u32>,
    /// What is told of each word that retires.
    pub cover: Option<&'a mut Cover>,
    /// Who is told of each store into a range of the record, as it comes, by the state after it.
    pub stored: Option<&'a mut dyn FnMut(&State)>,
    pub watch: &'a mut dyn Watcher,
}

impl<'a> Plan<'a> {
    /// A run of so many steps at most, to the first trap, with someone who is shown its calls.
    pub fn new(steps: u64, watch: &'a mut dyn Watcher) -> Plan<'a> {
        Plan {
            steps,
            through_traps: false,
            call: MOST_STEPS,
            sweep: None,
            record: Watch::default(),
            breaks: BTreeSet::new(),
            leaves: true,
            exits: BTreeSet::new(),
            cover: None,
            stored: None,
            watch,
        }
    }

    /// Whether each step is looked at. One that is only shown is not, where too many others have to be made again for it.
    fn looks(&self, course: &mut Course) -> bool {
        let shown = self.call == 1 && course.again() < MOST_AGAIN;
        shown || self.cover.is_some() || !self.breaks.is_empty()
    }

    /// How many steps to make after some that were made: to the next sweep at most.
    fn pace(&self, made: u64, call: u64, looks: bool) -> Pace {
        let left = self.steps - made;
        let most = match (looks, self.call) {
            (true, most) => STRIDE.min(most.max(1)),
            (false, 1) => call,
            (false, most) => call.min(most.max(1)),
        };
        Pace {
            steps: left.min(most).min(sweep::left(self.sweep, made)),
            left,
            begins: made == 0,
            leaves: made == 0,
        }
    }
}

/// Runs a plan. A refused run leaves the state that its last step led to.
pub fn run(state: &mut State, plan: Plan) -> Result<Outcome, Refused> {
    let mut course = Course::new(std::mem::take(state), plan.record);
    let mut done = Outcome::default();
    let followed = follow(&mut course, plan, &mut done);
    *state = course.into_state();
    let made = done.counts;
    followed
        .map(|()| done)
        .map_err(|refusal| Refused { refusal, made })
}

fn follow(course: &mut Course, mut plan: Plan, done: &mut Outcome) -> Result<(), Refusal> {
    course.may_start()?;
    let at = course.state().capability(PCC).address;
    if plan.exits.contains(&at) {
        done.end = End::Exit;
    } else if plan.breaks.contains(&at) && !plan.leaves {
        done.end = End::Break;
    }
    plan.breaks.extend(&plan.exits);
    let (mut call, mut looked, mut wanted) = (1, false, true);
    while wanted && done.end == End::Steps && done.counts.steps() < plan.steps {
        plan.watch.before(course.state());
        let looks = plan.looks(course);
        // Calls grow anew where steps are no longer looked at.
        call = if looked && !looks { 1 } else { call };
        let pace = plan.pace(done.counts.steps(), call, looks);
        let (mut made, halt) = advance(course, pace, looks, &mut plan);
        done.counts += made;
        // After a store they do too: the next one is not far.
        call = if matches!(halt, Halt::Watch(_)) {
            1
        } else {
            (2 * call).min(MOST_STEPS)
        };
        let (end, more) = ended(course, halt, &mut plan)?;
        made += more;
        done.counts += more;
        done.end = end;
        wanted = made.steps() == 0 || plan.watch.after(course.state(), made);
        if done.end == End::Steps {
            pause(course, &plan, done)?;
        }
        looked = looks;
    }
    done.record = course.record();
    if done.end == End::Still {
        done.end = standing(course.state(), &plan.exits, done.counts);
    }
    Ok(())
}

/// Whether a run trapped, or the one before it that left its start.
fn has_trapped(state: &State, made: Counts) -> bool {
    made.trapped > 0 || Trap::recorded(state).is_some()
}

/// What it means that a program jumps to itself, after so many steps.
fn standing(state: &State, exits: &BTreeSet<u32>, made: Counts) -> End {
    let at = state.capability(PCC).address;
    // Compare is all ones where nobody has set it.
    let set = state.long(COMPARE) != u64::MAX;
    match set.then(|| probe::steps_to_interrupt(state)).flatten() {
        _ if exits.contains(&at) => End::Exit,
        _ if has_trapped(state, made) && at == probe::handler(state) => End::Unhandled,
        Some(steps) => End::Waits(steps),
        None if exits.is_empty() => End::Still,
        None => End::Astray,
    }
}

/// What a halt means for the run. A step that traps, or that stores into a range of which someone is told, is made here.
fn ended(course: &mut Course, halt: Halt, plan: &mut Plan) -> Result<(End, Counts), Refusal> {
    let none = Counts::default();
    let at = course.state().capability(PCC).address;
    match halt {
        Halt::Refused(refusal) => Err(refusal),
        Halt::Steps => Ok((End::Steps, none)),
        Halt::Break if plan.exits.contains(&at) => Ok((End::Exit, none)),
        Halt::Break => Ok((End::Break, none)),
        Halt::Still => Ok((End::Still, none)),
        Halt::Trap => {
            let before = Box::new(course.state().clone());
            Ok((End::Trap(before), course.run(1)?))
        }
        Halt::Watch(_) => {
            let bytes = bytes_at(course.state(), at);
            let made = course.run(1)?;
            if let Some(cover) = &mut plan.cover {
                cover.retired(at, bytes);
            }
            if let Some(stored) = &mut plan.stored {
                stored(course.state());
            }
            Ok((End::Steps, made))
        }
    }
}

/// Makes the steps of a pace, or as many as may be made at once.
fn advance(course: &mut Course, pace: Pace, looks: bool, plan: &mut Plan) -> (Counts, Halt) {
    let stops = Stops {
        breaks: std::mem::take(&mut plan.breaks),
        traps: !plan.through_traps,
        stores: plan.stored.is_some(),
    };
    let made = match looks {
        false => by_calls(course, pace, &stops),
        true => by_steps(course, pace, &stops, &mut |at, bytes| {
            if let Some(cover) = &mut plan.cover {
                cover.retired(at, bytes);
            }
        }),
    };
    plan.breaks = stops.breaks;
    made
}

/// After the last step, and where it is time for a sweep: sees whether the program stands still, and sweeps. On the way it
/// sees whether someone stops the run.
fn pause(course: &mut Course, plan: &Plan, done: &mut Outcome) -> Result<(), Refusal> {
    let made = done.counts.steps();
    let (sweeps, is_last) = (sweep::is_due(plan.sweep, made), made >= plan.steps);
    if (sweeps || is_last) && is_still(course, plan.steps - made) {
        done.end = End::Still;
        return Ok(());
    }
    if sweeps {
        done.swept.passes += 1;
        done.swept.tags += sweep::pass(course.change(), |_| ())?.len() as u64;
    }
    let stuck = || {
        (is_last && plan.through_traps)
            .then(|| stuck(course))
            .flatten()
    };
    if is_last && plan.exits.contains(&course.state().capability(PCC).address) {
        done.end = End::Exit;
    } else if let Some(steps) = stuck() {
        done.end = End::Stuck(steps);
    } else if !is_last && stop::is_asked() {
        done.end = End::Stopped;
    }
    Ok(())
}
