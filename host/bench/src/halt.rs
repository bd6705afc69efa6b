//! Steps up to the exact place where someone wants the machine to stop: before a step that traps, that a breakpoint
//! stands at or that stores into a watched range, and where nothing changes any more.

#[cfg(test)]
mod tests;

use crate::course::Course;
use crate::probe;
use crate::proved::{Counts, Refusal, MOST_STEPS};
use lent::{State, Watch, COMPARE, MSTATUS, PCC, TIME};
use std::collections::BTreeSet;

/// Where a machine is to be stopped, besides where nothing changes any more.
#[derive(Clone, Default, PartialEq, Eq, Debug)]
pub struct Stops {
    pub breaks: BTreeSet<u32>,
    /// Before a step that traps.
    pub traps: bool,
    /// Before a store into a range of the watch record.
    pub stores: bool,
}

/// Why no further step was made.
#[derive(Clone, Copy, PartialEq, Eq, Debug)]
pub enum Halt {
    /// All the steps were made, or as many as may be made at once.
    Steps,
    /// A breakpoint stands at PCC; the step there is not made.
    Break,
    /// The next step traps; it is not made.
    Trap,
    /// The next step stores into the watched range that starts here; it is not made.
    Watch(u32),
    /// The program jumps to itself; that step is not made.
    Still,
    /// The machine makes no further step.
    Refused(Refusal),
}

/// How many steps to make, of how many that are left in all. The first of a run that `begins` here is made though nothing
/// changes; one that `leaves` a breakpoint though that stands there.
#[derive(Clone, Copy, PartialEq, Eq, Debug)]
pub struct Pace {
    pub steps: u64,
    pub left: u64,
    pub begins: bool,
    pub leaves: bool,
}

/// Makes steps one by one, and shows of each that retired its address and the bytes there, up to four. Where each has to be
/// made with many before it, fewer are made at once.
pub fn by_steps(
    course: &mut Course,
    pace: Pace,
    stops: &Stops,
    see: &mut dyn FnMut(u32, u32),
) -> (Counts, Halt) {
    let (mut done, mut effort) = (Counts::default(), 0);
    let mut regs = Vec::new();
    while done.steps() < pace.steps && effort < MOST_STEPS {
        let first = done.steps() == 0;
        let at = course.state().capability(PCC).address;
        if stops.breaks.contains(&at) && !(first && pace.leaves) {
            return (done, Halt::Break);
        }
        let bytes = bytes_at(course.state(), at);
        regs.clone_from(&course.state().regs);
        let before = (&regs[..], course.record());
        let made = match course.run(1) {
            Err(refusal) => return (done, Halt::Refused(refusal)),
            Ok(made) => made,
        };
        effort += course.effort();
        let left = pace.left - done.steps() - 1;
        let halt = halted(before, course, made, stops, left);
        let goes_on = halt == Halt::Steps || (halt == Halt::Still && first && pace.begins);
        if let Some(halt) = (!goes_on).then(|| taken_back(course, halt, left)).flatten() {
            return (done, halt);
        }
        done += made;
        if made.retired > 0 {
            see(at, bytes);
        }
    }
    (done, Halt::Steps)
}

/// Takes back the step that something stops before, with so many steps left after it. None if it is made after all:
/// registers were left as they were, but not all of memory.
fn taken_back(course: &mut Course, halt: Halt, left: u64) -> Option<Halt> {
    if let Err(refusal) = course.step_back() {
        return Some(Halt::Refused(refusal));
    }
    match halt == Halt::Still && !is_still(course, left + 1) {
        true => course.run(1).err().map(Halt::Refused),
        false => Some(halt),
    }
}

/// Up to four bytes at an address, as one number: no word is longer.
pub fn bytes_at(state: &State, address: u32) -> u32 {
    let half = || state.half(address).map(u32::from);
    state.word(address).or_else(half).unwrap_or(0)
}

/// What a step came to, by the registers and the record before it and what it left, with so many steps left after it.
fn halted(
    (regs, record): (&[u32], Watch),
    course: &Course,
    made: Counts,
    stops: &Stops,
    left: u64,
) -> Halt {
    let now = course.state();
    // Memory is compared where these are the same.
    let same = || now.regs[..TIME] == regs[..TIME] && now.regs[COMPARE..] == regs[COMPARE..];
    match met(record, course, made, stops) {
        Some(halt) => halt,
        None if made.retired == 1 && same() && !probe::interrupts_within(now, left) => Halt::Still,
        None => Halt::Steps,
    }
}

/// What steps have met, by their counts and the record before them and after.
fn met(record: Watch, course: &Course, made: Counts, stops: &Stops) -> Option<Halt> {
    if made.trapped > 0 && stops.traps {
        return Some(Halt::Trap);
    }
    let mut counted = record.iter().zip(course.record());
    let stored = counted.find(|(before, after)| after.count > before.count);
    let start = stored.filter(|_| stops.stores)?.1.start;
    Some(Halt::Watch(start))
}

/// Makes steps by calls of the machine; breakpoints are not looked at.
pub fn by_calls(course: &mut Course, pace: Pace, stops: &Stops) -> (Counts, Halt) {
    let none = Counts::default();
    if !pace.begins && is_still(course, pace.left) {
        return (none, Halt::Still);
    }
    let steps = pace.steps.min(course.room());
    let mut after = course.clone();
    let made = match after.run(steps) {
        Err(refusal) => return (none, Halt::Refused(refusal)),
        Ok(made) => made,
    };
    if is_stopped(course.record(), &after, made, stops, pace.left - steps) {
        return first_stop(course, Pace { steps, ..pace }, stops);
    }
    *course = after;
    (made, Halt::Steps)
}

/// Whether steps with a record before them, and so many more to make, hold one to stop at. What stops steps stops
/// every longer row of them, so that the first such step can be searched for by halves.
fn is_stopped(record: Watch, after: &Course, made: Counts, stops: &Stops, left: u64) -> bool {
    met(record, after, made, stops).is_some() || is_still(after, left)
}

/// Whether a step retires and changes time alone; then no further step changes anything else either, unless
/// the timer interrupts among those that are left. Where the machine makes no further step it is not known to be so.
pub fn is_still(course: &Course, left: u64) -> bool {
    let mut next = course.clone();
    let retires = next.run(1).is_ok_and(|made| made.retired == 1);
    let (now, next) = (course.state(), next.into_state());
    retires && is_same_but_for_time(next, now) && !probe::interrupts_within(now, left)
}

/// The most steps of a loop that is looked for.
const LONGEST_LOOP: u64 = 64;

/// How many steps lead back to the same state but for time, if one of them traps and none returns from a handler: they come again
/// for ever, and nothing handles the trap. A return changes mstatus, and so does a trap after one.
pub fn stuck(course: &Course) -> Option<u64> {
    let (start, mut next, mut traps) = (course.state(), course.clone(), false);
    for steps in 1..=LONGEST_LOOP {
        traps |= next.run(1).ok()?.trapped == 1;
        let now = next.state();
        if now.register(MSTATUS) != start.register(MSTATUS) {
            return None;
        }
        let same = start.regs[..TIME] == now.regs[..TIME];
        if same && is_same_but_for_time(now.clone(), start) {
            return traps.then_some(steps);
        }
    }
    None
}

fn is_same_but_for_time(mut next: State, now: &State) -> bool {
    next.set_long(TIME, now.long(TIME));
    next == *now
}

/// Makes the steps up to the first one to stop at, which is among them. Where the last of them meets nothing, nothing
/// changes any more after it.
fn first_stop(course: &mut Course, pace: Pace, stops: &Stops) -> (Counts, Halt) {
    let (mut done, mut steps) = (Counts::default(), pace.steps);
    loop {
        let half = (steps / 2).max(1);
        let mut after = course.clone();
        let made = match after.run(half) {
            Err(refusal) => return (done, Halt::Refused(refusal)),
            Ok(made) => made,
        };
        let (record, left) = (course.record(), pace.left - done.steps() - half);
        match met(record, &after, made, stops) {
            Some(halt) if steps == 1 => return (done, halt),
            _ if steps > 1 && is_stopped(record, &after, made, stops, left) => steps = half,
            _ => {
                *course = after;
                done += made;
                steps -= half;
            }
        }
        if steps == 0 {
            return (done, Halt::Still);
        }
    }
}
