//! The machine under a debugger: its state, its start, what it is to stop at, and how far it has come.

use super::registers::{self, Part};
use super::stop::{Signal, Stop};
use crate::course::Course;
use crate::halt::{by_calls, by_steps, Halt, Pace, Stops};
use crate::image;
use crate::names::Names;
use crate::proved::{Counts, MOST_STEPS};
use crate::report;
use crate::stack::Stack;
use crate::trap::Trap;
use lent::{Range, State, Watch, MCAUSE, PCC};
use std::collections::BTreeSet;

/// The most steps one by one before the client is listened to again.
const STRIDE: u64 = 1 << 14;
/// The most breakpoints.
const MOST_BREAKS: usize = 1024;
/// The steps that are still to come, for the question whether a timer ends a jump to itself: more than are ever made.
const AHEAD: u64 = 1 << 62;

/// Why memory was not written.
#[derive(Clone, PartialEq, Eq, Debug)]
pub enum Unwritten {
    NotThere,
    Refused(String),
}

/// How the machine goes on.
#[derive(Clone, Copy, PartialEq, Eq, Debug)]
pub enum Go {
    On,
    /// One step.
    Step,
    /// Steps while PCC is in these addresses, [from, to).
    Inside(u32, u32),
}

pub struct Target {
    course: Course,
    start: State,
    pub names: Names,
    pub stack: Option<Stack>,
    pub counts: Counts,
    stops: Stops,
    watched: Vec<Range>,
    /// The signals of traps that are not told.
    pub passed: BTreeSet<Signal>,
    pub stop: Stop,
    /// Whether the client has written the state since the start.
    pub written: bool,
    /// The steps of the next call, and whether no step was made since the last stop.
    call: u64,
    begins: bool,
}

impl Target {
    pub fn new(state: State, names: Names, stack: Option<Stack>) -> Target {
        let stops = Stops {
            breaks: BTreeSet::new(),
            traps: true,
            stores: true,
        };
        Target {
            start: state.clone(),
            course: Course::new(state, Watch::default()),
            names,
            stack,
            counts: Counts::default(),
            stops,
            watched: Vec::new(),
            passed: BTreeSet::new(),
            stop: Stop::Step,
            written: false,
            call: 1,
            begins: true,
        }
    }

    pub fn state(&self) -> &State {
        self.course.state()
    }

    /// Puts the machine back to its start.
    pub fn reset(&mut self) {
        self.course = Course::new(self.start.clone(), self.course.record());
        self.counts = Counts::default();
        self.written = false;
        self.stop = Stop::Step;
    }

    /// Forgets what a client has set, with a stop that was for it, and keeps the machine.
    pub fn leave(&mut self) {
        if matches!(self.stop, Stop::Break | Stop::Watch(_)) {
            self.stop = Stop::Step;
        }
        self.stops.breaks.clear();
        self.watched.clear();
        self.watch();
        self.passed.clear();
    }

    pub fn at(&self) -> u32 {
        self.state().capability(PCC).address
    }

    /// Makes ready to go on from a stop.
    pub fn begin(&mut self) {
        (self.call, self.begins) = (1, true);
    }

    /// Goes on for a while: the stop, or none if there was none yet.
    pub fn go(&mut self, go: Go) -> Option<Stop> {
        // A trap or a store that was told is made now.
        let stop = match self.begins && self.told() {
            true => self.step(go),
            false => self.advance(go),
        };
        self.begins = false;
        // The last stop is over, also if the client is lost before the next one.
        self.stop = stop.clone().unwrap_or(Stop::Interrupted);
        stop
    }

    /// Makes one step, whatever it does.
    fn step(&mut self, go: Go) -> Option<Stop> {
        match self.course.run(1) {
            Err(refusal) => Some(Stop::Refused(refusal)),
            Ok(made) => {
                self.counts += made;
                self.stepped(go)
            }
        }
    }

    fn advance(&mut self, go: Go) -> Option<Stop> {
        let pace = self.pace(go);
        let (made, halt) = if go == Go::On && self.stops.breaks.is_empty() {
            by_calls(&mut self.course, pace, &self.stops)
        } else {
            by_steps(&mut self.course, pace, &self.stops, &mut |_, _| ())
        };
        self.counts += made;
        match halt {
            Halt::Steps => self.stepped(go),
            Halt::Break => Some(Stop::Break),
            Halt::Watch(start) => Some(Stop::Watch(start)),
            Halt::Still => Some(Stop::Still),
            Halt::Trap => self.trapped(go),
            Halt::Refused(refusal) => Some(Stop::Refused(refusal)),
        }
    }

    /// How many steps to make at once: one, or by calls that grow.
    fn pace(&mut self, go: Go) -> Pace {
        let steps = match go {
            Go::On if self.stops.breaks.is_empty() => self.call,
            Go::On => STRIDE,
            _ => 1,
        };
        self.call = (2 * self.call).min(MOST_STEPS);
        Pace {
            steps,
            left: AHEAD,
            begins: self.begins,
            // Whoever goes on stops at once at a breakpoint, a step is made over it.
            leaves: self.begins && go != Go::On,
        }
    }

    /// Whether the steps that were made end it.
    fn stepped(&self, go: Go) -> Option<Stop> {
        match go {
            Go::On => None,
            Go::Inside(from, to) if (from..to).contains(&self.at()) => None,
            _ => Some(Stop::Step),
        }
    }

    /// The next step traps: it is told, or made if it is one that is not told.
    fn trapped(&mut self, go: Go) -> Option<Stop> {
        let (trap, after) = self.next_trap()?;
        let signal = Signal::of_trap(after.register(MCAUSE));
        if !self.passed.contains(&signal) {
            return Some(Stop::Trap(signal, trap.cause));
        }
        self.call = 1;
        self.step(go)
    }

    /// The trap that the next step makes, with the state after it.
    fn next_trap(&self) -> Option<(Trap, State)> {
        let mut after = self.course.clone();
        after.run(1).ok()?;
        let after = after.into_state();
        Some((Trap::of_step(self.state(), &after), after))
    }

    /// The trap that the next step makes, or the last one that the state records, with the state after it.
    pub fn explained(&self) -> Option<(Trap, State)> {
        match self.stop {
            Stop::Trap(..) => self.next_trap(),
            _ => Some((Trap::recorded(self.state())?, self.state().clone())),
        }
    }

    /// Writes memory, all of it or nothing: the granules that are touched lose their tags.
    pub fn write(&mut self, address: u64, bytes: &[u8]) -> Result<(), Unwritten> {
        let address = u32::try_from(address).map_err(|_| Unwritten::NotThere)?;
        let there = self.state().offset(address, bytes.len());
        there.ok_or(Unwritten::NotThere)?;
        // What is left is a start, which the machine may refuse for its registers.
        if let Err(refusal) = self.course.may_start() {
            return Err(Unwritten::Refused(report::refused(refusal, self.state())));
        }
        image::put(self.change(), address, bytes);
        Ok(())
    }

    /// Writes registers, all of them or none, or says why not.
    pub fn write_registers(&mut self, values: &[(Part, &[u8])]) -> Result<(), String> {
        let mut written = self.state().clone();
        for (part, bytes) in values {
            registers::write(&mut written, *part, bytes)?;
        }
        *self.change() = written;
        Ok(())
    }

    /// Puts PCC at an address, as a client asks before it goes on.
    pub fn move_to(&mut self, address: u32) -> Result<(), String> {
        self.write_registers(&[(Part::Address(PCC), &address.to_le_bytes())])
    }

    /// Whether the client knows what the next step does.
    fn told(&self) -> bool {
        matches!(self.stop, Stop::Trap(..) | Stop::Watch(_))
    }

    /// The state, to be written: the next step may do something else then.
    fn change(&mut self) -> &mut State {
        self.written = true;
        if self.told() {
            self.stop = Stop::Step;
        }
        self.course.change()
    }

    #[cfg(test)]
    pub fn breaks(&self) -> &BTreeSet<u32> {
        &self.stops.breaks
    }

    /// Sets a breakpoint, or says why not.
    pub fn set_break(&mut self, address: u32) -> Result<(), &'static str> {
        if self.stops.breaks.len() >= MOST_BREAKS {
            return Err("too many breakpoints");
        }
        self.stops.breaks.insert(address);
        Ok(())
    }

    pub fn remove_break(&mut self, address: u32) {
        self.stops.breaks.remove(&address);
    }

    /// Watches a range, or says why not.
    pub fn set_watch(&mut self, range: Range) -> Result<(), &'static str> {
        if self.watched.contains(&range) {
            return Ok(());
        }
        if self.watched.len() >= Watch::default().len() {
            return Err("two ranges are watched already");
        }
        self.watched.push(range);
        self.watch();
        Ok(())
    }

    pub fn remove_watch(&mut self, range: Range) {
        self.watched.retain(|watched| *watched != range);
        self.watch();
    }

    /// Lends the ranges that are watched to the machine.
    fn watch(&mut self) {
        let mut record = Watch::default();
        for (lent, range) in record.iter_mut().zip(&self.watched) {
            *lent = *range;
        }
        self.course.watch(record);
    }
}
