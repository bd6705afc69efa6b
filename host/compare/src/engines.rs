//! Engines that must be told apart by nothing but their speed (document 02, 14): the same runs with a watch record, compared
//! by answer, registers, memory, tags and record. The programs are those of `stretches`, and those of the machine's
//! comparison run for longer. The second program makes each step by step first, so that runs can end one step before, at
//! and one step after each kind of event.

use crate::machines::shown;
use crate::programs;
use crate::random::Random;
use crate::refusals;
use crate::rows::Table;
use crate::state::Case;
use crate::stretches;
use crate::survey::{self, Event, Survey, EVENTS};
use crate::watches;
use crate::Mismatch;
use lent::{Answer, RunWatched, State, Watch};

/// Runs of fewer steps than this are not kept by the proved engine.
pub const LONG: u32 = 256;
/// The most steps of most runs, and of a few.
const MOST: u32 = 1000;
const MANY: u32 = 20_000;

/// What was compared, by the second program: runs of fewer than 256 steps, of more, and of more than 1,000; those that end one
/// step before, at and one after each kind of event; refused ones; counts that reach their last number; and what the steps
/// did.
#[derive(Default, Debug)]
pub struct Totals {
    pub runs: [u64; 3],
    pub ends: [[u64; 3]; EVENTS],
    pub refused: u64,
    pub to_last: u64,
    pub reached: survey::Reached,
}

impl Totals {
    /// Whether everything that is counted came up.
    pub fn complete(&self) -> bool {
        let ends = self.ends.iter().flatten();
        let all = self
            .runs
            .iter()
            .chain(ends)
            .chain([&self.refused, &self.to_last]);
        all.copied().all(|count| count > 0) && self.reached.complete()
    }
}

/// A start and its watch record.
struct Start<'a> {
    state: &'a State,
    lent: Watch,
}

impl Start<'_> {
    /// Makes a run by each engine and by the second program, and compares all that they answer and leave.
    fn compare(&self, ours: &[RunWatched], steps: u32, totals: &mut Totals) -> Result<(), String> {
        let (mut theirs, mut their_watch) = (self.state.clone(), self.lent);
        let their_answer = theirs.run_watched(second::run_watched, steps, &mut their_watch);
        for (number, engine) in ours.iter().enumerate() {
            let (mut mine, mut my_watch) = (self.state.clone(), self.lent);
            let my_answer = mine.run_watched(*engine, steps, &mut my_watch);
            if my_answer != their_answer || my_watch != their_watch || mine != theirs {
                return Err(format!(
                    "engine {number}, {steps} steps, {:x?}\n  ours   {} {my_watch:x?}\n  second {} {their_watch:x?}, buffers alike {}",
                    self.lent,
                    shown(my_answer),
                    shown(their_answer),
                    mine == theirs
                ));
            }
        }
        self.count(steps, their_answer, their_watch, totals);
        Ok(())
    }

    fn count(&self, steps: u32, answer: u64, left: Watch, totals: &mut Totals) {
        if Answer::of(answer).number != 0 {
            totals.refused += 1;
            return;
        }
        totals.runs[usize::from(steps >= LONG) + usize::from(steps > MOST)] += 1;
        let rises = left.iter().zip(self.lent);
        let risen = rises.filter(|(range, lent)| range.count != lent.count);
        totals.to_last += risen.filter(|(range, _)| range.count == u32::MAX).count() as u64;
    }
}

/// A start: a program of stretches, or one of the machine's comparison; now and then one that is refused.
fn make(table: &Table, random: &mut Random, case: &mut Case) {
    if random.one_in(4) {
        case.state.edition = random.below(2);
        programs::make(table, random, case);
        refusals::settle(&mut case.state);
    } else {
        stretches::make(table, random, &mut case.state);
    }
    if random.one_in(32) {
        refusals::spoil(random, case);
    }
}

/// How many steps: mostly some hundreds, at times around the number from which on code is kept, or thousands.
fn steps(random: &mut Random) -> u32 {
    match random.below(32) {
        0 => random.below(MANY),
        1 => LONG - 2 + random.below(4),
        2 => random.below(LONG),
        _ => LONG + random.below(MOST - LONG),
    }
}

/// An event after the steps that are not kept, of any kind that there is; a kind that is seldom comes as often as another.
fn late(random: &mut Random, events: &[Event]) -> Option<Event> {
    let first = random.below(EVENTS as u32) as usize;
    let kinds = (first..first + EVENTS).map(|kind| kind % EVENTS);
    let of_kind = |kind| {
        let late = events.iter().filter(|event| event.step > LONG);
        late.filter(move |event| event.kind as usize == kind)
    };
    let kind = kinds.into_iter().find(|&kind| of_kind(kind).count() > 0)?;
    let number = random.below(of_kind(kind).count() as u32);
    of_kind(kind).nth(number as usize).copied()
}

/// The runs of a start: one of some steps, and three around an event that the survey has seen.
fn runs(
    ours: &[RunWatched],
    random: &mut Random,
    start: &Start,
    totals: &mut Totals,
) -> Result<(), String> {
    start.compare(ours, steps(random), totals)?;
    let Survey { events, reached } = survey::survey(start.state, start.lent, MOST);
    totals.reached.add(&reached);
    let Some(event) = late(random, &events) else {
        return Ok(());
    };
    for (place, steps) in (event.step - 1..=event.step + 1).enumerate() {
        start.compare(ours, steps, totals)?;
        totals.ends[event.kind as usize][place] += 1;
    }
    Ok(())
}

/// Compares engines with the second program on the programs of a seed.
pub fn compare(
    ours: &[RunWatched],
    table: &Table,
    seed: u64,
    cases: u64,
) -> Result<Totals, Mismatch> {
    let mut totals = Totals::default();
    let mut case = Case::default();
    for number in 1..=cases {
        let random = &mut Random::new(seed ^ 0xE261, number);
        make(table, random, &mut case);
        let store = watches::next_store(&case.state);
        let lent = [0, 1].map(|_| watches::range(random, &case.state, store));
        let state = &case.state;
        let start = Start { state, lent };
        runs(ours, random, &start, &mut totals).map_err(|text| Mismatch { case: number, text })?;
    }
    Ok(totals)
}

#[cfg(test)]
mod tests {
    use super::*;
    use crate::instructions::table;

    #[test]
    fn the_second_program_agrees_with_itself_and_everything_comes_up() {
        let totals = compare(&[second::run_watched], &table(), 1, 4_000).unwrap();
        assert!(totals.complete(), "{totals:?}");
    }

    #[test]
    fn a_step_too_many_in_long_runs_is_found() {
        let wrong: RunWatched = |regs, board, mem, tags, revoked, steps, watch| {
            let more = u32::from((LONG..MANY).contains(&steps));
            second::run_watched(regs, board, mem, tags, revoked, steps + more, watch)
        };
        let found = compare(&[second::run_watched, wrong], &table(), 1, 20).unwrap_err();
        assert!(found.text.starts_with("engine 1"), "{}", found.text);
    }
}
