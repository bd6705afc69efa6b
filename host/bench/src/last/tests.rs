//! The last steps of runs by calls against the same runs step by step.

use super::*;
use crate::drive::{self, Plan};
use crate::proved::{self, UNSOUND};
use crate::samples::{counting, loading, EBREAK, NOP};

/// The last lines of a run by calls, and how many steps it made.
fn last_of(start: &State, wanted: u64, sweep: Option<u64>) -> (Vec<String>, u64) {
    let mut state = start.clone();
    let mut last = Last::new(start, wanted, sweep);
    let mut watch = Seen {
        last: &mut last,
        made: 0,
    };
    let plan = Plan {
        sweep,
        ..Plan::new(u64::MAX, &mut watch)
    };
    let steps = drive::run(&mut state, plan).unwrap().counts.steps();
    (last.lines(steps, wanted).unwrap(), steps)
}

/// A loop after some words, of which the last loads a value with low above high.
fn loading_last(words: u32, rounds: u32) -> State {
    let before = vec![NOP; words as usize - 1];
    loading(&before, counting(rounds, EBREAK))
}

/// The lines of a trace.
#[derive(Default)]
struct Traced {
    before: Option<Before>,
    lines: Vec<String>,
}

impl Watcher for Traced {
    fn before(&mut self, state: &State) {
        self.before = Some(Before::of(state));
    }

    fn after(&mut self, state: &State, made: Counts) -> bool {
        let before = self.before.take().expect("a state before");
        let number = self.lines.len() as u64 + 1;
        self.lines.push(trace::line(number, &before, state, made));
        true
    }
}

/// The trace of a run: its calls make one step each.
fn trace(start: &State) -> Vec<String> {
    let mut traced = Traced::default();
    let mut plan = Plan::new(u64::MAX, &mut traced);
    plan.call = 1;
    drive::run(&mut start.clone(), plan).unwrap();
    traced.lines
}

/// All lines of a run, step by step.
fn stepped(start: &State, steps: u64) -> Vec<String> {
    let mut state = start.clone();
    let step = |number| {
        let before = Before::of(&state);
        let counts = proved::run(&mut state, 1).unwrap();
        trace::line(number, &before, &state, counts)
    };
    (1..=steps).map(step).collect()
}

#[test]
fn the_last_steps_are_those_of_the_run() {
    for rounds in [1, 2, 3, 15, 16, 17, 100, 1_000] {
        let start = counting(rounds, EBREAK);
        for (wanted, sweep) in [
            (1, None),
            (3, None),
            (16, None),
            (16, Some(7)),
            (5_000, None),
        ] {
            let (lines, steps) = last_of(&start, wanted, sweep);
            assert_eq!(steps, 2 * u64::from(rounds) + 1);
            let all = stepped(&start, steps);
            let skipped = steps.saturating_sub(wanted) as usize;
            assert_eq!(lines, all[skipped..], "{rounds} rounds, {wanted} wanted");
        }
    }
}

#[test]
fn a_long_run_is_not_made_again_from_its_start() {
    let start = counting(2_000_000, EBREAK);
    let (lines, steps) = last_of(&start, 4, None);
    assert_eq!((lines.len(), steps), (4, 4_000_001));
    assert!(lines[3].contains("trap: breakpoint"), "{}", lines[3]);
}

#[test]
fn steps_after_a_load_of_what_no_start_may_hold_are_those_of_the_trace() {
    for words in [1, 2, 16, 17, 24, 25] {
        for rounds in [1, 2, 10, 100, 1_000] {
            let start = loading_last(words, rounds);
            let trace = trace(&start);
            assert_eq!(trace.len() as u32, words + 2 * rounds + 1);
            let mut state = start.clone();
            proved::run(&mut state, words.into()).unwrap();
            assert_eq!(proved::run(&mut state, 1), Err(UNSOUND));
            for wanted in [1, 3, 24, 5_000] {
                let (lines, steps) = last_of(&start, wanted, None);
                assert_eq!(steps, trace.len() as u64);
                let skipped = steps.saturating_sub(wanted) as usize;
                assert_eq!(lines, trace[skipped..], "{words} words, {rounds} rounds");
            }
        }
    }
}

/// Such a run goes on for up to a million steps from its last call's start, and has its last steps to the end.
#[test]
fn the_longest_such_run_has_its_last_steps() {
    // Calls begin after 7, 15 and 31 steps; the word that loads is the 17th.
    for rounds in [499_990, 499_998] {
        let (lines, steps) = last_of(&loading_last(17, rounds), 24, None);
        assert_eq!((lines.len(), steps), (24, u64::from(2 * rounds + 18)));
        assert!(lines[23].contains("trap: breakpoint"), "{}", lines[23]);
    }
}
