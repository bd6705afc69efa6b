//! Calls against one run, and counts of stores against what single steps and their words say.

use super::*;
use crate::probe::{self, access};
use crate::proved::word_at;
use crate::request::Request;
use crate::samples::{counting, loading, storing, COUNT, EBREAK, LOADED, LOOP, START, STORED};
use crate::sequence::Sequence;
use lent::{Capability, Range, MEMORY_ROOT, MTCC, PCC};

/// Code of loads, stores of every size, additions and jumps, with registers that point into memory or just past it.
fn program(words: &mut Sequence) -> State {
    let mut state = State::reset(START, vec![0; 256], START);
    for place in 0..24 {
        let (pick, offset) = (words.word(), words.word() & 0x1F);
        let (by, from) = (8 + words.word() % 4, 12 + words.word() % 4);
        let word = match pick % 6 {
            // csb, csh, csw, csc
            0..=2 => from << 20 | by << 15 | (pick >> 8 & 3) << 12 | (offset & !7) << 7 | 0x23,
            // c.sw by c8 to c11, at 0 to 60; c.nop
            3 => 0x0001_C000 | words.word() & 0x1DDC,
            // addi
            4 => (pick >> 8 & 0xF) << 20 | from << 15 | from << 7 | 0x13,
            _ => 0x0000_0013,
        };
        state.write(START + 4 * place, &word.to_le_bytes());
    }
    // cjal 0 -96
    state.write(START + 96, &0xFA1F_F06Fu32.to_le_bytes());
    let mut handler = state.capability(MTCC);
    handler.address = START;
    state.set(MTCC, handler);
    for place in 8..12 {
        let address = START + 0x80 + (words.word() % 12) * 8;
        state.set(place, Capability::tagged(address, MEMORY_ROOT));
    }
    state
}

/// The address and the bytes of the store that a state is at.
fn store(state: &State) -> Option<(u64, u64)> {
    let word = word_at(state, state.capability(PCC).address)?;
    let Request::Store { by, size } = Request::of(word) else {
        return None;
    };
    let address = access::address(word, state.capability(by).address)?;
    Some((address.into(), size.into()))
}

/// The same steps one by one, each store held against the ranges by its bytes.
fn one_by_one(state: &mut State, steps: u64, mut watched: Watch) -> (Counts, Watch) {
    let mut counts = Counts::default();
    for _ in 0..steps {
        let store = store(state);
        let made = proved::run(state, 1).unwrap();
        counts += made;
        let Some((address, size)) = store.filter(|_| made.retired == 1) else {
            continue;
        };
        for range in &mut watched {
            let held = u64::from(range.start)..range.end();
            range.count += u32::from((address..address + size).any(|byte| held.contains(&byte)));
        }
    }
    (counts, watched)
}

#[test]
fn stores_are_counted_as_their_words_say() {
    let mut words = Sequence(11);
    let mut counted = 0;
    for _ in 0..600 {
        let mut state = program(&mut words);
        let watched = [0, 1].map(|_| Range {
            start: START + 0x70 + words.word() % 0x98,
            length: words.word() % 20,
            count: 0,
        });
        let steps = u64::from(words.word() % 200);
        let mut course = Course::new(state.clone(), watched);
        let made = course.run(steps).unwrap();
        let expected = one_by_one(&mut state, steps, watched);
        assert_eq!((made, course.record()), expected);
        assert_eq!(*course.state(), state);
        counted += course.record().map(|range| range.count).iter().sum::<u32>();
    }
    assert!(counted > 1_000, "{counted}");
}

/// A record of the word that is stored.
fn record() -> Watch {
    let range = Range {
        start: STORED,
        length: 4,
        count: 0,
    };
    [range, Range::default()]
}

// Such a load is the second step.
#[test]
fn calls_of_any_length_are_one_run() {
    let start = loading(&LOOP[1..2], storing(u32::MAX, EBREAK));
    for call in [1, 2, 3, 10, NEAR - 1, NEAR, 70_000] {
        let mut course = Course::new(start.clone(), record());
        let (mut whole, mut counted) = (start.clone(), record());
        for calls in 1..=3 {
            assert_eq!(course.run(call).unwrap().retired, call);
            (whole, counted) = (start.clone(), record());
            proved::run_watched(&mut whole, calls * call, &mut counted).unwrap();
            assert_eq!(
                (course.state(), course.record()),
                (&whole, counted),
                "{call}"
            );
        }
        course.step_back().unwrap();
        let mut before = start.clone();
        proved::run(&mut before, 3 * call - 1).unwrap();
        assert_eq!(*course.state(), before, "{call}");
        course.run(1).unwrap();
        assert_eq!(
            (course.state(), course.record()),
            (&whole, counted),
            "{call}"
        );
    }
}

// Ten thousand single steps, each of them a start, lead to the load.
#[test]
fn a_million_steps_are_made_from_the_last_state_that_a_call_started_from() {
    let start = loading(&COUNT, counting(5_000, EBREAK));
    let mut course = Course::new(start, Watch::default());
    for _ in 0..10_001 {
        course.run(1).unwrap();
        assert_eq!(course.effort(), 1);
    }
    assert_eq!(probe::unsound(course.state()), [LOADED]);
    course.run(1).unwrap();
    assert_eq!((course.effort(), course.room()), (2, MOST_STEPS - 3));
    course.run(MOST_STEPS - 2).unwrap();
    let before = course.state().clone();
    assert_eq!(course.run(1), Err(UNSOUND));
    assert_eq!(*course.state(), before);
}

#[test]
fn ranges_that_are_watched_later_count_what_comes() {
    for before in [3, 5, 20] {
        let mut course = Course::new(loading(&[], storing(u32::MAX, EBREAK)), Watch::default());
        course.run(before).unwrap();
        course.watch(record());
        let counted = course.record()[0].count;
        course.run(3).unwrap();
        assert_eq!(course.record()[0].count, counted + 1);
    }
}
