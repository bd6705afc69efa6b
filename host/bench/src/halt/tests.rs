//! Steps one by one against calls, and both against what a step does by itself.

use super::*;
use crate::proved::UNSOUND;
use crate::samples::{counting, loading, storing};
use crate::samples::{EBREAK, JUMP_TO_ITSELF, LOADED, LOOP, NOP, START, STORED};
use lent::{Range, MCAUSE};

/// More steps than are made.
const LEFT: u64 = 1 << 40;

fn pace(steps: u64) -> Pace {
    Pace {
        steps,
        left: LEFT,
        begins: true,
        leaves: true,
    }
}

/// Stops at traps and at stores.
fn stops() -> Stops {
    Stops {
        breaks: BTreeSet::new(),
        traps: true,
        stores: true,
    }
}

fn range(start: u32, length: u32) -> Range {
    Range {
        start,
        length,
        count: 0,
    }
}

fn course(state: State) -> Course {
    Course::new(state, Watch::default())
}

fn counts(retired: u64) -> Counts {
    Counts {
        retired,
        trapped: 0,
    }
}

/// What both ways leave, which must be the same.
fn both(course: &mut Course, pace: Pace) -> (u64, Halt) {
    let mut other = course.clone();
    let (made, halt) = by_calls(&mut other, pace, &stops());
    let one_by_one = by_steps(course, pace, &stops(), &mut |_, _| ());
    assert_eq!((made, halt), one_by_one);
    assert_eq!(course.state(), other.state());
    assert_eq!(course.record(), other.record());
    assert_eq!(made.trapped, 0);
    (made.retired, halt)
}

#[test]
fn a_trap_is_not_made() {
    for rounds in [1, 2, 3, 10, 1_000] {
        let mut course = course(storing(rounds, EBREAK));
        let made = both(&mut course, pace(10_000));
        assert_eq!(made, (3 * u64::from(rounds), Halt::Trap));
        let state = course.state();
        assert_eq!(state.capability(PCC).address, START + 12);
        assert_eq!(state.register(MCAUSE), 0);
        assert_eq!(state.long(TIME), 3 * u64::from(rounds));
        course.run(1).unwrap();
        assert_eq!(course.state().register(MCAUSE), 3);
    }
}

#[test]
fn where_nothing_changes_any_more_is_found() {
    for rounds in [1, 2, 3, 10, 1_000] {
        let mut course = course(storing(rounds, JUMP_TO_ITSELF));
        let made = both(&mut course, pace(10_000));
        assert_eq!(made, (3 * u64::from(rounds), Halt::Still));
        // Whoever begins there makes one step, and whoever comes there none.
        assert_eq!(both(&mut course, pace(10_000)), (1, Halt::Still));
        let comes = Pace {
            begins: false,
            ..pace(10_000)
        };
        assert_eq!(both(&mut course, comes), (0, Halt::Still));
    }
}

#[test]
fn all_steps_are_made_where_nothing_stops_them() {
    for steps in [1, 2, 3, 7, 1_000] {
        let mut course = course(storing(u32::MAX, EBREAK));
        let mut other = course.clone();
        assert_eq!(both(&mut course, pace(steps)), (steps, Halt::Steps));
        other.run(steps).unwrap();
        assert_eq!(course.state(), other.state());
    }
}

#[test]
fn a_store_into_a_watched_range_is_not_made() {
    for (start, length, meets) in [
        (STORED, 4, true),
        (STORED, 1, true),
        (STORED + 3, 1, true),
        (STORED + 3, 100, true),
        (START, 0x31, true),
        (0, u32::MAX, true),
        (STORED + 4, 4, false),
        (START, 0x30, false),
        (STORED, 0, false),
    ] {
        let mut course = course(storing(5, EBREAK));
        course.watch([range(start, length), Range::default()]);
        let made = both(&mut course, pace(10_000));
        let wanted = match meets {
            true => (1, Halt::Watch(start)),
            false => (15, Halt::Trap),
        };
        assert_eq!(made, wanted, "{start:08x} {length}");
        if meets {
            assert_eq!(course.state().word(STORED), Some(0));
            course.run(1).unwrap();
            let made = both(&mut course, pace(10_000));
            assert_eq!(
                (made, course.state().word(STORED)),
                ((2, wanted.1), Some(1))
            );
        }
    }
}

#[test]
fn of_two_ranges_the_one_that_was_stored_to_is_told() {
    let mut course = course(storing(5, EBREAK));
    course.watch([range(START, 16), range(STORED, 8)]);
    assert_eq!(both(&mut course, pace(100)), (1, Halt::Watch(STORED)));
}

#[test]
fn a_store_that_traps_is_no_store() {
    let mut state = storing(5, EBREAK);
    let mut stored = state.capability(2);
    stored.tag = 0;
    state.set(2, stored);
    let mut course = course(state);
    course.watch([range(STORED, 4), Range::default()]);
    assert_eq!(both(&mut course, pace(100)), (1, Halt::Trap));
}

#[test]
fn a_breakpoint_stands_before_its_step() {
    let stops = Stops {
        breaks: BTreeSet::from([START, START + 8]),
        ..stops()
    };
    let mut course = course(storing(5, EBREAK));
    let mut seen = Vec::new();
    let mut go = |leaves: bool| {
        let pace = Pace {
            leaves,
            ..pace(100)
        };
        by_steps(&mut course, pace, &stops, &mut |at, word| {
            seen.push((at, word))
        })
    };
    assert_eq!(go(false), (counts(0), Halt::Break));
    assert_eq!(go(true), (counts(2), Halt::Break));
    assert_eq!(go(true), (counts(1), Halt::Break));
    let wanted = [0, 4, 8].map(|place| (START + place, LOOP[place as usize / 4]));
    assert_eq!(seen, wanted);
}

// A value that no start may hold is loaded by the second step.
#[test]
fn stops_are_met_after_such_a_load_too() {
    let unsound = |course: &Course| probe::unsound(course.state());
    for rounds in [1, 2, 10, 300] {
        for (last, halt) in [(EBREAK, Halt::Trap), (JUMP_TO_ITSELF, Halt::Still)] {
            let mut course = course(loading(&[NOP], storing(rounds, last)));
            let made = both(&mut course, pace(10_000));
            assert_eq!(made, (2 + 3 * u64::from(rounds), halt));
            assert_eq!(unsound(&course), [LOADED]);
        }
        let mut course = course(loading(&[], storing(rounds, EBREAK)));
        course.watch([range(STORED, 4), Range::default()]);
        assert_eq!(both(&mut course, pace(10_000)), (2, Halt::Watch(STORED)));
        assert_eq!(unsound(&course), [LOADED]);
        // Another range from there on: what was stored before is not met again.
        course.run(1).unwrap();
        course.watch([Range::default(), range(STORED, 1)]);
        let made = both(&mut course, pace(10_000));
        let wanted = match rounds {
            1 => (1, Halt::Trap),
            _ => (2, Halt::Watch(STORED)),
        };
        assert_eq!(made, wanted);
    }
}

#[test]
fn a_refusal_is_told_where_a_step_cannot_be_made_and_not_before() {
    let refused = Halt::Refused(UNSOUND);
    // A million steps after such a load.
    let mut long = course(loading(&[], counting(u32::MAX, EBREAK)));
    long.run(MOST_STEPS - 1).unwrap();
    assert_eq!(both(&mut long, pace(5)), (1, Halt::Steps));
    assert_eq!(both(&mut long, pace(5)), (0, refused));
    assert_eq!(long.state().long(TIME), MOST_STEPS);
    // A change by someone else: the value then stands in a start.
    let mut changed = course(loading(&[], counting(1_000, EBREAK)));
    assert_eq!(both(&mut changed, pace(5)), (5, Halt::Steps));
    changed.change();
    assert_eq!(both(&mut changed, pace(5)), (0, refused));
}
