//! Runs in calls against runs step by step.

mod looked;

use super::*;
use crate::probe;
use crate::proved::{self, UNSOUND};
use crate::samples::{coded, counting, loading, plan, storing, After};
use crate::samples::{COUNT, EBREAK, JUMP_TO_ITSELF, LOADED, LOOP, NOP, START, STORED};
use lent::{Capability, Range, COMPARE, EXECUTABLE_ROOT, MCAUSE, MTCC};
use lent::{MIE, MSTATUS, PCC, TIME, TIMER_INTERRUPT};

/// addi c4, c0, 0, which clears the register of the load.
const CLEAR: u32 = 0x0000_0213;

fn driven(state: &mut State, steps: u64, through_traps: bool) -> Outcome {
    run(state, plan(steps, through_traps)).unwrap()
}

/// A refusal after so many steps that retired.
fn refused_after(refusal: Refusal, retired: u64) -> Refused {
    let made = counts(retired, 0);
    Refused { refusal, made }
}

fn counts(retired: u64, trapped: u64) -> Counts {
    Counts { retired, trapped }
}

#[test]
fn a_run_stops_at_the_exact_step_that_traps() {
    for rounds in (1..70).chain([1_000, 499_999, 500_000, 700_001, 3_000_000]) {
        let mut state = counting(rounds, EBREAK);
        let outcome = driven(&mut state, u64::MAX, false);
        assert_eq!(outcome.counts, counts(2 * u64::from(rounds), 1));
        let End::Trap(before) = outcome.end else {
            panic!("no trap");
        };
        assert_eq!(before.capability(PCC).address, 0x2000_0008);
        assert_eq!((before.register(MCAUSE), state.register(MCAUSE)), (0, 3));
    }
}

#[test]
fn a_run_ends_where_the_program_stands_still() {
    for rounds in (1..70).chain([1_000, 600_000]) {
        let mut state = counting(rounds, JUMP_TO_ITSELF);
        let outcome = driven(&mut state, u64::MAX, false);
        assert_eq!(outcome.counts, counts(2 * u64::from(rounds), 0));
        assert_eq!(outcome.end, End::Still);
    }
}

#[test]
fn a_program_that_waits_for_the_timer_is_not_at_its_end() {
    // It stands still from its 20th step on.
    for compare in [0, 1, 19, 20, 21, 22, 100, 4_000, 1_200_000] {
        let mut state = counting(10, JUMP_TO_ITSELF);
        state.regs[MSTATUS] = MIE;
        state.set_long(COMPARE, compare);
        let outcome = driven(&mut state, 2_000_000, false);
        assert_eq!(outcome.counts, counts(compare, 1), "{compare}");
        assert!(matches!(outcome.end, End::Trap(_)), "{compare}");
        assert_eq!(state.register(MCAUSE), TIMER_INTERRUPT);
        assert_eq!(state.long(TIME), compare + 1);
    }
}

#[test]
fn a_timer_that_no_step_reaches_does_not_keep_a_program_running() {
    for (mie, time, compare, steps, end) in [
        (MIE, 0, u64::MAX, 1_000_000, End::Still),
        (MIE, 0, 5_000, 5_000, End::Waits(4_980)),
        (MIE, 0, 1 << 40, 5_000, End::Waits((1 << 40) - 20)),
        (MIE, u64::MAX - 5_000, u64::MAX, 5_000, End::Still),
        (!MIE, 0, 0, u64::MAX, End::Still),
        (!MIE, u64::MAX - 3, u64::MAX, 5_000, End::Still),
    ] {
        let mut state = counting(10, JUMP_TO_ITSELF);
        state.regs[MSTATUS] = mie;
        state.set_long(TIME, time);
        state.set_long(COMPARE, compare);
        let outcome = driven(&mut state, steps, false);
        assert_eq!(outcome.counts, counts(20, 0), "{compare} {steps}");
        assert_eq!(outcome.end, end);
        assert_eq!(state.long(TIME), time.wrapping_add(20));
    }
}

#[test]
fn a_run_makes_the_steps_asked_for_and_leaves_what_single_steps_leave() {
    for steps in [0, 1, 2, 3, 63, 64, 1_000] {
        let mut state = counting(1_000_000, EBREAK);
        let mut single = state.clone();
        let outcome = driven(&mut state, steps, false);
        assert_eq!(outcome.counts.retired, steps);
        assert_eq!(outcome.end, End::Steps);
        for _ in 0..steps {
            proved::run(&mut single, 1).unwrap();
        }
        assert_eq!(state, single);
    }
}

#[test]
fn a_run_through_traps_counts_them_all() {
    let mut state = counting(10, EBREAK);
    let outcome = driven(&mut state, 5_000, true);
    assert_eq!(outcome.counts, counts(20, 4_980));
    assert_eq!(outcome.end, End::Stuck(1));
}

// The handler is the last word, which a program without the trap comes to by itself.
#[test]
fn a_handler_that_jumps_to_itself_handles_nothing() {
    for (word, made, end) in [
        (EBREAK, counts(20, 1), End::Unhandled),
        (NOP, counts(21, 0), End::Still),
    ] {
        let mut state = coded(&[COUNT[0], COUNT[1], word, JUMP_TO_ITSELF]);
        state.regs[3 * 11] = 10;
        state.set(MTCC, Capability::tagged(START + 12, EXECUTABLE_ROOT));
        let outcome = driven(&mut state, 5_000, true);
        assert_eq!((outcome.end, outcome.counts), (end, made));
    }
}

#[test]
fn a_program_that_stands_still_where_its_end_is_not_has_not_ended() {
    for (exit, end) in [(8, End::Exit), (12, End::Astray)] {
        for steps in [20, 5_000] {
            let plan = Plan {
                exits: BTreeSet::from([START + exit]),
                ..plan(steps, false)
            };
            let outcome = run(&mut counting(10, JUMP_TO_ITSELF), plan).unwrap();
            assert_eq!((&outcome.end, outcome.counts), (&end, counts(20, 0)));
        }
    }
}

#[test]
fn the_watcher_sees_every_step() {
    let mut state = counting(100, EBREAK);
    let mut seen = 0;
    let mut watch = After(|made: Counts| {
        seen += made.steps();
        true
    });
    let mut plan = Plan::new(u64::MAX, &mut watch);
    plan.call = 1;
    run(&mut state, plan).unwrap();
    assert_eq!(seen, 201);
}

#[test]
fn a_run_that_is_no_longer_wanted_ends() {
    let mut state = counting(100, EBREAK);
    let mut seen = 0;
    let mut watch = After(|_: Counts| {
        seen += 1;
        seen < 5
    });
    let mut plan = Plan::new(u64::MAX, &mut watch);
    plan.call = 1;
    let outcome = run(&mut state, plan).unwrap();
    assert_eq!(outcome.counts, counts(5, 0));
}

/// A loop whose memory holds, tagged, a capability of its own that is revoked.
fn revoked(rounds: u32, last: u32) -> State {
    let mut state = counting(rounds, last);
    let value = Capability::tagged(0x2000_0020, 0x7E00_5020);
    state.write_capability(0x2000_0030, value);
    state.revoke(0x2000_0020);
    state
}

#[test]
fn memory_is_swept_after_every_so_many_steps() {
    for (every, steps, passes) in [
        (1, 10, 10),
        (3, 10, 3),
        (10, 10, 1),
        (11, 10, 0),
        (64, 1_000, 15),
        (1_000_000, 2_500_000, 2),
    ] {
        let mut state = revoked(3_000_000, EBREAK);
        let mut unswept = state.clone();
        let mut swept = plan(steps, false);
        swept.sweep = Some(every);
        let outcome = run(&mut state, swept).unwrap();
        assert_eq!(outcome.counts, counts(steps, 0));
        let tags = u64::from(passes > 0);
        assert_eq!(outcome.swept, Swept { passes, tags });
        driven(&mut unswept, steps, false);
        assert_eq!((state.mem, state.regs), (unswept.mem, unswept.regs));
        assert_eq!(state.tags == unswept.tags, passes == 0);
    }
}

#[test]
fn a_run_that_stops_is_swept_before_and_not_after() {
    for (last, trapped) in [(EBREAK, 1), (JUMP_TO_ITSELF, 0)] {
        let mut state = revoked(50, last);
        let mut swept = plan(u64::MAX, false);
        swept.sweep = Some(30);
        let outcome = run(&mut state, swept).unwrap();
        assert_eq!(outcome.counts, counts(100, trapped));
        assert_eq!(outcome.swept, Swept { passes: 3, tags: 1 });
        let mut state = revoked(50, last);
        let mut late = plan(u64::MAX, false);
        late.sweep = Some(200);
        let outcome = run(&mut state, late).unwrap();
        assert_eq!(outcome.swept, Swept::default());
    }
}

#[test]
fn memory_is_swept_while_a_program_waits_for_the_timer() {
    // It stands still from its 20th step on.
    for (compare, every, passes) in [(100, 30, 3), (100, 100, 1), (4_000, 64, 62), (15, 20, 0)] {
        let mut state = revoked(10, JUMP_TO_ITSELF);
        state.regs[MSTATUS] = MIE;
        state.set_long(COMPARE, compare);
        let mut waiting = plan(u64::MAX, false);
        waiting.sweep = Some(every);
        let outcome = run(&mut state, waiting).unwrap();
        assert_eq!(outcome.counts, counts(compare, 1), "{compare} {every}");
        let tags = u64::from(passes > 0);
        assert_eq!(outcome.swept, Swept { passes, tags });
        assert_eq!(state.register(MCAUSE), TIMER_INTERRUPT);
    }
}

#[test]
fn a_refused_start_changes_nothing() {
    let mut state = counting(100, EBREAK);
    state.regs[2] = 1;
    let before = state.clone();
    let refused = run(&mut state, plan(100, false));
    assert_eq!(refused, Err(refused_after(Refusal(4), 0)));
    assert_eq!(state, before);
}

#[test]
fn a_run_goes_on_with_what_no_start_may_hold() {
    for (rounds, last, trapped) in [
        (1, EBREAK, 1),
        (37, JUMP_TO_ITSELF, 0),
        (400_000, EBREAK, 1),
    ] {
        for call in [1, 7, MOST_STEPS] {
            if call < 10 && rounds > 100 {
                continue;
            }
            let mut state = loading(&[], counting(rounds, last));
            let mut together = state.clone();
            let mut asked = plan(u64::MAX, false);
            asked.call = call;
            let outcome = run(&mut state, asked).unwrap();
            let steps = 2 * u64::from(rounds) + 1;
            assert_eq!(outcome.counts, counts(steps, trapped));
            proved::run(&mut together, steps + trapped).unwrap();
            assert_eq!(state, together);
            assert_eq!(proved::run(&mut state, 1), Err(UNSOUND));
        }
    }
}

#[test]
fn such_a_run_ends_a_million_steps_on_or_at_a_sweep() {
    // The steps that can be made are made, and no refusal is told before another one is asked for.
    for (more, ended) in [
        (0, Ok(End::Steps)),
        (1, Err(refused_after(UNSOUND, MOST_STEPS))),
    ] {
        let mut state = loading(&[], counting(3_000_000, EBREAK));
        let outcome = run(&mut state, plan(MOST_STEPS + more, false));
        assert_eq!(outcome.map(|outcome| outcome.end), ended);
        assert_eq!(state.long(TIME), MOST_STEPS);
    }
    let mut state = loading(&[], counting(100, EBREAK));
    let mut swept = plan(u64::MAX, false);
    swept.sweep = Some(30);
    assert_eq!(run(&mut state, swept), Err(refused_after(UNSOUND, 30)));
    assert_eq!(
        (probe::unsound(&state), state.long(TIME)),
        (vec![LOADED], 30)
    );
}

// Each line of a trace would cost as many steps as were made since the load.
#[test]
fn steps_that_are_only_shown_are_not_made_again_without_end() {
    let (mut shown, mut calls, mut seen) = (0, 0, 0);
    let mut watch = After(|made: Counts| {
        (calls, seen) = (calls + 1, seen + made.steps());
        shown += u64::from(made.steps() == 1);
        true
    });
    let mut asked = Plan::new(300_000, &mut watch);
    asked.call = 1;
    let mut state = loading(&[], counting(3_000_000, EBREAK));
    let mut together = state.clone();
    assert_eq!(run(&mut state, asked).unwrap().counts, counts(300_000, 0));
    proved::run(&mut together, 300_000).unwrap();
    assert_eq!(state, together);
    assert_eq!(seen, 300_000);
    assert!(
        shown >= MOST_AGAIN && calls < MOST_AGAIN + 40,
        "{shown} of {calls}"
    );
}

// A word that writes over such a value: from there on each step is a start, and is shown.
#[test]
fn steps_are_shown_again_from_the_next_start_on() {
    let mut state = loading(&[], counting(20_000, CLEAR));
    let mut lines = Vec::new();
    let mut watch = After(|made: Counts| {
        lines.push(made.steps());
        true
    });
    let mut asked = Plan::new(100_000, &mut watch);
    (asked.call, asked.through_traps) = (1, true);
    state.regs[MSTATUS] = 0;
    run(&mut state, asked).unwrap();
    let gap = lines.iter().position(|steps| *steps > 1).expect("a gap");
    assert_eq!(gap as u64, MOST_AGAIN + 1);
    let after = lines.iter().rposition(|steps| *steps > 1).expect("a gap");
    assert!(lines.len() - after > 1_000, "{after} of {}", lines.len());
}

/// A record of the stored word and of its last byte, with these counts.
fn record(first: u32, second: u32) -> Watch {
    let range = |start, length, count| Range {
        start,
        length,
        count,
    };
    [range(STORED, 4, first), range(STORED + 3, u32::MAX, second)]
}

// What is made again from an earlier state is counted once.
#[test]
fn such_a_run_counts_each_store_once() {
    for (rounds, steps) in [(1, 6), (2, 8), (37, 114), (37, 60), (300_000, u64::MAX)] {
        for (last, call) in [(EBREAK, 1), (EBREAK, 7), (JUMP_TO_ITSELF, MOST_STEPS)] {
            let call = if rounds > 100 { MOST_STEPS } else { call };
            let mut state = loading(&LOOP[1..2], storing(rounds, last));
            let mut together = state.clone();
            let mut asked = plan(steps, false);
            (asked.call, asked.record) = (call, record(5, u32::MAX - 20));
            let mut expected = asked.record;
            let outcome = run(&mut state, asked).unwrap();
            let made = outcome.counts.steps();
            proved::run_watched(&mut together, made, &mut expected).unwrap();
            assert_eq!((outcome.record, &state), (expected, &together));
            let stores = 1 + (made.min(2 + 3 * u64::from(rounds)) - 1) / 3;
            assert_eq!(u64::from(outcome.record[0].count), 5 + stores);
            assert_eq!(proved::run(&mut state, 1), Err(UNSOUND));
        }
    }
}
