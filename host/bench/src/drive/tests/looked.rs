//! Runs that are looked at, step by step, against the same runs by calls.

use super::*;
use crate::samples::START;
use lent::MTCC;

/// Memory's last word, which no program here comes to.
const NOWHERE: u32 = START + 0x7C;

/// The loop that stores, which is a trap's handler too.
fn handled(rounds: u32, last: u32) -> State {
    let mut state = storing(rounds, last);
    let mut handler = state.capability(MTCC);
    handler.address = START;
    state.set(MTCC, handler);
    state
}

/// What a run leaves both ways, which must be the same.
fn both(start: &State, ask: impl Fn(&mut Plan), steps: u64) -> (Outcome, State) {
    let (mut called, mut looked) = (start.clone(), start.clone());
    let mut asked = plan(steps, false);
    ask(&mut asked);
    let by_calls = run(&mut called, asked).unwrap();
    let mut asked = plan(steps, false);
    ask(&mut asked);
    asked.breaks.insert(NOWHERE);
    let by_steps = run(&mut looked, asked).unwrap();
    assert_eq!(by_steps, by_calls, "{steps}");
    assert_eq!(looked, called, "{steps}");
    (by_calls, called)
}

#[test]
fn a_run_that_is_looked_at_is_a_run() {
    for last in [EBREAK, JUMP_TO_ITSELF] {
        for (rounds, steps, through_traps) in [
            (1, 1, false),
            (3, 5, false),
            (3, 9, false),
            (3, 10, true),
            (3, 100_000, false),
            (3, 1_000, true),
            (30_000, 100_000, false),
        ] {
            let ask = |plan: &mut Plan| {
                (plan.through_traps, plan.record) = (through_traps, record(0, 7));
            };
            both(&handled(rounds, last), ask, steps);
        }
    }
}

#[test]
fn it_meets_the_timer_as_a_run_does() {
    // Of 20,000 steps, from a time on to a compare.
    let cases = [0, 5, 9, 20, 12_000, 19_998, 19_999, 20_000, 20_001, 40_000];
    let cases = cases.map(|compare| (0, compare)).into_iter();
    for (time, compare) in cases.chain([(u64::MAX - 9, u64::MAX), (u64::MAX - 20_000, u64::MAX)]) {
        let mut state = handled(3, JUMP_TO_ITSELF);
        state.regs[MSTATUS] = MIE;
        state.set_long(TIME, time);
        state.set_long(COMPARE, compare);
        both(&state, |_| (), 20_000);
    }
}

#[test]
fn sweeps_come_after_as_many_steps() {
    for every in [1, 4, 10, 1_000] {
        let ask = |plan: &mut Plan| (plan.through_traps, plan.sweep) = (true, Some(every));
        both(&handled(20, EBREAK), ask, 100);
    }
}

#[test]
fn it_goes_on_with_what_no_start_may_hold() {
    for (rounds, last) in [(1, EBREAK), (30, JUMP_TO_ITSELF), (1_000, EBREAK)] {
        for steps in [1, 2, 3, 50, u64::MAX] {
            let start = loading(&LOOP[1..2], storing(rounds, last));
            let ask = |plan: &mut Plan| plan.record = record(0, u32::MAX - 20);
            let (outcome, mut state) = both(&start, ask, steps);
            let most = 2 + 3 * u64::from(rounds);
            assert_eq!(outcome.counts.retired, steps.min(most));
            let refused = proved::run(&mut state, 1) == Err(UNSOUND);
            assert_eq!(refused, steps > 1, "{steps}");
        }
    }
}

#[test]
fn it_ends_as_a_run_does_at_a_sweep() {
    let mut state = loading(&[], counting(100, EBREAK));
    let mut swept = plan(u64::MAX, false);
    swept.sweep = Some(30);
    swept.breaks.insert(NOWHERE);
    assert_eq!(run(&mut state, swept), Err(refused_after(UNSOUND, 30)));
    assert_eq!(
        (probe::unsound(&state), state.long(TIME)),
        (vec![LOADED], 30)
    );
}

#[test]
fn a_breakpoint_ends_it_before_its_step_but_for_the_first() {
    let mut state = storing(3, EBREAK);
    let mut cover = Cover::new(&state);
    for round in 1..=3 {
        let mut asked = plan(100, false);
        asked.breaks.insert(START);
        asked.cover = Some(&mut cover);
        let outcome = run(&mut state, asked).unwrap();
        assert_eq!((outcome.counts.retired, state.regs[3 * 10]), (3, round));
        assert_eq!(outcome.end == End::Break, round < 3);
        assert_eq!(outcome.counts.trapped, u64::from(round == 3));
    }
    assert_eq!(cover.outside(&[]), 12);
}

#[test]
fn a_breakpoint_and_the_cover_are_met_after_a_load_of_what_no_start_may_hold() {
    let mut state = loading(&[], counting(40, EBREAK));
    let mut cover = Cover::new(&state);
    let mut asked = plan(1_000, false);
    asked.breaks.insert(START + 12);
    asked.cover = Some(&mut cover);
    let outcome = run(&mut state, asked).unwrap();
    assert_eq!((outcome.end, outcome.counts), (End::Break, counts(81, 0)));
    assert_eq!(state.capability(PCC).address, START + 12);
    assert_eq!(probe::unsound(&state), [LOADED]);
    assert_eq!(cover.outside(&[]), 12);
}
