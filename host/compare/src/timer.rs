//! The timer in the cases (document 02, 6): times at their edges, compare near them or far off; and what of
//! this the comparison reached.

use crate::random::Random;
use lent::{State, COMPARE, MIE, MSTATUS, TIME};

/// A time: at most a few from 0, from a carry, from 2^63 or from the end, or any.
fn time(random: &mut Random) -> u64 {
    let centre = match random.below(8) {
        0 | 1 => 0,
        2 => 1 << 63,
        3 => 1 << 32,
        4 => u64::from(random.number()) << 32,
        5 => u64::from(random.number()),
        _ => return random.long(),
    };
    let away = random.pick([0, 1, 1, 2, 3, 20]);
    match random.below(4) {
        0 => centre.wrapping_add(away),
        _ => centre.wrapping_sub(away),
    }
}

/// Time and compare of any kind. Mostly compare is far off, so that most steps go on.
pub fn fill(random: &mut Random, state: &mut State) {
    let time = time(random);
    let compare = match random.below(16) {
        0 => time,
        1 => time.wrapping_add(1),
        2 => time.wrapping_sub(1),
        3 => time ^ 1 << random.below(64),
        4 => {
            let high = (time >> 32).wrapping_add(random.pick([1, !0]));
            high << 32 | u64::from(random.number())
        }
        5 => self::time(random),
        _ => later(random, time),
    };
    state.set_long(TIME, time);
    state.set_long(COMPARE, compare);
}

/// A number above a time, if there is one, mostly far above.
fn later(random: &mut Random, time: u64) -> u64 {
    let far = random.long() >> random.below(30);
    random.pick([u64::MAX, time.saturating_add(far)])
}

/// A timer that no run of the cases reaches.
pub fn far(random: &mut Random, state: &mut State) {
    state.set_long(TIME, time(random) >> 1);
    state.set_long(COMPARE, u64::MAX - u64::from(random.below(3)));
}

/// A compare that is reached within so many steps.
pub fn soon(random: &mut Random, steps: u32, state: &mut State) {
    let time = state.long(TIME);
    let steps = random.below(steps.saturating_add(1));
    state.set_long(COMPARE, time.saturating_add(steps.into()));
}

/// A time at which the second step is the first that can be interrupted.
pub fn one_before(random: &mut Random, state: &mut State) {
    let time = time(random).min(u64::MAX - 1);
    state.set_long(TIME, time);
    state.set_long(COMPARE, time + 1);
}

/// Time by compare.
const RELATIONS: [&str; 5] = [
    "below compare - 1",
    "compare - 1",
    "compare",
    "compare + 1",
    "above compare + 1",
];
/// Times after which a word, or both, go back to 0; and what the step does.
const CARRIES: [&str; 2] = ["with a low word of 2^32 - 1", "2^64 - 1"];
pub const DONE: [&str; 3] = ["retired", "trapped", "interrupted"];
/// With MIE set: what decides between time and compare.
const ORDERS: [&str; 6] = [
    "time's low word below compare's, its high word above",
    "time's low word above compare's, its high word below",
    "time from 2^63 on, compare before it",
    "time before 2^63, compare from there on",
    "equal high words, time's low word above compare's",
    "equal high words, time's low word below compare's",
];

/// What changes MIE in the step before compare is reached.
pub const TURNS: [&str; 7] = [
    "MIE set by a CSR write",
    "MIE cleared by a CSR write",
    "MIE set by a sentry",
    "MIE cleared by a sentry",
    "MIE set by MRET",
    "MIE cleared by MRET",
    "MIE cleared by a trap",
];

/// The counts of steps by their time.
#[derive(Default)]
pub struct Times {
    relations: [[u64; 2]; RELATIONS.len()],
    carries: [[u64; DONE.len()]; CARRIES.len()],
    orders: [u64; ORDERS.len()],
}

impl Times {
    /// Counts a step from a state; `done` is its place in `DONE`.
    pub fn count(&mut self, before: &State, done: usize) {
        let (time, compare) = (before.long(TIME), before.long(COMPARE));
        let enabled = before.register(MSTATUS) & MIE != 0;
        self.relations[relation(time, compare)][usize::from(enabled)] += 1;
        if time as u32 == u32::MAX {
            self.carries[usize::from(time == u64::MAX)][done] += 1;
        }
        if !enabled {
            return;
        }
        let low = (time as u32).cmp(&(compare as u32));
        let high = (time >> 32).cmp(&(compare >> 32));
        let top = (time >> 63).cmp(&(compare >> 63));
        let held = [
            low.is_lt() && high.is_gt(),
            low.is_gt() && high.is_lt(),
            top.is_gt(),
            top.is_lt(),
            high.is_eq() && low.is_gt(),
            high.is_eq() && low.is_lt(),
        ];
        for (count, held) in self.orders.iter_mut().zip(held) {
            *count += u64::from(held);
        }
    }

    /// Every cell with its name and count.
    pub fn cells(&self) -> Vec<(String, u64)> {
        let mut cells = Vec::new();
        for (relation, counts) in RELATIONS.iter().zip(self.relations) {
            for (enabled, count) in counts.into_iter().enumerate() {
                cells.push((format!("time {relation}, MIE {enabled}"), count));
            }
        }
        for (carry, counts) in CARRIES.iter().zip(self.carries) {
            for (done, count) in DONE.iter().zip(counts) {
                cells.push((format!("time {carry}, {done}"), count));
            }
        }
        for (order, count) in ORDERS.iter().zip(self.orders) {
            cells.push((format!("MIE and {order}"), count));
        }
        cells
    }
}

fn relation(time: u64, compare: u64) -> usize {
    let (time, compare) = (u128::from(time), u128::from(compare));
    match time {
        _ if time + 1 < compare => 0,
        _ if time + 1 == compare => 1,
        _ if time == compare => 2,
        _ if time == compare + 1 => 3,
        _ => 4,
    }
}

#[cfg(test)]
mod tests {
    use super::*;

    #[test]
    fn every_cell_is_reached_and_most_steps_are_not_interrupted() {
        let mut times = Times::default();
        let mut state = State::new(0, vec![0; 64]);
        let mut interrupted = 0;
        for number in 1..=20_000 {
            let random = &mut Random::new(1, number);
            state.regs[MSTATUS] = random.pick([0, MIE]);
            fill(random, &mut state);
            let done = match state.interrupted() {
                true => 2,
                false => random.below(2) as usize,
            };
            interrupted += u32::from(state.interrupted());
            times.count(&state, done);
        }
        let missed: Vec<_> = times
            .cells()
            .into_iter()
            .filter(|cell| cell.1 == 0)
            .collect();
        assert!(missed.is_empty(), "{missed:?}");
        assert!((1000..4000).contains(&interrupted), "{interrupted}");
    }

    #[test]
    fn a_far_timer_is_far_and_one_before_is_one_before() {
        let mut state = State::new(0, vec![0; 64]);
        for number in 1..=2000 {
            let random = &mut Random::new(2, number);
            far(random, &mut state);
            assert!(state.long(COMPARE) - state.long(TIME) > 1 << 62);
            one_before(random, &mut state);
            assert_eq!(state.long(TIME) + 1, state.long(COMPARE));
            soon(random, 9, &mut state);
            assert!(state.long(COMPARE) - state.long(TIME) < 10);
        }
    }
}
