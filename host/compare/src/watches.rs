//! The watch record (document 02, 14): the machine's cases run with two ranges each, laid around the ends of the next store,
//! empty, past 2^32 or anywhere, and with counts near their last number. Compared are the answer, what is left, and the
//! record; and that a run without a record answers and leaves the same.

use crate::cases;
use crate::machines::shown;
use crate::random::Random;
use crate::rows::Table;
use crate::state::{as_second, Case};
use crate::Mismatch;
use lent::{Answer, Range, Run, RunWatched, State, Watch, PCC};
use second::decode::{instruction, Instruction, StoreWidth};

/// The sizes of stores.
const SIZES: [u32; 4] = [1, 2, 4, 8];

/// How a range lies by a store that retires.
const PLACES: [&str; 10] = [
    "ends where it starts",
    "ends at its first byte",
    "starts at its last byte",
    "starts after it",
    "is its bytes",
    "is around it",
    "is a part of it",
    "is empty, inside it",
    "has its end past 2^32, and is touched",
    "has its end past 2^32, modulo 2^32 after its first byte, and is not touched",
];
/// No range is a part of one byte.
const PART: usize = 6;

/// The numbers of refused runs.
const REFUSALS: [u64; 7] = [1, 2, 3, 4, 5, 7, 8];

/// What was compared, by the second program: each place by each size, in each of the two ranges; which ranges a store
/// touches; counts that rise to their last number, and that stand there and would rise; stores that trapped in a range;
/// refused runs with counts, by their numbers; runs that raise a count more than once.
#[derive(Default, Debug)]
pub struct Totals {
    pub places: [[[u64; PLACES.len()]; SIZES.len()]; 2],
    pub touched: [u64; 4],
    pub to_last: u64,
    pub at_last: u64,
    pub trapped: u64,
    pub refused: [u64; REFUSALS.len()],
    pub often: u64,
}

impl Totals {
    /// Whether everything that is counted came up.
    pub fn complete(&self) -> bool {
        let one = [self.to_last, self.at_last, self.trapped, self.often];
        let cells = self.places.iter().flatten().zip(SIZES.iter().cycle());
        let reached = cells.flat_map(|(places, &size)| {
            let possible = move |place: &usize| size > 1 || *place != PART;
            (0..PLACES.len())
                .filter(possible)
                .map(|place| places[place])
        });
        let all = reached.chain(self.touched).chain(one);
        all.chain(self.refused).all(|count| count > 0)
    }
}

/// The address and the size of the store that the next word is, if it is one.
pub fn next_store(state: &State) -> Option<(u32, u32)> {
    let word = state.instruction(state.capability(PCC).address)?;
    let (cs1, offset, size) = match instruction(word)? {
        Instruction::Store {
            width, cs1, offset, ..
        } => match width {
            StoreWidth::Byte => (cs1, offset, 1),
            StoreWidth::Half => (cs1, offset, 2),
            StoreWidth::Word => (cs1, offset, 4),
        },
        Instruction::Csc { cs1, offset, .. } => (cs1, offset, 8),
        _ => return None,
    };
    let authority = as_second(state.capability(cs1.number() as usize));
    Some((authority.address.wrapping_add(offset), size))
}

/// A range by a store, or anywhere in the state's memory or out of it.
pub fn range(random: &mut Random, state: &State, store: Option<(u32, u32)>) -> Range {
    let any = random.word();
    let count = random.pick([0, 0, 1, u32::MAX - 1, u32::MAX, any]);
    let inside = state
        .start
        .wrapping_add(random.below(state.mem.len() as u32));
    let (address, size) = store.unwrap_or((inside, 4));
    let some = random.pick([1, 2, 8, 300]);
    let after = address.wrapping_add(size);
    let (start, length) = match random.below(14) {
        0 => (address.wrapping_sub(some), some),
        1 => (address.wrapping_sub(some), some + 1),
        2 => (after.wrapping_sub(1), some),
        3 => (after, some),
        4 => (address, size),
        5 => (address.wrapping_sub(some), size + some + some),
        6 => (address.wrapping_add(size / 2), 1),
        7 => (address.wrapping_add(random.below(size)), 0),
        8 => (address.wrapping_sub(some), u32::MAX),
        9 => (after, u32::MAX - random.below(size)),
        10 => (address.wrapping_add(random.below(size)), u32::MAX),
        11 => (0, random.pick([u32::MAX, address, after])),
        12 => (state.start, state.mem.len() as u32),
        _ => (random.number(), random.number()),
    };
    Range {
        start,
        length,
        count,
    }
}

/// Which places a range has by a store.
fn places(range: Range, address: u32, size: u32) -> [bool; PLACES.len()] {
    let (first, after) = (u64::from(address), u64::from(address) + u64::from(size));
    let (start, end) = (u64::from(range.start), range.end());
    let full = range.length > 0;
    let past = end > 1 << 32;
    [
        full && end == first,
        full && end == first + 1 && start < first,
        full && start == after - 1 && end > after,
        full && start == after,
        start == first && end == after,
        start < first && after < end,
        full && first <= start && end <= after && end - start < after - first,
        !full && first <= start && start < after,
        past && start <= first,
        past && start >= after && end - (1 << 32) > first,
    ]
}

/// Whether a store has a byte in a range.
pub fn is_touched(range: Range, address: u32, size: u32) -> bool {
    let (start, end) = (u64::from(range.start), range.end());
    (0..u64::from(size)).any(|byte| (start..end).contains(&(u64::from(address) + byte)))
}

/// Counts a case by the second program's answer and record.
fn count(totals: &mut Totals, before: &State, lent: Watch, left: Watch, answer: u64) {
    let Answer {
        number,
        retired,
        trapped,
    } = Answer::of(answer);
    let rises = [0, 1].map(|range| left[range].count.wrapping_sub(lent[range].count));
    totals.often += u64::from(rises.iter().any(|&rise| rise > 1));
    let stands = lent.iter().any(|range| range.count > 0);
    for (count, refusal) in totals.refused.iter_mut().zip(REFUSALS) {
        *count += u64::from(number == refusal && stands);
    }
    let Some((address, size)) = next_store(before).filter(|_| number == 0) else {
        return;
    };
    if retired + trapped != 1 {
        return;
    }
    let touched = lent.map(|range| is_touched(range, address, size));
    if trapped == 1 {
        totals.trapped += u64::from(touched.contains(&true) && !before.interrupted());
        return;
    }
    totals.touched[usize::from(touched[0]) + 2 * usize::from(touched[1])] += 1;
    let sizes = SIZES.iter().position(|&one| one == size);
    for (index, range) in lent.into_iter().enumerate() {
        let cells = &mut totals.places[index][sizes.unwrap_or(0)];
        for (count, place) in cells.iter_mut().zip(places(range, address, size)) {
            *count += u64::from(place);
        }
        totals.to_last += u64::from(touched[index] && range.count == u32::MAX - 1);
        totals.at_last += u64::from(touched[index] && range.count == u32::MAX);
    }
}

/// Makes a case of two machines, with and without the record, and compares all that they answer and leave.
fn one(
    ours: (RunWatched, Run),
    case: &Case,
    lent: Watch,
    totals: &mut Totals,
) -> Result<(), String> {
    let steps = case.call.steps();
    let (mut mine, mut theirs, mut bare) =
        (case.state.clone(), case.state.clone(), case.state.clone());
    let (mut my_watch, mut their_watch) = (lent, lent);
    let my_answer = mine.run_watched(ours.0, steps, &mut my_watch);
    let their_answer = theirs.run_watched(second::run_watched, steps, &mut their_watch);
    let bare_answer = bare.run(ours.1, steps);
    count(totals, &case.state, lent, their_watch, their_answer);
    if my_answer != their_answer || my_watch != their_watch || mine != theirs {
        return Err(format!(
            "{steps} steps, {lent:x?}\n  ours   {} {my_watch:x?}\n  second {} {their_watch:x?}, buffers alike {}",
            shown(my_answer),
            shown(their_answer),
            mine == theirs
        ));
    }
    if bare_answer != my_answer || bare != mine {
        return Err(format!(
            "{steps} steps: without a record {}",
            shown(bare_answer)
        ));
    }
    Ok(())
}

/// Compares a program's runs with a record, and without, with the second program's on the cases of a seed.
pub fn compare(
    ours: (RunWatched, Run),
    table: &Table,
    seed: u64,
    cases: u64,
) -> Result<Totals, Mismatch> {
    let mut totals = Totals::default();
    let mut case = Case::default();
    for number in 1..=cases {
        cases::make(table, seed, number, &mut case);
        let random = &mut Random::new(seed ^ 0x57A7, number);
        let store = next_store(&case.state);
        let lent = [0, 1].map(|_| range(random, &case.state, store));
        one(ours, &case, lent, &mut totals).map_err(|text| Mismatch { case: number, text })?;
    }
    Ok(totals)
}

#[cfg(test)]
mod tests {
    use super::*;
    use crate::instructions::table;

    #[test]
    fn the_second_program_agrees_with_itself_and_everything_comes_up() {
        let ours = (second::run_watched as RunWatched, second::run as Run);
        let totals = compare(ours, &table(), 1, 120_000).unwrap();
        assert!(totals.complete(), "{totals:?}");
    }

    #[test]
    fn a_count_too_many_and_a_changed_range_are_found() {
        let twice: RunWatched = |regs, board, mem, tags, revoked, steps, watch| {
            let before = *watch;
            let answer = second::run_watched(regs, board, mem, tags, revoked, steps, watch);
            for (range, old) in watch.iter_mut().zip(before) {
                let rise = range.count.wrapping_sub(old.count);
                range.count = range.count.saturating_add(rise);
            }
            answer
        };
        let moved: RunWatched = |regs, board, mem, tags, revoked, steps, watch| {
            let answer = second::run_watched(regs, board, mem, tags, revoked, steps, watch);
            watch[1].start = watch[0].start;
            answer
        };
        for wrong in [twice, moved] {
            assert!(compare((wrong, second::run), &table(), 1, 5_000).is_err());
        }
    }
}
