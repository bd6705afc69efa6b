//! The search for a byte that is written though no capability with the right to store reaches it: long runs of machines
//! from sound starts, and after each of several budgets a look at every byte for which a search says none. Its granule's
//! tag is looked at too: it is never set where it was clear, and while nothing is swept it stays if all eight bytes of the
//! granule are shut.

use crate::derivations::Mix;
use crate::machines::Machine;
use crate::random::Random;
use crate::rows::Table;
use crate::starts;
use crate::state::{as_second, lend, Call};
use crate::Mismatch;
use lent::{Answer, Query, Reach, State, Sweep, GRANULE};
use second::capability::{bounds, is_sealed, move_address, set_bounds, SD};

/// What the runs were like: runs, steps of them, starts with a shut byte, shut bytes and others, those of the others that
/// changed, tags that were set and cleared elsewhere, passes of the sweeper.
#[derive(Default, Debug)]
pub struct Totals {
    pub runs: u64,
    pub steps: u64,
    pub starts: u64,
    pub shut: u64,
    pub open: u64,
    pub changed: u64,
    pub tags_changed: u64,
    pub sweeps: u64,
}

impl Totals {
    /// Whether there was something to find: many shut bytes, and many others that were written.
    pub fn complete(&self) -> bool {
        let half_shut = self.shut > self.open / 8 && self.open > self.shut / 64;
        half_shut
            && self.changed > self.runs
            && self.tags_changed > self.runs / 8
            && self.sweeps > 0
    }
}

/// The bytes of memory that no capability with the right to store reaches, by ranges that are halved.
fn shut(reach: Reach, state: &State) -> Vec<bool> {
    let mut shut = vec![false; state.mem.len()];
    let mut ranges = vec![(0, state.mem.len())];
    while let Some((from, to)) = ranges.pop() {
        let query = Query {
            low: state.start.wrapping_add(from as u32),
            length: (to - from) as u32,
            rights: SD,
        };
        let middle = from + (to - from) / 2;
        match state.reach(reach, query, 0) {
            0 => shut[from..to].fill(true),
            _ if to - from > 1 => ranges.extend([(from, middle), (middle, to)]),
            _ => {}
        }
    }
    shut
}

/// The first byte or tag of what was shut that is not as it was.
fn written(shut: &[bool], start: &State, now: &State, swept: bool) -> Option<String> {
    let same = |byte: &usize| now.mem[*byte] == start.mem[*byte];
    let mut bytes = (0..shut.len()).filter(|&byte| shut[byte]);
    if let Some(byte) = bytes.find(|byte| !same(byte)) {
        let (before, after) = (start.mem[byte], now.mem[byte]);
        return Some(format!("byte {byte} was {before:02x} and is {after:02x}"));
    }
    let granules = shut.chunks(GRANULE).enumerate();
    for (granule, shut) in granules.filter(|(_, shut)| shut.contains(&true)) {
        let tag = |state: &State| state.tags[granule / 8] >> (granule % 8) & 1;
        let (before, after) = (tag(start), tag(now));
        let stays = !swept && !shut.contains(&false);
        if after > before || (stays && after != before) {
            return Some(format!(
                "the tag of granule {granule} was {before} and is {after}"
            ));
        }
    }
    None
}

/// Ends what some registers hold inside a word or a granule, so that a store can lie across the end.
fn shorten(random: &mut Random, state: &mut State) {
    for place in 1..16 {
        let value = as_second(state.capability(place));
        let (low, high) = bounds(value.address, value.metadata);
        let length = high.saturating_sub(low.into()) as u32;
        let open = value.tag == 1 && !is_sealed(value.metadata);
        if !open || length <= 8 || random.one_in(2) {
            continue;
        }
        let shorter = set_bounds(move_address(value, low), length - 1 - random.below(7));
        let shorter = move_address(shorter, value.address);
        if shorter.tag == 1 {
            state.set(place, lend(shorter));
        }
    }
}

/// How many steps a run makes before each look.
fn budgets(random: &mut Random) -> [u32; 3] {
    let last = match random.below(512) {
        0 => 20_000,
        _ => random.below(2000),
    };
    [random.below(16), random.below(400), last]
}

/// Sweeps all of memory.
fn pass(sweep: Sweep, state: &mut State) {
    let granules = (state.mem.len() / GRANULE) as u32;
    for granule in 0..granules {
        state.sweep(sweep, granule);
    }
}

/// What makes runs: machines that are to leave the same, the search that says what is shut, and the sweeper.
#[derive(Clone, Copy)]
pub struct Bench<'a> {
    pub machines: &'a [Machine],
    pub reach: Reach,
    pub sweep: Sweep,
}

/// Runs each machine from the starts of a seed: the first byte that is written unasked.
pub fn search(bench: Bench, table: &Table, seed: u64, cases: u64) -> Result<Totals, Mismatch> {
    let mix = Mix::new(table);
    let mut totals = Totals::default();
    let mut start = State::default();
    for case in 1..=cases {
        let mut random = Random::new(seed, case);
        starts::make(&mix, &mut random, &mut start);
        shorten(&mut random, &mut start);
        follow(bench, &start, &mut random, &mut totals).map_err(|text| Mismatch { case, text })?;
    }
    Ok(totals)
}

/// Makes the runs of one start.
fn follow(
    bench: Bench,
    start: &State,
    random: &mut Random,
    totals: &mut Totals,
) -> Result<(), String> {
    let shut = shut(bench.reach, start);
    let bytes = shut.iter().filter(|shut| **shut).count() as u64;
    totals.starts += u64::from(bytes > 0);
    totals.shut += bytes;
    totals.open += shut.len() as u64 - bytes;
    let (budgets, swept) = (budgets(random), random.one_in(4));
    for (number, machine) in bench.machines.iter().enumerate() {
        let mut state = start.clone();
        for steps in budgets {
            let answer = Answer::of(machine(&mut state, Call::Run(steps)));
            totals.steps += answer.retired + answer.trapped;
            if swept {
                pass(bench.sweep, &mut state);
                totals.sweeps += 1;
            }
            if let Some(text) = written(&shut, start, &state, swept) {
                return Err(format!("machine {number}, {budgets:?} steps: {text}"));
            }
        }
        totals.runs += 1;
        let bytes = start.mem.iter().zip(&state.mem);
        totals.changed += bytes.filter(|(before, after)| before != after).count() as u64;
        let tags = start.tags.iter().zip(&state.tags);
        totals.tags_changed += tags.filter(|(before, after)| before != after).count() as u64;
    }
    Ok(())
}

#[cfg(test)]
mod tests {
    use super::*;
    use crate::instructions::table;
    use crate::machines::second;

    const SECOND: Bench = Bench {
        machines: &[second],
        reach: second::reach,
        sweep: second::sweep,
    };

    #[test]
    fn the_second_program_writes_nothing_unasked_and_much_besides() {
        let totals = search(SECOND, &table(), 1, 1000).unwrap();
        assert!(totals.complete(), "{totals:?}");
    }

    #[test]
    fn a_byte_a_tag_and_a_search_that_finds_nothing_are_found() {
        let byte: Machine = |state, call| {
            let answer = second(state, call);
            let last = state.mem.len() - 1;
            state.mem[last] ^= 1;
            answer
        };
        let tag: Machine = |state, call| {
            let answer = second(state, call);
            let last = state.tags.len() - 1;
            state.tags[last] ^= 0x80;
            answer
        };
        let none: Reach = |_, _, _, _, _, _| 0;
        let benches = [
            Bench {
                machines: &[second, byte],
                ..SECOND
            },
            Bench {
                machines: &[tag],
                ..SECOND
            },
            Bench {
                reach: none,
                ..SECOND
            },
        ];
        for wrong in benches {
            assert!(search(wrong, &table(), 1, 300).is_err());
        }
    }
}
