//! The search for capabilities that reach into a range: scenes of registers and memory that are full of them, sound,
//! sealed, unsound and untagged, asked about ranges at the edges of what they hold, with every kind of mask and from
//! every kind of place. The search from outside is asked about ranges that hold some of the places themselves.

use crate::capabilities::{anything, register, sealed, sound, Layout, Rights};
use crate::cases;
use crate::held::{held, Authority, Place};
use crate::random::Random;
use crate::refusals;
use crate::state::{lend, Case};
use crate::unsound;
use crate::Mismatch;
use lent::{number_and_rest as parts, Query, Reach, State, CAPABILITIES, GRANULE};
use second::capability::{bounds, is_sealed, rights, EX, LD, SD, SPACE};
use second::{reach, reach_outside, Capability};

/// The rights, as a mask.
const RIGHTS: u32 = 0xFFF;

/// The queries of one scene.
const QUERIES: u32 = 16;

/// The numbers of refusals, in their order.
const NUMBERS: [u64; 7] = [1, 2, 3, 4, 20, 21, 22];

/// The last of them is of searches from outside alone.
const OF_ALL: usize = NUMBERS.len() - 1;

/// The queries from outside of one scene.
const OUTSIDE_QUERIES: u32 = 8;

/// The searches of a program: of all places, and from outside the range.
#[derive(Clone, Copy)]
pub struct Searches {
    pub all: Reach,
    pub outside: Reach,
}

pub const SECOND: Searches = Searches {
    all: reach,
    outside: reach_outside,
};

/// What was compared, by the second program's answers: places found in c0 to c15, in PCC and the special registers, in
/// memory, and none; found ones that are sealed, that are unsound, that share one byte with the range; ranges without a
/// byte, and such that end at 2^32 and past it; masks of no right, one and several; searches that begin at 0, at the place
/// of the one before, past it and in memory; refusals by number, and where two reasons meet.
#[derive(Default, Debug)]
pub struct Totals {
    pub found: [u64; 4],
    pub sealed: u64,
    pub unsound: u64,
    pub one_byte: u64,
    pub ends: [u64; 3],
    pub masks: [u64; 3],
    pub from: [u64; 3],
    pub refused: [u64; NUMBERS.len()],
    pub met: u64,
}

/// The same of both searches, and of those from outside: how many pass over a place of the range and find a later one or
/// none, and how many begin at a place of the range.
#[derive(Default, Debug)]
pub struct Both {
    pub all: Totals,
    pub outside: Totals,
    pub passed: [u64; 2],
    pub begun: u64,
}

impl Both {
    /// Whether everything that is counted came up.
    pub fn complete(&self) -> bool {
        let passed = self.passed.iter().chain([&self.begun]);
        let whole = self.all.complete(OF_ALL) && self.outside.complete(NUMBERS.len());
        whole && passed.copied().all(|count| count > 0)
    }

    /// Counts a search from outside that was not refused.
    fn count(&mut self, state: &State, query: Query, from: u32, found: u64) {
        let whole = state.reach(reach, query, from);
        if whole != found {
            self.passed[usize::from(found == 0)] += 1;
        }
        let granule = u64::from(from).checked_sub(CAPABILITIES as u64);
        let address = granule.map(|granule| u64::from(state.start) + granule * GRANULE as u64);
        let (low, length) = (u64::from(query.low), u64::from(query.length));
        let range = low..low + length;
        self.begun += u64::from(address.is_some_and(|address| range.contains(&address)));
    }
}

impl Totals {
    /// Whether everything that is counted came up, with so many numbers of refusals.
    fn complete(&self, numbers: usize) -> bool {
        let one = [self.sealed, self.unsound, self.one_byte, self.met];
        let many = self.found.iter().chain(&self.ends).chain(&self.masks);
        let many = many.chain(&self.from).chain(&self.refused[..numbers]);
        many.chain(&one).all(|&count| count > 0)
    }

    /// Counts a query that was not refused, by what it found.
    fn count(&mut self, state: &State, query: Query, from: u32, found: Option<u64>) {
        let end = u64::from(query.low) + u64::from(query.length);
        self.ends[0] += u64::from(query.length == 0);
        self.ends[1] += u64::from(end == SPACE);
        self.ends[2] += u64::from(end > SPACE);
        self.masks[(query.rights.count_ones() as usize).min(2)] += 1;
        self.from[match from as usize {
            0 => 0,
            1..CAPABILITIES => 1,
            _ => 2,
        }] += 1;
        let kind = match found {
            Some(0..16) => 0,
            Some(16..21) => 1,
            Some(_) => 2,
            None => 3,
        };
        self.found[kind] += 1;
        if let Some(value) = found.and_then(|place| at(state, place)) {
            self.count_value(value, (query.low.into(), end));
        }
    }

    fn count_value(&mut self, value: Capability, (first, end): (u64, u64)) {
        let (low, high) = bounds(value.address, value.metadata);
        let shared = high.min(end).checked_sub(u64::from(low).max(first));
        self.sealed += u64::from(is_sealed(value.metadata));
        self.unsound += u64::from(!Authority::of(value).is_sound());
        self.one_byte += u64::from(shared == Some(1));
    }
}

/// The tagged capability of a place.
fn at(state: &State, place: u64) -> Option<Capability> {
    let wanted = match place.checked_sub(CAPABILITIES as u64) {
        None => Place::Register(place as usize),
        Some(granule) => Place::Granule(state.start.wrapping_add(granule as u32 * GRANULE as u32)),
    };
    let mut held = held(state).filter(|(place, _)| *place == wanted);
    held.next().map(|(_, value)| value)
}

/// What a place holds: mostly something sound near memory, sometimes sealed, unsound, untagged or anything.
fn value(random: &mut Random, layout: Layout, unsound: bool) -> Capability {
    match random.below(12) {
        0 => anything(random),
        1 if unsound => unsound::value(random),
        2 => {
            let value = sound(random, layout, Rights::ReadWrite);
            sealed(value, random.below(8))
        }
        3..=6 => register(random, layout),
        _ => {
            let rights = crate::capabilities::rights(random);
            sound(random, layout, rights)
        }
    }
}

/// Registers and memory with such values in some places or in most; in some scenes nothing is unsound, so that a search can
/// find none.
fn scene(random: &mut Random, state: &mut State) {
    let layout = cases::layout(random);
    cases::fill(random, layout, state);
    cases::fill_registers(random, layout, state);
    let unsound = random.one_in(3);
    let tagged = random.pick([0, 1, 4, 16]);
    for place in 1..CAPABILITIES {
        let value = value(random, layout, unsound);
        let tag = value.tag & u32::from(random.below(16) < tagged);
        state.set(place, lend(Capability { tag, ..value }));
    }
    state.tags.fill(0);
    let granules = layout.size / 8;
    for granule in 0..granules.min(64) {
        // The last granules of a large memory, and the first.
        let granule = if granule % 2 == 0 {
            granule
        } else {
            granules - granule
        };
        let value = value(random, layout, unsound);
        let tag = value.tag & u32::from(random.below(16) < tagged);
        state.write_capability(
            layout.start + 8 * granule,
            lend(Capability { tag, ..value }),
        );
    }
}

/// A range: at an edge of something that is held, of memory or of the address space, or anywhere.
fn range(random: &mut Random, state: &State) -> (u32, u32) {
    let count = held(state).count() as u32;
    let value = held(state).nth(random.below(count) as usize);
    let edges = value.map(|(_, value)| bounds(value.address, value.metadata));
    let (low, high) = edges.unwrap_or((state.start, state.end()));
    let edge = match random.below(8) {
        0..=2 => low,
        3..=5 => high as u32,
        6 => random.pick([state.start, state.end() as u32, 0]),
        _ => random.number(),
    };
    let length = match random.below(8) {
        0 => 0,
        1..=3 => 1,
        4 => random.below(64),
        5 => edge.wrapping_neg(),
        6 => random.number(),
        _ => u32::MAX,
    };
    match random.below(3) {
        0 => (edge, length),
        1 => (edge.wrapping_sub(length), length),
        _ => (random.near(edge), length),
    }
}

/// A range with both edges between granules, most of the time; else one or both may be in one.
fn of_granules(random: &mut Random, (low, length): (u32, u32)) -> (u32, u32) {
    let unit = GRANULE as u32;
    let (down, up) = (
        low / unit * unit,
        length.saturating_add(unit - 1) / unit * unit,
    );
    match random.below(16) {
        0 => (low, length),
        1 => (down, length),
        2 => (low, down.wrapping_add(up).wrapping_sub(low)),
        _ => (down, up),
    }
}

/// A mask: what matters most, what is held, one right, any of them, and such as no mask may be.
fn mask(random: &mut Random, state: &State) -> u32 {
    match random.below(16) {
        0 => 0,
        1 => RIGHTS,
        2 => 1 << random.below(12),
        3 => random.word() & RIGHTS,
        4 => random.pick([SD | LD, LD | EX]),
        5 => {
            let place = random.below(CAPABILITIES as u32) as usize;
            rights(state.capability(place).metadata)
        }
        6 if random.one_in(4) => random.pick([1 << 12, 1 << 31, SD | 1 << 12, u32::MAX]),
        7..=8 => LD,
        9 => EX,
        _ => SD,
    }
}

/// A place to begin at: the first, one near the last that was found, one of memory, or none.
fn begin(random: &mut Random, state: &State, last: u32) -> u32 {
    let places = (CAPABILITIES + state.mem.len() / GRANULE) as u32;
    match random.below(16) {
        0..=5 => 0,
        6 => last,
        7 => last.saturating_add(1),
        8 => random.below(CAPABILITIES as u32),
        9..=12 => random.below(places),
        13 => places.wrapping_sub(1),
        14 => random.pick([CAPABILITIES as u32, CAPABILITIES as u32 - 1]),
        _ if random.one_in(2) => random.pick([places, places + 1, 1 << 31, u32::MAX]),
        _ => 0,
    }
}

/// The reasons to refuse a query, by their places among the numbers.
fn reasons(state: &State, query: Query, from: u32, outside: bool) -> [bool; NUMBERS.len()] {
    let words = state.regs.len() == lent::WORDS;
    let bad_tag = (0..CAPABILITIES).any(|place| state.register(3 * place + 2) > 1);
    let places = CAPABILITIES + state.mem.len() / GRANULE;
    [
        !words,
        !refusals::memory_allowed(state),
        state.tags.len() != state.mem.len() / 64,
        bad_tag || state.regs.iter().take(3).any(|&word| word != 0),
        query.rights > RIGHTS,
        from as usize >= places,
        outside && !(query.low | query.length).is_multiple_of(GRANULE as u32),
    ]
}

/// Asks both programs and compares; counts what was asked and found.
fn ask(
    (ours, outside): (Reach, bool),
    state: &State,
    query: Query,
    from: u32,
    totals: &mut Totals,
) -> Result<u64, String> {
    let second = if outside { reach_outside } else { reach };
    let (mine, theirs) = (
        state.reach(ours, query, from),
        state.reach(second, query, from),
    );
    if mine != theirs {
        let (start, size) = (state.start, state.mem.len());
        return Err(format!(
            "{query:x?} from {from}, outside {outside}, {size} bytes at {start:08x}: ours {mine:x}, second {theirs:x}"
        ));
    }
    let (number, rest) = parts(theirs);
    if number == 0 {
        totals.count(state, query, from, rest.checked_sub(1));
        return Ok(theirs);
    }
    let reasons = reasons(state, query, from, outside);
    let wanted = NUMBERS.iter().zip(reasons).find(|(_, reason)| *reason);
    if rest != 0 || wanted.map(|(wanted, _)| *wanted) != Some(number) {
        return Err(format!(
            "{query:x?} from {from}: answer {theirs:x}, reasons {reasons:?}"
        ));
    }
    for (count, wanted) in totals.refused.iter_mut().zip(NUMBERS) {
        *count += u64::from(wanted == number);
    }
    totals.met += u64::from(reasons.iter().filter(|reason| **reason).count() > 1);
    Ok(theirs)
}

/// Something to ask of a state: a range, a mask, and the place to begin at.
fn asked(random: &mut Random, state: &State, outside: bool, last: u32) -> (Query, u32) {
    let (low, length) = range(random, state);
    let (low, length) = match outside {
        true => of_granules(random, (low, length)),
        false => (low, length),
    };
    let rights = mask(random, state);
    let query = Query {
        low,
        length,
        rights,
    };
    (query, begin(random, state, last))
}

/// The queries of one search to a scene.
fn ask_all(
    ours: Searches,
    outside: bool,
    random: &mut Random,
    state: &State,
    totals: &mut Both,
) -> Result<(), String> {
    let mut last = 0;
    let (search, queries) = match outside {
        true => (ours.outside, OUTSIDE_QUERIES),
        false => (ours.all, QUERIES),
    };
    for _ in 0..queries {
        let (query, from) = asked(random, state, outside, last);
        let counts = match outside {
            true => &mut totals.outside,
            false => &mut totals.all,
        };
        let found = ask((search, outside), state, query, from, counts)?;
        let (number, rest) = parts(found);
        if outside && number == 0 {
            totals.count(state, query, from, rest);
        }
        last = (rest as u32).saturating_sub(1);
    }
    Ok(())
}

/// Compares a program with the second one on the scenes of a seed, some of them spoilt; nothing that is lent changes.
pub fn compare(ours: Searches, seed: u64, cases: u64) -> Result<Both, Mismatch> {
    let mut totals = Both::default();
    let mut case = Case::default();
    for number in 1..=cases {
        let mut random = Random::new(seed, number);
        scene(&mut random, &mut case.state);
        if random.one_in(8) {
            refusals::spoil(&mut random, &mut case);
        }
        let before = random.one_in(16).then(|| case.state.clone());
        for outside in [false, true] {
            ask_all(ours, outside, &mut random, &case.state, &mut totals)
                .map_err(|text| Mismatch { case: number, text })?;
        }
        if before.is_some_and(|before| before != case.state) {
            let text = "what is lent changed".into();
            return Err(Mismatch { case: number, text });
        }
    }
    Ok(totals)
}

#[cfg(test)]
mod tests {
    use super::*;

    #[test]
    fn the_second_program_agrees_with_itself_and_everything_comes_up() {
        let totals = compare(SECOND, 1, 4_000).unwrap();
        assert!(totals.complete(), "{totals:?}");
    }

    #[test]
    fn a_place_more_a_refusal_with_a_rest_and_the_other_search_are_found() {
        let next: Reach = |regs, start, mem, tags, query, from| {
            let answer = reach(regs, start, mem, tags, query, from);
            answer + u64::from(answer >> 48 == 0 && answer > 40)
        };
        let rest: Reach = |regs, start, mem, tags, query, from| {
            let answer = reach(regs, start, mem, tags, query, from);
            answer | u64::from(answer == 21 << 48)
        };
        let wrong = [
            Searches {
                all: next,
                ..SECOND
            },
            Searches {
                all: rest,
                ..SECOND
            },
            Searches {
                outside: reach,
                ..SECOND
            },
        ];
        for wrong in wrong {
            assert!(compare(wrong, 1, 1_000).is_err());
        }
    }
}
