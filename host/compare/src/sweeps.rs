//! The sweeper (document 02, section 10): single visits of every number that matters, and whole passes, over
//! memory full of capabilities whose low bounds lie at the edges of the window, inside it and elsewhere.

use crate::capabilities::{anything, register, root, sealed, Layout};
use crate::cases;
use crate::filter::{place_of, question_of, FAR, PLACES, QUESTIONS};
use crate::random::Random;
use crate::refusals;
use crate::state::lend;
use crate::Mismatch;
use lent::{number_and_rest as parts, State, Sweep, Window, GRANULE, MOST_MEMORY};
use second::capability::{move_address, set_bounds};
use second::{sweep, Capability};

/// What an answer has where the granule was the last one.
const LAST: u64 = 1 << 32;

/// Kinds of windows: all of memory, from its start, to its end, inside it, and empty ones inside it and at its end.
const WINDOWS: usize = 6;

/// What was compared, by the second program's answers: visits of tagged granules that lose the tag and that
/// keep it, of others, of the last granule; refused visits by the sets of reasons 2, 3 and 9 that there are;
/// the windows, the questions and the low bounds of the load filter's test; passes, and the visits and tags
/// of these.
#[derive(Default, Debug)]
pub struct Totals {
    pub went: u64,
    pub stayed: u64,
    pub untagged: u64,
    pub last: u64,
    pub refused: [u64; 7],
    pub windows: [u64; WINDOWS],
    pub questions: [u64; QUESTIONS],
    pub places: [u64; PLACES],
    pub passes: u64,
    pub pass_visits: u64,
    pub pass_tags: u64,
}

impl Totals {
    /// Whether everything that is counted came up.
    pub fn complete(&self) -> bool {
        let counts = [
            self.went,
            self.stayed,
            self.untagged,
            self.last,
            self.passes,
            self.pass_tags,
        ];
        let mut all = counts.iter().chain(&self.refused).chain(&self.windows);
        let filtered = self.questions.iter().chain(&self.places);
        all.all(|&count| count > 0) && filtered.clone().all(|&count| count > 0)
    }

    /// Counts a visit that was not refused, by the state before it.
    fn count(&mut self, before: &State, granule: u32, tag_went: bool, answer: u64) {
        self.last += u64::from(answer == LAST);
        let Some(value) = stored(before, granule) else {
            self.untagged += 1;
            return;
        };
        self.went += u64::from(tag_went);
        self.stayed += u64::from(!tag_went);
        self.windows[window_kind(before)] += 1;
        self.questions[question_of(before, value)] += 1;
        if let Some(place) = place_of(before, value) {
            self.places[place] += 1;
        }
    }
}

/// The tagged capability of a granule.
fn stored(state: &State, granule: u32) -> Option<Capability> {
    let address = state.start.wrapping_add(8 * granule);
    state.tagged(address.into()).then_some(())?;
    Some(Capability {
        address: state.word(address)?,
        metadata: state.word(address.wrapping_add(4))?,
        tag: 1,
    })
}

fn window_kind(state: &State) -> usize {
    let (window, size) = (state.window, state.mem.len() as u64);
    match (window.start, window.size, window.end() == size) {
        (_, 0, at_end) => 4 + usize::from(at_end),
        (0, _, true) => 0,
        (0, _, false) => 1,
        (_, _, true) => 2,
        _ => 3,
    }
}

/// The sets of the reasons 2, 3 and 9 to refuse a visit, as three bits.
fn reasons(state: &State, granule: u32) -> usize {
    let memory = refusals::memory_allowed(state) && refusals::window_faults(state).is_empty();
    let lengths = [state.mem.len(), state.window.size as usize].map(|size| size / 64);
    let bits = [state.tags.len(), state.revoked.len()] == lengths;
    let there = (granule as usize) < state.mem.len() / GRANULE;
    usize::from(!memory) | usize::from(!bits) << 1 | usize::from(!there) << 2
}

/// A low bound: at an end of the window or near it, in memory, or anywhere.
fn low(random: &mut Random, layout: Layout, window: Window) -> u32 {
    let first = layout.start.wrapping_add(window.start);
    let end = first.wrapping_add(window.size);
    match random.below(16) {
        0 => first,
        1 => first.wrapping_sub(1),
        2 => end,
        3 => end.wrapping_sub(1),
        4 => random.near(first),
        5 => random.near(end),
        6 => first.wrapping_add(FAR),
        7..=9 => first.wrapping_add(random.below(window.size)),
        10..=12 => layout.inside(random, 1),
        _ => layout.address(random),
    }
}

/// What a granule holds: mostly a capability by its low bound, of any rights, its address there or past it,
/// sealed or not.
fn value(random: &mut Random, layout: Layout, window: Window) -> Capability {
    match random.below(16) {
        0 => return anything(random),
        1 => return register(random, layout),
        _ => {}
    }
    let low = low(random, layout, window);
    // GL, and one of the table's codes; those below 8 have a right that spares the value.
    let code = match random.below(3) {
        0 => 0b100000 | random.below(8),
        _ => random.below(64),
    };
    let length = random.pick([1, 8, 9, 64, 500]).min(low.wrapping_neg());
    let cut = set_bounds(root(code, low), length);
    let moved = match random.below(2) {
        0 => move_address(cut, low.wrapping_add(random.below(length))),
        _ => cut,
    };
    let tag = u32::from(!random.one_in(6));
    let held = match random.below(6) {
        0 => sealed(moved, random.below(8)),
        _ => moved,
    };
    Capability { tag, ..held }
}

/// Lent memory with such values in most granules, and others left as anything.
fn scene(random: &mut Random, state: &mut State) {
    let layout = cases::layout(random);
    cases::fill(random, layout, state);
    let few = random.one_in(4);
    let granules = layout.size / 8;
    // A large memory has them at its ends and in a part of it.
    let filled = granules.min(64);
    let from = random.pick([0, granules - filled, (granules - filled) / 2]);
    for granule in from..from + filled {
        if !(few && random.one_in(2)) {
            let value = value(random, layout, state.window);
            state.write_capability(layout.start + 8 * granule, lend(value));
        }
    }
}

/// The numbers that are visited of a memory: the first, the last, those past it, those whose place wraps, and any.
fn numbers(random: &mut Random, size: usize) -> [u32; 12] {
    let granules = (size / GRANULE) as u32;
    let any = random.below(granules);
    [
        0,
        1,
        granules.wrapping_sub(1),
        granules,
        granules.wrapping_add(1),
        any,
        random.below(granules),
        1 << 29,
        (1 << 29) + any,
        size as u32,
        u32::MAX,
        random.number(),
    ]
}

/// Visits a granule by both programs and compares what they answer and leave. What is lent for reading stays.
fn visit(ours: Sweep, state: &mut State, granule: u32, totals: &mut Totals) -> Result<u64, String> {
    let before = state.clone();
    let mut theirs = before.tags.clone();
    let (board, revoked) = (state.board(), &before.revoked);
    let answer = sweep(board, &before.mem, &mut theirs, revoked, granule);
    let mine = state.sweep(ours, granule);
    if mine != answer || state.tags != theirs {
        return Err(differ(
            &before,
            granule,
            (mine, &state.tags),
            (answer, &theirs),
        ));
    }
    if state.mem != before.mem || state.revoked != before.revoked {
        return Err(format!(
            "granule {granule}: memory or revocation bits changed"
        ));
    }
    match parts(answer).0 {
        0 => totals.count(&before, granule, theirs != before.tags, answer),
        _ => totals.refused[reasons(&before, granule) - 1] += 1,
    }
    Ok(answer)
}

fn differ(before: &State, granule: u32, ours: (u64, &[u8]), theirs: (u64, &[u8])) -> String {
    let (board, size) = (before.board(), before.mem.len());
    let value = stored(before, granule);
    let changed = ours.1.iter().zip(theirs.1).position(|(a, b)| a != b);
    format!(
        "granule {granule} of {size} bytes, {board:x?}, {value:x?}\n  ours   {:x}\n  second {:x}, first other tag byte {changed:?}",
        ours.0, theirs.0
    )
}

/// A whole pass by both programs, from granule 0 and by the numbers that come back; then none is left that the
/// test would clear, as a second pass sees.
fn pass(ours: Sweep, state: &mut State, totals: &mut Totals) -> Result<(), String> {
    let granules = (state.mem.len() / GRANULE) as u64;
    let before = state.tags.clone();
    for number in 0..granules {
        let answer = quick_visit(ours, state, number as u32)?;
        let wanted = if number + 1 == granules {
            LAST
        } else {
            number + 1
        };
        if answer != wanted {
            return Err(format!("granule {number} of {granules}: answer {answer:x}"));
        }
        totals.pass_visits += 1;
    }
    let swept = state.tags.clone();
    for number in 0..granules {
        quick_visit(ours, state, number as u32)?;
    }
    if state.tags != swept {
        return Err("a second pass took more tags".into());
    }
    let went = before
        .iter()
        .zip(&swept)
        .map(|(a, b)| (a & !b).count_ones());
    totals.pass_tags += u64::from(went.sum::<u32>());
    totals.passes += 1;
    Ok(())
}

/// A visit by both programs, without a copy of memory.
fn quick_visit(ours: Sweep, state: &mut State, granule: u32) -> Result<u64, String> {
    let byte = granule as usize / 8;
    let before = state.tags[byte];
    let (board, mem) = (state.board(), &state.mem);
    let mine = ours(board, mem, &mut state.tags, &state.revoked, granule);
    let our_byte = std::mem::replace(&mut state.tags[byte], before);
    let answer = sweep(board, mem, &mut state.tags, &state.revoked, granule);
    if (mine, our_byte) == (answer, state.tags[byte]) {
        return Ok(answer);
    }
    Err(format!(
        "a pass, granule {granule}: ours {mine:x} and tags {our_byte:02x}, second {answer:x} and {:02x}",
        state.tags[byte]
    ))
}

/// Breaks the limits of what is lent in one way or in several, each as often alone as with the others.
fn spoil(random: &mut Random, state: &mut State) {
    let kinds = 1 + random.below(3);
    if kinds & 1 == 1 {
        match random.below(2) {
            0 => refusals::spoil_memory(random, state),
            _ => refusals::spoil_window(random, state),
        }
    }
    if kinds & 2 == 2 {
        refusals::spoil_bits(random, state);
    }
}

/// Compares a program with the second one: visits of the numbers that matter of each scene, sometimes with
/// limits broken, and a pass over each small one.
pub fn compare(ours: Sweep, seed: u64, cases: u64) -> Result<Totals, Mismatch> {
    let mut totals = Totals::default();
    let mut state = State::default();
    for case in 1..=cases {
        let mut random = Random::new(seed, case);
        compare_case(ours, &mut random, &mut state, &mut totals)
            .map_err(|text| Mismatch { case, text })?;
    }
    Ok(totals)
}

fn compare_case(
    ours: Sweep,
    random: &mut Random,
    state: &mut State,
    totals: &mut Totals,
) -> Result<(), String> {
    scene(random, state);
    let spoilt = random.one_in(4);
    if spoilt {
        spoil(random, state);
    }
    // A large memory is copied for each visit: a few are enough.
    let most = if state.mem.len() > 4096 { 5 } else { 12 };
    for granule in numbers(random, state.mem.len()).into_iter().take(most) {
        visit(ours, state, granule, totals)?;
    }
    let whole = state.mem.len() <= 4096 || random.one_in(64);
    if !spoilt && whole {
        pass(ours, state, totals)?;
    }
    Ok(())
}

/// Passes over the largest memory with windows of every kind, all of it tagged: what is swept is counted.
pub fn compare_large(ours: Sweep, seed: u64) -> Result<Totals, Mismatch> {
    let mut totals = Totals::default();
    let most = MOST_MEMORY as u32;
    let windows = [
        (0, most),
        (0, 64),
        (most - 64, 64),
        (1 << 16, 1 << 16),
        (64, 0),
        (most, 0),
    ];
    for (case, (start, size)) in (1..).zip(windows) {
        let mut random = Random::new(seed, case);
        let layout = Layout {
            start: 0x2000_0000,
            size: most,
        };
        let mut state = State::new(layout.start, vec![0; MOST_MEMORY]);
        state = state.with_window(Window { start, size });
        state.revoked.fill(0b1010_0101);
        for granule in 0..most / 8 {
            let value = value(&mut random, layout, state.window);
            state.write_capability(layout.start + 8 * granule, lend(value));
        }
        pass(ours, &mut state, &mut totals).map_err(|text| Mismatch { case, text })?;
    }
    Ok(totals)
}

#[cfg(test)]
mod tests {
    use super::*;

    #[test]
    fn the_second_program_agrees_with_itself_and_everything_comes_up() {
        let totals = compare(sweep, 1, 20_000).unwrap();
        assert!(totals.complete(), "{totals:?}");
        let large = compare_large(sweep, 1).unwrap();
        assert_eq!((large.passes, large.pass_visits), (6, 6 * 131_072));
        assert!(large.pass_tags > 1000);
    }

    #[test]
    fn a_neighbours_tag_and_a_wrong_number_are_found() {
        let neighbour: Sweep = |board, mem, tags, revoked, granule| {
            let before = tags.to_vec();
            let answer = sweep(board, mem, tags, revoked, granule);
            let byte = granule as usize / 8;
            if tags != before {
                tags[byte] ^= 0x80;
            }
            answer
        };
        let one_too_far: Sweep = |board, mem, tags, revoked, granule| {
            let answer = sweep(board, mem, tags, revoked, granule);
            if answer == 9 << 48 && granule as usize == mem.len() / 8 {
                LAST
            } else {
                answer
            }
        };
        for wrong in [neighbour, one_too_far] {
            assert!(compare(wrong, 1, 1_000).is_err());
        }
    }
}
