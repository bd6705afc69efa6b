//! Buffers that are refused (document 01, "Answers"; document 02, 5, 8 and 13): each reason in each of its
//! ways, and several reasons at once.

use crate::held::Authority;
use crate::random::Random;
use crate::state::{as_second, lend, Call, Case};
use crate::unsound;
use lent::{State, Window, BLOCK, CAPABILITIES, LATER_EDITION, MOST_MEMORY, MOST_STEPS, WORDS};

/// Breaks a good case in one way, or in several at once.
pub fn spoil(random: &mut Random, case: &mut Case) {
    let reasons = if random.one_in(2) {
        1 << random.below(7)
    } else {
        1 + random.below(127)
    };
    let wanted = |reason: u32| reasons >> (reason - 1) & 1 == 1;
    // Reason 6 is none of a step's: the sixth here is 7, the seventh 8.
    if wanted(7) {
        let place = 1 + random.below(CAPABILITIES as u32 - 1);
        case.state.set(place as usize, lend(unsound::value(random)));
    }
    if wanted(4) {
        spoil_words(random, &mut case.state);
    }
    if wanted(1) {
        let length = random.pick([0, 1, 3, 63, 65, 66, 66, 67, 71, 71, 73, 73, 75, 144]);
        case.state.regs.resize(length, 0);
    }
    if wanted(2) {
        let both = random.one_in(8);
        let window = random.one_in(2);
        if both || !window {
            spoil_memory(random, &mut case.state);
        }
        if both || window {
            spoil_window(random, &mut case.state);
        }
    }
    if wanted(3) {
        spoil_bits(random, &mut case.state);
    }
    if wanted(5) {
        let steps = random.pick([MOST_STEPS + 1, MOST_STEPS + 2, 1 << 24, 1 << 31, u32::MAX]);
        case.call = Call::Run(steps);
    }
    if wanted(6) {
        case.state.edition = random.pick([2, 2, 3, 7, 0x100, 0x8000_0000, u32::MAX]);
    }
}

/// A start or a size that breaks a limit; the window and the bits keep to the size.
pub fn spoil_memory(random: &mut Random, state: &mut State) {
    let size = match random.below(10) {
        0 => 0,
        1 => 32,
        2 => 63,
        3 => state.mem.len() + 1,
        4 => state.mem.len() - 1,
        5 => state.mem.len() + 32,
        6 if random.one_in(8) => random.pick([MOST_MEMORY + 1, MOST_MEMORY + 64, 2 * MOST_MEMORY]),
        _ => state.mem.len(),
    };
    if size == state.mem.len() {
        state.start = match random.below(3) {
            0 => state.start.wrapping_add(1 + random.below(7)),
            1 => 0u32.wrapping_sub(size as u32) + 8,
            _ => 0xFFFF_FFF8,
        };
    }
    if size == state.mem.len() {
        return;
    }
    state.mem.resize(size, 0x13);
    state.tags.resize(size / BLOCK, 0);
    state.window = Window::whole(size / BLOCK * BLOCK);
    state.revoked.resize(size / BLOCK, 0);
}

/// A window that breaks one of its limits, or any; the bits keep to its size unless that is huge.
pub fn spoil_window(random: &mut Random, state: &mut State) {
    let size = state.mem.len() as u32;
    let odd = 1 + random.below(63);
    let odd = random.pick([odd, 8, 32]);
    let block = 64 * random.below(size / 64 + 1);
    let top = 0u32.wrapping_sub(64);
    let (start, bytes) = match random.below(6) {
        0 => (block.saturating_sub(64) + odd, 0),
        1 => (odd, block.saturating_sub(64)),
        2 => (0, block.saturating_sub(64) + odd),
        3 => random.pick([
            (size, 64),
            (size + 64, 0),
            (64, size),
            (0, size + 64),
            (block, size - block + 64),
        ]),
        4 => random.pick([
            (top, 64),
            (top, 0),
            (64, top),
            (top, top),
            (64, 0u32.wrapping_sub(128)),
        ]),
        _ => (random.number(), random.number()),
    };
    state.window = Window { start, size: bytes };
    let least = (bytes as usize / BLOCK).min(4 * MOST_MEMORY / BLOCK);
    state.revoked.resize(least, 0);
}

/// Tags or revocation bits that are too short or too long.
pub fn spoil_bits(random: &mut Random, state: &mut State) {
    let bits = if random.one_in(2) {
        &mut state.tags
    } else {
        &mut state.revoked
    };
    let length = match random.below(4) {
        0 => bits.len().saturating_sub(1),
        1 => 8 * bits.len() + 8,
        2 => random.pick([0, 1024, 1025]),
        _ => bits.len() + 1,
    };
    bits.resize(length, 0xFF);
}

/// A tag word above 1, or a word of c0 that is not 0.
fn spoil_words(random: &mut Random, state: &mut State) {
    let place = random.below(CAPABILITIES as u32) as usize;
    match random.below(4) {
        0 => state.regs[random.below(3) as usize] = random.pick([1, 1, 0x8000_0000]),
        _ => state.regs[3 * place + 2] = random.pick([2, 3, 0x100, 0x8000_0000, u32::MAX]),
    }
}

/// The places of the register file that hold what no start may: tagged, with low above high or high above
/// 2^32 (document 02, 13).
pub fn unsound_places(state: &State) -> Vec<usize> {
    let unsound = |&place: &usize| match state.regs.get(3 * place..3 * place + 3) {
        Some(words) => words[2] == 1 && !is_sound(state, place),
        None => false,
    };
    (0..CAPABILITIES).filter(unsound).collect()
}

fn is_sound(state: &State, place: usize) -> bool {
    Authority::of(as_second(state.capability(place))).is_sound()
}

/// Takes the tags of all that no start may hold.
pub fn settle(state: &mut State) {
    for place in unsound_places(state) {
        state.regs[3 * place + 2] = 0;
    }
}

/// The limits of a window, as they are broken.
pub const WINDOW_FAULTS: [&str; 3] = [
    "start is no multiple of 64",
    "size is no multiple of 64",
    "end is past memory's",
];

/// The numbers of the limits that a window breaks.
pub fn window_faults(state: &State) -> Vec<usize> {
    let Window { start, size } = state.window;
    let broken = [
        !start.is_multiple_of(64),
        !size.is_multiple_of(64),
        state.window.end() > state.mem.len() as u64,
    ];
    (0..3).filter(|&fault| broken[fault]).collect()
}

/// Whether memory itself keeps its limits.
pub fn memory_allowed(state: &State) -> bool {
    let size = state.mem.len();
    let fits = (64..=MOST_MEMORY).contains(&size) && state.end() <= 1 << 32;
    fits && size.is_multiple_of(64) && state.start.is_multiple_of(8)
}

/// The numbers of the reasons that there are to refuse a case; 0 and 6 are none.
pub const REASONS: [usize; 7] = [1, 2, 3, 4, 5, 7, 8];

/// How many numbers there are, with those that are none.
pub const NUMBERS: usize = 9;

/// Which of the reasons there are to refuse a case.
pub fn reasons(case: &Case) -> [bool; NUMBERS] {
    let state = &case.state;
    let wanted = [state.mem.len(), state.window.size as usize].map(|size| size / BLOCK);
    let bits_fit = [state.tags.len(), state.revoked.len()] == wanted;
    let tag_words = state.regs.chunks(3).take(CAPABILITIES);
    let tags_fit = tag_words
        .filter_map(|words| words.get(2))
        .all(|&tag| tag <= 1);
    let zero = state.regs.iter().take(3).all(|&word| word == 0);
    [
        false,
        state.regs.len() != WORDS,
        !memory_allowed(state) || !window_faults(state).is_empty(),
        !bits_fit,
        !(tags_fit && zero),
        matches!(case.call, Call::Run(steps) if steps > MOST_STEPS),
        false,
        state.edition > LATER_EDITION,
        !unsound_places(state).is_empty(),
    ]
}
