//! What the load filter was asked (document 01, "Loading capabilities"; document 02, 4 and 5): which
//! of the rights that spare a value it has, what the revocation bits say of its low bound, and where
//! that lies by the window's ends.

use crate::state::as_second;
use lent::{Revocation, State, GRANULE};
use second::capability::{bounds, has, rights, MC, SE, U0, US};
use second::Capability;

/// The rights that spare a value, each alone and together.
const SPARED: [&str; 8] = [
    "no right that spares it",
    "US",
    "SE",
    "SE and US",
    "U0",
    "U0 and US",
    "U0 and SE",
    "U0, SE and US",
];

/// What the bits say of the granule of a low bound.
const BITS: [&str; 3] = ["outside", "clear", "marked"];

/// How many questions there are.
pub const QUESTIONS: usize = SPARED.len() * BITS.len();

/// Where the low bound of a value that nothing spares can lie.
const EDGES: [&str; 12] = [
    "before the window",
    "at the window's first byte, clear",
    "at the window's first byte, marked",
    "at the window's last byte, clear",
    "at the window's last byte, marked",
    "after the window, in memory",
    "after the window and memory",
    "below memory",
    "at an empty window in memory",
    "at an empty window at memory's end",
    "over 64 KiB into the window, clear",
    "over 64 KiB into the window, marked",
];

/// How many such places there are.
pub const PLACES: usize = EDGES.len();

/// How many bytes into the window a low bound lies far into it: as many as memory once had at most.
pub const FAR: u32 = 1 << 16;

/// The value that a CLC reads, where it is tagged and the authority leaves it its tag.
fn read(before: &State, word: u32) -> Option<Capability> {
    let authority = before.capability((word >> 15 & 31) as usize);
    let address = authority.address.wrapping_add((word as i32 >> 20) as u32);
    if !has(authority.metadata, MC) || !before.tagged(address.into()) {
        return None;
    }
    let value = lent::Capability {
        address: before.word(address)?,
        metadata: before.word(address.wrapping_add(GRANULE as u32 / 2))?,
        tag: 1,
    };
    Some(as_second(value))
}

/// Which of the rights that spare it a value has; US is the lowest of the three.
fn spared(value: Capability) -> u32 {
    (rights(value.metadata) & (US | SE | U0)) / US
}

/// The number of the question that a CLC asks.
pub fn question(before: &State, word: u32) -> Option<usize> {
    Some(question_of(before, read(before, word)?))
}

/// The number of the question that a tagged value asks.
pub fn question_of(before: &State, value: Capability) -> usize {
    let (low, _) = bounds(value.address, value.metadata);
    let bit = match before.revocation(low) {
        Revocation::Outside => 0,
        Revocation::Clear => 1,
        Revocation::Marked => 2,
    };
    spared(value) as usize * BITS.len() + bit
}

/// A question in words.
pub fn question_name(question: usize) -> String {
    let [spared, bit] = [question / BITS.len(), question % BITS.len()];
    format!("CLC of a value with {}, {}", SPARED[spared], BITS[bit])
}

/// The number of the place of a low bound, where the bits decide about the value.
pub fn place(before: &State, word: u32) -> Option<usize> {
    place_of(before, read(before, word)?)
}

/// The number of the place of a tagged value's low bound, where the bits decide about it.
pub fn place_of(before: &State, value: Capability) -> Option<usize> {
    if spared(value) != 0 {
        return None;
    }
    let (low, _) = bounds(value.address, value.metadata);
    let Some(offset) = low.checked_sub(before.start) else {
        return Some(7);
    };
    let (offset, window) = (u64::from(offset), before.window);
    let (first, end) = (u64::from(window.start), window.end());
    let marked = usize::from(before.revocation(low) == Revocation::Marked);
    let at_end = end == before.mem.len() as u64;
    match window.size {
        0 if offset == first => Some(8 + usize::from(at_end)),
        0 => None,
        _ if offset + 1 == first => Some(0),
        _ if offset == first => Some(1 + marked),
        _ if offset + 1 == end => Some(3 + marked),
        _ if offset == end => Some(5 + usize::from(at_end)),
        _ if offset >= first + u64::from(FAR) && offset < end => Some(10 + marked),
        _ => None,
    }
}

/// A place in words.
pub fn place_name(place: usize) -> String {
    format!("CLC by a low bound {}", EDGES[place])
}

#[cfg(test)]
mod tests {
    use super::*;
    use crate::capabilities::root;
    use crate::state::lend;
    use lent::Window;
    use second::capability::set_bounds;

    const START: u32 = 0x2000_0000;
    /// CLC c2, 8(c1).
    const CLC: u32 = 0x0080_B103;

    #[test]
    fn each_question_is_told_from_the_others() {
        let mut state = State::new(START, vec![0; 128]);
        state.revoke(START + 64);
        state.set(1, lend(root(0b111111, START)));
        let mut asked = Vec::new();
        for code in 0..8 {
            for low in [START - 1, START + 63, START + 64] {
                let token = set_bounds(root(0b100000 | code, low), 1);
                state.write_capability(START + 8, lend(token));
                asked.extend(question(&state, CLC).map(question_name));
            }
        }
        assert_eq!(asked, (0..QUESTIONS).map(question_name).collect::<Vec<_>>());
        state.set_tag(START + 8, false);
        assert_eq!(question(&state, CLC), None);
    }

    #[test]
    fn each_place_is_told_from_the_others() {
        let told = |size: usize, start: u32, bytes: u32, marked: bool, low: u32| {
            let window = Window { start, size: bytes };
            let mut state = State::new(START, vec![0; size]).with_window(window);
            state.revoked.fill(if marked { 0xFF } else { 0 });
            state.set(1, lend(root(0b111111, START)));
            let value = set_bounds(root(0b111111, START.wrapping_add(low)), 1);
            state.write_capability(START + 8, lend(value));
            place(&state, CLC)
        };
        let places = [
            told(192, 64, 64, true, 63),
            told(192, 64, 64, false, 64),
            told(192, 64, 64, true, 64),
            told(192, 64, 64, false, 127),
            told(192, 64, 64, true, 127),
            told(192, 64, 64, true, 128),
            told(192, 64, 128, true, 192),
            told(192, 0, 192, true, !0),
            told(192, 64, 0, true, 64),
            told(192, 192, 0, true, 192),
            told(1 << 17, 64, 1 << 16, false, 1 << 16),
            told(1 << 17, 0, 1 << 17, true, 1 << 16),
        ];
        let wanted: Vec<_> = (0..PLACES).map(Some).collect();
        assert_eq!(places[..10], wanted[..10]);
        assert_eq!(places[10], None);
        assert_eq!(places[11], Some(11));
        assert_eq!(told(1 << 17, 0, 1 << 17, false, 1 << 16), Some(10));
        assert_eq!(told(192, 0, 192, true, 80), None);
    }
}
