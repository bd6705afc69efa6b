//! Pairs of an address and a metadata word to look up: any two words, and what programs hold.

use lent::MEMORY_ROOT;

/// The kinds of pairs: any words; the whole space; exponent 4 and memory's bounds; cuts of at most 511 bytes.
pub const KINDS: [&str; 4] = ["random", "whole", "exponent4", "small"];

pub type Pair = (u32, u32);

/// How many pairs a run goes round.
pub const PAIRS: usize = 4096;

/// The root's word without its bounds, which are its low 22 bits.
const NO_BOUNDS: u32 = MEMORY_ROOT & !0x3F_FFFF;

/// Memory: 4096 bytes, 256 units of 16.
const START: u32 = 0x2000_0000;
const SIZE: u32 = 4096;

/// A word with the fields E, T and B.
fn bounded(e: u32, top: u32, base: u32) -> u32 {
    NO_BOUNDS | e << 18 | (top % 512) << 9 | (base % 512)
}

/// The next word of a fixed sequence: a linear congruence of 64 bits, whose upper half is given out.
fn next(state: &mut u64) -> u32 {
    *state = state
        .wrapping_mul(6_364_136_223_846_793_005)
        .wrapping_add(1_442_695_040_888_963_407);
    (*state >> 32) as u32
}

/// A pair of a kind made of two words.
fn pair(kind: &str, first: u32, second: u32) -> Option<Pair> {
    Some(match kind {
        "random" => (first, second),
        "whole" => (first, MEMORY_ROOT),
        "exponent4" => (START + first % SIZE, bounded(4, 256, 0)),
        "small" => (first, bounded(0, first.wrapping_add(second % 512), first)),
        _ => return None,
    })
}

/// The pairs of a kind.
pub fn of_kind(kind: &str) -> Option<[Pair; PAIRS]> {
    pair(kind, 0, 0)?;
    let mut state = 1;
    let mut pairs = [(0, 0); PAIRS];
    for made in &mut pairs {
        *made = pair(kind, next(&mut state), next(&mut state))?;
    }
    Some(pairs)
}
