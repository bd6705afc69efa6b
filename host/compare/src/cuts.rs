//! Cuts and bounds by plain numbers (document 01, "Cutting bounds" and "Capability word"):
//! requests and metadata words at the edges of every exponent, and anywhere.

use crate::random::Random;
use crate::Mismatch;
use second::{bounds, cut, Cut};

/// What the four functions of one cut answer.
#[derive(Clone, Copy, PartialEq, Eq, Debug)]
pub struct CutAnswer {
    pub number: u32,
    pub low: u32,
    pub high: u64,
    pub exact: u32,
}

/// A program that cuts and looks up bounds.
#[derive(Clone, Copy)]
pub struct Label {
    pub cut: fn(u32, u32) -> CutAnswer,
    pub bounds: fn(u32, u32) -> (u32, u64),
}

/// The second program behind the same numbers: 0 for everything where refused.
fn second_cut(base: u32, length: u32) -> CutAnswer {
    match cut(base, length) {
        Cut::Region { low, high, exact } => CutAnswer {
            number: 0,
            low,
            high,
            exact: u32::from(exact),
        },
        Cut::Refused(number) => CutAnswer {
            number,
            low: 0,
            high: 0,
            exact: 0,
        },
    }
}

/// An exponent that a capability can have.
fn exponent(random: &mut Random) -> u32 {
    match random.below(16) {
        15 => 24,
        small => small,
    }
}

/// A base: near a multiple of some power of two, or any number.
fn base(random: &mut Random) -> u32 {
    let any = random.number();
    if random.one_in(2) {
        let e = exponent(random);
        random.near(any >> e << e)
    } else {
        any
    }
}

/// A request at an edge: the longest length of an exponent, an end at 2^32 or near a multiple of
/// some power of two, or any.
pub fn request(random: &mut Random) -> (u32, u32) {
    let base = base(random);
    let length = match random.below(8) {
        0..=2 => {
            let longest = 511u32 << exponent(random).min(23);
            random.near(longest)
        }
        3 => random.near(base.wrapping_neg()),
        4 => {
            let e = exponent(random);
            let end = base.wrapping_add(random.sized()) >> e << e;
            random.near(end).wrapping_sub(base)
        }
        5 => random.below(4),
        _ => random.number(),
    };
    (base, length)
}

/// Nine bits at an edge, or any.
fn nine_bits(random: &mut Random) -> u32 {
    match random.below(4) {
        0 => random.pick([0, 1, 0xFF, 0x100, 0x101, 0x1FE, 0x1FF]),
        _ => random.below(512),
    }
}

/// An address and a metadata word whose bounds lie at an edge: the address just below, at or
/// above the base, T just below, at or above B, the upper bits all 0, all 1, or any.
pub fn lookup(random: &mut Random) -> (u32, u32) {
    if random.one_in(4) {
        return (random.number(), random.word());
    }
    let b = nine_bits(random);
    let t = match random.below(2) {
        0 => random.near(b) & 0x1FF,
        _ => nine_bits(random),
    };
    let e = exponent(random);
    let stored = if e == 24 { 15 } else { e };
    let upper = random.word() & 0xFFC0_0000;
    let metadata = upper | stored << 18 | t << 9 | b;
    let base = b << e.min(23);
    let high_bits = !0 << (e + 9).min(31);
    let above = random.pick([0, !0, 1 << 31, 0x5A5A_5A5A]) & high_bits;
    (random.near(base | above), metadata)
}

/// What was compared.
#[derive(Default, Debug)]
pub struct Totals {
    pub exact: u64,
    pub rounded: u64,
    pub refused: u64,
    pub bounds: u64,
}

impl Totals {
    /// Whether every kind of answer came up.
    pub fn complete(&self) -> bool {
        self.exact > 0 && self.rounded > 0 && self.refused > 0 && self.bounds > 0
    }
}

/// Compares a program with the second one; half the cases are cuts and half are lookups.
pub fn compare(ours: Label, seed: u64, cases: u64) -> Result<Totals, Mismatch> {
    let mut totals = Totals::default();
    for case in 1..=cases {
        let mut random = Random::new(seed, case);
        let outcome = if random.one_in(2) {
            compare_cut(ours, &mut random, &mut totals)
        } else {
            compare_bounds(ours, &mut random, &mut totals)
        };
        outcome.map_err(|text| Mismatch { case, text })?;
    }
    Ok(totals)
}

fn compare_cut(ours: Label, random: &mut Random, totals: &mut Totals) -> Result<(), String> {
    let (base, length) = request(random);
    let (mine, theirs) = ((ours.cut)(base, length), second_cut(base, length));
    match (theirs.number, theirs.exact) {
        (0, 1) => totals.exact += 1,
        (0, _) => totals.rounded += 1,
        _ => totals.refused += 1,
    }
    if mine == theirs {
        return Ok(());
    }
    let asked = format!("cut base {base:08x} length {length:08x}");
    Err(format!("{asked}\n  ours   {mine:x?}\n  second {theirs:x?}"))
}

fn compare_bounds(ours: Label, random: &mut Random, totals: &mut Totals) -> Result<(), String> {
    let (address, metadata) = lookup(random);
    let (mine, theirs) = ((ours.bounds)(address, metadata), bounds(address, metadata));
    totals.bounds += 1;
    if mine == theirs {
        return Ok(());
    }
    let asked = format!("bounds address {address:08x} metadata {metadata:08x}");
    Err(format!("{asked}\n  ours   {mine:x?}\n  second {theirs:x?}"))
}

#[cfg(test)]
mod tests {
    use super::*;

    const SECOND: Label = Label {
        cut: second_cut,
        bounds,
    };

    #[test]
    fn the_second_program_agrees_with_itself() {
        assert!(compare(SECOND, 1, 20_000).unwrap().complete());
    }

    #[test]
    fn a_wrong_cut_is_found() {
        let wrong = Label {
            cut: |base, length| CutAnswer {
                exact: 1,
                ..second_cut(base, length)
            },
            ..SECOND
        };
        assert!(compare(wrong, 1, 1000).is_err());
    }
}
