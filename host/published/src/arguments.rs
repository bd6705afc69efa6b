//! Arguments of routines: values at the edges of each kind, values drawn at random, and where the
//! ilp32e calling convention has them.

use crate::qemu::{Record, WINDOW};
use compare::random::Random;

/// What an argument is.
#[derive(Clone, Copy, PartialEq, Eq, Debug)]
pub enum Kind {
    Word,
    Long,
    Float,
    Double,
    /// Four words by reference.
    Quad,
    /// A place of four words for a result.
    Place,
    /// A count of bytes in a quad.
    Count,
}

impl Kind {
    /// The kinds of a signature, one letter each.
    pub fn of(signature: &str) -> Vec<Kind> {
        let kind = |letter| match letter {
            'l' => Kind::Long,
            'f' => Kind::Float,
            'd' => Kind::Double,
            'q' => Kind::Quad,
            'r' => Kind::Place,
            'n' => Kind::Count,
            _ => Kind::Word,
        };
        signature.chars().map(kind).collect()
    }

    /// The words that hold a value itself.
    fn words(self) -> usize {
        match self {
            Kind::Word | Kind::Float | Kind::Count => 1,
            Kind::Long | Kind::Double => 2,
            Kind::Quad | Kind::Place => 4,
        }
    }

    fn by_reference(self) -> bool {
        matches!(self, Kind::Quad | Kind::Place)
    }

    /// The values at the edges of the kind.
    pub fn edges(self) -> Vec<[u32; 4]> {
        match self {
            Kind::Word => WORDS.iter().map(|&word| [word, 0, 0, 0]).collect(),
            Kind::Long => longs(),
            Kind::Float => FLOATS.iter().map(|&word| [word, 0, 0, 0]).collect(),
            Kind::Double => upper(&DOUBLES, |high, low| [low, high, 0, 0]),
            Kind::Quad => upper(&QUADS, |high, low| [low, !low, low, high]),
            Kind::Place => vec![[0; 4]],
            Kind::Count => (0..=16).map(|count| [count, 0, 0, 0]).collect(),
        }
    }

    /// A value at random, an edge as often as not.
    pub fn draw(self, random: &mut Random, edges: &[[u32; 4]]) -> [u32; 4] {
        let edge = edges[random.below(edges.len() as u32) as usize];
        if self == Kind::Count || random.one_in(2) {
            return edge;
        }
        let mut value = [0; 4].map(|_| random.number());
        // A number of about the size of an edge: only the low bits of its leading word change.
        if random.one_in(2) {
            let leading = self.words() - 1;
            value[leading] = edge[leading] ^ random.word() >> (1 + random.below(31));
        }
        value
    }
}

#[rustfmt::skip]
const WORDS: [u32; 40] = [
    0, 1, 2, 3, 4, 7, 8, 10, 15, 16, 31, 32, 33, 63, 64, 100, 0x7F, 0x80, 0xFF, 0x100, 0x1000,
    0x7FFF, 0x8000, 0xFFFF, 0x1_0000, 0x00FF_FFFF, 0x0F0F_0F0F, 0x1234_5678, 0x3FFF_FFFF,
    0x4000_0000, 0x5555_5555, 0x7FFF_FFFE, 0x7FFF_FFFF, 0x8000_0000, 0x8000_0001, 0xAAAA_AAAA,
    0xC000_0000, 0xFFFF_0000, 0xFFFF_FFFE, 0xFFFF_FFFF,
];

/// Zeros, the least and greatest, infinities, numbers that are none, and what lies at the ends of
/// the integers.
#[rustfmt::skip]
const FLOATS: [u32; 34] = [
    0, 1, 2, 0x007F_FFFF, 0x0080_0000, 0x0080_0001, 0x3380_0000, 0x3400_0000, 0x3F00_0000,
    0x3F7F_FFFF, 0x3F80_0000, 0x3F80_0001, 0x3FC0_0000, 0x4000_0000, 0x4B7F_FFFF, 0x4B80_0000,
    0x4EFF_FFFF, 0x4F00_0000, 0x4F7F_FFFF, 0x4F80_0000, 0x5F00_0000, 0x5F80_0000, 0x7F7F_FFFF,
    0x7F80_0000, 0x7F80_0001, 0x7FC0_0000, 0x8000_0000, 0x8000_0001, 0xBF80_0000, 0xCF00_0000,
    0xCF00_0001, 0xDF00_0000, 0xFF80_0000, 0xFFFF_FFFF,
];

/// The upper words of the like.
#[rustfmt::skip]
const DOUBLES: [u32; 18] = [
    0, 0x0000_0001, 0x000F_FFFF, 0x0010_0000, 0x36A0_0000, 0x380F_FFFF, 0x3CA0_0000, 0x3FF0_0000,
    0x41DF_FFFF, 0x41E0_0000, 0x41EF_FFFF, 0x43E0_0000, 0x47EF_FFFF, 0x7FEF_FFFF, 0x7FF0_0000,
    0x7FF8_0000, 0xBFF0_0000, 0xC1E0_0000,
];
#[rustfmt::skip]
const QUADS: [u32; 16] = [
    0, 1, 0x0000_FFFF, 0x0001_0000, 0x3F69_0000, 0x3F8F_0000, 0x3FFF_0000, 0x401D_FFFF,
    0x401E_0000, 0x403E_0000, 0x407F_0000, 0x43FE_FFFF, 0x7FFE_FFFF, 0x7FFF_0000, 0x7FFF_8000,
    0xBFFF_0000,
];

/// Upper words, each over the least and the greatest lower word.
fn upper(words: &[u32], join: fn(u32, u32) -> [u32; 4]) -> Vec<[u32; 4]> {
    let both = |&high: &u32| [join(high, 0), join(high, !0)];
    words.iter().flat_map(both).collect()
}

/// Edges of 64 bits.
fn longs() -> Vec<[u32; 4]> {
    const UPPER: [u32; 6] = [0, 1, 0xFFFF, 0x7FFF_FFFF, 0x8000_0000, 0xFFFF_FFFF];
    const LOWER: [u32; 6] = [0, 1, 10, 0x7FFF_FFFF, 0x8000_0000, 0xFFFF_FFFF];
    let under = |&high: &u32| LOWER.map(|low| [low, high, 0, 0]);
    UPPER.iter().flat_map(under).collect()
}

/// The first word of the window that no argument on the stack takes.
const FIRST_PLACE: usize = 4;

/// What every call of a routine has alike.
#[derive(Clone, Copy)]
pub struct Fixed {
    pub routine: u32,
    pub stack: u32,
    /// The global pointer, x3.
    pub global: u32,
}

/// Puts arguments where the calling convention has them: six registers, then the stack, numbers
/// of two words in two places; four words go by reference, to a place in the window.
pub fn put(record: &mut Record, kinds: &[Kind], values: &[[u32; 4]], stack: u32) {
    let (mut next, mut place) = (0, FIRST_PLACE);
    for (kind, value) in kinds.iter().zip(values) {
        let mut given = value[..kind.words()].to_vec();
        if kind.by_reference() {
            record.window[place..place + 4].copy_from_slice(value);
            given = vec![stack + 4 * place as u32];
            place += 4;
        }
        for word in given {
            match next {
                0..=5 => record.registers[10 + next] = word,
                _ => record.window[next - 6] = word,
            }
            next += 1;
        }
    }
}

/// The calls of a routine: every pair of edges of its first two arguments, then so many at
/// random. The registers that hold no argument and the window hold anything.
pub fn calls(kinds: &[Kind], more: usize, random: &mut Random, fixed: Fixed) -> Vec<Record> {
    let edges: Vec<Vec<[u32; 4]>> = kinds.iter().map(|kind| kind.edges()).collect();
    let count = |argument: usize| edges.get(argument).map_or(1, Vec::len);
    let pairs = count(0) * count(1);
    let mut records = Vec::with_capacity(pairs + more);
    for number in 0..pairs + more {
        let mut record = Record {
            place: fixed.routine,
            registers: [0; 16].map(|_: u32| random.number()),
            window: [0; WINDOW].map(|_: u32| random.number()),
        };
        let mut values = Vec::with_capacity(kinds.len());
        for (argument, (kind, edges)) in kinds.iter().zip(&edges).enumerate() {
            values.push(match argument {
                0 if number < pairs => edges[number % edges.len()],
                1 if number < pairs => edges[number / count(0)],
                _ => kind.draw(random, edges),
            });
        }
        put(&mut record, kinds, &values, fixed.stack);
        record.registers[0] = 0;
        record.registers[3] = fixed.global;
        records.push(record);
    }
    records
}

#[cfg(test)]
mod tests {
    use super::*;

    fn blank() -> Record {
        Record {
            place: 0,
            registers: [0; 16],
            window: [0; WINDOW],
        }
    }

    #[test]
    fn arguments_go_to_registers_then_the_stack() {
        let mut record = blank();
        let kinds = Kind::of("ldll");
        let values = [1, 3, 5, 7].map(|low| [low, low + 1, 0, 0]);
        put(&mut record, &kinds, &values, 0x1000);
        assert_eq!(record.registers[10..], [1, 2, 3, 4, 5, 6]);
        assert_eq!(record.window[..4], [7, 8, 0, 0]);
    }

    #[test]
    fn quads_go_by_reference() {
        let mut record = blank();
        let values = [[0; 4], [1, 2, 3, 4], [9, 0, 0, 0]];
        put(&mut record, &Kind::of("rqw"), &values, 0x1000);
        assert_eq!(record.registers[10..13], [0x1010, 0x1020, 9]);
        assert_eq!(record.window[8..12], [1, 2, 3, 4]);
    }

    #[test]
    fn every_pair_of_edges_comes_up() {
        let mut random = Random::new(1, 1);
        let fixed = Fixed {
            routine: 0,
            stack: 0,
            global: 7,
        };
        let records = calls(&Kind::of("nn"), 5, &mut random, fixed);
        assert_eq!(records.len(), 17 * 17 + 5);
        let pairs: std::collections::BTreeSet<_> = records
            .iter()
            .map(|record| (record.registers[10], record.registers[11]))
            .collect();
        assert_eq!(pairs.len(), 17 * 17);
    }
}
