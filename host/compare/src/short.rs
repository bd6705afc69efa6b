//! The fields of short words, read from layouts that are written as the RISC-V standard draws its
//! tables of the C extension, from bit 15 down.
//!
//! ```text
//! 010     fixed bits
//! i5:3    bits 5 to 3 of the immediate
//! d s t   rd, rs1 and rs2 of five bits; e is both rd and rs1
//! d'      the same of three bits, for 8 to 15
//! d-0     any but register 0
//! ```

use crate::operands::Operands;
use crate::random::Random;

/// Where a register stands in a short word.
#[derive(Clone, Copy, PartialEq, Eq, Debug)]
pub enum Field {
    /// Nowhere: the form means this register.
    Always(u32),
    /// In five bits from this one on.
    Full(u32),
    /// In three bits, for 8 to 15.
    Popular(u32),
}

/// A register of a form, and the one that it may not be.
#[derive(Clone, Copy, PartialEq, Eq, Debug)]
pub struct Named {
    pub field: Field,
    pub but: Option<u32>,
}

impl Named {
    pub const fn always(register: u32) -> Named {
        Named {
            field: Field::Always(register),
            but: None,
        }
    }

    /// The register that a word names.
    pub fn of(self, word: u32) -> u32 {
        match self.field {
            Field::Always(register) => register,
            Field::Full(at) => word >> at & 31,
            Field::Popular(at) => 8 + (word >> at & 7),
        }
    }

    /// A word with this register in its field.
    fn put(self, word: u32, register: u32) -> u32 {
        match self.field {
            Field::Always(_) => word,
            Field::Full(at) => word & !(31 << at) | (register & 31) << at,
            Field::Popular(at) => word & !(7 << at) | (register & 7) << at,
        }
    }

    fn any(self, random: &mut Random) -> u32 {
        let drawn = match self.field {
            Field::Always(register) => return register,
            Field::Full(_) => random.below(16),
            Field::Popular(_) => 8 + random.below(8),
        };
        if Some(drawn) == self.but {
            drawn + 1
        } else {
            drawn
        }
    }
}

/// What the immediate of a form is.
#[derive(Clone, Copy, PartialEq, Eq, Debug)]
pub enum Kind {
    Unsigned,
    Signed,
    /// The zero is reserved, or another form.
    UnsignedNotZero,
    SignedNotZero,
}

/// No bit of the immediate.
const NONE: u8 = u8::MAX;

/// The fields of a form.
#[derive(Clone, Copy, PartialEq, Eq, Debug)]
pub struct Short {
    /// The fixed bits.
    pub mask: u32,
    pub rd: Named,
    pub rs1: Named,
    pub rs2: Named,
    kind: Kind,
    /// For each bit of the word, the bit of the immediate that it is.
    places: [u8; 16],
}

impl Short {
    /// The fields of a layout, and the value of its fixed bits. `means` are the registers of rd, rs1
    /// and rs2 where the layout names none.
    pub fn new(layout: &str, kind: Kind, means: [u32; 3]) -> (Short, u32) {
        let [rd, rs1, rs2] = means.map(Named::always);
        let mut short = Short {
            mask: 0,
            rd,
            rs1,
            rs2,
            kind,
            places: [NONE; 16],
        };
        let (mut bits, mut left) = (0, 16);
        for token in layout.split_whitespace() {
            left -= short.take(token, left, &mut bits);
        }
        assert_eq!(left, 0, "{layout}");
        (short, bits)
    }

    /// Takes a token that ends below bit `left`; how many bits it has.
    fn take(&mut self, token: &str, left: u32, bits: &mut u32) -> u32 {
        if let Some(places) = token.strip_prefix('i') {
            let (high, low) = places.split_once(':').unwrap_or((places, places));
            let number = |digits: &str| digits.parse::<u32>().expect("a bit of the immediate");
            let (high, low) = (number(high), number(low));
            for place in low..=high {
                self.places[(left - 1 - (high - place)) as usize] = place as u8;
            }
            return high - low + 1;
        }
        if token.starts_with(['0', '1']) {
            let width = token.len() as u32;
            let value = u32::from_str_radix(token, 2).expect("fixed bits");
            *bits |= value << (left - width);
            self.mask |= ((1 << width) - 1) << (left - width);
            return width;
        }
        let (name, but) = token.split_once('-').unwrap_or((token, ""));
        let (width, field) = match name.len() {
            1 => (5, Field::Full(left - 5)),
            _ => (3, Field::Popular(left - 3)),
        };
        let but = but.parse().ok();
        let named = Named { field, but };
        match &name[..1] {
            "d" => self.rd = named,
            "s" => self.rs1 = named,
            "t" => self.rs2 = named,
            "e" => (self.rd, self.rs1) = (named, named),
            _ => panic!("{token}"),
        }
        width
    }

    fn registers(self) -> [Named; 3] {
        [self.rd, self.rs1, self.rs2]
    }

    /// Whether a form can name a register above 15.
    pub fn names_any_register(self) -> bool {
        let full = |named: Named| matches!(named.field, Field::Full(_));
        self.registers().into_iter().any(full)
    }

    /// Whether a word with the fixed bits is of this form, whatever registers it names.
    pub fn admits(self, word: u32) -> bool {
        let named = |named: Named| Some(named.of(word)) != named.but;
        let zero_free = matches!(self.kind, Kind::UnsignedNotZero | Kind::SignedNotZero);
        let zero = zero_free && self.immediate(word) == 0;
        word < 1 << 16 && !zero && self.registers().into_iter().all(named)
    }

    /// The bits of a word and of its immediate.
    fn pairs(self) -> impl Iterator<Item = (usize, u8)> {
        let pairs = self.places.into_iter().enumerate();
        pairs.filter(|&(_, place)| place != NONE)
    }

    fn immediate(self, word: u32) -> u32 {
        self.pairs()
            .map(|(bit, place)| (word >> bit & 1) << place)
            .sum()
    }

    /// The immediate of these places closest to a wanted one: its bits there, extended by the sign.
    pub fn held(self, wanted: u32) -> u32 {
        let held: u32 = self.pairs().map(|(_, place)| wanted & 1 << place).sum();
        let places = || self.pairs().map(|(_, place)| u32::from(place));
        let (Some(lowest), Some(highest)) = (places().min(), places().max()) else {
            return 0;
        };
        match self.kind {
            Kind::UnsignedNotZero | Kind::SignedNotZero if held == 0 => 1 << lowest,
            Kind::Signed | Kind::SignedNotZero => {
                let above = 31 - highest;
                ((held << above) as i32 >> above) as u32
            }
            _ => held,
        }
    }

    /// The free bits of a word with operands.
    pub fn encode(self, operands: &Operands) -> u32 {
        let bit = |(bit, place): (usize, u8)| (operands.immediate >> place & 1) << bit;
        let word = self.pairs().map(bit).sum();
        let word = self.rd.put(word, operands.rd);
        let word = self.rs1.put(word, operands.rs1);
        self.rs2.put(word, operands.rs2)
    }

    /// Any operands: registers of every number, immediates of one bit, of all and of any.
    pub fn any(self, random: &mut Random) -> Operands {
        let wanted = match random.below(5) {
            0 => 0,
            1 => 1 << random.below(12),
            2 => u32::MAX,
            3 => !(1 << random.below(12)),
            _ => random.word(),
        };
        let rs1 = self.rs1.any(random);
        let rd = if self.rd == self.rs1 {
            rs1
        } else {
            self.rd.any(random)
        };
        Operands {
            rd,
            rs1,
            rs2: self.rs2.any(random),
            immediate: self.held(wanted),
        }
    }
}

#[cfg(test)]
mod tests {
    use super::*;

    #[test]
    fn a_layout_and_back() {
        let layout = "010 i5:3 s' i2 i6 d' 00";
        let (lw, bits) = Short::new(layout, Kind::Unsigned, [0; 3]);
        assert_eq!((lw.mask, bits), (0xE003, 0x4000));
        let operands = Operands {
            rd: 9,
            rs1: 10,
            rs2: 0,
            immediate: 64 + 8,
        };
        // c.lw x9, 72(x10)
        let word = bits | lw.encode(&operands);
        assert_eq!(word, 0x4524);
        assert_eq!((lw.rd.of(word), lw.rs1.of(word)), (9, 10));
        assert_eq!(lw.immediate(word), 72);
        assert_eq!((lw.held(0xFFFF_FFFF), lw.held(0)), (0x7C, 0));
        let (branch, _) = Short::new("110 i8 i4:3 s' i7:6 i2:1 i5 01", Kind::Signed, [0; 3]);
        assert_eq!(branch.held(0x1FE), 0xFFFF_FFFE);
        assert_eq!(branch.held(0xFF), 0xFE);
    }

    #[test]
    fn what_a_form_admits() {
        let (load, bits) = Short::new("010 i5 d-0 i4:2 i7:6 10", Kind::Unsigned, [0, 2, 0]);
        assert!(load.names_any_register() && !load.admits(bits) && load.admits(bits | 1 << 7));
        assert!(!load.admits(bits | 1 << 7 | 1 << 16));
        let (upper, bits) = Short::new("011 i17 d-2 i16:12 01", Kind::SignedNotZero, [0; 3]);
        assert!(!upper.admits(bits | 3 << 7) && upper.admits(bits | 3 << 7 | 1 << 2));
        assert!(!upper.admits(bits | 2 << 7 | 1 << 2));
        assert_eq!(upper.held(0), 1 << 12);
    }
}
