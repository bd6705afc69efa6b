//! What a row of the instruction table says: an encoding, how its operands are aimed, and
//! everything that a step of it can do. The rows themselves are in instructions.rs.

use crate::operands::{encode, Operands};
use crate::random::Random;
use crate::short::Short;
use std::mem::discriminant;

/// What a step can do: a column of the coverage table.
#[derive(Clone, Copy, PartialEq, Eq, Debug)]
pub enum Outcome {
    Retired,
    /// A branch that went elsewhere than to the next instruction.
    Taken,
    /// Retired, and the capability written is tagged, or is not.
    Tagged,
    Untagged,
    /// A trap with this mcause.
    Trap(u32),
    /// A capability trap with this cause in mtval.
    Violation(u32),
}

/// Columns that a table of counts needs.
pub const COLUMNS: usize = 68;

impl Outcome {
    /// The place of its count: four kinds of retiring, then 32 causes of each kind.
    pub fn column(self) -> usize {
        match self {
            Outcome::Retired => 0,
            Outcome::Taken => 1,
            Outcome::Tagged => 2,
            Outcome::Untagged => 3,
            Outcome::Trap(cause) => 4 + (cause & 31) as usize,
            Outcome::Violation(cause) => 36 + (cause & 31) as usize,
        }
    }
}

/// Which fields of a word are operands; the others are fixed.
#[derive(Clone, Copy, PartialEq, Eq, Debug)]
pub enum Form {
    /// rd, rs1, rs2.
    Register,
    /// rd, rs1, twelve bits.
    Immediate,
    /// rd, rs1, five bits.
    Shift,
    /// rs1, rs2, twelve bits.
    Store,
    /// rs1, rs2, twelve bits of an even offset.
    Branch,
    /// rd, twenty upper bits.
    Upper,
    /// rd, twenty bits of an even offset.
    Jump,
    /// rd, rs1.
    Single,
    /// rd, and five bits that are a number where others name rs1.
    Number,
    /// The whole word is fixed.
    Whole,
    /// Every field but opcode and funct3 is ignored.
    Ignored,
    /// A short word.
    Short(Short),
}

impl Form {
    /// The fixed bits.
    pub fn mask(self) -> u32 {
        match self {
            Form::Register | Form::Shift => 0xFE00_707F,
            Form::Immediate | Form::Store | Form::Branch | Form::Ignored => 0x0000_707F,
            Form::Upper | Form::Jump => 0x0000_007F,
            Form::Single | Form::Number => 0xFFF0_707F,
            Form::Whole => 0xFFFF_FFFF,
            Form::Short(short) => short.mask,
        }
    }

    /// Whether a word of the form can name a register above 15.
    pub fn names_registers(self) -> bool {
        match self {
            Form::Whole | Form::Ignored => false,
            Form::Short(short) => short.names_any_register(),
            _ => true,
        }
    }

    /// The immediate closest to a wanted one that a word of the form can hold. A long word drops what
    /// it has no place for.
    pub fn held(self, immediate: u32) -> u32 {
        match self {
            Form::Short(short) => short.held(immediate),
            _ => immediate,
        }
    }

    /// The register that a word writes.
    pub fn written(self, word: u32) -> usize {
        match self {
            Form::Short(short) => short.rd.of(word) as usize,
            _ => (word >> 7 & 31) as usize,
        }
    }
}

/// What the operands of a row are made to fit, most of the time.
#[derive(Clone, Copy, PartialEq, Eq, Debug)]
pub enum Aim {
    Nothing,
    Load(u32),
    Store(u32),
    Jump,
    JumpRegister,
    Special,
    Seal,
    Unseal,
    Length,
    Cut,
    SetAddress,
    AddAddress,
    Narrow,
    Subset,
    Equal,
    Compare,
    /// The words at which products and quotients change: `EXTREMES`.
    Extremes,
    /// The stack mark and its base, with low bits, and what is written to them.
    Mark,
}

/// 0, 1, -1, the most negative and the most positive.
pub const EXTREMES: [u32; 5] = [0, 1, u32::MAX, 1 << 31, (1 << 31) - 1];

/// One instruction.
pub struct Row {
    pub name: &'static str,
    pub form: Form,
    /// The value of the fixed bits.
    pub bits: u32,
    pub aim: Aim,
    /// Everything that a step of it can do.
    pub outcomes: Vec<Outcome>,
}

impl Row {
    /// Whether a word is of this row, whatever registers it names.
    pub fn fits(&self, word: u32) -> bool {
        let admitted = match self.form {
            Form::Short(short) => short.admits(word),
            _ => true,
        };
        admitted && word & self.form.mask() == self.bits
    }

    /// A word if it is of this row, else one with other operands: a short form does not admit all.
    pub fn some(&self, word: u32, others: impl FnOnce() -> Operands) -> u32 {
        if self.fits(word) {
            word
        } else {
            encode(self, &others())
        }
    }

    pub fn can(&self, outcome: Outcome) -> bool {
        self.outcomes.contains(&outcome)
    }
}

/// Every instruction, and the classes: rows of one opcode with the same form and aim; short ones
/// with the same aim.
pub struct Table {
    pub rows: Vec<Row>,
    classes: Vec<Vec<usize>>,
}

impl Table {
    /// The table of these rows.
    pub fn new(rows: Vec<Row>) -> Table {
        let class = |row: &Row| {
            let opcode = match row.form {
                Form::Short(_) => 0,
                _ => row.bits & 0x7F,
            };
            (opcode, discriminant(&row.form), row.aim)
        };
        let mut classes: Vec<Vec<usize>> = Vec::new();
        for (index, row) in rows.iter().enumerate() {
            let mut known = classes.iter_mut();
            match known.find(|known| class(&rows[known[0]]) == class(row)) {
                Some(known) => known.push(index),
                None => classes.push(vec![index]),
            }
        }
        Table { rows, classes }
    }

    /// A row: each class as often as another, and each row of a class.
    pub fn pick(&self, random: &mut Random) -> &Row {
        let class = &self.classes[random.below(self.classes.len() as u32) as usize];
        &self.rows[class[random.below(class.len() as u32) as usize]]
    }

    /// The row of a name that is one.
    pub fn named(&self, name: &str) -> &Row {
        let found = self.rows.iter().find(|row| row.name == name);
        found.unwrap_or_else(|| panic!("no row {name}"))
    }

    /// The number of the row that a word is of.
    pub fn find(&self, word: u32) -> Option<usize> {
        self.rows.iter().position(|row| row.fits(word))
    }
}
