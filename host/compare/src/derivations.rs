//! Programs that derive: words chosen for what they do with capabilities, over registers that have
//! parts to play, so that a run moves, cuts, narrows, seals, stores and loads what it holds.

use crate::operands::{any, encode, Operands};
use crate::random::Random;
use crate::rows::{Aim, Form, Outcome, Row, Table};
use lent::instruction_bytes;

/// Two authorities over the pool of capabilities in memory, and one to seal and to unseal; a word
/// seldom writes them.
pub const POOL_WRITER: u32 = 8;
pub const POOL_READER: u32 = 9;
pub const SEALER: u32 = 10;
/// Short words of the stack use c2: a third authority over the pool.
pub const STACK: u32 = 2;

/// Registers for capabilities that come and go; c1 takes links, AUICGP adds to c3.
pub const CARRIERS: [u32; 7] = [1, 3, 11, 12, 13, 14, 15];
/// Those that a short word's fields of three bits can name.
const POPULAR_CARRIERS: [u32; 5] = [11, 12, 13, 14, 15];
/// Registers for lengths, addresses and masks.
pub const NUMBERS: [u32; 4] = [4, 5, 6, 7];

/// How often which rows come up: of some, one as often as another.
const WEIGHTS: &[(u32, &[&str])] = &[
    (20, &["CLC"]),
    (10, &["CSC"]),
    (8, &["C.LD", "C.LDSP"]),
    (6, &["C.SD", "C.SDSP"]),
    (4, &["C.ADDI16SP", "C.ADDI4SPN"]),
    (2, &["C.MV", "C.ADD", "C.ADDI", "C.SLLI", "C.LI", "C.LUI"]),
    (1, &["C.LW", "C.LWSP", "C.SW", "C.SWSP"]),
    (1, &["C.JALR", "C.JR"]),
    (1, &["C.JAL", "C.J", "C.BEQZ", "C.BNEZ"]),
    (9, &["CSetBounds", "CSetBoundsExact", "CSetBoundsImm"]),
    (10, &["CSetAddr", "CIncAddr", "CIncAddrImm"]),
    (5, &["CAndPerm"]),
    (10, &["CSeal", "CUnseal"]),
    (4, &["CMove"]),
    (3, &["CClearTag", "CSetHigh"]),
    (5, &["SB", "SH", "SW"]),
    (2, &["LB", "LH", "LW"]),
    (2, &["CJALR"]),
    (2, &["CJAL", "BEQ", "BNE", "BLTU"]),
    (4, &["AUIPCC", "AUICGP"]),
    (3, &["CSpecialRW MTDC", "CSpecialRW MScratchC"]),
    (2, &["CSpecialRW MEPCC"]),
    (4, &["ADDI", "LUI", "XORI", "SLLI"]),
    (1, &["CSRRW mtval", "CSRRS mcause"]),
    (2, &["CGetAddr", "CGetBase", "CGetLen", "CGetHigh"]),
    (1, &["CSpecialRW MTCC", "ECALL", "EBREAK", "MRET"]),
];

/// The rows of the table by their weights.
pub struct Mix<'a> {
    table: &'a Table,
    classes: Vec<(u32, Vec<&'a Row>)>,
    total: u32,
}

impl<'a> Mix<'a> {
    pub fn new(table: &'a Table) -> Mix<'a> {
        let rows = |names: &[&str]| -> Vec<&'a Row> {
            let named = |name: &&str| table.rows.iter().find(|row| row.name == *name);
            names.iter().filter_map(named).collect()
        };
        let classes: Vec<_> = WEIGHTS.iter().map(|&(w, names)| (w, rows(names))).collect();
        let total = classes.iter().map(|class| class.0).sum();
        Mix {
            table,
            classes,
            total,
        }
    }

    /// A row by its weight; now and then any row of the table.
    fn pick(&self, random: &mut Random) -> &'a Row {
        if random.one_in(24) {
            return self.table.pick(random);
        }
        let mut left = random.below(self.total);
        for (weight, rows) in &self.classes {
            if left < *weight {
                return rows[random.below(rows.len() as u32) as usize];
            }
            left -= weight;
        }
        self.table.pick(random)
    }

    /// A jump with a link in a register.
    pub fn jump(&self, link: u32, offset: u32) -> u32 {
        let row = self.table.rows.iter().find(|row| row.name == "CJAL");
        let operands = Operands {
            rd: link,
            rs1: 0,
            rs2: 0,
            immediate: offset,
        };
        row.map_or(0, |row| encode(row, &operands))
    }

    /// A short word of a program.
    pub fn short_word(&self, random: &mut Random, granules: u32) -> u32 {
        let mut words = (0..32).map(|_| self.word(random, granules));
        words
            .find(|&word| instruction_bytes(word) == 2)
            .unwrap_or(C_NOP)
    }

    /// A word of a program, for a pool of so many granules.
    pub fn word(&self, random: &mut Random, granules: u32) -> u32 {
        let row = self.pick(random);
        let operands = Operands {
            rd: written(random, row),
            rs1: first(random, row),
            rs2: second(random, row),
            immediate: row.form.held(immediate(random, row, granules)),
        };
        row.some(encode(row, &operands), || any(random, row.form))
    }
}

/// The no-op that stands where no other short word was drawn.
const C_NOP: u32 = 0x0001;

fn carrier(random: &mut Random, row: &Row) -> u32 {
    match row.form {
        Form::Short(_) => random.pick(POPULAR_CARRIERS),
        _ => random.pick(CARRIERS),
    }
}

fn number(random: &mut Random) -> u32 {
    random.pick(NUMBERS)
}

/// The register that a word writes.
fn written(random: &mut Random, row: &Row) -> u32 {
    match random.below(48) {
        0 => random.below(16),
        1 => 0,
        _ if row.can(Outcome::Tagged) || row.can(Outcome::Untagged) => carrier(random, row),
        _ => number(random),
    }
}

/// The first source: an authority over the pool for an access, else mostly a carrier.
fn first(random: &mut Random, row: &Row) -> u32 {
    let any_other = random.below(16);
    let pick = random.below(8);
    match (row.aim, pick) {
        (_, 0) => any_other,
        (Aim::Load(_), 1..=4) => POOL_READER,
        (Aim::Load(_) | Aim::Store(_), 1..=6) => POOL_WRITER,
        (Aim::SetAddress, 1 | 2) => SEALER,
        (Aim::Special, 1..=3) => 0,
        (Aim::Compare | Aim::Extremes, _) => number(random),
        (Aim::Nothing, _) if matches!(row.form, Form::Short(_)) => number(random),
        _ => carrier(random, row),
    }
}

/// The second source: a capability where the row takes one, else mostly a number.
fn second(random: &mut Random, row: &Row) -> u32 {
    let any_other = random.below(16);
    let pick = random.below(8);
    match (row.aim, pick) {
        (_, 0) => any_other,
        (Aim::Seal | Aim::Unseal, 1..=5) => SEALER,
        (Aim::Store(8) | Aim::Seal | Aim::Unseal | Aim::Subset, _) => carrier(random, row),
        _ => number(random),
    }
}

fn immediate(random: &mut Random, row: &Row, granules: u32) -> u32 {
    let usual = any(random, row.form).immediate;
    if random.one_in(16) {
        return usual;
    }
    match row.aim {
        Aim::Load(size) => size * random.below(8 * granules / size),
        Aim::Store(size) => size * random.below(4 * granules / size),
        Aim::JumpRegister => 0,
        Aim::Cut => random.pick([0, 1, 4, 7, 8, 12, 16, 64, 299, 300]),
        Aim::AddAddress => random
            .pick([8u32, 4, 1, 16, 64, 500])
            .wrapping_mul(sign(random)),
        Aim::Jump => distance(random),
        _ if row.form == Form::Upper => random.pick([0, 0, usual]),
        _ => usual,
    }
}

fn sign(random: &mut Random) -> u32 {
    random.pick([1, u32::MAX])
}

/// A few instructions on, now and then back.
fn distance(random: &mut Random) -> u32 {
    let distance = 4 * (1 + random.below(6)) + random.pick([0, 0, 0, 2]);
    if random.one_in(8) {
        distance.wrapping_neg()
    } else {
        distance
    }
}

#[cfg(test)]
mod tests {
    use super::*;
    use crate::instructions::table;
    use second::decode::instruction;

    #[test]
    fn every_row_that_has_a_weight_is_in_the_table() {
        let table = table();
        let mix = Mix::new(&table);
        for ((_, names), (_, rows)) in WEIGHTS.iter().zip(&mix.classes) {
            assert_eq!(names.len(), rows.len(), "{names:?}");
        }
    }

    #[test]
    fn every_word_is_an_instruction() {
        let table = table();
        let mix = Mix::new(&table);
        let mut random = Random::new(1, 1);
        for _ in 0..10_000 {
            let word = mix.word(&mut random, 16);
            assert!(instruction(word).is_some(), "{word:08x}");
        }
    }
}
