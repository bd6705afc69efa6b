//! Instruction words of a row with operands: registers of every number, immediates at their edges,
//! small ones and any.

use crate::random::Random;
use crate::rows::{Form, Row};

/// The operands of a word; a form uses those that it has.
pub struct Operands {
    pub rd: u32,
    pub rs1: u32,
    pub rs2: u32,
    pub immediate: u32,
}

/// The word of a row with operands.
pub fn encode(row: &Row, operands: &Operands) -> u32 {
    let (rd, rs1, rs2) = (operands.rd << 7, operands.rs1 << 15, operands.rs2 << 20);
    let immediate = operands.immediate;
    let free = match row.form {
        Form::Register => rs2 | rs1 | rd,
        Form::Immediate => immediate << 20 | rs1 | rd,
        Form::Shift => (immediate & 31) << 20 | rs1 | rd,
        Form::Store => (immediate >> 5) << 25 | rs2 | rs1 | (immediate & 31) << 7,
        Form::Branch => branch_offset(immediate) | rs2 | rs1,
        Form::Upper => (immediate & 0xFFFF_F000) | rd,
        Form::Jump => jump_offset(immediate) | rd,
        Form::Single => rs1 | rd,
        Form::Number => (immediate & 31) << 15 | rd,
        Form::Whole => 0,
        Form::Ignored => immediate & !0x707F,
        Form::Short(short) => short.encode(operands),
    };
    row.bits | free
}

/// The offset bits of the B format.
fn branch_offset(offset: u32) -> u32 {
    (offset >> 12 & 1) << 31
        | (offset >> 5 & 0x3F) << 25
        | (offset >> 1 & 0xF) << 8
        | (offset >> 11 & 1) << 7
}

/// The offset bits of the J format.
fn jump_offset(offset: u32) -> u32 {
    (offset >> 20 & 1) << 31
        | (offset >> 1 & 0x3FF) << 21
        | (offset >> 11 & 1) << 20
        | (offset >> 12 & 0xFF) << 12
}

/// Twelve bits at an edge, small, or any.
fn twelve_bits(random: &mut Random) -> u32 {
    match random.below(8) {
        0 | 1 => 0,
        2 => random.pick([1, 2, 4, 8, 16]),
        3 => random.pick([1u32, 2, 4, 8, 16]).wrapping_neg(),
        4 => random.pick([0x7FF, 0x800, 0x7F8, 0xFFF, 0x400, 0x1FF, 0x200]),
        5 => random.near(0),
        _ => random.word(),
    }
}

/// An even offset at an edge of its format, small, or any.
fn offset(random: &mut Random) -> u32 {
    match random.below(8) {
        0..=2 => random.pick([2u32, 4, 6, 8, 12, 16]),
        3..=5 => random.pick([2u32, 4, 6, 8, 12, 16]).wrapping_neg(),
        6 => random.pick([0, 2, 0xFFE, 0x1000, 0xF_FFFE, 0x10_0000, 0x800]),
        _ => random.word() & !1,
    }
}

/// Twenty upper bits at an edge, small, or any.
fn upper_bits(random: &mut Random) -> u32 {
    let field = match random.below(4) {
        0 => random.near(0),
        1 => random.near(0x8_0000),
        _ => random.sized(),
    };
    field << 12
}

/// Any operands of a row.
pub fn any(random: &mut Random, form: Form) -> Operands {
    if let Form::Short(short) = form {
        return short.any(random);
    }
    let immediate = match form {
        Form::Branch | Form::Jump => offset(random),
        Form::Upper => upper_bits(random),
        Form::Shift | Form::Number => random.below(32),
        Form::Ignored => random.word(),
        _ => twelve_bits(random),
    };
    Operands {
        rd: random.below(16),
        rs1: random.below(16),
        rs2: random.below(16),
        immediate,
    }
}

/// The opcode of the CSR instructions, and numbers of CSRs that are none here: mie, mtvec, mscratch, mepc, mip, the
/// neighbours of the stack mark and its base, cycle, time and its upper half.
const SYSTEM: u32 = 0x73;
const OTHER_CSRS: [u32; 10] = [
    0x304, 0x305, 0x340, 0x341, 0x344, 0xBC0, 0xBC3, 0xC00, 0xC01, 0xC81,
];

/// A word with the opcode and funct3 of a row, and anything else; in a long one all registers but rs2
/// are below 16.
pub fn near_miss(random: &mut Random, row: &Row) -> u32 {
    if let Form::Short(_) = row.form {
        return row.bits & 0xE003 | random.word() & 0x1FFC;
    }
    let free = random.word() & !0x0008_0800;
    let word = row.bits & 0x707F | free & !0x707F;
    match row.bits & 0x7F {
        SYSTEM if random.one_in(2) => word & 0xF_FFFF | random.pick(OTHER_CSRS) << 20,
        _ => word,
    }
}
