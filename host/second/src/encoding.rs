//! The word of a line: names to encodings, as the RISC-V standard draws its formats and the CHERIoT
//! report its chapter 8. Nothing is checked here; the lister does that, by listing the word again.

use crate::decode::{length, LONG_BYTES};
use crate::listing::line;
use std::collections::HashMap;
use std::sync::OnceLock;

/// Which operands a long word has.
#[derive(Clone, Copy)]
enum Format {
    /// rd, rs1, rs2.
    R,
    /// rd, rs1, twelve bits.
    I,
    /// rd, rs1, five bits.
    Shift,
    /// rs1, rs2, twelve bits.
    S,
    /// rs1, rs2, an even offset.
    B,
    /// rd, twenty bits.
    U,
    /// rd, an even offset.
    J,
    /// rd, the number of a control register, five bits.
    Csr,
    /// rd, rs1.
    Single,
    /// Two sets of four bits.
    Fence,
    /// Nothing.
    Whole,
}

/// A capability instruction of three registers, by funct7 (8.3).
const fn two(funct7: u32) -> u32 {
    funct7 << 25 | 0x5B
}

/// A capability instruction of two, by its number in rs2's place.
const fn one(number: u32) -> u32 {
    two(0x7F) | number << 20
}

/// The bits of an opcode, a funct3 and a funct7.
const fn fixed(opcode: u32, funct3: u32, funct7: u32) -> u32 {
    funct7 << 25 | funct3 << 12 | opcode
}

/// The names of long words, with their fixed bits.
#[rustfmt::skip]
const FORMS: &[(Format, &[(&str, u32)])] = &[
    (Format::U, &[("lui", 0x37), ("auipcc", 0x17), ("auicgp", 0x7B)]),
    (Format::J, &[("cjal", 0x6F)]),
    (Format::B, &[
        ("beq", fixed(0x63, 0, 0)), ("bne", fixed(0x63, 1, 0)), ("blt", fixed(0x63, 4, 0)),
        ("bge", fixed(0x63, 5, 0)), ("bltu", fixed(0x63, 6, 0)), ("bgeu", fixed(0x63, 7, 0)),
    ]),
    (Format::I, &[
        ("cjalr", fixed(0x67, 0, 0)),
        ("clb", fixed(0x03, 0, 0)), ("clh", fixed(0x03, 1, 0)), ("clw", fixed(0x03, 2, 0)),
        ("clc", fixed(0x03, 3, 0)), ("clbu", fixed(0x03, 4, 0)), ("clhu", fixed(0x03, 5, 0)),
        ("addi", fixed(0x13, 0, 0)), ("slti", fixed(0x13, 2, 0)), ("sltiu", fixed(0x13, 3, 0)),
        ("xori", fixed(0x13, 4, 0)), ("ori", fixed(0x13, 6, 0)), ("andi", fixed(0x13, 7, 0)),
        ("csrrw", fixed(0x73, 1, 0)), ("csrrs", fixed(0x73, 2, 0)), ("csrrc", fixed(0x73, 3, 0)),
        ("cincaddrimm", fixed(0x5B, 1, 0)), ("csetboundsimm", fixed(0x5B, 2, 0)),
    ]),
    (Format::S, &[
        ("csb", fixed(0x23, 0, 0)), ("csh", fixed(0x23, 1, 0)), ("csw", fixed(0x23, 2, 0)), ("csc", fixed(0x23, 3, 0)),
    ]),
    (Format::Shift, &[
        ("slli", fixed(0x13, 1, 0)), ("srli", fixed(0x13, 5, 0)), ("srai", fixed(0x13, 5, 0x20)),
        ("cspecialrw", two(0x01)),
    ]),
    (Format::R, &[
        ("add", fixed(0x33, 0, 0)), ("sub", fixed(0x33, 0, 0x20)), ("sll", fixed(0x33, 1, 0)),
        ("slt", fixed(0x33, 2, 0)), ("sltu", fixed(0x33, 3, 0)), ("xor", fixed(0x33, 4, 0)),
        ("srl", fixed(0x33, 5, 0)), ("sra", fixed(0x33, 5, 0x20)), ("or", fixed(0x33, 6, 0)), ("and", fixed(0x33, 7, 0)),
        ("mul", fixed(0x33, 0, 1)), ("mulh", fixed(0x33, 1, 1)), ("mulhsu", fixed(0x33, 2, 1)), ("mulhu", fixed(0x33, 3, 1)),
        ("div", fixed(0x33, 4, 1)), ("divu", fixed(0x33, 5, 1)), ("rem", fixed(0x33, 6, 1)), ("remu", fixed(0x33, 7, 1)),
        ("csetbounds", two(0x08)), ("csetboundsexact", two(0x09)), ("cseal", two(0x0B)), ("cunseal", two(0x0C)),
        ("candperm", two(0x0D)), ("csetaddr", two(0x10)), ("cincaddr", two(0x11)), ("csub", two(0x14)),
        ("csethigh", two(0x16)), ("ctestsubset", two(0x20)), ("csetequalexact", two(0x21)),
    ]),
    (Format::Single, &[
        ("cgetperm", one(0x00)), ("cgettype", one(0x01)), ("cgetbase", one(0x02)), ("cgetlen", one(0x03)),
        ("cgettag", one(0x04)), ("croundrepresentablelength", one(0x08)), ("crepresentablealignmentmask", one(0x09)),
        ("cmove", one(0x0A)), ("ccleartag", one(0x0B)), ("cgetaddr", one(0x0F)), ("cgethigh", one(0x17)),
        ("cgettop", one(0x18)),
    ]),
    (Format::Csr, &[("csrrwi", fixed(0x73, 5, 0)), ("csrrsi", fixed(0x73, 6, 0)), ("csrrci", fixed(0x73, 7, 0))]),
    (Format::Fence, &[("fence", 0x0F)]),
    (Format::Whole, &[
        ("ecall", 0x73), ("ebreak", 0x0010_0073), ("mret", 0x3020_0073), ("wfi", 0x1050_0073), ("fence.tso", 0x8330_000F),
    ]),
];

/// The form of a long word's name.
fn form(name: &str) -> Option<(Format, u32)> {
    static NAMES: OnceLock<HashMap<&str, (Format, u32)>> = OnceLock::new();
    let names = NAMES.get_or_init(|| {
        let of = |(format, rows): &(Format, &'static [(&'static str, u32)])| {
            let format = *format;
            rows.iter().map(move |&(name, bits)| (name, (format, bits)))
        };
        FORMS.iter().flat_map(of).collect()
    });
    names.get(name).copied()
}

/// The short word of a line: there are few enough to list them all.
fn short_word(text: &str) -> Option<u32> {
    static HALVES: OnceLock<HashMap<Vec<u8>, u32>> = OnceLock::new();
    let halves = HALVES.get_or_init(|| {
        let short = (0..1 << 16).filter(|&half| length(half) != LONG_BYTES);
        let listed = |half| {
            let mut text = Vec::new();
            line(&mut text, half);
            (text, half)
        };
        short.map(listed).collect()
    });
    halves.get(text.as_bytes()).copied()
}

/// A word that may have a line as its listing, and the only one that can.
pub fn word(text: &str) -> Option<u32> {
    if let Some(half) = short_word(text) {
        return Some(half);
    }
    let mut fields = text.split('\t');
    let name = fields.next()?;
    let Some((format, bits)) = form(name) else {
        return digits(text);
    };
    let mut operands = [0; 3];
    let mut count = 0;
    for field in fields {
        *operands.get_mut(count)? = field.parse::<i32>().ok()? as u32;
        count += 1;
    }
    Some(bits | long_fields(format, &operands[..count])?)
}

/// The digits of a long word.
fn digits(text: &str) -> Option<u32> {
    let word = u32::from_str_radix(text, 16).ok()?;
    (length(word) == LONG_BYTES).then_some(word)
}

/// Operands in their places. What does not fit is cut off, and the line is then not the word's.
fn long_fields(format: Format, operands: &[u32]) -> Option<u32> {
    let five = |value: u32, at: u32| (value & 31) << at;
    Some(match (format, operands) {
        (Format::R | Format::Shift, &[rd, rs1, rs2]) => five(rd, 7) | five(rs1, 15) | five(rs2, 20),
        (Format::I, &[rd, rs1, value]) => five(rd, 7) | five(rs1, 15) | value << 20,
        (Format::S, &[rs1, rs2, offset]) => {
            five(rs1, 15) | five(rs2, 20) | five(offset, 7) | offset >> 5 << 25
        }
        (Format::B, &[rs1, rs2, offset]) => {
            let upper = (offset >> 12 & 1) << 31 | (offset >> 5 & 0x3F) << 25;
            let lower = (offset >> 1 & 15) << 8 | (offset >> 11 & 1) << 7;
            five(rs1, 15) | five(rs2, 20) | upper | lower
        }
        (Format::U, &[rd, value]) => five(rd, 7) | value << 12,
        (Format::J, &[rd, offset]) => {
            let upper = (offset >> 20 & 1) << 31 | (offset >> 1 & 0x3FF) << 21;
            let lower = (offset >> 11 & 1) << 20 | (offset >> 12 & 0xFF) << 12;
            five(rd, 7) | upper | lower
        }
        (Format::Csr, &[rd, csr, value]) => five(rd, 7) | csr << 20 | five(value, 15),
        (Format::Single, &[rd, rs1]) => five(rd, 7) | five(rs1, 15),
        (Format::Fence, &[first, second]) => (first & 15) << 24 | (second & 15) << 20,
        (Format::Whole, &[]) => 0,
        _ => return None,
    })
}
