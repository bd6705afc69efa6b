//! The instructions, a row each. Written from documents 01 and 02, the CHERIoT report (7.5 to 7.14, 8 and
//! 9) and the RISC-V standard, and not from either program: the words of the machine comparison
//! are made from these rows, and what it reached is counted by them.

use crate::rows::Aim::*;
use crate::rows::Form::*;
use crate::rows::Outcome::{self, Retired, Tagged, Taken, Trap, Untagged, Violation};
use crate::rows::{Aim, Form, Row, Table};
use crate::short::Kind::{self, Signed, SignedNotZero, Unsigned, UnsignedNotZero};
use crate::short::Short;

// Ordinary causes (document 01, "Traps").
pub const FETCH_MISALIGNED: Outcome = Trap(0);
pub const FETCH_ACCESS: Outcome = Trap(1);
pub const ILLEGAL: Outcome = Trap(2);
const BREAKPOINT: Outcome = Trap(3);
const LOAD_MISALIGNED: Outcome = Trap(4);
const LOAD_ACCESS: Outcome = Trap(5);
const STORE_MISALIGNED: Outcome = Trap(6);
const STORE_ACCESS: Outcome = Trap(7);
const ECALL: Outcome = Trap(11);

// Capability causes (CHERIoT report, Table 7.3).
pub const BOUNDS: Outcome = Violation(1);
pub const TAG: Outcome = Violation(2);
pub const SEAL: Outcome = Violation(3);
pub const EXECUTE: Outcome = Violation(17);
const LOAD: Outcome = Violation(18);
const STORE: Outcome = Violation(19);
const STORE_CAPABILITY: Outcome = Violation(21);
const STORE_LOCAL: Outcome = Violation(22);
const SYSTEM: Outcome = Violation(24);

// What instructions can do, but for the illegal register numbers that `table` adds. A single byte
// is never misaligned; CSetHigh and CClearTag never leave a tag.
const PLAIN: &[Outcome] = &[Retired];
const CAPABILITY: &[Outcome] = &[Retired, Tagged, Untagged];
const UNTAGGED: &[Outcome] = &[Retired, Untagged];
const PRIVILEGED: &[Outcome] = &[Retired, SYSTEM];
const SPECIAL: &[Outcome] = &[Retired, Tagged, Untagged, SYSTEM];
const BRANCH: &[Outcome] = &[Retired, Taken, BOUNDS];
const JUMP: &[Outcome] = &[Retired, BOUNDS];
const CJAL: &[Outcome] = &[Retired, Tagged, Untagged, BOUNDS];
const JUMP_REGISTER: &[Outcome] = &[Retired, TAG, SEAL, EXECUTE, BOUNDS];
const CJALR: &[Outcome] = &[Retired, Tagged, Untagged, TAG, SEAL, EXECUTE, BOUNDS];
const BYTE_LOAD: &[Outcome] = &[Retired, TAG, SEAL, LOAD, BOUNDS, LOAD_ACCESS];
#[rustfmt::skip]
const WIDE_LOAD: &[Outcome] =
    &[Retired, TAG, SEAL, LOAD, BOUNDS, LOAD_MISALIGNED, LOAD_ACCESS];
#[rustfmt::skip]
const CAPABILITY_LOAD: &[Outcome] =
    &[Retired, Tagged, Untagged, TAG, SEAL, LOAD, BOUNDS, LOAD_MISALIGNED, LOAD_ACCESS];
const BYTE_STORE: &[Outcome] = &[Retired, TAG, SEAL, STORE, BOUNDS, STORE_ACCESS];
#[rustfmt::skip]
const WIDE_STORE: &[Outcome] =
    &[Retired, TAG, SEAL, STORE, BOUNDS, STORE_MISALIGNED, STORE_ACCESS];
#[rustfmt::skip]
const CAPABILITY_STORE: &[Outcome] = &[
    Retired, TAG, SEAL, STORE, STORE_CAPABILITY, STORE_LOCAL, BOUNDS, STORE_MISALIGNED,
    STORE_ACCESS,
];

/// The fixed bits of funct7, funct3 and opcode.
const fn r(funct7: u32, funct3: u32, opcode: u32) -> u32 {
    funct7 << 25 | funct3 << 12 | opcode
}

/// A capability instruction with two sources, by funct7.
const fn two(funct7: u32) -> u32 {
    r(funct7, 0, 0x5B)
}

/// A capability instruction with one source, by its number in the rs2 field.
const fn one(number: u32) -> u32 {
    two(0x7F) | number << 20
}

/// CSpecialRW of a special register.
const fn special(number: u32) -> u32 {
    two(0x01) | number << 20
}

/// A CSR instruction by funct3.
const fn csr(funct3: u32, number: u32) -> u32 {
    number << 20 | r(0, funct3, 0x73)
}

const MSTATUS: u32 = 0x300;
const MCAUSE: u32 = 0x342;
const MTVAL: u32 = 0x343;
const MSHWM: u32 = 0xBC1;
const MSHWMB: u32 = 0xBC2;

#[rustfmt::skip]
const LINES: &[(&str, Form, u32, Aim, &[Outcome])] = &[
    // Upper immediates, jumps and branches (CHERIoT report, 7.5, 7.12, CJAL and CJALR).
    ("LUI", Upper, 0x37, Nothing, PLAIN),
    ("AUIPCC", Upper, 0x17, Nothing, CAPABILITY),
    ("AUICGP", Upper, 0x7B, Nothing, CAPABILITY),
    ("CJAL", Form::Jump, 0x6F, Aim::Jump, CJAL),
    ("CJALR", Immediate, 0x67, JumpRegister, CJALR),
    ("BEQ", Branch, r(0, 0, 0x63), Aim::Jump, BRANCH),
    ("BNE", Branch, r(0, 1, 0x63), Aim::Jump, BRANCH),
    ("BLT", Branch, r(0, 4, 0x63), Aim::Jump, BRANCH),
    ("BGE", Branch, r(0, 5, 0x63), Aim::Jump, BRANCH),
    ("BLTU", Branch, r(0, 6, 0x63), Aim::Jump, BRANCH),
    ("BGEU", Branch, r(0, 7, 0x63), Aim::Jump, BRANCH),
    // Loads and stores (CHERIoT report, 7.6, CLC and CSC; document 01, "Loading capabilities").
    ("LB", Immediate, r(0, 0, 0x03), Load(1), BYTE_LOAD),
    ("LH", Immediate, r(0, 1, 0x03), Load(2), WIDE_LOAD),
    ("LW", Immediate, r(0, 2, 0x03), Load(4), WIDE_LOAD),
    ("CLC", Immediate, r(0, 3, 0x03), Load(8), CAPABILITY_LOAD),
    ("LBU", Immediate, r(0, 4, 0x03), Load(1), BYTE_LOAD),
    ("LHU", Immediate, r(0, 5, 0x03), Load(2), WIDE_LOAD),
    ("SB", Form::Store, r(0, 0, 0x23), Aim::Store(1), BYTE_STORE),
    ("SH", Form::Store, r(0, 1, 0x23), Aim::Store(2), WIDE_STORE),
    ("SW", Form::Store, r(0, 2, 0x23), Aim::Store(4), WIDE_STORE),
    ("CSC", Form::Store, r(0, 3, 0x23), Aim::Store(8), CAPABILITY_STORE),
    // OP-IMM and OP (RISC-V unprivileged standard).
    ("ADDI", Immediate, r(0, 0, 0x13), Compare, PLAIN),
    ("SLTI", Immediate, r(0, 2, 0x13), Compare, PLAIN),
    ("SLTIU", Immediate, r(0, 3, 0x13), Compare, PLAIN),
    ("XORI", Immediate, r(0, 4, 0x13), Compare, PLAIN),
    ("ORI", Immediate, r(0, 6, 0x13), Compare, PLAIN),
    ("ANDI", Immediate, r(0, 7, 0x13), Compare, PLAIN),
    ("SLLI", Shift, r(0x00, 1, 0x13), Nothing, PLAIN),
    ("SRLI", Shift, r(0x00, 5, 0x13), Nothing, PLAIN),
    ("SRAI", Shift, r(0x20, 5, 0x13), Nothing, PLAIN),
    ("ADD", Register, r(0x00, 0, 0x33), Compare, PLAIN),
    ("SUB", Register, r(0x20, 0, 0x33), Compare, PLAIN),
    ("SLL", Register, r(0x00, 1, 0x33), Compare, PLAIN),
    ("SLT", Register, r(0x00, 2, 0x33), Compare, PLAIN),
    ("SLTU", Register, r(0x00, 3, 0x33), Compare, PLAIN),
    ("XOR", Register, r(0x00, 4, 0x33), Compare, PLAIN),
    ("SRL", Register, r(0x00, 5, 0x33), Compare, PLAIN),
    ("SRA", Register, r(0x20, 5, 0x33), Compare, PLAIN),
    ("OR", Register, r(0x00, 6, 0x33), Compare, PLAIN),
    ("AND", Register, r(0x00, 7, 0x33), Compare, PLAIN),
    // The M extension (RISC-V unprivileged standard; document 02, 1).
    ("MUL", Register, r(0x01, 0, 0x33), Extremes, PLAIN),
    ("MULH", Register, r(0x01, 1, 0x33), Extremes, PLAIN),
    ("MULHSU", Register, r(0x01, 2, 0x33), Extremes, PLAIN),
    ("MULHU", Register, r(0x01, 3, 0x33), Extremes, PLAIN),
    ("DIV", Register, r(0x01, 4, 0x33), Extremes, PLAIN),
    ("DIVU", Register, r(0x01, 5, 0x33), Extremes, PLAIN),
    ("REM", Register, r(0x01, 6, 0x33), Extremes, PLAIN),
    ("REMU", Register, r(0x01, 7, 0x33), Extremes, PLAIN),
    // FENCE, the four whole words and the CSRs (document 01, "In and out"; CHERIoT report, 7.9).
    ("FENCE", Ignored, 0x0F, Nothing, PLAIN),
    ("ECALL", Whole, 0x0000_0073, Nothing, &[ECALL]),
    ("EBREAK", Whole, 0x0010_0073, Nothing, &[BREAKPOINT]),
    ("MRET", Whole, 0x3020_0073, Nothing, PRIVILEGED),
    ("WFI", Whole, 0x1050_0073, Nothing, PLAIN),
    ("CSRRW mstatus", Single, csr(1, MSTATUS), Nothing, PRIVILEGED),
    ("CSRRS mstatus", Single, csr(2, MSTATUS), Nothing, PRIVILEGED),
    ("CSRRC mstatus", Single, csr(3, MSTATUS), Nothing, PRIVILEGED),
    ("CSRRWI mstatus", Number, csr(5, MSTATUS), Nothing, PRIVILEGED),
    ("CSRRSI mstatus", Number, csr(6, MSTATUS), Nothing, PRIVILEGED),
    ("CSRRCI mstatus", Number, csr(7, MSTATUS), Nothing, PRIVILEGED),
    ("CSRRW mcause", Single, csr(1, MCAUSE), Nothing, PRIVILEGED),
    ("CSRRS mcause", Single, csr(2, MCAUSE), Nothing, PRIVILEGED),
    ("CSRRC mcause", Single, csr(3, MCAUSE), Nothing, PRIVILEGED),
    ("CSRRWI mcause", Number, csr(5, MCAUSE), Nothing, PRIVILEGED),
    ("CSRRSI mcause", Number, csr(6, MCAUSE), Nothing, PRIVILEGED),
    ("CSRRCI mcause", Number, csr(7, MCAUSE), Nothing, PRIVILEGED),
    ("CSRRW mtval", Single, csr(1, MTVAL), Nothing, PRIVILEGED),
    ("CSRRS mtval", Single, csr(2, MTVAL), Nothing, PRIVILEGED),
    ("CSRRC mtval", Single, csr(3, MTVAL), Nothing, PRIVILEGED),
    ("CSRRWI mtval", Number, csr(5, MTVAL), Nothing, PRIVILEGED),
    ("CSRRSI mtval", Number, csr(6, MTVAL), Nothing, PRIVILEGED),
    ("CSRRCI mtval", Number, csr(7, MTVAL), Nothing, PRIVILEGED),
    // The stack mark and its base (document 02, 6).
    ("CSRRW mshwm", Single, csr(1, MSHWM), Mark, PRIVILEGED),
    ("CSRRS mshwm", Single, csr(2, MSHWM), Mark, PRIVILEGED),
    ("CSRRC mshwm", Single, csr(3, MSHWM), Mark, PRIVILEGED),
    ("CSRRWI mshwm", Number, csr(5, MSHWM), Mark, PRIVILEGED),
    ("CSRRSI mshwm", Number, csr(6, MSHWM), Mark, PRIVILEGED),
    ("CSRRCI mshwm", Number, csr(7, MSHWM), Mark, PRIVILEGED),
    ("CSRRW mshwmb", Single, csr(1, MSHWMB), Mark, PRIVILEGED),
    ("CSRRS mshwmb", Single, csr(2, MSHWMB), Mark, PRIVILEGED),
    ("CSRRC mshwmb", Single, csr(3, MSHWMB), Mark, PRIVILEGED),
    ("CSRRWI mshwmb", Number, csr(5, MSHWMB), Mark, PRIVILEGED),
    ("CSRRSI mshwmb", Number, csr(6, MSHWMB), Mark, PRIVILEGED),
    ("CSRRCI mshwmb", Number, csr(7, MSHWMB), Mark, PRIVILEGED),
    // Special registers (CHERIoT report, 7.10 and 8.1.5).
    ("CSpecialRW MTCC", Single, special(28), Special, SPECIAL),
    ("CSpecialRW MTDC", Single, special(29), Special, SPECIAL),
    ("CSpecialRW MScratchC", Single, special(30), Special, SPECIAL),
    ("CSpecialRW MEPCC", Single, special(31), Special, SPECIAL),
    // Capability instructions with an integer for an answer (CHERIoT report, 8.1.1, 8.1.3, 8.1.4
    // and 8.1.6).
    ("CGetPerm", Single, one(0x00), Nothing, PLAIN),
    ("CGetType", Single, one(0x01), Nothing, PLAIN),
    ("CGetBase", Single, one(0x02), Nothing, PLAIN),
    ("CGetLen", Single, one(0x03), Nothing, PLAIN),
    ("CGetTag", Single, one(0x04), Nothing, PLAIN),
    ("CGetAddr", Single, one(0x0F), Nothing, PLAIN),
    ("CGetHigh", Single, one(0x17), Nothing, PLAIN),
    ("CGetTop", Single, one(0x18), Nothing, PLAIN),
    ("CRoundRepresentableLength", Single, one(0x08), Length, PLAIN),
    ("CRepresentableAlignmentMask", Single, one(0x09), Length, PLAIN),
    ("CSub", Register, two(0x14), Nothing, PLAIN),
    ("CTestSubset", Register, two(0x20), Subset, PLAIN),
    ("CSetEqualExact", Register, two(0x21), Equal, PLAIN),
    // Capability instructions with a capability for an answer (CHERIoT report, 8.1.2 and 8.1.3).
    ("CMove", Single, one(0x0A), Nothing, CAPABILITY),
    ("CClearTag", Single, one(0x0B), Nothing, UNTAGGED),
    ("CSetHigh", Register, two(0x16), Nothing, UNTAGGED),
    ("CAndPerm", Register, two(0x0D), Narrow, CAPABILITY),
    ("CSetAddr", Register, two(0x10), SetAddress, CAPABILITY),
    ("CIncAddr", Register, two(0x11), AddAddress, CAPABILITY),
    ("CIncAddrImm", Immediate, r(0, 1, 0x5B), AddAddress, CAPABILITY),
    ("CSetBounds", Register, two(0x08), Cut, CAPABILITY),
    ("CSetBoundsExact", Register, two(0x09), Cut, CAPABILITY),
    ("CSetBoundsImm", Immediate, r(0, 2, 0x5B), Cut, CAPABILITY),
    ("CSeal", Register, two(0x0B), Seal, CAPABILITY),
    ("CUnseal", Register, two(0x0C), Unseal, CAPABILITY),
];

/// The registers that a form means by itself: zero, the link and the stack pointer.
const C0: u32 = 0;
const C1: u32 = 1;
const C2: u32 = 2;

/// A short word: name, layout, what the immediate is, rd, rs1 and rs2 where the layout has none, aim, and
/// what a step of it can do.
type ShortLine = (
    &'static str,
    &'static str,
    Kind,
    [u32; 3],
    Aim,
    &'static [Outcome],
);

/// The short words by the standard's tables of the three quadrants, with the CHERIoT report's 7.14.
#[rustfmt::skip]
const SHORT_LINES: &[ShortLine] = &[
    ("C.ADDI4SPN", "000 i5:4 i9:6 i2 i3 d' 00", UnsignedNotZero, [C0, C2, C0], AddAddress, CAPABILITY),
    ("C.LW", "010 i5:3 s' i2 i6 d' 00", Unsigned, [C0; 3], Load(4), WIDE_LOAD),
    ("C.LD", "011 i5:3 s' i7:6 d' 00", Unsigned, [C0; 3], Load(8), CAPABILITY_LOAD),
    ("C.SW", "110 i5:3 s' i2 i6 t' 00", Unsigned, [C0; 3], Aim::Store(4), WIDE_STORE),
    ("C.SD", "111 i5:3 s' i7:6 t' 00", Unsigned, [C0; 3], Aim::Store(8), CAPABILITY_STORE),
    ("C.ADDI", "000 i5 e i4:0 01", Signed, [C0; 3], Compare, PLAIN),
    ("C.JAL", "001 i11 i4 i9:8 i10 i6 i7 i3:1 i5 01", Signed, [C1, C0, C0], Aim::Jump, CJAL),
    ("C.LI", "010 i5 d i4:0 01", Signed, [C0; 3], Nothing, PLAIN),
    ("C.ADDI16SP", "011 i9 00010 i4 i6 i8:7 i5 01", SignedNotZero, [C2, C2, C0], AddAddress, CAPABILITY),
    ("C.LUI", "011 i17 d-2 i16:12 01", SignedNotZero, [C0; 3], Nothing, PLAIN),
    ("C.SRLI", "100 0 00 e' i4:0 01", Unsigned, [C0; 3], Nothing, PLAIN),
    ("C.SRAI", "100 0 01 e' i4:0 01", Unsigned, [C0; 3], Nothing, PLAIN),
    ("C.ANDI", "100 i5 10 e' i4:0 01", Signed, [C0; 3], Compare, PLAIN),
    ("C.SUB", "100 0 11 e' 00 t' 01", Unsigned, [C0; 3], Compare, PLAIN),
    ("C.XOR", "100 0 11 e' 01 t' 01", Unsigned, [C0; 3], Compare, PLAIN),
    ("C.OR", "100 0 11 e' 10 t' 01", Unsigned, [C0; 3], Compare, PLAIN),
    ("C.AND", "100 0 11 e' 11 t' 01", Unsigned, [C0; 3], Compare, PLAIN),
    ("C.J", "101 i11 i4 i9:8 i10 i6 i7 i3:1 i5 01", Signed, [C0; 3], Aim::Jump, JUMP),
    ("C.BEQZ", "110 i8 i4:3 s' i7:6 i2:1 i5 01", Signed, [C0; 3], Aim::Jump, BRANCH),
    ("C.BNEZ", "111 i8 i4:3 s' i7:6 i2:1 i5 01", Signed, [C0; 3], Aim::Jump, BRANCH),
    ("C.SLLI", "000 0 e i4:0 10", Unsigned, [C0; 3], Nothing, PLAIN),
    ("C.LWSP", "010 i5 d-0 i4:2 i7:6 10", Unsigned, [C0, C2, C0], Load(4), WIDE_LOAD),
    ("C.LDSP", "011 i5 d-0 i4:3 i8:6 10", Unsigned, [C0, C2, C0], Load(8), CAPABILITY_LOAD),
    ("C.JR", "100 0 s-0 00000 10", Unsigned, [C0; 3], JumpRegister, JUMP_REGISTER),
    ("C.MV", "100 0 d t-0 10", Unsigned, [C0; 3], Compare, PLAIN),
    ("C.EBREAK", "100 1 00000 00000 10", Unsigned, [C0; 3], Nothing, &[BREAKPOINT]),
    ("C.JALR", "100 1 s-0 00000 10", Unsigned, [C1, C0, C0], JumpRegister, CJALR),
    ("C.ADD", "100 1 e t-0 10", Unsigned, [C0; 3], Compare, PLAIN),
    ("C.SWSP", "110 i5:2 i7:6 t 10", Unsigned, [C0, C2, C0], Aim::Store(4), WIDE_STORE),
    ("C.SDSP", "111 i5:3 i8:6 t 10", Unsigned, [C0, C2, C0], Aim::Store(8), CAPABILITY_STORE),
];

/// A row; a register number above 15 is illegal in every form that can name one.
fn row(name: &'static str, form: Form, bits: u32, aim: Aim, outcomes: &[Outcome]) -> Row {
    let mut outcomes = outcomes.to_vec();
    if form.names_registers() {
        outcomes.push(ILLEGAL);
    }
    Row {
        name,
        form,
        bits,
        aim,
        outcomes,
    }
}

/// Every instruction.
pub fn table() -> Table {
    let long = LINES.iter();
    let long = long.map(|&(name, form, bits, aim, outcomes)| row(name, form, bits, aim, outcomes));
    let short = SHORT_LINES.iter();
    let short = short.map(|&(name, layout, kind, means, aim, outcomes)| {
        let (short, bits) = Short::new(layout, kind, means);
        row(name, Form::Short(short), bits, aim, outcomes)
    });
    Table::new(long.chain(short).collect())
}

#[cfg(test)]
mod tests {
    use super::*;
    use crate::operands::{any, encode};
    use crate::random::Random;
    use second::decode::instruction;

    #[test]
    fn no_word_is_of_two_rows_and_the_second_program_knows_them_all() {
        let rows = table().rows;
        let mut random = Random::new(1, 1);
        for row in &rows {
            for _ in 0..200 {
                let word = encode(row, &any(&mut random, row.form));
                assert_eq!(rows.iter().filter(|other| other.fits(word)).count(), 1);
                assert!(instruction(word).is_some(), "{} {word:08x}", row.name);
            }
        }
    }

    #[test]
    fn the_second_program_knows_no_other_word() {
        let table = table();
        let mut random = Random::new(1, 2);
        for _ in 0..200_000 {
            let word = random.word() & 0xFE00_7000
                | random.word() & 0x01F7_8F80
                | 3
                | random.word() & 0x7F;
            assert!(
                table.find(word).is_some() || instruction(word).is_none(),
                "{word:08x}"
            );
        }
    }

    #[test]
    fn every_short_word_of_a_row_with_registers_below_16_and_no_other_is_known() {
        let table = table();
        for half in (0..1 << 16).filter(|half| half & 3 != 3) {
            let high = |row: usize| match table.rows[row].form {
                Form::Short(short) => [short.rd, short.rs1, short.rs2]
                    .iter()
                    .any(|named| named.of(half) > 15),
                _ => true,
            };
            let legal = table.find(half).is_some_and(|row| !high(row));
            assert_eq!(instruction(half).is_some(), legal, "{half:04x}");
        }
    }
}
