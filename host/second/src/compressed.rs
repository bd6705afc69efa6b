//! Short words to instructions: the C extension of the RISC-V unprivileged standard for RV32, with
//! the capability forms of the CHERIoT report, 7.14. In its tables the load and store of a
//! floating-point word give way to RV64's C.LD, C.SD, C.LDSP and C.SDSP, which move capabilities, and the
//! two that move the stack pointer are CIncAddr. Where the report is silent a form is what the
//! standard expands it to, as that acts here: C.MV and C.ADD are ADD.
//!
//! There is no floating point, so C.FLD and its like are illegal; so are the standard's reserved
//! code points and a full register field above 15. The standard's hints change nothing: those that
//! write c0 by their form, and those that would copy a register to itself, which for a capability's
//! long form is no copy, as a no-op.

#[cfg(test)]
mod tests;

use crate::decode::{
    Arithmetic, Condition, Derivation, Instruction, LoadWidth, Operand, Register, StoreWidth, CSP,
    LINK, ZERO,
};

/// A short word.
#[derive(Clone, Copy)]
struct Half(u32);

impl Half {
    fn funct3(self) -> u32 {
        self.0 >> 13
    }

    /// A few bits, from a lowest one on.
    fn field(self, lowest: u32, width: u32) -> u32 {
        self.0 >> lowest & ((1 << width) - 1)
    }

    /// The register of a full field.
    fn register(self, lowest: u32) -> Option<Register> {
        Register::new(self.field(lowest, 5))
    }

    /// The register of a field of three bits, 8 to 15.
    fn popular(self, lowest: u32) -> Option<Register> {
        Register::new(8 + self.field(lowest, 3))
    }

    /// An immediate as the standard's tables write it: from bit `top` downwards, the place that each
    /// bit has in the immediate.
    #[inline]
    fn gather<const N: usize>(self, top: u32, places: [u32; N]) -> u32 {
        let bit = |(below, place): (u32, u32)| (self.0 >> (top - below) & 1) << place;
        (0..).zip(places).map(bit).sum()
    }

    /// The signed six bits of the CI and CB formats.
    fn signed_six(self) -> u32 {
        extended(self.gather(12, [5]) | self.field(2, 5), 6)
    }

    /// A shift amount. Its sixth bit is RV64's, and for a custom extension on RV32.
    fn shift(self) -> Option<u32> {
        (self.field(12, 1) == 0).then(|| self.field(2, 5))
    }

    /// The offset of C.LW and C.SW.
    fn word_offset(self) -> u32 {
        self.gather(12, [5, 4, 3]) | self.gather(6, [2, 6])
    }

    /// The offset of C.LD and C.SD.
    fn capability_offset(self) -> u32 {
        self.gather(12, [5, 4, 3]) | self.gather(6, [7, 6])
    }

    /// The offset of C.J and C.JAL.
    fn jump_offset(self) -> u32 {
        extended(self.gather(12, [11, 4, 9, 8, 10, 6, 7, 3, 2, 1, 5]), 12)
    }

    /// The offset of C.BEQZ and C.BNEZ.
    fn branch_offset(self) -> u32 {
        extended(
            self.gather(12, [8, 4, 3]) | self.gather(6, [7, 6, 2, 1, 5]),
            9,
        )
    }
}

/// A number of so many bits, extended by its sign.
fn extended(value: u32, width: u32) -> u32 {
    let above = 32 - width;
    ((value << above) as i32 >> above) as u32
}

/// An immediate whose zero is reserved.
fn not_zero(value: u32) -> Option<u32> {
    (value != 0).then_some(value)
}

/// A register whose field is reserved where it is zero.
fn not_c0(register: Register) -> Option<Register> {
    (register != ZERO).then_some(register)
}

/// A hint in the place of an instruction that would leave a number as it is.
fn hint() -> Instruction {
    by_number(Arithmetic::Add, ZERO, ZERO, 0)
}

/// A shift of a register, or a hint where the amount is zero.
fn shifted(operation: Arithmetic, rd: Register, amount: u32) -> Instruction {
    match amount {
        0 => hint(),
        _ => by_number(operation, rd, rd, amount),
    }
}

/// The instruction that a short word encodes, or nothing if it is illegal.
pub fn decode(half: u16) -> Option<Instruction> {
    let half = Half(half.into());
    match half.0 & 3 {
        0 => quadrant_0(half),
        1 => quadrant_1(half),
        2 => quadrant_2(half),
        // Such a word is the first half of a long one.
        _ => None,
    }
}

/// The table of quadrant 0. 1 and 5 are C.FLD and C.FSD, 4 is reserved.
fn quadrant_0(half: Half) -> Option<Instruction> {
    let (other, cs1) = (half.popular(2)?, half.popular(7)?);
    match half.funct3() {
        // C.ADDI4SPN. Its zero is the zero half among others.
        0 => {
            let places = [5, 4, 9, 8, 7, 6, 2, 3];
            Some(increment(other, CSP, not_zero(half.gather(12, places))?))
        }
        // C.LW, C.LD, C.SW and C.SD.
        2 => Some(load_word(other, cs1, half.word_offset())),
        3 => Some(load_capability(other, cs1, half.capability_offset())),
        6 => Some(store_word(other, cs1, half.word_offset())),
        7 => Some(store_capability(other, cs1, half.capability_offset())),
        _ => None,
    }
}

/// The table of quadrant 1.
fn quadrant_1(half: Half) -> Option<Instruction> {
    use Arithmetic::Add;
    let immediate = half.signed_six();
    let zero_or_not = |condition| {
        Some(Instruction::Branch {
            condition,
            rs1: half.popular(7)?,
            rs2: ZERO,
            offset: half.branch_offset(),
        })
    };
    match half.funct3() {
        // C.NOP and C.ADDI, which is ADDI on the stack pointer too.
        0 => {
            let rd = half.register(7)?;
            Some(match immediate {
                0 => hint(),
                _ => by_number(Add, rd, rd, immediate),
            })
        }
        // C.JAL, C.LI.
        1 => Some(jump(LINK, half)),
        2 => Some(by_number(Add, half.register(7)?, ZERO, immediate)),
        3 => upper(half),
        4 => arithmetic(half),
        // C.J, C.BEQZ, C.BNEZ.
        5 => Some(jump(ZERO, half)),
        6 => zero_or_not(Condition::Equal),
        _ => zero_or_not(Condition::NotEqual),
    }
}

/// C.ADDI16SP, where the register is the stack pointer, and C.LUI.
fn upper(half: Half) -> Option<Instruction> {
    let rd = half.register(7)?;
    if rd == CSP {
        let places = half.gather(12, [9]) | half.gather(6, [4, 6, 8, 7, 5]);
        return Some(increment(CSP, CSP, extended(not_zero(places)?, 10)));
    }
    Some(Instruction::Lui {
        rd,
        value: not_zero(half.signed_six())? << 12,
    })
}

/// Quadrant 1's shifts, C.ANDI, and operations on two registers. With bit 12 the last are RV64's
/// on words, or reserved.
fn arithmetic(half: Half) -> Option<Instruction> {
    let (rd, rs2) = (half.popular(7)?, half.popular(2)?);
    let two = |operation| Some(by_register(operation, rd, rd, rs2));
    match (half.field(10, 2), half.field(12, 1), half.field(5, 2)) {
        (0, ..) => Some(shifted(Arithmetic::ShiftRight, rd, half.shift()?)),
        (1, ..) => Some(shifted(Arithmetic::ShiftRightArithmetic, rd, half.shift()?)),
        (2, ..) => Some(by_number(Arithmetic::And, rd, rd, half.signed_six())),
        (_, 0, 0) => two(Arithmetic::Sub),
        (_, 0, 1) => two(Arithmetic::Xor),
        (_, 0, 2) => two(Arithmetic::Or),
        (_, 0, 3) => two(Arithmetic::And),
        _ => None,
    }
}

/// The table of quadrant 2. 1 and 5 are C.FLDSP and C.FSDSP.
fn quadrant_2(half: Half) -> Option<Instruction> {
    match half.funct3() {
        // C.SLLI.
        0 => {
            let rd = half.register(7)?;
            Some(shifted(Arithmetic::ShiftLeft, rd, half.shift()?))
        }
        // C.LWSP and C.LDSP, of another register than c0.
        2 => {
            let offset = half.gather(12, [5]) | half.gather(6, [4, 3, 2, 7, 6]);
            Some(load_word(not_c0(half.register(7)?)?, CSP, offset))
        }
        3 => {
            let offset = half.gather(12, [5]) | half.gather(6, [4, 3, 8, 7, 6]);
            Some(load_capability(not_c0(half.register(7)?)?, CSP, offset))
        }
        4 => jump_or_move(half),
        // C.SWSP and C.SDSP.
        6 => {
            let offset = half.gather(12, [5, 4, 3, 2, 7, 6]);
            Some(store_word(half.register(2)?, CSP, offset))
        }
        7 => {
            let offset = half.gather(12, [5, 4, 3, 8, 7, 6]);
            Some(store_capability(half.register(2)?, CSP, offset))
        }
        _ => None,
    }
}

/// C.JR and C.MV; with bit 12 C.EBREAK, C.JALR and C.ADD.
fn jump_or_move(half: Half) -> Option<Instruction> {
    let (first, second) = (half.register(7)?, half.register(2)?);
    let jump_to = |cd| Instruction::Cjalr {
        cd,
        cs1: first,
        offset: 0,
    };
    Some(match (half.field(12, 1), first == ZERO, second == ZERO) {
        (0, true, true) => return None,
        (0, false, true) => jump_to(ZERO),
        (0, _, false) => by_register(Arithmetic::Add, first, ZERO, second),
        (_, true, true) => Instruction::Ebreak,
        (_, false, true) => jump_to(LINK),
        (_, _, false) => by_register(Arithmetic::Add, first, first, second),
    })
}

fn jump(cd: Register, half: Half) -> Instruction {
    Instruction::Cjal {
        cd,
        offset: half.jump_offset(),
    }
}

fn increment(cd: Register, cs1: Register, by: u32) -> Instruction {
    Instruction::Derive {
        derivation: Derivation::CIncAddr,
        cd,
        cs1,
        operand: Operand::Immediate(by),
    }
}

fn by_number(operation: Arithmetic, rd: Register, rs1: Register, number: u32) -> Instruction {
    Instruction::Integer {
        operation,
        rd,
        rs1,
        operand: Operand::Immediate(number),
    }
}

fn by_register(operation: Arithmetic, rd: Register, rs1: Register, rs2: Register) -> Instruction {
    Instruction::Integer {
        operation,
        rd,
        rs1,
        operand: Operand::Register(rs2),
    }
}

fn load_word(rd: Register, cs1: Register, offset: u32) -> Instruction {
    Instruction::Load {
        width: LoadWidth::Word,
        rd,
        cs1,
        offset,
    }
}

fn store_word(rs2: Register, cs1: Register, offset: u32) -> Instruction {
    Instruction::Store {
        width: StoreWidth::Word,
        rs2,
        cs1,
        offset,
    }
}

fn load_capability(cd: Register, cs1: Register, offset: u32) -> Instruction {
    Instruction::Clc { cd, cs1, offset }
}

fn store_capability(cs2: Register, cs1: Register, offset: u32) -> Instruction {
    Instruction::Csc { cs2, cs1, offset }
}
