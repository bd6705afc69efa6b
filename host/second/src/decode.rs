//! Instruction words to instructions: RV32E of the RISC-V unprivileged standard with its M
//! extension (document 02, 1), its six CSR instructions, MRET and WFI, and the CHERIoT report's
//! chapter 8. Everything else is illegal, and so is a register number above 15 (document 01,
//! "Traps"). Short words are in compressed.rs.

#[cfg(test)]
mod tests;

use crate::compressed;

/// The bytes of a short word and of a long one.
pub const SHORT_BYTES: u32 = 2;
pub const LONG_BYTES: u32 = 4;

/// The bytes of the word that begins so: both low bits are set in a long one (RISC-V unprivileged
/// standard, on the length of instructions). Lengths above four are not in use here.
pub fn length(word: u32) -> u32 {
    if word & 3 == 3 {
        LONG_BYTES
    } else {
        SHORT_BYTES
    }
}

/// The instruction of a word of either length; a short one has zeros above it.
pub fn instruction(word: u32) -> Option<Instruction> {
    if length(word) == LONG_BYTES {
        decode(word)
    } else {
        compressed::decode(u16::try_from(word).ok()?)
    }
}

/// The number of a general register, 0 to 15.
#[derive(Clone, Copy, PartialEq, Eq, Debug)]
pub struct Register(u8);

impl Register {
    /// The register of that number, if there is one.
    pub fn new(number: u32) -> Option<Register> {
        match u8::try_from(number) {
            Ok(small @ 0..=15) => Some(Register(small)),
            _ => None,
        }
    }

    pub fn number(self) -> u32 {
        u32::from(self.0)
    }
}

/// The global pointer that AUICGP adds to (CHERIoT report, 7.12).
pub const CGP: Register = Register(3);

// Registers that short words name by their form: zero, the link and the stack pointer.
pub const ZERO: Register = Register(0);
pub const LINK: Register = Register(1);
pub const CSP: Register = Register(2);

/// The second operand of an instruction.
#[derive(Clone, Copy, PartialEq, Eq, Debug)]
pub enum Operand {
    Register(Register),
    Immediate(u32),
}

#[derive(Clone, Copy, PartialEq, Eq, Debug)]
pub enum Arithmetic {
    Add,
    Sub,
    ShiftLeft,
    SetLess,
    SetLessUnsigned,
    Xor,
    ShiftRight,
    ShiftRightArithmetic,
    Or,
    And,
    Multiply,
    MultiplyHigh,
    MultiplyHighSignedUnsigned,
    MultiplyHighUnsigned,
    Divide,
    DivideUnsigned,
    Remainder,
    RemainderUnsigned,
}

#[derive(Clone, Copy, PartialEq, Eq, Debug)]
pub enum Condition {
    Equal,
    NotEqual,
    Less,
    GreaterOrEqual,
    LessUnsigned,
    GreaterOrEqualUnsigned,
}

#[derive(Clone, Copy, PartialEq, Eq, Debug)]
pub enum LoadWidth {
    Byte,
    Half,
    Word,
    ByteUnsigned,
    HalfUnsigned,
}

#[derive(Clone, Copy, PartialEq, Eq, Debug)]
pub enum StoreWidth {
    Byte,
    Half,
    Word,
}

#[derive(Clone, Copy, PartialEq, Eq, Debug)]
pub enum Csr {
    Mstatus,
    Mcause,
    Mtval,
    /// The stack's high-water mark and its base (document 02, 6).
    Mshwm,
    Mshwmb,
}

#[derive(Clone, Copy, PartialEq, Eq, Debug)]
pub enum CsrOperation {
    Write,
    Set,
    Clear,
}

/// A special capability register (CHERIoT report, Table 7.2).
#[derive(Clone, Copy, PartialEq, Eq, Debug)]
pub enum Special {
    Mtcc,
    Mtdc,
    MScratchC,
    Mepcc,
}

/// What an instruction asks of one register, with an integer for an answer.
#[derive(Clone, Copy, PartialEq, Eq, Debug)]
pub enum Query {
    CGetPerm,
    CGetType,
    CGetBase,
    CGetLen,
    CGetTag,
    CRoundRepresentableLength,
    CRepresentableAlignmentMask,
    CGetAddr,
    CGetHigh,
    CGetTop,
}

/// How an instruction derives a capability from cs1 and perhaps an integer.
#[derive(Clone, Copy, PartialEq, Eq, Debug)]
pub enum Derivation {
    CMove,
    CClearTag,
    CAndPerm,
    CSetAddr,
    CIncAddr,
    CSetBounds,
    CSetBoundsExact,
    CSetHigh,
}

/// What an instruction makes of two capabilities.
#[derive(Clone, Copy, PartialEq, Eq, Debug)]
pub enum Pairing {
    CSeal,
    CUnseal,
    CSub,
    CTestSubset,
    CSetEqualExact,
}

#[rustfmt::skip]
#[derive(Clone, Copy, PartialEq, Eq, Debug)]
pub enum Instruction {
    Lui { rd: Register, value: u32 },
    Auipcc { cd: Register, offset: u32 },
    Auicgp { cd: Register, offset: u32 },
    Cjal { cd: Register, offset: u32 },
    Cjalr { cd: Register, cs1: Register, offset: u32 },
    Branch { condition: Condition, rs1: Register, rs2: Register, offset: u32 },
    Load { width: LoadWidth, rd: Register, cs1: Register, offset: u32 },
    Clc { cd: Register, cs1: Register, offset: u32 },
    Store { width: StoreWidth, rs2: Register, cs1: Register, offset: u32 },
    Csc { cs2: Register, cs1: Register, offset: u32 },
    Integer { operation: Arithmetic, rd: Register, rs1: Register, operand: Operand },
    Csr { operation: CsrOperation, csr: Csr, rd: Register, operand: Operand },
    Query { query: Query, rd: Register, cs1: Register },
    Derive { derivation: Derivation, cd: Register, cs1: Register, operand: Operand },
    Pair { pairing: Pairing, cd: Register, cs1: Register, cs2: Register },
    CSpecialRw { cd: Register, special: Special, cs1: Register },
    Fence,
    Wfi,
    Ecall,
    Ebreak,
    Mret,
}

/// The fields of an instruction word, where every format has them.
#[derive(Clone, Copy)]
struct Fields(u32);

impl Fields {
    fn funct3(self) -> u32 {
        (self.0 >> 12) & 7
    }

    fn funct7(self) -> u32 {
        self.0 >> 25
    }

    /// The five bits of rd, rs1 or rs2, whether or not they name a register.
    fn rd_bits(self) -> u32 {
        (self.0 >> 7) & 0x1F
    }

    fn rs1_bits(self) -> u32 {
        (self.0 >> 15) & 0x1F
    }

    fn rs2_bits(self) -> u32 {
        (self.0 >> 20) & 0x1F
    }

    fn rd(self) -> Option<Register> {
        Register::new(self.rd_bits())
    }

    fn rs1(self) -> Option<Register> {
        Register::new(self.rs1_bits())
    }

    fn rs2(self) -> Option<Register> {
        Register::new(self.rs2_bits())
    }

    /// The word shifted right with its sign.
    fn signed(self, shift: u32) -> u32 {
        ((self.0 as i32) >> shift) as u32
    }

    /// The signed 12-bit immediate of the I format.
    fn i_immediate(self) -> u32 {
        self.signed(20)
    }

    /// The signed 12-bit immediate of the S format.
    fn s_immediate(self) -> u32 {
        (self.signed(20) & !0x1F) | self.rd_bits()
    }

    /// The signed 13-bit even immediate of the B format.
    fn b_immediate(self) -> u32 {
        let sign = self.signed(19) & !0xFFF;
        let bit_11 = ((self.0 >> 7) & 1) << 11;
        let bits_10_to_5 = ((self.0 >> 25) & 0x3F) << 5;
        let bits_4_to_1 = ((self.0 >> 8) & 0xF) << 1;
        sign | bit_11 | bits_10_to_5 | bits_4_to_1
    }

    /// The signed 21-bit even immediate of the J format.
    fn j_immediate(self) -> u32 {
        let sign = self.signed(11) & !0xF_FFFF;
        let bits_19_to_12 = self.0 & 0xF_F000;
        let bit_11 = ((self.0 >> 20) & 1) << 11;
        let bits_10_to_1 = ((self.0 >> 21) & 0x3FF) << 1;
        sign | bits_19_to_12 | bit_11 | bits_10_to_1
    }

    /// The signed 20-bit immediate of AUIPCC and AUICGP, times 2048 (CHERIoT report, 7.12).
    fn auipcc_offset(self) -> u32 {
        self.signed(12) << 11
    }
}

/// The instruction that a long word encodes, or nothing if it is illegal.
pub fn decode(word: u32) -> Option<Instruction> {
    let fields = Fields(word);
    match word & 0x7F {
        0x03 => load(fields),
        0x0F => fence(fields),
        0x13 => integer_immediate(fields),
        0x17 => Some(Instruction::Auipcc {
            cd: fields.rd()?,
            offset: fields.auipcc_offset(),
        }),
        0x23 => store(fields),
        0x33 => integer_register(fields),
        0x37 => Some(Instruction::Lui {
            rd: fields.rd()?,
            value: word & 0xFFFF_F000,
        }),
        0x5B => capability(fields),
        0x63 => branch(fields),
        0x67 => jump_register(fields),
        0x6F => Some(Instruction::Cjal {
            cd: fields.rd()?,
            offset: fields.j_immediate(),
        }),
        0x73 => system(fields),
        0x7B => Some(Instruction::Auicgp {
            cd: fields.rd()?,
            offset: fields.auipcc_offset(),
        }),
        _ => None,
    }
}

fn load(fields: Fields) -> Option<Instruction> {
    let (rd, cs1, offset) = (fields.rd()?, fields.rs1()?, fields.i_immediate());
    let width = match fields.funct3() {
        0 => LoadWidth::Byte,
        1 => LoadWidth::Half,
        2 => LoadWidth::Word,
        // CLC takes the encoding of RV64's LD (CHERIoT report, 8.2.2).
        3 => {
            return Some(Instruction::Clc {
                cd: rd,
                cs1,
                offset,
            })
        }
        4 => LoadWidth::ByteUnsigned,
        5 => LoadWidth::HalfUnsigned,
        _ => return None,
    };
    Some(Instruction::Load {
        width,
        rd,
        cs1,
        offset,
    })
}

fn store(fields: Fields) -> Option<Instruction> {
    let (rs2, cs1, offset) = (fields.rs2()?, fields.rs1()?, fields.s_immediate());
    let width = match fields.funct3() {
        0 => StoreWidth::Byte,
        1 => StoreWidth::Half,
        2 => StoreWidth::Word,
        // CSC takes the encoding of RV64's SD (CHERIoT report, 8.2.2).
        3 => {
            return Some(Instruction::Csc {
                cs2: rs2,
                cs1,
                offset,
            })
        }
        _ => return None,
    };
    Some(Instruction::Store {
        width,
        rs2,
        cs1,
        offset,
    })
}

/// FENCE of any kind. The standard has its rd and rs1 ignored, so they name no register.
fn fence(fields: Fields) -> Option<Instruction> {
    (fields.funct3() == 0).then_some(Instruction::Fence)
}

fn integer_immediate(fields: Fields) -> Option<Instruction> {
    let immediate = fields.i_immediate();
    let shift = fields.rs2_bits();
    let (operation, immediate) = match (fields.funct3(), fields.funct7()) {
        (0, _) => (Arithmetic::Add, immediate),
        (1, 0x00) => (Arithmetic::ShiftLeft, shift),
        (2, _) => (Arithmetic::SetLess, immediate),
        (3, _) => (Arithmetic::SetLessUnsigned, immediate),
        (4, _) => (Arithmetic::Xor, immediate),
        (5, 0x00) => (Arithmetic::ShiftRight, shift),
        (5, 0x20) => (Arithmetic::ShiftRightArithmetic, shift),
        (6, _) => (Arithmetic::Or, immediate),
        (7, _) => (Arithmetic::And, immediate),
        _ => return None,
    };
    Some(Instruction::Integer {
        operation,
        rd: fields.rd()?,
        rs1: fields.rs1()?,
        operand: Operand::Immediate(immediate),
    })
}

fn integer_register(fields: Fields) -> Option<Instruction> {
    let operation = match (fields.funct7(), fields.funct3()) {
        (0x00, 0) => Arithmetic::Add,
        (0x20, 0) => Arithmetic::Sub,
        (0x00, 1) => Arithmetic::ShiftLeft,
        (0x00, 2) => Arithmetic::SetLess,
        (0x00, 3) => Arithmetic::SetLessUnsigned,
        (0x00, 4) => Arithmetic::Xor,
        (0x00, 5) => Arithmetic::ShiftRight,
        (0x20, 5) => Arithmetic::ShiftRightArithmetic,
        (0x00, 6) => Arithmetic::Or,
        (0x00, 7) => Arithmetic::And,
        // The M extension has funct7 1.
        (0x01, 0) => Arithmetic::Multiply,
        (0x01, 1) => Arithmetic::MultiplyHigh,
        (0x01, 2) => Arithmetic::MultiplyHighSignedUnsigned,
        (0x01, 3) => Arithmetic::MultiplyHighUnsigned,
        (0x01, 4) => Arithmetic::Divide,
        (0x01, 5) => Arithmetic::DivideUnsigned,
        (0x01, 6) => Arithmetic::Remainder,
        (0x01, 7) => Arithmetic::RemainderUnsigned,
        _ => return None,
    };
    Some(Instruction::Integer {
        operation,
        rd: fields.rd()?,
        rs1: fields.rs1()?,
        operand: Operand::Register(fields.rs2()?),
    })
}

fn branch(fields: Fields) -> Option<Instruction> {
    let condition = match fields.funct3() {
        0 => Condition::Equal,
        1 => Condition::NotEqual,
        4 => Condition::Less,
        5 => Condition::GreaterOrEqual,
        6 => Condition::LessUnsigned,
        7 => Condition::GreaterOrEqualUnsigned,
        _ => return None,
    };
    Some(Instruction::Branch {
        condition,
        rs1: fields.rs1()?,
        rs2: fields.rs2()?,
        offset: fields.b_immediate(),
    })
}

fn jump_register(fields: Fields) -> Option<Instruction> {
    if fields.funct3() != 0 {
        return None;
    }
    Some(Instruction::Cjalr {
        cd: fields.rd()?,
        cs1: fields.rs1()?,
        offset: fields.i_immediate(),
    })
}

/// The SYSTEM opcode: four whole words, and the CSR instructions.
fn system(fields: Fields) -> Option<Instruction> {
    match fields.0 {
        0x0000_0073 => return Some(Instruction::Ecall),
        0x0010_0073 => return Some(Instruction::Ebreak),
        0x3020_0073 => return Some(Instruction::Mret),
        0x1050_0073 => return Some(Instruction::Wfi),
        _ => {}
    }
    let operation = match fields.funct3() & 3 {
        1 => CsrOperation::Write,
        2 => CsrOperation::Set,
        3 => CsrOperation::Clear,
        _ => return None,
    };
    // The immediate forms hold a number where the others name a register.
    let operand = if fields.funct3() & 4 != 0 {
        Operand::Immediate(fields.rs1_bits())
    } else {
        Operand::Register(fields.rs1()?)
    };
    let csr = match fields.0 >> 20 {
        0x300 => Csr::Mstatus,
        0x342 => Csr::Mcause,
        0x343 => Csr::Mtval,
        0xBC1 => Csr::Mshwm,
        0xBC2 => Csr::Mshwmb,
        _ => return None,
    };
    Some(Instruction::Csr {
        operation,
        csr,
        rd: fields.rd()?,
        operand,
    })
}

/// Opcode 0x5B (CHERIoT report, 8.3, "Top-level encoding allocation").
fn capability(fields: Fields) -> Option<Instruction> {
    match fields.funct3() {
        0 => two_source(fields),
        1 => derive(
            fields,
            Derivation::CIncAddr,
            Operand::Immediate(fields.i_immediate()),
        ),
        2 => derive(
            fields,
            Derivation::CSetBounds,
            Operand::Immediate(fields.0 >> 20),
        ),
        _ => None,
    }
}

fn derive(fields: Fields, derivation: Derivation, operand: Operand) -> Option<Instruction> {
    Some(Instruction::Derive {
        derivation,
        cd: fields.rd()?,
        cs1: fields.rs1()?,
        operand,
    })
}

/// The funct7 allocation (CHERIoT report, 8.1 and 8.3).
fn two_source(fields: Fields) -> Option<Instruction> {
    let by_register = |derivation| derive(fields, derivation, Operand::Register(fields.rs2()?));
    match fields.funct7() {
        0x01 => special(fields),
        0x08 => by_register(Derivation::CSetBounds),
        0x09 => by_register(Derivation::CSetBoundsExact),
        0x0B => pair(fields, Pairing::CSeal),
        0x0C => pair(fields, Pairing::CUnseal),
        0x0D => by_register(Derivation::CAndPerm),
        0x10 => by_register(Derivation::CSetAddr),
        0x11 => by_register(Derivation::CIncAddr),
        0x14 => pair(fields, Pairing::CSub),
        0x16 => by_register(Derivation::CSetHigh),
        0x20 => pair(fields, Pairing::CTestSubset),
        0x21 => pair(fields, Pairing::CSetEqualExact),
        0x7F => source_and_dest(fields),
        _ => None,
    }
}

fn pair(fields: Fields, pairing: Pairing) -> Option<Instruction> {
    Some(Instruction::Pair {
        pairing,
        cd: fields.rd()?,
        cs1: fields.rs1()?,
        cs2: fields.rs2()?,
    })
}

/// CSpecialRW: the rs2 field holds a special register's own number.
fn special(fields: Fields) -> Option<Instruction> {
    let special = match fields.rs2_bits() {
        28 => Special::Mtcc,
        29 => Special::Mtdc,
        30 => Special::MScratchC,
        31 => Special::Mepcc,
        _ => return None,
    };
    Some(Instruction::CSpecialRw {
        cd: fields.rd()?,
        special,
        cs1: fields.rs1()?,
    })
}

/// The rs2 allocation under funct7 0x7F (CHERIoT report, 8.3, "Source & Dest").
fn source_and_dest(fields: Fields) -> Option<Instruction> {
    // CMove and CClearTag have no second operand.
    let none = Operand::Immediate(0);
    let query = match fields.rs2_bits() {
        0x00 => Query::CGetPerm,
        0x01 => Query::CGetType,
        0x02 => Query::CGetBase,
        0x03 => Query::CGetLen,
        0x04 => Query::CGetTag,
        0x08 => Query::CRoundRepresentableLength,
        0x09 => Query::CRepresentableAlignmentMask,
        0x0A => return derive(fields, Derivation::CMove, none),
        0x0B => return derive(fields, Derivation::CClearTag, none),
        0x0F => Query::CGetAddr,
        0x17 => Query::CGetHigh,
        0x18 => Query::CGetTop,
        _ => return None,
    };
    Some(Instruction::Query {
        query,
        rd: fields.rd()?,
        cs1: fields.rs1()?,
    })
}
