//! Instruction words for the tests, put together field by field as the RISC-V unprivileged
//! standard draws its formats and the CHERIoT report's chapter 8 its instructions.

pub const NOP: u32 = 0x0000_0013;
pub const ECALL: u32 = 0x0000_0073;
pub const EBREAK: u32 = 0x0010_0073;
pub const MRET: u32 = 0x3020_0073;
pub const WFI: u32 = 0x1050_0073;

pub const MSTATUS: u32 = 0x300;
pub const MCAUSE: u32 = 0x342;
pub const MTVAL: u32 = 0x343;
pub const MSHWM: u32 = 0xBC1;
pub const MSHWMB: u32 = 0xBC2;

/// The R format: funct7, rs2, rs1, funct3, rd, opcode.
pub fn r(funct7: u32, rs2: u32, rs1: u32, funct3: u32, rd: u32, opcode: u32) -> u32 {
    funct7 << 25 | rs2 << 20 | rs1 << 15 | funct3 << 12 | rd << 7 | opcode
}

/// The I format with a signed 12-bit immediate.
pub fn i(immediate: i32, rs1: u32, funct3: u32, rd: u32, opcode: u32) -> u32 {
    (immediate as u32 & 0xFFF) << 20 | rs1 << 15 | funct3 << 12 | rd << 7 | opcode
}

/// The S format.
pub fn s(immediate: i32, rs2: u32, rs1: u32, funct3: u32, opcode: u32) -> u32 {
    let immediate = immediate as u32;
    r(
        immediate >> 5 & 0x7F,
        rs2,
        rs1,
        funct3,
        immediate & 0x1F,
        opcode,
    )
}

/// A branch.
pub fn b(offset: i32, rs2: u32, rs1: u32, funct3: u32) -> u32 {
    let offset = offset as u32;
    let upper = (offset >> 12 & 1) << 6 | offset >> 5 & 0x3F;
    let lower = (offset >> 1 & 0xF) << 1 | offset >> 11 & 1;
    r(upper, rs2, rs1, funct3, lower, 0x63)
}

/// CJAL.
pub fn cjal(offset: i32, cd: u32) -> u32 {
    let offset = offset as u32;
    let field = (offset >> 20 & 1) << 19
        | (offset >> 1 & 0x3FF) << 9
        | (offset >> 11 & 1) << 8
        | offset >> 12 & 0xFF;
    u(field, cd, 0x6F)
}

/// The U format with its 20-bit field.
pub fn u(field: u32, rd: u32, opcode: u32) -> u32 {
    (field & 0xF_FFFF) << 12 | rd << 7 | opcode
}

pub fn cjalr(offset: i32, cs1: u32, cd: u32) -> u32 {
    i(offset, cs1, 0, cd, 0x67)
}

pub fn addi(immediate: i32, rs1: u32, rd: u32) -> u32 {
    i(immediate, rs1, 0, rd, 0x13)
}

/// A load by funct3: 0 LB, 1 LH, 2 LW, 3 CLC, 4 LBU, 5 LHU.
pub fn load(funct3: u32, rd: u32, cs1: u32, offset: i32) -> u32 {
    i(offset, cs1, funct3, rd, 0x03)
}

/// A store by funct3: 0 SB, 1 SH, 2 SW, 3 CSC.
pub fn store(funct3: u32, rs2: u32, cs1: u32, offset: i32) -> u32 {
    s(offset, rs2, cs1, funct3, 0x23)
}

/// A capability instruction with two sources, by funct7.
pub fn two(funct7: u32, cd: u32, cs1: u32, rs2: u32) -> u32 {
    r(funct7, rs2, cs1, 0, cd, 0x5B)
}

/// A capability instruction with one source, by its number in the rs2 field.
pub fn one(number: u32, rd: u32, cs1: u32) -> u32 {
    two(0x7F, rd, cs1, number)
}

/// A CSR instruction by funct3.
pub fn csr(funct3: u32, number: u32, rd: u32, rs1: u32) -> u32 {
    number << 20 | rs1 << 15 | funct3 << 12 | rd << 7 | 0x73
}
