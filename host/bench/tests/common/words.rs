//! Instruction words by their formats (the RISC-V unprivileged standard; the CHERIoT report,
//! chapter 8).

pub const ECALL: u32 = 0x0000_0073;
pub const EBREAK: u32 = 0x0010_0073;
pub const MRET: u32 = 0x3020_0073;

// Short words: c.ebreak; c.lw x10, 64(x9); c.ldsp x10, 8(x2); c.sd x10, 8(x9); c.jal .+64;
// c.beqz x8, .+128; c.jalr x2.
pub const C_EBREAK: u32 = 0x9002;
pub const C_LW: u32 = 0x40A8;
pub const C_LDSP: u32 = 0x6522;
pub const C_SD: u32 = 0xE488;
pub const C_JAL: u32 = 0x2081;
pub const C_BEQZ: u32 = 0xC041;
pub const C_JALR: u32 = 0x9102;

/// The R format.
pub fn r(funct7: u32, rs2: u32, rs1: u32, funct3: u32, rd: u32, opcode: u32) -> u32 {
    funct7 << 25 | rs2 << 20 | rs1 << 15 | funct3 << 12 | rd << 7 | opcode
}

/// The I format.
pub fn i(immediate: i32, rs1: u32, funct3: u32, rd: u32, opcode: u32) -> u32 {
    (immediate as u32 & 0xFFF) << 20 | rs1 << 15 | funct3 << 12 | rd << 7 | opcode
}

/// A load of c10 by c2: funct3 2 is LW, 3 is CLC.
pub fn load(funct3: u32, offset: i32) -> u32 {
    i(offset, 2, funct3, 10, 0x03)
}

/// A store of c3 by c2: funct3 2 is SW, 3 is CSC.
pub fn store(funct3: u32, offset: i32) -> u32 {
    let offset = offset as u32;
    r(offset >> 5 & 0x7F, 3, 2, funct3, offset & 0x1F, 0x23)
}

/// CJALR c1 by c2.
pub fn cjalr(offset: i32) -> u32 {
    i(offset, 2, 0, 1, 0x67)
}

/// CJAL c1 with an offset of 0 to 2,046.
pub fn cjal(offset: u32) -> u32 {
    (offset >> 1 & 0x3FF) << 21 | 1 << 7 | 0x6F
}

/// BEQ c0, c0 with an offset of 0 to 1,022.
pub fn branch(offset: u32) -> u32 {
    (offset >> 5 & 0x1F) << 25 | (offset >> 1 & 0xF) << 8 | 0x63
}

/// CSRRW c10, mstatus, c0.
pub fn csr() -> u32 {
    0x300 << 20 | 1 << 12 | 10 << 7 | 0x73
}

/// CSpecialRW c10 from MTDC.
pub fn special() -> u32 {
    r(0x01, 29, 0, 0, 10, 0x5B)
}

/// ADDI.
pub fn addi(rd: u32, rs1: u32, immediate: i32) -> u32 {
    i(immediate, rs1, 0, rd, 0x13)
}
