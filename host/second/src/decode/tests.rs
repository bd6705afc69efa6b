//! Expectations come from the RISC-V standard's formats, the CHERIoT report's chapter 8 and
//! document 01.

use super::*;
use crate::assemble as asm;
use crate::sample::Sample;

fn register(number: u32) -> Register {
    Register::new(number).expect("a test names registers up to 15")
}

fn immediate_of(word: u32) -> u32 {
    match decode(word) {
        Some(Instruction::Branch { offset, .. })
        | Some(Instruction::Cjal { offset, .. })
        | Some(Instruction::Cjalr { offset, .. })
        | Some(Instruction::Auipcc { offset, .. })
        | Some(Instruction::Auicgp { offset, .. })
        | Some(Instruction::Store { offset, .. })
        | Some(Instruction::Load { offset, .. }) => offset,
        other => panic!("{word:08x} is {other:?}"),
    }
}

// The standard's immediate formats, with words written out by hand.
#[test]
fn immediates_by_hand() {
    // beq x0, x0, -4 is 0xFE000EE3; jal x0, -4 is 0xFFDFF06F; sw x1, -4(x2) is 0xFE112E23.
    assert_eq!(immediate_of(0xFE00_0EE3), 0u32.wrapping_sub(4));
    assert_eq!(immediate_of(0xFFDF_F06F), 0u32.wrapping_sub(4));
    assert_eq!(immediate_of(0xFE11_2E23), 0u32.wrapping_sub(4));
    // beq x0, x0, 8 is 0x00000463; jal x1, 8 is 0x008000EF; lw x1, -1(x2) is 0xFFF12083.
    assert_eq!(immediate_of(0x0000_0463), 8);
    assert_eq!(immediate_of(0x0080_00EF), 8);
    assert_eq!(immediate_of(0xFFF1_2083), !0);
}

// Every even offset of a branch and a jump, and every offset of a store, comes back.
#[test]
fn immediates_of_every_width() {
    for offset in (-4096..4096).step_by(2) {
        assert_eq!(immediate_of(asm::b(offset, 1, 2, 0)), offset as u32);
    }
    for offset in (-1_048_576..1_048_576).step_by(2) {
        assert_eq!(immediate_of(asm::cjal(offset, 1)), offset as u32);
    }
    for offset in -2048..2048 {
        assert_eq!(immediate_of(asm::store(2, 1, 2, offset)), offset as u32);
        assert_eq!(immediate_of(asm::load(2, 1, 2, offset)), offset as u32);
    }
}

// CHERIoT report, AUIPCC: the signed 20-bit immediate counts 2048 bytes.
#[test]
fn auipcc_counts_in_2048() {
    assert_eq!(immediate_of(asm::u(1, 1, 0x17)), 2048);
    assert_eq!(
        immediate_of(asm::u(0xF_FFFF, 1, 0x17)),
        0u32.wrapping_sub(2048)
    );
    assert_eq!(immediate_of(asm::u(0x8_0000, 1, 0x7B)), 0xC000_0000);
    assert_eq!(immediate_of(asm::u(0x7_FFFF, 1, 0x7B)), 0x3FFF_F800);
}

// Document 01: the four whole words; every other SYSTEM word of funct3 0 is none of the
// instructions that are in.
#[test]
fn system_words() {
    assert_eq!(decode(asm::ECALL), Some(Instruction::Ecall));
    assert_eq!(decode(asm::EBREAK), Some(Instruction::Ebreak));
    assert_eq!(decode(asm::MRET), Some(Instruction::Mret));
    assert_eq!(decode(asm::WFI), Some(Instruction::Wfi));
    // SRET, DRET, and the four with a register number in rd or rs1.
    for word in [0x1020_0073, 0x7B20_0073, 0x0000_00F3, 0x0010_80F3] {
        assert_eq!(decode(word), None);
    }
}

// Document 01: the CSR numbers of mstatus, mcause and mtval; document 02, 6: those of mshwm and mshwmb. The
// rest is illegal.
#[test]
fn csr_numbers() {
    for number in 0..0x1000 {
        for funct3 in [1, 2, 3, 5, 6, 7] {
            let known = [0x300, 0x342, 0x343, 0xBC1, 0xBC2].contains(&number);
            assert_eq!(decode(asm::csr(funct3, number, 1, 2)).is_some(), known);
        }
        assert_eq!(decode(asm::csr(4, number, 1, 2)), None);
    }
    // The immediate forms hold a number: 31 is fine there and illegal as a register.
    assert!(decode(asm::csr(5, 0x300, 1, 31)).is_some());
    assert_eq!(decode(asm::csr(1, 0x300, 1, 31)), None);
    assert_eq!(decode(asm::csr(5, 0x300, 16, 1)), None);
}

// Document 01: no register above 15, in every register field in use.
#[test]
fn registers_above_15() {
    type Build = fn(u32) -> u32;
    let words: [Build; 27] = [
        |n| asm::u(0, n, 0x37),
        |n| asm::u(0, n, 0x17),
        |n| asm::u(0, n, 0x7B),
        |n| asm::cjal(0, n),
        |n| asm::cjalr(0, n, 1),
        |n| asm::cjalr(0, 1, n),
        |n| asm::b(0, n, 1, 0),
        |n| asm::b(0, 1, n, 0),
        |n| asm::load(3, n, 1, 0),
        |n| asm::load(0, 1, n, 0),
        |n| asm::store(3, n, 1, 0),
        |n| asm::store(0, 1, n, 0),
        |n| asm::addi(0, n, 1),
        |n| asm::addi(0, 1, n),
        |n| asm::r(0, n, 1, 0, 1, 0x33),
        |n| asm::r(0, 1, n, 0, 1, 0x33),
        |n| asm::r(0, 1, 1, 0, n, 0x33),
        |n| asm::r(1, n, 1, 0, 1, 0x33),
        |n| asm::r(1, 1, n, 3, 1, 0x33),
        |n| asm::r(1, 1, 1, 7, n, 0x33),
        |n| asm::two(0x08, n, 1, 1),
        |n| asm::two(0x0B, 1, n, 1),
        |n| asm::two(0x0C, 1, 1, n),
        |n| asm::one(0, n, 1),
        |n| asm::one(0x18, 1, n),
        |n| asm::two(0x01, n, 1, 28),
        |n| asm::two(0x01, 1, n, 28),
    ];
    for build in words {
        for number in 0..32 {
            assert_eq!(decode(build(number)).is_some(), number <= 15);
        }
    }
}

// The standard: SLLI, SRLI and SRAI have a fixed funct7; a set bit 25 would be a shift of 32
// or more. The M extension is funct7 1 of OP, with all eight funct3.
#[test]
fn integer_funct7() {
    for funct7 in 0..128 {
        let legal = |funct3| decode(asm::r(funct7, 1, 1, funct3, 1, 0x13)).is_some();
        assert_eq!(legal(1), funct7 == 0);
        assert_eq!(legal(5), funct7 == 0 || funct7 == 0x20);
        for funct3 in 0..8 {
            let found = decode(asm::r(funct7, 1, 1, funct3, 1, 0x33)).is_some();
            let second = funct7 == 0x20 && (funct3 == 0 || funct3 == 5);
            assert_eq!(found, funct7 <= 1 || second);
        }
    }
}

// The funct3 numbers that the standard and the CHERIoT report, 8.2.2, leave out.
#[test]
fn other_funct3() {
    let legal = |opcode: u32, funct3: u32| decode(asm::i(0, 1, funct3, 1, opcode)).is_some();
    let list = |opcode: u32| (0..8).filter(|&f| legal(opcode, f)).collect::<Vec<_>>();
    assert_eq!(list(0x03), [0, 1, 2, 3, 4, 5]);
    assert_eq!(list(0x23), [0, 1, 2, 3]);
    assert_eq!(list(0x63), [0, 1, 4, 5, 6, 7]);
    assert_eq!(list(0x67), [0]);
    assert_eq!(list(0x0F), [0]);
}

// The standard has base implementations ignore rd, rs1 and the upper bits of FENCE.
#[test]
fn fence_ignores_its_fields() {
    for word in [0x0FF0_000F, 0x8330_000F, 0xFFFF_8F8F, 0x0000_000F] {
        assert_eq!(decode(word), Some(Instruction::Fence));
    }
    assert_eq!(decode(0x0000_100F), None);
}

// CHERIoT report, 8.3: the funct7 allocation of opcode 0x5B, and no other number.
#[test]
fn capability_funct7() {
    let known = [
        0x08, 0x09, 0x0B, 0x0C, 0x0D, 0x10, 0x11, 0x14, 0x16, 0x20, 0x21, 0x7F,
    ];
    for funct7 in 0..128 {
        let found = decode(asm::two(funct7, 1, 2, 3)).is_some();
        assert_eq!(found, known.contains(&funct7), "funct7 {funct7:#x}");
    }
    for scr in 0..32 {
        let found = decode(asm::two(0x01, 1, 2, scr)).is_some();
        assert_eq!(found, (28..=31).contains(&scr));
    }
    for funct3 in 3..8 {
        assert_eq!(decode(asm::i(0, 1, funct3, 1, 0x5B)), None);
    }
}

// CHERIoT report, 8.3, "Source & Dest encoding allocation (rs2 field)".
#[test]
fn capability_rs2_numbers() {
    let known = [0, 1, 2, 3, 4, 8, 9, 0xA, 0xB, 0xF, 0x17, 0x18];
    for number in 0..32 {
        let found = decode(asm::one(number, 1, 2)).is_some();
        assert_eq!(found, known.contains(&number), "rs2 {number:#x}");
    }
}

// CHERIoT report, CIncAddrImm (signed) and CSetBoundsImm (unsigned).
#[test]
fn capability_immediates() {
    let derive = |derivation, value| {
        Some(Instruction::Derive {
            derivation,
            cd: register(1),
            cs1: register(2),
            operand: Operand::Immediate(value),
        })
    };
    assert_eq!(
        decode(asm::i(-1, 2, 1, 1, 0x5B)),
        derive(Derivation::CIncAddr, 0xFFFF_FFFF)
    );
    assert_eq!(
        decode(asm::i(-1, 2, 2, 1, 0x5B)),
        derive(Derivation::CSetBounds, 0xFFF)
    );
}

// The major opcodes that are in: those of RV32I without AMO and floating point, 0x5B and 0x7B.
#[test]
fn major_opcodes() {
    let known = [
        0x03, 0x0F, 0x13, 0x17, 0x23, 0x33, 0x37, 0x5B, 0x63, 0x67, 0x6F, 0x73, 0x7B,
    ];
    let mut sample = Sample(21);
    for _ in 0..200_000 {
        let word = sample.word();
        if decode(word).is_some() {
            assert!(known.contains(&(word & 0x7F)));
        }
    }
    assert_eq!(decode(0), None);
    assert_eq!(decode(!0), None);
}
