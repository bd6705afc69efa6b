//! Integer instructions (the RISC-V unprivileged standard) and CSR instructions.

use super::bench::*;
use crate::assemble as asm;
use crate::sample::Sample;

/// The result of a word with c1 and c2 holding two integers; the destination is c3, which
/// held a tagged capability before.
fn result(word: u32, first: u32, second: u32) -> u32 {
    let mut bench = Bench::new();
    bench.set(1, tagged(first, MEMORY_ROOT));
    bench.set(2, integer(second));
    bench.set(3, tagged(7, MEMORY_ROOT));
    bench.retire(word);
    let c3 = bench.get(3);
    // A tempting mistake of document 01's: metadata or tag of the old value would stay.
    assert_eq!((c3.metadata, c3.tag), (0, 0));
    c3.address
}

fn op(funct7: u32, funct3: u32) -> u32 {
    asm::r(funct7, 2, 1, funct3, 3, 0x33)
}

// The standard's OP instructions; shifts take the low five bits of rs2.
#[test]
fn register_operations() {
    let minus = |n: u32| 0u32.wrapping_sub(n);
    assert_eq!(result(op(0, 0), 0xFFFF_FFFF, 2), 1);
    assert_eq!(result(op(0x20, 0), 1, 2), minus(1));
    assert_eq!(result(op(0, 1), 3, 33), 6);
    assert_eq!(result(op(0, 2), minus(1), 0), 1);
    assert_eq!(result(op(0, 2), 0, minus(1)), 0);
    assert_eq!(result(op(0, 3), minus(1), 0), 0);
    assert_eq!(result(op(0, 3), 0, minus(1)), 1);
    assert_eq!(result(op(0, 4), 0b1100, 0b1010), 0b0110);
    assert_eq!(result(op(0, 5), 0x8000_0000, 36), 0x0800_0000);
    assert_eq!(result(op(0x20, 5), 0x8000_0000, 36), 0xF800_0000);
    assert_eq!(result(op(0, 6), 0b1100, 0b1010), 0b1110);
    assert_eq!(result(op(0, 7), 0b1100, 0b1010), 0b1000);
}

// funct3 of the M extension.
const MUL: u32 = 0;
const MULH: u32 = 1;
const MULHSU: u32 = 2;
const MULHU: u32 = 3;
const DIV: u32 = 4;
const DIVU: u32 = 5;
const REM: u32 = 6;
const REMU: u32 = 7;

const LEAST: u32 = 0x8000_0000;
const MOST: u32 = 0x7FFF_FFFF;
const MINUS_1: u32 = 0xFFFF_FFFF;

fn m(funct3: u32, first: u32, second: u32) -> u32 {
    result(op(1, funct3), first, second)
}

// The standard, M: the low word of a product, and the high word with both factors signed, the first
// signed alone, neither signed. (-2^31)^2 = 2^62; (2^32 - 1)^2 = 2^64 - 2 * 2^32 + 1.
#[test]
fn products() {
    let all = |first, second| [MUL, MULH, MULHSU, MULHU].map(|funct3| m(funct3, first, second));
    assert_eq!(all(6, 7), [42, 0, 0, 0]);
    assert_eq!(all(0, MINUS_1), [0, 0, 0, 0]);
    assert_eq!(all(1, MINUS_1), [MINUS_1, MINUS_1, 0, 0]);
    assert_eq!(all(MINUS_1, 1), [MINUS_1, MINUS_1, MINUS_1, 0]);
    assert_eq!(all(MINUS_1, MINUS_1), [1, 0, MINUS_1, 0xFFFF_FFFE]);
    assert_eq!(
        all(LEAST, LEAST),
        [0, 0x4000_0000, 0xC000_0000, 0x4000_0000]
    );
    assert_eq!(all(LEAST, MINUS_1), [LEAST, 0, LEAST, MOST]);
    assert_eq!(all(MINUS_1, LEAST), [LEAST, 0, MINUS_1, MOST]);
    assert_eq!(all(MOST, MOST), [1, 0x3FFF_FFFF, 0x3FFF_FFFF, 0x3FFF_FFFF]);
    assert_eq!(
        all(MOST, LEAST),
        [LEAST, 0xC000_0000, 0x3FFF_FFFF, 0x3FFF_FFFF]
    );
    assert_eq!(
        all(LEAST, MOST),
        [LEAST, 0xC000_0000, 0xC000_0000, 0x3FFF_FFFF]
    );
    assert_eq!(all(0x1_0000, 0x1_0000), [0, 1, 1, 1]);
}

// The standard, M: rounded towards zero, the remainder with the dividend's sign; by zero all ones and
// the dividend; the most negative by -1 itself and 0.
#[test]
fn quotients_and_remainders() {
    let all = |first, second| [DIV, REM, DIVU, REMU].map(|funct3| m(funct3, first, second));
    let minus = |n: u32| 0u32.wrapping_sub(n);
    assert_eq!(all(20, 6), [3, 2, 3, 2]);
    assert_eq!(all(minus(20), 6)[..2], [minus(3), minus(2)]);
    assert_eq!(all(20, minus(6)), [minus(3), 2, 0, 20]);
    assert_eq!(all(minus(20), minus(6)), [3, minus(2), 0, minus(20)]);
    for dividend in [0, 1, MINUS_1, LEAST, MOST] {
        assert_eq!(all(dividend, 0), [MINUS_1, dividend, MINUS_1, dividend]);
    }
    assert_eq!(all(LEAST, MINUS_1), [LEAST, 0, 0, LEAST]);
    assert_eq!(all(LEAST, 1), [LEAST, 0, LEAST, 0]);
    assert_eq!(all(LEAST, LEAST), [1, 0, 1, 0]);
    assert_eq!(all(LEAST, MOST), [MINUS_1, MINUS_1, 1, 1]);
    assert_eq!(all(MOST, LEAST), [0, MOST, 0, MOST]);
    assert_eq!(all(MINUS_1, MOST), [0, MINUS_1, 2, 1]);
    assert_eq!(all(1, MINUS_1), [MINUS_1, 0, 0, 1]);
}

/// The high word of an unsigned product, by the halves of its factors.
fn by_halves(first: u32, second: u32) -> u32 {
    let (high, low) = (first >> 16, first & 0xFFFF);
    let (other_high, other_low) = (second >> 16, second & 0xFFFF);
    let middle = high * other_low + ((low * other_low) >> 16);
    let sum = (middle & 0xFFFF) + low * other_high;
    high * other_high + (middle >> 16) + (sum >> 16)
}

// What the results are to each other: the high words differ by the factors that are negative, and
// dividend = divisor * quotient + remainder with the remainder nearer to zero than the divisor.
#[test]
fn laws_of_products_and_quotients() {
    let mut sample = Sample(11);
    for _ in 0..2000 {
        let (first, second) = (sample.sized(), sample.near(0));
        let high = m(MULHU, first, second);
        let (first_signed, second_signed) = (first as i32, second as i32);
        let less =
            |high: u32, negative: bool, other| high.wrapping_sub(if negative { other } else { 0 });
        assert_eq!(high, by_halves(first, second));
        assert_eq!(
            m(MULHSU, first, second),
            less(high, first_signed < 0, second)
        );
        let both = less(
            less(high, first_signed < 0, second),
            second_signed < 0,
            first,
        );
        assert_eq!(m(MULH, first, second), both);
        for (quotient, remainder) in [(DIV, REM), (DIVU, REMU)] {
            let (quotient, left) = (m(quotient, first, second), m(remainder, first, second));
            let product = m(MUL, second, quotient);
            assert_eq!(product.wrapping_add(left), first);
        }
        if second != 0 {
            let left = m(REM, first, second) as i32;
            assert!(left.unsigned_abs() < second_signed.unsigned_abs());
            assert!(left == 0 || (left < 0) == (first_signed < 0));
            assert!(m(REMU, first, second) < second);
        }
    }
}

// The standard's OP-IMM instructions: the immediate is sign-extended, for SLTIU too.
#[test]
fn immediate_operations() {
    let imm = |immediate, funct3| asm::i(immediate, 1, funct3, 3, 0x13);
    assert_eq!(result(imm(-1, 0), 0, 0), 0xFFFF_FFFF);
    assert_eq!(result(imm(-1, 2), 0xFFFF_FFFE, 0), 1);
    assert_eq!(result(imm(-1, 3), 5, 0), 1);
    assert_eq!(result(imm(-1, 4), 5, 0), 0xFFFF_FFFA);
    assert_eq!(result(imm(-16, 6), 5, 0), 0xFFFF_FFF5);
    assert_eq!(result(imm(-16, 7), 0x1235, 0), 0x1230);
    assert_eq!(result(imm(31, 1), 3, 0), 0x8000_0000);
    assert_eq!(result(imm(31, 5), 0x8000_0000, 0), 1);
    assert_eq!(result(imm(0x400 | 31, 5), 0x8000_0000, 0), 0xFFFF_FFFF);
    assert_eq!(result(asm::u(0xF_FFFF, 3, 0x37), 0, 0), 0xFFFF_F000);
}

// c0 stays the NULL capability (CHERIoT report, 7.13.6).
#[test]
fn writes_to_c0_are_dropped() {
    let mut bench = Bench::new();
    bench.retire(asm::addi(5, 0, 0));
    bench.retire(asm::u(1, 0, 0x17));
    assert_eq!(bench.get(0), integer(0));
}

// Document 01, "In and out": FENCE and WFI have no effect, without SR on PCC too.
#[test]
fn fence_and_wfi() {
    for word in [asm::WFI, 0x0FF0_000F, 0x8330_000F] {
        let mut bench = Bench::new();
        let metadata = EXECUTABLE_ROOT & !(0b100 << 25);
        bench.set(PCC, tagged(START, metadata));
        bench.program(&[word]);
        let mut expected = bench.clone();
        expected.set(PCC, tagged(START + 4, metadata));
        expected.set_long(TIME, 1);
        assert_eq!(bench.step(), RETIRED);
        assert_eq!(bench, expected);
    }
}

// Document 01, "Cases", the last: a no-op in the last word of the space, by a PCC of its last
// 4,096 bytes, and the PCC after it. E = 4: B = 0x100, T = 0.
#[test]
fn the_last_instruction_of_the_space() {
    let metadata = 0x5E00_0000 | 4 << 18 | 0x100;
    let mut bench = Bench::new();
    bench.start = 0xFFFF_FF00;
    bench.set(PCC, tagged(0xFFFF_FFFC, metadata));
    bench.program(&[asm::NOP]);
    assert_eq!(bench.step(), RETIRED);
    assert_eq!(bench.get(PCC), untagged(tagged(0, metadata)));
}

// The standard's six CSR instructions on mcause and mtval, which take every word.
#[test]
fn csr_operations() {
    let run = |funct3: u32, rs1: u32, place: usize, number: u32| {
        let mut bench = Bench::new();
        bench.regs[place] = 0xF0F0_00FF;
        bench.set(1, integer(0x0FF0_000F));
        bench.retire(asm::csr(funct3, number, 3, rs1));
        assert_eq!(bench.get(3), integer(0xF0F0_00FF));
        bench.regs[place]
    };
    for (place, number) in [(MCAUSE, asm::MCAUSE), (MTVAL, asm::MTVAL)] {
        assert_eq!(run(1, 1, place, number), 0x0FF0_000F);
        assert_eq!(run(2, 1, place, number), 0xFFF0_00FF);
        assert_eq!(run(3, 1, place, number), 0xF000_00F0);
        assert_eq!(run(5, 31, place, number), 31);
        assert_eq!(run(6, 16, place, number), 0xF0F0_00FF);
        assert_eq!(run(7, 31, place, number), 0xF0F0_00E0);
        // CSRRW writes even c0's zero; the others with 0 write nothing.
        assert_eq!(run(1, 0, place, number), 0);
        assert_eq!(run(5, 0, place, number), 0);
        assert_eq!(run(2, 0, place, number), 0xF0F0_00FF);
        assert_eq!(run(7, 0, place, number), 0xF0F0_00FF);
    }
}

// Document 01, "What is lent": writes of mstatus change MIE and MPIE, bits 3 and 7; the others
// are kept and read.
#[test]
fn csr_mstatus() {
    let run = |before: u32, funct3: u32, value: u32| {
        let mut bench = Bench::new();
        bench.regs[MSTATUS] = before;
        bench.set(1, integer(value));
        bench.retire(asm::csr(funct3, asm::MSTATUS, 1, 1));
        // rd and rs1 are one register: the source is read first.
        assert_eq!(bench.get(1), integer(before));
        bench.regs[MSTATUS]
    };
    assert_eq!(run(0, 1, 0xFFFF_FFFF), 0x88);
    assert_eq!(run(0x1234_56FF, 1, 0), 0x1234_5677);
    assert_eq!(run(0x1800, 2, 0x0000_0008), 0x1808);
    assert_eq!(run(0xFFFF_FFFF, 3, 0xFFFF_FFFF), 0xFFFF_FF77);
}
