//! The stack's high-water mark (document 02, 6; the public editions of the CHERIoT report): what a store
//! does to it, and its two registers.

use super::bench::*;
use crate::assemble as asm;

/// A bench with a mark and its base, and c1 for all of memory.
fn marked(base: u32, mark: u32) -> Bench {
    let mut bench = Bench::new();
    bench.regs[MSHWM] = mark;
    bench.regs[MSHWMB] = base;
    bench.set(1, tagged(START, MEMORY_ROOT));
    bench
}

/// The mark after a store at an offset: by funct3 SB, SH, SW or CSC.
fn after(funct3: u32, offset: u32, base: u32, mark: u32) -> u32 {
    let mut bench = marked(START.wrapping_add(base), START.wrapping_add(mark));
    bench.retire(asm::store(funct3, 2, 1, offset as i32));
    assert_eq!(bench.regs[MSHWMB], START.wrapping_add(base));
    bench.regs[MSHWM].wrapping_sub(START)
}

// From the base up to below the mark, and then down to the store with the low four bits cleared.
#[test]
fn a_store_between_base_and_mark_lowers_the_mark() {
    for (funct3, size) in [(0, 1), (1, 2), (2, 4), (3, 8)] {
        assert_eq!(after(funct3, 0x40, 0x40, 0x80), 0x40);
        assert_eq!(after(funct3, 0x40 - size, 0x40, 0x80), 0x80);
        assert_eq!(after(funct3, 0x80 - size, 0x40, 0x80), 0x70);
        assert_eq!(after(funct3, 0x80, 0x40, 0x80), 0x80);
        assert_eq!(after(funct3, 0x50 + size, 0x40, 0x80), 0x50);
        assert_eq!(after(funct3, 0x60, 0x60, 0x60), 0x60);
        assert_eq!(after(funct3, 0x60, 0x70, 0x50), 0x50);
    }
}

// Lent words are compared whole. Only the lowest byte of a store counts.
#[test]
fn lent_low_bits_count() {
    assert_eq!(after(0, 0x44, 0x45, 0x80), 0x80);
    assert_eq!(after(0, 0x45, 0x45, 0x80), 0x40);
    assert_eq!(after(0, 0x83, 0x40, 0x84), 0x80);
    assert_eq!(after(0, 0x84, 0x40, 0x84), 0x84);
    assert_eq!(after(0, 0x85, 0x40, 0x8F), 0x80);
    assert_eq!(after(2, 0x44, 0x45, 0x80), 0x80);
    assert_eq!(after(3, 0x80, 0x40, 0x81), 0x80);
    // The mark may so come to lie below its base.
    assert_eq!(after(0, 0x4F, 0x4F, 0x50), 0x40);
}

// Unsigned words: a mark at the top of the address space, and one above the sign.
#[test]
fn the_words_have_no_sign() {
    let mut bench = marked(0, u32::MAX);
    bench.retire(asm::store(2, 2, 1, 0x44));
    assert_eq!(bench.regs[MSHWM], START + 0x40);
    let mut bench = marked(0x8000_0000, u32::MAX);
    bench.retire(asm::store(2, 2, 1, 0x44));
    assert_eq!(bench.regs[MSHWM], u32::MAX);
}

// The short stores do as their long forms.
#[test]
fn short_stores_move_the_mark() {
    // C.SWSP x2, 4; C.SDSP c2, 8.
    for (half, mark) in [(0xC20A, 0x40), (0xE40A, 0x40)] {
        let mut bench = marked(START, START + 0x80);
        bench.set(2, tagged(START + 0x40, MEMORY_ROOT));
        bench.retire_half(half);
        assert_eq!(bench.regs[MSHWM], START + mark);
    }
}

// A trapped store moves nothing: no tag, misaligned, outside memory.
#[test]
fn a_trapped_store_moves_nothing() {
    let mut bench = marked(0, u32::MAX);
    bench.clone().trap(asm::store(2, 2, 2, 0x44), 28, 64 + 2);
    bench
        .clone()
        .trap(asm::store(2, 2, 1, 0x45), 6, START + 0x45);
    bench
        .clone()
        .trap(asm::store(3, 2, 1, 0x44), 6, START + 0x44);
    bench
        .clone()
        .trap(asm::store(0, 2, 1, 0x100), 7, START + 0x100);
    bench.trap(asm::store(3, 2, 1, 0x100), 7, START + 0x100);
}

// Neither does a load.
#[test]
fn a_load_moves_nothing() {
    let mut bench = marked(0, u32::MAX);
    bench.retire(asm::load(2, 3, 1, 0x44));
    bench.retire(asm::load(3, 3, 1, 0x48));
    assert_eq!(bench.regs[MSHWM], u32::MAX);
}

// All six CSR instructions on both: the old word is read whole, what is written loses its low bits.
#[test]
fn csr_writes_clear_the_low_bits() {
    const OLD: u32 = 0x2000_0013;
    const VALUE: u32 = 0x0000_FF0A;
    for (number, place) in [(asm::MSHWM, MSHWM), (asm::MSHWMB, MSHWMB)] {
        let run = |funct3: u32, rs1: u32| {
            let mut bench = marked(OLD, OLD);
            bench.set(2, integer(VALUE));
            bench.set(4, integer(0));
            bench.retire(asm::csr(funct3, number, 3, rs1));
            assert_eq!(bench.get(3), integer(OLD));
            assert_eq!(bench.regs[MSHWM + MSHWMB - place], OLD);
            bench.regs[place]
        };
        assert_eq!(run(1, 2), 0xFF00);
        assert_eq!(run(2, 2), 0x2000_FF10);
        assert_eq!(run(3, 2), 0x2000_0010);
        assert_eq!(
            [run(5, 31), run(6, 31), run(7, 31)],
            [16, 0x2000_0010, 0x2000_0000]
        );
        assert_eq!(
            [run(5, 15), run(6, 15), run(7, 15)],
            [0, 0x2000_0010, 0x2000_0010]
        );
        // Register 0 and the number 0: CSRRW and CSRRWI write 0, the others write nothing.
        assert_eq!([1, 2, 3].map(|funct3| run(funct3, 0)), [0, OLD, OLD]);
        assert_eq!([5, 6, 7].map(|funct3| run(funct3, 0)), [0, OLD, OLD]);
        // Another register that holds 0: they all write.
        assert_eq!(
            [1, 2, 3].map(|funct3| run(funct3, 4)),
            [0, 0x2000_0010, 0x2000_0010]
        );
    }
}
