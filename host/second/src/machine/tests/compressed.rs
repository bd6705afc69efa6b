//! Short words (document 02, 3; CHERIoT report, 7.14): the fetch in halves, lengths, and which forms
//! act on capabilities.

use super::bench::*;
use crate::assemble as asm;
use crate::capability::{set_bounds, Capability};

const C_NOP: u16 = 0x0001;
const C_EBREAK: u16 = 0x9002;
/// The first half of a long word.
const LONG: u16 = 0x0013;

/// Places of PCC that are a multiple of four and that are not.
const PLACES: [u32; 2] = [START + 0x40, START + 0x42];

fn at(address: u32) -> Bench {
    let mut bench = Bench::new();
    bench.set(PCC, tagged(address, EXECUTABLE_ROOT));
    bench
}

/// An executable capability of some bytes, with its address in them.
fn code(base: u32, length: u32, address: u32) -> Capability {
    Capability {
        address,
        ..set_bounds(tagged(base, EXECUTABLE_ROOT), length)
    }
}

// The next address is two bytes on after a short word and four after a long one, wherever they
// stand.
#[test]
fn words_of_both_lengths_in_a_row() {
    let mut bench = Bench::new();
    // c.li x10, -1; addi x10, x10, 7; c.addi x10, 1; c.nop.
    let [low, high] = [0x0075_0513u32 as u16, (0x0075_0513u32 >> 16) as u16];
    bench.halves(&[0x557D, low, high, 0x0505, C_NOP]);
    for (address, value) in [(2, !0), (6, 6), (8, 7), (10, 7)] {
        assert_eq!(bench.step(), RETIRED);
        assert_eq!(bench.get(PCC), tagged(START + address, EXECUTABLE_ROOT));
        assert_eq!(bench.get(10), integer(value));
    }
}

// The link is two bytes on after C.JAL and C.JALR, four after CJAL at an odd place too; C.J and C.JR
// leave none.
#[test]
fn links() {
    for place in PLACES {
        let link = |bytes| sealed(tagged(place + bytes, EXECUTABLE_ROOT), 2);
        // c.jal .+16; c.jalr x5; c.j .+32; c.jr x5.
        let jumps: [(u16, u32, Option<u32>); 4] = [
            (0x2801, place + 16, Some(2)),
            (0x9282, START + 0x80, Some(2)),
            (0xA005, place + 32, None),
            (0x8282, START + 0x80, None),
        ];
        for (half, target, bytes) in jumps {
            let mut bench = at(place);
            bench.set(5, sealed(tagged(START + 0x80, EXECUTABLE_ROOT), 1));
            bench.halves(&[half]);
            assert_eq!(bench.step(), RETIRED);
            assert_eq!(bench.get(PCC), tagged(target, EXECUTABLE_ROOT));
            assert_eq!(bench.get(1), bytes.map_or(integer(0), link));
        }
        let mut bench = at(place);
        bench.program(&[asm::cjal(6, 1)]);
        assert_eq!(bench.step(), RETIRED);
        assert_eq!(bench.get(PCC).address, place + 6);
        assert_eq!(bench.get(1), link(4));
    }
}

// C.BEQZ and C.BNEZ: taken to an address that is two more than a multiple of four, or two on.
#[test]
fn branches() {
    for (half, value, bytes) in [
        (0xC119, 0, 6),
        (0xC119, 1, 2),
        (0xE119, 0, 2),
        (0xE119, 1, 6),
    ] {
        // c.beqz x10, .+6; c.bnez x10, .+6.
        let mut bench = at(START + 0x40);
        bench.set(10, integer(value));
        bench.halves(&[half]);
        assert_eq!(bench.step(), RETIRED);
        assert_eq!(bench.get(PCC).address, START + 0x40 + bytes);
    }
}

// CHERIoT report, 7.14: C.ADDI16SP and C.ADDI4SPN are CIncAddr; C.LDSP and C.SDSP, C.LD and C.SD
// move capabilities. The rest is the standard's: C.MV, C.ADD, C.ADDI and C.LWSP leave integers.
#[test]
fn forms_on_capabilities() {
    let stack = memory(START + 0x80, 64);
    let mut bench = Bench::new();
    bench.set(2, stack);
    // c.addi4spn x8, x2, 4; c.addi16sp x2, 16.
    bench.retire_half(0x0040);
    let moved = |by| Capability {
        address: START + 0x80 + by,
        ..stack
    };
    assert_eq!(bench.get(8), moved(4));
    bench.retire_half(0x6141);
    assert_eq!(bench.get(2), moved(16));
    // c.sdsp x8, 8(x2); c.ldsp x9, 8(x2): at 0x98.
    bench.retire_half(0xE422);
    assert_eq!(bench.tag_at(0x98), 1);
    bench.retire_half(0x64A2);
    assert_eq!(bench.get(9), moved(4));
    // c.mv x10, x2; c.add x9, x2; c.addi x2, 31; c.lwsp x1, 0(x2) by an integer.
    bench.retire_half(0x850A);
    assert_eq!(bench.get(10), integer(START + 0x90));
    bench.retire_half(0x948A);
    let sum = (START + 0x84).wrapping_add(START + 0x90);
    assert_eq!(bench.get(9), integer(sum));
    bench.retire_half(0x017D);
    assert_eq!(bench.get(2), integer(START + 0xAF));
    bench.halves(&[0x4082]);
    bench.trap_in_place(28, 2 * 32 + 2);
}

// The standard's hints change nothing, not a capability's tag either.
#[test]
fn hints() {
    for half in [
        0x0501, 0x0101, 0x8401, 0x8001, 0x0082, 0x8006, 0x4005, 0x6005,
    ] {
        let mut bench = Bench::new();
        for place in 1..16 {
            bench.set(place, memory(START + 0x80, 64));
        }
        bench.halves(&[half]);
        let mut expected = bench.clone();
        expected.set(PCC, tagged(START + 2, EXECUTABLE_ROOT));
        expected.set_long(TIME, 1);
        assert_eq!(bench.step(), RETIRED);
        assert_eq!(bench, expected, "{half:04x}");
    }
}

// An illegal short word is in mtval with zeros above it, whatever stands behind it; a long one is
// whole. C.EBREAK is a breakpoint.
#[test]
fn illegal_words_of_both_lengths() {
    for place in PLACES {
        for half in [0x0000, 0x6101, 0x8002, 0x9C01, 0x2000, 0x8000] {
            let mut bench = at(place);
            bench.halves(&[half, 0xFFFF]);
            bench.trap_in_place(2, half.into());
        }
        let mut bench = at(place);
        bench.halves(&[0xFFFF, 0x1234]);
        bench.trap_in_place(2, 0x1234_FFFF);
        let mut bench = at(place);
        bench.halves(&[C_EBREAK, 0xFFFF]);
        bench.trap_in_place(3, 0);
    }
}

// A fetch checks two bytes, then two more if the word is long: bounds of PCC (cause 1, register
// 32), which come before memory's end for the second half too.
#[test]
fn the_second_half_in_bounds() {
    for place in PLACES {
        let mut bench = Bench::new();
        // Bounds from the start to two, and three, bytes after the place.
        for left in [2, 3] {
            bench.set(PCC, code(START, place + left - START, place));
            bench.halves(&[C_NOP, C_NOP]);
            let mut short = bench.clone();
            assert_eq!(short.step(), RETIRED);
            bench.halves(&[LONG, 0]);
            bench.trap_in_place(28, 1024 + 1);
            bench.set(MEPCC, tagged(0, EXECUTABLE_ROOT));
        }
        bench.set(PCC, code(START, place + 4 - START, place));
        bench.retire(asm::NOP);
        // One byte.
        bench.set(PCC, code(START, place + 1 - START, place));
        bench.trap_in_place(28, 1024 + 1);
    }
    // The last two bytes of memory and of bounds.
    let last = START + 0xFE;
    let mut bench = at(last);
    bench.set(PCC, code(START, 0x100, last));
    bench.halves(&[LONG]);
    bench.trap_in_place(28, 1024 + 1);
}

// The last two bytes of memory: a short word runs there; of a long one the second half is outside,
// and its address is in mtval. MEPCC is at the first half.
#[test]
fn the_second_half_in_memory() {
    let last = START + 0xFE;
    let mut bench = at(last);
    bench.retire_half(C_NOP);
    bench.trap_in_place(1, START + 0x100);
    let mut bench = at(last);
    bench.halves(&[LONG]);
    bench.trap_in_place(1, START + 0x100);
    assert_eq!(bench.get(MEPCC), tagged(last, EXECUTABLE_ROOT));
    let mut bench = at(START + 0xFC);
    bench.retire(asm::NOP);
}

// At the end of the space a second half is at 2^32, never at 0: out of bounds for a PCC that ends
// there. After a short word the next PCC is at 0, out of what the capability can represent, or
// tagged where it is the root, which holds address 0.
#[test]
fn the_end_of_the_space() {
    let mut bench = Bench::new();
    bench.start = 0xFFFF_FF00;
    let metadata = 0x5E00_0000 | 4 << 18 | 0x100;
    for pcc in [
        tagged(0xFFFF_FFFE, metadata),
        tagged(0xFFFF_FFFE, EXECUTABLE_ROOT),
    ] {
        let mut short = bench.clone();
        short.set(PCC, pcc);
        let mut long = short.clone();
        short.halves(&[C_NOP]);
        assert_eq!(short.step(), RETIRED);
        let tag = u32::from(pcc.metadata == EXECUTABLE_ROOT);
        let next = tagged(0, pcc.metadata);
        assert_eq!(short.get(PCC), Capability { tag, ..next });
        long.halves(&[LONG]);
        long.trap_in_place(28, 1024 + 1);
    }
    // A PCC whose high is 511 * 2^24, above 2^32: the second half is outside memory then. No start has
    // such a PCC (document 02, 13): CLC loads it, CJALR jumps there.
    let beyond = tagged(0xFFFF_FFFE, 0x5E3C_0000 | 511 << 9);
    bench.set(PCC, tagged(0xFFFF_FFFE, EXECUTABLE_ROOT));
    bench.halves(&[LONG]);
    bench.set(PCC, tagged(bench.start, EXECUTABLE_ROOT));
    bench.set(1, tagged(bench.start, MEMORY_ROOT));
    bench.put(64, beyond);
    bench.program(&[asm::load(3, 2, 1, 64), asm::cjalr(0, 2, 0)]);
    assert_eq!(bench.run(3), TRAPPED + 2);
    assert_eq!((bench.regs[MCAUSE], bench.regs[MTVAL]), (1, 0));
    assert_eq!(bench.get(MEPCC), beyond);
}

// A jump's target needs two bytes in bounds, in an odd place of four too.
#[test]
fn targets() {
    let mut bench = at(START);
    bench.set(PCC, code(START, 0x12, START));
    // c.jal .+16 has two bytes there, c.j .+32 none.
    let mut retired = bench.clone();
    retired.halves(&[0x2801]);
    assert_eq!(retired.step(), RETIRED);
    bench.halves(&[0xA005]);
    bench.clone().trap_in_place(28, 1024 + 1);
    bench.set(PCC, code(START, 0x11, START));
    bench.halves(&[0x2801]);
    bench.trap_in_place(28, 1024 + 1);
}
