//! The capability instructions as instructions; what they compute is tested a layer below.

use super::bench::*;
use crate::assemble as asm;
use crate::capability::{narrow, set_bounds, Capability, LD, SE};

/// What a word leaves in c3, with c1 and c2 as given.
fn result(word: u32, c1: Capability, c2: Capability) -> Capability {
    let mut bench = Bench::new();
    bench.set(1, c1);
    bench.set(2, c2);
    bench.set(3, tagged(7, SEALING_ROOT));
    bench.retire(word);
    bench.get(3)
}

fn query(number: u32, c1: Capability) -> u32 {
    let c3 = result(asm::one(number, 3, 1), c1, integer(0));
    assert_eq!((c3.metadata, c3.tag), (0, 0));
    c3.address
}

// CHERIoT report, chapter 9, the inspection instructions, on [0x20000001, 0x20000200).
#[test]
fn inspection() {
    let c1 = memory(0x2000_0001, 511);
    assert_eq!(query(0x00, c1), 0x07F);
    assert_eq!(query(0x01, c1), 0);
    assert_eq!(query(0x01, sealed(c1, 3)), 11);
    assert_eq!(query(0x02, c1), 0x2000_0001);
    assert_eq!(query(0x03, c1), 511);
    assert_eq!(query(0x04, c1), 1);
    assert_eq!(query(0x04, untagged(c1)), 0);
    assert_eq!(query(0x0F, c1), 0x2000_0001);
    assert_eq!(query(0x17, c1), 0x7E00_0001);
    assert_eq!(query(0x18, c1), 0x2000_0200);
}

// CHERIoT report, CGetLen and CGetTop: the maximum value of 2^32 - 1 where the length or the
// top is 2^32.
#[test]
fn whole_space_length_and_top() {
    let root = tagged(5, MEMORY_ROOT);
    assert_eq!(query(0x03, root), 0xFFFF_FFFF);
    assert_eq!(query(0x18, root), 0xFFFF_FFFF);
    assert_eq!(query(0x02, root), 0);
}

// Our reading for high below low: the length is taken modulo 2^33, then at most 2^32 - 1.
// E = 0, B = 5, T = 3 at address 4: low = 2^32 - 507, high = 3, the difference 2^32 + 510.
#[test]
fn length_of_inside_out_bounds() {
    let inside_out = Capability {
        address: 4,
        metadata: 3 << 9 | 5,
        tag: 0,
    };
    assert_eq!(query(0x02, inside_out), 0xFFFF_FE05);
    assert_eq!(query(0x18, inside_out), 3);
    assert_eq!(query(0x03, inside_out), 0xFFFF_FFFF);
}

// CHERIoT report, CRRL and CRAM, on the address of rs1.
#[test]
fn representable_lengths() {
    assert_eq!(query(0x08, integer(1_023)), 1_024);
    assert_eq!(query(0x09, integer(1_023)), 0xFFFF_FFFC);
    assert_eq!(query(0x08, tagged(0xFFFF_FFFF, MEMORY_ROOT)), 0);
}

// CHERIoT report, chapter 9, the modification instructions.
#[test]
fn modification() {
    let c1 = memory(0x2000_0001, 511);
    let at = |address| Capability { address, ..c1 };
    let two = |funct7, value| result(asm::two(funct7, 3, 1, 2), c1, tagged(value, MEMORY_ROOT));
    assert_eq!(two(0x10, 0x2000_0200), at(0x2000_0200));
    assert_eq!(two(0x10, 0x2000_0201), untagged(at(0x2000_0201)));
    assert_eq!(two(0x11, 511), at(0x2000_0200));
    assert_eq!(two(0x11, 0xFFFF_FFFF), untagged(at(0x2000_0000)));
    assert_eq!(two(0x0D, LD), narrow(c1, LD));
    assert_eq!(two(0x08, 16), set_bounds(c1, 16));
    assert_eq!(two(0x09, 16), set_bounds(c1, 16));
    assert_eq!(two(0x08, 512), untagged(set_bounds(c1, 512)));
    let high = two(0x16, 0xFFFF_FFFF);
    assert_eq!((high.address, high.metadata, high.tag), (c1.address, !0, 0));
    let none = integer(0);
    assert_eq!(result(asm::one(0xA, 3, 1), c1, none), c1);
    assert_eq!(result(asm::one(0xB, 3, 1), c1, none), untagged(c1));
    let immediate = |value, funct3| result(asm::i(value, 1, funct3, 3, 0x5B), c1, none);
    assert_eq!(immediate(511, 1), at(0x2000_0200));
    assert_eq!(immediate(-1, 1), untagged(at(0x2000_0000)));
    assert_eq!(immediate(511, 2), c1);
    // -1 is 4,095 here, more than c1 holds.
    assert_eq!(immediate(-1, 2), untagged(set_bounds(c1, 4_095)));
}

// CHERIoT report, AUIPCC and AUICGP: imm * 2048 added to PCC's and c3's address.
#[test]
fn address_construction() {
    let mut bench = Bench::new();
    bench.retire(asm::u(0xF_FFFF, 4, 0x17));
    assert_eq!(bench.get(4), tagged(START - 2048, EXECUTABLE_ROOT));
    let globals = memory(0x4000, 4096);
    bench.set(3, globals);
    bench.retire(asm::u(1, 4, 0x7B));
    assert_eq!(bench.get(4), tagged(0x4800, globals.metadata));
    bench.retire(asm::u(0xF_FFFF, 4, 0x7B));
    assert_eq!(bench.get(4), untagged(tagged(0x3800, globals.metadata)));
    bench.set(3, sealed(globals, 1));
    bench.retire(asm::u(0, 4, 0x7B));
    assert_eq!(bench.get(4), untagged(sealed(globals, 1)));
    // A small PCC is left behind: unrepresentable, so untagged.
    let code = set_bounds(tagged(START, EXECUTABLE_ROOT), 64);
    bench.set(PCC, code);
    bench.retire(asm::u(1, 4, 0x17));
    assert_eq!(bench.get(4), untagged(tagged(START + 2048, code.metadata)));
}

// CHERIoT report, CSeal, CUnseal and CSub.
#[test]
fn sealing_and_subtraction() {
    let data = memory(0x1000, 16);
    let key = tagged(12, SEALING_ROOT);
    let locked = result(asm::two(0x0B, 3, 1, 2), data, key);
    assert_eq!(locked, sealed(data, 4));
    assert_eq!(result(asm::two(0x0C, 3, 1, 2), locked, key), data);
    let weak = narrow(key, SE);
    assert_eq!(result(asm::two(0x0C, 3, 1, 2), locked, weak).tag, 0);
    let difference = result(asm::two(0x14, 3, 1, 2), integer(3), data);
    assert_eq!(difference, integer(0xFFFF_F003));
}

// CHERIoT report, CTestSubset: tags the same, bounds and permissions of cs2 a subset of
// cs1's; the otype is ignored.
#[test]
fn test_subset() {
    let test = |c1, c2| result(asm::two(0x20, 3, 1, 2), c1, c2);
    let outer = memory(0x1000, 64);
    let inner = memory(0x1010, 16);
    assert_eq!(test(outer, inner), integer(1));
    assert_eq!(test(outer, outer), integer(1));
    assert_eq!(test(inner, outer), integer(0));
    assert_eq!(test(outer, untagged(inner)), integer(0));
    assert_eq!(test(untagged(outer), untagged(inner)), integer(1));
    assert_eq!(test(narrow(outer, LD), inner), integer(0));
    assert_eq!(test(outer, narrow(inner, LD)), integer(1));
    assert_eq!(test(outer, sealed(inner, 1)), integer(1));
    assert_eq!(test(outer, memory(0x1030, 17)), integer(0));
    assert_eq!(test(outer, memory(0x0FFF, 17)), integer(0));
}

// CHERIoT report, CSetEqualExact: every stored bit and the tag, the reserved bit too.
#[test]
fn set_equal_exact() {
    let test = |c1, c2| result(asm::two(0x21, 3, 1, 2), c1, c2);
    let c1 = memory(0x1000, 64);
    assert_eq!(test(c1, c1), integer(1));
    assert_eq!(test(c1, untagged(c1)), integer(0));
    assert_eq!(test(c1, tagged(0x1001, c1.metadata)), integer(0));
    assert_eq!(test(c1, tagged(0x1000, c1.metadata | 1 << 31)), integer(0));
}
