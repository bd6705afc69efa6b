//! Loads and stores of integers and capabilities.

use super::bench::*;
use crate::assemble as asm;
use crate::capability::{narrow, Capability, GL, LD, LG, LM, MC, SD, SL};
use lent::Window;

const AT: usize = 0x40;

/// A bench with a capability for [START + AT, + 64) in c1.
fn bench() -> Bench {
    let mut bench = Bench::new();
    bench.set(1, memory(START + AT as u32, 64));
    bench
}

// The standard: little-endian, LB and LH sign-extended, LBU and LHU zero-extended.
#[test]
fn loads_of_every_width() {
    let mut bench = bench();
    bench.mem[AT + 8..AT + 12].copy_from_slice(&[0x80, 0xFF, 0x01, 0x82]);
    let mut loaded = |funct3, offset| {
        bench.set(3, tagged(7, MEMORY_ROOT));
        bench.set(PCC, tagged(START, EXECUTABLE_ROOT));
        bench.retire(asm::load(funct3, 3, 1, offset));
        let c3 = bench.get(3);
        assert_eq!((c3.metadata, c3.tag), (0, 0));
        c3.address
    };
    assert_eq!(loaded(0, 8), 0xFFFF_FF80);
    assert_eq!(loaded(1, 8), 0xFFFF_FF80);
    assert_eq!(loaded(2, 8), 0x8201_FF80);
    assert_eq!(loaded(4, 8), 0x80);
    assert_eq!(loaded(5, 8), 0xFF80);
    assert_eq!(loaded(0, 10), 1);
    assert_eq!(loaded(1, 10), 0xFFFF_8201);
    assert_eq!(loaded(4, 11), 0x82);
}

// CHERIoT report, 7.7: a store that is not CSC clears the tag of the granule it touches;
// document 01 names the byte store that leaves the tag as a mistake.
#[test]
fn stores_of_every_width() {
    for (funct3, written) in [(0, 1), (1, 2), (2, 4)] {
        let mut bench = bench();
        bench.tags = vec![0xFF; 4];
        bench.mem[AT..AT + 24].fill(0x55);
        bench.set(2, tagged(0x8899_AABB, MEMORY_ROOT));
        bench.retire(asm::store(funct3, 2, 1, 12));
        let mut expected = [0x55; 24];
        expected[12..12 + written].copy_from_slice(&[0xBB, 0xAA, 0x99, 0x88][..written]);
        assert_eq!(bench.mem[AT..AT + 24], expected);
        // Offset 0x4C is granule 9, bit 1 of byte 1.
        assert_eq!(bench.tags, [0xFF, 0xFD, 0xFF, 0xFF]);
    }
}

// CHERIoT report, CSC and 7.7; document 01, "What is lent", on the order of the tags.
#[test]
fn a_stored_capability_comes_back() {
    let mut bench = bench();
    let stored = memory(START + 0x80, 24);
    bench.set(2, stored);
    bench.retire(asm::store(3, 2, 1, 16));
    assert_eq!(bench.mem[AT + 16..AT + 20], stored.address.to_le_bytes());
    assert_eq!(bench.mem[AT + 20..AT + 24], stored.metadata.to_le_bytes());
    // Offset 0x50 is granule 10: bit 2 of byte 1.
    assert_eq!(bench.tags, [0, 4, 0, 0]);
    bench.retire(asm::load(3, 3, 1, 16));
    assert_eq!(bench.get(3), stored);
    // An untagged word, its reserved bit set, is copied faithfully and clears the tag.
    let junk = Capability {
        address: 0x1234_5678,
        metadata: 0xFFFF_FFFF,
        tag: 0,
    };
    bench.set(2, junk);
    bench.retire(asm::store(3, 2, 1, 16));
    assert_eq!(bench.tag_at(AT + 16), 0);
    bench.retire(asm::load(3, 3, 1, 16));
    assert_eq!(bench.get(3), junk);
}

/// What CLC returns for a value in memory through c1 without some rights.
fn loaded_without(value: Capability, lost: u32) -> Capability {
    let mut bench = bench();
    bench.put(AT, value);
    bench.set(1, narrow(bench.get(1), !lost));
    let before = bench.tags.clone();
    bench.retire(asm::load(3, 3, 1, 0));
    // The tag in memory stays.
    assert_eq!(bench.tags, before);
    bench.get(3)
}

// Document 01, "Loading capabilities": LG, LM and MC, by themselves. Losing SD on the
// authority changes its format and drops SL, neither of which matters for a load.
#[test]
fn loaded_rights() {
    let value = tagged(0, MEMORY_ROOT);
    assert_eq!(loaded_without(value, 0), value);
    assert_eq!(loaded_without(value, SD), value);
    assert_eq!(
        loaded_without(value, LG),
        narrow(value, LD | MC | SD | SL | LM)
    );
    assert_eq!(loaded_without(value, LM), narrow(value, GL | LG | LD | MC));
    assert_eq!(loaded_without(value, LG | LM), narrow(value, LD | MC));
    // The data-only format has no LG and LM either, so GL, LG, SD and LM go with the tag.
    let without_mc = loaded_without(value, MC);
    assert_eq!(without_mc, untagged(narrow(value, LD | MC)));
}

// Document 01, "Loading capabilities": revocation goes by the low bound's granule, and outside
// memory nothing is revoked.
#[test]
fn loaded_and_revoked() {
    // Low bound at START + 0xA8, granule 21 (bit 5 of byte 2), address in granule 22.
    let mut value = memory(START + 0xA8, 16);
    value.address += 8;
    let loaded = |revoked: [u8; 4], value: Capability| {
        let mut bench = bench();
        bench.revoked = revoked.to_vec();
        bench.put(AT, value);
        bench.retire(asm::load(3, 3, 1, 0));
        assert_eq!(bench.tag_at(AT), 1);
        assert_eq!(bench.revoked, revoked);
        bench.get(3)
    };
    assert_eq!(loaded([0, 0, 1 << 5, 0], value), untagged(value));
    assert_eq!(loaded([0xFF, 0xFF, !(1 << 5), 0xFF], value), value);
    let all = [0xFF; 4];
    let below = memory(START - 16, 16);
    let above = memory(START + 0x100, 16);
    assert_eq!(loaded(all, below), below);
    assert_eq!(loaded(all, above), above);
    let sealing = tagged(START, SEALING_ROOT);
    assert_eq!(loaded(all, sealing), sealing);
}

// Document 02, 5: the bits are the window's, here of [START + 64, START + 192), its first and its
// last granule marked; a low bound outside it is not revoked.
#[test]
fn loaded_by_the_window() {
    let loaded = |low: u32| {
        let mut bench = bench();
        bench.window = Window {
            start: 64,
            size: 128,
        };
        bench.revoked = vec![0x01, 0x80];
        let value = memory(low, 1);
        bench.put(AT, value);
        bench.retire(asm::load(3, 3, 1, 0));
        let kept = bench.get(3);
        assert_eq!(untagged(kept), untagged(value));
        kept.tag
    };
    for revoked in [64, 71, 184, 191] {
        assert_eq!(loaded(START + revoked), 0, "{revoked}");
    }
    for kept in [0, 63, 72, 183, 192, 255, 256] {
        assert_eq!(loaded(START + kept), 1, "{kept}");
    }
    for kept in [0, START - 1, 64, 191] {
        assert_eq!(loaded(kept), 1, "{kept:08x}");
    }
}

// A window of no bytes has no bits, and nothing is revoked.
#[test]
fn loaded_without_bits() {
    for start in [0, 64, 256] {
        let mut bench = bench();
        bench.window = Window { start, size: 0 };
        bench.revoked.clear();
        let value = memory(START + start, 1);
        bench.put(AT, value);
        bench.retire(asm::load(3, 3, 1, 0));
        assert_eq!(bench.get(3), value);
    }
}

// CLC with cd and cs1 the same register reads the authority first.
#[test]
fn a_load_over_its_authority() {
    let mut bench = bench();
    bench.put(AT, tagged(9, SEALING_ROOT));
    bench.retire(asm::load(3, 1, 1, 0));
    assert_eq!(bench.get(1), tagged(9, SEALING_ROOT));
}

// Document 01, "Capability word": a sum of addresses wraps, a check of an access does not.
#[test]
fn addresses_wrap_and_checks_do_not() {
    let mut bench = Bench::new();
    bench.start = 0xFFFF_FF00;
    bench.set(PCC, tagged(0xFFFF_FF00, EXECUTABLE_ROOT));
    bench.set(MTCC, tagged(0xFFFF_FFC0, EXECUTABLE_ROOT));
    bench.set(1, tagged(4, MEMORY_ROOT));
    bench.mem[0xFC] = 0x5A;
    bench.clone().retire(asm::load(0, 3, 1, -8));
    // The last word of the space is within [0, 2^32); one byte on is past it.
    bench.set(1, tagged(0xFFFF_FFFE, MEMORY_ROOT));
    bench.trap(asm::load(2, 3, 1, 0), 28, 32 + 1);
}
