//! The watch record (document 02, 14): what a store touches, and what counts.

use super::bench::*;
use crate::assemble as asm;
use lent::{Range, Watch};

/// Where the stores are, from memory's start.
const PLACE: u32 = 0x40;

fn range(start: u32, length: u32) -> Range {
    Range {
        start,
        length,
        count: 0,
    }
}

/// The counts of two ranges after one store at PLACE: by funct3 SB, SH, SW or CSC.
fn counts(funct3: u32, ranges: [Range; 2]) -> [u32; 2] {
    let mut bench = Bench::new();
    bench.set(1, tagged(START, MEMORY_ROOT));
    bench.program(&[asm::store(funct3, 2, 1, PLACE as i32)]);
    let mut watch = ranges;
    assert_eq!(bench.run_watched(1, &mut watch), RETIRED);
    watch.map(|range| range.count)
}

#[test]
fn one_byte_in_common_is_a_touch() {
    for (funct3, size) in [(0, 1), (1, 2), (2, 4), (3, 8)] {
        let first = START + PLACE;
        let below = [range(first - 4, 4), range(first - 4, 5)];
        assert_eq!(counts(funct3, below), [0, 1]);
        let above = [range(first + size, 4), range(first + size - 1, 4)];
        assert_eq!(counts(funct3, above), [0, 1]);
        let around = [range(first, size), range(0, u32::MAX)];
        assert_eq!(counts(funct3, around), [1, 1]);
        let empty = [range(first, 0), range(first + size / 2, 0)];
        assert_eq!(counts(funct3, empty), [0, 0]);
    }
}

// An end past 2^32 is no address from 0 on.
#[test]
fn an_end_past_the_space_does_not_wrap() {
    let long = [range(START + PLACE + 1, u32::MAX), range(START, u32::MAX)];
    assert_eq!(counts(0, long), [0, 1]);
}

#[test]
fn a_count_stops_at_the_last_word() {
    let mut full = [range(START, 0x80), range(START, 0x80)];
    full[0].count = u32::MAX - 1;
    full[1].count = u32::MAX;
    assert_eq!(counts(2, full), [u32::MAX, u32::MAX]);
}

// A store that traps, a load, and a refused run.
#[test]
fn only_retired_stores_count() {
    let all: Watch = [range(0, u32::MAX), range(0, u32::MAX)];
    let mut bench = Bench::new();
    bench.program(&[asm::store(2, 2, 1, PLACE as i32)]);
    let mut watch = all;
    assert_eq!(bench.run_watched(1, &mut watch), TRAPPED);
    assert_eq!(watch, all);
    let mut bench = Bench::new();
    bench.set(1, tagged(START, MEMORY_ROOT));
    bench.program(&[asm::load(2, 2, 1, PLACE as i32)]);
    assert_eq!(bench.run_watched(1, &mut watch), RETIRED);
    assert_eq!(watch, all);
    bench.edition = 2;
    let mut watch = all.map(|range| Range { count: 7, ..range });
    assert_eq!(bench.run_watched(1, &mut watch), 7 << 48);
    assert_eq!(watch.map(|range| range.count), [7, 7]);
    // Low above high in c3.
    bench.edition = 0;
    bench.set(3, tagged(0x0500_0000, 0x7E3C_0805));
    assert_eq!(bench.run_watched(1, &mut watch), 8 << 48);
    assert_eq!(watch.map(|range| range.count), [7, 7]);
}
