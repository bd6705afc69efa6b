//! Expectations come from document 01, "Lists of cuts, moves and narrowings".

use super::*;
use crate::capability::{bounds, is_sealed, rights};
use crate::sample::Sample;

const ROOT: Capability = Capability {
    address: 0x2000_0001,
    metadata: 0x7E3E_0000,
    tag: 1,
};

// The empty list.
#[test]
fn the_empty_list_returns_nothing() {
    assert_eq!(calls(ROOT, &[]), []);
}

// Document 01, "Cases", as one list: the first 0x20000001 cut is e = 0 with B = 1 and T = 0;
// a move to 0x20000200 keeps the tag; narrowing to rights without SD is code 110111 (0x06B);
// a move to 0x20000000 clears the tag, and the calls after it are made all the same.
#[test]
fn the_cases_as_a_list() {
    let list = [
        (0, 511),
        (2, 0x2000_0200),
        (3, !4),
        (2, 0x2000_0000),
        (1, 0),
    ];
    let row = |address, metadata, tag| Capability {
        address,
        metadata,
        tag,
    };
    let expected = [
        row(0x2000_0001, 0x7E00_0001, 1),
        row(0x2000_0200, 0x7E00_0001, 1),
        row(0x2000_0200, 0x6E00_0001, 1),
        row(0x2000_0000, 0x6E00_0001, 0),
        row(0x2000_0000, 0x6E00_0000, 0),
    ];
    assert_eq!(calls(ROOT, &list), expected);
}

// A cut past the end of the space is a call as any other: base 0xFFFFFFFF, length 2 at e = 0 has
// B = 0x1FF and T = 1.
#[test]
fn a_cut_past_the_space_stands_in_the_list() {
    let returned = calls(ROOT, &[(2, 0xFFFF_FFFF), (0, 2)]);
    assert_eq!(returned.len(), 2);
    assert_eq!(returned[1].tag, 0);
    assert_eq!(returned[1].metadata, 0x7E00_0000 | 1 << 9 | 0x1FF);
}

// Kinds 0 and 1 differ in the tag alone: the 512-byte cut at 0x20000001 is rounded to
// [0x20000000, 0x20000202), e = 1 with B = 0 and T = 0x101.
#[test]
fn the_exact_form_asks_for_exactness() {
    let returned = |kind| calls(ROOT, &[(kind, 512)])[0];
    let metadata = 0x7E00_0000 | 1 << 18 | 0x101 << 9;
    assert_eq!(returned(0), Capability { metadata, ..ROOT });
    let cleared = Capability {
        metadata,
        tag: 0,
        ..ROOT
    };
    assert_eq!(returned(1), cleared);
}

// A tag once cleared stays cleared, and each kind of call changes its own fields alone: a cut the
// bounds, a move the address, a narrowing the permission bits, beside the tag. And what stays
// tagged stays inside the start, with no right the start lacks.
#[test]
fn what_each_call_may_change() {
    let mut sample = Sample(11);
    for _ in 0..20_000 {
        let mut before = ROOT;
        for _ in 0..8 {
            let kind = sample.word() & 3;
            let argument = match kind {
                2 => sample.near(before.address),
                3 => sample.word() | sample.word(),
                _ => sample.sized(),
            };
            let after = call(before, kind, argument);
            check_change(before, after, kind);
            before = after;
        }
    }
}

fn check_change(before: Capability, after: Capability, kind: u32) {
    assert!(after.tag <= before.tag);
    let bounds_bits = (1 << 22) - 1;
    let may_change = match kind {
        0 | 1 => bounds_bits,
        2 => 0,
        _ => 0x3F << 25,
    };
    assert_eq!((before.metadata ^ after.metadata) & !may_change, 0);
    assert!(kind == 2 || before.address == after.address);
    assert!(!is_sealed(after.metadata));
    assert_eq!(rights(after.metadata) & !rights(before.metadata), 0);
    if after.tag == 1 {
        let (low, high) = bounds(before.address, before.metadata);
        let (new_low, new_high) = bounds(after.address, after.metadata);
        assert!(low <= new_low && new_low as u64 <= new_high && new_high <= high);
    }
}
