//! Expectations are worked out by hand from what the search is to say, and from document 01, "Capability
//! word".

use super::*;
use crate::capability::{set_bounds, with_type, EX, LD, SD};
use lent::State;

const START: u32 = 0x2000_0000;
/// Document 01's roots: for memory, and for code.
const MEMORY: u32 = 0x7E3E_0000;
const CODE: u32 = 0x5E3E_0000;
/// Exponent 24, T 257 and B 0 of the memory root's rights: high is 2^32 + 2^24.
const TOO_HIGH: u32 = 0x7E3E_0200;

fn cut(metadata: u32, low: u32, length: u32) -> lent::Capability {
    let root = Capability {
        address: low,
        metadata,
        tag: 1,
    };
    let cut = set_bounds(root, length);
    lent::Capability::tagged(cut.address, cut.metadata)
}

/// Asks for a range, by its first address and its length, and rights, from a place on.
fn ask(
    search: lent::Reach,
    state: &State,
    (low, length): (u32, u32),
    rights: u32,
    from: u32,
) -> u64 {
    let query = Query {
        low,
        length,
        rights,
    };
    state.reach(search, query, from)
}

fn asked(state: &State, low: u32, length: u32, rights: u32, from: u32) -> u64 {
    ask(reach, state, (low, length), rights, from)
}

fn asked_outside(state: &State, low: u32, length: u32, rights: u32, from: u32) -> u64 {
    ask(reach_outside, state, (low, length), rights, from)
}

fn state() -> State {
    State::new(START, vec![0; 128])
}

#[test]
fn a_byte_in_common_is_enough_and_none_is_not() {
    let mut state = state();
    state.set(7, cut(MEMORY, START + 16, 16));
    for (low, length, found) in [
        (START + 15, 1, 0),
        (START + 15, 2, 8),
        (START + 31, 1, 8),
        (START + 32, 100, 0),
        (START, 128, 8),
        (START + 20, 0, 0),
        (0, u32::MAX, 8),
        (0, START + 16, 0),
        (0, START + 17, 8),
        (u32::MAX, u32::MAX, 0),
    ] {
        assert_eq!(asked(&state, low, length, SD, 0), found, "{low:x} {length}");
    }
}

#[test]
fn a_range_that_ends_past_the_space_is_no_range_at_its_start() {
    let mut state = state();
    state.set(3, cut(MEMORY, 0, 64));
    assert_eq!(asked(&state, 0xFFFF_FFF0, 32, SD, 0), 0);
    state.set(4, cut(MEMORY, 0xFFFF_FFF0, 16));
    assert_eq!(asked(&state, 0xFFFF_FFFF, u32::MAX, SD, 0), 5);
    assert_eq!(asked(&state, 0xFFFF_FFFF, 1, SD, 0), 5);
}

#[test]
fn all_the_rights_of_the_mask_are_asked() {
    let mut state = state();
    state.set(2, cut(CODE, START, 64));
    let rights = |mask| asked(&state, START, 8, mask, 0);
    assert_eq!((rights(EX), rights(LD), rights(EX | LD)), (3, 3, 3));
    assert_eq!((rights(SD), rights(SD | LD), rights(0)), (0, 0, 3));
    assert_eq!((rights(0xFFF), rights(0x1000)), (0, 20 << 48));
}

#[test]
fn registers_come_first_then_granules_each_from_the_place_that_is_asked() {
    let mut state = state();
    state.set(5, cut(MEMORY, START, 8));
    state.set(18, cut(MEMORY, START, 128));
    state.set(20, cut(MEMORY, START + 64, 8));
    state.write_capability(START, cut(MEMORY, START, 8));
    state.write_capability(START + 120, cut(MEMORY, START + 64, 8));
    let from = |from| asked(&state, START + 64, 1, SD, from);
    assert_eq!((from(0), from(18), from(19), from(20)), (19, 19, 21, 21));
    assert_eq!((from(21), from(36), from(37)), (37, 37, 21 << 48));
    let first = |from| asked(&state, START, 1, SD, from);
    assert_eq!((first(0), first(6), first(19), first(22)), (6, 19, 22, 0));
}

#[test]
fn sealed_ones_count_and_untagged_ones_do_not() {
    let mut state = state();
    let value = cut(MEMORY, START, 8);
    let sealed = lent::Capability {
        metadata: with_type(value.metadata, 3),
        ..value
    };
    state.set(9, lent::Capability { tag: 0, ..value });
    state.write_capability(START + 8, lent::Capability { tag: 0, ..value });
    assert_eq!(asked(&state, START, 8, SD, 0), 0);
    state.write_capability(START + 16, sealed);
    assert_eq!(asked(&state, START, 8, SD, 0), 24);
    state.set(10, sealed);
    assert_eq!(asked(&state, START, 8, SD, 0), 11);
}

#[test]
fn an_unsound_one_counts_for_every_range_that_is_not_empty() {
    let mut state = state();
    state.set(11, lent::Capability::tagged(0, TOO_HIGH));
    assert_eq!(bounds(0, TOO_HIGH), (0, (1 << 32) + (1 << 24)));
    for (low, length, rights) in [(START, 1, SD), (0, 1, 0xFFF), (u32::MAX, 1, EX)] {
        assert_eq!(asked(&state, low, length, rights, 0), 12);
        assert_eq!(asked(&state, low, 0, rights, 0), 0);
    }
    state.set(11, lent::Capability::integer(0));
    state.write_capability(START + 8, lent::Capability::tagged(0, TOO_HIGH));
    assert_eq!(asked(&state, START, 1, EX, 0), 23);
    assert_eq!(asked(&state, START, 1, EX, 23), 0);
}

/// The lowest number wins, with nothing beside it.
#[test]
fn refusals_come_in_the_order_of_their_numbers() {
    let mut state = state();
    state.set(1, cut(MEMORY, START, 8));
    let refused = |state: &State| asked(state, START, 8, 0x1000, 37) >> 48;
    assert_eq!(refused(&state), 20);
    assert_eq!(asked(&state, START, 8, SD, 37), 21 << 48);
    assert_eq!(asked(&state, START, 0, SD, u32::MAX), 21 << 48);
    state.regs[5] = 2;
    assert_eq!(refused(&state), 4);
    state.tags.push(0);
    assert_eq!(refused(&state), 3);
    state.start += 4;
    assert_eq!(refused(&state), 2);
    state.regs.push(0);
    assert_eq!(refused(&state), 1);
}

/// The window and the revocation bits are not lent, and the registers may be unsound.
#[test]
fn what_is_not_lent_is_not_judged() {
    let mut state = state();
    state.window.start = 3;
    state.revoked.clear();
    state.edition = 9;
    state.set(1, lent::Capability::tagged(0, TOO_HIGH));
    assert_eq!(asked(&state, START, 8, SD, 0), 2);
}

/// Granules 2 and 3 are the range.
#[test]
fn what_stands_in_the_range_is_passed_over_and_its_neighbours_are_not() {
    let mut state = state();
    let whole = cut(MEMORY, START, 128);
    for granule in [2, 3] {
        state.write_capability(START + 8 * granule, whole);
    }
    let outside = |state: &State, from| asked_outside(state, START + 16, 16, LD, from);
    assert_eq!(asked(&state, START + 16, 16, LD, 0), 24);
    assert_eq!((outside(&state, 0), outside(&state, 23)), (0, 0));
    state.write_capability(START + 32, whole);
    assert_eq!((outside(&state, 0), outside(&state, 24)), (26, 26));
    state.write_capability(START + 8, cut(MEMORY, START + 16, 8));
    assert_eq!((outside(&state, 0), outside(&state, 23)), (23, 26));
    state.set(16, cut(CODE, START + 31, 1));
    assert_eq!((outside(&state, 0), outside(&state, 17)), (17, 23));
    assert_eq!(asked_outside(&state, START + 16, 8, EX, 0), 0);
}

#[test]
fn an_unsound_one_outside_the_range_counts_and_inside_does_not() {
    let mut state = state();
    state.write_capability(START + 8, lent::Capability::tagged(0, TOO_HIGH));
    assert_eq!(asked_outside(&state, START + 8, 8, LD, 0), 0);
    assert_eq!(asked_outside(&state, START, 16, LD, 0), 0);
    assert_eq!(asked_outside(&state, START, 8, LD, 0), 23);
    assert_eq!(asked_outside(&state, START, 0, LD, 0), 0);
}

#[test]
fn a_range_from_outside_has_its_edges_between_granules() {
    let mut state = state();
    state.write_capability(START + 120, cut(MEMORY, 0, u32::MAX));
    let number = |low, length| asked_outside(&state, low, length, LD, 0) >> 48;
    for (low, length) in [
        (START + 4, 8),
        (START, 9),
        (START + 7, 1),
        (1, 0),
        (0, u32::MAX),
    ] {
        assert_eq!(number(low, length), 22, "{low:x} {length}");
        assert_eq!(asked(&state, low, length, LD, 0) >> 48, 0);
    }
    for (low, length) in [
        (START, 0),
        (START, 128),
        (0xFFFF_FFF8, 16),
        (0, 0xFFFF_FFF8),
    ] {
        assert_eq!(number(low, length), 0, "{low:x} {length}");
    }
    // It comes last.
    assert_eq!(asked_outside(&state, START + 1, 8, 0x1000, 99), 20 << 48);
    assert_eq!(asked_outside(&state, START + 1, 8, LD, 99), 21 << 48);
}

/// Past the end of the address space a range goes on as whole numbers: it does not begin again at 0.
#[test]
fn a_range_past_the_space_does_not_hide_what_stands_at_its_start() {
    let mut state = State::new(0, vec![0; 128]);
    state.write_capability(0, cut(MEMORY, 0xFFFF_FFF8, 8));
    assert_eq!(asked_outside(&state, 0xFFFF_FFF8, 16, SD, 0), 22);
}
