//! The probes against the second program.

use super::jump::{by_register, from_pcc, is_return, is_sentry};
use super::value::{integer, moved, rights, seal_type, stored, untagged, with_metadata};
use super::*;
use crate::request::Request;
use crate::sequence::Sequence;
use lent::{COMPARE, EXECUTABLE_ROOT, MIE};
use second::capability;
use second::decode::{decode, instruction, Instruction};

#[test]
fn rights_and_types_of_every_code_are_the_second_programs() {
    for upper in 0..1 << 10 {
        let metadata = upper << 22 | 0x3E_0000;
        assert_eq!(
            rights(metadata),
            capability::rights(metadata),
            "{metadata:08x}"
        );
        assert_eq!(
            seal_type(metadata),
            capability::seal_type(metadata),
            "{metadata:08x}"
        );
    }
}

#[test]
fn the_address_asked_for_is_the_authoritys_plus_the_offset() {
    let mut sequence = Sequence(1);
    for _ in 0..20_000 {
        let address = sequence.word();
        let word = sequence.word() & !0x7F | [0x03, 0x23][(address & 1) as usize];
        let offset = match decode(word) {
            Some(Instruction::Load { offset, .. } | Instruction::Clc { offset, .. }) => offset,
            Some(Instruction::Store { offset, .. } | Instruction::Csc { offset, .. }) => offset,
            _ => continue,
        };
        assert_eq!(
            access::address(word, address),
            Some(address.wrapping_add(offset)),
            "{word:08x}"
        );
    }
}

#[test]
fn a_register_jumps_target_is_the_authoritys_plus_the_offset() {
    let mut sequence = Sequence(2);
    for _ in 0..20_000 {
        let address = sequence.word();
        let word = sequence.word() & !0x707F | 0x67;
        if let Some(Instruction::Cjalr { offset, .. }) = decode(word) {
            let target = address.wrapping_add(offset) & !1;
            assert_eq!(by_register(word, address), Some(target), "{word:08x}");
        }
    }
}

/// The target of a word that PCC has the bytes of alone.
fn beyond(mut state: State, address: u32, word: u32) -> Option<u32> {
    let pcc = value::cut(address, EXECUTABLE_ROOT, proved::word_length(word));
    state.set(PCC, pcc);
    from_pcc(&state, pcc)
}

#[test]
fn a_relative_jumps_target_is_pccs_plus_the_offset() {
    let mut sequence = Sequence(3);
    for _ in 0..20_000 {
        let address = 0x4000_0000u32;
        let word = sequence.word() & !0x7F | 0x6F;
        if let Some(Instruction::Cjal { offset, .. }) = decode(word) {
            // The word itself is not refused.
            let target = (offset & !2 != 0).then_some(address.wrapping_add(offset));
            let state = scratch(address, word);
            assert_eq!(beyond(state, address, word), target, "{word:08x}");
        }
    }
}

#[test]
fn a_target_is_told_beside_what_no_start_may_hold() {
    // BEQ c2, c3, 64 and CJAL c2, 64; low of c2 is above its high.
    for word in [0x0431_0063, 0x0400_016F] {
        let unsound = Capability::tagged(0x0500_0000, 0x7E3C_0805);
        let mut state = scratch(0x4000_0000, word);
        state.set(2, unsound);
        state.set(3, unsound);
        assert_eq!(super::unsound(&state), [2, 3]);
        let target = beyond(state, 0x4000_0000, word);
        assert_eq!(target, Some(0x4000_0040), "{word:08x}");
    }
}

#[test]
fn the_last_target_is_told_too() {
    // CJALR c0, 0(c1) and CJALR c0, -2(c1); CJAL c0, 126.
    let (here, two_below, forward) = (0x0000_8067, 0xFFE0_8067, 0x07E0_006F);
    assert_eq!(by_register(here, 0xFFFF_FFFE), Some(0xFFFF_FFFE));
    assert_eq!(by_register(here, 0xFFFF_FFFF), Some(0xFFFF_FFFE));
    assert_eq!(by_register(two_below, 0), Some(0xFFFF_FFFE));
    assert_eq!(by_register(here, 0xFFFF_FFFC), Some(0xFFFF_FFFC));
    let state = scratch(0xFFFF_FF80, forward);
    assert_eq!(beyond(state, 0xFFFF_FF80, forward), Some(0xFFFF_FFFE));
}

/// The address that a short word asks for, its authority at one and PCC at another.
fn of_half(half: u32, authority: u32, pcc: u32) -> Option<u32> {
    match Request::of(half) {
        Request::Load { .. } | Request::Store { .. } => access::address(half, authority),
        Request::RegisterJump { .. } => by_register(half, authority),
        Request::Other => beyond(scratch(pcc, half), pcc, half),
    }
}

#[test]
fn every_short_word_asks_for_the_second_programs_address() {
    let mut sequence = Sequence(4);
    let mut asking = 0;
    for half in (0..1 << 16).filter(|half| half & 3 != 3) {
        let (authority, pcc) = (sequence.word(), 0x4000_0000u32);
        let address = match instruction(half) {
            Some(
                Instruction::Load { offset, .. }
                | Instruction::Clc { offset, .. }
                | Instruction::Store { offset, .. }
                | Instruction::Csc { offset, .. },
            ) => Some(authority.wrapping_add(offset)),
            Some(Instruction::Cjalr { .. }) => Some(authority & !1),
            // A scratch state's registers are zero, so C.BEQZ is taken and C.BNEZ is not; one to itself is not refused.
            Some(Instruction::Branch { .. }) if half >> 13 == 7 => None,
            Some(Instruction::Cjal { offset, .. } | Instruction::Branch { offset, .. }) => {
                (offset != 0).then_some(pcc.wrapping_add(offset))
            }
            _ => None,
        };
        assert_eq!(of_half(half, authority, pcc), address, "{half:04x}");
        asking += u32::from(address.is_some());
    }
    // Loads and stores: 4 forms of 2,048, 2 of 960 and 2 of 1,024; 4,096 jumps, 2 of them to themselves; 2,048 branches that
    // are taken, 8 of them to themselves; 30 by a register.
    let accesses = 4 * 2048 + 2 * 960 + 2 * 1024;
    assert_eq!(asking, accesses + 4096 - 2 + 2048 - 8 + 30);
}

/// The capability checks of a fetch of so many bytes, and its alignment.
fn may_be_fetched(pcc: Capability, bytes: u32) -> bool {
    let bounds = proved::bounds(pcc);
    let end = u64::from(pcc.address) + u64::from(bytes);
    let right = rights(pcc.metadata) >> 8 & 1 == 1;
    let inside = bounds.low <= pcc.address && end <= bounds.high;
    pcc.tag == 1 && seal_type(pcc.metadata) == 0 && right && inside && pcc.address.is_multiple_of(2)
}

#[test]
fn a_fetch_passes_where_its_bytes_are_inside_the_bounds_of_pcc() {
    let mut sequence = Sequence(6);
    let mut seen = [0; 4];
    for _ in 0..40_000 {
        let word = sequence.word();
        let address = [word, word | !7, word & 7][(word >> 8) as usize % 3];
        let base = address.wrapping_sub(sequence.word() % 4) % 512;
        let top = address.wrapping_add(sequence.word() % 6) % 512;
        let bounds = [0x3E_0000, top << 9 | base, sequence.word() >> 10];
        let bounds = bounds[sequence.word() as usize % 3];
        let upper = [EXECUTABLE_ROOT, EXECUTABLE_ROOT, sequence.word()][word as usize % 3];
        let pcc = Capability {
            address,
            metadata: upper & !0x3F_FFFF | bounds,
            tag: u32::from(!sequence.word().is_multiple_of(8)),
        };
        // The last place of the address space has no second half.
        let long = address < 0xFFFF_FFFE && may_be_fetched(pcc, 4);
        let expected = [may_be_fetched(pcc, 2), long];
        assert_eq!(fetch::passed(pcc), expected, "{pcc:x?}");
        let unsound = expected[0] && proved::bounds(pcc).high > 1 << 32;
        seen[usize::from(expected[0]) + usize::from(expected[1])] += 1;
        seen[3] += u32::from(unsound);
        assert_eq!(fetch::is_place(address), address.is_multiple_of(2));
    }
    assert!(seen.iter().all(|times| *times > 20), "{seen:?}");
}

#[test]
fn sentries_are_the_executable_types_1_to_5_and_4_and_5_are_return_sentries() {
    let kinds = |is: fn(u32) -> bool| (0..20).filter(|kind| is(*kind)).collect::<Vec<u32>>();
    assert_eq!(kinds(is_sentry), [1, 2, 3, 4, 5]);
    assert_eq!(kinds(is_return), [4, 5]);
    assert_eq!(jump::bytes(), 2);
}

#[test]
fn a_trap_goes_to_mtcc_without_its_low_two_bits() {
    let mut sequence = Sequence(8);
    for _ in 0..5_000 {
        let mut state = State::reset(0, vec![0; BLOCK], 0);
        let value = Capability {
            address: sequence.word(),
            metadata: [EXECUTABLE_ROOT, sequence.word()][sequence.word() as usize % 2],
            tag: sequence.word() % 2,
        };
        state.set(MTCC, value);
        assert_eq!(handler(&state), value.address & !3, "{value:x?}");
    }
}

#[test]
fn a_mark_goes_down_to_a_multiple_of_sixteen() {
    let mut sequence = Sequence(10);
    for _ in 0..5_000 {
        let start = [sequence.word(), sequence.word() | !63][sequence.word() as usize % 2];
        let size = sequence.word() % 100;
        let mark = start.saturating_add(size);
        let expected = if mark > start { start & !15 } else { mark };
        assert_eq!(marked(start, mark), expected, "{start:08x} {mark:08x}");
    }
}

#[test]
fn values_are_left_as_instructions_leave_them() {
    let mut sequence = Sequence(12);
    for _ in 0..5_000 {
        let (address, metadata) = (sequence.word(), sequence.word());
        let value = Capability {
            address,
            metadata,
            tag: sequence.word() % 2,
        };
        let other = sequence.word();
        let without = Capability { tag: 0, ..value };
        assert_eq!(untagged(value), without);
        let metadata = other;
        assert_eq!(
            with_metadata(value, other),
            Capability {
                metadata,
                ..without
            }
        );
        assert_eq!(integer(other), Capability::integer(other));
        let moved = moved(value, other);
        assert_eq!((moved.address, moved.metadata), (other, value.metadata));
        assert!(moved.tag <= value.tag);
    }
}

#[test]
fn a_stored_byte_takes_the_tag_of_its_granule() {
    let granule = [1, 2, 3, 4, 5, 6, 7, 8];
    assert_eq!(stored(granule, 0, &[]), (granule, true));
    for place in 0..8 {
        let mut left = granule;
        left[place] = 0xFF;
        assert_eq!(stored(granule, place, &[0xFF]), (left, false));
        // Also where it is the byte that was there.
        let same = &granule[place..];
        assert_eq!(stored(granule, place, same), (granule, false));
    }
}

#[test]
fn the_timer_interrupts_within_so_many_steps_as_it_would_step_by_step() {
    let times = [0, 1, 5, 40, u64::MAX - 3, u64::MAX];
    for (time, compare) in times
        .iter()
        .flat_map(|time| times.map(|compare| (*time, compare)))
    {
        for (mie, steps) in [
            (MIE, 0),
            (MIE, 1),
            (MIE, 2),
            (MIE, 6),
            (MIE, 50),
            (!MIE, 50),
        ] {
            let mut state = State::reset(0, vec![0; 64], 0);
            state.regs[MSTATUS] = mie;
            state.set_long(COMPARE, compare);
            let mut interrupted = |more| {
                state.set_long(TIME, time.wrapping_add(more));
                state.interrupted()
            };
            let expected = (0..steps).any(&mut interrupted);
            let first = (0..100).find(|more| interrupted(*more));
            interrupted(0);
            let said = interrupts_within(&state, steps);
            assert_eq!(said, expected, "{mie:x} {time} {compare} {steps}");
            let told = steps_to_interrupt(&state).filter(|steps| *steps < 100);
            assert_eq!(told, first, "{mie:x} {time} {compare}");
        }
    }
}
