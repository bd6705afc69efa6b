//! What a client reads and writes of the registers.

use super::*;
use crate::sequence::Sequence;
use lent::{EXECUTABLE_ROOT, MEMORY_ROOT, SEALING_ROOT};

fn state() -> State {
    let mut state = State::reset(0x2000_0000, vec![0; 64], 0x2000_0000);
    state.set(2, Capability::tagged(0x2000_0010, MEMORY_ROOT));
    state
}

/// A capability's bytes with one word of it changed.
fn changed(state: &State, place: usize, word: usize, to: u32) -> Vec<u8> {
    let mut bytes = value(state, Part::Capability(place));
    bytes[4 * word..4 * word + 4].copy_from_slice(&to.to_le_bytes());
    bytes
}

#[test]
fn a_register_is_read_low_byte_first() {
    let state = state();
    assert_eq!(value(&state, Part::Address(2)), [0x10, 0, 0, 0x20]);
    let whole = value(&state, Part::Capability(2));
    assert_eq!(whole.len(), 24);
    assert_eq!(whole[..8], [0x10, 0, 0, 0x20, 0, 0, 0x3E, 0x7E]);
    assert_eq!(whole[8..], [1, 0, 0, 0, 0, 0, 0, 0, 0, 0, 0, 0, 1, 0, 0, 0]);
    assert_eq!(value(&state, Part::Long(COMPARE)), [0xFF; 8]);
}

#[test]
fn an_address_written_by_its_x_name_leaves_an_integer() {
    let mut state = state();
    write(&mut state, Part::Address(2), &[5, 0, 0, 0]).unwrap();
    assert_eq!(state.capability(2), Capability::integer(5));
    let before = state.clone();
    let refused = write(&mut state, Part::Address(0), &[5, 0, 0, 0]);
    assert!(refused.unwrap_err().contains("c0 is not all zero"));
    assert_eq!(state, before);
}

#[test]
fn pc_and_a_capabilitys_address_are_moved() {
    let mut state = state();
    write(&mut state, Part::Address(PCC), &[0x20, 0, 0, 0x20]).unwrap();
    let pcc = Capability::tagged(0x2000_0020, EXECUTABLE_ROOT);
    assert_eq!(state.capability(PCC), pcc);
    let moved = changed(&state, 2, 0, 0x2000_0018);
    write(&mut state, Part::Capability(2), &moved).unwrap();
    assert_eq!(
        state.capability(2),
        Capability::tagged(0x2000_0018, MEMORY_ROOT)
    );
    // Far outside of small bounds no tag is left: 16 bytes from 20000000 on, by the cut.
    let small = Capability::tagged(0x2000_0000, 0x7E00_0000 | 0x10 << 9);
    state.set(3, small);
    let far = changed(&state, 3, 0, 0x3000_0000);
    write(&mut state, Part::Capability(3), &far).unwrap();
    assert_eq!(state.capability(3).tag, 0);
}

#[test]
fn a_tag_can_be_taken_and_not_given() {
    let mut state = state();
    let bytes = changed(&state, 2, 1, SEALING_ROOT);
    write(&mut state, Part::Capability(2), &bytes).unwrap();
    let value = state.capability(2);
    assert_eq!((value.metadata, value.tag), (SEALING_ROOT, 0));
    for tag in [1, 2, u32::MAX] {
        let bytes = changed(&state, 2, 2, tag);
        let given = write(&mut state, Part::Capability(2), &bytes);
        assert_eq!(given, Err("a tag is not given by hand".into()));
    }
    let bytes = changed(&state, PCC, 2, 0);
    write(&mut state, Part::Capability(PCC), &bytes).unwrap();
    assert_eq!(state.capability(PCC).tag, 0);
    let bytes = changed(&state, 2, 3, 7);
    assert!(write(&mut state, Part::Capability(2), &bytes).is_err());
    assert!(write(&mut state, Part::Capability(2), &bytes[..20]).is_err());
}

#[test]
fn no_write_gives_a_tag_or_makes_a_state_that_is_refused() {
    let mut words = Sequence(7);
    let mut state = state();
    for _ in 0..5_000 {
        let all = registers();
        let register = &all[words.word() as usize % all.len()];
        let mut bytes = value(&state, register.part);
        let place = words.word() as usize % bytes.len();
        bytes[place] = words.word() as u8;
        let before = state.clone();
        let written = write(&mut state, register.part, &bytes);
        assert!(written.is_ok() || state == before);
        assert!(proved::run(&mut state.clone(), 0).is_ok());
        let gained = (0..CAPABILITIES)
            .any(|place| state.capability(place).tag > before.capability(place).tag);
        assert!(!gained, "{}", register.name);
    }
}
