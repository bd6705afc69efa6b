//! Passes over states, by hand.

use super::*;
use lent::{Window, MEMORY_ROOT};

const START: u32 = 0x2000_0000;

/// 128 bytes that hold the root in each granule, its low bound 0, which the window does not hold.
fn roots() -> State {
    let mut state = State::new(START, vec![0; 128]);
    for granule in 0..16 {
        let root = Capability::tagged(START, MEMORY_ROOT);
        state.write_capability(START + 8 * granule, root);
    }
    state
}

/// A capability for 8 bytes.
fn object(address: u32) -> Capability {
    let base = address & 0x1FF;
    Capability::tagged(address, 0x7E00_0000 | (base + 8) << 9 | base)
}

#[test]
fn a_pass_visits_every_granule_once_and_in_order() {
    let mut state = roots();
    let before = state.clone();
    let mut seen = Vec::new();
    assert_eq!(pass(&mut state, |number| seen.push(number)), Ok(vec![]));
    assert_eq!(seen, (1..=16).collect::<Vec<u64>>());
    assert_eq!(state, before);
    assert_eq!((granules(&state), tags(&state)), (16, 16));
}

#[test]
fn the_tags_that_went_are_named() {
    let mut state = roots();
    state.write_capability(START, object(START + 8));
    state.write_capability(START + 64, object(START + 16));
    state.write_capability(START + 120, object(START + 15));
    state.revoke(START + 8);
    let before = state.clone();
    let went = pass(&mut state, |_| ()).unwrap();
    let places = went.iter().map(|went| (went.granule, went.address));
    assert_eq!(places.collect::<Vec<_>>(), [(0, START), (15, START + 120)]);
    assert_eq!(went[0].value, object(START + 8));
    assert_eq!(state.tags, [0xFE, 0x7F]);
    assert_eq!((state.mem, state.regs), (before.mem, before.regs));
}

#[test]
fn memory_may_end_with_the_address_space() {
    let mut state = State::new(0xFFFF_FFC0, vec![0; 64]);
    state.write_capability(0xFFFF_FFF8, object(0xFFFF_FFC8));
    state.revoke(0xFFFF_FFC8);
    let went = pass(&mut state, |_| ()).unwrap();
    assert_eq!((went.len(), went[0].address), (1, 0xFFFF_FFF8));
    assert_eq!(state.tags, [0]);
}

#[test]
fn a_refused_pass_changes_nothing() {
    let mut state = roots();
    state.revoke(START);
    state.window = Window { start: 8, size: 64 };
    let before = state.clone();
    assert_eq!(pass(&mut state, |_| ()), Err(Refusal(2)));
    assert_eq!(state, before);
    let mut state = roots();
    state.tags.pop();
    assert_eq!(pass(&mut state, |_| ()), Err(Refusal(3)));
}
