//! What a word asks for: by which register it accesses memory or jumps, how many bytes, and which register it writes.

use super::value::without_rights;
use super::{assembled, check, number, proved, retires, scratch, BOUNDS, TAG};
use lent::{Capability, State, BLOCK, MCAUSE, MEMORY_ROOT, MTVAL, PCC};

/// Where an access is tried, and where its code is: an offset reaches 2,048 bytes, so that there is no
/// memory where it goes.
const TRIED: u32 = 0x4000_0000;
const TRIED_FROM: u32 = 0xC000_0000;

/// The most bytes that are asked about.
const MOST: u32 = 64;

/// The general register that a word goes by: no register of the scratch machine has a tag, and that one is named.
pub fn register(word: u32) -> Option<usize> {
    match check(&mut scratch(TRIED_FROM, word))? {
        (name, TAG) if (name as usize) < PCC => Some(name as usize),
        _ => None,
    }
}

/// A word that asks for the same, and the register that it goes by, which a scratch machine can set. c0 can hold nothing,
/// so a word by c0 is listed, and assembled with another register in the operand that the machine goes by.
pub fn free(word: u32) -> Option<(u32, usize)> {
    const OTHER: &str = "1";
    match register(word)? {
        0 => {}
        by => return Some((word, by)),
    }
    let line = proved::instruction(word);
    let fields: Vec<&str> = line.split(' ').collect();
    let others = (1..fields.len()).filter_map(|place| {
        let mut fields = fields.clone();
        fields[place] = OTHER;
        Some(number(&assembled(&fields.join(" "))?))
    });
    let mut found = others.filter(|&other| register(other) == Some(1));
    found.next().map(|other| (other, 1))
}

/// The cause of the check that a word ends in where its register has a tag and no right.
pub fn right(word: u32) -> Option<u32> {
    let (word, by) = free(word)?;
    let mut state = scratch(TRIED_FROM, word);
    state.set(by, without_rights(TRIED));
    check(&mut state).map(|(_, cause)| cause)
}

/// A machine with a word by a root at an address.
fn by_root(word: u32, address: u32) -> Option<(State, usize)> {
    let (word, by) = free(word)?;
    let mut state = scratch(TRIED_FROM, word);
    state.set(by, Capability::tagged(address, MEMORY_ROOT));
    Some((state, by))
}

/// The address that a load or store asks for, its authority at `address`. The same word is tried
/// through a root at another address, where there is no memory: that traps with the address in mtval,
/// misaligned or outside memory.
pub fn address(word: u32, address: u32) -> Option<u32> {
    let (mut state, _) = by_root(word, TRIED)?;
    proved::run(&mut state, 1).ok()?;
    let offset = state.register(MTVAL).wrapping_sub(TRIED);
    matches!(state.register(MCAUSE), 4..=7).then(|| address.wrapping_add(offset))
}

/// How many bytes a load or store asks for: the fewest before the end of the address space, and of the root, at which it
/// is not outside bounds.
pub fn size(word: u32) -> Option<u32> {
    let offset = address(word, 0)?;
    let inside = |bytes: &u32| {
        let first = 0u32.wrapping_sub(*bytes);
        let tried = by_root(word, first.wrapping_sub(offset));
        tried.is_some_and(|(mut state, _)| !matches!(check(&mut state), Some((_, BOUNDS))))
    };
    (1..MOST).find(inside)
}

/// The register that a load writes, and whether it takes a tag with it: the one that is another after a load of a tagged
/// capability, none if it is c0.
pub fn loaded(word: u32) -> Option<(Option<usize>, bool)> {
    let (word, by) = free(word)?;
    let mut memory = vec![0; 2 * BLOCK];
    memory[..4].copy_from_slice(&word.to_le_bytes());
    let mut state = State::reset(TRIED_FROM, memory, TRIED_FROM);
    let held = TRIED_FROM + BLOCK as u32;
    state.write_capability(held, Capability::tagged(u32::MAX, MEMORY_ROOT));
    let from = held.wrapping_sub(address(word, 0)?);
    state.set(by, Capability::tagged(from, MEMORY_ROOT));
    let to = changed(&mut state);
    Some((to, to.is_some_and(|to| state.capability(to).tag == 1)))
}

/// The general register that a step which retires changes.
pub(super) fn changed(state: &mut State) -> Option<usize> {
    let before = state.clone();
    let places = 0..if retires(state) { PCC } else { 0 };
    places
        .into_iter()
        .find(|&place| state.capability(place) != before.capability(place))
}
