//! Capabilities by the machine's own instructions: what they hold, and what is made of them.

use super::{retires, scratch, with, word};
use crate::proved;
use lent::{Capability, State, EXECUTABLE_ROOT, GRANULE, MEMORY_ROOT, MTVAL, SEALING_ROOT};

/// The integer that an instruction from c1 to c1 gives for a metadata word.
fn query(line: &str, metadata: u32) -> u32 {
    let asked = Capability {
        address: 0,
        metadata,
        tag: 0,
    };
    let mut state = with(word(line), asked);
    match proved::run(&mut state, 1) {
        Ok(_) => state.capability(1).address,
        Err(_) => 0,
    }
}

/// The rights of a capability, bits as in document 01, "Capability word".
pub fn rights(metadata: u32) -> u32 {
    query("cgetperm 1 1", metadata)
}

/// The four-bit type of a capability, 0 if it is unsealed.
pub fn seal_type(metadata: u32) -> u32 {
    query("cgettype 1 1", metadata)
}

/// What an instruction from c1 and c2 leaves in c1. Of a value that no start may hold it is what is left without its tag.
fn made(line: &str, value: Capability, other: Capability) -> Capability {
    let mut state = with(word(line), value);
    state.set(2, other);
    match proved::run(&mut state, 1) {
        Ok(_) => state.capability(1),
        Err(_) if value.tag != 0 => made(line, Capability { tag: 0, ..value }, other),
        Err(_) => value,
    }
}

/// A capability moved to an address as CSetAddr moves it.
pub fn moved(value: Capability, address: u32) -> Capability {
    made("csetaddr 1 1 2", value, Capability::integer(address))
}

/// A capability with other metadata, as CSetHigh leaves it.
pub fn with_metadata(value: Capability, metadata: u32) -> Capability {
    made("csethigh 1 1 2", value, Capability::integer(metadata))
}

/// A capability without its tag, as CClearTag leaves it.
pub fn untagged(value: Capability) -> Capability {
    made("ccleartag 1 1", value, Capability::integer(0))
}

/// A number as an instruction leaves it in a register: it is read from mtval.
pub fn integer(number: u32) -> Capability {
    let mut state = scratch(0, word("csrrs 1 0 835"));
    state.regs[MTVAL] = number;
    let _ = proved::run(&mut state, 1);
    state.capability(1)
}

/// A root without any right, as CAndPerm leaves it.
pub(super) fn without_rights(address: u32) -> Capability {
    let root = Capability::tagged(address, MEMORY_ROOT);
    made("candperm 1 1 2", root, Capability::integer(0))
}

/// A capability of no bytes at an address, as CSetBounds cuts it.
pub(super) fn empty(address: u32) -> Capability {
    cut(address, MEMORY_ROOT, 0)
}

/// So many bytes at an address of a root, as CSetBounds cuts them.
pub(super) fn cut(address: u32, root: u32, bytes: u32) -> Capability {
    let root = Capability::tagged(address, root);
    made("csetbounds 1 1 2", root, Capability::integer(bytes))
}

/// An executable root with the type that CSeal writes, if that is the type that CGetType then reads. CSeal gives some types
/// without a tag; a start may have them with one.
pub(super) fn sealed(kind: u32) -> Option<Capability> {
    let root = Capability::tagged(0, EXECUTABLE_ROOT);
    let by = Capability::tagged(kind, SEALING_ROOT);
    let metadata = made("cseal 1 1 2", root, by).metadata;
    (seal_type(metadata) == kind).then_some(Capability::tagged(0, metadata))
}

/// What the machine's stores of bytes leave of a tagged granule from its byte `from` on, and whether its tag stays.
pub fn stored(granule: [u8; GRANULE], from: usize, bytes: &[u8]) -> ([u8; GRANULE], bool) {
    const HELD: u32 = 8;
    let mut state = State::reset(0, vec![0; lent::BLOCK], 0);
    state.write(0, &word("csb 1 2 0").to_le_bytes());
    state.write(HELD, &granule);
    state.set_tag(HELD, true);
    for (address, byte) in (HELD + from as u32..).zip(bytes) {
        let mut next = state.clone();
        next.set(1, Capability::tagged(address, MEMORY_ROOT));
        next.set(2, Capability::integer((*byte).into()));
        if retires(&mut next) {
            (state.mem, state.tags) = (next.mem, next.tags);
        }
    }
    let left = std::array::from_fn(|place| state.mem[HELD as usize + place]);
    (left, state.tagged(HELD.into()))
}
