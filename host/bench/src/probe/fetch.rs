//! What a fetch asks for, and whether one is refused.

use super::value::{cut, seal_type};
use super::{around, code, proved, retires, scratch, word, UNSOUND};
use crate::proved::word_length;
use lent::{Capability, State, EXECUTABLE_ROOT, MEMORY_ROOT, PCC};
use std::sync::OnceLock;

/// Words that do nothing, a short one and a long one.
const NOPS: [&str; 2] = ["c.nop", "addi 0 0 0"];

/// The most bytes that are asked about.
const MOST: u32 = 64;

/// How many bytes the fetch of a short word and of a long one ask for: the fewest that PCC must have.
pub fn bytes() -> [u32; 2] {
    static BYTES: OnceLock<[u32; 2]> = OnceLock::new();
    let fewest = |line: &str| {
        let fetched = |bytes: &u32| {
            let mut state = scratch(0, word(line));
            state.set(PCC, cut(0, EXECUTABLE_ROOT, *bytes));
            retires(&mut state)
        };
        (1..MOST).find(fetched).unwrap_or(MOST)
    };
    *BYTES.get_or_init(|| NOPS.map(fewest))
}

/// Whether an instruction may stand at an address: one that does nothing retires there.
pub fn is_place(address: u32) -> bool {
    let root = Capability::tagged(address, EXECUTABLE_ROOT);
    passes(root, NOPS[0])
}

/// Whether PCC lets a word be fetched where it is: one of its length that does nothing is.
pub fn lets(pcc: Capability, word: u32) -> bool {
    let length = word_length(word) as usize;
    NOPS.iter()
        .any(|line| code(line).len() == length && passes(pcc, line))
}

/// Whether PCC lets a short word, and a long one, be fetched where it is.
pub fn passed(pcc: Capability) -> [bool; 2] {
    NOPS.map(|line| passes(pcc, line))
}

fn passes(pcc: Capability, line: &str) -> bool {
    let mut state = at(pcc, &[], line);
    state.set(PCC, pcc);
    match proved::run(&mut state, 1) {
        Err(UNSOUND) => passes_loaded(pcc, line),
        made => made.is_ok_and(|made| made.retired == 1),
    }
}

/// The same of a PCC that no start may hold: it is loaded, and jumped to. That would make an odd address even and unseal
/// a sentry, which no PCC is.
fn passes_loaded(pcc: Capability, line: &str) -> bool {
    const HELD: u32 = 16;
    if !is_place(pcc.address) || seal_type(pcc.metadata) != 0 {
        return false;
    }
    let code = [word("clc 1 1 16"), word("cjalr 0 1 0")];
    let mut state = at(pcc, &code, line);
    let place = state.capability(PCC).address;
    state.write_capability(place + HELD, pcc);
    state.set(1, Capability::tagged(place, MEMORY_ROOT));
    proved::run(&mut state, 3).is_ok_and(|made| made.retired == 3)
}

/// A machine with a line's word where PCC is, and code beside it.
fn at(pcc: Capability, beside: &[u32], line: &str) -> State {
    let mut state = around(pcc.address, beside);
    state.write(pcc.address, &code(line));
    state
}
