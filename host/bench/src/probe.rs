//! Questions that the proved machine answers by executing an instruction on a scratch state. The instructions are those
//! that the proved assembler makes of their names, so nothing here knows an opcode.

pub mod access;
pub mod fetch;
pub mod jump;
#[cfg(test)]
mod tests;
pub mod value;

use crate::proved::{self, number, Counts, UNSOUND};
use lent::{
    Capability, Revocation, State, BLOCK, CAPABILITIES, MCAUSE, MEMORY_ROOT, MSHWM, MSHWMB,
    MSTATUS, MTCC, MTVAL, PCC, TIME,
};
use std::cell::RefCell;
use std::collections::HashMap;

/// The mcause of a capability check. Its mtval is 32 times the register's name, plus the cause.
pub const CAPABILITY_CHECK: u32 = 28;
pub const NAMES: u32 = 32;
/// The name of PCC; the names of c0 to c15 are their numbers.
pub const PCC_NAME: u32 = 32;

// Causes of a capability check (the CHERIoT report, Table 7.3).
pub const BOUNDS: u32 = 1;
pub const TAG: u32 = 2;
pub const SEAL: u32 = 3;
pub const EXECUTE: u32 = 17;
pub const LOAD: u32 = 18;
pub const STORE: u32 = 19;

/// The bytes that the proved assembler makes of a line, its fields parted by spaces here.
fn code(line: &str) -> Vec<u8> {
    thread_local!(static LINES: RefCell<HashMap<String, Vec<u8>>> = RefCell::default());
    let known = LINES.with_borrow(|lines| lines.get(line).cloned());
    known.unwrap_or_else(|| {
        let made = assembled(line).unwrap_or_else(|| panic!("no listing: {line}"));
        LINES.with_borrow_mut(|lines| lines.insert(line.into(), made.clone()));
        made
    })
}

/// The same of a line that may be none.
fn assembled(line: &str) -> Option<Vec<u8>> {
    proved::assemble(format!("{}\n", line.replace(' ', "\t")).as_bytes()).ok()
}

/// The word of a line.
pub fn word(line: &str) -> u32 {
    number(&code(line))
}

/// A machine at reset with one word of code where its memory starts.
fn scratch(start: u32, word: u32) -> State {
    let mut memory = vec![0; BLOCK];
    memory[..4].copy_from_slice(&word.to_le_bytes());
    State::reset(start, memory, start)
}

/// The same with a capability in c1.
fn with(word: u32, value: Capability) -> State {
    let mut state = scratch(0, word);
    state.set(1, value);
    state
}

/// The blocks of a memory around an address.
const AROUND: usize = 4;

/// A machine at reset whose memory holds an address, if it may, and the code somewhere else, with room after it.
fn around(address: u32, code: &[u32]) -> State {
    let size = AROUND * BLOCK;
    let block = address - address % BLOCK as u32;
    let start = block.min(0u32.wrapping_sub(size as u32));
    let near = (address - start) as usize >= size / 2;
    let place = start + if near { 0 } else { (size - BLOCK) as u32 };
    let mut state = State::reset(start, vec![0; size], place);
    for (number, word) in (0..).zip(code) {
        state.write(place + 4 * number, &word.to_le_bytes());
    }
    state
}

/// The register and the cause of the capability check that a step ends in, if it ends in one.
fn check(state: &mut State) -> Option<(u32, u32)> {
    let made = proved::run(state, 1).ok()?;
    let mtval = state.register(MTVAL);
    let checked = made.trapped == 1 && state.register(MCAUSE) == CAPABILITY_CHECK;
    checked.then_some((mtval / NAMES, mtval % NAMES))
}

/// Whether one step retires.
fn retires(state: &mut State) -> bool {
    proved::run(state, 1) == Ok(ONE)
}

const ONE: Counts = Counts {
    retired: 1,
    trapped: 0,
};

/// Whether the timer interrupts one of the next so many steps, if nothing but time changes: a step is made with a state's
/// control words, at the time of the last of them. Once it is time, the timer interrupts at every later time too, up to
/// the last before time begins anew (law `unreached_run`); so that one is asked for as well, where they go past it.
pub fn interrupts_within(state: &State, steps: u64) -> bool {
    let Some(more) = steps.checked_sub(1) else {
        return false;
    };
    let time = state.long(TIME);
    let anew = time.checked_add(more).is_none();
    interrupts_at(state, time.wrapping_add(more)) || anew && interrupts_at(state, u64::MAX)
}

/// Whether the timer interrupts the step at a time.
fn interrupts_at(state: &State, time: u64) -> bool {
    let mut scratch = scratch(0, word("addi 0 0 0"));
    for place in MSTATUS..scratch.regs.len() {
        scratch.regs[place] = state.register(place);
    }
    scratch.set_long(TIME, time);
    proved::run(&mut scratch, 1).is_ok_and(|made| made.trapped == 1)
}

/// How many steps are made before the timer interrupts, if nothing but time changes; none if it never does.
pub fn steps_to_interrupt(state: &State) -> Option<u64> {
    let (mut least, mut most) = (0, u64::MAX - 1);
    if !interrupts_within(state, most + 1) {
        return None;
    }
    while least < most {
        let middle = least + (most - least) / 2;
        match interrupts_within(state, middle + 1) {
            true => most = middle,
            false => least = middle + 1,
        }
    }
    Some(least)
}

/// Where a trap goes by a state's MTCC. One that no start may hold is asked for without its tag.
pub fn handler(state: &State) -> u32 {
    let mut scratch = scratch(0, word("ebreak"));
    let mut asked = state.capability(MTCC);
    scratch.set(MTCC, asked);
    if proved::run(&mut scratch, 1).is_err() {
        asked.tag = 0;
        scratch.set(MTCC, asked);
        let _ = proved::run(&mut scratch, 1);
    }
    scratch.capability(PCC).address
}

/// Where a store of the byte at a stack's start leaves a mark.
pub fn marked(start: u32, mark: u32) -> u32 {
    let mut state = around(start, &[word("csb 1 0 0")]);
    state.set(1, Capability::tagged(start, MEMORY_ROOT));
    (state.regs[MSHWM], state.regs[MSHWMB]) = (mark, start);
    let _ = proved::run(&mut state, 1);
    state.register(MSHWM)
}

/// What a state's revocation bits say of the granule that holds a low bound. An empty capability
/// there is loaded in a memory as large, with the bits as they are and with all of them set.
pub fn revocation(state: &State, low: u32) -> Revocation {
    let value = value::empty(low);
    let kept = |revoked: Vec<u8>| {
        let memory = vec![0; state.mem.len()];
        let mut scratch = State::reset(state.start, memory, state.start);
        scratch.window = state.window;
        scratch.revoked = revoked;
        scratch.write(state.start, &word("clc 1 1 8").to_le_bytes());
        scratch.write_capability(state.start.wrapping_add(8), value);
        scratch.set(1, Capability::tagged(state.start, MEMORY_ROOT));
        proved::run(&mut scratch, 1).is_ok() && scratch.capability(1).tag == 1
    };
    match kept(state.revoked.clone()) {
        false => Revocation::Marked,
        true if kept(vec![0xFF; state.revoked.len()]) => Revocation::Outside,
        true => Revocation::Clear,
    }
}

/// The places of the registers for which a start is refused: with every other tag cleared it still is.
pub fn unsound(state: &State) -> Vec<usize> {
    let alone = |&place: &usize| {
        let mut scratch = state.clone();
        untag_others(&mut scratch, place);
        proved::run(&mut scratch, 0) == Err(UNSOUND)
    };
    (0..CAPABILITIES).filter(alone).collect()
}

/// Clears the tag of every register but one.
fn untag_others(state: &mut State, place: usize) {
    for other in (0..CAPABILITIES).filter(|&other| other != place) {
        state.regs[3 * other + 2] = 0;
    }
}
