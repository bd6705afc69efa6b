//! Small programs for the tests.

use crate::drive::{Nobody, Plan, Watcher};
use crate::proved::Counts;
use lent::{Capability, State, MEMORY_ROOT};

pub const START: u32 = 0x2000_0000;
pub const EBREAK: u32 = 0x0010_0073;
pub const JUMP_TO_ITSELF: u32 = 0x0000_006F;
pub const NOP: u32 = 0x0000_0013;
/// addi c10, c10, 1; bne c10, c11, -4.
pub const COUNT: [u32; 2] = [0x0015_0513, 0xFEB5_1EE3];
/// addi c10, c10, 1; csw c10, 0(c2); bne c10, c11, -8.
pub const LOOP: [u32; 3] = [0x0015_0513, 0x00A1_2023, 0xFEB5_1CE3];
/// Where that loop stores.
pub const STORED: u32 = START + 0x30;
/// clc c4, 120(c1)
const LOAD: u32 = 0x0780_B203;
/// The register that it writes.
pub const LOADED: usize = 4;

/// A value with low above high, which no start may hold: B is 5 and T is 4, at exponent 24.
pub const UNSOUND_VALUE: Capability = Capability {
    address: 0x0500_0000,
    metadata: 0x7E3C_0805,
    tag: 1,
};

/// A state at reset with code at memory's start.
pub fn coded(code: &[u32]) -> State {
    let mut state = State::reset(START, vec![0; 128], START);
    write(&mut state, 0, code);
    state
}

fn write(state: &mut State, place: usize, code: &[u32]) {
    for (place, word) in (place..).zip(code) {
        state.write(START + 4 * place as u32, &word.to_le_bytes());
    }
}

/// A loop of two steps a round, then a last word.
pub fn counting(rounds: u32, last: u32) -> State {
    let mut state = coded(&[COUNT[0], COUNT[1], last]);
    state.regs[3 * 11] = rounds;
    state
}

/// A loop of three steps a round that stores in each, then a last word.
pub fn storing(rounds: u32, last: u32) -> State {
    let mut state = coded(&[LOOP[0], LOOP[1], LOOP[2], last]);
    state.set(2, Capability::tagged(STORED, MEMORY_ROOT));
    state.regs[3 * 11] = rounds;
    state
}

/// A program of at most four words after some others and one that loads such a value.
pub fn loading(before: &[u32], program: State) -> State {
    let words = [0, 4, 8, 12].map(|place| program.word(START + place).unwrap());
    let mut state = program;
    write(&mut state, 0, &[before, &[LOAD], &words].concat());
    state.write_capability(START + 120, UNSOUND_VALUE);
    state.set(1, Capability::tagged(START, MEMORY_ROOT));
    state
}

/// A run to the first trap, or through all of them, that nobody is shown.
pub fn plan<'a>(steps: u64, through_traps: bool) -> Plan<'a> {
    Plan {
        through_traps,
        ..Plan::new(steps, Box::leak(Box::new(Nobody)))
    }
}

/// A watcher by what it does after each call.
pub struct After<F>(pub F);

impl<F: FnMut(Counts) -> bool> Watcher for After<F> {
    fn after(&mut self, _: &State, made: Counts) -> bool {
        (self.0)(made)
    }
}
