//! What is said of a trap holds of the state it happened in, over many random steps.

use super::*;
use crate::capability_text::rights;
use crate::names::Names;
use crate::sequence::Sequence;
use crate::{json, proved, report};
use lent::{EXECUTABLE_ROOT, MTCC};

// The opcodes of the words that can trap for an address.
const LOAD: u32 = 0x03;
const STORE: u32 = 0x23;
const BRANCH: u32 = 0x63;
const CJALR: u32 = 0x67;
const CJAL: u32 = 0x6F;

const START: u32 = 0x2000_0000;
const SIZE: u32 = 256;

impl Sequence {
    fn below(&mut self, limit: u32) -> u32 {
        self.word() % limit
    }

    /// A capability at or near memory: of any rights, mostly tagged and unsealed, of small bounds.
    fn capability(&mut self) -> Capability {
        let address = START - 16 + self.below(SIZE + 32);
        let address = if self.below(16) == 0 {
            self.word()
        } else {
            address
        };
        let kind = if self.below(4) == 0 { self.below(8) } else { 0 };
        let top = address.wrapping_add(self.below(64)) % 512;
        let base = address.wrapping_sub(self.below(64)) % 512;
        let bounds = [0x3E_0000, top << 9 | base][self.below(2) as usize];
        Capability {
            address,
            metadata: self.below(64) << 25 | kind << 22 | bounds,
            tag: u32::from(self.below(8) != 0),
        }
    }

    /// A short word of a kind that can trap: a load, a store, a jump or a branch, C.EBREAK or a word that
    /// is none.
    fn half(&mut self) -> u32 {
        const FORMS: [u32; 17] = [
            0x4000, 0x6000, 0xC000, 0xE000, 0x4002, 0x6002, 0xC002, 0xE002, 0x2001, 0xA001, 0xC001,
            0xE001, 0x8002, 0x9002, 0x9002, 0x2000, 0,
        ];
        let form = FORMS[self.below(17) as usize];
        match form {
            // The offset is small: in these forms bit 12 is its sign, bits 2 to 5 are low ones.
            0x2001 | 0xA001 => form | self.word() & 0x103C,
            0x8002 | 0x9002 => form | self.below(16) << 7,
            0x2000 | 0 => form,
            // Offsets of loads and stores of up to 16 bytes; any register.
            _ => form | self.word() & 0x07FC & !0x60,
        }
    }

    /// An instruction of a kind that can trap, with registers below 16 and small offsets.
    fn instruction(&mut self) -> u32 {
        if self.below(3) == 0 {
            return self.half();
        }
        let offset = self.below(64).wrapping_sub(32);
        let (rd, rest) = (self.below(16) << 7, self.word());
        let (rs1, rs2) = (self.below(16) << 15, self.below(16) << 20);
        let width = self.below(4) << 12;
        match self.below(7) {
            0 => LOAD | rd | rs1 | width | offset << 20,
            1 | 2 => STORE | (offset & 31) << 7 | rs1 | rs2 | width | (offset >> 5) << 25,
            3 => BRANCH | self.below(16) << 8 | rs1 | rs2 | rest & 0x7000,
            4 => CJALR | rd | rs1 | [0, offset << 20][(rest & 1) as usize],
            5 => CJAL | rd | self.below(64) << 21,
            _ => [0x73, 0x10_0073, 0x3020_0073, 0x3000_1073, 0x03D0_005B, 0][rest as usize % 6],
        }
    }

    /// A state with random registers, and PCC mostly at an instruction that can trap.
    fn state(&mut self) -> State {
        let word = self.instruction();
        let place = [64, 66, SIZE as usize - 2][self.below(3) as usize];
        let mut memory = vec![0; SIZE as usize + 2];
        memory[place..place + 4].copy_from_slice(&word.to_le_bytes());
        memory.truncate(SIZE as usize);
        let place = START + place as u32;
        let mut state = State::reset(START, memory, place);
        for place in 1..16 {
            state.set(place, self.capability());
        }
        match self.below(4) {
            0 => state.set(PCC, self.capability()),
            1 => {
                let (base, top) = (
                    place % 512,
                    (place + [2, 3, 16][self.below(3) as usize]) % 512,
                );
                let bounds = Capability::tagged(place, 0x2B << 25 | top << 9 | base);
                state.set(PCC, bounds);
            }
            _ => {}
        }
        state
    }
}

/// Whether the bounds of the authority hold all that was asked for, compared as whole numbers.
fn inside(trap: &Trap, asked: Asked) -> bool {
    let bounds = trap.authority.as_ref().unwrap().bounds;
    bounds.low <= asked.address && asked.end() <= bounds.high
}

/// What the cause of a capability check claims of its authority and its request.
fn check_holds(trap: &Trap) -> bool {
    let authority = trap.authority.as_ref().unwrap();
    let lacks = |right| !rights(authority.value.metadata).contains(&right);
    match trap.mtval % 32 {
        1 => trap.asked.is_none_or(|asked| !inside(trap, asked)),
        2 => authority.value.tag == 0,
        3 => value::seal_type(authority.value.metadata) != 0,
        17 => lacks("EX"),
        18 => lacks("LD") && trap.action == Action::Load,
        19 => lacks("SD") && trap.action == Action::Store,
        21 => lacks("MC") && trap.action == Action::Store,
        22 => lacks("SL") && trap.action == Action::Store,
        24 => lacks("SR") && authority.name == "PCC",
        _ => false,
    }
}

/// What any cause claims.
fn cause_holds(trap: &Trap, state: &State) -> bool {
    let Some(asked) = trap.asked else {
        return matches!(trap.mcause, 2 | 3 | 11) || check_holds(trap);
    };
    let (first, size) = (u64::from(asked.address), u64::from(asked.size));
    let there = (first..first + size).all(|address| state.byte(address).is_some());
    match trap.mcause {
        0 => !first.is_multiple_of(2) && inside(trap, asked),
        1 | 5 | 7 => first.is_multiple_of(size) && !there && inside(trap, asked),
        4 | 6 => !first.is_multiple_of(size) && inside(trap, asked),
        CAPABILITY_CHECK => check_holds(trap),
        _ => false,
    }
}

#[test]
fn what_is_said_of_a_trap_holds() {
    let mut sequence = Sequence(7);
    let mut seen = std::collections::BTreeMap::new();
    for _ in 0..60_000 {
        let before = sequence.state();
        let mut after = before.clone();
        if proved::run(&mut after, 1).unwrap().trapped == 0 {
            continue;
        }
        let trap = Trap::of_step(&before, &after);
        let text = report::trap(&trap, &after, &Names::default());
        assert!(cause_holds(&trap, &after), "{text}");
        let check = if trap.mcause == CAPABILITY_CHECK {
            trap.mtval % 32
        } else {
            0
        };
        *seen
            .entry((trap.mcause, check, trap.action.noun()))
            .or_insert(0) += 1;
    }
    // Nine ordinary causes, and nineteen checks: bounds, tag and seal of four actions each, execute of
    // two, and five of one.
    assert_eq!(seen.len(), 9 + 19, "{seen:?}");
}

#[test]
fn any_words_left_in_a_state_are_explained() {
    let mut sequence = Sequence(11);
    for _ in 0..20_000 {
        let mut state = sequence.state();
        let pcc = sequence.capability();
        state.set(MEPCC, pcc);
        state.set(MTCC, Capability::tagged(0, EXECUTABLE_ROOT));
        state.regs[MCAUSE] = [sequence.below(32), sequence.word()][sequence.below(2) as usize];
        state.regs[MTVAL] = [sequence.below(2_048), sequence.word()][sequence.below(2) as usize];
        if let Some(trap) = Trap::recorded(&state) {
            let text = report::trap(&trap, &state, &Names::default());
            assert!(text.contains("Trap: "));
            let value = json::explained(&state, Some(&trap), &Names::default());
            assert!(value["trap"]["cause"].is_string());
        }
    }
}
