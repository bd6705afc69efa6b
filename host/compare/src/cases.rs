//! The cases of the machine comparison. Most are one step of an instruction, each class as often
//! as another, from a state made to reach what it can do; the rest are programs, states that are
//! anything, runs that load what no start may hold, and buffers that are refused.

use crate::aims;
use crate::capabilities::{anything, around, register, root, sealed, tight, wide, Layout, Rights};
use crate::mark;
use crate::operands::near_miss;
use crate::programs;
use crate::random::Random;
use crate::refusals;
use crate::rows::{Aim, Row, Table};
use crate::state::{lend, Call, Case};
use crate::timer;
use crate::unsound;
use lent::{instruction_bytes, State, Window, CAPABILITIES, MOST_MEMORY, WORDS};
use lent::{MCAUSE, MEPCC, MSCRATCHC, MSTATUS, MTCC, MTDC, MTVAL, PCC};
use second::capability::{move_address, narrow, SR};
use second::Capability;

/// Makes a case of a seed, in place of the one before.
pub fn make(table: &Table, seed: u64, number: u64, case: &mut Case) {
    let mut random = Random::new(seed, number);
    case.state.edition = random.below(2);
    let kind = random.below(100);
    match kind {
        3 | 4 => wild(&mut random, case),
        5..=8 => programs::make(table, &mut random, case),
        _ => single(table, &mut random, case),
    }
    refusals::settle(&mut case.state);
    match kind {
        0..=2 => refusals::spoil(&mut random, case),
        9..=14 => unsound::bring(&mut random, case),
        _ => {}
    }
}

/// Memory of every size, mostly small, often at an end of the address space.
pub fn layout(random: &mut Random) -> Layout {
    let size = match random.below(64) {
        0 => match random.below(4) {
            0 => MOST_MEMORY as u32,
            1 => 64 * (1 + random.below(MOST_MEMORY as u32 / 64)),
            _ => 65_536,
        },
        1 => 64 * (1 + random.below(1024)),
        2..=5 => 64 * (1 + random.below(64)),
        6..=31 => 64,
        _ => 64 * (1 + random.below(6)),
    };
    let last = 0u32.wrapping_sub(size);
    let start = match random.below(8) {
        0 => 0,
        1 | 2 => last,
        3 => 0x2000_0000,
        4 => 0x8000_0000u32.wrapping_sub(size / 2) & !7,
        5 => random.word() & !0x1FF,
        6 => random.edge() & !7,
        _ => random.word() & !7,
    };
    Layout {
        start: start.min(last),
        size,
    }
}

/// A window: all of memory, none of it, or a part of it, often from memory's start or to its end.
fn window(random: &mut Random, size: u32) -> Window {
    let blocks = size / 64;
    let (one, other) = (random.below(blocks + 1), random.below(blocks + 1));
    let (first, last) = match random.below(8) {
        0..=2 => (0, blocks),
        3 => {
            let place = random.pick([0, blocks, one]);
            (place, place)
        }
        4 => (0, one),
        5 => (one, blocks),
        _ => (one.min(other), one.max(other)),
    };
    Window {
        start: 64 * first,
        size: 64 * (last - first),
    }
}

/// Memory, tags, a window and its revocation bits of anything, or without a tag or a revocation.
pub fn fill(random: &mut Random, layout: Layout, state: &mut State) {
    state.start = layout.start;
    let size = layout.size as usize;
    state.mem.clear();
    while state.mem.len() < size {
        state.mem.extend_from_slice(&random.long().to_le_bytes());
    }
    fill_bits(random, size / 64, &mut state.tags);
    state.window = window(random, layout.size);
    fill_bits(random, state.window.size as usize / 64, &mut state.revoked);
}

fn fill_bits(random: &mut Random, size: usize, bits: &mut Vec<u8>) {
    let kept = random.pick([0, 0xFF, 0xFF, 0xFF, 0xFF, 0xFF]);
    bits.clear();
    while bits.len() < size {
        let bytes = random.long().to_le_bytes();
        let wanted = (size - bits.len()).min(8);
        bits.extend(bytes[..wanted].iter().map(|byte| byte & kept));
    }
}

/// PCC: mostly able to run, with bounds around memory or close around the instruction.
pub fn program_counter(random: &mut Random, layout: Layout) -> Capability {
    let unit = random.pick([2, 4]);
    let address = layout.inside(random, unit);
    let whole = if random.one_in(4) {
        around(random, address)
    } else {
        wide(random, layout, Rights::Executable, address)
    };
    let pcc = Capability {
        // SR three times in four: the code's third bit.
        metadata: whole.metadata | u32::from(random.one_in(2)) << 27,
        ..whole
    };
    if random.one_in(12) {
        spoilt_counter(random, layout, pcc)
    } else {
        pcc
    }
}

/// A PCC that fails one check of the fetch.
fn spoilt_counter(random: &mut Random, layout: Layout, pcc: Capability) -> Capability {
    let elsewhere = layout.address(random);
    match random.below(8) {
        0 => Capability { tag: 0, ..pcc },
        1 => sealed(pcc, random.below(8)),
        2 => {
            let rights = crate::capabilities::rights(random);
            wide(random, layout, rights, pcc.address)
        }
        3 => move_address(pcc, pcc.address.wrapping_add(random.below(4))),
        4 => root(0b101111, elsewhere & !1),
        5 => root(0b101111, elsewhere),
        6 => Capability {
            address: elsewhere,
            ..tight(random, Rights::Executable, pcc.address, 4)
        },
        _ => anything(random),
    }
}

/// A capability that traps go to or return to: mostly executable and in memory, at any address.
fn special(random: &mut Random, layout: Layout) -> Capability {
    let address = match random.below(4) {
        0 => layout.inside(random, 1),
        1 => layout.address(random),
        _ => layout.inside(random, 2),
    };
    let value = match random.below(8) {
        0 => register(random, layout),
        1 | 2 => around(random, address),
        _ => wide(random, layout, Rights::Executable, address),
    };
    match random.below(12) {
        0 => sealed(value, random.below(8)),
        1 => narrow(value, !SR),
        _ => value,
    }
}

/// A register file of the kinds that a program might leave.
pub fn fill_registers(random: &mut Random, layout: Layout, state: &mut State) {
    state.regs.clear();
    state.regs.resize(WORDS, 0);
    for place in 1..16 {
        state.set(place, lend(register(random, layout)));
    }
    state.set(PCC, lend(program_counter(random, layout)));
    for place in [MTCC, MEPCC] {
        state.set(place, lend(special(random, layout)));
    }
    for place in [MTDC, MSCRATCHC] {
        state.set(place, lend(register(random, layout)));
    }
    state.regs[MSTATUS] = match random.below(4) {
        0 => random.word(),
        _ => random.pick([0, 0x08, 0x80, 0x88]),
    };
    state.regs[MCAUSE] = random.number();
    state.regs[MTVAL] = random.number();
    mark::fill(random, layout, state);
    timer::fill(random, state);
}

/// One step of an instruction; sometimes a word that is none, sometimes a run of a few steps.
fn single(table: &Table, random: &mut Random, case: &mut Case) {
    let layout = layout(random);
    let state = &mut case.state;
    fill(random, layout, state);
    fill_registers(random, layout, state);
    let row = table.pick(random);
    let word = match random.below(24) {
        0 => random.word(),
        1 => near_miss(random, row),
        2 => aims::word(random, layout, state, row) ^ 1 << random.below(32),
        _ => aims::word(random, layout, state, row),
    };
    write_instruction(state, state.capability(PCC).address, word);
    case.call = match random.below(16) {
        0 => Call::Run(1),
        1 => Call::Run(random.below(4)),
        _ => Call::Step,
    };
    let times = if changes_enabling(row) { 4 } else { 32 };
    if random.one_in(times) {
        timer::one_before(random, state);
        case.call = Call::Run(random.pick([2, 2, 3]));
    }
}

/// Whether a row can set or clear MIE without a trap.
fn changes_enabling(row: &Row) -> bool {
    row.name == "MRET" || row.name.ends_with("mstatus") || row.aim == Aim::JumpRegister
}

/// Writes an instruction, a short one in two bytes; of a long one at memory's end the first half.
pub fn write_instruction(state: &mut State, place: u32, word: u32) {
    let bytes = word.to_le_bytes();
    state.write(place, &bytes[..2]);
    if instruction_bytes(word) == 4 {
        state.write(place.wrapping_add(2), &bytes[2..]);
    }
}

/// A state that is anything, within what is not refused.
fn wild(random: &mut Random, case: &mut Case) {
    let layout = layout(random);
    fill(random, layout, &mut case.state);
    let state = &mut case.state;
    state.regs.clear();
    state.regs.resize_with(WORDS, || random.word());
    for place in 0..CAPABILITIES {
        state.regs[3 * place + 2] &= 1;
    }
    state.regs[..3].fill(0);
    if random.one_in(2) {
        let address = layout.inside(random, 2);
        state.set(PCC, lend(root(0b101111, address)));
    }
    case.call = match random.below(4) {
        0 => Call::Run(random.below(20)),
        _ => Call::Step,
    };
}
