//! Programs: memory full of instructions, capabilities to memory in the upper registers, and for
//! most a handler that steps over what trapped, so that a run of 20,000 steps goes on through
//! every instruction, what it stores over its own code among them.

use crate::capabilities::{register, rights, wide, Layout, Rights};
use crate::cases::{fill, fill_registers, write_instruction};
use crate::operands::{any, encode, Operands};
use crate::random::Random;
use crate::rows::{Aim, Form, Outcome, Row, Table};
use crate::state::{lend, Call, Case};
use crate::timer;
use lent::{instruction_bytes, State, MEPCC, MOST_STEPS, MTCC, MTDC, PCC};

/// The most steps of most runs.
const MANY_STEPS: u32 = 20_000;

/// A handler that steps over the instruction that trapped, or over its first half: c15 := MEPCC;
/// c15 := c15 + 4 or + 2; MEPCC := c15; MRET.
const HANDLER: [u32; 4] = [0x03F0_07DB, 0x0047_97DB, 0x03F7_805B, 0x3020_0073];
/// CIncAddrImm c15, c15, 2.
const TWO_ON: u32 = 0x0027_97DB;
/// CJAL c0 to 64 bytes before.
const JUMP_BACK: u32 = 0xFC1F_F06F;

/// Registers 8 to 13 are kept for capabilities most of the time, 1 to 7 for integers.
fn capability_register(random: &mut Random) -> u32 {
    match random.below(6) {
        0 => random.below(16),
        _ => 8 + random.below(6),
    }
}

fn integer_register(random: &mut Random) -> u32 {
    match random.below(6) {
        0 => random.below(14),
        _ => random.below(8),
    }
}

/// A word of a program: its registers chosen by what they are for, its offsets short.
pub fn word(random: &mut Random, row: &Row) -> u32 {
    let rd = if row.can(Outcome::Tagged) {
        capability_register(random)
    } else {
        integer_register(random)
    };
    let rs1 = match row.aim {
        Aim::Compare | Aim::Extremes => integer_register(random),
        _ => capability_register(random),
    };
    let rs2 = match row.aim {
        Aim::Store(8) | Aim::Seal | Aim::Unseal | Aim::Subset => capability_register(random),
        _ => integer_register(random),
    };
    let immediate = match row.aim {
        Aim::Load(_) | Aim::Store(_) => random.pick([0u32, 0, 8, 16, 4, 0xFFFF_FFF8, 1, 32]),
        Aim::AddAddress => random.pick([8u32, 0xFFFF_FFF8, 4, 64, 1, 0]),
        _ => any(random, row.form).immediate,
    };
    let immediate = match (row.form, row.aim) {
        (Form::Branch | Form::Jump, _) | (_, Aim::Jump) => short_offset(random),
        _ => immediate,
    };
    let immediate = row.form.held(immediate);
    let operands = Operands {
        rd,
        rs1,
        rs2,
        immediate,
    };
    row.some(encode(row, &operands), || any(random, row.form))
}

/// A few instructions on or back.
fn short_offset(random: &mut Random) -> u32 {
    let distance = 2 * (1 + random.below(16));
    match random.below(8) {
        0..=4 => distance,
        _ => distance.wrapping_neg(),
    }
}

/// A program and a run of it.
pub fn make(table: &Table, random: &mut Random, case: &mut Case) {
    let layout = layout(random);
    let state = &mut case.state;
    fill(random, layout, state);
    fill_registers(random, layout, state);
    write_program(table, random, layout, state);
    for place in 8..14 {
        if !random.one_in(4) {
            let rights = rights(random);
            let address = layout.inside(random, 8);
            state.set(place, lend(wide(random, layout, rights, address)));
        }
    }
    if !random.one_in(4) {
        write_handler(random, layout, state);
    }
    let steps = steps(random);
    if random.one_in(4) {
        timer::soon(random, steps, state);
    }
    case.call = Call::Run(steps);
}

fn layout(random: &mut Random) -> Layout {
    let places = crate::cases::layout(random);
    let size = match random.below(32) {
        0 => 4096,
        _ => 128 + 64 * random.below(12),
    };
    Layout {
        start: places.start.min(0u32.wrapping_sub(size)),
        size,
    }
}

/// Instructions everywhere, with a few capabilities among them.
fn write_program(table: &Table, random: &mut Random, layout: Layout, state: &mut State) {
    let mut at = 0;
    while at < layout.size {
        let row = table.pick(random);
        let word = word(random, row);
        write_instruction(state, layout.start.wrapping_add(at), word);
        at += instruction_bytes(word);
    }
    state.tags.fill(0);
    for _ in 0..layout.size / 64 {
        let address = layout.inside(random, 8);
        state.write_capability(address, lend(register(random, layout)));
    }
}

/// The handler at the end of memory with a jump back before it, PCC and the special registers to
/// match.
fn write_handler(random: &mut Random, layout: Layout, state: &mut State) {
    let end = layout.start.wrapping_add(layout.size);
    let handler = end.wrapping_sub(16);
    for (index, word) in HANDLER.iter().enumerate() {
        state.write(handler.wrapping_add(4 * index as u32), &word.to_le_bytes());
    }
    if random.one_in(2) {
        state.write(handler.wrapping_add(4), &TWO_ON.to_le_bytes());
    }
    state.write(handler.wrapping_sub(4), &JUMP_BACK.to_le_bytes());
    let places = [(PCC, layout.start), (MTCC, handler), (MEPCC, layout.start)];
    for (place, address) in places {
        let mut value = wide(random, layout, Rights::Executable, address);
        value.metadata |= 1 << 27;
        state.set(place, lend(value));
    }
    let data = wide(random, layout, Rights::ReadWrite, layout.start);
    state.set(MTDC, lend(data));
}

/// How many steps: mostly a few, sometimes thousands, and hardly ever as many as there may be.
fn steps(random: &mut Random) -> u32 {
    if random.one_in(8000) {
        return MOST_STEPS;
    }
    match random.below(32) {
        0 | 1 => random.below(MANY_STEPS + 1),
        2..=5 => random.below(2000),
        6 => random.pick([0, 1, 2]),
        _ => random.below(200),
    }
}

#[cfg(test)]
mod tests {
    use super::*;
    use second::decode::{decode, Instruction};

    #[test]
    fn the_handler_is_what_it_says() {
        let shown: Vec<_> = HANDLER.iter().map(|&word| decode(word)).collect();
        assert!(matches!(shown[0], Some(Instruction::CSpecialRw { .. })));
        assert!(matches!(shown[1], Some(Instruction::Derive { .. })));
        assert!(matches!(shown[2], Some(Instruction::CSpecialRw { .. })));
        assert_eq!(shown[3], Some(Instruction::Mret));
        let Some(Instruction::Cjal { offset, .. }) = decode(JUMP_BACK) else {
            panic!("no jump");
        };
        assert_eq!(offset, 0u32.wrapping_sub(64));
        assert_eq!(TWO_ON, HANDLER[1] - (2 << 20));
    }
}
