//! Long programs for an engine that keeps decoded code: a few straight stretches that run again and again, of words of both
//! lengths, that call and jump to one another, near and 2,048 bytes apart, under PCCs with several bounds, and store over
//! each other's words, or their own, from a pool of words. A handler steps over what traps, and after an interrupt goes on
//! with interrupts off.

use crate::capabilities::{integer, region, root, Layout, Rights};
use crate::cases::{fill, fill_registers, write_instruction};
use crate::operands::{any, encode, Operands};
use crate::programs;
use crate::random::Random;
use crate::rows::{Aim, Outcome, Row, Table};
use crate::state::lend;
use crate::timer;
use lent::{instruction_bytes, State, MEPCC, MIE, MOST_MEMORY, MSTATUS, MTCC, PCC};
use second::capability::move_address;
use second::Capability;

/// Addresses so far apart have one slot in an engine of 1,024 slots of two bytes. A slot has two entries: three blocks
/// so far apart take them from one another.
const SLOT_DISTANCE: u32 = 2048;
/// How far a store reaches from its register, to both sides.
const STORE_REACH: u32 = 2048;
/// The sizes of the pool and of the room for the handler, at memory's end.
const POOL_SIZE: u32 = 256;
const HANDLER_ROOM: u32 = 64;

// What registers are for: 1 takes links, 2 and 4 to 7 integers.
const POOL: u32 = 8;
const CODE: u32 = 9;
const WIDE: u32 = 10;
const NARROW: u32 = 11;
const INTEGERS: [u32; 5] = [2, 4, 5, 6, 7];
const DERIVED: [u32; 2] = [12, 13];
const CAPABILITIES: [u32; 6] = [POOL, CODE, WIDE, NARROW, 12, 13];
/// The right to system registers, in an executable capability's metadata.
const SR_BIT: u32 = 1 << 27;

// Groups of rows.
const INTEGER: [&str; 8] = ["ADDI", "XORI", "SLTIU", "SRAI", "ADD", "SUB", "SLL", "LUI"];
const MULTIPLY: [&str; 8] = [
    "MUL", "MULH", "MULHSU", "MULHU", "DIV", "DIVU", "REM", "REMU",
];
const BRANCHES: [&str; 8] = [
    "BEQ", "BNE", "BLT", "BGE", "BLTU", "BGEU", "C.BEQZ", "C.BNEZ",
];
const LOADS: [&str; 8] = ["LB", "LH", "LW", "CLC", "LBU", "LHU", "C.LW", "C.LD"];
const STORES: [&str; 6] = ["SB", "SH", "SW", "CSC", "C.SW", "C.SD"];
const SHORT: [&str; 8] = [
    "C.ADDI", "C.LI", "C.LUI", "C.SRAI", "C.XOR", "C.MV", "C.ADD", "C.SLLI",
];
const DERIVATIONS: [&str; 8] = [
    "CMove",
    "CIncAddr",
    "CIncAddrImm",
    "CSetBoundsImm",
    "CSetBounds",
    "CAndPerm",
    "CSetAddr",
    "CGetAddr",
];
const SYSTEM: [&str; 8] = [
    "CSRRSI mstatus",
    "CSRRSI mstatus",
    "CSRRCI mstatus",
    "CSRRW mstatus",
    "CSRRS mshwm",
    "FENCE",
    "CSpecialRW MScratchC",
    "CSRRS mcause",
];
const TRAPPING: [&str; 4] = ["ECALL", "EBREAK", "C.EBREAK", "MRET"];

/// The handler, but for its fourth word: c15 := mcause; an interrupt on to MPIE := 0 and MRET; else MEPCC on, and MRET.
const HANDLER: [u32; 9] = [
    0x3420_27F3, // csrrs c15, mcause, c0
    0x0007_CA63, // blt c15, c0, .+20
    0x03F0_07DB, // cspecialrw c15, mepcc, c0
    0x0047_97DB, // cincaddrimm c15, c15, 4
    0x03F7_805B, // cspecialrw c0, mepcc, c15
    0x3020_0073, // mret
    0x0800_0793, // addi c15, c0, 128
    0x3007_B073, // csrrc c0, mstatus, c15
    0x3020_0073, // mret
];
/// The place of the word that steps on, and the one that steps on by a half.
const ON: usize = 3;
const TWO_ON: u32 = 0x0027_97DB;

/// Where things are.
struct Parts {
    memory: Layout,
    pool: u32,
    handler: u32,
    /// What the register for the code holds.
    middle: u32,
    blocks: Vec<u32>,
}

fn parts(random: &mut Random) -> Parts {
    let size = match random.one_in(128) {
        true => random.pick([65_536, MOST_MEMORY as u32]),
        false => random.pick([1024, 2048, 4160, 8192, 8256]),
    };
    let start = crate::cases::layout(random)
        .start
        .min(0u32.wrapping_sub(size));
    let memory = Layout { start, size };
    let handler = start.wrapping_add(size - HANDLER_ROOM);
    let pool = handler.wrapping_sub(POOL_SIZE);
    let code = Layout {
        start,
        size: size - HANDLER_ROOM - POOL_SIZE,
    };
    let mut blocks = vec![code.inside(random, 2)];
    for _ in 0..random.below(4) {
        let last = blocks[blocks.len() - 1].wrapping_sub(start);
        let near = last + 2 * random.below(48);
        let drawn = code.inside(random, 2).wrapping_sub(start);
        let apart = [last + SLOT_DISTANCE, last.wrapping_sub(SLOT_DISTANCE)];
        let apart = apart.into_iter().find(|&place| place < code.size);
        let apart = apart.unwrap_or(drawn);
        let place = random.pick([near, apart, apart, drawn]);
        blocks.push(start.wrapping_add((place % code.size) & !1));
    }
    Parts {
        memory,
        pool,
        handler,
        middle: match size > 3 * STORE_REACH {
            true => blocks[0] & !7,
            false => start.wrapping_add((size / 2).min(STORE_REACH)),
        },
        blocks,
    }
}

/// Writes words one after another.
struct Writer<'a> {
    table: &'a Table,
    random: &'a mut Random,
    state: &'a mut State,
    parts: Parts,
    /// Where the next word goes.
    at: u32,
}

/// A program ready to run.
pub fn make(table: &Table, random: &mut Random, state: &mut State) {
    let parts = parts(random);
    fill(random, parts.memory, state);
    fill_registers(random, parts.memory, state);
    state.edition = random.below(2);
    let mut writer = Writer {
        table,
        random,
        state,
        at: parts.blocks[0],
        parts,
    };
    writer.write_pool();
    for number in 0..writer.parts.blocks.len() {
        writer.write_block(number);
    }
    writer.write_handler();
    writer.set_registers();
    crate::refusals::settle(state);
}

impl Writer<'_> {
    /// Writes the instruction of a row.
    fn put(&mut self, name: &str, operands: Operands) {
        let row = self.table.named(name);
        let random = &mut *self.random;
        let word = row.some(encode(row, &operands), || any(random, row.form));
        self.put_word(word);
    }

    fn put_word(&mut self, word: u32) {
        write_instruction(self.state, self.at, word);
        self.at = self.at.wrapping_add(instruction_bytes(word));
    }

    /// Words that can be put over others: c5 := c5 + a number, mostly, so that each half of it may be changed alone.
    fn write_pool(&mut self) {
        for place in 0..POOL_SIZE / 4 {
            self.at = self.parts.pool.wrapping_add(4 * place);
            match self.random.below(4) {
                0 => self.put_one_of(&INTEGER),
                1 => {
                    self.put_one_of(&SHORT);
                    self.put_one_of(&SHORT);
                }
                _ => self.put_adding(),
            }
        }
    }

    fn put_adding(&mut self) {
        let immediate = self.random.below(2048);
        self.put("ADDI", operands(5, 5, 0, immediate));
    }

    fn write_block(&mut self, number: usize) {
        self.at = self.parts.blocks[number];
        if self.random.one_in(2) {
            self.put_one_of(&SHORT);
        }
        for _ in 0..3 + self.random.below(14) {
            self.put_piece();
        }
        self.put_end(number);
    }

    fn put_piece(&mut self) {
        match self.random.below(40) {
            0..=2 => self.put_one_of(&INTEGER),
            3..=5 => self.put_adding(),
            6..=9 => self.put_one_of(&MULTIPLY),
            10 | 11 => self.put_one_of(&["AUIPCC", "AUICGP"]),
            12 | 13 => self.put_one_of(&BRANCHES),
            14 | 15 => self.put_one_of(&["CJAL", "CJAL", "C.JAL", "C.J"]),
            16..=18 => self.put_call(),
            19..=21 => self.put_one_of(&LOADS),
            22..=24 => self.put_one_of(&STORES),
            25..=30 => self.put_change(),
            31..=33 => self.put_one_of(&SHORT),
            34 => self.put_one_of(&SYSTEM),
            35..=37 => self.put_one_of(&DERIVATIONS),
            38 => self.put_one_of(&TRAPPING),
            _ => {
                let row = self.table.pick(self.random);
                let word = programs::word(self.random, row);
                self.put_word(word);
            }
        }
    }

    /// An instruction of one of some rows.
    fn put_one_of<const N: usize>(&mut self, names: &[&str; N]) {
        let name = self.random.pick(*names);
        let row = self.table.named(name);
        let operands = self.operands(row);
        self.put(name, operands);
    }

    /// Operands by what the registers are for, now and then of another register.
    fn operands(&mut self, row: &Row) -> Operands {
        let random = &mut *self.random;
        let capability = match random.below(12) {
            0 => random.below(16),
            _ => random.pick(CAPABILITIES),
        };
        let rd = match row.aim {
            Aim::Jump => random.pick([0, 1, 1, 5]),
            _ if row.can(Outcome::Tagged) => random.pick(DERIVED),
            _ => random.pick(INTEGERS),
        };
        let rs1 = match row.aim {
            Aim::Load(_) | Aim::Store(_) if !random.one_in(10) => POOL,
            Aim::Compare | Aim::Extremes | Aim::Jump | Aim::Nothing => random.pick(INTEGERS),
            _ => capability,
        };
        let rs2 = match row.aim {
            Aim::Store(8) => capability,
            _ => random.pick(INTEGERS),
        };
        let immediate = match row.aim {
            Aim::Load(size) | Aim::Store(size) => {
                size * random.below(8) + u32::from(random.one_in(24))
            }
            Aim::Jump => near(random),
            Aim::Nothing if row.name.starts_with("CSR") => random.pick([8, 8, 0, 31]),
            _ => any(random, row.form).immediate,
        };
        operands(rd, rs1, rs2, row.form.held(immediate))
    }

    /// A jump to a register: a return, one of the two counters, or what can not be jumped to.
    fn put_call(&mut self) {
        let rd = self.random.pick([0, 1, 1, 1, 5]);
        let rs1 = self.random.pick([1, WIDE, WIDE, NARROW, NARROW, 12, 5, 8]);
        let immediate = self
            .random
            .pick([0u32, 0, 0, 0, 2, 4, 1, 8u32.wrapping_neg()]);
        let name = self.random.pick(["CJALR", "CJALR", "C.JALR", "C.JR"]);
        self.put(name, operands(rd, rs1, 0, immediate));
    }

    /// A piece of the pool put over a piece of the code.
    fn put_change(&mut self) {
        let (load, store, size) = self.random.pick([
            ("LW", "SW", 4),
            ("LW", "SW", 4),
            ("LHU", "SH", 2),
            ("LBU", "SB", 1),
            ("CLC", "CSC", 8),
        ]);
        let value = match size {
            8 => self.random.pick(DERIVED),
            _ => self.random.pick(INTEGERS),
        };
        let from = size * self.random.below(POOL_SIZE / 2 / size);
        self.put(load, operands(value, POOL, 0, from));
        let offset = self.changed(size).wrapping_sub(self.parts.middle);
        self.put(store, operands(0, CODE, value, offset));
        if self.random.one_in(4) {
            self.put_one_of(&["CJAL", "C.J", "C.J", "CJAL"]);
        }
    }

    /// The place that a store changes: its own, the next word's, a place shortly before or after it, or in any block.
    fn changed(&mut self, size: u32) -> u32 {
        let random = &mut *self.random;
        let block = self.parts.blocks[random.below(self.parts.blocks.len() as u32) as usize];
        let place = match random.below(8) {
            0 => self.at,
            1 | 2 => self.at.wrapping_add(random.pick([4, 6, 8])),
            3 | 4 => self.at.wrapping_sub(2 * random.below(16)),
            _ => block.wrapping_add(2 * random.below(24)),
        };
        let first = self.parts.memory.start;
        place.max(first).wrapping_sub(first) / size * size + first
    }

    /// The end of a block: to another one, and to the first where that is not taken.
    fn put_end(&mut self, number: usize) {
        let next = (number + 1) % self.parts.blocks.len();
        match self.random.below(8) {
            0 => self.put("CJALR", operands(0, 1, 0, 0)),
            1 => self.put("CJALR", operands(1, WIDE, 0, 0)),
            2 => self.put("CJALR", operands(0, NARROW, 0, 0)),
            3 => self.put_change(),
            _ => {}
        }
        let link = self.random.pick([0, 0, 1]);
        let offset = self.parts.blocks[next].wrapping_sub(self.at);
        self.put("CJAL", operands(link, 0, 0, offset));
    }

    fn write_handler(&mut self) {
        self.at = self.parts.handler;
        for (place, word) in HANDLER.into_iter().enumerate() {
            let two = place == ON && self.random.one_in(3);
            self.put_word(if two { TWO_ON } else { word });
        }
    }

    /// PCC and MEPCC in the first block, MTCC at the handler, capabilities by what the registers are for, and a timer
    /// that is often reached.
    fn set_registers(&mut self) {
        let Parts { memory, .. } = self.parts;
        for place in INTEGERS {
            let value = self.random.number();
            self.state.set(place as usize, lend(integer(value)));
        }
        let (pool, middle) = (self.parts.pool, self.parts.middle);
        for (place, address) in [(POOL, pool), (CODE, middle), (12, pool), (3, middle)] {
            let whole = region(self.random, Rights::ReadWrite, memory.start, memory.size);
            self.state
                .set(place as usize, lend(move_address(whole, address)));
        }
        let (handler, first) = (self.parts.handler, self.parts.blocks[0]);
        for (place, address) in [(PCC, first), (MEPCC, first), (MTCC, handler)] {
            let is_wide = !self.random.one_in(8);
            let value = self.counter(address, is_wide);
            self.state.set(place, lend(value));
        }
        for (place, is_wide) in [(WIDE, true), (NARROW, false)] {
            let block = self.random.below(self.parts.blocks.len() as u32) as usize;
            let value = self.counter(self.parts.blocks[block], is_wide);
            self.state.set(place as usize, lend(value));
        }
        self.state.regs[MSTATUS] = self.random.pick([0, MIE, MIE, 0x88]);
        timer::far(self.random, self.state);
        if !self.random.one_in(4) {
            timer::soon(self.random, 900, self.state);
        }
    }

    /// A counter at an address: with bounds of the whole space or of memory, or with some that end soon after it.
    fn counter(&mut self, address: u32, is_wide: bool) -> Capability {
        let memory = self.parts.memory;
        let mut value = match is_wide {
            true if self.random.one_in(2) => root(0b101111, memory.start),
            true => region(self.random, Rights::Executable, memory.start, memory.size),
            false => {
                let length = 8 + self.random.below(96);
                region(self.random, Rights::Executable, address, length)
            }
        };
        value.metadata |= SR_BIT;
        move_address(value, address)
    }
}

fn operands(rd: u32, rs1: u32, rs2: u32, immediate: u32) -> Operands {
    Operands {
        rd,
        rs1,
        rs2,
        immediate,
    }
}

/// A few words on, now and then back.
fn near(random: &mut Random) -> u32 {
    let distance = 2 * (1 + random.below(10));
    match random.one_in(6) {
        true => distance.wrapping_neg(),
        false => distance,
    }
}

#[cfg(test)]
mod tests {
    use super::*;
    use crate::instructions::table;
    use second::decode::{decode, Instruction};

    #[test]
    fn the_handler_is_what_it_says() {
        use Instruction as I;
        let shown = HANDLER.map(decode);
        let Some(I::Branch { offset, .. }) = shown[1] else {
            panic!("no branch");
        };
        assert_eq!(offset, 20);
        assert!(matches!(shown[0], Some(I::Csr { .. })));
        assert!(matches!(shown[2], Some(I::CSpecialRw { .. })));
        assert!(matches!(shown[ON], Some(I::Derive { .. })));
        assert_eq!(TWO_ON, HANDLER[ON] - (2 << 20));
        assert!(matches!(shown[4], Some(I::CSpecialRw { .. })));
        assert_eq!([shown[5], shown[8]], [Some(I::Mret); 2]);
        assert!(matches!(shown[6], Some(I::Integer { .. })));
        assert!(matches!(shown[7], Some(I::Csr { .. })));
    }

    #[test]
    fn no_program_is_refused() {
        let mut state = State::default();
        for number in 1..=300 {
            make(&table(), &mut Random::new(1, number), &mut state);
            assert_eq!(state.run(second::run, 0), 0);
        }
    }
}
