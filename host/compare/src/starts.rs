//! Starts for the search for gained authority: states in which every tagged capability has low at
//! most high at most 2^32. Memory is a pool of capabilities, a program that derives, and a handler
//! that keeps it going. Most starts hold only narrow capabilities, so that little that is gained
//! would lie inside something held, and beside them untagged ones that would be worth a tag.

use crate::capabilities::{
    anything, integer, region, register, rights, root, sealed, sealing, sound_anywhere, Layout,
    Rights,
};
use crate::cases;
use crate::derivations::{Mix, NUMBERS, POOL_READER, POOL_WRITER, SEALER, STACK};
use crate::held::{held, Authority, Place};
use crate::random::Random;
use crate::state::lend;
use crate::timer;
use lent::{instruction_bytes, State, MEPCC, MSCRATCHC, MSTATUS, MTCC, MTDC, PCC};
use second::capability::{move_address, narrow, GL, LG, LM, MC, SD, SR};
use second::Capability;

/// The handler: it steps over the instruction that trapped, or over its first half, or starts again
/// where the tag of its address is lost. c15 := MEPCC; c14 := c15's tag; if that is 0, on to AUIPCC;
/// c15 := c15 + 4 or + 2; MEPCC := c15; MRET; c15 := PCC; then a distance is added to c15; MEPCC := c15; MRET.
const HANDLER: [u32; 10] = [
    0x03F0_07DB,
    0xFE47_875B,
    0x0007_0863,
    0x0047_97DB,
    0x03F7_805B,
    0x3020_0073,
    0x0000_0797,
    ADD_TO_C15,
    0x03F7_805B,
    0x3020_0073,
];
/// CIncAddrImm c15, c15, 0.
const ADD_TO_C15: u32 = 0x0007_97DB;
/// The place of the addition that steps on, and of AUIPCC, which has an addition after it.
const STEP: u32 = 3;
const AGAIN: u32 = 6;

/// The bytes kept for the handler at the end of memory.
const HANDLER_BYTES: u32 = 64;
/// The most bytes of code: the handler adds at most 2048.
const MOST_CODE: u32 = 1024;

/// The most steps before the timer interrupts, where it does.
const SOON: u32 = 2000;

/// SR in a code of the executable kind.
const SR_BIT: u32 = 1 << 27;

/// The parts of memory: the pool first, then the code and the handler.
struct Parts {
    pool: Layout,
    code: Layout,
    /// The code and the handler.
    text: Layout,
    handler: u32,
}

impl Parts {
    /// The handler after the code, or before it: then the code ends where memory does.
    fn of(random: &mut Random, memory: Layout) -> Parts {
        let code_size = (memory.size / 128 * 64).min(MOST_CODE);
        let text_size = code_size + HANDLER_BYTES;
        let pool_size = memory.size - text_size;
        let text = memory.start.wrapping_add(pool_size);
        let (code, handler) = if random.one_in(4) {
            (text.wrapping_add(HANDLER_BYTES), text)
        } else {
            (text, text.wrapping_add(code_size))
        };
        let part = |start, size| Layout { start, size };
        Parts {
            pool: part(memory.start, pool_size),
            code: part(code, code_size),
            text: part(text, text_size),
            handler,
        }
    }
}

/// A start under construction.
struct Scene<'a> {
    random: &'a mut Random,
    state: &'a mut State,
    memory: Layout,
    parts: Parts,
    /// Whether it holds no capability of the whole address space for memory.
    narrow: bool,
    /// The rights that most capabilities may have.
    mask: u32,
    /// The type that things are sealed with most of the time.
    object_type: u32,
}

/// Makes a start, in place of the one before.
pub fn make(mix: &Mix, random: &mut Random, state: &mut State) {
    let memory = layout(random);
    state.edition = random.below(2);
    cases::fill(random, memory, state);
    cases::fill_registers(random, memory, state);
    let parts = Parts::of(random, memory);
    let mut scene = Scene {
        narrow: !random.one_in(4),
        mask: random.pick([!0, !0, !GL, !SD, !(LG | LM), !MC, !(GL | LG | SD)]),
        object_type: 9 + random.below(7),
        memory,
        parts,
        random,
        state,
    };
    scene.fill_memory(mix);
    scene.fill_registers();
    settle(state);
}

fn layout(random: &mut Random) -> Layout {
    let size = match random.below(32) {
        0 => 4096,
        1 => 2048,
        _ => 256 + 64 * random.below(8),
    };
    let start = cases::layout(random).start;
    Layout {
        start: start.min(0u32.wrapping_sub(size)),
        size,
    }
}

/// Takes the tag of everything that is not sound.
fn settle(state: &mut State) {
    let unsound = |(_, value): &(Place, Capability)| !Authority::of(*value).is_sound();
    let places: Vec<_> = held(state).filter(unsound).collect();
    for (place, value) in places {
        match place {
            Place::Register(place) => state.set(place, lend(Capability { tag: 0, ..value })),
            Place::Granule(address) => state.set_tag(address, false),
        }
    }
}

impl Scene<'_> {
    fn fill_memory(&mut self, mix: &Mix) {
        if !self.random.one_in(4) {
            self.state.revoked.fill(0);
        }
        let Parts { pool, code, .. } = self.parts;
        for at in (0..pool.size).step_by(8) {
            let value = self.value();
            self.state
                .write_capability(pool.start.wrapping_add(at), lend(value));
        }
        // A quarter of the code's granules keep their tags: code may be a capability too.
        for at in (0..code.size).step_by(8) {
            if !self.random.one_in(4) {
                self.state.set_tag(code.start.wrapping_add(at), false);
            }
        }
        let granules = (pool.size / 8).min(255);
        self.write_code(mix, granules);
        let back = code.size - 4;
        let link = self.random.below(2);
        self.write(
            code.start.wrapping_add(back),
            mix.jump(link, back.wrapping_neg()),
        );
        self.write_handler();
    }

    /// Words of both lengths. Mostly a long one starts at a multiple of four, so that most of what is
    /// stepped over or jumped to is a word as it was written.
    fn write_code(&mut self, mix: &Mix, granules: u32) {
        let Layout { start, size } = self.parts.code;
        let in_pairs = !self.random.one_in(8);
        let mut at = 0;
        while at < size {
            let word = if in_pairs && at % 4 == 2 {
                mix.short_word(self.random, granules)
            } else {
                mix.word(self.random, granules)
            };
            cases::write_instruction(self.state, start.wrapping_add(at), word);
            at += instruction_bytes(word);
        }
    }

    fn write(&mut self, address: u32, word: u32) {
        self.state.write(address, &word.to_le_bytes());
    }

    fn write_handler(&mut self) {
        let handler = self.parts.handler;
        for (index, word) in (0..).zip(HANDLER) {
            self.write(handler.wrapping_add(4 * index), word);
        }
        let bytes = self.random.pick([2, 4, 4, 4, 4, 4, 4, 4]);
        self.write(handler.wrapping_add(4 * STEP), ADD_TO_C15 | bytes << 20);
        let unit = self.random.pick([2, 4, 4, 4]);
        let target = self.parts.code.inside(self.random, unit);
        let distance = target.wrapping_sub(handler.wrapping_add(4 * AGAIN));
        let place = handler.wrapping_add(4 * (AGAIN + 1));
        self.write(place, ADD_TO_C15 | distance << 20);
    }

    fn fill_registers(&mut self) {
        for place in 1..16 {
            let value = self.value();
            self.state.set(place, lend(value));
        }
        for place in NUMBERS {
            let value = self.number();
            self.state.set(place as usize, lend(integer(value)));
        }
        let half = self.parts.pool.size / 16 * 8;
        for place in [POOL_WRITER, STACK] {
            let writer = self.pool_authority(half);
            self.state.set(place as usize, lend(writer));
        }
        let reader = self.pool_authority(self.parts.pool.size);
        let mask = self.random.pick([!0, !SD, !SD, !SD]);
        self.state
            .set(POOL_READER as usize, lend(narrow(reader, mask)));
        let sealer = sealing(self.random, self.object_type);
        self.state.set(SEALER as usize, lend(sealer));
        for place in [MTDC, MSCRATCHC] {
            let value = self.value();
            self.state.set(place, lend(value));
        }
        self.set_counters();
        self.state.regs[MSTATUS] = self.random.pick([0, 0x08, 0x80, 0x88]);
        // An interrupt is a trap more; from then on the handler alone would run.
        timer::far(self.random, self.state);
        if self.random.one_in(16) {
            timer::soon(self.random, SOON, self.state);
        }
    }

    /// PCC and MEPCC in the code, half of them without SR; MTCC at the handler.
    fn set_counters(&mut self) {
        for place in [PCC, MEPCC] {
            let unit = self.random.pick([2, 4, 4, 4]);
            let address = self.parts.code.inside(self.random, unit);
            let value = self.executable(self.parts.code, address);
            let mask = self.random.pick([!0, !SR]);
            self.state.set(place, lend(narrow(value, mask)));
        }
        let value = self.executable(self.parts.text, self.parts.handler);
        self.state.set(MTCC, lend(value));
    }

    /// An executable capability with SR over a part of memory, at an address.
    fn executable(&mut self, part: Layout, address: u32) -> Capability {
        let mut value = region(self.random, Rights::Executable, part.start, part.size);
        if !self.narrow && self.random.one_in(2) {
            value = root(0b101111, part.start);
        }
        value.metadata |= SR_BIT;
        move_address(value, address)
    }

    /// An authority over the first bytes of the pool, at its first.
    fn pool_authority(&mut self, size: u32) -> Capability {
        let start = self.parts.pool.start;
        region(self.random, Rights::ReadWrite, start, size)
    }

    /// A length, an address, a mask or anything.
    fn number(&mut self) -> u32 {
        match self.random.below(8) {
            0..=2 => self.random.below(33),
            3 => self.object_type,
            4 => self.memory.address(self.random),
            5 | 6 => !(1 << self.random.below(12)),
            _ => self.random.number(),
        }
    }

    /// A capability as the start has it somewhere.
    fn value(&mut self) -> Capability {
        match self.random.below(16) {
            0..=5 => self.piece(),
            6 | 7 => {
                let piece = self.piece();
                sealed(piece, self.object_type)
            }
            8 | 9 => self.sentry(),
            10 => {
                let object_type = self.random.pick([self.object_type, 1, 2, 3, 6, 7]);
                sealing(self.random, object_type)
            }
            11 | 12 => self.tempting(),
            13 => anything(self.random),
            14 => sound_anywhere(self.random),
            15 if !self.narrow => register(self.random, self.memory),
            _ => integer(self.number()),
        }
    }

    /// A capability for a few bytes in or near memory, without the rights that are left out.
    fn piece(&mut self) -> Capability {
        let rights = rights(self.random);
        let base = match self.random.below(4) {
            0 => self.memory.address(self.random),
            1 => self.memory.inside(self.random, 1),
            _ => self.memory.inside(self.random, 8),
        };
        let length = match self.random.below(4) {
            0 => self.random.below(600),
            1 => 8 * self.random.below(40),
            _ => self.random.pick([0, 1, 8, 16, 24, 64, 300]),
        };
        narrow(region(self.random, rights, base, length), self.mask)
    }

    /// A sentry into the code, or another sealed executable capability.
    fn sentry(&mut self) -> Capability {
        let code = self.parts.code;
        let early = 2 * self.random.below(code.size / 8);
        let value = self.executable(code, code.start.wrapping_add(early));
        let stored_type = self.random.pick([1, 2, 3, 1, 2, 3, 4, 5, 6, 7]);
        sealed(value, stored_type)
    }

    /// An untagged capability of more than a narrow start holds.
    fn tempting(&mut self) -> Capability {
        let address = self.memory.inside(self.random, 8);
        let code = self.random.pick([0b111111, 0b101111, 0b100111]);
        Capability {
            tag: 0,
            ..root(code, address)
        }
    }
}

#[cfg(test)]
mod tests {
    use super::*;
    use crate::instructions::table;
    use second::capability::is_sealed;
    use second::decode::{decode, Derivation, Instruction, Operand};

    #[test]
    fn every_start_is_sound_and_most_hold_much() {
        let table = table();
        let mix = Mix::new(&table);
        let mut state = State::default();
        let (mut most, mut sealed) = (0, 0);
        for number in 1..=500 {
            make(&mix, &mut Random::new(1, number), &mut state);
            assert!(held(&state).all(|(_, value)| Authority::of(value).is_sound()));
            let count = held(&state).count();
            most += u32::from(count > 20);
            sealed += held(&state)
                .filter(|(_, value)| is_sealed(value.metadata))
                .count();
            let mut after = state.clone();
            assert_eq!(after.run(second::run, 0), 0);
        }
        assert!(most > 400 && sealed > 2000, "{most} {sealed}");
    }

    #[test]
    fn the_handler_is_what_it_says() {
        let shown: Vec<_> = HANDLER.iter().map(|&word| decode(word)).collect();
        let specials = [0, 4, 8].map(|place| shown[place]);
        let special = |shown| matches!(shown, Some(Instruction::CSpecialRw { .. }));
        assert!(specials.into_iter().all(special));
        assert!(matches!(shown[1], Some(Instruction::Query { .. })));
        let Some(Instruction::Branch { offset, .. }) = shown[2] else {
            panic!("no branch");
        };
        assert_eq!(offset, 4 * (AGAIN - 2));
        let again = shown[AGAIN as usize];
        assert!(matches!(again, Some(Instruction::Auipcc { offset: 0, .. })));
        for (place, number) in [(STEP, 4), (AGAIN + 1, 0)] {
            let Some(Instruction::Derive {
                derivation,
                operand,
                ..
            }) = shown[place as usize]
            else {
                panic!("no addition");
            };
            assert_eq!(derivation, Derivation::CIncAddr);
            assert_eq!(operand, Operand::Immediate(number));
        }
        assert_eq!([shown[5], shown[9]], [Some(Instruction::Mret); 2]);
    }
}
