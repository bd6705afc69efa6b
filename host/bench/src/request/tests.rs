//! What the machine is asked of a word, against the second program's decoder.

use super::*;
use crate::probe::fetch;
use crate::probe::jump::Jump;
use crate::proved::word_length;
use crate::sequence::Sequence;
use second::decode::{instruction, Instruction, LoadWidth, Register, StoreWidth};

// The opcodes of the long words that ask for an address.
const LOAD: u32 = 0x03;
const STORE: u32 = 0x23;
const BRANCH: u32 = 0x63;
const CJALR: u32 = 0x67;
const CJAL: u32 = 0x6F;

fn place(register: Register) -> usize {
    register.number() as usize
}

/// A load into a register, of a capability if it is of 8 bytes.
fn load(by: Register, size: u32, to: Register) -> Request {
    let to = Some(place(to)).filter(|to| *to != 0);
    Request::Load {
        by: place(by),
        size,
        to,
        tags: to.is_some() && size == 8,
    }
}

/// What an instruction of the second program asks for.
fn asked(instruction: Instruction) -> Request {
    use Instruction as I;
    match instruction {
        I::Load { width, cs1, rd, .. } => {
            let size = match width {
                LoadWidth::Byte | LoadWidth::ByteUnsigned => 1,
                LoadWidth::Half | LoadWidth::HalfUnsigned => 2,
                LoadWidth::Word => 4,
            };
            load(cs1, size, rd)
        }
        I::Store { width, cs1, .. } => Request::Store {
            by: place(cs1),
            size: match width {
                StoreWidth::Byte => 1,
                StoreWidth::Half => 2,
                StoreWidth::Word => 4,
            },
        },
        I::Clc { cs1, cd, .. } => load(cs1, 8, cd),
        I::Csc { cs1, .. } => Request::Store {
            by: place(cs1),
            size: 8,
        },
        I::Cjalr { cs1, .. } => Request::RegisterJump { by: place(cs1) },
        _ => Request::Other,
    }
}

/// The registers of a jump of the second program.
fn jump(instruction: Instruction) -> Option<Jump> {
    match instruction {
        Instruction::Cjalr { cd, cs1, .. } => Some(Jump {
            links: place(cd),
            by: place(cs1),
        }),
        _ => None,
    }
}

/// Whether a word asks for what the second program does, and is one where that has none.
fn held(word: u32) {
    let known = instruction(word);
    assert_eq!(
        Request::of(word),
        known.map_or(Request::Other, asked),
        "{word:08x}"
    );
    if let Some(registers) = known.and_then(jump) {
        assert_eq!(Jump::of(word), Some(registers), "{word:08x}");
    }
}

#[test]
fn every_short_word_asks_for_what_the_second_program_does() {
    let mut legal = 0;
    for half in (0..1 << 16).filter(|half| half & 3 != 3) {
        held(half);
        legal += u32::from(instruction(half).is_some());
    }
    assert_eq!(legal, 27_751);
}

#[test]
fn long_words_ask_for_what_the_second_program_does() {
    let mut sequence = Sequence(5);
    let opcodes = [LOAD, STORE, BRANCH, CJALR, CJAL, 0x13, 0x5B, 0x73];
    for place in 0..40_000 {
        held(sequence.word() & !0x7F | opcodes[place % opcodes.len()]);
    }
}

#[test]
fn words_by_every_pair_of_registers_ask_for_what_the_second_program_does() {
    for registers in 0..1 << 8 {
        let (first, by) = (registers & 15, registers >> 4);
        for (opcode, kinds) in [(LOAD, 6), (STORE, 4), (CJALR, 1)] {
            for kind in 0..kinds {
                let (to, from) = if opcode == STORE { (20, 7) } else { (7, 20) };
                // An offset of 1, 2 or 3 words, so that no operand is 0 but the registers.
                let offset = (1 + registers % 3) << 2;
                held(offset << from | by << 15 | kind << 12 | first << to | opcode);
            }
        }
    }
}

#[test]
fn a_word_has_as_many_bytes_as_its_low_bits_say() {
    let mut sequence = Sequence(9);
    for half in 0..1 << 16 {
        let word = sequence.word() << 16 | half;
        let bytes = if half & 3 == 3 { 4 } else { 2 };
        assert_eq!(word_length(word), bytes, "{word:08x}");
    }
    assert_eq!(fetch::bytes(), [2, 4]);
}
