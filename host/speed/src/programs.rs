//! Endless programs, as instruction words: integer work, the same by short words, memory work,
//! capability work, memory work through capabilities cut to memory, multiplying and dividing, calls of a
//! routine at three distances, short stretches, and a loop that stores over its own code. And files of raw code.

use crate::kinds;
use lent::{Capability, State, EXECUTABLE_ROOT, MEMORY_ROOT, MTCC, PCC};
use std::fs;

/// The programs by name.
pub const NAMES: [&str; 11] = [
    "integer",
    "short",
    "memory",
    "capability",
    "bounded",
    "multiply",
    "calls",
    "far",
    "shared",
    "blocks",
    "self",
];

/// Where memory starts, its size, and its size for a file.
const START: u32 = 0x2000_0000;
const SIZE: usize = 4096;
const FILE_SIZE: usize = 8192;

/// A root's metadata with the bounds of memory, E 4, T 256 and B 0 (in a root E is 15).
fn cut_to_memory(root: u32) -> u32 {
    root & !(0xF << 18) | 4 << 18
}

fn i_type(imm: u32, rs1: u32, funct3: u32, rd: u32, opcode: u32) -> u32 {
    imm << 20 | rs1 << 15 | funct3 << 12 | rd << 7 | opcode
}

fn r_type(funct7: u32, rs2: u32, rs1: u32, funct3: u32, rd: u32, opcode: u32) -> u32 {
    funct7 << 25 | rs2 << 20 | rs1 << 15 | funct3 << 12 | rd << 7 | opcode
}

/// SW or CSC at offset 0.
fn s_type(rs2: u32, rs1: u32, funct3: u32) -> u32 {
    rs2 << 20 | rs1 << 15 | funct3 << 12 | 0x23
}

/// A branch 8 bytes on.
fn b_type(rs2: u32, rs1: u32, funct3: u32) -> u32 {
    rs2 << 20 | rs1 << 15 | funct3 << 12 | 8 << 7 | 0x63
}

/// CJAL.
fn jump(cd: u32, offset: u32) -> u32 {
    let bits = (offset >> 20 & 1) << 31 | (offset >> 1 & 0x3FF) << 21;
    bits | (offset >> 11 & 1) << 20 | (offset >> 12 & 0xFF) << 12 | cd << 7 | 0x6F
}

/// A jump so many bytes back, without a link.
fn back(bytes: u32) -> u32 {
    jump(0, bytes.wrapping_neg())
}

/// CJALR c0, 0(c1).
const RETURN: u32 = 0x0000_8067;

/// The work of "integer" by short words, where there are some: c.addi x9, 1; c.xor x10, x9;
/// c.add x11, x10; then sra x12, x11, x10, which has none, and so stands between two multiples of
/// four; c.j .-10.
const SHORT: [u16; 6] = [0x0485, 0x8D25, 0x95AA, 0xD633, 0x40A5, 0xBFDD];

/// The word that "self" stores over itself: add c3, c1, c2.
const ADD: u32 = 0x0020_81B3;

/// The bytes of a program.
fn code(name: &str) -> Option<Vec<u8>> {
    if name == "short" {
        return Some(SHORT.iter().flat_map(|half| half.to_le_bytes()).collect());
    }
    let words = words(name)
        .or_else(|| changing(name))
        .or_else(|| calls(name))?;
    Some(words.iter().flat_map(|word| word.to_le_bytes()).collect())
}

/// The words of a program's loop.
fn words(name: &str) -> Option<Vec<u32>> {
    let loop_words = match name {
        // addi c1, c1, 1; xor c2, c2, c1; add c3, c1, c2; sra c4, c3, c2
        "integer" => vec![
            i_type(1, 1, 0, 1, 0x13),
            r_type(0, 1, 2, 4, 2, 0x33),
            ADD,
            r_type(0x20, 2, 3, 5, 4, 0x33),
            back(16),
        ],
        // lw c1, 0(c5); addi c1, c1, 1; sw c1, 0(c5); lb c6, 4(c5)
        "memory" | "bounded" => vec![
            i_type(0, 5, 2, 1, 0x03),
            i_type(1, 1, 0, 1, 0x13),
            s_type(1, 5, 2),
            i_type(4, 5, 0, 6, 0x03),
            back(16),
        ],
        // cincaddrimm c2, c5, 4; csetboundsimm c3, c2, 64; csc c8, 0(c5); clc c7, 0(c5)
        "capability" => vec![
            i_type(4, 5, 1, 2, 0x5B),
            i_type(64, 2, 2, 3, 0x5B),
            s_type(8, 5, 3),
            i_type(0, 5, 3, 7, 0x03),
            back(16),
        ],
        // mul c1, c1, c6; mulhsu c2, c1, c6; div c3, c1, c2; remu c4, c1, c7
        "multiply" => vec![
            r_type(1, 6, 1, 0, 1, 0x33),
            r_type(1, 6, 1, 2, 2, 0x33),
            r_type(1, 2, 1, 4, 3, 0x33),
            r_type(1, 7, 1, 7, 4, 0x33),
            back(16),
        ],
        _ => return None,
    };
    Some(loop_words)
}

/// The words of a loop of short stretches, and of one that changes itself.
fn changing(name: &str) -> Option<Vec<u32>> {
    let loop_words = match name {
        // addi c1, c1, 1; bne c1, c0, over one; addi; xor c3, c3, c1; beq c0, c0, over one; addi; bltu c1, c0, never
        "blocks" => vec![
            i_type(1, 1, 0, 1, 0x13),
            b_type(0, 1, 1),
            i_type(1, 2, 0, 2, 0x13),
            r_type(0, 1, 3, 4, 3, 0x33),
            b_type(0, 0, 0),
            i_type(1, 2, 0, 2, 0x13),
            b_type(0, 1, 6),
            back(28),
        ],
        // addi c1, c1, 1; sw c6, 0(c8), which is the word after the next; xor c2, c2, c1; add c3, c1, c2
        "self" => vec![
            i_type(1, 1, 0, 1, 0x13),
            s_type(6, 8, 2),
            r_type(0, 1, 2, 4, 2, 0x33),
            ADD,
            back(16),
        ],
        _ => return None,
    };
    Some(loop_words)
}

/// Calls of a routine that lies near, far, or 4,096 bytes from the call, where it shares slots with it: addi c2, c2, 1; cjal c1; add c3, c3, c2; back. The
/// routine is xor c4, c4, c2; addi c4, c4, 3; a return.
fn calls(name: &str) -> Option<Vec<u32>> {
    let routine = match name {
        "calls" => 0x40,
        "far" => 0x840,
        "shared" => 0x1004,
        _ => return None,
    };
    let mut words = vec![0; routine as usize / 4 + 3];
    words[..4].copy_from_slice(&[
        i_type(1, 2, 0, 2, 0x13),
        jump(1, routine - 4),
        r_type(0, 2, 3, 0, 3, 0x33),
        back(12),
    ]);
    words[routine as usize / 4..].copy_from_slice(&[
        r_type(0, 2, 4, 4, 4, 0x33),
        i_type(3, 4, 0, 4, 0x13),
        RETURN,
    ]);
    Some(words)
}

/// The integers that programs start with. "multiply": an odd number, odd factor and divisor, so that c1 takes
/// many values and is never 0.
fn integers(name: &str) -> &'static [(usize, u32)] {
    match name {
        "multiply" => &[(1, 1), (6, 1_103_515_245), (7, 1_000_003)],
        "self" => &[(6, ADD)],
        _ => &[],
    }
}

/// A program ready to run from its first word.
pub fn ready(name: &str) -> Option<State> {
    let Some(code) = code(name) else {
        return kinds::ready(name).or_else(|| of_file(&fs::read(name).ok()?));
    };
    let size = if name == "shared" { FILE_SIZE } else { SIZE };
    let mut state = State::new(START, vec![0; size]);
    let written = if name == "self" { 12 } else { 0x200 };
    let roots = [
        (5, START + 0x100, MEMORY_ROOT),
        (8, START + written, MEMORY_ROOT),
        (PCC, START, EXECUTABLE_ROOT),
        (MTCC, START, EXECUTABLE_ROOT),
    ];
    for (place, address, root) in roots {
        let metadata = match name {
            "bounded" => cut_to_memory(root),
            _ => root,
        };
        state.set(place, Capability::tagged(address, metadata));
    }
    for &(place, value) in integers(name) {
        state.set(place, Capability::integer(value));
    }
    state.mem[..code.len()].copy_from_slice(&code);
    Some(state)
}

/// Raw code from memory's start on, as at reset.
fn of_file(bytes: &[u8]) -> Option<State> {
    let mut memory = vec![0; FILE_SIZE];
    memory.get_mut(..bytes.len())?.copy_from_slice(bytes);
    Some(State::reset(START, memory, START))
}

#[cfg(test)]
mod tests {
    use super::*;

    #[test]
    fn jumps_and_branches_are_what_they_say() {
        assert_eq!(back(16), 0xFF1F_F06F);
        assert_eq!(jump(1, 8), 0x0080_00EF);
        // bne x1, x0, .+8
        assert_eq!(b_type(0, 1, 1), 0x0000_9463);
        assert_eq!(ADD, r_type(0, 2, 1, 0, 3, 0x33));
    }

    #[test]
    fn every_program_goes_on() {
        for name in NAMES {
            let mut state = ready(name).unwrap();
            assert_eq!(state.run(second::run, 1000), 1000, "{name}");
        }
    }
}
