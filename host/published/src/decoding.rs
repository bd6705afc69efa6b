//! Decoding: a large sample of long words, legal on the bench exactly if the binutils disassembler has
//! them for RV32E with M and Zicsr; halves.rs has the short ones. Where the papers make it differ, the difference is one of a list, and
//! each kind in the list must come up.

use crate::disassembler::{known, of_rv32e, Listing, Reading};
use crate::image::START;
use crate::tools;
use compare::machines::{second, Machine};
use compare::random::Random;
use compare::state::Call;
use lent::{Capability, State, EXECUTABLE_ROOT, MCAUSE, MTCC, MTVAL, PCC};
use std::collections::BTreeMap;
use std::fmt;

/// A word of an instruction, by its fields.
#[derive(Clone, Copy)]
struct Word(u32);

impl Word {
    fn opcode(self) -> u32 {
        self.0 & 0x7F
    }
    fn rd(self) -> u32 {
        self.0 >> 7 & 31
    }
    fn funct3(self) -> u32 {
        self.0 >> 12 & 7
    }
    fn rs1(self) -> u32 {
        self.0 >> 15 & 31
    }
    fn rs2(self) -> u32 {
        self.0 >> 20 & 31
    }
    fn funct7(self) -> u32 {
        self.0 >> 25
    }
    fn csr(self) -> u32 {
        self.0 >> 20
    }
    /// Whether the standard's length encoding gives the word 32 bits, and whether 16; the bench takes
    /// every other length for four bytes.
    fn has_32_bits(self) -> bool {
        self.0 & 3 == 3 && self.0 >> 2 & 7 != 7
    }
    fn is_short(self) -> bool {
        self.0 & 3 != 3
    }
}

/// Why the bench and the disassembler may differ.
#[derive(Clone, Copy, PartialEq, Eq, PartialOrd, Ord, Debug)]
enum Difference {
    /// Opcodes 0x5B and 0x7B: custom to binutils, the report's chapter 8 here.
    Capability,
    /// CLC and CSC have the encodings of RV64's LD and SD, which RV32 has not (report, 8.2.2).
    LoadStoreCapability,
    /// The disassembler takes every CSR number; here there are five (document 01, house; document 02, 6).
    CsrNumber,
    /// The standard has FENCE's other fields ignored; the disassembler wants them 0.
    Fence,
    /// Returns and fences of other modes than the machine mode (document 01, "In and out").
    OtherModes,
}

/// The report's encoding table (8.1 and 8.3) under opcode 0x5B.
fn capability_instruction(word: Word) -> bool {
    let two = word.rd() < 16 && word.rs1() < 16;
    match (word.funct3(), word.funct7()) {
        (1 | 2, _) => two,
        (0, 0x01) => two && word.rs2() >= 28,
        (0, 0x08 | 0x09 | 0x0B | 0x0C | 0x0D | 0x10 | 0x11 | 0x14 | 0x16 | 0x20 | 0x21) => {
            two && word.rs2() < 16
        }
        (0, 0x7F) => two && matches!(word.rs2(), 0..=4 | 8..=11 | 15 | 0x17 | 0x18),
        _ => false,
    }
}

/// The CSRs of the bench: mstatus, mcause, mtval, mshwm and mshwmb.
const CSRS: [u32; 5] = [0x300, 0x342, 0x343, 0xBC1, 0xBC2];

/// The kind of difference that a word may show, with what is then legal there and here.
fn difference(word: Word) -> Option<(Difference, bool, bool)> {
    let (rd, rs1, rs2) = (word.rd() < 16, word.rs1() < 16, word.rs2() < 16);
    let immediate = word.funct3() > 4;
    match (word.opcode(), word.funct3()) {
        (0x5B, _) => Some((Difference::Capability, false, capability_instruction(word))),
        (0x7B, _) => Some((Difference::Capability, false, rd)),
        (0x03, 3) => Some((Difference::LoadStoreCapability, false, rd && rs1)),
        (0x23, 3) => Some((Difference::LoadStoreCapability, false, rs1 && rs2)),
        (0x0F, 0) if word.0 & 0xF00F_8F80 != 0 && word.0 != FENCE_TSO => {
            Some((Difference::Fence, false, true))
        }
        (0x73, 0) => other_mode(word).map(|there| (Difference::OtherModes, there, false)),
        (0x73, 1..=3 | 5..=7) if !CSRS.contains(&word.csr()) => {
            Some((Difference::CsrNumber, rd && (immediate || rs1), false))
        }
        _ => None,
    }
}

const FENCE_TSO: u32 = 0x8330_000F;
/// URET, SRET, HRET, DRET, SFENCE.VM rs1 and SFENCE.VMA rs1, rs2: mask and value.
const OTHER_MODES: [(u32, u32); 6] = [
    (0xFFFF_FFFF, 0x0020_0073),
    (0xFFFF_FFFF, 0x1020_0073),
    (0xFFFF_FFFF, 0x2020_0073),
    (0xFFFF_FFFF, 0x7B20_0073),
    (0xFFF0_7FFF, 0x1040_0073),
    (0xFE00_7FFF, 0x1200_0073),
];

/// For a word of other modes, whether its registers, which the mask leaves out, are of RV32E.
fn other_mode(word: Word) -> Option<bool> {
    const ABOVE_15: u32 = 1 << 19 | 1 << 24;
    let mut known = OTHER_MODES.iter();
    let (mask, _) = known.find(|(mask, value)| word.0 & mask == *value)?;
    Some(word.0 & !mask & ABOVE_15 == 0)
}

/// Whether a machine takes a word for an instruction: one step with the word at PCC.
fn legal(machine: Machine, word: u32) -> Result<bool, String> {
    let mut state = State::new(START, vec![0; 64]);
    let code = Capability::tagged(START, EXECUTABLE_ROOT);
    state.set(PCC, code);
    state.set(MTCC, code);
    state.write(START, &word.to_le_bytes());
    let answer = machine(&mut state, Call::Step);
    let trapped = match answer {
        1 => false,
        0x100_0000 => true,
        _ => return Err(format!("{word:08x}: answer {answer:x}")),
    };
    let illegal = trapped && state.regs[MCAUSE] == 2;
    if illegal && state.regs[MTVAL] != word {
        return Err(format!("{word:08x}: mtval {:08x}", state.regs[MTVAL]));
    }
    Ok(!illegal)
}

/// What was counted: words by what the disassembler and the bench say, and by difference.
#[derive(Default)]
struct Totals {
    legal: usize,
    illegal: usize,
    differences: BTreeMap<Difference, usize>,
}

impl fmt::Display for Totals {
    fn fmt(&self, out: &mut fmt::Formatter) -> fmt::Result {
        let (legal, illegal) = (self.legal, self.illegal);
        write!(
            out,
            "{} words, {legal} legal and {illegal} not; differences: {:?}",
            legal + illegal,
            self.differences
        )
    }
}

impl Totals {
    /// Holds both machines against the disassembler's reading of a word.
    fn check(&mut self, machine: Machine, (word, text): &Reading) -> Result<(), String> {
        let there = known(text) && of_rv32e(text);
        let here = legal(machine, *word)?;
        if here != legal(second, *word)? {
            return Err(format!("{word:08x} ({text}): the machines differ"));
        }
        let found = difference(Word(*word));
        let agreed = match found {
            Some((_, legal_there, legal_here)) => (there, here) == (legal_there, legal_here),
            None => there == here,
        };
        if !agreed {
            return Err(format!(
                "{word:08x} ({text}): legal there {there}, here {here}"
            ));
        }
        self.legal += usize::from(here);
        self.illegal += usize::from(!here);
        if let (Some((kind, ..)), true) = (found, here != there) {
            *self.differences.entry(kind).or_default() += 1;
        }
        Ok(())
    }
}

/// Words of every opcode, funct3 and funct7 with register fields of several kinds.
fn grid(random: &mut Random) -> Vec<u32> {
    const KINDS: u32 = 6;
    let mut words = Vec::new();
    for choice in 0..128 * 8 * 128 * KINDS {
        let (kind, rest) = (choice % KINDS, choice / KINDS);
        let (opcode, funct3, funct7) = (rest % 128, rest / 128 % 8, rest / 1024);
        let mut field = || match kind {
            0..=2 => random.below(16),
            3 | 4 => random.below(32),
            _ => random.pick([0, 15, 16, 31]),
        };
        let registers = field() << 7 | field() << 15 | field() << 20;
        words.push(funct7 << 25 | funct3 << 12 | registers | opcode);
    }
    words
}

/// Every immediate of the I format where it tells instructions apart: SYSTEM, FENCE, shifts and the
/// capability instructions.
fn immediates(random: &mut Random) -> Vec<u32> {
    let mut words = Vec::new();
    for immediate in 0..0x1000 {
        for (opcode, functs) in [(0x73, 0..8), (0x0F, 0..2), (0x13, 0..8), (0x5B, 0..3)] {
            for funct3 in functs {
                let base = immediate << 20 | funct3 << 12 | opcode;
                words.push(base);
                words.push(base | random.below(16) << 7 | random.below(16) << 15);
                words.push(base | random.below(32) << 7 | random.below(32) << 15);
            }
        }
    }
    words
}

/// Words of OP, of M among them, with every number in each of the three register fields.
fn operations(random: &mut Random) -> Vec<u32> {
    let mut words = Vec::new();
    for choice in 0..3 * 8 * 32 {
        let (place, funct3, number) = (choice % 3, choice / 3 % 8, choice / 24);
        for funct7 in [0x00, 0x01, 0x20] {
            let mut fields = [0; 3].map(|_| random.below(16));
            fields[place] = number as u32;
            let [rd, rs1, rs2] = fields;
            let registers = rs2 << 20 | rs1 << 15 | rd << 7;
            words.push(funct7 << 25 | (funct3 as u32) << 12 | registers | 0x33);
        }
    }
    words
}

/// The random words of a run.
const RANDOM: usize = 200_000;
/// The words of lengths above 32 bits, and the bytes after each, so that the next is read by itself.
const OTHER_LENGTHS: usize = 20_000;
const PADDING: usize = 28;

/// The words of the sample, those of other lengths than 32 bits last.
pub fn samples() -> [Listing; 2] {
    let mut random = Random::new(1, 1);
    let mut words = [
        grid(&mut random),
        immediates(&mut random),
        operations(&mut random),
    ]
    .concat();
    words.extend((0..RANDOM).map(|_| random.word() | 3));
    words.retain(|&word| !Word(word).is_short());
    let (words, mut others): (Vec<u32>, Vec<u32>) = words
        .into_iter()
        .partition(|&word| Word(word).has_32_bits());
    others.extend((0..OTHER_LENGTHS).map(|_| random.word() | 0x1F));
    let skipped = others.len() / OTHER_LENGTHS;
    let others: Vec<u32> = others.into_iter().step_by(skipped).collect();
    [(words, 0), (others, PADDING)].map(|(words, padding)| Listing { words, padding })
}

/// Compares the whole sample.
pub fn run(machine: Machine) -> Result<String, String> {
    let place = tools::workplace("decoding")?;
    let mut totals = Totals::default();
    for sample in samples() {
        for reading in sample.read(&place)? {
            totals.check(machine, &reading)?;
        }
    }
    if totals.differences.len() != 5 || totals.legal < 100_000 || totals.illegal < 100_000 {
        return Err(format!("a kind is missing: {totals}"));
    }
    Ok(totals.to_string())
}

#[cfg(test)]
mod tests {
    use super::*;

    #[test]
    fn the_report_s_table() {
        let word = |funct7: u32, rs2: u32| Word(funct7 << 25 | rs2 << 20 | 0x5B);
        assert!(capability_instruction(word(0x08, 15)));
        assert!(!capability_instruction(word(0x08, 16)));
        assert!(capability_instruction(word(0x01, 28)));
        assert!(!capability_instruction(word(0x01, 27)));
        assert!(capability_instruction(word(0x7F, 0x18)));
        assert!(!capability_instruction(word(0x7F, 0x05)));
    }

    #[test]
    fn a_machine_that_takes_everything_is_found() {
        let lax: Machine = |_, _| 1;
        let mut totals = Totals::default();
        let reading = (0x1F, ".4byte 0x1f".to_string());
        assert!(totals.check(lax, &reading).is_err());
        assert!(totals.check(second, &reading).is_ok());
    }
}
