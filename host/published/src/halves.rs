//! Short words: how the binutils disassembler reads all 65,536 halves, against what the machines do with
//! them. Its name and operands are written as the standard's long form, that is assembled, and a step by
//! the half must be a step by the long word with PCC and the link two bytes before.
//!
//! C.LD, C.SD, C.LDSP and C.SDSP are read as RV64 and act on capabilities, C.ADDI16SP and C.ADDI4SPN
//! are CIncAddr (the CHERIoT report, 7.14); the rest is read as RV32. Where the bench has no form for a
//! half that binutils has one for, the reason is one of a list, and each has its number of halves.

use crate::disassembler::{known, read_halves};
use crate::image::START;
use crate::tools;
use compare::machines::{second, Machine};
use compare::state::Call;
use lent::{instruction_bytes, Capability, State, EXECUTABLE_ROOT, MEMORY_ROOT};
use lent::{MCAUSE, MSTATUS, MTCC, MTVAL, PCC};
use std::collections::BTreeMap;
use std::path::Path;

/// The place of the word, and of the data: offsets of short words reach 512 bytes, jumps 2,048.
const PLACE: u32 = START + 0x842;
const DATA: u32 = START + 0x1000;
const SIZE: usize = 0x2000;

/// How a half fares, with the reason where binutils and the bench differ.
#[derive(Clone, Copy, PartialEq, Eq, PartialOrd, Ord, Debug)]
enum Fate {
    /// Legal here, and its step is the long form's.
    Same,
    /// A hint that would copy a register to itself: the standard has it change nothing, and a step is
    /// that of a no-op.
    Hint,
    /// No form for both.
    NoForm,
    /// The first half of a long word.
    Long,
    /// A register above 15, illegal here as in the long form.
    HighRegister,
    /// C.FLD, C.FSD, C.FLDSP and C.FSDSP: there is no floating point.
    FloatingPoint,
    /// A shift amount with bit 5, which binutils prints for RV32 too; custom there by the standard.
    LongShift,
    /// The place of C.LDSP to register 0, reserved; C.FLWSP for RV32.
    LoadToZero,
    /// C.ADDI16SP 0, reserved; binutils prints it.
    StackByZero,
}

/// How many halves fare so.
const EXPECTED: [(Fate, usize); 9] = [
    (Fate::Same, 27_705),
    (Fate::Hint, 46),
    (Fate::NoForm, 2_408),
    (Fate::Long, 16_384),
    (Fate::HighRegister, 9_200),
    (Fate::FloatingPoint, 8_192),
    (Fate::LongShift, 1_536),
    (Fate::LoadToZero, 64),
    (Fate::StackByZero, 1),
];

/// A reading in parts: the name without its mark, and the operands.
struct Reading<'a> {
    name: &'a str,
    operands: Vec<&'a str>,
}

impl Reading<'_> {
    fn of(text: &str) -> Option<Reading<'_>> {
        let text = text.split('#').next().unwrap_or("").trim_end();
        let (name, operands) = text.split_once(' ').unwrap_or((text, ""));
        Some(Reading {
            name: name.strip_prefix("c.")?,
            operands: operands
                .split(',')
                .filter(|part| !part.is_empty())
                .collect(),
        })
    }

    /// The last operand as a number.
    fn number(&self) -> Option<i64> {
        let last = self.operands.last()?;
        let (digits, sign) = last.strip_prefix('-').map_or((*last, 1), |rest| (rest, -1));
        let value = match digits.strip_prefix("0x") {
            Some(digits) => i64::from_str_radix(digits, 16).ok()?,
            None => digits.parse().ok()?,
        };
        Some(sign * value)
    }

    /// Whether an operand names a register above 15.
    fn high(&self) -> bool {
        let text = self.operands.join(",");
        let parts = text.split(|c: char| !c.is_ascii_alphanumeric());
        let mut registers = parts.filter_map(|part| part.strip_prefix('x')?.parse::<u32>().ok());
        registers.any(|number| number > 15)
    }

    /// The long form in the assembler's words; `address` is where binutils read the half.
    fn long_form(&self, address: usize) -> Option<String> {
        let first = self.operands.first().copied().unwrap_or("");
        let rest = self.operands.get(1..).unwrap_or(&[]).join(",");
        let distance = || self.number().map(|target| target - address as i64);
        Some(match self.name {
            "lw" | "lwsp" => format!("lw {first},{rest}"),
            "sw" | "swsp" => format!("sw {first},{rest}"),
            "ld" | "ldsp" => format!(".insn i 0x03, 3, {first}, {rest}"),
            "sd" | "sdsp" => format!(".insn s 0x23, 3, {first}, {rest}"),
            "addi4spn" => format!(".insn i 0x5b, 1, {first}, x2, {}", self.number()?),
            "addi16sp" => format!(".insn i 0x5b, 1, x2, x2, {}", self.number()?),
            "li" => format!("addi {first},x0,{rest}"),
            "lui" => format!("lui {first},{rest}"),
            "addi" | "andi" | "slli" | "srli" | "srai" | "add" | "sub" | "xor" | "or" | "and" => {
                format!("{} {first},{first},{rest}", self.name)
            }
            "slli64" | "srli64" | "srai64" => {
                format!("{} {first},{first},0", &self.name[..4])
            }
            "mv" => format!("add {first},x0,{rest}"),
            "j" => format!("jal x0,.+({})", distance()?),
            "jal" => format!("jal x1,.+({})", distance()?),
            "beqz" => format!("beq {first},x0,.+({})", distance()?),
            "bnez" => format!("bne {first},x0,.+({})", distance()?),
            "jr" => format!("jalr x0,0({first})"),
            "jalr" => format!("jalr x1,0({first})"),
            "ebreak" => "ebreak".to_string(),
            _ => return None,
        })
    }

    /// Whether the standard has it as a hint that would copy a register to itself.
    fn copies(&self) -> bool {
        match self.name {
            "slli64" | "srli64" | "srai64" => true,
            "addi" => self.number() == Some(0),
            _ => false,
        }
    }
}

/// What is expected of a half: its fate, and the long form if it has one.
fn expected(half: u16, rv32: &str, rv64: &str, address: usize) -> Result<(Fate, String), String> {
    let none = |fate| Ok((fate, String::new()));
    if half & 3 == 3 {
        return none(Fate::Long);
    }
    let capability = ["c.ld", "c.sd"].iter().any(|name| rv64.starts_with(name));
    let text = if capability { rv64 } else { rv32 };
    if !known(text) || text == "c.unimp" {
        return none(Fate::NoForm);
    }
    let told = || format!("{half:04x}: {rv32}; {rv64}");
    let reading = Reading::of(text).ok_or_else(told)?;
    match reading.name {
        "fld" | "fsd" | "fldsp" | "fsdsp" => return none(Fate::FloatingPoint),
        "flwsp" if half & 0x0F80 == 0 => return none(Fate::LoadToZero),
        "addi16sp" if reading.number() == Some(0) => return none(Fate::StackByZero),
        "slli" | "srli" | "srai" if reading.number() > Some(31) => return none(Fate::LongShift),
        _ => {}
    }
    let long = reading.long_form(address).ok_or_else(told)?;
    Ok(match (reading.high(), reading.copies()) {
        (true, _) => (Fate::HighRegister, long),
        // c.addi x0, 0 is C.NOP itself.
        (_, true) if reading.operands.first() != Some(&"x0") => {
            (Fate::Hint, "addi x0,x0,0".to_string())
        }
        _ => (Fate::Same, long),
    })
}

/// Assembles lines to one long word each.
fn assembled(place: &Path, lines: &[&str]) -> Result<Vec<u32>, String> {
    let (source, object) = (place.join("long.S"), place.join("long.o"));
    let text = format!(".option norelax\n.text\n{}\n", lines.join("\n"));
    tools::write(&source, text.as_bytes())?;
    let mut gas = tools::tool("as");
    gas.args(["-march=rv32i", "-mabi=ilp32"]);
    tools::run(gas.arg(&source).arg("-o").arg(&object))?;
    let words = crate::image::words(&tools::section(&object, ".text")?);
    if words.len() == lines.len() {
        Ok(words)
    } else {
        Err(format!("{} lines, {} words", lines.len(), words.len()))
    }
}

/// A state by the kind of its registers: authorities over the data, places to jump to, and numbers.
fn state(kind: u32) -> State {
    let mut state = State::new(START, vec![0; SIZE]);
    for granule in (DATA..START + SIZE as u32).step_by(8) {
        let value = Capability::tagged(granule ^ 0x55, MEMORY_ROOT & !(granule & 0x38) << 19);
        state.write_capability(granule, value);
    }
    for place in 1..16u32 {
        let number = [0, 1, 0x8000_0000, u32::MAX, 0x1234_5678][place as usize % 5];
        let value = match kind {
            0 => Capability::tagged(DATA + 0x100 + 8 * place, MEMORY_ROOT),
            1 => Capability::tagged(DATA + 6 * place, EXECUTABLE_ROOT | (place % 4) << 22),
            _ => Capability::integer(number),
        };
        state.set(place as usize, value);
    }
    state.set(PCC, Capability::tagged(PLACE, EXECUTABLE_ROOT));
    state.set(MTCC, Capability::tagged(START, EXECUTABLE_ROOT));
    state.regs[MSTATUS] = [0, 8, 0x80][kind as usize % 3];
    state
}

const KINDS: u32 = 3;

/// A step by a word at PCC, with another in the place of what it wrote over.
fn step(machine: Machine, kind: u32, word: u32) -> Result<State, String> {
    let mut state = state(kind);
    let bytes = word.to_le_bytes();
    state.write(PLACE, &bytes[..instruction_bytes(word) as usize]);
    let answer = machine(&mut state, Call::Step);
    if ![1, 1 << 24].contains(&answer) {
        return Err(format!("answer {answer:x}"));
    }
    state.write(PLACE, &[0; 4]);
    Ok(state)
}

/// Whether a state has trapped as an illegal instruction, with this word in mtval.
fn illegal(after: &State, word: u32) -> bool {
    (after.regs[MCAUSE], after.regs[MTVAL]) == (2, word)
}

/// What the step of the half must leave, from what the step of the long word left: where that is the
/// next address, which is also in the link, it is two bytes before.
fn shortened(mut after: State, long: u32) -> State {
    let (next, opcode) = (PLACE + 4, long & 0x7F);
    let before = |capability: Capability| Capability {
        address: capability.address - 2,
        ..capability
    };
    let branches = opcode == 0x63;
    let offset_is_four = branches && long & 0xFE00_0F80 == 0x0000_0200;
    let jumps = matches!(opcode, 0x6F | 0x67) || offset_is_four && taken(long, &after);
    let pcc = after.capability(PCC);
    if pcc.address == next && !jumps {
        after.set(PCC, before(pcc));
    }
    let link = after.capability(1);
    if matches!(opcode, 0x6F | 0x67) && long >> 7 & 31 == 1 && link.address == next {
        after.set(1, before(link));
    }
    after
}

/// Whether BEQ or BNE of a register and zero is taken; a step does not change the register.
fn taken(long: u32, after: &State) -> bool {
    let zero = after.capability((long >> 15 & 15) as usize).address == 0;
    zero == (long >> 12 & 7 == 0)
}

/// Holds a machine's steps against what is expected of a half.
fn check(machine: Machine, half: u16, fate: Fate, long: u32) -> Result<(), String> {
    for kind in 0..KINDS {
        let after = step(machine, kind, half.into())?;
        let legal = !illegal(&after, half.into());
        let agreed = match fate {
            Fate::Same | Fate::Hint => {
                let long_after = step(machine, kind, long)?;
                legal && after == shortened(long_after, long)
            }
            Fate::HighRegister => !legal && illegal(&step(machine, kind, long)?, long),
            _ => !legal,
        };
        if !agreed {
            return Err(format!("kind {kind}, {fate:?}, {long:08x}: differs"));
        }
    }
    Ok(())
}

/// Compares every half.
pub fn run(machine: Machine) -> Result<String, String> {
    let place = tools::workplace("halves")?;
    let (rv32, rv64) = (read_halves(&place, "rv32")?, read_halves(&place, "rv64")?);
    let mut all = Vec::new();
    for half in 0..=u16::MAX {
        let at = usize::from(half);
        let address = crate::disassembler::HALF_STRIDE * at;
        all.push(expected(half, &rv32[at], &rv64[at], address)?);
    }
    let lines: Vec<&str> = all.iter().map(|(_, line)| line.as_str()).collect();
    let lines: Vec<&str> = lines.into_iter().filter(|line| !line.is_empty()).collect();
    let mut words = assembled(&place, &lines)?.into_iter();
    let mut counts = BTreeMap::new();
    for (half, (fate, line)) in (0..=u16::MAX).zip(&all) {
        *counts.entry(*fate).or_insert(0) += 1;
        let long = if line.is_empty() { None } else { words.next() };
        if *fate == Fate::Long {
            continue;
        }
        for (name, machine) in [("ours", machine), ("second", second as Machine)] {
            check(machine, half, *fate, long.unwrap_or(0)).map_err(|text| {
                format!("{half:04x} ({}), {name}: {text}", rv32[usize::from(half)])
            })?;
        }
    }
    if counts != BTreeMap::from(EXPECTED) {
        return Err(format!("not the expected numbers: {counts:?}"));
    }
    Ok(format!("{} halves: {counts:?}", all.len()))
}

#[cfg(test)]
mod tests {
    use super::*;

    #[test]
    fn long_forms_by_hand() {
        let long = |text| Reading::of(text).and_then(|reading| reading.long_form(0x40));
        let pairs = [
            ("c.lwsp x5,8(x2)", "lw x5,8(x2)"),
            ("c.sd x8,16(x9)", ".insn s 0x23, 3, x8, 16(x9)"),
            ("c.addi4spn x8,x2,12", ".insn i 0x5b, 1, x8, x2, 12"),
            ("c.mv x1,x2", "add x1,x0,x2"),
            ("c.jal 0x30", "jal x1,.+(-16)"),
            ("c.bnez x8,0x44", "bne x8,x0,.+(4)"),
            ("c.jr x1", "jalr x0,0(x1)"),
            ("c.srli x8,0x3", "srli x8,x8,0x3"),
        ];
        for (short, form) in pairs {
            assert_eq!(long(short).as_deref(), Some(form), "{short}");
        }
        assert_eq!(long("c.flw f8,0(x9)"), None);
        assert!(Reading::of("c.mv x1,x16").is_some_and(|reading| reading.high()));
        assert!(!Reading::of("c.lw x8,16(x15)").is_some_and(|reading| reading.high()));
    }

    #[test]
    fn a_step_that_is_not_the_long_forms_is_found() {
        // c.mv x10, x11 is no CMove; c.addi x10, 1 is ADDI.
        assert!(check(second, 0x852E, Fate::Same, 0xFEA5_855B).is_err());
        assert!(check(second, 0x0505, Fate::Same, 0x0015_0513).is_ok());
        // c.jal .+4 links two on; a machine that links four on is found.
        let wrong: Machine = |state, call| {
            let answer = second(state, call);
            state.regs[3] += 2 * u32::from(state.regs[3] == PLACE + 2);
            answer
        };
        assert!(check(second, 0x2011, Fate::Same, 0x0040_00EF).is_ok());
        assert!(check(wrong, 0x2011, Fate::Same, 0x0040_00EF).is_err());
    }
}
