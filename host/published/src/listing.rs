//! Listing: the names and operands that the binutils disassembler gives the standard's instructions, long and
//! short, against the lines of the lister. Its operands are put in document 02's order and notation, and the
//! names that the CHERIoT report changes are changed; nothing else is taken from the lister.
//!
//! Each word falls into one class, and each class has its number of words.

use crate::decoding::samples;
use crate::disassembler::{known, of_rv32e, read_halves, HALF_STRIDE};
use crate::tools;
use compare::listing::{Lister, SECOND};
use std::collections::BTreeMap;

/// How a word's line and its reading belong together.
#[derive(Clone, Copy, PartialEq, Eq, PartialOrd, Ord, Debug)]
enum Class {
    /// The same name and the same operands.
    Same,
    /// The report's name for a load, a store, a jump or AUIPC (chapter 8), and the same operands.
    Renamed,
    /// A short form that moves or uses the stack pointer, which binutils writes and the line does not.
    StackPointer,
    /// C.ADDI of register 0: by the standard C.NOP, and a hint if its immediate is not 0.
    NoOp,
    /// A short shift by 0, for which binutils has the names of RV128.
    ShiftByZero,
    /// FENCE.TSO by its own name, without operands.
    FenceTso,
    /// A FENCE with other fields that the standard ignores; binutils has no reading.
    Fence,
    /// The report's instructions: binutils has no reading of opcodes 0x5B and 0x7B.
    Capability,
    /// CLC and CSC, with the encodings of RV64's LD and SD.
    LoadStoreCapability,
    /// A CSR that the bench has not: digits.
    CsrNumber,
    /// A return or fence of another mode: digits.
    OtherModes,
    /// A short word that binutils reads and the bench has no form for: digits (halves.rs has the reasons).
    ShortIllegal,
    /// Digits, and no reading of RV32E.
    Digits,
}

use Class::{
    Capability, CsrNumber, Digits, Fence, FenceTso, LoadStoreCapability, NoOp, OtherModes, Renamed,
    Same, ShiftByZero, ShortIllegal, StackPointer,
};

/// The report's names for the standard's instructions (chapter 8).
const RENAMED: [(&str, &str); 11] = [
    ("lb", "clb"),
    ("lh", "clh"),
    ("lw", "clw"),
    ("lbu", "clbu"),
    ("lhu", "clhu"),
    ("sb", "csb"),
    ("sh", "csh"),
    ("sw", "csw"),
    ("jal", "cjal"),
    ("jalr", "cjalr"),
    ("auipc", "auipcc"),
];

/// The CSRs of the bench (document 01, house; document 02, 6), by binutils' names: it knows none for the stack mark
/// and its base.
const CSRS: [(&str, i64); 5] = [
    ("mstatus", 0x300),
    ("mcause", 0x342),
    ("mtval", 0x343),
    ("0xbc1", 0xBC1),
    ("0xbc2", 0xBC2),
];

/// Instructions of other modes than the machine mode.
const OTHER_MODES: [&str; 6] = ["uret", "sret", "hret", "dret", "sfence.vm", "sfence.vma"];

/// An operand as binutils writes it.
#[derive(Clone, Copy, PartialEq, Eq, Debug)]
enum Operand<'a> {
    Register(i64),
    Number(i64),
    /// An offset and its register.
    Place(i64, i64),
    Word(&'a str),
}

fn number(text: &str) -> Option<i64> {
    let (digits, sign) = text.strip_prefix('-').map_or((text, 1), |rest| (rest, -1));
    match digits.strip_prefix("0x") {
        Some(digits) => Some(sign * i64::from_str_radix(digits, 16).ok()?),
        None => Some(sign * digits.parse::<i64>().ok()?),
    }
}

fn operand(text: &str) -> Operand<'_> {
    let register = |text: &str| {
        text.strip_prefix('x')
            .and_then(|digits| digits.parse().ok())
    };
    if let Some(register) = register(text) {
        return Operand::Register(register);
    }
    if let Some(value) = number(text) {
        return Operand::Number(value);
    }
    let place = text.strip_suffix(')').and_then(|text| text.split_once('('));
    match place.and_then(|(offset, base)| Some((number(offset)?, register(base)?))) {
        Some((offset, base)) => Operand::Place(offset, base),
        None => Operand::Word(text),
    }
}

/// A set of FENCE: letters for input, output, reads and writes.
fn set(letters: &str) -> i64 {
    let one = |(letter, value): (char, i64)| if letters.contains(letter) { value } else { 0 };
    match letters {
        "unknown" => 0,
        _ => [('i', 8), ('o', 4), ('r', 2), ('w', 1)]
            .map(one)
            .iter()
            .sum(),
    }
}

/// The low bits of a number with their sign.
fn signed(value: i64, width: u32) -> i64 {
    value << (64 - width) >> (64 - width)
}

/// The class and the line that a reading stands for; `address` is where binutils read the word. Nothing for a
/// reading that no rule is for.
fn line(text: &str, address: usize) -> Option<(Class, String)> {
    let text = text.split('#').next()?.trim_end();
    let (name, rest) = text.split_once(' ').unwrap_or((text, ""));
    let parts: Vec<&str> = rest.split(',').filter(|part| !part.is_empty()).collect();
    // The name of a target's place stands behind it.
    let parts = parts
        .iter()
        .map(|part| part.split(' ').next().unwrap_or(part));
    let operands: Vec<Operand> = parts.map(operand).collect();
    let (class, name, numbers) = ordered(name, &operands, address)?;
    let renamed = RENAMED.iter().find(|(there, _)| *there == name);
    let (class, name) = renamed.map_or((class, name), |(_, here)| (Renamed, *here));
    let fields: String = numbers.iter().map(|number| format!("\t{number}")).collect();
    Some((class, format!("{name}{fields}\n")))
}

/// The class, the standard's name, and the operands in document 02's order.
fn ordered<'a>(name: &'a str, operands: &[Operand], address: usize) -> Option<Ordered<'a>> {
    if let Some(other) = otherwise(name, operands) {
        return Some(other);
    }
    use Operand::{Number, Place, Register, Word};
    let distance = |target: i64| signed(target - address as i64, 32);
    let csr = |name: &str| CSRS.iter().find(|(known, _)| *known == name);
    let numbers = match (name, operands) {
        ("fence", &[Word(before), Word(after)]) => vec![set(before), set(after)],
        ("lui" | "auipc" | "c.lui", &[Register(rd), Number(upper)]) => vec![rd, signed(upper, 20)],
        ("c.j" | "c.jal", &[Number(target)]) => vec![distance(target)],
        ("c.beqz" | "c.bnez" | "jal", &[Register(first), Number(target)]) => {
            vec![first, distance(target)]
        }
        (
            "beq" | "bne" | "blt" | "bge" | "bltu" | "bgeu",
            &[Register(rs1), Register(rs2), Number(target)],
        ) => vec![rs1, rs2, distance(target)],
        ("sb" | "sh" | "sw" | "c.sw" | "c.sd", &[Register(rs2), Place(offset, rs1)]) => {
            vec![rs1, rs2, offset]
        }
        (_, &[Register(rd), Place(offset, rs1)]) => vec![rd, rs1, offset],
        (_, &[Register(rd), Word(name), Register(rs1)]) => vec![rd, rs1, csr(name)?.1],
        (_, &[Register(rd), Word(name), Number(value)]) => vec![rd, csr(name)?.1, value],
        // A CSR without a name is the mark's, its base's, or none of the bench.
        (_, &[Register(rd), Number(csr @ 0xBC1..=0xBC2), Register(rs1)]) => vec![rd, rs1, csr],
        (_, &[Register(rd), Number(csr @ 0xBC1..=0xBC2), Number(value)]) => vec![rd, csr, value],
        (_, [Register(_), Number(_), _]) => return None,
        _ => operands.iter().map(plain).collect::<Option<_>>()?,
    };
    Some((Same, name, numbers))
}

type Ordered<'a> = (Class, &'a str, Vec<i64>);

/// What the standard or document 02 writes in another way than binutils.
fn otherwise<'a>(name: &'a str, operands: &[Operand]) -> Option<Ordered<'a>> {
    use Operand::{Number, Place, Register};
    Some(match (name, operands) {
        ("fence.tso", []) => (FenceTso, name, vec![]),
        ("c.addi", &[Register(0), Number(0)]) => (NoOp, "c.nop", vec![]),
        ("c.addi", &[Register(0), Number(value)]) => (NoOp, "c.nop", vec![value]),
        ("c.slli64" | "c.srli64" | "c.srai64", &[Register(rd)]) => {
            (ShiftByZero, &name[..6], vec![rd, 0])
        }
        ("c.addi4spn", &[Register(rd), Register(2), Number(value)]) => {
            (StackPointer, name, vec![rd, value])
        }
        ("c.addi16sp", &[Register(2), Number(value)]) => (StackPointer, name, vec![value]),
        ("c.lwsp" | "c.ldsp" | "c.swsp" | "c.sdsp", &[Register(other), Place(offset, 2)]) => {
            (StackPointer, name, vec![other, offset])
        }
        _ => return None,
    })
}

fn plain(operand: &Operand) -> Option<i64> {
    match operand {
        Operand::Register(number) | Operand::Number(number) => Some(*number),
        _ => None,
    }
}

/// The line of a word by itself, by the lister and by the second program.
fn listed(lister: Lister, code: &[u8]) -> Result<String, String> {
    let mut lines = Vec::new();
    for lister in [lister, SECOND] {
        let mut out = [0; 64];
        let answer = (lister.list)(code, &mut out);
        let text = out
            .get(..answer as usize)
            .ok_or(format!("{code:02x?}: answer {answer:x}"))?;
        lines.push(String::from_utf8_lossy(text).into_owned());
    }
    match &lines[..] {
        [ours, second] if ours == second => Ok(ours.clone()),
        _ => Err(format!("{code:02x?}: {lines:?}")),
    }
}

/// Whether a line is the digits of its word.
fn is_digits(line: &str, word: u32, digits: usize) -> bool {
    line == format!("{word:0digits$x}\n")
}

/// The class of a long word, or what is wrong with its line.
fn long_class(word: u32, text: &str, line: &str, address: usize) -> Result<Class, String> {
    let digits = is_digits(line, word, 8);
    let told = || format!("{word:08x} ({text}): {line:?}");
    let (opcode, funct3) = (word & 0x7F, word >> 12 & 7);
    if known(text) && of_rv32e(text) {
        let name = text.split(' ').next().unwrap_or("");
        let absent = !CSRS
            .iter()
            .any(|(_, number)| *number == (word >> 20).into());
        return match self::line(text, address) {
            Some((class, right)) if right == line => Ok(class),
            _ if digits && (opcode, absent) == (0x73, true) && funct3 != 0 => Ok(CsrNumber),
            _ if digits && OTHER_MODES.contains(&name) => Ok(OtherModes),
            _ => Err(told()),
        };
    }
    match (digits, opcode, funct3) {
        (true, ..) => Ok(Digits),
        (_, 0x5B | 0x7B, _) => Ok(Capability),
        (_, 0x03 | 0x23, 3) => Ok(LoadStoreCapability),
        (_, 0x0F, 0) => Ok(Fence),
        _ => Err(told()),
    }
}

/// The class of a short word, or what is wrong with its line.
fn short_class(half: u16, text: &str, line: &str, address: usize) -> Result<Class, String> {
    let digits = is_digits(line, half.into(), 4);
    if !known(text) || text == "c.unimp" {
        return if digits {
            Ok(Digits)
        } else {
            Err(format!("{half:04x} ({text}): {line:?}"))
        };
    }
    match self::line(text, address) {
        Some((class, right)) if right == line => Ok(class),
        _ if digits => Ok(ShortIllegal),
        right => Err(format!("{half:04x} ({text}): {line:?}, not {right:?}")),
    }
}

type Counts = BTreeMap<Class, usize>;

/// Every half: as RV32, and as RV64 where that loads or stores a doubleword.
fn halves(lister: Lister) -> Result<Counts, String> {
    let place = tools::workplace("listing")?;
    let (rv32, rv64) = (read_halves(&place, "rv32")?, read_halves(&place, "rv64")?);
    let mut counts = Counts::new();
    for half in (0..=u16::MAX).filter(|half| half & 3 != 3) {
        let at = usize::from(half);
        let double = ["c.ld", "c.sd"]
            .iter()
            .any(|name| rv64[at].starts_with(name));
        let text = if double { &rv64[at] } else { &rv32[at] };
        let line = listed(lister, &half.to_le_bytes())?;
        let class = short_class(half, text, &line, HALF_STRIDE * at)?;
        *counts.entry(class).or_default() += 1;
    }
    Ok(counts)
}

/// The sample of long words.
fn long_words(lister: Lister) -> Result<Counts, String> {
    let place = tools::workplace("listing")?;
    let mut counts = Counts::new();
    for sample in samples() {
        for (index, (word, text)) in sample.read(&place)?.iter().enumerate() {
            let line = listed(lister, &word.to_le_bytes())?;
            let class = long_class(*word, text, &line, index * sample.stride())?;
            *counts.entry(class).or_default() += 1;
        }
    }
    Ok(counts)
}

/// The numbers of halves: 27,751 legal, and those that halves.rs counts by reason.
const HALVES: [(Class, usize); 6] = [
    (Same, 21_584),
    (StackPointer, 6_071),
    (NoOp, 64),
    (ShiftByZero, 32),
    (ShortIllegal, 18_993),
    (Digits, 2_408),
];

/// The classes of long words, and the fewest words of each.
const LONG_WORDS: [(Class, usize); 9] = [
    (Same, 70_000),
    (Renamed, 20_000),
    (FenceTso, 1),
    (Fence, 10_000),
    (Capability, 20_000),
    (LoadStoreCapability, 1_000),
    (CsrNumber, 50_000),
    (OtherModes, 10),
    (Digits, 400_000),
];

/// Compares all halves and the sample of long words.
pub fn run(lister: Lister) -> Result<String, String> {
    let (short, long) = (halves(lister)?, long_words(lister)?);
    let text = format!("halves: {short:?}; long words: {long:?}");
    let enough =
        |(class, least): (Class, usize)| long.get(&class).is_some_and(|&count| count >= least);
    let all_long = long.len() == LONG_WORDS.len() && LONG_WORDS.into_iter().all(enough);
    if short != Counts::from(HALVES) || !all_long {
        return Err(format!("not the expected classes: {text}"));
    }
    Ok(text)
}

#[cfg(test)]
mod tests {
    use super::*;

    #[test]
    fn lines_by_hand() {
        let pairs = [
            ("sw x10,8(x2)", "csw\t2\t10\t8\n"),
            ("jal x1,0xfffff81c", "cjal\t1\t-2048\n"),
            ("lui x10,0xfffff", "lui\t10\t-1\n"),
            ("csrrs x5,mcause,x0", "csrrs\t5\t0\t834\n"),
            ("csrrsi x0,mstatus,8", "csrrsi\t0\t768\t8\n"),
            ("csrrw x5,0xbc1,x6", "csrrw\t5\t6\t3009\n"),
            ("csrrci x0,0xbc2,31", "csrrci\t0\t3010\t31\n"),
            ("fence iorw,unknown", "fence\t15\t0\n"),
            ("fence.tso", "fence.tso\n"),
            ("c.lui x10,0xfffe0", "c.lui\t10\t-32\n"),
            ("c.swsp x15,252(x2)", "c.swsp\t15\t252\n"),
            ("c.sw x15,4(x8)", "c.sw\t8\t15\t4\n"),
            ("slli x6,x7,0x1f", "slli\t6\t7\t31\n"),
        ];
        for (text, right) in pairs {
            let line = line(text, 0x1C).map(|(_, line)| line);
            assert_eq!(line.as_deref(), Some(right), "{text}");
        }
        assert_eq!(line("csrrs x5,time,x0", 0), None);
        assert_eq!(line("csrrs x5,0xbc3,x0", 0), None);
    }

    #[test]
    fn wrong_lines_are_found() {
        let class = |line| long_class(0xFFF5_0513, "addi x10,x10,-1", line, 0);
        assert_eq!(class("addi\t10\t10\t-1\n"), Ok(Same));
        assert!(class("addi\t10\t10\t4095\n").is_err());
        assert!(class("fff50513\n").is_err());
        assert!(short_class(0x8C1D, "c.sub x8,x15", "c.sub\t15\t8\n", 0).is_err());
    }
}
