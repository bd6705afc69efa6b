//! Listing and assembler (document 02, 11): code to text, a line a word, and back.
//!
//! A line has the published name in lower case, then the registers that the word names, rd before rs1
//! before rs2, then the other operands in the standard's order, all in decimal and parted by tabs. The
//! names are those of the CHERIoT report's chapters 8 and 9 where it has its own, else the standard's. A
//! word that is no instruction is its hexadecimal digits.

#[cfg(test)]
mod tests;

use crate::compressed;
use crate::decode::{
    decode, length, Arithmetic, Condition, CsrOperation, Derivation, Instruction, LoadWidth,
    Operand, Pairing, Query, Register, StoreWidth, LONG_BYTES,
};
use crate::encoding;

/// The refusals: an output that is too short, a bad line, and code that ends inside a word.
const SHORT_OUTPUT: u64 = 10;
const BAD_LINE: u64 = 13;
const CUT_OFF: u64 = 15;

/// Lists code. The answer is number * 2^48 + rest: 0 and the bytes written, or a refusal with nothing
/// written.
pub fn list(code: &[u8], out: &mut [u8]) -> u64 {
    deliver(text(code), out)
}

/// Assembles text, with such an answer.
pub fn assemble(text: &[u8], out: &mut [u8]) -> u64 {
    deliver(code(text), out)
}

fn refusal(number: u64, rest: usize) -> u64 {
    number << 48 | rest as u64
}

/// Writes what was made, if it fits; this is tested last.
fn deliver(made: Result<Vec<u8>, u64>, out: &mut [u8]) -> u64 {
    match made {
        Err(refusal) => refusal,
        Ok(bytes) => match out.get_mut(..bytes.len()) {
            None => refusal(SHORT_OUTPUT, 0),
            Some(place) => {
                place.copy_from_slice(&bytes);
                bytes.len() as u64
            }
        },
    }
}

/// The listing of code, or the refusal with the offset of the word that is cut off.
fn text(code: &[u8]) -> Result<Vec<u8>, u64> {
    let mut lines = Vec::new();
    let mut at = 0;
    while at < code.len() {
        let word = word_at(&code[at..]).ok_or(refusal(CUT_OFF, at))?;
        line(&mut lines, word);
        lines.push(b'\n');
        at += length(word) as usize;
    }
    Ok(lines)
}

/// The word at the start of some bytes, if it is whole; a short one has zeros above it.
fn word_at(bytes: &[u8]) -> Option<u32> {
    let half = |at: usize| Some(u16::from_le_bytes([*bytes.get(at)?, *bytes.get(at + 1)?]));
    let first = u32::from(half(0)?);
    match length(first) {
        LONG_BYTES => Some(u32::from(half(2)?) << 16 | first),
        _ => Some(first),
    }
}

/// The code of a text, or the refusal with the number of its first bad line.
fn code(text: &[u8]) -> Result<Vec<u8>, u64> {
    let mut bytes = Vec::new();
    for (index, line) in text.split_inclusive(|&byte| byte == b'\n').enumerate() {
        let whole = line.strip_suffix(b"\n");
        let word = whole
            .and_then(word_of)
            .ok_or(refusal(BAD_LINE, index + 1))?;
        bytes.extend_from_slice(&word.to_le_bytes()[..length(word) as usize]);
    }
    Ok(bytes)
}

/// The word that a line is the listing of. A line that only looks like one is none: listing its word
/// again must give the line.
fn word_of(text: &[u8]) -> Option<u32> {
    let word = encoding::word(std::str::from_utf8(text).ok()?)?;
    let mut listed = Vec::with_capacity(48);
    line(&mut listed, word);
    (listed == text).then_some(word)
}

/// Writes the line of a word, without its newline.
pub fn line(out: &mut Vec<u8>, word: u32) {
    let short = length(word) != LONG_BYTES;
    let named = if short {
        short_line(out, word)
    } else {
        decode(word).map(|instruction| long_line(out, word, instruction))
    };
    if named.is_none() {
        let digits = if short { 4 } else { 8 };
        hexadecimal(out, word, digits);
    }
}

fn hexadecimal(out: &mut Vec<u8>, word: u32, digits: u32) {
    for place in (0..digits).rev() {
        let digit = (word >> (4 * place) & 15) as u8;
        out.push(if digit < 10 {
            b'0' + digit
        } else {
            b'a' + digit - 10
        });
    }
}

/// Writes a name and its operands.
fn say(out: &mut Vec<u8>, name: &str, operands: &[i32]) {
    out.extend_from_slice(name.as_bytes());
    for &operand in operands {
        out.push(b'\t');
        decimal(out, operand);
    }
}

fn decimal(out: &mut Vec<u8>, value: i32) {
    if value < 0 {
        out.push(b'-');
    }
    let mut digits = [0; 10];
    let (mut first, mut left) = (digits.len(), value.unsigned_abs());
    loop {
        first -= 1;
        digits[first] = b'0' + (left % 10) as u8;
        left /= 10;
        if left == 0 {
            break;
        }
    }
    out.extend_from_slice(&digits[first..]);
}

/// A register as an operand.
fn r(register: Register) -> i32 {
    register.number() as i32
}

/// An immediate, which the decoder extends by its sign.
fn n(immediate: u32) -> i32 {
    immediate as i32
}

/// Writes the line of a long word that is an instruction.
#[rustfmt::skip]
fn long_line(out: &mut Vec<u8>, word: u32, instruction: Instruction) {
    use Instruction as I;
    let upper = word as i32 >> 12;
    match instruction {
        I::Lui { rd, .. } => say(out, "lui", &[r(rd), upper]),
        I::Auipcc { cd, .. } => say(out, "auipcc", &[r(cd), upper]),
        I::Auicgp { cd, .. } => say(out, "auicgp", &[r(cd), upper]),
        I::Cjal { cd, offset } => say(out, "cjal", &[r(cd), n(offset)]),
        I::Cjalr { cd, cs1, offset } => say(out, "cjalr", &[r(cd), r(cs1), n(offset)]),
        I::Branch { condition, rs1, rs2, offset } => say(out, branch(condition), &[r(rs1), r(rs2), n(offset)]),
        I::Load { width, rd, cs1, offset } => say(out, load(width), &[r(rd), r(cs1), n(offset)]),
        I::Clc { cd, cs1, offset } => say(out, "clc", &[r(cd), r(cs1), n(offset)]),
        I::Store { width, rs2, cs1, offset } => say(out, store(width), &[r(cs1), r(rs2), n(offset)]),
        I::Csc { cs2, cs1, offset } => say(out, "csc", &[r(cs1), r(cs2), n(offset)]),
        I::Integer { operation, rd, rs1, operand } => match operand {
            Operand::Register(rs2) => say(out, by_register(operation), &[r(rd), r(rs1), r(rs2)]),
            Operand::Immediate(value) => say(out, by_number(operation), &[r(rd), r(rs1), n(value)]),
        },
        I::Csr { operation, rd, operand, .. } => control(out, word, operation, rd, operand),
        I::Query { query, rd, cs1 } => say(out, asking(query), &[r(rd), r(cs1)]),
        I::Derive { derivation, cd, cs1, operand } => derive(out, derivation, [cd, cs1], operand),
        I::Pair { pairing, cd, cs1, cs2 } => say(out, pair(pairing), &[r(cd), r(cs1), r(cs2)]),
        // The special register's number stands where others have rs2.
        I::CSpecialRw { cd, cs1, .. } => say(out, "cspecialrw", &[r(cd), r(cs1), n(word >> 20 & 31)]),
        I::Fence => fence(out, word),
        I::Wfi => say(out, "wfi", &[]),
        I::Ecall => say(out, "ecall", &[]),
        I::Ebreak => say(out, "ebreak", &[]),
        I::Mret => say(out, "mret", &[]),
    }
}

/// A fence: FENCE.TSO has mode 8 and both sets RW. The standard takes every other mode and pair of sets for
/// FENCE, and ignores rd and rs1 of both.
fn fence(out: &mut Vec<u8>, word: u32) {
    let [mode, first, second] = [28, 24, 20].map(|lowest| word >> lowest & 15);
    match (mode, first, second) {
        (8, 3, 3) => say(out, "fence.tso", &[]),
        _ => say(out, "fence", &[n(first), n(second)]),
    }
}

/// A CSR instruction: the standard has the register's number before the immediate.
fn control(out: &mut Vec<u8>, word: u32, operation: CsrOperation, rd: Register, operand: Operand) {
    let number = n(word >> 20);
    match operand {
        Operand::Register(rs1) => {
            let name = match operation {
                CsrOperation::Write => "csrrw",
                CsrOperation::Set => "csrrs",
                CsrOperation::Clear => "csrrc",
            };
            say(out, name, &[r(rd), r(rs1), number]);
        }
        Operand::Immediate(value) => {
            let name = match operation {
                CsrOperation::Write => "csrrwi",
                CsrOperation::Set => "csrrsi",
                CsrOperation::Clear => "csrrci",
            };
            say(out, name, &[r(rd), number, n(value)]);
        }
    }
}

fn branch(condition: Condition) -> &'static str {
    match condition {
        Condition::Equal => "beq",
        Condition::NotEqual => "bne",
        Condition::Less => "blt",
        Condition::GreaterOrEqual => "bge",
        Condition::LessUnsigned => "bltu",
        Condition::GreaterOrEqualUnsigned => "bgeu",
    }
}

/// Loads and stores have the report's names (chapter 8).
fn load(width: LoadWidth) -> &'static str {
    match width {
        LoadWidth::Byte => "clb",
        LoadWidth::Half => "clh",
        LoadWidth::Word => "clw",
        LoadWidth::ByteUnsigned => "clbu",
        LoadWidth::HalfUnsigned => "clhu",
    }
}

fn store(width: StoreWidth) -> &'static str {
    match width {
        StoreWidth::Byte => "csb",
        StoreWidth::Half => "csh",
        StoreWidth::Word => "csw",
    }
}

fn by_register(operation: Arithmetic) -> &'static str {
    match operation {
        Arithmetic::Add => "add",
        Arithmetic::Sub => "sub",
        Arithmetic::ShiftLeft => "sll",
        Arithmetic::SetLess => "slt",
        Arithmetic::SetLessUnsigned => "sltu",
        Arithmetic::Xor => "xor",
        Arithmetic::ShiftRight => "srl",
        Arithmetic::ShiftRightArithmetic => "sra",
        Arithmetic::Or => "or",
        Arithmetic::And => "and",
        Arithmetic::Multiply => "mul",
        Arithmetic::MultiplyHigh => "mulh",
        Arithmetic::MultiplyHighSignedUnsigned => "mulhsu",
        Arithmetic::MultiplyHighUnsigned => "mulhu",
        Arithmetic::Divide => "div",
        Arithmetic::DivideUnsigned => "divu",
        Arithmetic::Remainder => "rem",
        Arithmetic::RemainderUnsigned => "remu",
    }
}

fn by_number(operation: Arithmetic) -> &'static str {
    match operation {
        Arithmetic::Add => "addi",
        Arithmetic::ShiftLeft => "slli",
        Arithmetic::SetLess => "slti",
        Arithmetic::SetLessUnsigned => "sltiu",
        Arithmetic::Xor => "xori",
        Arithmetic::ShiftRight => "srli",
        Arithmetic::ShiftRightArithmetic => "srai",
        Arithmetic::Or => "ori",
        Arithmetic::And => "andi",
        // Nothing else has an immediate.
        other => by_register(other),
    }
}

/// The capability instructions have the names of their pages (chapter 9).
fn asking(query: Query) -> &'static str {
    match query {
        Query::CGetPerm => "cgetperm",
        Query::CGetType => "cgettype",
        Query::CGetBase => "cgetbase",
        Query::CGetLen => "cgetlen",
        Query::CGetTag => "cgettag",
        Query::CRoundRepresentableLength => "croundrepresentablelength",
        Query::CRepresentableAlignmentMask => "crepresentablealignmentmask",
        Query::CGetAddr => "cgetaddr",
        Query::CGetHigh => "cgethigh",
        Query::CGetTop => "cgettop",
    }
}

fn derive(out: &mut Vec<u8>, derivation: Derivation, registers: [Register; 2], operand: Operand) {
    let name = match derivation {
        Derivation::CMove => "cmove",
        Derivation::CClearTag => "ccleartag",
        Derivation::CAndPerm => "candperm",
        Derivation::CSetAddr => "csetaddr",
        Derivation::CIncAddr => "cincaddr",
        Derivation::CSetBounds => "csetbounds",
        Derivation::CSetBoundsExact => "csetboundsexact",
        Derivation::CSetHigh => "csethigh",
    };
    let [cd, cs1] = registers.map(r);
    match (derivation, operand) {
        (Derivation::CMove | Derivation::CClearTag, _) => say(out, name, &[cd, cs1]),
        (_, Operand::Register(rs2)) => say(out, name, &[cd, cs1, r(rs2)]),
        (Derivation::CIncAddr, Operand::Immediate(by)) => {
            say(out, "cincaddrimm", &[cd, cs1, n(by)])
        }
        (_, Operand::Immediate(length)) => say(out, "csetboundsimm", &[cd, cs1, n(length)]),
    }
}

fn pair(pairing: Pairing) -> &'static str {
    match pairing {
        Pairing::CSeal => "cseal",
        Pairing::CUnseal => "cunseal",
        Pairing::CSub => "csub",
        Pairing::CTestSubset => "ctestsubset",
        Pairing::CSetEqualExact => "csetequalexact",
    }
}

/// Writes the line of a short word, if it is an instruction. Its own name is of the standard's tables of
/// extension C; a register that the form means and has no field for is not named.
fn short_line(out: &mut Vec<u8>, half: u32) -> Option<()> {
    compressed::decode(u16::try_from(half).ok()?)?;
    match half & 3 {
        0 => quadrant_0(out, half),
        1 => quadrant_1(out, half),
        _ => quadrant_2(out, half),
    }
    Some(())
}

/// Bits of a half that stand together, from a lowest one on.
fn bits(half: u32, lowest: u32, width: u32) -> i32 {
    (half >> lowest & ((1 << width) - 1)) as i32
}

/// A register of three bits.
fn popular(half: u32, lowest: u32) -> i32 {
    8 + bits(half, lowest, 3)
}

/// The signed number of bit 12 and bits 6 to 2.
fn six(half: u32) -> i32 {
    bits(half, 2, 5) - 32 * bits(half, 12, 1)
}

fn quadrant_0(out: &mut Vec<u8>, half: u32) {
    let (low, high) = (popular(half, 2), popular(half, 7));
    let words = 8 * bits(half, 10, 3) + 4 * bits(half, 6, 1) + 64 * bits(half, 5, 1);
    let doubles = 8 * bits(half, 10, 3) + 64 * bits(half, 5, 2);
    let stack = 16 * bits(half, 11, 2)
        + 64 * bits(half, 7, 4)
        + 4 * bits(half, 6, 1)
        + 8 * bits(half, 5, 1);
    match half >> 13 {
        0 => say(out, "c.addi4spn", &[low, stack]),
        2 => say(out, "c.lw", &[low, high, words]),
        3 => say(out, "c.ld", &[low, high, doubles]),
        6 => say(out, "c.sw", &[high, low, words]),
        _ => say(out, "c.sd", &[high, low, doubles]),
    }
}

fn quadrant_1(out: &mut Vec<u8>, half: u32) {
    let rd = bits(half, 7, 5);
    match (half >> 13, rd, six(half)) {
        // A no-op names no register; its hints keep the immediate.
        (0, 0, 0) => say(out, "c.nop", &[]),
        (0, 0, immediate) => say(out, "c.nop", &[immediate]),
        (0, _, immediate) => say(out, "c.addi", &[rd, immediate]),
        (1, ..) => say(out, "c.jal", &[jump(half)]),
        (2, _, immediate) => say(out, "c.li", &[rd, immediate]),
        (3, 2, _) => {
            let by = 16 * bits(half, 6, 1) + 64 * bits(half, 5, 1) + 128 * bits(half, 3, 2);
            say(
                out,
                "c.addi16sp",
                &[by + 32 * bits(half, 2, 1) - 512 * bits(half, 12, 1)],
            )
        }
        (3, _, upper) => say(out, "c.lui", &[rd, upper]),
        (4, ..) => operations(out, half),
        (5, ..) => say(out, "c.j", &[jump(half)]),
        (6, ..) => say(out, "c.beqz", &[popular(half, 7), hop(half)]),
        _ => say(out, "c.bnez", &[popular(half, 7), hop(half)]),
    }
}

/// The offset of C.J and C.JAL.
fn jump(half: u32) -> i32 {
    let low = 2 * bits(half, 3, 3) + 16 * bits(half, 11, 1) + 32 * bits(half, 2, 1);
    let middle = 64 * bits(half, 7, 1) + 128 * bits(half, 6, 1) + 256 * bits(half, 9, 2);
    low + middle + 1024 * bits(half, 8, 1) - 2048 * bits(half, 12, 1)
}

/// The offset of C.BEQZ and C.BNEZ.
fn hop(half: u32) -> i32 {
    let low = 2 * bits(half, 3, 2) + 8 * bits(half, 10, 2) + 32 * bits(half, 2, 1);
    low + 64 * bits(half, 5, 2) - 256 * bits(half, 12, 1)
}

fn operations(out: &mut Vec<u8>, half: u32) {
    let (rd, rs2, amount) = (popular(half, 7), popular(half, 2), bits(half, 2, 5));
    match (bits(half, 10, 2), bits(half, 5, 2)) {
        (0, _) => say(out, "c.srli", &[rd, amount]),
        (1, _) => say(out, "c.srai", &[rd, amount]),
        (2, _) => say(out, "c.andi", &[rd, six(half)]),
        (_, 0) => say(out, "c.sub", &[rd, rs2]),
        (_, 1) => say(out, "c.xor", &[rd, rs2]),
        (_, 2) => say(out, "c.or", &[rd, rs2]),
        _ => say(out, "c.and", &[rd, rs2]),
    }
}

fn quadrant_2(out: &mut Vec<u8>, half: u32) {
    let (first, second) = (bits(half, 7, 5), bits(half, 2, 5));
    let top = 32 * bits(half, 12, 1);
    match (half >> 13, bits(half, 12, 1), first, second) {
        (0, ..) => say(out, "c.slli", &[first, second]),
        (2, ..) => {
            let offset = top + 4 * bits(half, 4, 3) + 64 * bits(half, 2, 2);
            say(out, "c.lwsp", &[first, offset])
        }
        (3, ..) => {
            let offset = top + 8 * bits(half, 5, 2) + 64 * bits(half, 2, 3);
            say(out, "c.ldsp", &[first, offset])
        }
        (4, 0, _, 0) => say(out, "c.jr", &[first]),
        (4, 0, ..) => say(out, "c.mv", &[first, second]),
        (4, _, 0, 0) => say(out, "c.ebreak", &[]),
        (4, _, _, 0) => say(out, "c.jalr", &[first]),
        (4, ..) => say(out, "c.add", &[first, second]),
        (6, ..) => {
            let offset = 4 * bits(half, 9, 4) + 64 * bits(half, 7, 2);
            say(out, "c.swsp", &[second, offset])
        }
        _ => {
            let offset = 8 * bits(half, 10, 3) + 64 * bits(half, 7, 3);
            say(out, "c.sdsp", &[second, offset])
        }
    }
}
