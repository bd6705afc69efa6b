//! Listing and assembler: every half, a sweep of all long rows, random code with ends that are cut off, text
//! damaged by one byte in every way, and outputs of every room.
//!
//! Both programs get outputs with the same bytes in them, and these are compared whole. Of each answer it is
//! also known without the second program that a refusal changes nothing and a success nothing past its end.

use crate::random::Random;
use crate::Mismatch;

/// A function from lent bytes to lent bytes.
pub type Routine = fn(&[u8], &mut [u8]) -> u64;

/// A lister and its assembler.
#[derive(Clone, Copy)]
pub struct Lister {
    pub list: Routine,
    pub assemble: Routine,
}

/// The second program's.
pub const SECOND: Lister = Lister {
    list: second::list,
    assemble: second::assemble,
};

/// The random cases of a run that names no other number.
pub const CASES: u64 = 20_000;
/// The words of one code of the sweep.
const CHUNK: usize = 64;
/// Once in so many random cases the text is damaged in every way.
const DAMAGED: u64 = 50;
/// More room than any answer here needs.
const ROOM: usize = 4096;

/// What was asked: calls by function and answer.
#[derive(Debug, Default)]
pub struct Totals {
    pub halves: u64,
    pub long_words: u64,
    pub listed: u64,
    pub cut_off: u64,
    pub assembled: u64,
    pub bad_lines: u64,
    pub short_outputs: u64,
}

impl Totals {
    /// Whether every kind of answer came up.
    pub fn complete(&self) -> bool {
        let words = self.halves == 1 << 16 && self.long_words == SWEPT;
        let answers = [
            self.listed,
            self.cut_off,
            self.assembled,
            self.bad_lines,
            self.short_outputs,
        ];
        words && answers.into_iter().all(|count| count > 1000)
    }

    fn count(&mut self, answer: u64, listing: bool) -> Result<(), String> {
        *match (answer >> 48, listing) {
            (0, true) => &mut self.listed,
            (0, false) => &mut self.assembled,
            (15, true) => &mut self.cut_off,
            (13, false) => &mut self.bad_lines,
            (10, _) => &mut self.short_outputs,
            _ => return Err(format!("answer {answer:x}")),
        } += 1;
        Ok(())
    }
}

/// A comparison under way.
struct Both {
    ours: Lister,
    totals: Totals,
    case: u64,
}

impl Both {
    /// Asks both programs; the bytes of a success.
    fn ask(&mut self, listing: bool, given: &[u8], room: usize) -> Result<Option<Vec<u8>>, String> {
        let of = |lister: Lister| {
            if listing {
                lister.list
            } else {
                lister.assemble
            }
        };
        let fill = (self.case as u8).wrapping_mul(37) | 0x80;
        let (mut out, mut right) = (vec![fill; room], vec![fill; room]);
        let answer = of(self.ours)(given, &mut out);
        let expected = of(SECOND)(given, &mut right);
        let told = |what: &str| {
            Err(format!(
                "{what}: {}",
                shown(given, (answer, &out), (expected, &right))
            ))
        };
        if (answer, &out) != (expected, &right) {
            return told("differ");
        }
        let written = if answer >> 48 == 0 {
            answer as usize
        } else {
            0
        };
        if !out[written..].iter().all(|&byte| byte == fill) {
            return told("changed past the answer");
        }
        self.totals.count(answer, listing)?;
        out.truncate(written);
        Ok((answer >> 48 == 0).then_some(out))
    }

    /// Lists code, and assembles what was listed: the chosen words, which list as the same.
    fn round(&mut self, code: &[u8]) -> Result<Option<Vec<u8>>, String> {
        let Some(text) = self.ask(true, code, ROOM)? else {
            return Ok(None);
        };
        let again = self.ask(false, &text, ROOM)?;
        if again.as_deref() != Some(&chosen(code)[..]) {
            return Err(format!("{code:02x?}: {again:02x?} is not the chosen code"));
        }
        Ok(Some(text))
    }

    /// Every room below the answer's, the answer's and a few more.
    fn rooms(&mut self, listing: bool, given: &[u8], needed: usize) -> Result<(), String> {
        for room in 0..needed + 4 {
            let made = self.ask(listing, given, room)?;
            if made.is_some() != (room >= needed) {
                return Err(format!("{given:02x?}: room {room}, {needed} needed"));
            }
        }
        Ok(())
    }

    /// A text with each byte changed to every other, removed, and every byte put before it.
    fn damage(&mut self, text: &[u8]) -> Result<(), String> {
        for at in 0..=text.len() {
            for byte in 0..=u8::MAX {
                let mut more = text.to_vec();
                more.insert(at, byte);
                self.ask(false, &more, ROOM)?;
                if at < text.len() {
                    more.remove(at + 1);
                    self.ask(false, &more, ROOM)?;
                }
            }
            if at < text.len() {
                let mut less = text.to_vec();
                less.remove(at);
                self.ask(false, &less, ROOM)?;
            }
            self.ask(false, &text[..at], ROOM)?;
        }
        Ok(())
    }

    /// A half by itself, after a word, and with one byte more.
    fn half(&mut self, half: u16) -> Result<(), String> {
        self.totals.halves += 1;
        let [low, high] = half.to_le_bytes();
        for code in [
            &[low, high][..],
            &[0x13, 0, 0, 0, low, high],
            &[low, high, 0],
            &[low, high, 1, 0],
        ] {
            self.round(code)?;
        }
        Ok(())
    }

    /// Random code: its round, and rooms or damage.
    fn random(&mut self, seed: u64, number: u64) -> Result<(), String> {
        let mut random = Random::new(seed, number);
        let most = random.pick([3, 6, 40]);
        let code = any_code(&mut random, most);
        let Some(text) = self.round(&code)? else {
            // A short output is refused last.
            return self.ask(true, &code, random.below(3) as usize).map(drop);
        };
        self.edited(&mut random, &text)?;
        match number % DAMAGED {
            0 if most < 10 => self.damage(&text),
            1..=4 => {
                self.rooms(true, &code, text.len())?;
                self.rooms(false, &text, code.len())
            }
            _ => Ok(()),
        }
    }

    /// A text with a line exchanged for one that is nearly a listing, or with a few bytes changed.
    fn edited(&mut self, random: &mut Random, text: &[u8]) -> Result<(), String> {
        let lines: Vec<&[u8]> = text.split_inclusive(|&byte| byte == b'\n').collect();
        let at = random.below(lines.len() as u32 + 1) as usize;
        let line = near_line(random, lines.get(at).copied().unwrap_or(b"c.nop\n"));
        let after = lines.get(at + 1..).unwrap_or(&[]).concat();
        let before = lines[..at.min(lines.len())].concat();
        let room = random.pick([0, 1, 8, ROOM]);
        self.ask(false, &[before, line, after].concat(), room)
            .map(drop)
    }
}

/// What differs, for a person.
fn shown(given: &[u8], ours: (u64, &[u8]), right: (u64, &[u8])) -> String {
    let text = |(answer, out): (u64, &[u8])| {
        let rest = (answer & 0xFFFF_FFFF_FFFF) as usize;
        let (number, end) = (
            answer >> 48,
            out.len().min(if answer >> 48 == 0 { rest } else { 0 }),
        );
        format!("{number} {rest} {:?}", String::from_utf8_lossy(&out[..end]))
    };
    let words = String::from_utf8_lossy(given);
    format!(
        "{given:02x?} ({words:?})\nours {}\nsecond {}",
        text(ours),
        text(right)
    )
}

/// Code with the chosen word for every fence: the fields that do not matter are 0. FENCE.TSO keeps its mode.
fn chosen(code: &[u8]) -> Vec<u8> {
    let (mut bytes, mut at) = (code.to_vec(), 0);
    while at < bytes.len() {
        if bytes[at] & 3 != 3 {
            at += 2;
            continue;
        }
        if bytes[at] & 0x7F == 0x0F && bytes[at + 1] & 0x70 == 0 {
            let mode = match (bytes[at + 2] & 0xF0, bytes[at + 3]) {
                (0x30, 0x83) => 0xF0,
                _ => 0,
            };
            let kept = [0x7F, 0x70, 0xF0, 0x0F | mode];
            for (byte, mask) in bytes[at..at + 4].iter_mut().zip(kept) {
                *byte &= mask;
            }
        }
        at += 4;
    }
    bytes
}

/// The opcodes of the bench.
const OPCODES: [u32; 13] = [
    0x03, 0x0F, 0x13, 0x17, 0x23, 0x33, 0x37, 0x5B, 0x63, 0x67, 0x6F, 0x73, 0x7B,
];
/// The words of SYSTEM with funct3 0, FENCE.TSO with other fields and without, and PAUSE.
const WHOLE: [u32; 8] = [
    0x73,
    0x0010_0073,
    0x3020_0073,
    0x1050_0073,
    0x8330_000F,
    0x833F_8F8F,
    0x9330_000F,
    0x0100_000F,
];

/// A long word, often one of the bench.
fn long_word(random: &mut Random) -> u32 {
    let low = random.word() & 0xFEF7_8F80;
    match random.below(8) {
        0 => random.word() | 3,
        1 => random.pick(WHOLE),
        2 => {
            random.pick([
                0x300, 0x342, 0x343, 0x301, 0x340, 0xBC0, 0xBC1, 0xBC2, 0xBC3,
            ]) << 20
                | low & 0x000F_FFFF
                | random.below(8) << 12
                | 0x73
        }
        3 => {
            random.pick([0x01, 0x08, 0x0B, 0x0D, 0x11, 0x20, 0x7F]) << 25 | low & 0x01FF_FFFF | 0x5B
        }
        4 => random.pick([0, 1, 0x20]) << 25 | low & 0x01FF_FFFF | random.below(8) << 12 | 0x33,
        _ => low | random.word() & 0xFFF0_0000 | random.below(8) << 12 | random.pick(OPCODES),
    }
}

/// Code of a few words, sometimes with its end cut off.
fn any_code(random: &mut Random, most: u32) -> Vec<u8> {
    let mut code = Vec::new();
    for _ in 0..random.below(most + 1) {
        if random.one_in(2) {
            code.extend_from_slice(&long_word(random).to_le_bytes());
        } else {
            let half = random.word() as u16;
            let short = if half & 3 == 3 { half ^ 2 } else { half };
            code.extend_from_slice(&short.to_le_bytes());
        }
    }
    if random.one_in(4) {
        let cut = random.below(4) as usize;
        code.truncate(code.len().saturating_sub(cut));
    }
    code
}

/// A line that is nearly a listing: numbers at edges, signs and zeros before them, fields more or fewer.
fn near_line(random: &mut Random, line: &[u8]) -> Vec<u8> {
    let text = String::from_utf8_lossy(line);
    let mut fields: Vec<String> = text.trim_end().split('\t').map(String::from).collect();
    let at = random.below(fields.len() as u32) as usize;
    let edges = [
        0, 1, 15, 16, 31, 32, 255, 256, 511, 512, 1023, 2047, 2048, 4094, 4096, 524_287, 524_288,
        1_048_574,
    ];
    let edge = i64::from(random.pick(edges)) * random.pick([1, -1]) + i64::from(random.below(2));
    match random.below(8) {
        0 => fields[at].insert(0, random.pick(['0', '+', '-', ' '])),
        1 => fields.push(edge.to_string()),
        2 => drop(fields.remove(at)),
        3 => {
            fields[at] = random
                .pick([
                    "-0",
                    "",
                    "2147483648",
                    "4294967296",
                    "18446744073709551616",
                    "c.nop",
                ])
                .into()
        }
        4 => fields[at] = fields[at].to_uppercase(),
        5 => fields[at] = format!("{:08x}", long_word(random)),
        6 => fields[at] = format!("{:04x}", random.word() & 0xFFFF),
        _ => fields[at] = edge.to_string(),
    }
    let end = if random.one_in(16) { "" } else { "\n" };
    format!("{}{end}", fields.join("\t")).into_bytes()
}

/// The words of the sweep: every opcode, funct3, funct7 and rs2 with two kinds of rd and rs1.
const SWEPT: u64 = 2 << 20;

/// A word of the sweep.
fn swept(random: &mut Random, number: u64) -> u32 {
    let pattern = (number >> 1) as u32;
    let (rd, rs1) = match number & 1 {
        0 => (random.below(16), random.below(16)),
        _ => (
            random.pick([0, 1, 2, 15, 16, 31]),
            random.pick([0, 1, 2, 15, 16, 31]),
        ),
    };
    let (opcode, funct3, upper) = (pattern & 31, pattern >> 5 & 7, pattern >> 8);
    upper << 20 | rs1 << 15 | funct3 << 12 | rd << 7 | opcode << 2 | 3
}

/// Compares a lister with the second program.
pub fn compare(ours: Lister, seed: u64, cases: u64) -> Result<Totals, Mismatch> {
    let mut both = Both {
        ours,
        totals: Totals::default(),
        case: 0,
    };
    let outcome = all(&mut both, seed, cases);
    let case = both.case;
    outcome
        .map(|()| both.totals)
        .map_err(|text| Mismatch { case, text })
}

fn all(both: &mut Both, seed: u64, cases: u64) -> Result<(), String> {
    for half in 0..=u16::MAX {
        both.case += 1;
        both.half(half)?;
    }
    for number in 0..cases {
        both.case += 1;
        both.random(seed, number)?;
    }
    let mut random = Random::new(seed, cases);
    for start in (0..SWEPT).step_by(CHUNK) {
        both.case += 1;
        let words: Vec<u32> = (start..start + CHUNK as u64)
            .map(|number| swept(&mut random, number))
            .collect();
        let code: Vec<u8> = words.iter().flat_map(|word| word.to_le_bytes()).collect();
        both.totals.long_words += CHUNK as u64;
        both.round(&code)?.ok_or("long words are refused")?;
    }
    Ok(())
}

#[cfg(test)]
mod tests {
    use super::*;

    #[test]
    fn chosen_words() {
        let code = [0x8F, 0x8F, 0x3F, 0x93, 0x01, 0x00, 0x0F, 0x10, 0x3F, 0x83];
        let kept = [0x0F, 0x00, 0x30, 0x03, 0x01, 0x00, 0x0F, 0x10, 0x3F, 0x83];
        assert_eq!(chosen(&code), kept);
        let code = [0x8F, 0x8F, 0x3F, 0x83, 0x8F, 0x8F, 0x3F, 0x82];
        let kept = [0x0F, 0x00, 0x30, 0x83, 0x0F, 0x00, 0x30, 0x02];
        assert_eq!(chosen(&code), kept);
    }

    #[test]
    fn wrong_listers_are_found() {
        // One that writes past its answer, and one that refuses with a byte written.
        let past: Routine = |code, out| {
            let answer = second::list(code, out);
            if answer >> 48 == 0 && out.len() > answer as usize {
                out[answer as usize] = 0;
            }
            answer
        };
        let writes: Routine = |text, out| {
            let answer = second::assemble(text, out);
            if answer >> 48 == 13 {
                out[0] = 0;
            }
            answer
        };
        let wrong = [
            Lister {
                list: past,
                ..SECOND
            },
            Lister {
                assemble: writes,
                ..SECOND
            },
        ];
        for lister in wrong {
            assert!(compare(lister, 1, 200).is_err());
        }
    }
}
