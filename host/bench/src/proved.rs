//! The proved libraries: the machine's run and the sweeper (libbench_api.a), the search for capabilities (libreach.a),
//! the cut and the bounds lookup (liblabel.a), map sheets (libsheet_api.a), the lister and the assembler (liblisting_api.a).
//! Everything that the command says about the machine, about bounds, of an instruction or about
//! whether a sheet is good comes through here.

pub mod engine;
pub mod sheets;

pub use ::proved::{assemble, list, piece_ends, Refused};

use ::proved::{bounds_high, bounds_low, cut_exact, cut_high, cut_low, cut_number};
use lent::{number_and_rest, Answer, Capability, Query, State, Watch};
use std::ops::{AddAssign, Sub};

/// The most steps that one call runs (document 01, refusal 5).
pub const MOST_STEPS: u64 = lent::MOST_STEPS as u64;

/// The steps of a run that retired and that trapped.
#[derive(Clone, Copy, Default, PartialEq, Eq, Debug)]
pub struct Counts {
    pub retired: u64,
    pub trapped: u64,
}

impl Counts {
    /// All of the steps.
    pub fn steps(self) -> u64 {
        self.retired + self.trapped
    }
}

impl AddAssign for Counts {
    fn add_assign(&mut self, more: Counts) {
        self.retired += more.retired;
        self.trapped += more.trapped;
    }
}

impl Sub for Counts {
    type Output = Counts;

    fn sub(self, less: Counts) -> Counts {
        Counts {
            retired: self.retired - less.retired,
            trapped: self.trapped - less.trapped,
        }
    }
}

/// Document 01's number of a refusal.
#[derive(Clone, Copy, PartialEq, Eq, Debug)]
pub struct Refusal(pub u64);

/// The refusal of a start with an unsound register (document 02, 13).
pub const UNSOUND: Refusal = Refusal(8);

impl Refusal {
    /// The reason (document 01, "Answers").
    pub fn reason(self) -> &'static str {
        match self.0 {
            1 => "the register file is not 72 words",
            2 => {
                "the memory's start or size breaks the limits: the size is 64 to 1,048,576 bytes \
                 and a multiple of 64, the start a multiple of 8, and the end at most 2^32; or the \
                 window does: its start and size are multiples of 64, and it lies in memory"
            }
            3 => {
                "the tags are not memory size / 64 bytes, or the revocation bits not window size / 64"
            }
            4 => "a tag word is above 1, or c0 is not all zero",
            5 => "a run asks more than 1,000,000 steps",
            6 => "the request ends past 2^32",
            7 => "the edition is neither 0, the report, nor 1, the later one",
            8 => "a tagged register has low above high, or high above 2^32",
            9 => "no granule of memory has the number",
            20 => "the mask has a bit above the twelve rights",
            21 => "neither a register nor a granule of memory has the number",
            22 => "the range does not begin and end between granules",
            _ => "a number that document 01 does not have",
        }
    }
}

/// Runs at most `MOST_STEPS` steps. A refused run changes nothing.
pub fn run(state: &mut State, steps: u64) -> Result<Counts, Refusal> {
    run_watched(state, steps, &mut Watch::default())
}

/// Runs them with a watch record, whose counts rise, by the engine that is chosen. A refused run changes nothing of it either.
pub fn run_watched(state: &mut State, steps: u64, record: &mut Watch) -> Result<Counts, Refusal> {
    let steps = u32::try_from(steps).unwrap_or(u32::MAX);
    let answer = Answer::of(state.run_watched(engine::chosen().run(), steps, record));
    match answer.number {
        0 => Ok(Counts {
            retired: answer.retired,
            trapped: answer.trapped,
        }),
        number => Err(Refusal(number)),
    }
}

/// Sweeps one granule: the number of the next one, none after the last. A refused visit changes nothing.
pub fn sweep(state: &mut State, granule: u32) -> Result<Option<u32>, Refusal> {
    let (number, rest) = number_and_rest(state.sweep(::proved::sweep, granule));
    match (number, rest >> 32) {
        (0, 0) => Ok(Some(rest as u32)),
        (0, _) => Ok(None),
        _ => Err(Refusal(number)),
    }
}

/// The first place from one on, of the registers and then of memory's granules, that a query finds.
pub fn reach(state: &State, query: Query, from: u32) -> Result<Option<u32>, Refusal> {
    place(state.reach(::proved::reach, query, from))
}

/// The same from outside: granules that lie in the range, which has whole ones, are passed over.
pub fn reach_outside(state: &State, query: Query, from: u32) -> Result<Option<u32>, Refusal> {
    place(state.reach(::proved::reach_outside, query, from))
}

/// The place that a search's answer names.
fn place(answer: u64) -> Result<Option<u32>, Refusal> {
    match number_and_rest(answer) {
        (0, 0) => Ok(None),
        (0, found) => Ok(Some((found - 1) as u32)),
        (number, _) => Err(Refusal(number)),
    }
}

/// A region of addresses, high up to 2^33 - 1.
#[derive(Clone, Copy, PartialEq, Eq, Debug)]
pub struct Region {
    pub low: u32,
    pub high: u64,
}

/// The bounds of a capability.
pub fn bounds(value: Capability) -> Region {
    Region {
        low: bounds_low(value.address, value.metadata),
        high: bounds_high(value.address, value.metadata),
    }
}

/// The cut of [base, base + length), and whether it is exact.
pub fn cut(base: u32, length: u32) -> Result<(Region, bool), Refusal> {
    match cut_number(base, length) {
        0 => {
            let (low, high) = (cut_low(base, length), cut_high(base, length));
            Ok((Region { low, high }, cut_exact(base, length) == 1))
        }
        number => Err(Refusal(number.into())),
    }
}

/// Words are whole halves.
const HALF: usize = 2;

/// The bytes of the first word of some, as many as the lister needs; none if it does not end in them.
pub fn length(bytes: &[u8]) -> Option<usize> {
    let mut lengths = (HALF..=bytes.len()).step_by(HALF);
    lengths.find(|&length| list(&bytes[..length]).is_ok())
}

/// The bytes of a word.
pub fn word_length(word: u32) -> u32 {
    let bytes = word.to_le_bytes();
    length(&bytes).unwrap_or(bytes.len()) as u32
}

/// The word that begins at an address, if all of it is in memory.
pub fn word_at(state: &State, address: u32) -> Option<u32> {
    let offset = state.offset(address, 1)?;
    let bytes = state.mem.get(offset..)?;
    let bytes = &bytes[..bytes.len().min(4)];
    Some(number(&bytes[..length(bytes)?]))
}

/// The first word of bytes that are one number, without those after it.
pub fn first_word(number_there: u32) -> u32 {
    let length = word_length(number_there) as usize;
    number(&number_there.to_le_bytes()[..length])
}

/// The number of some bytes, the low one first.
pub fn number(bytes: &[u8]) -> u32 {
    let low_first = bytes.iter().rev();
    low_first.fold(0, |word, byte| word << 8 | u32::from(*byte))
}

/// The digits of a word, two for each of its bytes.
pub fn digits(word: u32) -> String {
    let digits = 2 * word_length(word) as usize;
    format!("{word:0digits$x}")
}

/// A word's line in the lister's form, for a person: without its end, and its tabs as spaces.
pub fn instruction(word: u32) -> String {
    let bytes = word.to_le_bytes();
    let line = list(&bytes[..word_length(word) as usize]);
    spaced(line.unwrap_or_default().trim_end())
}

/// A line of a listing with its tabs as spaces.
pub fn spaced(line: &str) -> String {
    line.replace('\t', " ")
}
