//! The registers that a client sees, by number: x0 to x15 and pc as gdb's own for RV32E, then each capability with its
//! metadata, tag and bounds, and the control words.

#[cfg(test)]
mod tests;

use crate::probe::value::{integer, moved, untagged, with_metadata};
use crate::proved::{self, bounds};
use crate::report;
use lent::{
    place_name, Capability, State, CAPABILITIES, COMPARE, MCAUSE, MSHWM, MSHWMB, MSTATUS, MTVAL,
    PCC, TIME,
};

/// gdb's number of pc; those of x0 to x15 are 0 to 15.
pub const PC: usize = 32;
/// The general registers.
const GENERAL: usize = 16;

/// The fields of a capability as it is sent, each with its bytes.
pub const FIELDS: [(&str, usize); 5] = [
    ("address", 4),
    ("metadata", 4),
    ("tag", 4),
    ("low", 4),
    ("high", 8),
];

/// What of the register file a register is.
#[derive(Clone, Copy, PartialEq, Eq, Debug)]
pub enum Part {
    Address(usize),
    /// A capability with its bounds.
    Capability(usize),
    /// One control word.
    Word(usize),
    /// A number of two words.
    Long(usize),
}

impl Part {
    /// How many bytes a client is sent.
    pub fn bytes(self) -> usize {
        match self {
            Part::Address(_) | Part::Word(_) => 4,
            Part::Long(_) => 8,
            Part::Capability(_) => FIELDS.iter().map(|(_, bytes)| bytes).sum(),
        }
    }
}

#[derive(Clone, PartialEq, Eq, Debug)]
pub struct Register {
    pub number: usize,
    pub name: String,
    pub part: Part,
}

/// All registers in the order of their numbers.
pub fn registers() -> Vec<Register> {
    let general = (0..GENERAL).map(|place| (format!("x{place}"), Part::Address(place)));
    let pc = ("pc".to_string(), Part::Address(PCC));
    let whole = (0..CAPABILITIES).map(|place| {
        let name = place_name(place).to_lowercase();
        (name, Part::Capability(place))
    });
    let rest = [pc].into_iter().chain(whole).chain(control());
    let numbered = general.zip(0..).chain(rest.zip(PC..));
    numbered
        .map(|((name, part), number)| Register { number, name, part })
        .collect()
}

fn control() -> [(String, Part); 7] {
    [
        ("mstatus", Part::Word(MSTATUS)),
        ("mcause", Part::Word(MCAUSE)),
        ("mtval", Part::Word(MTVAL)),
        ("mshwm", Part::Word(MSHWM)),
        ("mshwmb", Part::Word(MSHWMB)),
        ("time", Part::Long(TIME)),
        ("compare", Part::Long(COMPARE)),
    ]
    .map(|(name, part)| (name.into(), part))
}

/// The bytes of a register, the low one of each number first.
pub fn value(state: &State, part: Part) -> Vec<u8> {
    match part {
        Part::Address(place) => state.capability(place).address.to_le_bytes().to_vec(),
        Part::Word(index) => state.register(index).to_le_bytes().to_vec(),
        Part::Long(index) => state.long(index).to_le_bytes().to_vec(),
        Part::Capability(place) => {
            let value = state.capability(place);
            let bounds = bounds(value);
            let words = [value.address, value.metadata, value.tag, bounds.low];
            let mut bytes: Vec<u8> = words.iter().flat_map(|word| word.to_le_bytes()).collect();
            bytes.extend(bounds.high.to_le_bytes());
            bytes
        }
    }
}

/// Writes a register, or says why not. What is written by hand gains no tag: x1 to x15 then hold an integer, as an
/// instruction leaves it; pc and a capability's address are moved as CSetAddr moves them; other metadata are set as CSetHigh
/// sets them, without a tag. Nothing is changed where the machine would refuse what is left.
pub fn write(state: &mut State, part: Part, bytes: &[u8]) -> Result<(), String> {
    if bytes.len() != part.bytes() {
        return Err("another number of bytes".into());
    }
    let mut written = state.clone();
    match part {
        Part::Word(index) => written.regs[index] = number(bytes) as u32,
        Part::Long(index) => written.set_long(index, number(bytes)),
        Part::Address(place @ 0..GENERAL) => {
            written.set(place, integer(number(bytes) as u32));
        }
        Part::Address(place) => {
            let value = moved(state.capability(place), number(bytes) as u32);
            written.set(place, value);
        }
        Part::Capability(place) => {
            let value = state.capability(place);
            if bytes[12..] != self::value(state, part)[12..] {
                return Err("bounds come from address and metadata".into());
            }
            written.set(place, held(value, bytes)?);
        }
    }
    if let Err(refusal) = proved::run(&mut written, 0) {
        return Err(report::refused(refusal, &written));
    }
    *state = written;
    Ok(())
}

/// What a register with a capability holds after a write of its address, metadata or tag.
fn held(value: Capability, bytes: &[u8]) -> Result<Capability, &'static str> {
    let word = |place: usize| number(&bytes[4 * place..4 * place + 4]) as u32;
    let (address, metadata, tag) = (word(0), word(1), word(2));
    if tag > value.tag {
        return Err("a tag is not given by hand");
    }
    let mut held = value;
    if address != value.address {
        held = moved(value, address);
    }
    if metadata != value.metadata {
        held = with_metadata(held, metadata);
    }
    match tag < held.tag {
        true => Ok(untagged(held)),
        false => Ok(held),
    }
}

/// The number of bytes, the low one first.
fn number(bytes: &[u8]) -> u64 {
    let bytes = bytes.iter().rev();
    bytes.fold(0, |number, byte| number << 8 | u64::from(*byte))
}
