//! The options that `run` and `shelf` have in common, once for both: what a machine starts with, and how far a run goes
//! and by what it is judged.

use super::{even, is_number, not_zero, number, size, word};
use crate::digits::pairs;
use crate::edition::Edition;
use crate::image::Format;
use crate::proved::engine::Engine;
use clap::{ArgAction, Args};
use lent::{place_name, CAPABILITIES};

/// What a machine starts with, whatever is loaded. A debugger's machine has these too.
#[derive(Args, Clone, Default, PartialEq, Eq, Debug)]
pub struct Setting {
    /// The form of the images
    #[arg(long, value_enum, default_value_t = Format::Auto)]
    pub format: Format,
    /// The address of memory's first byte [default: 0x20000000, or the map's]
    #[arg(long, value_parser = word)]
    pub start: Option<u32>,
    /// The bytes of memory [default: 65536, or the map's]
    #[arg(long, value_parser = size)]
    pub size: Option<u64>,
    /// The part of memory that has revocation bits, its start counted from memory's [default: the
    /// map's region heap, else all of memory]
    #[arg(long, value_names = ["START", "SIZE"], num_args = 2, value_parser = word, action = ArgAction::Set)]
    pub window: Option<Vec<u32>>,
    /// Set the revocation bits of a range of addresses at the start, whole granules of 8 bytes in the window; may be
    /// given again
    #[arg(long, value_names = ["START", "LENGTH"], num_args = 2, value_parser = word, action = ArgAction::Append)]
    pub revoke: Vec<u32>,
    /// The stack that the mark is set for, by its first address and its bytes [default: the map's region
    /// stack, else none]
    #[arg(long, value_names = ["START", "SIZE"], num_args = 2, value_parser = word, action = ArgAction::Set)]
    pub stack: Option<Vec<u32>>,
    /// The time at the start, which goes on by one a step [default: 0, or the saved state's]
    #[arg(long, value_name = "NUMBER", value_parser = number)]
    pub time: Option<u64>,
    /// The time from which on the timer interrupts where MIE is set [default: 2^64 - 1, or the saved state's]
    #[arg(long, value_name = "NUMBER", value_parser = number)]
    pub compare: Option<u64>,
    /// The edition of the architecture [default: report]
    #[arg(long, value_enum)]
    pub edition: Option<Edition>,
    /// The engine that makes the steps; both give the same answers
    #[arg(long, value_enum, default_value_t)]
    pub engine: Engine,
    /// The address of the first instruction, even [default: the first image's, else memory's start]
    #[arg(long, value_parser = even)]
    pub entry: Option<u32>,
}

/// What of a setting no saved state goes with.
pub const NOT_WITH_STATE: [&str; 6] = ["start", "size", "window", "stack", "edition", "entry"];

/// How far a run goes, what is counted on the way, and by what it is judged at the end.
#[derive(Args, Clone, Default, PartialEq, Eq, Debug)]
pub struct Terms {
    /// The most steps to run, of each image
    #[arg(long, value_parser = number, default_value = "1000000")]
    pub steps: u64,
    /// Sweep all of memory after every so many steps
    #[arg(long, value_name = "STEPS", value_parser = not_zero)]
    pub sweep: Option<u64>,
    /// Count the stores that touch a range of addresses; may be given twice
    #[arg(long, value_names = ["START", "LENGTH"], num_args = 2, value_parser = word, action = ArgAction::Append)]
    pub watch: Vec<u32>,
    /// Go on after a trap, at MTCC; a run that then ends is good
    #[arg(long)]
    pub through_traps: bool,
    /// The program has ended where it comes to an address or a symbol of the image, and nowhere else; the steps are then
    /// made one by one
    #[arg(long, value_name = "ADDRESS|SYMBOL")]
    pub exit_at: Option<String>,
    /// A program that still runs when the steps are used up, or waits for its timer, is good nevertheless
    #[arg(long)]
    pub may_run_on: bool,
    /// What a register's address must be at the end, which the program has to come to; may be given again
    #[arg(long, value_name = "REGISTER=VALUE", value_parser = exit_value)]
    pub exit_value: Vec<ExitValue>,
    /// The bytes, as pairs of digits, that must be at an address or a symbol at the end, which the program has to come to;
    /// may be given again
    #[arg(long, value_name = "ADDRESS=HEX", value_parser = expect)]
    pub expect: Vec<Expect>,
    /// Show each byte that is stored to an address or a symbol as text, as it comes [default: the start of the map's region
    /// console, else none]
    #[arg(long, value_name = "ADDRESS")]
    pub console: Option<String>,
    /// Whether stores into a hole of the map, or a region of it without w, are counted and make the run bad
    #[arg(long, value_name = "WHETHER", value_enum, default_value_t)]
    pub map_stores: MapStores,
}

impl Terms {
    /// Whether something of the end is named, so that the program has to come to one.
    pub fn names_an_end(&self) -> bool {
        self.exit_at.is_some() || !self.exit_value.is_empty() || !self.expect.is_empty()
    }

    /// What of them is the same for any image: without the places that may be symbols or lines of it.
    pub fn of_any_image(&self) -> Terms {
        let is_number = |place: &String| is_number(place);
        let mut terms = self.clone();
        terms.exit_at = terms.exit_at.filter(is_number);
        terms.console = terms.console.filter(is_number);
        terms.expect.retain(|expect| is_number(&expect.place));
        terms
    }
}

/// Whether stores are judged by the map.
#[derive(Clone, Copy, PartialEq, Eq, Debug, Default, clap::ValueEnum)]
pub enum MapStores {
    #[default]
    On,
    Off,
}

/// What a register must hold at the end.
#[derive(Clone, Copy, PartialEq, Eq, Debug)]
pub struct ExitValue {
    pub place: usize,
    pub value: u32,
}

/// The bytes that must be at a place at the end, which is an address or a symbol.
#[derive(Clone, PartialEq, Eq, Debug)]
pub struct Expect {
    pub place: String,
    pub bytes: Vec<u8>,
}

/// The names of c0 to c15 that gdb has for integers, from c0 on.
const INTEGERS: [&str; 16] = [
    "zero", "ra", "sp", "gp", "tp", "t0", "t1", "t2", "s0", "s1", "a0", "a1", "a2", "a3", "a4",
    "a5",
];

/// The place of a register by a name of its capability, c10 or PCC, or of its address, x10 or a0.
fn register(name: &str) -> Option<usize> {
    let integer = |place: usize| format!("x{place}") == name || INTEGERS.get(place) == Some(&name);
    (0..CAPABILITIES).find(|&place| {
        place_name(place).eq_ignore_ascii_case(name) || place < INTEGERS.len() && integer(place)
    })
}

fn exit_value(text: &str) -> Result<ExitValue, String> {
    let (name, value) = text.split_once('=').ok_or("no REGISTER=VALUE")?;
    let place = register(name).ok_or_else(|| format!("no register has the name '{name}'"))?;
    let value = word(value)?;
    Ok(ExitValue { place, value })
}

fn expect(text: &str) -> Result<Expect, String> {
    let (place, digits) = text.split_once('=').ok_or("no ADDRESS=HEX")?;
    let bytes = pairs(digits).map_err(|()| "not pairs of hexadecimal digits")?;
    match bytes.is_empty() {
        true => Err("no byte to compare with".into()),
        false => Ok(Expect {
            place: place.into(),
            bytes,
        }),
    }
}

#[cfg(test)]
mod tests {
    use super::*;

    #[test]
    fn a_register_has_the_names_of_the_bench_and_of_gdb() {
        for (name, place) in [("c0", 0), ("c15", 15), ("x10", 10), ("a0", 10), ("sp", 2)] {
            assert_eq!(register(name), Some(place), "{name}");
        }
        for (name, place) in [("PCC", 16), ("pcc", 16), ("MEPCC", 20)] {
            assert_eq!(register(name), Some(place), "{name}");
        }
        for name in ["", "c16", "x16", "c", "a6", "c01", "x-1"] {
            assert_eq!(register(name), None, "{name}");
        }
    }

    #[test]
    fn what_is_expected_is_read_or_told() {
        let value = exit_value("a0=0x2a");
        assert_eq!((value.unwrap().place, value_of("c10=42")), (10, 42));
        for bad in ["a0", "a0=", "a0=-1", "a0=0x100000000", "q=1"] {
            assert!(exit_value(bad).is_err(), "{bad}");
        }
        let read = expect("done=00fF").unwrap();
        assert_eq!((read.place.as_str(), read.bytes), ("done", vec![0, 0xFF]));
        for bad in ["done", "done=", "done=0", "done=0g"] {
            assert!(expect(bad).is_err(), "{bad}");
        }
    }

    fn value_of(text: &str) -> u32 {
        exit_value(text).unwrap().value
    }
}
