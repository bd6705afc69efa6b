//! The command line.

mod terms;

pub use terms::{ExitValue, Expect, MapStores, Setting, Terms};

use crate::capability_text::grouped;
use crate::colour::When;
use crate::image::Format;
use crate::probe::fetch;
use crate::reach::Never;
use clap::{ArgAction, Args, CommandFactory, Parser, Subcommand};
use std::ops::Deref;
use std::path::PathBuf;
use terms::NOT_WITH_STATE;

/// The most steps that are kept to be shown.
const MOST_LAST: u64 = 1_000_000;

/// The bench: runs an image on the proved CHERIoT machine and shows what happened.
///
/// Numbers are decimal, with commas as the bench writes them (1,000) or without, or hexadecimal after 0x. A file's name may be -,
/// which is standard input. The exit status is 0 if a run had no trap that nothing handles, broke no
/// map and left what was expected, and ended or, where no end is named, used up its steps without a trap; 1 if it is not so,
/// if two map sheets differ, if no image fits, if a run could do what it never may or if not every image of a shelf fits and
/// is good; 2 if the machine, the cutter, the lister or the assembler refused, an image does not fit the board that it is to
/// run on, or a sheet that was to be judged is bad; 3 for bad usage, a bad file or, of reach, a handover that is not reached
/// or a state that is refused; and 5 if a program did not come to its end, where --exit-at, --exit-value or --expect names
/// one, or on a shelf where nothing else is amiss. SIGINT, SIGTERM and SIGHUP end a run or a shelf with what it has, and then
/// by the signal.
#[derive(Parser)]
#[command(name = "bench", version, disable_help_subcommand = true)]
pub struct Arguments {
    #[command(subcommand)]
    pub command: Command,
    /// When to paint what a person reads; what a program reads is never painted
    #[arg(long, value_name = "WHEN", value_enum, default_value_t = When::Auto, global = true)]
    pub color: When,
}

#[derive(Subcommand)]
pub enum Command {
    /// Runs images, or a saved state
    Run(Run),
    /// Holds images, or a saved state, for a debugger
    Gdb(Gdb),
    /// Says which regions of a board any run from a handover on may write, read and execute, and by what
    Reach(Reach),
    /// Shows a saved state or a register dump: its last trap and its registers
    Explain(Explain),
    /// Sweeps a saved state's memory: takes the tags of revoked capabilities, and shows which
    Sweep(Sweep),
    /// Cuts the request [BASE, BASE + LENGTH)
    Cut(Cut),
    /// Shows the capability with an address and a metadata word
    Cap(Cap),
    /// Checks and compares board map sheets
    #[command(subcommand)]
    Sheet(SheetCommand),
    /// Says which image fits a board by its map sheet, or why none does
    Fit(Fit),
    /// Judges and runs every image of a folder on a board
    Shelf(Shelf),
    /// Lists the words of an image, each with its address and its instruction
    List(List),
    /// Assembles a listing to bytes
    Assemble(Assemble),
    /// Writes what a shell needs to complete this command's words
    Completions(Completions),
    /// Writes this command's manual page, in the form that man reads
    Manual,
}

/// What a machine starts from.
#[derive(Args, Default)]
pub struct Start {
    /// The files to load: raw, ELF or Intel HEX, with a map sheet and an empty line before it or not
    #[arg(required_unless_present = "state")]
    pub images: Vec<PathBuf>,
    #[command(flatten)]
    pub setting: Setting,
    /// A map sheet that names the board's regions; memory is then what they span, images have to lie in them, and the
    /// stores of a run are judged by it
    #[arg(long, value_name = "SHEET")]
    pub map: Option<PathBuf>,
    /// A saved state to start from instead of reset; images are loaded over it
    #[arg(long, value_name = "FILE", conflicts_with_all = NOT_WITH_STATE)]
    pub state: Option<PathBuf>,
}

impl Deref for Start {
    type Target = Setting;

    fn deref(&self) -> &Setting {
        &self.setting
    }
}

#[derive(Args, Default)]
pub struct Run {
    #[command(flatten)]
    pub from: Start,
    #[command(flatten)]
    pub terms: Terms,
    /// Where to save the state at the end
    #[arg(long, value_name = "FILE")]
    pub save: Option<PathBuf>,
    /// Stop after the first step that traps (the default)
    #[arg(long, conflicts_with = "through_traps")]
    pub until_trap: bool,
    /// Stop before a step at a number, a symbol of the image or a FILE:LINE of its source; from a saved state the first
    /// step is made nevertheless. May be given again
    #[arg(long = "break", value_name = "WHERE")]
    pub breaks: Vec<String>,
    /// Show the last so many steps before the stop
    #[arg(long, value_name = "STEPS", value_parser = last)]
    pub last: Option<u64>,
    /// Show how much of the image was executed, by symbol and region
    #[arg(long)]
    pub cover: bool,
    /// Show each step on a line, on standard error with --json
    #[arg(long)]
    pub trace: bool,
    /// Write the result as JSON
    #[arg(long)]
    pub json: bool,
    /// Where to write the result as a page, one HTML file that loads nothing
    #[arg(long, value_name = "FILE")]
    pub report: Option<PathBuf>,
    /// Write a part of memory at the end to a file, a word a line in eight digits; START is an address or a symbol
    #[arg(long, value_names = ["START", "LENGTH", "FILE"], num_args = 3, action = ArgAction::Set)]
    pub signature: Option<Vec<String>>,
}

/// The options of the start are those of a run.
impl Deref for Run {
    type Target = Start;

    fn deref(&self) -> &Start {
        &self.from
    }
}

#[derive(Args)]
pub struct Gdb {
    #[command(flatten)]
    pub from: Start,
    /// The port to listen on, on the loopback interface; 0 takes a free one
    #[arg(long, value_parser = port, default_value = "3333")]
    pub port: u16,
    /// Listen on every interface: whoever reaches the port then reads and writes the machine
    #[arg(long)]
    pub listen_anywhere: bool,
}

#[derive(Args)]
pub struct Reach {
    #[command(flatten)]
    pub from: Start,
    /// The handover, a number, a symbol of an image or a FILE:LINE of its source: PCC's address from which on
    /// runs are judged [default: the start]
    #[arg(long, value_name = "WHERE")]
    pub at: Option<String>,
    /// The most steps to the handover
    #[arg(long, value_parser = number, default_value = "1000000")]
    pub steps: u64,
    /// What no run may do, as interlock:w or keys:rw, with a region's name or holes, and the letters r, w and x; may be
    /// given more than once
    #[arg(long, value_name = "REGION:RIGHTS", value_parser = Never::read)]
    pub never: Vec<Never>,
    /// Write the result as JSON
    #[arg(long)]
    pub json: bool,
    /// Where to write the result as a page, one HTML file that loads nothing
    #[arg(long, value_name = "FILE")]
    pub report: Option<PathBuf>,
}

#[derive(Args)]
pub struct Explain {
    /// The saved state, or a register dump: text with a line for each register (docs/STATE.md)
    pub state: PathBuf,
    /// With a dump: an image that was in memory, for the word that trapped; may be given more than once
    #[arg(long, value_name = "IMAGE")]
    pub with: Vec<PathBuf>,
    /// A map sheet that names the board's regions
    #[arg(long, value_name = "SHEET")]
    pub map: Option<PathBuf>,
    /// Write the result as JSON
    #[arg(long)]
    pub json: bool,
}

#[derive(Args)]
pub struct Sweep {
    /// The saved state
    pub state: PathBuf,
    /// A map sheet that names the board's regions
    #[arg(long, value_name = "SHEET")]
    pub map: Option<PathBuf>,
    /// Where to save the swept state
    #[arg(long, value_name = "FILE")]
    pub save: Option<PathBuf>,
    /// Write the result as JSON
    #[arg(long)]
    pub json: bool,
}

#[derive(Args)]
pub struct Cut {
    #[arg(value_parser = word)]
    pub base: u32,
    #[arg(value_parser = word)]
    pub length: u32,
    /// Write the result as JSON
    #[arg(long)]
    pub json: bool,
}

#[derive(Args)]
pub struct Cap {
    #[arg(value_parser = word)]
    pub address: u32,
    #[arg(value_parser = word)]
    pub metadata: u32,
    /// Write the result as JSON
    #[arg(long)]
    pub json: bool,
}

#[derive(Subcommand)]
#[command(disable_help_subcommand = true)]
pub enum SheetCommand {
    /// Says whether a sheet is good and shows its regions, or says what is wrong with its first bad line
    Check(SheetCheck),
    /// Shows the regions in which two sheets differ
    Compare(SheetCompare),
}

#[derive(Args)]
pub struct SheetCheck {
    /// The map sheet
    pub sheet: PathBuf,
    /// Write the result as JSON
    #[arg(long)]
    pub json: bool,
}

#[derive(Args)]
pub struct List {
    /// The file to list: raw, ELF or Intel HEX
    pub image: PathBuf,
    /// The form of the image
    #[arg(long, value_enum, default_value_t = Format::Auto)]
    pub format: Format,
    /// The address of raw bytes [default: 0x20000000]
    #[arg(long, value_parser = word)]
    pub start: Option<u32>,
    /// List this part, whatever it holds: by the number of its program header in ELF, by its order from 0 in Intel HEX; may be
    /// given again [default: what may be executed]
    #[arg(long, value_name = "NUMBER", value_parser = number)]
    pub segment: Vec<u64>,
    /// List these addresses alone, from START on
    #[arg(long, value_names = ["START", "LENGTH"], num_args = 2, value_parser = word, action = ArgAction::Set)]
    pub range: Option<Vec<u32>>,
    /// Write the listing alone, in the form that assembles
    #[arg(long, conflicts_with = "json")]
    pub plain: bool,
    /// Write the result as JSON
    #[arg(long)]
    pub json: bool,
}

#[derive(Args)]
pub struct SheetCompare {
    /// The first map sheet
    pub first: PathBuf,
    /// The second map sheet
    pub second: PathBuf,
    /// Write the result as JSON
    #[arg(long)]
    pub json: bool,
}

#[derive(Args)]
pub struct Fit {
    /// The board's map sheet
    pub board: PathBuf,
    /// One image or two, each a map sheet, an empty line and a payload
    #[arg(required = true, num_args = 1..=2, value_name = "IMAGE")]
    pub images: Vec<PathBuf>,
    /// Write the result as JSON
    #[arg(long)]
    pub json: bool,
}

#[derive(Args)]
pub struct Shelf {
    /// The folder; each regular file in it is an image
    pub folder: PathBuf,
    /// The board's map sheet
    #[arg(long, value_name = "SHEET")]
    pub board: PathBuf,
    /// A file of the board's own that is loaded beside each image; may be given more than once
    #[arg(long, value_name = "FILE")]
    pub with: Vec<PathBuf>,
    #[command(flatten)]
    pub setting: Setting,
    #[command(flatten)]
    pub terms: Terms,
    /// The handover, a number, a symbol of an image or a FILE:LINE of its source: what any run from there on
    /// may write is told of each image
    #[arg(long, value_name = "WHERE")]
    pub handover: Option<String>,
    /// What no run from the handover on may do, as interlock:w, with a region's name or holes, and the letters r, w
    /// and x; may be given more than once
    #[arg(long, value_name = "REGION:RIGHTS", value_parser = Never::read, requires = "handover")]
    pub never: Vec<Never>,
    /// How many images are looked at at a time [default: as many as there are cores]
    #[arg(long, value_parser = not_zero)]
    pub jobs: Option<u64>,
    /// A folder for pages: index.html, written over none but a shelf's, and one for each image
    #[arg(long, value_name = "FOLDER")]
    pub report: Option<PathBuf>,
    /// A file that keeps the results, to go on from where it was stopped [default: results.txt in the folder of
    /// --report, else none]
    #[arg(long, value_name = "FILE")]
    pub results: Option<PathBuf>,
    /// Write the result as CSV
    #[arg(long, conflicts_with = "json")]
    pub csv: bool,
    /// Write the result as JSON
    #[arg(long)]
    pub json: bool,
}

#[derive(Args)]
pub struct Assemble {
    /// The listing, in the form that list --plain writes
    pub text: PathBuf,
    /// Where to save the bytes [default: standard output]
    #[arg(short, long, value_name = "OUT")]
    pub output: Option<PathBuf>,
}

#[derive(Args)]
pub struct Completions {
    /// The shell
    #[arg(value_enum)]
    pub shell: Shell,
}

/// A shell whose completions can be written.
#[derive(Clone, Copy, PartialEq, Eq, Debug, clap::ValueEnum)]
pub enum Shell {
    Bash,
    Zsh,
    Fish,
}

/// The command line as it is read. A value may begin with a dash, so that a number below zero is told as one.
pub fn command() -> clap::Command {
    let command = Arguments::command();
    // What a run can do without, this cannot.
    let mapped = |command: clap::Command| command.mut_arg("map", |map| map.required(true));
    dashes(command.mut_subcommand("reach", mapped))
}

fn dashes(command: clap::Command) -> clap::Command {
    let values = command
        .get_arguments()
        .filter(|argument| argument.get_action().takes_values());
    let values: Vec<clap::Id> = values.map(|argument| argument.get_id().clone()).collect();
    let below: Vec<String> = command
        .get_subcommands()
        .map(|inner| inner.get_name().into())
        .collect();
    let command = values.into_iter().fold(command, |command, id| {
        command.mut_arg(id, |argument| argument.allow_negative_numbers(true))
    });
    below.into_iter().fold(command, |command, name| {
        command.mut_subcommand(name, dashes)
    })
}

/// A number: decimal, with commas before each three digits or without, or hexadecimal after 0x.
fn number(text: &str) -> Result<u64, String> {
    let Some((digits, radix)) = digits(text) else {
        return Err("not a decimal number, nor a hexadecimal one after 0x".into());
    };
    u64::from_str_radix(&digits, radix).map_err(|_| "not below 2^64".into())
}

/// The digits of what is written as a number, and its base.
fn digits(text: &str) -> Option<(String, u32)> {
    let (digits, radix) = match text.strip_prefix("0x") {
        Some(digits) => (digits.into(), 16),
        None => (ungrouped(text), 10),
    };
    let all = digits.chars().all(|digit| digit.is_digit(radix));
    (all && !digits.is_empty()).then_some((digits, radix))
}

/// Whether a text is written as a number, of whatever size.
pub fn is_number(text: &str) -> bool {
    digits(text).is_some()
}

/// A number without the commas that reports write it with; one with others stays as it is.
fn ungrouped(text: &str) -> String {
    let digits = text.replace(',', "");
    let written = digits.parse().map(grouped);
    match written.is_ok_and(|written| written == text) {
        true => digits,
        false => text.into(),
    }
}

fn not_zero(text: &str) -> Result<u64, String> {
    match number(text)? {
        0 => Err("not 1 or more".into()),
        number => Ok(number),
    }
}

/// How many of the last steps are shown.
fn last(text: &str) -> Result<u64, String> {
    match number(text)? {
        steps @ 1..=MOST_LAST => Ok(steps),
        _ => Err("not 1 to 1000000".into()),
    }
}

fn port(text: &str) -> Result<u16, String> {
    u16::try_from(number(text)?).map_err(|_| "not 0 to 65535".into())
}

pub fn word(text: &str) -> Result<u32, String> {
    u32::try_from(number(text)?).map_err(|_| "not below 2^32".into())
}

/// An address that an instruction may have.
pub fn even(text: &str) -> Result<u32, String> {
    match word(text)? {
        address if fetch::is_place(address) => Ok(address),
        _ => Err("odd, and an instruction's address is even".into()),
    }
}

fn size(text: &str) -> Result<u64, String> {
    let size = number(text)?;
    if size <= 1 << 32 {
        Ok(size)
    } else {
        Err("more than 2^32".into())
    }
}

#[cfg(test)]
mod tests {
    use super::*;

    #[test]
    fn numbers_are_decimal_or_hexadecimal_after_0x() {
        let good = [
            ("0", 0),
            ("007", 7),
            ("0x1F", 31),
            ("0xff", 255),
            ("1,000", 1_000),
            ("12,345,678", 12_345_678),
        ];
        for (text, value) in good {
            assert_eq!(number(text), Ok(value), "{text}");
        }
        assert_eq!(number("18446744073709551615"), Ok(u64::MAX));
        for text in [
            "", "0x", "+5", "-5", "0x+5", "1_000", "1f", "0X1", " 1", "0xg", ",", "1,00",
            "1000,000", "0,001", ",100", "1,000,", "0x1,000",
        ] {
            assert!(
                number(text).unwrap_err().starts_with("not a decimal"),
                "{text}"
            );
        }
    }

    #[test]
    fn a_number_that_is_too_large_is_said_to_be() {
        for text in ["18446744073709551616", "0x10000000000000000"] {
            assert_eq!(number(text), Err("not below 2^64".into()));
        }
        assert_eq!(word("0x100000000"), Err("not below 2^32".into()));
        assert_eq!(size("0x100000001"), Err("more than 2^32".into()));
        assert_eq!(size("0x100000000"), Ok(1 << 32));
    }

    #[test]
    fn steps_between_sweeps_are_some() {
        assert_eq!((not_zero("1"), not_zero("0x10")), (Ok(1), Ok(16)));
        assert!(not_zero("0").is_err() && not_zero("x").is_err());
    }

    #[test]
    fn what_is_out_of_range_is_said_with_the_range() {
        assert_eq!((last("1"), last("0xf4240")), (Ok(1), Ok(1_000_000)));
        assert_eq!(last("0"), Err("not 1 to 1000000".into()));
        assert_eq!(last("1000001"), Err("not 1 to 1000000".into()));
        assert_eq!((port("0"), port("65535")), (Ok(0), Ok(65535)));
        assert_eq!(port("65536"), Err("not 0 to 65535".into()));
    }

    /// A number below zero is a bad number, not an option that nobody knows.
    #[test]
    fn a_negative_number_is_told_as_one() {
        for words in [
            ["bench", "cut", "-1", "2"],
            ["bench", "run", "--steps", "-5"],
        ] {
            let error = command()
                .try_get_matches_from(words)
                .unwrap_err()
                .to_string();
            assert!(error.contains("not a decimal number"), "{error}");
        }
    }

    #[test]
    fn an_instructions_address_is_even() {
        assert_eq!(even("0x20000002"), Ok(0x2000_0002));
        assert!(even("0x20000001").unwrap_err().starts_with("odd"));
        assert!(even("0x100000000").unwrap_err().starts_with("not below"));
    }
}
