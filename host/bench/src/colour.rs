//! Colours of what a person reads. They are put on at the last moment, line by line, by the forms that lines of reports,
//! listings and messages have; so no report knows of them, and what a program reads (JSON, CSV, a plain listing, a page)
//! has none.

use std::borrow::Cow;
use std::env;
use std::ffi::OsString;
use std::io::{self, IsTerminal, Write};
use std::sync::OnceLock;

/// When to paint.
#[derive(Clone, Copy, PartialEq, Eq, Debug, Default, clap::ValueEnum)]
pub enum When {
    /// On a terminal, unless NO_COLOR is set
    #[default]
    Auto,
    Always,
    Never,
}

const BAD: &str = "\x1b[1;31m";
const GOOD: &str = "\x1b[32m";
const CHANGED: &str = "\x1b[33m";
const HEAD: &str = "\x1b[1m";
const FAINT: &str = "\x1b[2m";
const PLAIN: &str = "\x1b[0m";

static ASKED: OnceLock<When> = OnceLock::new();

/// Keeps what the command line asked for.
pub fn ask(when: When) {
    let _ = ASKED.set(when);
}

/// Whether to paint what goes to a terminal, or does not.
fn wanted(when: When, terminal: bool) -> bool {
    let plain = |name| env::var_os(name).is_some_and(|value| !value.is_empty());
    match when {
        When::Always => true,
        When::Never => false,
        When::Auto => terminal && !plain("NO_COLOR") && obeys(),
    }
}

/// Whether a terminal obeys orders: it says which it is, and that it is none that does not.
pub fn obeys() -> bool {
    let name = env::var_os("TERM");
    name.is_some_and(|name| !name.is_empty() && name != "dumb")
}

fn asked() -> When {
    ASKED.get().copied().unwrap_or_default()
}

/// Whether what goes to standard output is painted.
pub fn paints() -> bool {
    wanted(asked(), io::stdout().is_terminal())
}

/// What goes to standard output.
pub fn output(text: &str) -> Cow<'_, str> {
    painted_where(paints(), text)
}

/// What goes to standard error.
pub fn error(text: &str) -> Cow<'_, str> {
    painted_where(wanted(asked(), io::stderr().is_terminal()), text)
}

fn painted_where(wanted: bool, text: &str) -> Cow<'_, str> {
    match wanted {
        true => text.split_inclusive('\n').map(painted).collect(),
        false => text.into(),
    }
}

/// For the command line's own messages, which are written before it is read: what it asks for, as far as it can be told.
pub fn of_usage(words: impl Iterator<Item = OsString>) -> clap::ColorChoice {
    let words: Vec<OsString> = words.collect();
    let named = |when: &str| {
        let joined = words.iter().any(|word| *word == *format!("--color={when}"));
        let apart = |pair: &[OsString]| pair[0] == *"--color" && pair[1] == *when;
        joined || words.windows(2).any(apart)
    };
    match (named("never"), named("always")) {
        (true, _) => clap::ColorChoice::Never,
        (_, true) => clap::ColorChoice::Always,
        _ => clap::ColorChoice::Auto,
    }
}

/// A line with the part of it that stands out painted, if there is one.
fn painted(line: &str) -> String {
    let Some((from, to, style)) = part(line.trim_end_matches('\n')) else {
        return line.into();
    };
    let (before, rest) = line.split_at(from);
    let (part, after) = rest.split_at(to - from);
    format!("{before}{style}{part}{PLAIN}{after}")
}

/// How lines that stand out as a whole begin.
const HEADS: [(&str, &str); 8] = [
    ("Trap: ", BAD),
    ("Breaks the map: ", BAD),
    ("The program has gone on", CHANGED),
    ("Neither image fits ", BAD),
    ("  register ", HEAD),
    ("  granule ", HEAD),
    ("  region  ", HEAD),
    ("image  ", HEAD),
];

/// What stands out from where it stands to the line's end.
const ENDS: [(&str, &str); 3] = [
    ("  no: ", BAD),
    ("  trap: ", BAD),
    ("  timer interrupt", BAD),
];

/// What stands out in a line, for itself.
const WORDS: [(&str, &str); 15] = [
    ("does not fit", BAD),
    ("  trapped  ", BAD),
    ("  breaks  ", BAD),
    ("  wrong  ", BAD),
    (" was expected", BAD),
    ("  running  ", CHANGED),
    (" fits ", GOOD),
    (" is never ", GOOD),
    ("no hole is ever ", GOOD),
    (" may be written, by ", BAD),
    (" may be read, by ", BAD),
    (" may be executed, by ", BAD),
    ("a good sheet", GOOD),
    ("have the same regions", GOOD),
    ("bench: ", HEAD),
];

/// The names of a trap's rows, of which each begins its line.
const ROWS: [&str; 6] = ["at", "asked", "bounds", "timer", "machine", "revoked"];

/// Digits of an address.
const ADDRESS: usize = 8;

/// The part of a line that stands out, and its style.
fn part(line: &str) -> Option<(usize, usize, &'static str)> {
    let end = line.len();
    let marks = line.trim_start_matches(' ');
    if !marks.is_empty() && marks.chars().all(|letter| matches!(letter, '^' | ' ')) {
        return Some((0, end, BAD));
    }
    let begins = HEADS.iter().find(|(head, _)| line.starts_with(head));
    if let Some((_, style)) = begins {
        return Some((0, end, style));
    }
    if let Some((at, style)) = first(line, &ENDS) {
        return Some((at.0, end, style));
    }
    if let Some(((from, to), style)) = first(line, &WORDS) {
        return Some((from, to, style));
    }
    counts(line).or_else(|| row(line)).or_else(|| address(line))
}

/// The first of some words that a line has, from its first letter to its last.
fn first(line: &str, words: &[(&str, &'static str)]) -> Option<((usize, usize), &'static str)> {
    words.iter().find_map(|(word, style)| {
        let at = line.find(word)?;
        Some(((at, at + word.len()), *style))
    })
}

/// The counts of a run: all that retired is good.
fn counts(line: &str) -> Option<(usize, usize, &'static str)> {
    let end = line.find(" trapped.")? + " trapped.".len();
    let trapped = !line[..end].contains(", 0 trapped.");
    Some((0, end, if trapped { BAD } else { GOOD }))
}

fn row(line: &str) -> Option<(usize, usize, &'static str)> {
    let word = line.strip_prefix("  ")?.split(' ').next()?;
    ROWS.contains(&word).then_some((2, 2 + word.len(), HEAD))
}

/// An address at the front of a line of a listing or of memory.
fn address(line: &str) -> Option<(usize, usize, &'static str)> {
    let digits = line.strip_prefix("  ")?.as_bytes().get(..=ADDRESS)?;
    let (address, after) = digits.split_at(ADDRESS);
    let is_address = address.iter().all(u8::is_ascii_hexdigit) && after == b" ";
    is_address.then_some((2, 2 + ADDRESS, FAINT))
}

/// Paints the lines that are written through it, each when it is whole.
pub struct Painter<W: Write> {
    out: W,
    line: Vec<u8>,
}

impl<W: Write> Painter<W> {
    pub fn new(out: W) -> Painter<W> {
        let line = Vec::new();
        Painter { out, line }
    }

    fn line_out(&mut self) -> io::Result<()> {
        let line = std::mem::take(&mut self.line);
        match std::str::from_utf8(&line) {
            Ok(text) => self.out.write_all(output(text).as_bytes()),
            Err(_) => self.out.write_all(&line),
        }
    }
}

impl<W: Write> Write for Painter<W> {
    fn write(&mut self, bytes: &[u8]) -> io::Result<usize> {
        for part in bytes.split_inclusive(|&byte| byte == b'\n') {
            self.line.extend_from_slice(part);
            if part.ends_with(b"\n") {
                self.line_out()?;
            }
        }
        Ok(bytes.len())
    }

    fn flush(&mut self) -> io::Result<()> {
        self.line_out()?;
        self.out.flush()
    }
}

#[cfg(test)]
mod tests;
