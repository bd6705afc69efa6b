//! State files, version 4: text that holds all that a run is lent, with a check word at its end.
//! The format is docs/STATE.md's. A file is read only if writing what was read gives the same
//! bytes; those of older versions too. Version 1 has no window: the bits are of all of memory. Versions
//! before 3 have no stack mark and no timer: their words are 0. Versions before 4 have no edition: it is
//! the report's.

#[cfg(test)]
mod tests;

use crate::digits::{pairs, word};
use crate::file;
use lent::{place_name, State, Window};
use lent::{CAPABILITIES, CONTROL, MSHWM, MSTATUS, REPORT_EDITION, WORDS};
use std::fmt::Write;

/// The first line, before the version.
const FORMAT: &str = "oddersnow state";

/// The versions that are read.
#[derive(Clone, Copy, PartialEq, Eq, PartialOrd, Debug)]
enum Version {
    One,
    Two,
    Three,
    Four,
}

impl Version {
    fn header(self) -> String {
        let number = match self {
            Version::One => 1,
            Version::Two => 2,
            Version::Three => 3,
            Version::Four => 4,
        };
        format!("{FORMAT} {number}")
    }

    /// The words of a register file that the machine of that version took. Those that were not there yet are 0.
    fn words(self) -> usize {
        match self {
            Version::One | Version::Two => MSHWM,
            Version::Three | Version::Four => WORDS,
        }
    }
}
/// Bytes on a line.
const LINE: usize = 32;
/// The most elements of a buffer that is read. It is far more than the machine takes, and still
/// little to hold.
const MOST: usize = 1 << 24;

/// The text of a state.
pub fn write(state: &State) -> String {
    write_as(Version::Four, state)
}

fn write_as(version: Version, state: &State) -> String {
    let mut text = format!("{}\nstart {:08x}\n", version.header(), state.start);
    if version >= Version::Two {
        let Window { start, size } = state.window;
        let _ = writeln!(text, "window {start:08x} {size:08x}");
    }
    if version >= Version::Four {
        let _ = writeln!(text, "edition {:08x}", state.edition);
    }
    let _ = writeln!(text, "registers {}", state.regs.len());
    let mut place = 0;
    while place < state.regs.len() {
        let end = (place + row_words(place)).min(state.regs.len());
        text.push_str(&row_name(version, place));
        for word in &state.regs[place..end] {
            let _ = write!(text, " {word:08x}");
        }
        text.push('\n');
        place = end;
    }
    write_bytes(&mut text, "memory", &state.mem);
    write_bytes(&mut text, "tags", &state.tags);
    write_bytes(&mut text, "revoked", &state.revoked);
    let check = checksum(text.as_bytes());
    let _ = writeln!(text, "check {check:08x}");
    text
}

/// The words of the line that starts at a word: three of a capability, then one each.
fn row_words(place: usize) -> usize {
    if place < 3 * CAPABILITIES {
        3
    } else {
        1
    }
}

fn row_name(version: Version, place: usize) -> String {
    match place {
        0..MSTATUS => place_name(place / 3),
        _ if place < version.words() => CONTROL[place - MSTATUS].into(),
        _ => format!("word{place}"),
    }
}

/// A buffer: its size, and the lines of it that are not all zero, each after its offset.
fn write_bytes(text: &mut String, name: &str, bytes: &[u8]) {
    let _ = writeln!(text, "{name} {}", bytes.len());
    for (index, line) in bytes.chunks(LINE).enumerate() {
        if line.iter().any(|&byte| byte != 0) {
            let _ = write!(text, "{:08x} ", index * LINE);
            for byte in line {
                let _ = write!(text, "{byte:02x}");
            }
            text.push('\n');
        }
    }
}

/// CRC-32, as in IEEE 802.3: it tells every damage of up to 32 bits in a row.
fn checksum(bytes: &[u8]) -> u32 {
    let step = |crc: u32| crc >> 1 ^ if crc & 1 == 1 { 0xEDB8_8320 } else { 0 };
    let byte = |crc: u32, byte: &u8| (0..8).fold(crc ^ u32::from(*byte), |crc, _| step(crc));
    !bytes.iter().fold(!0, byte)
}

/// The state of a file's bytes, or what is wrong with them.
pub fn read(bytes: &[u8]) -> Result<State, String> {
    let text = file::text(bytes)?;
    let versions = [Version::Four, Version::Three, Version::Two, Version::One];
    let first = text.lines().next();
    let mut versions = versions.into_iter();
    let version = versions.find(|version| first == Some(&version.header()));
    let Some(version) = version else {
        let (old, new) = (Version::One.header(), Version::Four.header());
        return Err(format!(
            "line 1 is neither \"{new}\" nor that of an older version from \"{old}\" on"
        ));
    };
    check(text)?;
    let mut lines = Lines { text, number: 0 };
    let mut state = lines.state(version).map_err(|()| {
        let number = lines.number;
        format!("line {number} is not the line of a state file that belongs there")
    })?;
    let again = write_as(version, &state);
    if again == text {
        if state.regs.len() == version.words() {
            state.regs.resize(WORDS, 0);
        }
        return Ok(state);
    }
    let differing = again.lines().zip(text.lines()).take_while(|(a, b)| a == b);
    let number = differing.count() + 1;
    Err(format!("line {number} is not written as a state file's is"))
}

/// Checks the last line against the text before it.
fn check(text: &str) -> Result<(), String> {
    let cut_short = || "it is cut short: its last line is no check word".to_string();
    let body_end = text
        .strip_suffix('\n')
        .and_then(|text| text.rfind('\n'))
        .ok_or_else(cut_short)?;
    let (body, last) = text.split_at(body_end + 1);
    let digits = last.trim_end().strip_prefix("check ");
    let said = digits.and_then(word).ok_or_else(cut_short)?;
    let found = checksum(body.as_bytes());
    if said == found {
        Ok(())
    } else {
        Err(format!(
            "it is damaged: its check word is {said:08x}, its contents give {found:08x}"
        ))
    }
}

/// The lines that are still to be read, and the number of the last one that was.
struct Lines<'a> {
    text: &'a str,
    number: usize,
}

impl<'a> Lines<'a> {
    fn state(&mut self, version: Version) -> Result<State, ()> {
        self.next()?;
        let start = word(self.after("start")?).ok_or(())?;
        let window = match version {
            Version::One => None,
            Version::Two | Version::Three | Version::Four => Some(self.window()?),
        };
        let edition = match version {
            Version::One | Version::Two | Version::Three => REPORT_EDITION,
            Version::Four => word(self.after("edition")?).ok_or(())?,
        };
        let regs = self.registers(version)?;
        let mem = self.bytes("memory")?;
        let tags = self.bytes("tags")?;
        let revoked = self.bytes("revoked")?;
        self.after("check")?;
        Ok(State {
            regs,
            start,
            window: window.unwrap_or(Window::whole(mem.len())),
            mem,
            tags,
            revoked,
            edition,
        })
    }

    fn window(&mut self) -> Result<Window, ()> {
        let (start, size) = self.after("window")?.split_once(' ').ok_or(())?;
        Ok(Window {
            start: word(start).ok_or(())?,
            size: word(size).ok_or(())?,
        })
    }

    fn next(&mut self) -> Result<&'a str, ()> {
        self.number += 1;
        let (line, rest) = self.text.split_once('\n').ok_or(())?;
        self.text = rest;
        Ok(line)
    }

    /// The rest of a line that starts with a word and a space.
    fn after(&mut self, name: &str) -> Result<&'a str, ()> {
        let rest = self.next()?.strip_prefix(name).ok_or(())?;
        rest.strip_prefix(' ').ok_or(())
    }

    /// A count of elements after its name.
    fn count(&mut self, name: &str) -> Result<usize, ()> {
        let count: Option<usize> = self.after(name)?.parse().ok();
        count.filter(|count| *count <= MOST).ok_or(())
    }

    fn registers(&mut self, version: Version) -> Result<Vec<u32>, ()> {
        let count = self.count("registers")?;
        let mut words = Vec::new();
        while words.len() < count {
            let row = self.after(&row_name(version, words.len()))?;
            let expected = row_words(words.len()).min(count - words.len());
            let read: Option<Vec<u32>> = row.split(' ').map(word).collect();
            words.extend(read.filter(|read| read.len() == expected).ok_or(())?);
        }
        Ok(words)
    }

    fn bytes(&mut self, name: &str) -> Result<Vec<u8>, ()> {
        let mut bytes = vec![0; self.count(name)?];
        while self
            .text
            .starts_with(|letter: char| letter.is_ascii_hexdigit())
        {
            if self.text.starts_with("check") {
                break;
            }
            let (offset, digits) = self.next()?.split_once(' ').ok_or(())?;
            let offset = word(offset).ok_or(())? as usize;
            let line = pairs(digits)?;
            let end = offset.checked_add(line.len()).ok_or(())?;
            bytes.get_mut(offset..end).ok_or(())?.copy_from_slice(&line);
        }
        Ok(bytes)
    }
}
