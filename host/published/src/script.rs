//! The machine-readable lines of a capability program: comments that say what is lent, how far to
//! run, and what must then hold.
//!
//! ```text
//! // memory: START SIZE          the memory; the program is linked at its start
//! // lend: PLACE = VALUE         what a register or a control word holds
//! // window: FIRST END           the bytes that have revocation bits, all of them clear; else memory's
//! // revoke: FIRST END           the revocation bits of those bytes
//! // edition: NUMBER             the edition of the architecture; else the report's
//! // run: STEPS
//! // expect: PLACE = VALUE
//! ```
//!
//! A place is a capability (c4, PCC, MEPCC: address, metadata and tag), one in memory (cap LABEL),
//! an integer (x4: the metadata and the tag are 0), a control word (mcause), a word of memory
//! (word LABEL), or a count of the last run (retired, trapped). A value is a number or a label, or
//! a sum of them.

use crate::tools::Symbols;
use lent::{CONTROL, MSTATUS, PCC, SPECIAL};

/// A place of the state.
#[derive(Clone, PartialEq, Eq, Debug)]
pub enum Place {
    /// A capability, by its place in the register file.
    Capability(usize),
    /// An integer in a general register.
    Integer(usize),
    /// A control word, by its place in the register file.
    Control(usize),
    Word(u32),
    /// A granule of memory: address, metadata and tag.
    Stored(u32),
    Retired,
    Trapped,
}

/// One line, with its numbers.
#[derive(Clone, PartialEq, Eq, Debug)]
pub enum Line {
    Memory(u32, u32),
    Lend(Place, Vec<u32>),
    Window(u32, u32),
    Revoke(u32, u32),
    Edition(u32),
    Run(u32),
    Expect(Place, Vec<u32>),
}

/// The lines of a source, each with the number of its line in the file.
pub fn lines(source: &str, symbols: &Symbols) -> Result<Vec<(usize, Line)>, String> {
    let mut found = Vec::new();
    for (number, text) in source.lines().enumerate() {
        let comment = text.trim_start().strip_prefix("// ");
        let Some((kind, rest)) = comment.and_then(|comment| comment.split_once(": ")) else {
            continue;
        };
        let line =
            line(kind, rest, symbols).map_err(|error| format!("line {}: {error}", number + 1))?;
        found.extend(line.map(|line| (number + 1, line)));
    }
    Ok(found)
}

fn line(kind: &str, rest: &str, symbols: &Symbols) -> Result<Option<Line>, String> {
    let two = |rest| match values(rest, symbols)?[..] {
        [first, second] => Ok((first, second)),
        _ => Err(format!("{rest}: not two values")),
    };
    Ok(Some(match kind {
        "memory" => two(rest).map(|(start, size)| Line::Memory(start, size))?,
        "window" => two(rest).map(|(first, end)| Line::Window(first, end))?,
        "revoke" => two(rest).map(|(first, end)| Line::Revoke(first, end))?,
        "edition" => Line::Edition(value(rest, symbols)?),
        "run" => Line::Run(value(rest, symbols)?),
        "lend" => assigned(rest, symbols).map(|(place, values)| Line::Lend(place, values))?,
        "expect" => assigned(rest, symbols).map(|(place, values)| Line::Expect(place, values))?,
        _ => return Ok(None),
    }))
}

/// A place and its value.
fn assigned(text: &str, symbols: &Symbols) -> Result<(Place, Vec<u32>), String> {
    let (name, rest) = text.split_once(" = ").ok_or(format!("{text}: no ="))?;
    let place = place(name.trim(), symbols)?;
    let values = values(rest, symbols)?;
    let wanted = match place {
        Place::Capability(_) | Place::Stored(_) => 3,
        _ => 1,
    };
    if values.len() == wanted {
        Ok((place, values))
    } else {
        Err(format!("{text}: not {wanted} values"))
    }
}

fn place(name: &str, symbols: &Symbols) -> Result<Place, String> {
    let index = |names: &[&str]| names.iter().position(|other| *other == name);
    if let Some(index) = index(&SPECIAL) {
        return Ok(Place::Capability(PCC + index));
    }
    if let Some(index) = index(&CONTROL) {
        return Ok(Place::Control(MSTATUS + index));
    }
    if let Some((kind, address)) = name.split_once(' ') {
        let address = value(address, symbols)?;
        return match kind {
            "word" => Ok(Place::Word(address)),
            "cap" => Ok(Place::Stored(address)),
            _ => Err(format!("{name}: no place")),
        };
    }
    let number = |start| {
        let digits = name.strip_prefix(start)?;
        digits.parse::<usize>().ok().filter(|number| *number < 16)
    };
    match (name, number('c'), number('x')) {
        ("retired", ..) => Ok(Place::Retired),
        ("trapped", ..) => Ok(Place::Trapped),
        (_, Some(number), _) => Ok(Place::Capability(number)),
        (_, _, Some(number)) => Ok(Place::Integer(number)),
        _ => Err(format!("{name}: no place")),
    }
}

fn values(text: &str, symbols: &Symbols) -> Result<Vec<u32>, String> {
    text.split_whitespace()
        .map(|part| value(part, symbols))
        .collect()
}

/// A sum of numbers and labels.
fn value(text: &str, symbols: &Symbols) -> Result<u32, String> {
    let part = |part: &str| {
        let part = part.trim();
        let digits = part.replace('_', "");
        let number = match digits.strip_prefix("0x") {
            Some(hex) => u32::from_str_radix(hex, 16).ok(),
            None => digits.parse().ok(),
        };
        let known = number.or_else(|| symbols.get(part).copied());
        known.ok_or_else(|| format!("{part}: no number and no label"))
    };
    text.split('+')
        .try_fold(0u32, |sum, text| Ok(sum.wrapping_add(part(text)?)))
}

#[cfg(test)]
mod tests {
    use super::*;

    #[test]
    fn lines_are_read_and_prose_is_not() {
        let symbols = Symbols::from([("table".to_string(), 0x100)]);
        let source =
            "// Prose. More: prose\n  // run: 20\ncode: nop\n// expect: c4 = table+8 0x7 1\n\
                      // expect: x5 = 3\n// expect: word table = 0x10\n// lend: mstatus = 8\n";
        let read = lines(source, &symbols).unwrap();
        let expected = [
            (2, Line::Run(20)),
            (4, Line::Expect(Place::Capability(4), vec![0x108, 7, 1])),
            (5, Line::Expect(Place::Integer(5), vec![3])),
            (6, Line::Expect(Place::Word(0x100), vec![0x10])),
            (7, Line::Lend(Place::Control(63), vec![8])),
        ];
        assert_eq!(read, expected);
    }

    #[test]
    fn wrong_lines_are_refused() {
        let refused = |source| lines(source, &Symbols::new()).is_err();
        assert!(refused("// expect: c16 = 1 2 3"));
        assert!(refused("// expect: c4 = 1"));
        assert!(refused("// expect: x4 1"));
        assert!(refused("// run: many"));
        assert!(refused("// expect: byte 0x4 = 1"));
    }
}
