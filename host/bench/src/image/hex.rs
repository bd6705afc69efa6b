//! Intel HEX: one record a line, each with its own sum.

#[cfg(test)]
mod tests;

use super::{Image, Segment};
use crate::digits::pairs;
use crate::file;
use std::io::BufRead;

// The kinds of records.
const DATA: u8 = 0;
const END: u8 = 1;
const SEGMENT_BASE: u8 = 2;
const SEGMENT_START: u8 = 3;
const LINEAR_BASE: u8 = 4;
const LINEAR_START: u8 = 5;

/// One record: where in the present 64 KiB, its kind and its data.
struct Record {
    offset: u16,
    kind: u8,
    data: Vec<u8>,
}

/// Data at an address, and where it stands in the file: its line, and the byte that this begins at.
pub struct Data {
    pub address: u32,
    pub bytes: Vec<u8>,
    pub line: usize,
    pub place: u64,
}

/// The image of a HEX file, or what is wrong with it and at which line.
pub fn read(bytes: &[u8]) -> Result<Image, String> {
    let mut segments: Vec<Segment> = Vec::new();
    let entry = scan(bytes, &mut |data| match segments.last_mut() {
        // Data that goes on from the last segment is a part of it.
        Some(last) if last.end() == u64::from(data.address) => last.bytes.extend(data.bytes),
        _ => segments.push(Segment {
            address: data.address,
            bytes: data.bytes,
            zeros: 0,
            origin: origin(data.line),
        }),
    })?;
    Ok(Image {
        segments,
        entry,
        ..Image::default()
    })
}

/// Where data comes from that begins at a line.
pub fn origin(line: usize) -> String {
    format!("the data from line {line} on")
}

/// Shows all data of a HEX file in its order, and says where the program starts; or what is wrong with it and at which line.
pub fn scan(from: impl BufRead, see: &mut dyn FnMut(Data)) -> Result<Option<u32>, String> {
    let mut lines = Lines::of(from);
    let (mut base, mut entry, mut ended, mut some) = (0, None, false, false);
    while let Some((line, number, place)) = lines.next()? {
        let at = |reason: &str| format!("line {number}: {reason}");
        if ended {
            return Err(at("a record after the end record"));
        }
        match taken(record(line).map_err(at)?, base).map_err(at)? {
            Taken::Data { address, bytes } => {
                some = true;
                see(Data {
                    address,
                    bytes,
                    line: number,
                    place,
                });
            }
            Taken::Base(address) => base = address,
            Taken::Start(address) => entry = Some(address),
            Taken::End => ended = true,
            Taken::Nothing => {}
        }
    }
    match (ended, some) {
        (false, _) => Err("it is cut short: there is no end record".into()),
        (_, false) => Err("it has no data to load".into()),
        _ => Ok(entry),
    }
}

/// Shows bytes of a part from its first record on, those from one place of it up to another.
pub fn pieces<E: From<String>>(
    from: impl BufRead,
    (first, end): (u64, u64),
    see: &mut dyn FnMut(&[u8]) -> Result<(), E>,
) -> Result<(), E> {
    let (mut lines, mut at) = (Lines::of(from), 0);
    while at < end {
        let Some((line, ..)) = lines.next()? else {
            return Err("it has changed".to_string().into());
        };
        let record = record(line).map_err(str::to_string)?;
        if record.kind != DATA {
            continue;
        }
        let place = |wanted: u64| (wanted.clamp(at, at + record.data.len() as u64) - at) as usize;
        see(&record.data[place(first)..place(end)])?;
        at += record.data.len() as u64;
    }
    Ok(())
}

/// The lines of a file that have something on them, each with the byte that it begins at.
struct Lines<R> {
    from: R,
    line: Vec<u8>,
    number: usize,
    place: u64,
}

impl<R: BufRead> Lines<R> {
    fn of(from: R) -> Lines<R> {
        Lines {
            from,
            line: Vec::new(),
            number: 0,
            place: 0,
        }
    }

    /// The next line, without what is white at its end, its number and its place.
    fn next(&mut self) -> Result<Option<(&str, usize, u64)>, String> {
        loop {
            self.line.clear();
            let read = self.from.read_until(b'\n', &mut self.line);
            let length = read.map_err(|error| file::why(&error))? as u64;
            if length == 0 {
                return Ok(None);
            }
            self.number += 1;
            self.place += length;
            if !self.line.trim_ascii().is_empty() {
                let number = self.number;
                let text = std::str::from_utf8(&self.line);
                let text = text.map_err(|_| format!("line {number} is not text"))?;
                return Ok(Some((text.trim_end(), number, self.place - length)));
            }
        }
    }
}

/// The record of a line.
fn record(line: &str) -> Result<Record, &'static str> {
    let digits = line
        .strip_prefix(':')
        .ok_or("a record starts with a colon")?;
    let bytes = pairs(digits).map_err(|()| "not pairs of hexadecimal digits")?;
    let [count, high, low, kind, rest @ ..] = bytes.as_slice() else {
        return Err("the record is too short");
    };
    if rest.len() != usize::from(*count) + 1 {
        return Err("the record's length is not the one it says");
    }
    if bytes.iter().fold(0u8, |sum, byte| sum.wrapping_add(*byte)) != 0 {
        return Err("the record's sum is wrong");
    }
    Ok(Record {
        offset: u16::from_be_bytes([*high, *low]),
        kind: *kind,
        data: rest[..rest.len() - 1].to_vec(),
    })
}

/// What a record says.
enum Taken {
    Data { address: u32, bytes: Vec<u8> },
    Base(u32),
    Start(u32),
    End,
    Nothing,
}

/// What a record says, its data counted from a base.
fn taken(record: Record, base: u32) -> Result<Taken, &'static str> {
    match (record.kind, record.data.as_slice()) {
        (DATA, []) => Ok(Taken::Nothing),
        (DATA, _) => data(record, base),
        (END, []) => Ok(Taken::End),
        (SEGMENT_BASE, &[high, low]) => Ok(Taken::Base(half(high, low) << 4)),
        (LINEAR_BASE, &[high, low]) => Ok(Taken::Base(half(high, low) << 16)),
        (LINEAR_START, &[a, b, c, d]) => Ok(Taken::Start(u32::from_be_bytes([a, b, c, d]))),
        (SEGMENT_START, &[_, _, _, _]) => Err("a start for segmented code, which this is not"),
        _ => Err("no record of Intel HEX"),
    }
}

fn half(high: u8, low: u8) -> u32 {
    u16::from_be_bytes([high, low]).into()
}

/// Data where it lies.
fn data(record: Record, base: u32) -> Result<Taken, &'static str> {
    let past = "the data ends past 2^32";
    let address = base.checked_add(record.offset.into()).ok_or(past)?;
    let bytes = record.data;
    match u64::from(address) + bytes.len() as u64 > 1 << 32 {
        true => Err(past),
        false => Ok(Taken::Data { address, bytes }),
    }
}
