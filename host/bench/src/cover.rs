//! Which words of an image were executed: each word that retired, how often, and by named stretch how many of the
//! image's bytes that is.

#[cfg(test)]
mod tests;

use crate::image::Segment;
use crate::names::{Name, Names};
use crate::proved::{first_word, instruction, word_length};
use crate::visible::quoted;
use lent::State;
use serde_json::{json, Value};
use std::collections::BTreeMap;
use std::fmt::Write;
use std::ops::Range;

/// The words that retired, by their address.
#[derive(Clone, PartialEq, Eq, Debug)]
pub struct Cover {
    start: u32,
    size: usize,
    /// The bytes from the last word on that began there, as one number, and how often one did.
    words: BTreeMap<u32, (u32, u64)>,
}

/// A stretch of the image: its bytes, how many of them were executed, and where the others are.
#[derive(Clone, PartialEq, Eq, Debug)]
pub struct Row {
    pub name: String,
    pub start: u32,
    pub end: u64,
    pub bytes: u64,
    pub executed: u64,
    pub missed: Vec<(u64, u64)>,
}

impl Cover {
    pub fn new(state: &State) -> Cover {
        Cover {
            start: state.start,
            size: state.mem.len(),
            words: BTreeMap::new(),
        }
    }

    /// A word that retired, with the bytes after it up to four, as one number.
    pub fn retired(&mut self, address: u32, bytes: u32) {
        if (address.wrapping_sub(self.start) as usize) < self.size {
            let here = self.words.entry(address).or_default();
            *here = (bytes, here.1 + 1);
        }
    }

    /// The words that were executed: address, word, how often.
    fn executed(&self) -> impl Iterator<Item = (u64, u32, u64)> + '_ {
        let words = self.words.iter();
        words.map(|(address, (bytes, times))| (u64::from(*address), first_word(*bytes), *times))
    }

    /// For each byte of memory whether a word that was executed holds it.
    fn bytes(&self) -> Vec<bool> {
        let mut bytes = vec![false; self.size];
        for (address, word, _) in self.executed() {
            bytes[self.places(address, address + u64::from(word_length(word)))].fill(true);
        }
        bytes
    }

    /// The places in memory of the addresses [from, to), as far as memory reaches: a symbol may say that it is longer.
    fn places(&self, from: u64, to: u64) -> Range<usize> {
        let start = u64::from(self.start);
        let end = start + self.size as u64;
        let place = |address: u64| (address.clamp(start, end) - start) as usize;
        place(from)..place(to)
    }

    /// For each byte of memory whether the image has one for it.
    fn image(&self, segments: &[Segment]) -> Vec<bool> {
        let mut bytes = vec![false; self.size];
        for segment in segments {
            let from = u64::from(segment.address);
            let places = self.places(from, from + segment.bytes.len() as u64);
            bytes[places].fill(true);
        }
        bytes
    }

    /// The image's segments, then the named stretches that hold some of it.
    pub fn rows(&self, segments: &[Segment], names: &Names) -> Vec<Row> {
        let bytes: Vec<(bool, bool)> = self.image(segments).into_iter().zip(self.bytes()).collect();
        let whole = segments.iter().map(|segment| {
            let length = segment.bytes.len() as u64;
            Name::new(segment.origin.as_bytes(), segment.address, length)
        });
        let stretches: Vec<Name> = whole.chain(names.0.iter().cloned()).collect();
        let rows = stretches.iter();
        rows.map(|stretch| self.row(stretch, &bytes))
            .filter(|row| row.bytes > 0)
            .collect()
    }

    /// A stretch, by whether the image has each byte of memory and whether that was executed.
    fn row(&self, stretch: &Name, bytes: &[(bool, bool)]) -> Row {
        let (from, to) = (
            u64::from(stretch.start),
            u64::from(stretch.start) + stretch.length,
        );
        let mut row = Row {
            name: stretch.name.clone(),
            start: stretch.start,
            end: to,
            bytes: 0,
            executed: 0,
            missed: Vec::new(),
        };
        for place in self.places(from, to) {
            if let (true, executed) = bytes[place] {
                row.count(u64::from(self.start) + place as u64, executed);
            }
        }
        row
    }

    /// The bytes that were executed outside the image: what the program made itself.
    pub fn outside(&self, segments: &[Segment]) -> u64 {
        let bytes = self.bytes().into_iter().zip(self.image(segments));
        bytes
            .filter(|(executed, image)| *executed && !image)
            .count() as u64
    }

    /// The rows as a table.
    pub fn text(&self, segments: &[Segment], names: &Names) -> String {
        let mut text = String::from("Executed, in bytes of the image:\n");
        for row in self.rows(segments, names) {
            let percent = 100 * row.executed / row.bytes;
            let (executed, bytes) = (row.executed, row.bytes);
            let first = row.missed.first();
            let missed = first.map_or(String::new(), |(from, _)| {
                format!(", first not at {from:08x}")
            });
            let place = format!("[{:08x}, {:08x})", row.start, row.end);
            let _ = writeln!(
                text,
                "{executed:>8} of {bytes:>7}  {percent:>3}%  {place:<20}  {}{missed}",
                quoted(&row.name)
            );
        }
        match self.outside(segments) {
            0 => text,
            bytes => text + &format!("{bytes:>8} outside the image\n"),
        }
    }

    pub fn json(&self, segments: &[Segment], names: &Names) -> Value {
        let stretch = |(start, end): &(u64, u64)| json!({ "start": start, "end": end });
        let row = |row: Row| {
            json!({
                "name": row.name,
                "start": row.start,
                "end": row.end,
                "bytes": row.bytes,
                "executed": row.executed,
                "missed": row.missed.iter().map(stretch).collect::<Vec<Value>>(),
            })
        };
        let word = |(address, word, times): (u64, u32, u64)| {
            json!({
                "address": address,
                "word": word,
                "length": word_length(word),
                "instruction": instruction(word),
                "times": times,
            })
        };
        json!({
            "rows": self.rows(segments, names).into_iter().map(row).collect::<Vec<Value>>(),
            "words": self.executed().map(word).collect::<Vec<Value>>(),
            "outside": self.outside(segments),
        })
    }
}

impl Row {
    /// Counts a byte of the image.
    fn count(&mut self, address: u64, executed: bool) {
        self.bytes += 1;
        self.executed += u64::from(executed);
        match self.missed.last_mut() {
            _ if executed => {}
            Some((_, end)) if *end == address => *end += 1,
            _ => self.missed.push((address, address + 1)),
        }
    }
}
