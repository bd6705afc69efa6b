//! Board map sheets: read, written and compared (document 02, section 7).

#[cfg(test)]
mod tests;

use crate::text::hex_word;
use std::collections::BTreeSet;

const MOST_REGIONS: usize = 64;
const MOST_LETTERS: usize = 16;
const DIGITS: usize = 8;
/// The address after the last one.
const SPACE_END: u64 = 1 << 32;
/// The rights in the order of a sheet, the first of them bit 0 of a record's.
const RIGHTS: [u8; 3] = *b"rwx";
const ALL_RIGHTS: u32 = 7;
/// A record lent as words: four of the name, then start, length and rights.
const RECORD: usize = 7;
const NAME_WORDS: usize = 4;

/// The number of an output that is too short for the answer.
pub const TOO_SHORT: u64 = 10;
/// The number of a bad sheet, and of a bad second one where two are compared.
pub const BAD: u64 = 13;
pub const SECOND_BAD: u64 = 14;

/// One line of a sheet.
#[derive(Clone, PartialEq, Eq, Debug)]
pub struct Region {
    pub name: Vec<u8>,
    pub start: u32,
    pub length: u32,
    pub rights: u32,
}

impl Region {
    /// The end as a whole number.
    pub fn end(&self) -> u64 {
        u64::from(self.start) + u64::from(self.length)
    }

    /// Whether a good sheet can have this region after those before it.
    fn follows(&self, before: &[Region]) -> bool {
        self.length != 0
            && self.end() <= SPACE_END
            && before.len() < MOST_REGIONS
            && before.iter().all(|other| !self.clashes(other))
    }

    /// Whether two regions have one name or one byte in common.
    fn clashes(&self, other: &Region) -> bool {
        let apart = self.end() <= u64::from(other.start) || other.end() <= u64::from(self.start);
        self.name == other.name || !apart
    }
}

/// The regions of lines in their order, where none of them is bad; else the first bad line. What is no
/// region's line is none.
pub fn judged(lines: impl Iterator<Item = Option<Region>>) -> Result<Vec<Region>, u64> {
    let mut regions = Vec::new();
    for line in lines {
        match line {
            Some(region) if region.follows(&regions) => regions.push(region),
            _ => return Err(regions.len() as u64 + 1),
        }
    }
    if regions.is_empty() {
        return Err(1);
    }
    Ok(regions)
}

/// The regions of a sheet, or its first bad line.
pub fn regions(sheet: &[u8]) -> Result<Vec<Region>, u64> {
    judged(lines(sheet).map(region))
}

/// The lines of a text, each with its newline; the last one may lack it.
pub fn lines(text: &[u8]) -> impl Iterator<Item = &[u8]> + Clone {
    text.split_inclusive(|&byte| byte == b'\n')
}

/// The region of a line with its newline.
pub fn region(line: &[u8]) -> Option<Region> {
    let line = line.strip_suffix(b"\n")?;
    let fields: Vec<&[u8]> = line.split(|&byte| byte == b'\t').collect();
    let [b"region", name, start, length, rights] = fields[..] else {
        return None;
    };
    Some(Region {
        name: is_name(name).then(|| name.to_vec())?,
        start: eight_digits(start)?,
        length: eight_digits(length)?,
        rights: (1..=ALL_RIGHTS).find(|&held| letters(held) == rights)?,
    })
}

fn is_name(text: &[u8]) -> bool {
    (1..=MOST_LETTERS).contains(&text.len()) && text.iter().all(u8::is_ascii_lowercase)
}

fn eight_digits(text: &[u8]) -> Option<u32> {
    (text.len() == DIGITS).then(|| hex_word(text)).flatten()
}

/// Rights as a sheet has them.
fn letters(rights: u32) -> Vec<u8> {
    let held = (0..RIGHTS.len()).filter(|bit| rights >> bit & 1 == 1);
    held.map(|bit| RIGHTS[bit]).collect()
}

/// The text of regions, a line each.
pub fn text(regions: &[Region]) -> Vec<u8> {
    let mut text = Vec::new();
    for region in regions {
        let (start, length) = (region.start, region.length);
        text.extend_from_slice(b"region\t");
        text.extend_from_slice(&region.name);
        text.extend_from_slice(format!("\t{start:08x}\t{length:08x}\t").as_bytes());
        text.extend(letters(region.rights));
        text.push(b'\n');
    }
    text
}

/// The words of a region.
fn words(region: &Region) -> Vec<u32> {
    let mut name = region.name.clone();
    name.resize(4 * NAME_WORDS, 0);
    let bytes = name.chunks(4);
    let mut words: Vec<u32> = bytes
        .map(|four| u32::from_le_bytes([four[0], four[1], four[2], four[3]]))
        .collect();
    words.extend([region.start, region.length, region.rights]);
    words
}

/// The region that a record's words stand for; none for fewer words than a record has.
fn recorded(words: &[u32]) -> Option<Region> {
    let &[a, b, c, d, start, length, rights] = words else {
        return None;
    };
    let bytes = [a, b, c, d].map(u32::to_le_bytes).concat();
    let count = bytes.iter().take_while(|&&byte| byte != 0).count();
    let (name, unused) = bytes.split_at(count);
    let stands =
        is_name(name) && unused.iter().all(|&byte| byte == 0) && (1..=ALL_RIGHTS).contains(&rights);
    stands.then(|| Region {
        name: name.to_vec(),
        start,
        length,
        rights,
    })
}

/// The names that the two do not have with the same start, length and rights, sorted.
pub fn differing<'a>(first: &'a [Region], second: &'a [Region]) -> BTreeSet<&'a [u8]> {
    let lacks = |others: &[Region], region: &Region| !others.contains(region);
    let here = first.iter().filter(|region| lacks(second, region));
    let there = second.iter().filter(|region| lacks(first, region));
    here.chain(there)
        .map(|region| region.name.as_slice())
        .collect()
}

/// An answer as it is passed: its number and the rest.
pub fn answer(number: u64, rest: u64) -> u64 {
    number << 48 | rest
}

/// Gives an answer into a lent output, and what is said then; where it is too long, nothing is written.
fn given<T: Copy>(whole: &[T], out: &mut [T], said: usize) -> u64 {
    match out.get_mut(..whole.len()) {
        Some(place) => {
            place.copy_from_slice(whole);
            answer(0, said as u64)
        }
        None => answer(TOO_SHORT, 0),
    }
}

/// Reads a sheet into records: how many there are, or 13 with its first bad line, or 10.
pub fn read(sheet: &[u8], records: &mut [u32]) -> u64 {
    match regions(sheet) {
        Err(line) => answer(BAD, line),
        Ok(regions) => {
            let whole: Vec<u32> = regions.iter().flat_map(words).collect();
            given(&whole, records, regions.len())
        }
    }
}

/// Writes the sheet of records: how many bytes it has, or 13 with its first bad line, or 10.
pub fn write(records: &[u32], out: &mut [u8]) -> u64 {
    match judged(records.chunks(RECORD).map(recorded)) {
        Err(line) => answer(BAD, line),
        Ok(regions) => {
            let whole = text(&regions);
            given(&whole, out, whole.len())
        }
    }
}

/// Lists the names in which two sheets differ, a line each: how many bytes that is, or 13 or 14 with the
/// first bad line of the first or the second sheet, or 10.
pub fn compare(first: &[u8], second: &[u8], out: &mut [u8]) -> u64 {
    let first = match regions(first) {
        Err(line) => return answer(BAD, line),
        Ok(regions) => regions,
    };
    let second = match regions(second) {
        Err(line) => return answer(SECOND_BAD, line),
        Ok(regions) => regions,
    };
    let names = differing(&first, &second);
    let whole: Vec<u8> = names
        .into_iter()
        .flat_map(|name| [name, b"\n"].concat())
        .collect();
    given(&whole, out, whole.len())
}
