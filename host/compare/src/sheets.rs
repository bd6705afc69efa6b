//! Map sheets (document 02, section 7): read, written and compared, good ones and bad ones, with room
//! for the answer and without.

pub mod damage;
pub mod regions;

use crate::random::Random;
use crate::Mismatch;
use damage::Damage;
use lent::number_and_rest as parts;
use regions::{blemish, edited, good, new_name, rights, text, MOST_REGIONS};
use second::sheet::{self, Region, BAD, SECOND_BAD};
use std::fmt::Debug;

/// A program for sheets, as include/oddersnow.h has it.
#[derive(Clone, Copy)]
pub struct Sheets {
    pub read: fn(&[u8], &mut [u32]) -> u64,
    pub write: fn(&[u32], &mut [u8]) -> u64,
    pub compare: fn(&[u8], &[u8], &mut [u8]) -> u64,
}

pub const SECOND: Sheets = Sheets {
    read: sheet::read,
    write: sheet::write,
    compare: sheet::compare,
};

/// The words of a record.
const RECORD: usize = 7;
/// Room for every answer, and some more.
const RECORDS_ROOM: usize = RECORD * MOST_REGIONS as usize + 3;
const TEXT_ROOM: usize = 47 * MOST_REGIONS as usize + 3;
const NAMES_ROOM: usize = 17 * 2 * MOST_REGIONS as usize + 3;
/// What a lent output holds before, and how much of it lies around what is lent.
const UNWRITTEN: u8 = 0xA5;
const UNWRITTEN_WORD: u32 = 0xA5A5_5A5A;
const MARGIN: usize = 8;
/// The longest sheet that is damaged by each of 256 bytes; a longer one is by those that tell most.
const MOST_FOR_ALL: usize = 300;

/// The answers of one function.
#[derive(Default, Debug)]
pub struct Answers {
    pub good: u64,
    pub bad: u64,
    pub second_bad: u64,
    pub too_short: u64,
}

impl Answers {
    fn count(&mut self, number: u64) {
        match number {
            0 => self.good += 1,
            BAD => self.bad += 1,
            SECOND_BAD => self.second_bad += 1,
            _ => self.too_short += 1,
        }
    }
}

/// What was compared: the answers of each function, and how often line 1, 64 and 65 was bad.
#[derive(Default, Debug)]
pub struct Totals {
    pub read: Answers,
    pub write: Answers,
    pub compare: Answers,
    pub equal: u64,
    pub bad_at_1: u64,
    pub bad_at_64: u64,
    pub bad_at_65: u64,
}

impl Totals {
    /// Whether every answer came up.
    pub fn complete(&self) -> bool {
        let Answers { second_bad, .. } = self.compare;
        let each = [&self.read, &self.write, &self.compare];
        let each = each.map(|answers| answers.good.min(answers.bad).min(answers.too_short));
        let lines = [self.bad_at_1, self.bad_at_64, self.bad_at_65];
        let rest = lines.into_iter().chain([second_bad, self.equal]);
        each.into_iter().chain(rest).all(|count| count > 0)
    }

    fn lines(&mut self, (number, rest): (u64, u64)) {
        let bad = |line| u64::from(number == BAD && rest == line);
        self.bad_at_1 += bad(1);
        self.bad_at_64 += bad(64);
        self.bad_at_65 += bad(65);
    }
}

/// Both programs, and what they have answered.
pub struct Both {
    ours: Sheets,
    pub totals: Totals,
}

/// An answer and all that lies in the lent output and around it.
type Left<T> = (u64, Vec<T>);

/// Lends an output of some room.
fn lent<T: Copy>(room: usize, unwritten: T, ask: impl FnOnce(&mut [T]) -> u64) -> Left<T> {
    let mut whole = vec![unwritten; room + 2 * MARGIN];
    let answer = ask(&mut whole[MARGIN..MARGIN + room]);
    (answer, whole)
}

/// The answer that both gave with the same output, or how they differ.
fn same<T: PartialEq + Debug>(
    asked: impl FnOnce() -> String,
    ours: Left<T>,
    second: Left<T>,
) -> Result<Left<T>, String> {
    if ours == second {
        return Ok(second);
    }
    let mut places = ours.1.iter().zip(&second.1);
    let place = places.position(|(one, other)| one != other);
    let shown = |left: &Left<T>| {
        let there = place.map(|place| (place as i64 - MARGIN as i64, &left.1[place]));
        format!(
            "{:?}, first other place and what is there {there:x?}",
            parts(left.0)
        )
    };
    let (ours, second) = (shown(&ours), shown(&second));
    Err(format!("{}\n  ours   {ours}\n  second {second}", asked()))
}

impl Both {
    pub fn new(ours: Sheets) -> Both {
        let totals = Totals::default();
        Both { ours, totals }
    }

    /// Reads a sheet: the number, and the records where it is 0.
    fn read(&mut self, sheet: &[u8], room: usize) -> Result<(u64, Vec<u32>), String> {
        let ask = |program: Sheets| lent(room, UNWRITTEN_WORD, |out| (program.read)(sheet, out));
        let asked = || format!("read {} into {room} words", sheet.escape_ascii());
        let (answer, left) = same(asked, ask(self.ours), ask(SECOND))?;
        let (number, rest) = parts(answer);
        self.totals.read.count(number);
        self.totals.lines((number, rest));
        let count = if number == 0 { rest as usize } else { 0 };
        Ok((number, left[MARGIN..MARGIN + RECORD * count].to_vec()))
    }

    /// Writes records: the number, and the text where it is 0.
    fn write(&mut self, records: &[u32], room: usize) -> Result<(u64, Vec<u8>), String> {
        let ask = |program: Sheets| lent(room, UNWRITTEN, |out| (program.write)(records, out));
        let asked = || format!("write {records:x?} into {room} bytes");
        let (answer, left) = same(asked, ask(self.ours), ask(SECOND))?;
        let (number, rest) = parts(answer);
        self.totals.write.count(number);
        self.totals.lines((number, rest));
        let count = if number == 0 { rest as usize } else { 0 };
        Ok((number, left[MARGIN..MARGIN + count].to_vec()))
    }

    /// Compares two sheets: the number and the rest.
    fn compare(&mut self, first: &[u8], second: &[u8], room: usize) -> Result<(u64, u64), String> {
        let ask =
            |program: Sheets| lent(room, UNWRITTEN, |out| (program.compare)(first, second, out));
        let asked = || {
            let (first, second) = (first.escape_ascii(), second.escape_ascii());
            format!("compare {first}\nwith {second}\ninto {room} bytes")
        };
        let (answer, _) = same(asked, ask(self.ours), ask(SECOND))?;
        let (number, rest) = parts(answer);
        self.totals.compare.count(number);
        self.totals.equal += u64::from((number, rest) == (0, 0));
        Ok((number, rest))
    }

    /// A sheet read with room: if it is good, it is read and written with each room below what it
    /// takes, at that and above it (for a long sheet some of them), and is then the same bytes.
    fn there_and_back(&mut self, random: &mut Random, sheet: &[u8]) -> Result<(), String> {
        let (number, records) = self.read(sheet, RECORDS_ROOM)?;
        if number != 0 {
            self.read(sheet, random.below(8) as usize)?;
            return Ok(());
        }
        for room in rooms(random, records.len()) {
            self.read(sheet, room)?;
        }
        for room in rooms(random, sheet.len()) {
            self.write(&records, room)?;
        }
        let (number, written) = self.write(&records, TEXT_ROOM)?;
        if (number, written.as_slice()) != (0, sheet) {
            let (sheet, written) = (sheet.escape_ascii(), written.escape_ascii());
            return Err(format!("{sheet}\nis written back as {number}, {written}"));
        }
        Ok(())
    }

    /// Records that are changed, and written with room and without.
    fn records(&mut self, random: &mut Random, sheet: &[u8]) -> Result<(), String> {
        let (_, mut records) = self.read(sheet, RECORDS_ROOM)?;
        if !records.is_empty() {
            damage::spoil_records(random, &mut records);
        }
        self.write(&records, TEXT_ROOM)?;
        self.write(&records, random.below(47) as usize)?;
        Ok(())
    }

    /// Two sheets compared with every room below the answer, at it and above it, and turned round.
    fn compared(&mut self, random: &mut Random, first: &[u8], second: &[u8]) -> Result<(), String> {
        let (number, length) = self.compare(first, second, NAMES_ROOM)?;
        let taken = if number == 0 { length as usize } else { 0 };
        for room in rooms(random, taken) {
            self.compare(first, second, room)?;
        }
        self.compare(second, first, NAMES_ROOM)?;
        Ok(())
    }

    /// Reads a sheet with each one-byte damage.
    pub fn damaged(&mut self, sheet: &[u8]) -> Result<u64, String> {
        let mut count = 0;
        for damage in Damage::every(sheet, MOST_FOR_ALL) {
            self.read(&damage.of(sheet), RECORDS_ROOM)?;
            count += 1;
        }
        Ok(count)
    }

    /// Writes a sheet's records with each of their bits turned over, with each word left out, and with
    /// each number of words.
    pub fn damaged_records(&mut self, sheet: &[u8]) -> Result<u64, String> {
        let (_, records) = self.read(sheet, RECORDS_ROOM)?;
        for place in 0..records.len() {
            for bit in 0..32 {
                let mut damaged = records.clone();
                damaged[place] ^= 1 << bit;
                self.write(&damaged, TEXT_ROOM)?;
            }
            let mut fewer = records.clone();
            fewer.remove(place);
            self.write(&fewer, TEXT_ROOM)?;
            self.write(&records[..place], TEXT_ROOM)?;
        }
        Ok(34 * records.len() as u64)
    }

    /// Reads a sheet, writes its records and compares it with another, with every room from none to one
    /// more than the answer takes.
    pub fn every_room(&mut self, sheet: &[u8], other: &[u8]) -> Result<u64, String> {
        let (_, records) = self.read(sheet, RECORDS_ROOM)?;
        let (number, length) = self.compare(sheet, other, NAMES_ROOM)?;
        let taken = if number == 0 { length as usize } else { 0 };
        for room in 0..=records.len() + 1 {
            self.read(sheet, room)?;
        }
        for room in 0..=sheet.len() + 1 {
            self.write(&records, room)?;
        }
        for room in 0..=taken + 1 {
            self.compare(sheet, other, room)?;
        }
        Ok((records.len() + sheet.len() + taken + 6) as u64)
    }
}

/// Rooms for an answer of some length: every one up to it and one more where it is short, else those at
/// its ends and a few between.
fn rooms(random: &mut Random, length: usize) -> Vec<usize> {
    let few = [0, 1, length.saturating_sub(1), length, length + 1];
    if length > MOST_FOR_ALL || !random.one_in(4) {
        let between = random.below(length as u32 + 1) as usize;
        return few.into_iter().chain([between]).collect();
    }
    (0..=length + 1).collect()
}

/// A sheet with more lines than there can be, the last of them good or not.
fn too_long(random: &mut Random, regions: &mut Vec<Region>) {
    let most = MOST_REGIONS as usize + random.below(3) as usize;
    while regions.len() < most {
        let after = regions.iter().map(Region::end).max().unwrap_or(0);
        let region = Region {
            name: new_name(random, regions),
            start: after as u32,
            length: 1,
            rights: rights(random),
        };
        regions.push(region);
    }
}

/// A sheet of any kind: good, with a bad line, too long, damaged, or noise.
pub fn any_sheet(random: &mut Random) -> Vec<u8> {
    let mut regions = good(random);
    match random.below(9) {
        0 | 1 => {}
        2 | 3 => blemish(random, &mut regions),
        4 => too_long(random, &mut regions),
        5 => {
            let text = text(&regions);
            return Damage::any(random, &text).of(&text);
        }
        6 => return damage::misformed(random, &text(&regions)),
        7 => return damage::spoiled(random, &text(&regions)),
        _ => return damage::noise(random),
    }
    text(&regions)
}

/// One case: a sheet read and written back, its records changed, or two sheets compared.
fn one(both: &mut Both, random: &mut Random) -> Result<(), String> {
    let regions = good(random);
    let sheet = text(&regions);
    match random.below(8) {
        0 => both.there_and_back(random, &sheet),
        1..=3 => {
            let sheet = any_sheet(random);
            both.there_and_back(random, &sheet)
        }
        4 => both.records(random, &sheet),
        5 => {
            let (first, second) = (any_sheet(random), any_sheet(random));
            both.compared(random, &first, &second)
        }
        6 => {
            let other = any_sheet(random);
            both.compared(random, &sheet, &other)
        }
        _ => {
            let next = text(&edited(random, &regions));
            both.compared(random, &sheet, &next)
        }
    }
}

/// Compares a program with the second one.
pub fn compare(ours: Sheets, seed: u64, cases: u64) -> Result<Totals, Mismatch> {
    let mut both = Both::new(ours);
    for case in 1..=cases {
        let mut random = Random::new(seed, case);
        one(&mut both, &mut random).map_err(|text| Mismatch { case, text })?;
    }
    Ok(both.totals)
}

/// A good sheet with every damage of one byte, its records with theirs, and every room for its answers.
fn all_of_one(both: &mut Both, random: &mut Random) -> Result<u64, String> {
    let regions = good(random);
    let sheet = text(&regions);
    let other = text(&edited(random, &regions));
    let damaged = both.damaged(&sheet)? + both.damaged_records(&sheet)?;
    Ok(damaged + both.every_room(&sheet, &other)?)
}

/// Compares two programs in every such way on some good sheets.
pub fn compare_damaged(ours: Sheets, seed: u64, sheets: u64) -> Result<u64, Mismatch> {
    let mut both = Both::new(ours);
    let mut count = 0;
    for case in 1..=sheets {
        let made = all_of_one(&mut both, &mut Random::new(seed, case));
        count += made.map_err(|text| Mismatch { case, text })?;
    }
    Ok(count)
}

#[cfg(test)]
mod tests;
