//! Damage to a sheet's text and to records: by one byte, by one word, and texts that were never sheets.

use crate::random::Random;

/// Bytes that stand in a sheet, and those beside them in the order of bytes.
const TELLING: [u8; 26] = *b"\n\t\r \0/09:`abfgrwxz{AFRX\x80\x8a\xff";
/// What a sheet is made of, whole.
const PIECES: [&[u8]; 14] = [
    b"region",
    b"\t",
    b"\n",
    b"code",
    b"a",
    b"00000000",
    b"00000001",
    b"ffffffff",
    b"20000000",
    b"rwx",
    b"r",
    b"w",
    b"x",
    b"region\ta\t00000000\t00000001\tr\n",
];

/// One byte of a text changed, removed or put in.
#[derive(Clone, Copy, Debug)]
pub enum Damage {
    Changed(usize, u8),
    Removed(usize),
    Inserted(usize, u8),
}

impl Damage {
    /// The text with this damage.
    pub fn of(self, text: &[u8]) -> Vec<u8> {
        let mut damaged = text.to_vec();
        match self {
            Damage::Changed(place, byte) => damaged[place] = byte,
            Damage::Removed(place) => drop(damaged.remove(place)),
            Damage::Inserted(place, byte) => damaged.insert(place, byte),
        }
        damaged
    }

    /// Any damage of a text that is not empty, as often at the ends of its fields as anywhere.
    pub fn any(random: &mut Random, text: &[u8]) -> Damage {
        let last = text.len() - 1;
        let anywhere = random.below(text.len() as u32) as usize;
        let mut ends = (anywhere..=last).filter(|&place| matches!(text[place], b'\t' | b'\n'));
        let end = ends.next().unwrap_or(last);
        let place = random.pick([anywhere, anywhere, end, (end + 1).min(last)]);
        let byte = match random.below(4) {
            0 => random.word() as u8,
            _ => random.pick(TELLING),
        };
        match random.below(3) {
            0 => Damage::Changed(place, byte),
            1 => Damage::Removed(place),
            _ => Damage::Inserted(place + usize::from(place == last && random.one_in(2)), byte),
        }
    }

    /// Every damage of a text: by each of 256 bytes for a short text, by the telling ones for a long one.
    pub fn every(text: &[u8], most_for_all: usize) -> impl Iterator<Item = Damage> {
        let length = text.len();
        let bytes: Vec<u8> = if length <= most_for_all {
            (0..=u8::MAX).collect()
        } else {
            TELLING.to_vec()
        };
        let changed = bytes.clone();
        let changed = (0..length).flat_map(move |place| {
            let bytes = changed.clone().into_iter();
            bytes.map(move |byte| Damage::Changed(place, byte))
        });
        let inserted = (0..=length).flat_map(move |place| {
            let bytes = bytes.clone().into_iter();
            bytes.map(move |byte| Damage::Inserted(place, byte))
        });
        let removed = (0..length).map(Damage::Removed);
        changed.chain(removed).chain(inserted)
    }
}

/// What people write in the place of a sheet's parts.
const MISFORMED: [(&str, &str); 13] = [
    ("\n", "\r\n"),
    ("\n", " \n"),
    ("\n", "\t\n"),
    ("\n", "\n\n"),
    ("\n", ""),
    ("\t", "\t\t"),
    ("\t", " "),
    ("\t", "\t0x"),
    ("region", "Region"),
    ("region", "regions"),
    ("\tr", "\trr"),
    ("\tw", "\twr"),
    ("\tx", "\txw"),
];

/// A text with one of its parts in another form.
pub fn misformed(random: &mut Random, text: &[u8]) -> Vec<u8> {
    let (part, other) = random.pick(MISFORMED);
    let starts = |place: &usize| text[*place..].starts_with(part.as_bytes());
    let places: Vec<usize> = (0..text.len()).filter(starts).collect();
    let Some(&place) = places.get(random.below(places.len() as u32) as usize) else {
        return text.to_vec();
    };
    let rest = &text[place + part.len()..];
    [&text[..place], other.as_bytes(), rest].concat()
}

/// Damage of more than a byte: two bytes swapped, the end cut off, a part said twice, several bytes.
pub fn spoiled(random: &mut Random, text: &[u8]) -> Vec<u8> {
    let mut spoiled = text.to_vec();
    let length = text.len();
    let (from, to) = (
        random.below(length as u32) as usize,
        random.below(length as u32) as usize,
    );
    let (from, to) = (from.min(to), from.max(to));
    match random.below(5) {
        0 => spoiled.swap(from, (from + 1).min(length - 1)),
        1 => spoiled.truncate(from),
        2 => spoiled.extend_from_slice(&text[from..to]),
        3 => drop(spoiled.drain(from..to)),
        _ => {
            for _ in 0..2 + random.below(3) {
                spoiled = Damage::any(random, &spoiled).of(&spoiled);
                if spoiled.is_empty() {
                    break;
                }
            }
        }
    }
    spoiled
}

/// Bytes that nobody wrote as a sheet: any, those that sheets have, or pieces of sheets.
pub fn noise(random: &mut Random) -> Vec<u8> {
    let length = random.below(80);
    match random.below(3) {
        0 => (0..length).map(|_| random.word() as u8).collect(),
        1 => (0..length).map(|_| random.pick(TELLING)).collect(),
        _ => (0..length / 4)
            .flat_map(|_| random.pick(PIECES).to_vec())
            .collect(),
    }
}

/// A word of records changed, or words removed or added.
pub fn spoil_records(random: &mut Random, records: &mut Vec<u32>) {
    let place = random.below(records.len() as u32) as usize;
    let word = records[place];
    let byte = random.below(4) * 8;
    match random.below(8) {
        0 => records[place] = word ^ 1 << random.below(32),
        1 => records[place] = random.number(),
        2 => records[place] = random.near(word),
        3 => records[place] = word & !(0xFF << byte),
        4 => records[place] = word & !(0xFF << byte) | u32::from(random.pick(TELLING)) << byte,
        5 => records[place] = random.pick([0, 8, 0x107, u32::MAX]),
        6 => records.truncate(place),
        _ => records.extend((0..=random.below(8)).map(|_| random.pick([0, 1, word]))),
    }
}
