//! A reader and a writer of map sheets in plain Rust, written for this purpose: no allocation, no proof.

const MOST_REGIONS: usize = 64;
const MOST_LETTERS: usize = 16;
const RECORD: usize = 7;
const TOO_SHORT: u64 = 10 << 48;
const BAD: u64 = 13 << 48;

#[derive(Clone, Copy, Default)]
struct Region {
    name: [u8; MOST_LETTERS],
    start: u32,
    length: u32,
    rights: u32,
}

impl Region {
    fn end(&self) -> u64 {
        u64::from(self.start) + u64::from(self.length)
    }

    fn follows(&self, before: &[Region]) -> bool {
        let apart =
            |other: &Region| other.end() <= self.start.into() || self.end() <= other.start.into();
        self.length > 0
            && self.end() <= 1 << 32
            && before.len() < MOST_REGIONS
            && before
                .iter()
                .all(|other| apart(other) && other.name != self.name)
    }
}

/// Eight digits and the tab before them, taken from the front of a line.
fn word(line: &[u8]) -> Option<(u32, &[u8])> {
    let (field, rest) = line.split_at_checked(9)?;
    let (&tab, digits) = field.split_first()?;
    let word = digits.iter().try_fold(0u32, |word, &digit| match digit {
        b'0'..=b'9' => Some(word << 4 | u32::from(digit - b'0')),
        b'a'..=b'f' => Some(word << 4 | u32::from(digit - b'a' + 10)),
        _ => None,
    })?;
    (tab == b'\t').then_some((word, rest))
}

/// The region of a line without its newline.
fn region(line: &[u8]) -> Option<Region> {
    let line = line.strip_prefix(b"region\t")?;
    let letters = line.iter().take_while(|letter| letter.is_ascii_lowercase());
    let (letters, line) = line.split_at(letters.count());
    let mut name = [0; MOST_LETTERS];
    name.get_mut(..letters.len())?.copy_from_slice(letters);
    let (start, line) = word(line)?;
    let (length, line) = word(line)?;
    let rights = match line {
        b"\tr" => 1,
        b"\tw" => 2,
        b"\trw" => 3,
        b"\tx" => 4,
        b"\trx" => 5,
        b"\twx" => 6,
        b"\trwx" => 7,
        _ => return None,
    };
    (!letters.is_empty()).then_some(Region {
        name,
        start,
        length,
        rights,
    })
}

pub fn read(mut sheet: &[u8], records: &mut [u32]) -> u64 {
    let mut regions = [Region::default(); MOST_REGIONS];
    let mut count = 0;
    while !sheet.is_empty() {
        let end = sheet.iter().position(|&byte| byte == b'\n');
        let region = end.and_then(|end| region(&sheet[..end]));
        match region {
            Some(region) if region.follows(&regions[..count]) => regions[count] = region,
            _ => return BAD + count as u64 + 1,
        }
        count += 1;
        sheet = &sheet[end.map_or(0, |end| end + 1)..];
    }
    if count == 0 {
        return BAD + 1;
    }
    let Some(records) = records.get_mut(..RECORD * count) else {
        return TOO_SHORT;
    };
    for (words, region) in records.chunks_exact_mut(RECORD).zip(&regions) {
        for (word, four) in words.iter_mut().zip(region.name.chunks_exact(4)) {
            *word = u32::from_le_bytes([four[0], four[1], four[2], four[3]]);
        }
        words[4..].copy_from_slice(&[region.start, region.length, region.rights]);
    }
    count as u64
}

/// The region of a record.
fn recorded(words: &[u32]) -> Option<Region> {
    let &[a, b, c, d, start, length, rights] = words else {
        return None;
    };
    let mut name = [0; MOST_LETTERS];
    for (four, word) in name.chunks_exact_mut(4).zip([a, b, c, d]) {
        four.copy_from_slice(&word.to_le_bytes());
    }
    let letters = name
        .iter()
        .take_while(|letter| letter.is_ascii_lowercase())
        .count();
    let named = letters > 0 && name[letters..].iter().all(|&byte| byte == 0);
    (named && (1..=7).contains(&rights)).then_some(Region {
        name,
        start,
        length,
        rights,
    })
}

/// Adds a line to a text at some place, and gives the place after it.
fn line(text: &mut [u8], mut at: usize, region: &Region) -> usize {
    let mut put = |byte: u8| {
        text[at] = byte;
        at += 1;
    };
    b"region\t".iter().for_each(|&byte| put(byte));
    let letters = region.name.iter().take_while(|&&letter| letter != 0);
    letters.for_each(|&letter| put(letter));
    for word in [region.start, region.length] {
        put(b'\t');
        for digit in (0..8).rev() {
            put(b"0123456789abcdef"[(word >> (4 * digit) & 15) as usize]);
        }
    }
    put(b'\t');
    for (bit, letter) in b"rwx".iter().enumerate() {
        if region.rights >> bit & 1 == 1 {
            put(*letter);
        }
    }
    put(b'\n');
    at
}

pub fn write(records: &[u32], out: &mut [u8]) -> u64 {
    let mut regions = [Region::default(); MOST_REGIONS];
    let mut count = 0;
    for words in records.chunks(RECORD) {
        match recorded(words) {
            Some(region) if region.follows(&regions[..count]) => regions[count] = region,
            _ => return BAD + count as u64 + 1,
        }
        count += 1;
    }
    if count == 0 {
        return BAD + 1;
    }
    let mut text = [0; 46 * MOST_REGIONS];
    let length = regions[..count]
        .iter()
        .fold(0, |at, region| line(&mut text, at, region));
    match out.get_mut(..length) {
        Some(out) => {
            out.copy_from_slice(&text[..length]);
            length as u64
        }
        None => TOO_SHORT,
    }
}
