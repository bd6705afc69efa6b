//! Map sheets by the proved library libsheet_api.a: reading, comparing, and which image fits a board.
//! Whether a sheet is good, which line is its first bad one, and whether an image fits, is said here and
//! nowhere else in the command.

use ::proved::{fit as fitting, sheet_compare, sheet_read, sheet_write};
use lent::number_and_rest as parts;

/// The most regions of a sheet, and the words that the library has for each (include/oddersnow.h).
pub const MOST_REGIONS: usize = 64;
const RECORD: usize = 7;
const NAME_WORDS: usize = 4;
/// The bytes of the longest line: the word region, a name of 16 letters, two numbers and the rights, with their tabs.
const LINE_ROOM: usize = 64;
/// A name of 16 letters with its newline, for each region of two sheets.
const NAMES_ROOM: usize = 17 * 2 * MOST_REGIONS;

// The numbers of the library's answers.
pub const BAD: u64 = 13;
pub const SECOND_BAD: u64 = 14;
pub const NEITHER: u64 = 16;
pub const BAD_BOARD: u64 = 17;
/// Of the first image and of the second.
pub const BAD_IMAGE: [u64; 2] = [18, 19];
/// In the answer for an image that fits: its number stands above the payload's place.
const IMAGE_AT: u32 = 40;

/// A good sheet, for what is asked of an image without a board.
const ANY_BOARD: &[u8] = b"region\tany\t00000000\tffffffff\trwx\n";

/// A region as a sheet has it. Its name is letters alone.
#[derive(Clone, PartialEq, Eq, Debug)]
pub struct Record {
    pub name: String,
    pub start: u32,
    pub length: u32,
    pub rights: u32,
}

impl Record {
    fn of(words: &[u32]) -> Record {
        let name = words[..NAME_WORDS]
            .iter()
            .flat_map(|word| word.to_le_bytes());
        Record {
            name: name
                .take_while(|letter| *letter != 0)
                .map(char::from)
                .collect(),
            start: words[NAME_WORDS],
            length: words[NAME_WORDS + 1],
            rights: words[NAME_WORDS + 2],
        }
    }

    pub fn end(&self) -> u64 {
        u64::from(self.start) + u64::from(self.length)
    }

    /// Its words, as the library has them.
    fn words(&self) -> [u32; RECORD] {
        let letter = |place: usize| self.name.as_bytes().get(place).copied().unwrap_or(0);
        let word = |place: usize| {
            let letters = std::array::from_fn(|letter_place| letter(4 * place + letter_place));
            u32::from_le_bytes(letters)
        };
        let rest = [self.start, self.length, self.rights];
        std::array::from_fn(|place| match place.checked_sub(NAME_WORDS) {
            Some(place) => rest[place],
            None => word(place),
        })
    }

    /// The sheet that has this region alone, as the library writes it.
    fn sheet(&self) -> Vec<u8> {
        let mut text = [0; LINE_ROOM];
        let (number, length) = parts(sheet_write(&self.words(), &mut text));
        text[..if number == 0 { length as usize } else { 0 }].to_vec()
    }
}

/// Whether a region of a board holds a region of an image: an image of that region alone fits a board of the other alone.
pub fn holds(place: &Record, region: &Record) -> bool {
    let image = [region.sheet(), b"\n".to_vec()].concat();
    matches!(fit(&place.sheet(), &image, &image), Fit::Image(..))
}

/// The first bad line of a sheet.
#[derive(Clone, Copy, PartialEq, Eq, Debug)]
pub struct BadLine(pub u64);

/// The regions of a sheet.
pub fn read(sheet: &[u8]) -> Result<Vec<Record>, BadLine> {
    let mut words = [0; RECORD * MOST_REGIONS];
    match parts(sheet_read(sheet, &mut words)) {
        (0, count) => {
            let words = words.chunks(RECORD).take(count as usize);
            Ok(words.map(Record::of).collect())
        }
        (BAD, line) => Err(BadLine(line)),
        (number, _) => unreachable!("there is room for 64 records, and yet number {number}"),
    }
}

/// Of two sheets, the first or the second.
#[derive(Clone, Copy, PartialEq, Eq, Debug)]
pub enum Which {
    First,
    Second,
}

impl Which {
    /// 0 for the first and 1 for the second.
    pub fn place(self) -> usize {
        match self {
            Which::First => 0,
            Which::Second => 1,
        }
    }
}

/// The names in which two sheets differ, sorted; or the first bad one of the two with its line.
pub fn differing(first: &[u8], second: &[u8]) -> Result<Vec<String>, (Which, BadLine)> {
    let mut names = [0; NAMES_ROOM];
    match parts(sheet_compare(first, second, &mut names)) {
        (0, length) => {
            let names = names[..length as usize].split(|byte| *byte == b'\n');
            let text = |name: &[u8]| String::from_utf8_lossy(name).into_owned();
            Ok(names.filter(|name| !name.is_empty()).map(text).collect())
        }
        (BAD, line) => Err((Which::First, BadLine(line))),
        (SECOND_BAD, line) => Err((Which::Second, BadLine(line))),
        (number, _) => unreachable!("there is room for 128 names, and yet number {number}"),
    }
}

/// What two images come to on a board.
#[derive(Clone, Copy, PartialEq, Eq, Debug)]
pub enum Fit {
    /// This one fits, and its payload starts at this byte of it.
    Image(Which, usize),
    Neither,
    BadBoard(BadLine),
    BadImage(Which, BadLine),
}

/// Which of two images fits a board, the first where both do. For one image alone, it is lent twice.
pub fn fit(board: &[u8], first: &[u8], second: &[u8]) -> Fit {
    let (number, rest) = parts(fitting(board, first, second));
    let place = (rest & ((1 << IMAGE_AT) - 1)) as usize;
    match number {
        0 if rest >> IMAGE_AT == 1 => Fit::Image(Which::First, place),
        0 => Fit::Image(Which::Second, place),
        NEITHER => Fit::Neither,
        BAD_BOARD => Fit::BadBoard(BadLine(rest)),
        number if number == BAD_IMAGE[0] => Fit::BadImage(Which::First, BadLine(rest)),
        number if number == BAD_IMAGE[1] => Fit::BadImage(Which::Second, BadLine(rest)),
        number => unreachable!("a fit has no number {number}"),
    }
}

/// What an image says of itself: the regions of its own sheet, and where its payload starts.
#[derive(Clone, PartialEq, Eq, Debug)]
pub struct Label {
    pub regions: Vec<Record>,
    pub payload: usize,
}

/// The label of an image.
pub fn label(image: &[u8]) -> Result<Label, BadLine> {
    if let Fit::BadImage(_, line) = fit(ANY_BOARD, image, image) {
        return Err(line);
    }
    // The sheet is good, so that it ends at the first empty line.
    let newlines = image.windows(2).position(|pair| pair == b"\n\n");
    let end = newlines.map_or(image.len(), |place| place + 1);
    Ok(Label {
        regions: read(&image[..end])?,
        payload: end + 1,
    })
}
