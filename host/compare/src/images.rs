//! Two images for one board (document 02, section 12): images that fit, that miss by a byte or by a
//! right, and bad sheets in each place.

use crate::random::Random;
use crate::sheets::damage::{self, Damage};
use crate::sheets::regions::{blemish, good, line, new_name, rights, text};
use crate::Mismatch;
use lent::number_and_rest as parts;
use second::fit::{fit, BAD_BOARD, BAD_FIRST, NEITHER};
use second::sheet::Region;

/// A program that says which image fits: board, first image, second image.
pub type Fits = fn(&[u8], &[u8], &[u8]) -> u64;

const SPACE_END: u64 = 1 << 32;

/// What a board's sheet or an image is, by what the second program says of it alone.
#[derive(Clone, Copy, PartialEq, Eq, Debug)]
enum Kind {
    Fits,
    Misses,
    Bad,
}

/// What was compared: each answer by its number, and each board (good or bad) with each pair of images.
#[derive(Default, Debug)]
pub struct Totals {
    pub first: u64,
    pub second: u64,
    pub neither: u64,
    pub bad_board: u64,
    pub bad_first: u64,
    pub bad_second: u64,
    pub empty_payload: u64,
    pub boards: [[[u64; 3]; 3]; 2],
}

impl Totals {
    /// Whether every answer and every pair of images on a good and on a bad board came up.
    pub fn complete(&self) -> bool {
        let answers = [
            self.first,
            self.second,
            self.neither,
            self.bad_board,
            self.bad_first,
            self.bad_second,
            self.empty_payload,
        ];
        let boards = self.boards.iter().flatten().flatten();
        answers.iter().chain(boards).all(|&count| count > 0)
    }

    fn count(&mut self, asked: &Asked, answer: u64) {
        let (number, rest) = parts(answer);
        match (number, rest >> 40) {
            (0, 1) => self.first += 1,
            (0, _) => self.second += 1,
            (NEITHER, _) => self.neither += 1,
            (BAD_BOARD, _) => self.bad_board += 1,
            (BAD_FIRST, _) => self.bad_first += 1,
            _ => self.bad_second += 1,
        }
        let image = match rest >> 40 {
            1 => Some(&asked.first),
            2 => Some(&asked.second),
            _ => None,
        };
        let place = (rest & ((1 << 40) - 1)) as usize;
        let empty = number == 0 && image.is_some_and(|image| image.len() == place);
        self.empty_payload += u64::from(empty);
    }
}

/// A board's sheet and two images.
struct Asked {
    board: Vec<u8>,
    first: Vec<u8>,
    second: Vec<u8>,
}

impl Asked {
    /// What a program answers; what is lent to it stays.
    fn of(&self, program: Fits) -> Result<u64, String> {
        let (board, first, second) = (self.board.clone(), self.first.clone(), self.second.clone());
        let answer = program(&board, &first, &second);
        if (&board, &first, &second) == (&self.board, &self.first, &self.second) {
            Ok(answer)
        } else {
            Err(format!("{}\n  ours   changed what was lent", self.shown()))
        }
    }

    fn shown(&self) -> String {
        let [board, first, second] =
            [&self.board, &self.first, &self.second].map(|bytes| bytes.escape_ascii());
        format!("board {board}\nfirst {first}\nsecond {second}")
    }

    /// The answer that both programs give, or how they differ.
    fn compared(&self, ours: Fits) -> Result<u64, String> {
        let (mine, theirs) = (self.of(ours)?, self.of(fit)?);
        if mine == theirs {
            return Ok(theirs);
        }
        let (mine, theirs, asked) = (parts(mine), parts(theirs), self.shown());
        Err(format!("{asked}\n  ours   {mine:x?}\n  second {theirs:x?}"))
    }
}

/// A region in one of the board's: all of it, a part that reaches its ends or not, or a byte too far
/// at one end; with some of its rights or one that it lacks.
fn placed(random: &mut Random, name: Vec<u8>, board: &Region, amiss: bool) -> Region {
    let (low, high) = (u64::from(board.start), board.end());
    let from = low + u64::from(random.below(board.length));
    let to = from + 1 + u64::from(random.below((high - from) as u32));
    let (mut start, mut end) = (random.pick([low, from]), random.pick([high, to]));
    let mut held = board.rights & random.word();
    held = if held == 0 { board.rights } else { held };
    match random.below(4) {
        _ if !amiss => {}
        0 if low > 0 => start = low - 1,
        1 if high < SPACE_END => end = high + 1,
        2 => held = rights(random),
        _ => held |= 1 << random.below(3),
    }
    Region {
        name,
        start: start as u32,
        length: (end - start) as u32,
        rights: held,
    }
}

/// The regions of an image for a board: in several of the board's, one of them amiss or none.
fn regions(random: &mut Random, board: &[Region], fits: bool) -> Vec<Region> {
    let mut regions: Vec<Region> = Vec::new();
    let (from, step) = (
        random.below(board.len() as u32) as usize,
        1 + random.below(4) as usize,
    );
    let places = board.iter().cycle().skip(from).take(board.len());
    let most = 1 + random.below(4) as usize;
    let amiss = random.below(most as u32) as usize;
    for place in places.step_by(step).take(most) {
        let name = new_name(random, &regions);
        let amiss = !fits && amiss == regions.len();
        regions.push(placed(random, name, place, amiss));
    }
    if !fits && random.one_in(8) {
        let outside = good(random);
        regions = outside;
    }
    regions
}

/// A payload: none, a few bytes, or what looks like a sheet or an empty line.
fn payload(random: &mut Random) -> Vec<u8> {
    match random.below(4) {
        0 => Vec::new(),
        1 => b"\n".to_vec(),
        _ => damage::noise(random),
    }
}

/// An image for a board: its sheet, an empty line and its payload, or with a part of that missing or
/// damaged.
fn image(random: &mut Random, board: &[Region]) -> Vec<u8> {
    let kind = random.below(3);
    let mut regions = regions(random, board, kind == 0);
    let bad = kind == 2;
    if bad && random.one_in(3) {
        blemish(random, &mut regions);
    }
    let (sheet, payload) = (text(&regions), payload(random));
    let image = [&sheet, &b"\n"[..], &payload].concat();
    match random.below(8) {
        _ if !bad => image,
        0 => [sheet, payload].concat(),
        1 => sheet,
        2 => [&sheet, &b"\r\n"[..], &payload].concat(),
        3 => [&b"\n"[..], &image].concat(),
        4 => damage::noise(random),
        5 => damage::spoiled(random, &image),
        6 => [&sheet, line(&regions[0]).as_slice(), &b"\n"[..]].concat(),
        _ => Damage::any(random, &image).of(&image),
    }
}

/// A case, and the good board that its images are for.
fn asked(random: &mut Random) -> (Asked, Vec<u8>) {
    let regions = good(random);
    let right = text(&regions);
    let board = match random.below(8) {
        0 => Damage::any(random, &right).of(&right),
        1 => damage::misformed(random, &right),
        2 if random.one_in(2) => damage::noise(random),
        _ => right.clone(),
    };
    let (first, second) = (image(random, &regions), image(random, &regions));
    let asked = Asked {
        board,
        first,
        second,
    };
    (asked, right)
}

/// What an image is on a good board.
fn kind(board: &[u8], image: &[u8]) -> Kind {
    match parts(fit(board, image, image)).0 {
        0 => Kind::Fits,
        NEITHER => Kind::Misses,
        _ => Kind::Bad,
    }
}

/// Compares a program with the second one.
pub fn compare(ours: Fits, seed: u64, cases: u64) -> Result<Totals, Mismatch> {
    let mut totals = Totals::default();
    for case in 1..=cases {
        let (asked, right) = asked(&mut Random::new(seed, case));
        let answer = asked
            .compared(ours)
            .map_err(|text| Mismatch { case, text })?;
        totals.count(&asked, answer);
        let bad_board = usize::from(parts(answer).0 == BAD_BOARD);
        let [first, second] = [&asked.first, &asked.second].map(|image| kind(&right, image));
        totals.boards[bad_board][first as usize][second as usize] += 1;
    }
    Ok(totals)
}

/// Compares two programs at the edges of three board regions that adjoin: every place of an image's
/// region from a byte below them to a byte above, with every rights, on the ends of the space too.
pub fn compare_edges(ours: Fits) -> Result<u64, Mismatch> {
    let mut case = 0;
    for start in [0, 0x2000_0000, SPACE_END - 12] {
        for rights in 1..8 {
            let lines = [(0, "a", rights), (4, "b", 7), (8, "c", rights)];
            let region = |(offset, name, rights): (u64, &str, u32)| Region {
                name: name.into(),
                start: (start + offset) as u32,
                length: 4,
                rights,
            };
            let board = text(&lines.map(region));
            for image in edge_images(start) {
                case += 1;
                let (first, second) = (image.clone(), image);
                let board = board.clone();
                let asked = Asked {
                    board,
                    first,
                    second,
                };
                asked
                    .compared(ours)
                    .map_err(|text| Mismatch { case, text })?;
            }
        }
    }
    Ok(case)
}

/// Images of one region at each place around twelve bytes, with each rights.
fn edge_images(start: u64) -> impl Iterator<Item = Vec<u8>> {
    let low = start.saturating_sub(1);
    let high = (start + 13).min(SPACE_END);
    let places = (low..high).flat_map(move |from| (from + 1..=high).map(move |to| (from, to)));
    places.flat_map(|(from, to)| {
        (1..8).map(move |rights| {
            let region = Region {
                name: b"a".to_vec(),
                start: from as u32,
                length: (to - from) as u32,
                rights,
            };
            [line(&region), b"\n".to_vec()].concat()
        })
    })
}

#[cfg(test)]
mod tests {
    use super::*;

    #[test]
    fn the_second_program_agrees_with_itself() {
        let totals = compare(fit, 1, 20_000).unwrap();
        assert!(totals.complete(), "{totals:?}");
        assert!(compare_edges(fit).unwrap() > 10_000);
    }

    #[test]
    fn a_program_that_takes_the_second_of_two_is_found() {
        let wrong: Fits = |board, first, second| {
            let answer = fit(board, second, first);
            if parts(answer).0 == 0 {
                answer ^ 3 << 40
            } else {
                fit(board, first, second)
            }
        };
        assert!(compare(wrong, 1, 1_000).is_err());
    }

    #[test]
    fn a_program_that_takes_adjoining_regions_for_one_is_found_at_the_edges() {
        let wrong: Fits = |board, first, second| {
            let answer = fit(board, first, second);
            let across = first.starts_with(b"region\ta\t20000003\t00000002\tr\n");
            if across {
                1 << 40 | 33
            } else {
                answer
            }
        };
        assert!(compare_edges(wrong).is_err());
    }
}
