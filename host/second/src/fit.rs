//! Two images for one board (document 02, section 12): which fits, and its payload.

#[cfg(test)]
mod tests;

use crate::sheet::{answer, judged, lines, region, regions, Region};

/// The number where neither image fits.
pub const NEITHER: u64 = 16;
/// The numbers of a bad sheet: the board's, the first image's, the second's.
pub const BAD_BOARD: u64 = 17;
pub const BAD_FIRST: u64 = 18;
pub const BAD_SECOND: u64 = 19;

/// Whose sheet is bad.
#[derive(Clone, Copy, PartialEq, Eq, Debug)]
pub enum Whose {
    Board,
    First,
    Second,
}

/// What the images come to on a board.
#[derive(Clone, Copy, PartialEq, Eq, Debug)]
pub enum Fit<'a> {
    /// The image that fits, 1 or 2, and its payload.
    Image(u64, &'a [u8]),
    Neither,
    /// The first bad sheet and its first bad line.
    Bad(Whose, u64),
}

/// The regions of an image's sheet and its payload, or the sheet's first bad line. The sheet ends at the
/// first empty line; where there is none, the line after the last region is bad.
fn parted(image: &[u8]) -> Result<(Vec<Region>, &[u8]), u64> {
    let sheet = lines(image).take_while(|&line| line != b"\n");
    let length: usize = sheet.clone().map(<[u8]>::len).sum();
    let regions = judged(sheet.map(region))?;
    match image[length..].split_first() {
        Some((_, payload)) => Ok((regions, payload)),
        None => Err(regions.len() as u64 + 1),
    }
}

/// Whether each region lies in one of the board's that has its rights.
fn fits(image: &[Region], board: &[Region]) -> bool {
    image.iter().all(|region| {
        board.iter().any(|place| {
            place.start <= region.start
                && region.end() <= place.end()
                && region.rights & !place.rights == 0
        })
    })
}

/// The image that fits a board, the first where both do.
pub fn choose<'a>(board: &[u8], first: &'a [u8], second: &'a [u8]) -> Fit<'a> {
    let board = match regions(board) {
        Ok(regions) => regions,
        Err(line) => return Fit::Bad(Whose::Board, line),
    };
    let (first, first_payload) = match parted(first) {
        Ok(parts) => parts,
        Err(line) => return Fit::Bad(Whose::First, line),
    };
    let (second, second_payload) = match parted(second) {
        Ok(parts) => parts,
        Err(line) => return Fit::Bad(Whose::Second, line),
    };
    if fits(&first, &board) {
        Fit::Image(1, first_payload)
    } else if fits(&second, &board) {
        Fit::Image(2, second_payload)
    } else {
        Fit::Neither
    }
}

/// The same as a number: image * 2^40 + the payload's place in it, or a refusal with the bad line.
pub fn fit(board: &[u8], first: &[u8], second: &[u8]) -> u64 {
    match choose(board, first, second) {
        Fit::Image(number, payload) => {
            let image = if number == 1 { first } else { second };
            answer(0, number << 40 | (image.len() - payload.len()) as u64)
        }
        Fit::Neither => answer(NEITHER, 0),
        Fit::Bad(Whose::Board, line) => answer(BAD_BOARD, line),
        Fit::Bad(Whose::First, line) => answer(BAD_FIRST, line),
        Fit::Bad(Whose::Second, line) => answer(BAD_SECOND, line),
    }
}
