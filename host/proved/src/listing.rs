//! The lister and the assembler, each with an output as long as its answer asks.

use crate::{assemble_into, list_into};
use lent::instruction_bytes;

type Function = fn(&[u8], &mut [u8]) -> u64;

/// The number of the refusal of an output that is too short.
const SHORT_OUTPUT: u64 = 10;
/// The bytes of output that are lent first for each byte of input.
const FIRST_LENT: usize = 10;

/// A refusal: its number, and the place that it tells.
#[derive(Clone, Copy, PartialEq, Eq, Debug)]
pub struct Refused {
    pub number: u64,
    pub place: u64,
}

/// The listing of code. Refusal 15 is of bytes that end inside a word, at whose offset that begins.
#[inline]
pub fn list(code: &[u8]) -> Result<String, Refused> {
    let text = answer(list_into, code)?;
    Ok(String::from_utf8(text).expect("a listing is ASCII"))
}

/// The code of a listing. Refusal 13 is of the first line that is no word's listing, from 1.
#[inline]
pub fn assemble(text: &[u8]) -> Result<Vec<u8>, Refused> {
    answer(assemble_into, text)
}

/// Where pieces of code of at most so many bytes end, between words by their first bits, as the standard has them; the last
/// one ends where no further word does. Nothing rests on that: of a piece that ends inside a word the lister says so.
pub fn piece_ends(code: &[u8], most: usize) -> Vec<usize> {
    let (mut ends, mut begin, mut at) = (Vec::new(), 0, 0);
    loop {
        let word = code
            .get(at)
            .map_or(0, |&low| instruction_bytes(low.into()) as usize);
        let whole = word > 0 && at + word <= code.len();
        if at > begin && (!whole || at + word > begin + most) {
            ends.push(at);
            begin = at;
        }
        if !whole {
            return ends;
        }
        at += word;
    }
}

/// What a function writes for an input. An output that it finds too short is doubled.
#[inline]
fn answer(function: Function, input: &[u8]) -> Result<Vec<u8>, Refused> {
    let mut out = vec![0; FIRST_LENT * input.len()];
    loop {
        let answer = function(input, &mut out);
        let (number, rest) = (answer >> 48, answer & ((1 << 48) - 1));
        match number {
            0 => {
                out.truncate(rest as usize);
                return Ok(out);
            }
            SHORT_OUTPUT => out = vec![0; 2 * out.len() + 1],
            _ => {
                let place = rest;
                return Err(Refused { number, place });
            }
        }
    }
}

#[cfg(test)]
mod tests {
    use super::piece_ends;

    #[test]
    fn pieces_end_between_words() {
        // A half, a long word, two halves, and the first half of a long word.
        let code = [0x01, 0, 0x13, 5, 0xF0, 0xFF, 0x01, 0, 0x01, 0, 0x13, 5];
        for (most, ends) in [
            (4, vec![2, 6, 10]),
            (6, vec![6, 10]),
            (7, vec![6, 10]),
            (100, vec![10]),
        ] {
            assert_eq!(piece_ends(&code, most), ends, "{most}");
        }
        assert_eq!(piece_ends(&code[..6], 100), [6]);
        assert_eq!(
            (piece_ends(&[0x13], 100), piece_ends(&[], 100)),
            (vec![], vec![])
        );
    }
}
