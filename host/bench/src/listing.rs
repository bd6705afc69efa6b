//! An image's words as the proved lister lists them, each with its address: piece by piece, so that a listing is written while
//! the file is read.

#[cfg(test)]
mod tests;

use crate::proved;
use serde_json::json;
use std::io::{Error, Write};
use std::panic::resume_unwind;
use std::thread;

/// The most bytes of code that are listed at a time, and the most pieces that are listed beside one another.
const PIECE: usize = 1 << 16;
const MOST_JOBS: usize = 4;

/// The form that words are written in.
#[derive(Clone, Copy, PartialEq, Eq, Debug)]
pub enum Form {
    /// For a person: address, digits and instruction.
    Shown,
    /// The lister's own, which assembles.
    Plain,
    Json,
    /// Nothing is written.
    None,
}

/// Lists code from an address on into an output.
pub struct Lister<'a> {
    out: &'a mut dyn Write,
    form: Form,
    address: u64,
    /// What is not listed yet.
    rest: Vec<u8>,
    /// Whether a word was listed already.
    begun: bool,
    jobs: usize,
}

/// Bytes that end inside a word: where they lie.
#[derive(Clone, PartialEq, Eq, Debug)]
pub struct Tail {
    pub address: u64,
    pub bytes: Vec<u8>,
}

impl Tail {
    /// The bytes as pairs of digits, in their order.
    fn digits(&self) -> String {
        self.bytes
            .iter()
            .map(|byte| format!("{byte:02x}"))
            .collect()
    }

    /// For a person, as a line of the listing.
    pub fn line(&self) -> String {
        let (address, digits) = (self.address, self.digits());
        format!("  {address:08x}  {digits:<8}  data: the bytes end inside a word\n")
    }

    pub fn json(&self) -> String {
        json!({ "address": self.address, "bytes": self.digits() }).to_string()
    }
}

impl Lister<'_> {
    pub fn new(out: &mut dyn Write, form: Form, address: u64) -> Lister<'_> {
        Lister {
            out,
            form,
            address,
            rest: Vec::new(),
            begun: false,
            jobs: thread::available_parallelism().map_or(1, |cores| MOST_JOBS.min(cores.into())),
        }
    }

    /// Takes up code that follows, and lists it where there is enough.
    pub fn take(&mut self, code: &[u8]) -> Result<(), Error> {
        self.rest.extend_from_slice(code);
        match self.rest.len() < self.jobs * PIECE {
            true => Ok(()),
            false => self.list(),
        }
    }

    /// Lists what is left, but for bytes that end inside a word.
    pub fn finish(mut self) -> Result<Option<Tail>, Error> {
        self.list()?;
        if self.rest.is_empty() {
            return Ok(None);
        }
        match proved::list(&self.rest) {
            Ok(_) => Err(Error::other(ELSEWHERE)),
            Err(_) => Ok(Some(Tail {
                address: self.address,
                bytes: self.rest,
            })),
        }
    }

    /// Lists the whole words of what is left, as many pieces of them at a time as there are jobs.
    fn list(&mut self) -> Result<(), Error> {
        let ends = proved::piece_ends(&self.rest, PIECE);
        let mut begin = 0;
        for ends in ends.chunks(self.jobs) {
            for listed in beside(&self.rest, (begin, ends), self.address, self.form) {
                // A comma is before each word of JSON but the first.
                let comma = usize::from(self.form == Form::Json && !self.begun);
                self.out.write_all(listed?.get(comma..).unwrap_or(&[]))?;
                self.begun = true;
            }
            begin = ends.last().copied().unwrap_or(begin);
        }
        self.address += begin as u64;
        self.rest.drain(..begin);
        Ok(())
    }
}

/// What is said where the lister would have cut code otherwise than it was cut.
const ELSEWHERE: &str = "the lister has the words end elsewhere";

/// Lists pieces of code beside one another, the first from `begin` on: what is written of each.
fn beside(
    code: &[u8],
    (begin, ends): (usize, &[usize]),
    address: u64,
    form: Form,
) -> Vec<Result<Vec<u8>, Error>> {
    let begins = std::iter::once(begin).chain(ends.iter().copied());
    let list = |(from, to): (usize, usize)| listed(&code[from..to], address + from as u64, form);
    let pieces = begins.zip(ends.iter().copied());
    if let ([_], Some(one)) = (ends, pieces.clone().next()) {
        return vec![list(one)];
    }
    thread::scope(|scope| {
        let jobs: Vec<_> = pieces
            .map(|piece| scope.spawn(move || list(piece)))
            .collect();
        let done = jobs.into_iter().map(|job| job.join());
        done.map(|done| done.unwrap_or_else(|panic| resume_unwind(panic)))
            .collect()
    })
}

/// What is written of a piece of whole words.
fn listed(code: &[u8], address: u64, form: Form) -> Result<Vec<u8>, Error> {
    if form == Form::None {
        return Ok(Vec::new());
    }
    let text = proved::list(code).map_err(|_| Error::other(ELSEWHERE))?;
    Ok(match form {
        Form::Shown => shown(&text, code, address),
        Form::Json => objects(&text, code, address),
        Form::Plain | Form::None => text.into_bytes(),
    })
}

/// The letters that a word's digits have room in.
const ROOM: usize = 8;
/// The digits of an illegal half, which are its line.
const HALF: usize = 4;
const DIGITS: &[u8; 16] = b"0123456789abcdef";

/// The bytes of a word, by its line: a half has a name of extension C, or its own digits.
fn length_of(line: &[u8]) -> usize {
    let half = line.len() == HALF && line.iter().all(u8::is_ascii_hexdigit);
    match line.starts_with(b"c.") || half {
        true => 2,
        false => 4,
    }
}

/// Each line of a listing, with the bytes of its word and its address.
fn words<'a>(
    text: &'a str,
    code: &'a [u8],
    mut address: u64,
) -> impl Iterator<Item = (&'a [u8], &'a [u8], u64)> {
    let (lines, mut rest) = (text.as_bytes().split(|byte| *byte == b'\n'), code);
    // After the last newline there is nothing.
    lines.filter(|line| !line.is_empty()).map(move |line| {
        let (word, after) = rest.split_at(length_of(line).min(rest.len()));
        let at = address;
        (rest, address) = (after, address + word.len() as u64);
        (line, word, at)
    })
}

/// Lines for a person.
fn shown(text: &str, code: &[u8], address: u64) -> Vec<u8> {
    let mut out = Vec::with_capacity(3 * text.len());
    for (line, word, at) in words(text, code, address) {
        out.extend_from_slice(b"  ");
        hexadecimal(&mut out, at);
        out.extend_from_slice(b"  ");
        for byte in word.iter().rev() {
            out.extend([
                DIGITS[usize::from(byte >> 4)],
                DIGITS[usize::from(byte & 15)],
            ]);
        }
        out.extend(std::iter::repeat_n(b' ', ROOM + 2 - 2 * word.len()));
        spaced(&mut out, line);
        out.push(b'\n');
    }
    out
}

/// Words as JSON, with a comma before each.
fn objects(text: &str, code: &[u8], address: u64) -> Vec<u8> {
    let mut out = Vec::with_capacity(8 * text.len());
    for (line, word, at) in words(text, code, address) {
        out.extend_from_slice(b",\n      {\"address\": ");
        decimal(&mut out, at);
        out.extend_from_slice(b", \"word\": ");
        decimal(&mut out, proved::number(word).into());
        out.extend_from_slice(b", \"length\": ");
        decimal(&mut out, word.len() as u64);
        // Names, digits and spaces are written as they are.
        out.extend_from_slice(b", \"instruction\": \"");
        spaced(&mut out, line);
        out.extend_from_slice(b"\"}");
    }
    out
}

/// A line with its tabs as spaces.
fn spaced(out: &mut Vec<u8>, line: &[u8]) {
    out.extend(
        line.iter()
            .map(|byte| if *byte == b'\t' { b' ' } else { *byte }),
    );
}

/// A number in eight digits, or as many as it has.
fn hexadecimal(out: &mut Vec<u8>, number: u64) {
    let first = ROOM.max((u64::BITS - number.leading_zeros()).div_ceil(4) as usize);
    for place in (0..first).rev() {
        out.push(DIGITS[(number >> (4 * place) & 15) as usize]);
    }
}

fn decimal(out: &mut Vec<u8>, mut number: u64) {
    let mut digits = [0; 20];
    let mut first = digits.len();
    while number > 0 || first == digits.len() {
        first -= 1;
        digits[first] = b'0' + (number % 10) as u8;
        number /= 10;
    }
    out.extend_from_slice(&digits[first..]);
}
