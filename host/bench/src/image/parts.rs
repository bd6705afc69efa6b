//! The parts of an image that is listed: where each lies in its file and in memory. Their bytes are read piece by piece, so
//! that a large file takes no more memory than a small one.

use super::{detected, elf, hex, is_text, label_of, Format, EMPTY, TEXT};
use crate::{file, visible};
use object::read::ReadCache;
use std::fs::File;
use std::io::{BufReader, Cursor, Error, Read, Seek, SeekFrom};
use std::path::Path;

/// The bytes of a piece.
const PIECE: usize = 1 << 16;

/// A file, or bytes in its place.
trait Bytes: Read + Seek {}

impl<T: Read + Seek> Bytes for T {}

/// A part of an image: its number, where its bytes lie in memory and from where on in the file, and how many zeros follow.
#[derive(Clone, PartialEq, Eq, Debug)]
pub struct Part {
    pub number: usize,
    pub address: u32,
    pub length: u64,
    pub zeros: u64,
    /// Whether it holds instructions, as far as the file says.
    pub code: bool,
    pub origin: String,
    place: u64,
}

impl Part {
    /// Its addresses, without the zeros and with them.
    pub fn shown(&self) -> String {
        let end = u64::from(self.address) + self.length + self.zeros;
        format!("[{:08x}, {end:08x})", self.address)
    }

    /// What of it lies in [low, high), from its first byte there on.
    pub fn within(&self, low: u64, high: u64) -> (u64, u64) {
        let (start, end) = (self.address.into(), u64::from(self.address) + self.length);
        let from = low.clamp(start, end);
        (from - start, high.clamp(from, end) - from)
    }
}

/// An image's file and its parts.
pub struct Parts {
    file: Box<dyn Bytes>,
    pub parts: Vec<Part>,
    /// Whether its bytes are digits of Intel HEX.
    in_digits: bool,
}

impl Parts {
    /// The parts of a file; raw bytes go to `start`.
    pub fn of(path: &Path, format: Format, start: u32) -> Result<Parts, String> {
        let name = visible::name(path);
        let parts = opened(path).and_then(|file| found(file, format, start));
        let mut parts = parts.map_err(|reason| format!("{name}: {reason}"))?;
        for part in &mut parts.parts {
            part.origin = format!("{name}: {}", part.origin);
        }
        Ok(parts)
    }

    /// Shows some bytes of a part, from one on, piece by piece.
    pub fn each<E: From<String>>(
        &mut self,
        part: &Part,
        (from, length): (u64, u64),
        see: &mut dyn FnMut(&[u8]) -> Result<(), E>,
    ) -> Result<(), E> {
        let place = part.place + if self.in_digits { 0 } else { from };
        let found = self.file.seek(SeekFrom::Start(place));
        found.map_err(|error| file::why(&error))?;
        match self.in_digits {
            true => {
                let digits = BufReader::with_capacity(PIECE, &mut self.file);
                hex::pieces(digits, (from, from + length), see)
            }
            false => pieces(&mut self.file, length, see),
        }
    }
}

/// Shows so many bytes, as many at a time as a piece has.
fn pieces<E: From<String>>(
    from: &mut dyn Bytes,
    mut length: u64,
    see: &mut dyn FnMut(&[u8]) -> Result<(), E>,
) -> Result<(), E> {
    let mut piece = vec![0; PIECE];
    while length > 0 {
        let most = length.min(PIECE as u64) as usize;
        let told = |error: Error| format!("it has changed: {}", file::why(&error));
        from.read_exact(&mut piece[..most]).map_err(told)?;
        see(&piece[..most])?;
        length -= most as u64;
    }
    Ok(())
}

/// A file as it is read: one that can be read from any place on, or else all its bytes.
fn opened(path: &Path) -> Result<Box<dyn Bytes>, String> {
    let told = |error: Error| file::why(&error);
    if path == Path::new(visible::INPUT) {
        return Ok(Box::new(Cursor::new(file::all(std::io::stdin())?)));
    }
    let file = File::open(path).map_err(told)?;
    let there = file.metadata().map_err(told)?;
    match there.is_file() {
        true if there.len() > file::MOST => Err(file::too_long()),
        true => Ok(Box::new(file)),
        false => Ok(Box::new(Cursor::new(file::all(file)?))),
    }
}

/// The parts of an open file.
fn found(mut file: Box<dyn Bytes>, format: Format, start: u32) -> Result<Parts, String> {
    let told = |error: Error| file::why(&error);
    let length = file.seek(SeekFrom::End(0)).map_err(told)?;
    let head = head(&mut file, 0)?;
    let (format, start, from, of) = match detected(format, &head) {
        _ if length == 0 => return Err(EMPTY.into()),
        Format::Labelled => {
            let label = label_of(&head)?;
            let start = label.regions.first().map_or(0, |region| region.start);
            let from = label.payload as u64;
            let format = detected(Format::Auto, &self::head(&mut file, from)?);
            (format, start, from, "payload: ")
        }
        Format::Auto if all_text(&mut file, length)? => return Err(TEXT.into()),
        format => (format, start, 0, ""),
    };
    let read = match format {
        _ if from == length => Err("it is empty".into()),
        Format::Elf => elf_parts(&mut file, from, length - from),
        Format::Hex => hex_parts(&mut file, from),
        _ => raw_part(start, from, length - from),
    };
    Ok(Parts {
        file,
        parts: read.map_err(|reason| format!("{of}{reason}"))?,
        in_digits: format == Format::Hex,
    })
}

/// The first bytes from a place on, as many as a label has at most.
fn head(file: &mut dyn Bytes, from: u64) -> Result<Vec<u8>, String> {
    let mut head = Vec::new();
    let found = file.seek(SeekFrom::Start(from));
    let read = found.and_then(|_| file.take(PIECE as u64).read_to_end(&mut head));
    read.map_err(|error| file::why(&error))?;
    Ok(head)
}

/// Whether all bytes are text; of code that is seen soon.
fn all_text(file: &mut dyn Bytes, length: u64) -> Result<bool, String> {
    let mut place = 0;
    while place < length {
        let piece = head(file, place)?;
        if !is_text(&piece) {
            return Ok(false);
        }
        place += piece.len().max(1) as u64;
    }
    Ok(true)
}

fn raw_part(address: u32, place: u64, length: u64) -> Result<Vec<Part>, String> {
    super::ends_in_space(address, length)?;
    Ok(vec![Part {
        number: 0,
        address,
        length,
        zeros: 0,
        code: true,
        origin: "raw bytes".into(),
        place,
    }])
}

fn elf_parts(file: &mut dyn Bytes, from: u64, length: u64) -> Result<Vec<Part>, String> {
    let cache = ReadCache::new(file);
    let loaded = elf::loaded(cache.range(from, length))?;
    let part = |load: &elf::Load| Part {
        number: load.index,
        address: load.address,
        length: load.in_file,
        zeros: load.zeros,
        code: load.code,
        origin: load.origin(),
        place: from + load.offset,
    };
    Ok(loaded.segments.iter().map(part).collect())
}

fn hex_parts(file: &mut dyn Bytes, from: u64) -> Result<Vec<Part>, String> {
    file.seek(SeekFrom::Start(from))
        .map_err(|error| file::why(&error))?;
    let mut parts: Vec<Part> = Vec::new();
    hex::scan(BufReader::with_capacity(PIECE, file), &mut |data| {
        let length = data.bytes.len() as u64;
        match parts.last_mut() {
            Some(last) if u64::from(last.address) + last.length == u64::from(data.address) => {
                last.length += length;
            }
            _ => parts.push(Part {
                number: parts.len(),
                address: data.address,
                length,
                zeros: 0,
                code: true,
                origin: hex::origin(data.line),
                place: from + data.place,
            }),
        }
    })?;
    Ok(parts)
}
