//! Images: what a file puts into memory, where the program starts, and the names it brings.

mod elf;
mod hex;
pub mod lines;
pub mod parts;

use crate::names::Name;
use crate::probe::value::stored;
use crate::proved::sheets::{self, Label, Record};
use crate::sheet::Bad;
use crate::visible;
use lent::{State, GRANULE};
use lines::Lines;
use std::path::Path;

/// Where memory starts, and raw bytes with it, if nothing else is said.
pub const DEFAULT_START: u32 = 0x2000_0000;

/// The form of an image file.
#[derive(Clone, Copy, PartialEq, Eq, Debug, Default, clap::ValueEnum)]
pub enum Format {
    /// By the file's first bytes: ELF's mark, a colon for Intel HEX, or a map sheet's first word, else raw; text is refused
    #[default]
    Auto,
    /// Bytes that lie at memory's start
    Raw,
    /// ELF for 32-bit RISC-V, loaded by its segments
    Elf,
    /// Intel HEX
    Hex,
    /// A map sheet, an empty line, then one of the others; raw bytes lie where the sheet's first region starts
    Labelled,
}

/// Bytes at an address, zeros after them, and where in which file they come from.
#[derive(Clone, PartialEq, Eq, Debug)]
pub struct Segment {
    pub address: u32,
    pub bytes: Vec<u8>,
    pub zeros: u64,
    pub origin: String,
}

impl Segment {
    fn end(&self) -> u64 {
        u64::from(self.address) + self.bytes.len() as u64 + self.zeros
    }

    /// Its first address and the one after its last.
    pub fn range(&self) -> (u64, u64) {
        (self.address.into(), self.end())
    }

    /// Whether a byte of the file lies at an address.
    pub fn holds(&self, address: u32) -> bool {
        let offset = address.checked_sub(self.address);
        offset.is_some_and(|offset| (offset as usize) < self.bytes.len())
    }

    pub fn shown(&self) -> String {
        format!("[{:08x}, {:08x})", self.address, self.end())
    }
}

#[derive(Clone, Default, PartialEq, Eq, Debug)]
pub struct Image {
    pub segments: Vec<Segment>,
    pub entry: Option<u32>,
    pub names: Vec<Name>,
    /// Every symbol's name and address, those without a size too.
    pub labels: Vec<(String, u32)>,
    pub lines: Lines,
    /// The regions of its label, where it has one.
    pub label: Option<Vec<Record>>,
    /// What its header says of another core, or has lost.
    pub notes: Vec<String>,
}

/// The image of a file's bytes, of which no two parts overlap; raw bytes go to `start`.
pub fn read(path: &Path, bytes: &[u8], format: Format, start: u32) -> Result<Image, String> {
    let image = match detected(format, bytes) {
        _ if bytes.is_empty() => Err(EMPTY.into()),
        Format::Auto if is_text(bytes) => Err(TEXT.into()),
        Format::Labelled => payload(bytes),
        format => plain(bytes, format, start),
    };
    let mut image = image.map_err(|reason| format!("{}: {reason}", visible::name(path)))?;
    let own = image.segments.iter_mut().map(|segment| &mut segment.origin);
    for said in own.chain(&mut image.notes) {
        *said = format!("{}: {said}", visible::name(path));
    }
    no_overlap(&image.segments)?;
    Ok(image)
}

/// What is said of a file without a byte.
const EMPTY: &str = "the file is empty";
/// What is said of a file that no code would be.
const TEXT: &str =
    "it is text, and no Intel HEX or labelled image; --format raw takes it as code nevertheless";

/// Whether all bytes are letters, signs and white space: a source, say, that was given for what is made of it.
fn is_text(bytes: &[u8]) -> bool {
    let letter = |byte: &u8| byte.is_ascii_graphic() || byte.is_ascii_whitespace();
    bytes.iter().all(letter)
}

/// Whether a file has a map sheet before its payload.
pub fn is_labelled(format: Format, bytes: &[u8]) -> bool {
    detected(format, bytes) == Format::Labelled
}

fn detected(format: Format, bytes: &[u8]) -> Format {
    match format {
        Format::Auto if bytes.starts_with(b"\x7fELF") => Format::Elf,
        Format::Auto if bytes.starts_with(b":") => Format::Hex,
        Format::Auto if bytes.starts_with(b"region\t") => Format::Labelled,
        given => given,
    }
}

/// The label of an image, or its bad line.
fn label_of(bytes: &[u8]) -> Result<Label, String> {
    sheets::label(bytes).map_err(|line| {
        let Bad { line, reason } = Bad::of_image(bytes, line);
        format!("line {line}: {reason}")
    })
}

/// The image in the payload after a map sheet.
fn payload(bytes: &[u8]) -> Result<Image, String> {
    let label = label_of(bytes)?;
    let start = label.regions.first().map_or(0, |region| region.start);
    let bytes = &bytes[label.payload..];
    let image = match detected(Format::Auto, bytes) {
        _ if bytes.is_empty() => Err("it is empty".into()),
        format => plain(bytes, format, start),
    };
    let image = image.map_err(|reason| format!("payload: {reason}"))?;
    Ok(Image {
        label: Some(label.regions),
        ..image
    })
}

fn plain(bytes: &[u8], format: Format, start: u32) -> Result<Image, String> {
    match format {
        Format::Elf => elf::read(bytes),
        Format::Hex => hex::read(bytes),
        _ => raw(bytes.to_vec(), start),
    }
}

fn raw(bytes: Vec<u8>, address: u32) -> Result<Image, String> {
    ends_in_space(address, bytes.len() as u64)?;
    let segment = Segment {
        address,
        bytes,
        zeros: 0,
        origin: "raw bytes".into(),
    };
    Ok(Image {
        segments: vec![segment],
        ..Image::default()
    })
}

/// That so many bytes at an address end at 2^32 at most.
fn ends_in_space(address: u32, length: u64) -> Result<(), String> {
    match u64::from(address) + length > 1 << 32 {
        true => Err("the bytes end past 2^32".into()),
        false => Ok(()),
    }
}

/// Puts segments into a state's memory and clears the tags of the granules they touch. Nothing is
/// put there unless all of them fit and no two overlap.
pub fn load(state: &mut State, segments: &[Segment]) -> Result<(), String> {
    let memory_end = state.end();
    for segment in segments {
        if segment.address < state.start || segment.end() > memory_end {
            let (origin, place) = (&segment.origin, segment.shown());
            let start = state.start;
            return Err(format!(
                "{origin} at {place}: not all inside memory, [{start:08x}, {memory_end:08x})"
            ));
        }
    }
    no_overlap(segments)?;
    for segment in segments {
        let zeros = vec![0; segment.zeros as usize];
        let bytes = [&segment.bytes[..], &zeros].concat();
        put(state, segment.address, &bytes);
    }
    Ok(())
}

fn no_overlap(segments: &[Segment]) -> Result<(), String> {
    let mut sorted: Vec<&Segment> = segments.iter().collect();
    sorted.sort_by_key(|segment| segment.address);
    for pair in sorted.windows(2) {
        if u64::from(pair[1].address) < pair[0].end() {
            let (first, second) = (pair[0], pair[1]);
            return Err(format!(
                "{} at {} overlaps {} at {}",
                second.origin,
                second.shown(),
                first.origin,
                first.shown()
            ));
        }
    }
    Ok(())
}

/// Writes memory otherwise than by a step. Of a granule with a tag, what is left is what the machine's stores leave.
pub fn put(state: &mut State, address: u32, bytes: &[u8]) {
    let before = tagged_parts(state, address, bytes);
    state.write(address, bytes);
    for (granule, left, tag) in before {
        state.write(granule, &left);
        state.set_tag(granule, tag);
    }
}

/// The granules with a tag that bytes at an address go into: where they are, and what the machine's stores leave there.
fn tagged_parts(state: &State, address: u32, bytes: &[u8]) -> Vec<(u32, [u8; GRANULE], bool)> {
    let Some(place) = state.offset(address, bytes.len()) else {
        return Vec::new();
    };
    let end = place + bytes.len();
    let granules = (place / GRANULE..end.div_ceil(GRANULE)).map(|granule| granule * GRANULE);
    let at = |offset: usize| state.start + offset as u32;
    let tagged = granules.filter(|offset| state.tagged(at(*offset).into()));
    tagged
        .map(|offset| {
            let held = std::array::from_fn(|byte| state.mem[offset + byte]);
            let (first, last) = (place.max(offset), end.min(offset + GRANULE));
            let (left, tag) = stored(held, first - offset, &bytes[first - place..last - place]);
            (at(offset), left, tag)
        })
        .collect()
}

#[cfg(test)]
mod tests {
    use super::*;

    #[test]
    fn raw_bytes_end_at_2_to_the_32_at_most() {
        let read = |bytes: &[u8], format| read(Path::new("i"), bytes, format, u32::MAX);
        let label = b"region\tr\tffffffff\t00000001\tr\n\n";
        for (bytes, format, fits) in [
            (&b"\0"[..], Format::Raw, true),
            (b"\0\0", Format::Raw, false),
            (b"\0\0", Format::Auto, false),
            (&[&label[..], b"\0"].concat(), Format::Auto, true),
            (&[&label[..], b"\0\0"].concat(), Format::Auto, false),
        ] {
            match read(bytes, format) {
                Ok(image) => assert!(fits && image.segments[0].end() == 1 << 32),
                Err(why) => assert!(!fits && why.ends_with("the bytes end past 2^32"), "{why}"),
            }
        }
    }
}
