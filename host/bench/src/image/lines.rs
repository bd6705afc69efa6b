//! The source lines of an image's words, by the ELF file's DWARF. A file without them, or with ones that are not whole, has
//! none.

use crate::visible::quoted;
use addr2line::Context;
use gimli::{Dwarf, EndianSlice, LittleEndian, SectionId};
use std::path::Path;

/// The words of one line of a source file: those from `start` on before `end`.
#[derive(Clone, PartialEq, Eq, Debug)]
pub struct Line {
    pub start: u64,
    pub end: u64,
    pub file: String,
    pub number: u32,
}

#[derive(Clone, Default, PartialEq, Eq, Debug)]
pub struct Lines(pub Vec<Line>);

impl Lines {
    /// The line that an address is of, as FILE:LINE.
    pub fn at(&self, address: u32) -> Option<String> {
        let address = u64::from(address);
        let mut lines = self.0.iter();
        let line = lines.find(|line| line.start <= address && address < line.end)?;
        let file = Path::new(&line.file).file_name()?.to_str()?;
        Some(format!("{}:{}", quoted(file), line.number))
    }

    /// The lowest address of a line that is given as FILE:LINE, FILE as much of its path's end as is wanted.
    pub fn address(&self, place: &str) -> Option<u32> {
        let (file, number) = place
            .rsplit_once(':')
            .filter(|(file, _)| !file.is_empty())?;
        let number: u32 = number.parse().ok()?;
        let lines = self.0.iter();
        let named =
            lines.filter(|line| line.number == number && Path::new(&line.file).ends_with(file));
        u32::try_from(named.map(|line| line.start).min()?).ok()
    }
}

/// The lines of an ELF file, each of whose sections `section` gives by its name.
pub fn read<'a>(section: impl Fn(&str) -> Option<&'a [u8]>) -> Lines {
    let load = |id: SectionId| -> Result<_, gimli::Error> {
        let bytes = section(id.name()).unwrap_or_default();
        Ok(EndianSlice::new(bytes, LittleEndian))
    };
    let context = Dwarf::load(load).and_then(Context::from_dwarf);
    let Ok(context) = context else {
        return Lines::default();
    };
    let found = context.find_location_range(0, 1 << 32);
    let lines = found
        .into_iter()
        .flatten()
        .filter_map(|(start, length, at)| {
            Some(Line {
                start,
                end: start.checked_add(length)?,
                file: at.file?.into(),
                number: at.line?,
            })
        });
    Lines(lines.collect())
}

#[cfg(test)]
mod tests {
    use super::*;
    use crate::sequence::Sequence;

    #[test]
    fn a_line_is_found_by_its_address_and_by_its_name() {
        let line = |start, end, file: &str, number| Line {
            start,
            end,
            file: file.into(),
            number,
        };
        let lines = Lines(vec![
            line(0x20, 0x24, "/home/a/doors.s", 31),
            line(0x10, 0x14, "/home/a/doors.s", 31),
            line(0x30, 0x32, "/home/b/doors.s", 31),
        ]);
        assert_eq!(lines.at(0x23), Some("doors.s:31".into()));
        assert_eq!(lines.at(0x24), None);
        assert_eq!(lines.address("doors.s:31"), Some(0x10));
        assert_eq!(lines.address("b/doors.s:31"), Some(0x30));
        for none in [
            "doors.s:32",
            "oors.s:31",
            "doors.s",
            "doors.s:",
            ":31",
            "c/doors.s:31",
        ] {
            assert_eq!(lines.address(none), None, "{none}");
        }
    }

    #[test]
    fn sections_that_are_no_dwarf_have_no_lines() {
        assert_eq!(read(|_| None), Lines::default());
        let mut words = Sequence(3);
        for length in 0..200 {
            let bytes: Vec<u8> = (0..length).map(|_| words.word() as u8).collect();
            assert_eq!(read(|_| Some(&bytes[..])), Lines::default());
        }
    }
}
