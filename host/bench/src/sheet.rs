//! Board map sheets: files that the proved reader judges, with the words for a line that it calls bad.

mod fault;
pub mod label;

use crate::file;
use crate::names::Name;
use crate::proved::sheets::{self, BadLine, Record};
use crate::visible;
use std::path::Path;

/// The letters of each rights number, r 1, w 2 and x 4.
const RIGHTS: [&str; 8] = ["", "r", "w", "rw", "x", "rx", "wx", "rwx"];

/// The right to write.
pub const WRITE: u32 = 2;

/// The letters of rights.
pub fn letters(rights: u32) -> &'static str {
    RIGHTS[(rights & 7) as usize]
}

/// A good sheet.
#[derive(Debug)]
pub struct Sheet {
    pub regions: Vec<Record>,
}

/// A bad sheet: its first bad line and what is wrong with it.
#[derive(PartialEq, Eq, Debug)]
pub struct Bad {
    pub line: u64,
    pub reason: String,
}

impl Bad {
    /// The bad line of a sheet, with the words for it.
    pub fn of(sheet: &[u8], BadLine(line): BadLine) -> Bad {
        let reason = fault::reason(sheet, line);
        Bad { line, reason }
    }

    /// The bad line of an image's sheet, with the words for it.
    pub fn of_image(image: &[u8], BadLine(line): BadLine) -> Bad {
        let reason = fault::reason_in_image(image, line);
        Bad { line, reason }
    }

    /// The line and the reason, of a file.
    pub fn shown(&self, path: &Path) -> String {
        let name = visible::name(path);
        format!("{name}: line {}: {}", self.line, self.reason)
    }
}

/// The sheet of bytes.
pub fn of(bytes: &[u8]) -> Result<Sheet, Bad> {
    let read = sheets::read(bytes).map(|regions| Sheet { regions });
    read.map_err(|line| Bad::of(bytes, line))
}

/// The sheet of a file, or what is wrong with the file.
pub fn read(path: &Path) -> Result<Sheet, String> {
    of(&file::read(path)?).map_err(|bad| bad.shown(path))
}

impl Sheet {
    /// The regions as names of places.
    pub fn names(&self) -> Vec<Name> {
        let name = |region: &Record| {
            let letters = region.name.as_bytes();
            Name::new(letters, region.start, region.length.into())
        };
        self.regions.iter().map(name).collect()
    }

    /// The start and the size of the memory that the regions span.
    pub fn span(&self) -> Option<(u32, u64)> {
        let start = self.regions.iter().map(|region| region.start).min()?;
        let end = self.regions.iter().map(Record::end).max()?;
        Some((start, end - u64::from(start)))
    }
}

#[cfg(test)]
mod tests {
    use super::*;

    #[test]
    fn a_good_sheet_and_its_span() {
        let text = "region\tcode\t20000000\t00000400\trx\nregion\tdata\t20000400\t00000c00\trw\n";
        let sheet = of(text.as_bytes()).unwrap();
        assert_eq!(sheet.regions.len(), 2);
        assert_eq!(sheet.span(), Some((0x2000_0000, 0x1000)));
        assert_eq!(sheet.names()[1], Name::new(b"data", 0x2000_0400, 0xC00));
        let rights = sheet.regions.iter().map(|region| letters(region.rights));
        assert!(rights.eq(["rx", "rw"]));
    }
}
