//! What is wrong with the line of a sheet that the proved reader calls bad, in words. Nothing is judged
//! here: the reader says which line it is, and reads the lines before it.

use super::RIGHTS;
use crate::digits::word;
use crate::proved::sheets::{self, Record, MOST_REGIONS};

const MOST_LETTERS: usize = 16;
/// Said where nothing was found; the tests look for a line that comes to it.
const UNKNOWN: &str = "it is no region's line";

/// The reason for a bad line of an image's sheet, which an empty line ends.
pub fn reason_in_image(image: &[u8], line: u64) -> String {
    let place = line.saturating_sub(1) as usize;
    let mut lines = image.split_inclusive(|byte| *byte == b'\n');
    match lines.nth(place) {
        None if line > 1 => "the image ends here, without the empty line after its sheet".into(),
        Some(b"\n") => "the image begins with the empty line: its sheet has no region".into(),
        Some(text) if line > 1 && region(text).is_err() => {
            let reason = reason(image, line);
            format!("{reason}; no empty line has ended the image's sheet before it")
        }
        _ => reason(image, line),
    }
}

/// The reason for a bad line.
pub fn reason(sheet: &[u8], line: u64) -> String {
    let place = line.saturating_sub(1) as usize;
    let mut lines = sheet.split_inclusive(|byte| *byte == b'\n');
    let length: usize = lines.by_ref().take(place).map(<[u8]>::len).sum();
    let before = sheets::read(&sheet[..length]).unwrap_or_default();
    match lines.next() {
        None => "the sheet has no region".into(),
        Some(_) if place == MOST_REGIONS => format!("there are more than {MOST_REGIONS} regions"),
        Some(line) => {
            let clashing = |region: Record| clash(&before, &region);
            region(line).map_or_else(String::from, clashing)
        }
    }
}

/// The region that a line stands for, or what is wrong with its form.
fn region(line: &[u8]) -> Result<Record, &'static str> {
    let line = line.strip_suffix(b"\n").ok_or("it has no newline")?;
    if line.is_empty() {
        return Err("it is empty");
    }
    if line.ends_with(b"\r") {
        return Err("it ends with a carriage return before its newline");
    }
    let line = std::str::from_utf8(line).map_err(|_| "it is not text")?;
    let fields: Vec<&str> = line.split('\t').collect();
    let ["region", name, start, length, rights] = fields[..] else {
        return Err("it is not region, name, start, length, rights, parted by single tabs");
    };
    let letters = name.bytes().all(|letter| letter.is_ascii_lowercase());
    if !letters || !(1..=MOST_LETTERS).contains(&name.len()) {
        return Err("the name is not 1 to 16 lower-case letters");
    }
    if rights.is_empty() || !RIGHTS.contains(&rights) {
        return Err("the rights are none of r, w, x, rw, rx, wx and rwx");
    }
    Ok(Record {
        name: name.into(),
        start: word(start).ok_or("the start is not eight lower-case hexadecimal digits")?,
        length: word(length).ok_or("the length is not eight lower-case hexadecimal digits")?,
        rights: 0,
    })
}

/// What keeps a region from standing beside those before it.
fn clash(before: &[Record], region: &Record) -> String {
    let apart =
        |other: &Record| other.end() <= region.start.into() || region.end() <= other.start.into();
    if region.length == 0 {
        return "the length is 0".into();
    }
    if region.end() > 1 << 32 {
        return "the region ends past 2^32".into();
    }
    if before.iter().any(|other| other.name == region.name) {
        return format!("there is a region {} before it", region.name);
    }
    match before.iter().find(|other| !apart(other)) {
        Some(other) => format!("the region overlaps {}", other.name),
        None => UNKNOWN.into(),
    }
}

#[cfg(test)]
mod tests {
    use crate::proved::sheets::{self, BadLine};
    use crate::sheet;

    /// The line and the reason of a bad sheet.
    fn said(text: &[u8]) -> (u64, String) {
        let bad = sheet::of(text).expect_err("a bad sheet");
        (bad.line, bad.reason)
    }

    #[test]
    fn bad_lines_are_named_with_what_is_wrong() {
        let good = "region\tcode\t20000000\t00000400\trx\n";
        for (bad, reason) in [
            ("region\tdata\t20000400\t00000400\trx", "newline"),
            ("\n", "empty"),
            ("region\tCode\t20000000\t00000400\trx\n", "name"),
            ("region\t\t20000000\t00000400\trx\n", "name"),
            (
                "region\tabcdefghijklmnopq\t20000000\t00000400\trx\n",
                "name",
            ),
            ("region\tdata\t2000040\t00000400\trx\n", "start"),
            ("region\tdata\t20000400\t0000040A\trx\n", "length is not"),
            ("region\tdata\t20000400\t00000000\trx\n", "length is 0"),
            ("region\tdata\tffffffff\t00000002\trx\n", "2^32"),
            ("region\tdata\t20000400\t00000400\txr\n", "rights"),
            ("region data 20000400 00000400 rx\n", "tabs"),
            (good, "region code before it"),
            ("region\tdata\t200003ff\t00000001\trw\n", "overlaps code"),
        ] {
            let (line, said) = said(format!("{good}{bad}").as_bytes());
            assert_eq!(line, 2);
            assert!(said.contains(reason), "{bad:?}: {said}");
        }
        assert_eq!(said(b"\xFF\n"), (1, "it is not text".into()));
        assert_eq!(said(b""), (1, "the sheet has no region".into()));
    }

    #[test]
    fn bad_lines_of_images_are_named_with_what_is_wrong() {
        let good = "region\tcode\t20000000\t00000400\trx\n";
        for (image, line, reason) in [
            (String::new(), 1, "the sheet has no region"),
            ("\npayload".into(), 1, "begins with the empty line"),
            (good.into(), 2, "ends here, without the empty line"),
            (
                format!("{good}payload"),
                2,
                "it has no newline; no empty line",
            ),
            (
                format!("{good}\r\n"),
                2,
                "carriage return before its newline; no empty line",
            ),
            (
                format!("{good}{good}\n"),
                2,
                "there is a region code before it",
            ),
        ] {
            let BadLine(found) = sheets::label(image.as_bytes()).expect_err("a bad sheet");
            assert_eq!(found, line, "{image:?}");
            let said = super::reason_in_image(image.as_bytes(), found);
            assert!(said.contains(reason), "{image:?}: {said}");
        }
    }

    /// A text with each of its first bytes changed, and with each byte put in before them.
    fn damages(text: &[u8], first: usize) -> impl Iterator<Item = Vec<u8>> + '_ {
        let places = (0..first).flat_map(|place| (0..=u8::MAX).map(move |byte| (place, byte)));
        places.flat_map(|(place, byte)| {
            let (before, after) = text.split_at(place);
            let changed = [before, &[byte], &after[1..]].concat();
            [changed, [before, &[byte], after].concat()]
        })
    }

    /// Whatever one byte does to a sheet or to an image, there are words for the line that is bad then.
    #[test]
    fn a_reason_is_found_for_every_damage_of_a_byte() {
        let text = b"region\ta\tffffffe0\t00000010\trw\nregion\tb\tfffffff0\t00000010\trx\n";
        let image = [&text[..], b"\npayload"].concat();
        let mut bad = 0;
        for damaged in damages(&image, text.len()) {
            let sheet = &damaged[..damaged.len() - b"\npayload".len()];
            let of_sheet = sheets::read(sheet).err();
            let of_sheet = of_sheet.map(|BadLine(line)| super::reason(sheet, line));
            let of_image = sheets::label(&damaged).err();
            let of_image = of_image.map(|BadLine(line)| super::reason_in_image(&damaged, line));
            for reason in of_sheet.into_iter().chain(of_image) {
                assert_ne!(reason, super::UNKNOWN, "{}", damaged.escape_ascii());
                bad += 1;
            }
        }
        assert!(bad > 50_000, "{bad}");
    }

    #[test]
    fn there_are_at_most_64_regions() {
        let line = |index: u32| {
            let letters = [index / 26, index % 26].map(|place| (b'a' + place as u8) as char);
            let name = String::from_iter(letters);
            format!("region\t{name}\t{:08x}\t00000040\trw\n", 64 * index)
        };
        let sheet = |count| (0..count).map(line).collect::<String>();
        let good = sheet::of(sheet(64).as_bytes()).expect("64 regions");
        assert_eq!(good.regions.len(), 64);
        let more = (65, "there are more than 64 regions".into());
        assert_eq!(said(sheet(65).as_bytes()), more);
    }
}
