//! An image's label, the map sheet before its payload, beside a board's sheet: for each region where it
//! lies, or why it does not fit, in words. Whether the image fits is the proved library's answer, and whether a region of
//! the board holds one of its regions too.

use super::letters;
use crate::capability_text::count;
use crate::proved::sheets::{self, Record};

/// A region of an image: the board's region that holds it, or why none does.
pub struct Placed<'a> {
    pub region: &'a Record,
    pub place: Result<&'a Record, String>,
}

/// Every region of an image on a board. One that fits is known to lie in a region of the board, which is then the one that it
/// shares bytes with.
pub fn placed<'a>(image: &'a [Record], board: &'a [Record], fits: bool) -> Vec<Placed<'a>> {
    let place = |region: &'a Record| {
        let mut touched = board.iter().filter(|place| touches(place, region));
        let holder = touched.find(|place| fits || sheets::holds(place, region));
        Placed {
            region,
            place: holder.ok_or_else(|| reason(region, board)),
        }
    };
    image.iter().map(place).collect()
}

/// Whether two regions share a byte.
fn touches(place: &Record, region: &Record) -> bool {
    u64::from(place.start) < region.end() && u64::from(region.start) < place.end()
}

/// The rights of a region that a place lacks.
fn lacking(place: &Record, region: &Record) -> u32 {
    region.rights & !place.rights
}

/// Why no region of the board holds this one: what each that has a byte of it lacks.
fn reason(region: &Record, board: &[Record]) -> String {
    let touched = board.iter().filter(|place| touches(place, region));
    let mut touched: Vec<&Record> = touched.collect();
    touched.sort_by_key(|place| place.start);
    let reasons: Vec<String> = touched.iter().map(|place| amiss(place, region)).collect();
    if reasons.is_empty() {
        return "the board has no region there".into();
    }
    reasons.join("; ")
}

/// What keeps one region of the board from holding a region.
fn amiss(place: &Record, region: &Record) -> String {
    let mut reasons = Vec::new();
    if let Some(bytes @ 1..) = place.start.checked_sub(region.start) {
        reasons.push(format!("begins {} too late", count(bytes.into(), "byte")));
    }
    if let Some(bytes @ 1..) = region.end().checked_sub(place.end()) {
        reasons.push(format!("is too short by {}", count(bytes, "byte")));
    }
    match lacking(place, region) {
        0 => {}
        rights => reasons.push(format!("lacks {}", letters(rights))),
    }
    format!("{} {}", place.name, reasons.join(", "))
}

#[cfg(test)]
mod tests {
    use super::*;

    fn record(name: &str, start: u32, length: u32, rights: u32) -> Record {
        Record {
            name: name.into(),
            start,
            length,
            rights,
        }
    }

    #[test]
    fn a_region_is_held_where_its_bytes_and_rights_are() {
        let place = record("b", 0xFFFF_FF00, 0x80, 5);
        for (start, length) in [(0xFF00, 0x80), (0xFEFF, 0x80), (0xFF00, 0x81), (0xFF7F, 1)] {
            for rights in 1..8 {
                let region = record("abcdefghijklmnop", 0xFFFF_0000 + start, length, rights);
                let inside = start >= 0xFF00 && start + length <= 0xFF80;
                let expected = inside && rights & !5 == 0;
                assert_eq!(sheets::holds(&place, &region), expected, "{region:?}");
            }
        }
    }

    #[test]
    fn why_a_region_does_not_fit_is_said_for_each_board_region_that_it_touches() {
        let board = [record("low", 100, 10, 5), record("high", 110, 1000, 3)];
        let said = |start, length, rights| {
            let image = [record("a", start, length, rights)];
            let placed = placed(&image, &board, false).remove(0).place;
            placed
                .map(|place| place.name.clone())
                .unwrap_or_else(|reason| reason)
        };
        assert_eq!(said(100, 10, 5), "low");
        assert_eq!(said(110, 1000, 3), "high");
        assert_eq!(said(100, 10, 2), "low lacks w");
        assert_eq!(said(110, 1000, 7), "high lacks x");
        assert_eq!(said(110, 1001, 1), "high is too short by 1 byte");
        assert_eq!(
            said(200, 2000, 4),
            "high is too short by 1,090 bytes, lacks x"
        );
        assert_eq!(said(99, 2, 1), "low begins 1 byte too late");
        let both = "low is too short by 1 byte; high begins 1 byte too late";
        assert_eq!(said(109, 2, 1), both);
        assert_eq!(said(0, 100, 1), "the board has no region there");
        assert_eq!(said(0xFFFF_FFFF, 1, 1), "the board has no region there");
    }
}
