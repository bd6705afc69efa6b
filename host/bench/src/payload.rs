//! Whether each byte that an image loads lies in a region of its label and in one of the board's sheet. Regions that follow
//! one another hold a part together.

use crate::capability_text::count;
use crate::image::{Image, Segment};
use crate::proved::sheets::Record;

/// Whose regions a byte lies outside of.
#[derive(Clone, Copy, PartialEq, Eq, Debug)]
pub enum Whose {
    Label,
    Board,
}

impl Whose {
    /// In a word, for programs.
    pub fn word(self) -> &'static str {
        match self {
            Whose::Label => "label",
            Whose::Board => "board",
        }
    }
}

/// The first byte of a file's part that lies in no region, and the region that is nearest to it.
#[derive(Clone, PartialEq, Eq, Debug)]
pub struct Outside {
    /// The part, with its file and where it lies.
    pub part: String,
    /// Up to 2^32, where no region is.
    pub address: u64,
    pub whose: Whose,
    pub nearest: Option<Record>,
}

impl Outside {
    /// Where the byte lies, in words.
    pub fn reason(&self) -> String {
        let whose = match self.whose {
            Whose::Label => "the image's label",
            Whose::Board => "the board's sheet",
        };
        let Outside { part, address, .. } = self;
        let said = format!("{part}: {address:08x} lies in no region of {whose}");
        match &self.nearest {
            None => said,
            Some(region) => format!("{said}; the nearest is {}", beside(region, *address)),
        }
    }
}

/// A region, and on which side of an address outside it it lies.
fn beside(region: &Record, address: u64) -> String {
    let (name, start, end) = (&region.name, region.start, region.end());
    let side = match address.checked_sub(end) {
        Some(0) => "ends there".into(),
        Some(bytes) => format!("ends {} before", count(bytes, "byte")),
        None => format!("begins {} after", count(u64::from(start) - address, "byte")),
    };
    format!("{name}, [{start:08x}, {end:08x}), which {side}")
}

/// The first byte of an image that lies outside its label, or else outside the board.
pub fn outside(image: &Image, board: &[Record]) -> Option<Outside> {
    let labelled = image.label.as_ref();
    let label = labelled.and_then(|label| of(&image.segments, label, Whose::Label));
    label.or_else(|| of(&image.segments, board, Whose::Board))
}

fn of(segments: &[Segment], regions: &[Record], whose: Whose) -> Option<Outside> {
    segments.iter().find_map(|segment| {
        let address = first_outside(segment.range(), regions)?;
        Some(Outside {
            part: format!("{} at {}", segment.origin, segment.shown()),
            address,
            whose,
            nearest: nearest(address, regions).cloned(),
        })
    })
}

/// The first address of a range that no region holds.
fn first_outside((low, high): (u64, u64), regions: &[Record]) -> Option<u64> {
    let mut address = low;
    while address < high {
        let holds = |region: &&Record| (region.start.into()..region.end()).contains(&address);
        match regions.iter().find(holds) {
            Some(region) => address = region.end(),
            None => return Some(address),
        }
    }
    None
}

/// The region with the fewest bytes between it and an address outside all of them.
fn nearest(address: u64, regions: &[Record]) -> Option<&Record> {
    regions.iter().min_by_key(|region| {
        let before = address.saturating_sub(region.end());
        let after = u64::from(region.start).saturating_sub(address);
        before.max(after)
    })
}

#[cfg(test)]
mod tests {
    use super::*;

    fn regions(ranges: &[(u32, u32)]) -> Vec<Record> {
        let region = |(start, length): &(u32, u32)| Record {
            name: format!("r{start}"),
            start: *start,
            length: *length,
            rights: 1,
        };
        ranges.iter().map(region).collect()
    }

    // Each range beside what a look at every byte says.
    #[test]
    fn the_first_byte_outside_is_found() {
        let regions = regions(&[(20, 4), (4, 6), (10, 3)]);
        let held = |address: u32| {
            regions
                .iter()
                .any(|r| (r.start..r.start + r.length).contains(&address))
        };
        for low in 0..28 {
            for high in low..28 {
                let expected = (low..high).find(|address| !held(*address));
                let expected = expected.map(u64::from);
                let range = (low.into(), high.into());
                assert_eq!(first_outside(range, &regions), expected, "{low} {high}");
            }
        }
        assert_eq!(first_outside((0, 1), &[]), Some(0));
        let last = super::tests::regions(&[(u32::MAX, 1)]);
        let end = 1 << 32;
        assert_eq!(first_outside((u32::MAX.into(), end), &last), None);
        assert_eq!(first_outside((u32::MAX.into(), end + 1), &last), Some(end));
    }

    #[test]
    fn the_nearest_region_is_told_with_its_side() {
        let regions = regions(&[(4, 6), (20, 4)]);
        let said = |address| beside(nearest(address, &regions).unwrap(), address);
        assert_eq!(
            said(0),
            "r4, [00000004, 0000000a), which begins 4 bytes after"
        );
        assert_eq!(said(10), "r4, [00000004, 0000000a), which ends there");
        assert_eq!(
            said(14),
            "r4, [00000004, 0000000a), which ends 4 bytes before"
        );
        assert_eq!(
            said(19),
            "r20, [00000014, 00000018), which begins 1 byte after"
        );
        assert_eq!(
            said(25),
            "r20, [00000014, 00000018), which ends 1 byte before"
        );
        assert!(nearest(0, &[]).is_none());
    }
}
