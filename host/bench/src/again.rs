//! A run made again: it is deterministic, so that stores into any number of ranges are counted by the proved watch record,
//! two ranges at a time, and the first of them is found by halving the number of steps.

use crate::last::{advance, Kept};
use crate::proved::Refusal;
use crate::stop;
use lent::{Range, State, Watch};

/// The most steps of a call. Where a value was loaded that no start may hold, calls go on from the last start before, and
/// together have at most 1,000,000 steps.
const CALL: u64 = 1 << 17;

/// A run that was made: its start, its steps, and after how many of them memory was swept.
pub struct Again<'a> {
    pub start: &'a State,
    pub made: u64,
    pub sweep: Option<u64>,
}

impl Again<'_> {
    /// How many stores of the run touched each of these ranges.
    pub fn counted(&self, ranges: &[Range]) -> Result<Vec<u32>, Refusal> {
        let mut counts = Vec::with_capacity(ranges.len());
        for pair in ranges.chunks(2) {
            let mut at = Kept::new(0, self.start, record(pair));
            self.go_to(&mut at, self.made)?;
            let record = at.course.record();
            counts.extend(record.iter().take(pair.len()).map(|range| range.count));
        }
        Ok(counts)
    }

    /// The state before the first step that touches one of these ranges, and how many steps led to it; none if none does.
    pub fn first(&self, ranges: &[Range]) -> Result<Option<Kept>, Refusal> {
        let (mut found, mut most) = (None, self.made);
        for pair in ranges.chunks(2) {
            let mut end = Kept::new(0, self.start, record(pair));
            self.go_to(&mut end, most)?;
            if touched(&end) {
                let before = self.before_first(pair, most)?;
                most = before.made;
                found = Some(before);
            }
        }
        Ok(found)
    }

    /// The same where one of so many steps touches one of two ranges.
    fn before_first(&self, pair: &[Range], steps: u64) -> Result<Kept, Refusal> {
        let mut low = Kept::new(0, self.start, record(pair));
        let mut steps = steps;
        while steps > 1 {
            let half = steps / 2;
            let mut middle = low.clone();
            self.go_to(&mut middle, low.made + half)?;
            match touched(&middle) {
                true => steps = half,
                false => {
                    low = middle;
                    steps -= half;
                }
            }
        }
        Ok(low)
    }

    /// Makes the steps up to the one of that number, unless a signal comes: whoever counts looks at that afterwards.
    fn go_to(&self, at: &mut Kept, made: u64) -> Result<(), Refusal> {
        while at.made < made && !stop::is_asked() {
            advance(at, (made - at.made).min(CALL), self.sweep)?;
        }
        Ok(())
    }
}

/// The record of at most two ranges, with nothing counted.
pub fn record(ranges: &[Range]) -> Watch {
    let mut ranges = ranges.iter().map(|range| Range { count: 0, ..*range });
    [(); 2].map(|()| ranges.next().unwrap_or_default())
}

fn touched(at: &Kept) -> bool {
    at.course.record().iter().any(|range| range.count > 0)
}

#[cfg(test)]
mod tests {
    use super::*;
    use crate::samples::{storing, JUMP_TO_ITSELF, STORED};

    fn range(start: u32, length: u32) -> Range {
        Range {
            start,
            length,
            count: 0,
        }
    }

    #[test]
    fn stores_are_counted_in_any_number_of_ranges() {
        let start = storing(1_000, JUMP_TO_ITSELF);
        for made in [0, 1, 2, 5, 100, 3_000] {
            let again = Again {
                start: &start,
                made,
                sweep: None,
            };
            let ranges = [0, 4, 1, 64, 2].map(|offset| range(STORED + offset, 2));
            let each = ((made + 1) / 3).min(1_000) as u32;
            let expected = vec![each, 0, each, 0, each];
            assert_eq!(again.counted(&ranges), Ok(expected), "{made}");
        }
    }

    #[test]
    fn the_first_store_is_found_among_all_ranges() {
        let start = storing(1_000, JUMP_TO_ITSELF);
        let again = Again {
            start: &start,
            made: 3_000,
            sweep: None,
        };
        let (there, not) = (range(STORED, 1), range(STORED + 4, 1));
        for ranges in [
            vec![there],
            vec![not, there],
            vec![not, not, there],
            vec![there, not, there],
        ] {
            let first = again.first(&ranges).unwrap().unwrap();
            assert_eq!(first.made, 1);
        }
        assert!(again.first(&[not, not, not]).unwrap().is_none());
        let short = Again { made: 1, ..again };
        assert!(short.first(&[there]).unwrap().is_none());
    }
}
