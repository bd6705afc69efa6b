//! What a run left in memory, by comparison with what was there before its first step: bytes and tags that differ. A
//! store of what was there already is not seen, nor one that was undone.

use crate::names::Names;
use lent::{State, GRANULE};
use std::ops::Range;

/// A stretch of memory and what differs in it.
#[derive(Clone, PartialEq, Eq, Debug)]
pub struct Stretch {
    pub name: String,
    pub bytes: u64,
    /// The first byte that differs and the address after the last.
    pub span: Option<(u64, u64)>,
    pub tags_set: u64,
    pub tags_cleared: u64,
}

/// The offsets, of some into memory, of the bytes that differ, in order.
fn differing<'a>(
    before: &'a State,
    after: &'a State,
    places: Range<usize>,
) -> impl Iterator<Item = usize> + 'a {
    places.filter(|place| before.mem.get(*place) != after.mem.get(*place))
}

/// What differs in [low, high), which is cut to memory.
fn within(name: &str, (low, high): (u64, u64), before: &State, after: &State) -> Stretch {
    let start = u64::from(before.start);
    let (low, high) = (low.max(start), high.min(before.end()));
    let place = |address: u64| address.saturating_sub(start) as usize;
    let mut stretch = Stretch {
        name: name.into(),
        bytes: 0,
        span: None,
        tags_set: tags(low, high, after, before),
        tags_cleared: tags(low, high, before, after),
    };
    for offset in differing(before, after, place(low)..place(high)) {
        let address = start + offset as u64;
        let first = stretch.span.map_or(address, |(first, _)| first);
        stretch.span = Some((first, address + 1));
        stretch.bytes += 1;
    }
    stretch
}

/// How many granules from low on are tagged in one state and not in another. A granule belongs to where its first byte lies.
fn tags(low: u64, high: u64, tagged: &State, untagged: &State) -> u64 {
    let first = low.next_multiple_of(GRANULE as u64);
    let granules = (first..high).step_by(GRANULE);
    let only = granules.filter(|place| tagged.tagged(*place) && !untagged.tagged(*place));
    only.count() as u64
}

/// All of memory, and each named region of a map that something differs in.
pub fn by_region(before: &State, after: &State, regions: &Names) -> (Stretch, Vec<Stretch>) {
    let whole = (u64::from(before.start), before.end());
    let all = within("all of memory", whole, before, after);
    let regions = regions.0.iter().map(|region| {
        let low = u64::from(region.start);
        within(&region.name, (low, low + region.length), before, after)
    });
    let changed =
        |stretch: &Stretch| stretch.bytes > 0 || stretch.tags_set > 0 || stretch.tags_cleared > 0;
    (all, regions.filter(changed).collect())
}

/// The rows of so many bytes, counted from memory's start, in which a byte differs.
pub fn rows(before: &State, after: &State, bytes: u64) -> Vec<u64> {
    let mut rows: Vec<u64> = Vec::new();
    for offset in differing(before, after, 0..before.mem.len()) {
        let row = offset as u64 / bytes.max(1);
        if rows.last() != Some(&row) {
            rows.push(row);
        }
    }
    rows
}

#[cfg(test)]
mod tests {
    use super::*;
    use crate::names::Name;

    #[test]
    fn bytes_and_tags_that_differ_are_counted_by_region() {
        let before = State::new(0x100, vec![0; 128]);
        let mut after = before.clone();
        after.write(0x10F, &[1, 0, 2]);
        after.set_tag(0x120, true);
        let names = Names(vec![
            Name::new(b"low", 0x100, 16),
            Name::new(b"high", 0x110, 112),
            Name::new(b"none", 0x140, 8),
        ]);
        let (all, regions) = by_region(&before, &after, &names);
        assert_eq!((all.bytes, all.span), (2, Some((0x10F, 0x112))));
        assert_eq!((all.tags_set, all.tags_cleared), (1, 0));
        let told: Vec<(&str, u64)> = regions.iter().map(|r| (&r.name[..], r.bytes)).collect();
        assert_eq!(told, [("low", 1), ("high", 1)]);
        assert_eq!(regions[1].span, Some((0x111, 0x112)));
        let (back, _) = by_region(&after, &before, &names);
        assert_eq!((back.tags_set, back.tags_cleared), (0, 1));
        assert_eq!(rows(&before, &after, 16), [0, 1]);
        assert_eq!(rows(&before, &after, 128), [0]);
        assert_eq!(rows(&before, &before, 0), [0u64; 0]);
    }
}
