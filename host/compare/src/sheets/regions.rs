//! Regions for sheets: layouts that are good up to their edges, and what makes a line bad.

use crate::random::Random;
use second::sheet::Region;

const SPACE_END: u64 = 1 << 32;
pub const MOST_REGIONS: u32 = 64;
const MOST_LETTERS: u32 = 16;
/// Lengths and gaps are at most this, so that 64 of each fit into the space twice.
const MOST_LENGTH: u32 = 1 << 24;
/// The letters of each rights number.
const RIGHTS: [&str; 8] = ["", "r", "w", "rw", "x", "rx", "wx", "rwx"];

/// A line's text; rights that have no letters are written as none.
pub fn line(region: &Region) -> Vec<u8> {
    let letters = RIGHTS.get(region.rights as usize).unwrap_or(&"");
    let numbers = format!("\t{:08x}\t{:08x}\t{letters}\n", region.start, region.length);
    [b"region\t", region.name.as_slice(), numbers.as_bytes()].concat()
}

/// The text of regions, good or not.
pub fn text(regions: &[Region]) -> Vec<u8> {
    regions.iter().flat_map(line).collect()
}

/// How many regions: mostly few, and often as many as there can be.
fn count(random: &mut Random) -> u32 {
    match random.below(8) {
        0..=4 => 1 + random.below(4),
        5 => 1 + random.below(MOST_REGIONS),
        6 => MOST_REGIONS - random.below(3),
        _ => MOST_REGIONS,
    }
}

fn letter(random: &mut Random) -> u8 {
    match random.below(3) {
        0 => b'a' + random.below(26) as u8,
        _ => random.pick(*b"abz"),
    }
}

/// A name: new letters, or one that another begins, that begins another, or that ends in another letter.
fn name(random: &mut Random, others: &[Region]) -> Vec<u8> {
    let other = others.get(random.below(others.len() as u32) as usize);
    let mut name = other.map_or(Vec::new(), |region| region.name.clone());
    match random.below(6) {
        0 => name.truncate(name.len().max(2) - 1),
        1 => name.push(letter(random)),
        2 if !name.is_empty() => {
            name.pop();
            name.push(letter(random));
        }
        3 => name = (0..MOST_LETTERS).map(|_| letter(random)).collect(),
        _ => {
            name = (0..=random.below(MOST_LETTERS))
                .map(|_| letter(random))
                .collect()
        }
    }
    name.truncate(MOST_LETTERS as usize);
    name
}

/// A name that none of the others has.
pub fn new_name(random: &mut Random, others: &[Region]) -> Vec<u8> {
    loop {
        let name = name(random, others);
        if !name.is_empty() && others.iter().all(|other| other.name != name) {
            return name;
        }
    }
}

pub fn rights(random: &mut Random) -> u32 {
    1 + random.below(7)
}

/// How long a region or a gap is.
fn length(random: &mut Random) -> u32 {
    match random.below(4) {
        0 => 0,
        1 => random.below(64),
        _ => random.sized() % MOST_LENGTH,
    }
}

/// The regions of a good sheet. Many touch; some sheets begin at 0 or end at 2^32; the lines stand in
/// any order.
pub fn good(random: &mut Random) -> Vec<Region> {
    let mut regions = Vec::new();
    let anywhere = random.word() >> 1;
    let mut at = u64::from(random.pick([0, 0x2000_0000, anywhere]));
    for _ in 0..count(random) {
        let gap = length(random);
        at += u64::from(random.pick([0, gap]));
        let region = Region {
            name: new_name(random, &regions),
            start: at as u32,
            length: 1 + length(random),
            rights: rights(random),
        };
        at = region.end();
        regions.push(region);
    }
    if random.one_in(3) {
        let up = (SPACE_END - at) as u32;
        regions.iter_mut().for_each(|region| region.start += up);
    }
    if random.one_in(2) {
        shuffle(random, &mut regions);
    }
    regions
}

fn shuffle(random: &mut Random, regions: &mut [Region]) {
    for place in (1..regions.len()).rev() {
        regions.swap(place, random.below(place as u32 + 1) as usize);
    }
}

/// One line changed so that it is bad, or good by one byte: its length, its end, its place or name
/// beside another line's, or its rights.
pub fn blemish(random: &mut Random, regions: &mut [Region]) {
    let count = regions.len() as u32;
    let (place, other) = (random.below(count) as usize, random.below(count) as usize);
    let beside = regions[other].clone();
    let region = &mut regions[place];
    match random.below(11) {
        0 => region.length = 0,
        1 => region.start = region.length.wrapping_neg().wrapping_add(random.below(2)),
        2 => region.length = random.near(region.start.wrapping_neg()),
        3 => region.start = random.near((SPACE_END.min(beside.end()) % SPACE_END) as u32),
        4 => region.start = random.near(beside.start.wrapping_sub(region.length)),
        5 => region.length = random.near(beside.start.wrapping_sub(region.start)),
        6 => (region.start, region.length) = (beside.start, beside.length),
        7 => region.start = beside.start + random.below(beside.length),
        8 => region.name = beside.name,
        9 => region.length = random.near(region.length),
        _ => region.start = random.near(region.start),
    }
}

/// Regions as the next sheet of a board might have them: some changed, added, removed, or in another
/// order, and mostly still good.
pub fn edited(random: &mut Random, regions: &[Region]) -> Vec<Region> {
    let mut edited = regions.to_vec();
    for _ in 0..random.below(4) {
        let place = random.below(edited.len() as u32) as usize;
        match random.below(8) {
            0 => edited[place].rights = rights(random),
            1 => edited[place].length -= u32::from(edited[place].length > 1),
            2 if edited[place].length > 1 => {
                edited[place].start += 1;
                edited[place].length -= 1;
            }
            3 => edited[place].name = new_name(random, &edited),
            4 if edited.len() > 1 => drop(edited.remove(place)),
            5 => shuffle(random, &mut edited),
            6 if edited.len() > 1 => {
                let name = std::mem::take(&mut edited[place].name);
                let next = (place + 1) % edited.len();
                edited[place].name = std::mem::replace(&mut edited[next].name, name);
            }
            _ => edited[place].length = random.near(edited[place].length),
        }
    }
    edited
}
