//! What any run from a state may do to the regions of a board: the proved searches asked, for each of them and for each hole
//! between them, which of the capabilities that are held could write, read or execute there. No run holds more later than
//! the state does. Where nothing that is held outside may load, what stands inside is of no use to any run, and does not
//! count.

pub mod page;
pub mod text;
pub mod value;

#[cfg(test)]
mod tests;

use crate::capability_text::{right, ALL_RIGHTS};
use crate::proved::{self, Refusal};
use crate::sheet::Sheet;
use crate::sweep;
use crate::visible::quoted;
use lent::{place_name, Capability, Query, State, CAPABILITIES, GRANULE};

/// Something that may be done to memory.
pub struct Deed {
    /// The letter that a sheet has for it.
    pub letter: char,
    /// The right that it takes.
    right: &'static str,
    pub done: &'static str,
}

impl Deed {
    /// What is asked of a search: who could do it in a range.
    fn query(&self, (low, length): (u32, u32)) -> Query {
        Query {
            low,
            length,
            rights: right(self.right),
        }
    }
}

/// In the order in which they are told.
pub const DEEDS: [Deed; 3] = [
    Deed {
        letter: 'w',
        right: "SD",
        done: "written",
    },
    Deed {
        letter: 'r',
        right: "LD",
        done: "read",
    },
    Deed {
        letter: 'x',
        right: "EX",
        done: "executed",
    },
];

/// The places of two of them in that order.
const WRITTEN: usize = 0;
const READ: usize = 1;

/// The holders of which each is named.
const NAMED: usize = 3;

/// What holds a capability, and the capability.
#[derive(Clone, PartialEq, Eq, Debug)]
pub struct Holder {
    pub place: u32,
    /// A register's name, or a granule's address.
    pub name: String,
    pub value: Capability,
    /// Whether it counts whatever its rights and bounds are.
    pub unsound: bool,
}

/// The holders that reach into a stretch: the first of them, and how many there are.
#[derive(Clone, Default, PartialEq, Eq, Debug)]
pub struct Held {
    pub first: Vec<Holder>,
    pub all: u64,
}

impl Held {
    pub fn is_never(&self) -> bool {
        self.all == 0
    }

    /// How many are not named.
    pub fn more(&self) -> u64 {
        self.all - self.first.len() as u64
    }
}

/// A region of a sheet or a hole, and who may do each of the deeds there.
#[derive(Clone, PartialEq, Eq, Debug)]
pub struct Row {
    /// A hole has no name and no rights.
    pub region: Option<(String, u32)>,
    pub start: u32,
    pub length: u32,
    /// The whole granules that it lies in, by their first address and their bytes: what is read is told of these.
    pub granules: (u32, u32),
    pub held: [Held; DEEDS.len()],
}

impl Row {
    /// The number after the last address.
    pub fn end(&self) -> u64 {
        u64::from(self.start) + u64::from(self.length)
    }

    /// Whether it is neither written nor read by anything outside.
    pub fn is_isolated(&self) -> bool {
        self.held[WRITTEN].is_never() && self.held[READ].is_never()
    }

    /// The granules, from the first address to the number after the last, where they are more than itself.
    pub fn rounded(&self) -> Option<(u32, u64)> {
        let (low, length) = self.granules;
        let more = self.granules != (self.start, self.length);
        more.then(|| (low, u64::from(low) + u64::from(length)))
    }

    /// The name; that of a hole is what all of them are called.
    pub fn name(&self) -> &str {
        self.region.as_ref().map_or(HOLE, |(name, _)| name)
    }

    /// Whether a name that someone asks by is this one's.
    fn is_named(&self, name: &str) -> bool {
        match &self.region {
            Some((own, _)) => own == name,
            None => name == HOLES,
        }
    }
}

/// What a hole is called, and all of them.
const HOLE: &str = "hole";
const HOLES: &str = "holes";

/// The regions of a sheet by their addresses, with the holes between them, and what memory has below and above them.
pub fn rows(state: &State, sheet: &Sheet) -> Result<Vec<Row>, Refusal> {
    let mut regions: Vec<_> = sheet.regions.iter().collect();
    regions.sort_by_key(|region| region.start);
    let first = regions.first().map_or(state.start, |region| region.start);
    let mut at = u64::from(first.min(state.start));
    let mut rows = Vec::new();
    for region in regions {
        let named = Some((region.name.clone(), region.rights));
        rows.extend(row(state, None, (at, region.start.into()))?);
        rows.extend(row(state, named, (region.start.into(), region.end()))?);
        at = region.end();
    }
    rows.extend(row(state, None, (at, state.end()))?);
    Ok(rows)
}

/// The row of a stretch, unless it is empty.
fn row(
    state: &State,
    region: Option<(String, u32)>,
    (start, end): (u64, u64),
) -> Result<Option<Row>, Refusal> {
    if start >= end {
        return Ok(None);
    }
    let granules = granules(state, (start, end));
    // A sheet's regions have a byte each, so that no hole is the whole address space.
    let (start, length) = (start as u32, (end - start) as u32);
    let outside = |deed: &Deed| search(state, proved::reach_outside, deed.query(granules));
    let is_unread = outside(&DEEDS[READ])?.is_never();
    let held = |place: usize| {
        let deed = &DEEDS[place];
        let range = match place {
            READ => granules,
            _ => (start, length),
        };
        let all = search(state, proved::reach, deed.query(range))?;
        match is_unread && !all.is_never() {
            true => outside(deed),
            false => Ok(all),
        }
    };
    Ok(Some(Row {
        region,
        start,
        length,
        granules,
        held: [held(0)?, held(1)?, held(2)?],
    }))
}

/// The whole granules that a stretch lies in. Those of nearly the whole address space are too many for a length; memory is
/// all that stands there.
fn granules(state: &State, (start, end): (u64, u64)) -> (u32, u32) {
    let unit = GRANULE as u64;
    let (low, high) = (start / unit * unit, end.next_multiple_of(unit));
    match u32::try_from(high - low) {
        Ok(length) => (low as u32, length),
        Err(_) => (state.start, state.mem.len() as u32),
    }
}

/// One of the two searches: of all places, or from outside the range.
type Search = fn(&State, Query, u32) -> Result<Option<u32>, Refusal>;

/// All places that a proved search finds, one after the other.
fn search(state: &State, next: Search, query: Query) -> Result<Held, Refusal> {
    let places = CAPABILITIES as u64 + sweep::granules(state);
    let mut held = Held::default();
    let mut from = 0;
    while u64::from(from) < places {
        let Some(place) = next(state, query, from)? else {
            break;
        };
        if held.first.len() < NAMED {
            held.first.extend(holder(state, query, place)?);
        }
        held.all += 1;
        from = place + 1;
    }
    Ok(held)
}

/// What is held at a place: the registers come first, then the granules of memory.
/// An unsound one is found for all rights at once, which no other has.
fn holder(state: &State, query: Query, place: u32) -> Result<Option<Holder>, Refusal> {
    let named = match place.checked_sub(CAPABILITIES as u32) {
        None => {
            let place = place as usize;
            Some((place_name(place), state.capability(place)))
        }
        Some(granule) => {
            sweep::held(state, granule).map(|held| (format!("{:08x}", held.address), held.value))
        }
    };
    let rights = ALL_RIGHTS;
    let unsound = proved::reach(state, Query { rights, ..query }, place)? == Some(place);
    Ok(named.map(|(name, value)| Holder {
        place,
        name,
        value,
        unsound,
    }))
}

/// Something that no run may ever do: deeds, by their numbers, to a region or to the holes.
#[derive(Clone, PartialEq, Eq, Debug)]
pub struct Never {
    pub region: String,
    deeds: Vec<usize>,
}

/// Each of some deeds once, in their order.
fn once(deeds: Vec<usize>) -> Vec<usize> {
    let mut each = Vec::new();
    for deed in deeds {
        if !each.contains(&deed) {
            each.push(deed);
        }
    }
    each
}

impl Never {
    /// What a text asks for, as interlock:w or holes:wx.
    pub fn read(text: &str) -> Result<Never, String> {
        let form = || {
            "not REGION:RIGHTS, with one or more of the letters r, w and x as rights".to_string()
        };
        let (region, letters) = text.rsplit_once(':').ok_or_else(form)?;
        let deed = |letter| DEEDS.iter().position(|deed| deed.letter == letter);
        let deeds: Option<Vec<usize>> = letters.chars().map(deed).collect();
        match deeds.map(once) {
            Some(deeds) if !deeds.is_empty() && !region.is_empty() => Ok(Never {
                region: region.into(),
                deeds,
            }),
            _ => Err(form()),
        }
    }

    /// Complains of a region that a sheet has not.
    pub fn check(&self, sheet: &Sheet) -> Result<(), String> {
        let region = &self.region;
        let known = sheet.regions.iter().any(|known| known.name == *region);
        match known || region == HOLES {
            true => Ok(()),
            false => Err(format!(
                "--never {}: the map sheet has no region of that name",
                quoted(&self.text())
            )),
        }
    }

    /// As it was asked for.
    pub fn text(&self) -> String {
        let letters: String = self.deeds.iter().map(|&deed| DEEDS[deed].letter).collect();
        format!("{}:{letters}", self.region)
    }

    /// Each deed, with the rows to which some run could do it.
    pub fn judged<'a>(&'a self, rows: &'a [Row]) -> impl Iterator<Item = Judged<'a>> + 'a {
        self.deeds.iter().map(move |&deed| Judged {
            region: &self.region,
            deed,
            broken: rows
                .iter()
                .filter(|row| row.is_named(&self.region) && !row.held[deed].is_never())
                .collect(),
        })
    }

    pub fn holds(&self, rows: &[Row]) -> bool {
        self.judged(rows).all(|judged| judged.broken.is_empty())
    }
}

/// One deed of what was asked for, and where it could be done nevertheless.
pub struct Judged<'a> {
    region: &'a str,
    pub deed: usize,
    pub broken: Vec<&'a Row>,
}

/// What is told of a board: where the run was looked at, each row, and what was asked for.
pub struct Account<'a> {
    /// PCC's address there, and after how many steps; none where no handover was asked for.
    pub at: u32,
    pub steps: Option<u64>,
    pub rows: &'a [Row],
    pub nevers: &'a [Never],
}

impl Account<'_> {
    pub fn holds(&self) -> bool {
        self.nevers.iter().all(|never| never.holds(self.rows))
    }

    /// Everything that was asked for, deed by deed.
    pub fn judged(&self) -> impl Iterator<Item = Judged<'_>> {
        self.nevers.iter().flat_map(|never| never.judged(self.rows))
    }

    /// The regions to which a run may do something, by name, and the holes as one.
    pub fn may(&self, deed: usize) -> Vec<&str> {
        let rows = self.rows.iter().filter(|row| !row.held[deed].is_never());
        let mut names: Vec<&str> = Vec::new();
        for row in rows {
            let name = row.region.as_ref().map_or(HOLES, |(name, _)| name);
            if !names.contains(&name) {
                names.push(name);
            }
        }
        names
    }

    /// The holders that some row names, each once, by their places.
    pub fn holders(&self) -> Vec<&Holder> {
        let held = self.rows.iter().flat_map(|row| &row.held);
        let mut holders: Vec<&Holder> = held.flat_map(|held| &held.first).collect();
        holders.sort_by_key(|holder| holder.place);
        holders.dedup_by_key(|holder| holder.place);
        holders
    }
}
