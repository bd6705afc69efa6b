//! Stores that break the map: those into a hole between its regions, or into a region without w. Which bytes these are is
//! the sheet's; how many stores touched them is counted by the proved watch record.

use crate::again::Again;
use crate::capability_text::{count, grouped};
use crate::names::Names;
use crate::probe::access;
use crate::proved::sheets::Record;
use crate::proved::{digits, instruction, word_at, Refusal};
use crate::request::Request;
use crate::sheet::{letters, Sheet, WRITE};
use crate::trap::Asked;
use lent::{Range, State, PCC};
use serde_json::{json, Value};

/// A hole of the map in memory, or a region of it there that has no w.
#[derive(Clone, PartialEq, Eq, Debug)]
pub struct Part {
    pub low: u64,
    pub high: u64,
    /// The region's name and rights; none of a hole.
    pub region: Option<(String, u32)>,
    /// How many stores touched it.
    pub stores: u32,
}

impl Part {
    fn holds(&self, address: u64) -> bool {
        (self.low..self.high).contains(&address)
    }

    fn range(&self) -> Range {
        range(self.low, self.high)
    }

    /// Its name, where it lies and its rights.
    fn shown(&self) -> String {
        let place = format!("[{:08x}, {:08x})", self.low, self.high);
        match &self.region {
            Some((name, rights)) => format!("{name}, {place} {}", letters(*rights)),
            None => format!("the hole {place}"),
        }
    }
}

fn range(low: u64, high: u64) -> Range {
    Range {
        start: low as u32,
        length: (high - low) as u32,
        count: 0,
    }
}

/// What a map lets no store touch, by rising addresses.
#[derive(Clone, Default, PartialEq, Eq, Debug)]
pub struct Forbidden {
    parts: Vec<Part>,
    /// Whether the run goes on from a saved state.
    resumed: bool,
}

/// What is said of the stores before a saved state.
const UNJUDGED: &str = "stores before the saved state were not judged by the map";

impl Forbidden {
    /// What of a memory is no region's with w, for a run from reset or one that goes on.
    pub fn of(map: &Sheet, (low, high): (u64, u64), resumed: bool) -> Forbidden {
        let mut regions: Vec<&Record> = map.regions.iter().collect();
        regions.sort_by_key(|region| region.start);
        let (mut parts, mut at) = (Vec::new(), low);
        let part = |low, high, region| Part {
            low,
            high,
            region,
            stores: 0,
        };
        for region in regions {
            let (start, end) = (u64::from(region.start).max(at), region.end().min(high));
            if start >= end {
                continue;
            }
            if start > at {
                parts.push(part(at, start, None));
            }
            if region.rights & WRITE == 0 {
                parts.push(part(start, end, Some((region.name.clone(), region.rights))));
            }
            at = end;
        }
        if at < high {
            parts.push(part(at, high, None));
        }
        Forbidden { parts, resumed }
    }

    /// What is said where a run goes on: its saved state has no record of stores.
    pub fn unjudged(&self) -> Option<&'static str> {
        let said = self.resumed && !self.parts.is_empty();
        said.then_some(UNJUDGED)
    }

    /// The parts, those that follow one another as one.
    fn joined(&self) -> Vec<&[Part]> {
        let joined = self.parts.chunk_by(|part, next| part.high == next.low);
        joined.collect()
    }

    /// The ranges to count stores in.
    pub fn ranges(&self) -> Vec<Range> {
        let whole = |parts: &&[Part]| range(parts[0].low, parts[parts.len() - 1].high);
        self.joined().iter().map(whole).collect()
    }

    /// What a run's stores came to, by their counts in those ranges. Of a range that was touched, each part is counted by
    /// itself.
    pub fn judged(&self, counts: &[u32], again: &Again) -> Result<Stores, Refusal> {
        let joined = self.joined();
        let hit = joined.iter().zip(counts).filter(|(_, count)| **count > 0);
        let (mut parts, mut broken) = (self.parts.clone(), Vec::new());
        for (place, _) in hit {
            broken.extend(place.iter().map(Part::range));
        }
        let each = again.counted(&broken)?;
        for (range, stores) in broken.iter().zip(each) {
            if let Some(part) = parts.iter_mut().find(|part| part.range() == *range) {
                part.stores = stores;
            }
        }
        let first = again.first(&broken)?;
        let first = first.map(|at| First::of(at.made + 1, at.course.state(), &parts));
        let all = counts.iter().map(|count| u64::from(*count)).sum();
        Ok(Stores {
            parts,
            all,
            first,
            resumed: self.resumed,
        })
    }
}

/// The first store that breaks the map.
#[derive(Clone, PartialEq, Eq, Debug)]
pub struct First {
    /// The number of its step, from 1.
    pub step: u64,
    pub at: u32,
    pub word: Option<u32>,
    /// The bytes that it stores to.
    pub asked: Option<Asked>,
    /// The part that it breaks, by its place among all.
    part: Option<usize>,
}

impl First {
    /// The store that the step from a state makes.
    fn of(step: u64, before: &State, parts: &[Part]) -> First {
        let at = before.capability(PCC).address;
        let word = word_at(before, at);
        let asked = word.and_then(|word| match Request::of(word) {
            Request::Store { by, size } => Some(Asked {
                address: access::address(word, before.capability(by).address)?,
                size,
            }),
            _ => None,
        });
        let broken = asked.and_then(|asked| {
            let mut bytes = u64::from(asked.address)..asked.end();
            bytes.find_map(|byte| parts.iter().position(|part| part.holds(byte)))
        });
        First {
            step,
            at,
            word,
            asked,
            part: broken,
        }
    }
}

/// What a run's stores came to by the map.
#[derive(Clone, PartialEq, Eq, Debug)]
pub struct Stores {
    pub parts: Vec<Part>,
    /// How many stores there were. Parts that follow one another are counted as one, and what may be written lies between
    /// others, so that no store is counted twice unless it reaches over a stretch that may be written of at most 6 bytes.
    pub all: u64,
    pub first: Option<First>,
    /// Whether they are those since a saved state.
    resumed: bool,
}

/// How many stores, as far as they are counted.
fn stores(number: u32) -> String {
    let more = if number == u32::MAX { " or more" } else { "" };
    format!("{}{more}", count(number.into(), "store"))
}

impl Stores {
    /// Whether a store broke the map.
    pub fn broken(&self) -> bool {
        self.all > 0
    }

    /// The stores into each part that has some.
    fn by_part(&self) -> Vec<String> {
        let broken = self.parts.iter().filter(|part| part.stores > 0);
        broken
            .map(|part| format!("{} into {}", stores(part.stores), part.shown()))
            .collect()
    }

    /// The first of them in a line.
    pub fn why(&self) -> String {
        let Some(first) = &self.first else {
            return String::new();
        };
        let step = grouped(first.step);
        format!("{}; the first is step {step}", self.by_part().join("; "))
    }

    /// For a person.
    pub fn text(&self, names: &Names) -> String {
        let since = match self.resumed {
            true => " since the saved state",
            false => "",
        };
        let Some(first) = &self.first else {
            let said = match self.parts.is_empty() {
                true => "every byte of memory may be written, so that no store was judged".into(),
                false => format!("no store went into a hole or into a region without w{since}"),
            };
            return format!("Map: {said}. Loads are not counted.\n");
        };
        let broken = self.by_part().join("; ");
        let mut text = format!("Breaks the map{since}: {broken}.\n");
        let word = first.word.map(|word| {
            let (digits, instruction) = (digits(word), instruction(word));
            format!(", word {digits}, {instruction}")
        });
        let (step, at) = (grouped(first.step), first.at);
        let (word, place) = (word.unwrap_or_default(), names.place(at));
        text.push_str(&format!(
            "  first    step {step}, at {at:08x}{word}{place}\n"
        ));
        if let Some(asked) = first.asked {
            let size = count(asked.size.into(), "byte");
            let part = first.part.map(|part| self.parts[part].shown());
            let part = part.map_or(String::new(), |part| format!(", in {part}"));
            let range = format!("[{:08x}, {:08x})", asked.address, asked.end());
            text.push_str(&format!("  stored   {range}, {size}{part}\n"));
        }
        text + "  Loads are not counted.\n"
    }

    pub fn json(&self) -> Value {
        let part = |part: &Part| {
            let (name, rights) = part.region.clone().unzip();
            json!({
                "name": name, "rights": rights.map(letters), "start": part.low, "end": part.high, "stores": part.stores,
            })
        };
        let first = self.first.as_ref().map(|first| {
            let part = first.part.map(|part| &self.parts[part]);
            json!({
                "step": first.step,
                "at": first.at,
                "word": first.word,
                "instruction": first.word.map(instruction),
                "address": first.asked.map(|asked| asked.address),
                "size": first.asked.map(|asked| asked.size),
                "name": part.and_then(|part| Some(part.region.as_ref()?.0.clone())),
            })
        });
        let parts: Vec<Value> = self.parts.iter().map(part).collect();
        json!({ "breaks": self.broken(), "stores": self.all, "parts": parts, "first": first })
    }
}

#[cfg(test)]
mod tests {
    use super::*;

    fn sheet(text: &str) -> Sheet {
        let lines = text.split(' ').map(|line| {
            let parts: Vec<&str> = line.split(',').collect();
            format!(
                "region\t{}\t{}\t{}\t{}\n",
                parts[0], parts[1], parts[2], parts[3]
            )
        });
        crate::sheet::of(lines.collect::<String>().as_bytes()).unwrap()
    }

    fn ranges(text: &str, memory: (u64, u64)) -> Vec<(u32, u32)> {
        let forbidden = Forbidden::of(&sheet(text), memory, false);
        let ranges = forbidden.ranges();
        ranges
            .iter()
            .map(|range| (range.start, range.length))
            .collect()
    }

    // Beside what a look at every byte says: one that no region with w holds is forbidden, and no other is.
    #[test]
    fn holes_and_regions_without_w_are_forbidden_and_joined() {
        let all = "d,00000020,00000008,w a,00000004,00000004,rx b,00000008,00000004,r c,00000010,00000008,rw";
        let map = sheet(all);
        let written = |address: u64| {
            let mut regions = map.regions.iter();
            regions.any(|r| (u64::from(r.start)..r.end()).contains(&address) && r.rights & 2 != 0)
        };
        for (low, high) in [(0, 64), (4, 40), (6, 9), (16, 24), (24, 32), (30, 64)] {
            let ranges = ranges(all, (low, high));
            for address in low..high {
                let held = |(start, length): &(u32, u32)| {
                    (u64::from(*start)..u64::from(start + length)).contains(&address)
                };
                let found = ranges.iter().filter(|range| held(range)).count();
                assert_eq!(
                    found,
                    usize::from(!written(address)),
                    "{address} of {low}, {high}"
                );
            }
            let apart = ranges
                .windows(2)
                .all(|pair| pair[0].0 + pair[0].1 < pair[1].0);
            assert!(apart, "{ranges:?}");
        }
        assert_eq!(ranges(all, (0, 64)), [(0, 16), (24, 8), (40, 24)]);
    }

    #[test]
    fn a_map_without_holes_that_may_be_written_forbids_nothing() {
        assert_eq!(
            ranges("a,00000000,00000040,rw b,00000040,00000040,rwx", (0, 128)),
            []
        );
    }
}
