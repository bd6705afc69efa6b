//! A run by the terms that `run` and `shelf` share, and what it is judged by: what the one record of a run cannot count is
//! counted by making the run again.

use crate::again::{record, Again};
use crate::arguments::{ExitValue, Expect, MapStores, Terms};
use crate::command::look;
use crate::command::run::Ready;
use crate::console::{self, Said, CONSOLE};
use crate::drive::{End, Outcome, Plan, Watcher};
use crate::map_stores::Forbidden;
use crate::proved::Refusal;
use crate::sheet::Sheet;
use crate::stop;
use crate::verdict::{Compared, Judged};
use lent::{place_name, Range, State, Watch};
use std::collections::BTreeSet;

/// What a run is made by and judged by, with every place of it known.
pub struct Trial<'a> {
    terms: &'a Terms,
    exits: BTreeSet<u32>,
    pub console: Option<u32>,
    expected: Vec<(u32, &'a Expect)>,
    forbidden: Option<Forbidden>,
    /// Whether there is a map, and stores are not judged by it.
    map_off: bool,
    /// The ranges whose stores are counted: those that are watched, and then those that the map forbids.
    ranges: Vec<Range>,
}

impl<'a> Trial<'a> {
    /// The trial of what is ready on a board, or what of the terms cannot be met.
    pub fn of(terms: &'a Terms, ready: &Ready, map: Option<&Sheet>) -> Result<Trial<'a>, String> {
        let judges = terms.map_stores == MapStores::On;
        let memory = (ready.state.start.into(), ready.state.end());
        let forbidden = map.filter(|_| judges);
        let forbidden = forbidden.map(|map| Forbidden::of(map, memory, ready.resumed));
        let mut ranges = watched(&terms.watch)?;
        ranges.extend(forbidden.iter().flat_map(Forbidden::ranges));
        let exit = terms.exit_at.as_ref();
        let exit = exit.map(|place| look::even_place("--exit-at", place, ready));
        let expected = terms.expect.iter().map(|expect| {
            let address = look::place("--expect", &expect.place, ready)?;
            inside("--expect", address, expect.bytes.len(), &ready.state)?;
            Ok((address, expect))
        });
        Ok(Trial {
            terms,
            exits: exit.transpose()?.into_iter().collect(),
            console: console_of(terms, ready, map)?,
            expected: expected.collect::<Result<_, String>>()?,
            forbidden,
            map_off: map.is_some() && !judges,
            ranges,
        })
    }

    /// What is said where stores went before the run that its map does not judge.
    pub fn unjudged(&self) -> Option<&'static str> {
        let forbidden = self.forbidden.as_ref();
        forbidden.and_then(Forbidden::unjudged)
    }

    /// The ranges of the run's own record: the console alone, or the first two of all.
    fn record(&self) -> Watch {
        match self.console {
            Some(address) => record(&[console::range(address)]),
            None => record(&self.ranges[..self.ranges.len().min(2)]),
        }
    }

    /// The plan of the run, with someone who is shown its calls.
    pub fn plan<'b>(&self, watch: &'b mut dyn Watcher) -> Plan<'b> {
        Plan {
            through_traps: self.terms.through_traps,
            sweep: self.terms.sweep,
            record: self.record(),
            exits: self.exits.clone(),
            ..Plan::new(self.terms.steps, watch)
        }
    }

    /// What a run from a state came to. One that a signal stops, or that one comes after, is not judged: to count stores
    /// takes as long as the run itself, and again.
    pub fn judged(
        &self,
        before: &State,
        (outcome, after): (&Outcome, &State),
        console: Option<Said>,
    ) -> Result<Judged, Refusal> {
        let counted = match outcome.end {
            End::Stopped => None,
            _ => Some(self.counted(before, outcome, after)?),
        };
        let counted = counted.filter(|_| !stop::is_asked());
        let judged = counted.unwrap_or_else(|| self.stopped(outcome));
        Ok(Judged { console, ..judged })
    }

    /// What is known of a run that is not judged: the stores that its own record counted.
    fn stopped(&self, outcome: &Outcome) -> Judged {
        let own = self.terms.watch.len() / 2;
        let own = if self.console.is_some() { 0 } else { own };
        Judged {
            watched: outcome.record[..own].to_vec(),
            map_off: self.map_off,
            stopped: true,
            ..Judged::default()
        }
    }

    /// What a run came to, with all its stores counted.
    fn counted(&self, before: &State, outcome: &Outcome, after: &State) -> Result<Judged, Refusal> {
        let again = Again {
            start: before,
            made: outcome.counts.steps(),
            sweep: self.terms.sweep,
        };
        let counts = self.counts(outcome, &again)?;
        let (watched, forbidden) = counts.split_at(self.terms.watch.len() / 2);
        let watched = self.ranges.iter().zip(watched);
        let map = self.forbidden.as_ref();
        let map = map.map(|map| map.judged(forbidden, &again)).transpose()?;
        Ok(Judged {
            watched: watched
                .map(|(range, &count)| Range { count, ..*range })
                .collect(),
            map,
            compared: self.compared(after),
            console: None,
            through_traps: self.terms.through_traps,
            may_run_on: self.terms.may_run_on,
            map_off: self.map_off,
            stopped: false,
            exit_named: self.terms.names_an_end(),
        })
    }

    /// The stores into each range: by the run's own record as far as it had them, else by the run made again.
    fn counts(&self, outcome: &Outcome, again: &Again) -> Result<Vec<u32>, Refusal> {
        let own = if self.console.is_some() { 0 } else { 2 };
        let (own, others) = self.ranges.split_at(own.min(self.ranges.len()));
        let own = outcome.record.iter().take(own.len());
        let own = own.map(|range| range.count);
        Ok(own.chain(again.counted(others)?).collect())
    }

    /// What was expected, beside what is there.
    fn compared(&self, after: &State) -> Vec<Compared> {
        let register = |ExitValue { place, value }: &ExitValue| Compared {
            place: place_name(*place),
            wanted: format!("{value:08x}"),
            found: format!("{:08x}", after.capability(*place).address),
        };
        let memory = |(address, expect): &(u32, &Expect)| Compared {
            place: format!("memory at {address:08x}"),
            wanted: digits(expect.bytes.iter().copied().map(Some)),
            found: digits(
                (0..expect.bytes.len() as u64).map(|at| after.byte(u64::from(*address) + at)),
            ),
        };
        let registers = self.terms.exit_value.iter().map(register);
        registers.chain(self.expected.iter().map(memory)).collect()
    }
}

/// Bytes as pairs of digits.
fn digits(bytes: impl Iterator<Item = Option<u8>>) -> String {
    let pair = |byte: Option<u8>| byte.map_or("--".into(), |byte| format!("{byte:02x}"));
    bytes.map(pair).collect()
}

/// The ranges that are watched, at most two.
fn watched(numbers: &[u32]) -> Result<Vec<Range>, String> {
    let range = |range: &[u32]| Range {
        start: range[0],
        length: range[1],
        count: 0,
    };
    match numbers.len() {
        0..=4 => Ok(numbers.chunks(2).map(range).collect()),
        _ => Err("--watch is given at most twice".into()),
    }
}

/// The console that is asked for, which is in memory, or the map's, where it is.
fn console_of(terms: &Terms, ready: &Ready, map: Option<&Sheet>) -> Result<Option<u32>, String> {
    if let Some(place) = &terms.console {
        let address = look::place("--console", place, ready)?;
        inside("--console", address, 1, &ready.state)?;
        return Ok(Some(address));
    }
    let region = map.and_then(|map| map.regions.iter().find(|region| region.name == CONSOLE));
    let address = region.map(|region| region.start);
    Ok(address.filter(|address| ready.state.offset(*address, 1).is_some()))
}

/// That bytes that an option names are in memory.
pub fn inside(option: &str, address: u32, length: usize, state: &State) -> Result<(), String> {
    match state.offset(address, length) {
        Some(_) => Ok(()),
        None => {
            let (start, end) = (state.start, state.end());
            Err(format!(
                "{option} {address:08x}: not all inside memory, [{start:08x}, {end:08x})"
            ))
        }
    }
}
