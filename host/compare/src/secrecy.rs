//! Pairs of starts that are alike but for a hidden range of granules, which nothing held outside may load: runs of machines
//! from both, and after each call a look at all that was answered and is left. Outside the range nothing may differ, inside
//! it only what differed before; and where nothing outside may store there either, all of it stays. Pairs in which
//! something may load there are run too, and many come to differ.

use crate::derivations::Mix;
use crate::held::{held, Place};
use crate::machines::Machine;
use crate::random::Random;
use crate::rows::Table;
use crate::starts;
use crate::state::{lend, Call};
use crate::watches;
use crate::Mismatch;
use lent::{Answer, Query, Range, Reach, RunWatched, State, Sweep, Watch, GRANULE, MTCC, PCC};
use second::capability::{bounds, has, move_address, narrow, seal_type, set_bounds};
use second::capability::{with_type, EX, LD, SD};
use second::reach::counts;
use second::Capability;

/// The most granules that are hidden.
const MOST_HIDDEN: u32 = 12;

/// What the pairs were like: those that nothing outside may load from, their hidden granules, those of them that nothing
/// outside may store to either, and runs of them that stored to hidden bytes; pairs that something may load from, and runs of
/// them that came to differ; and of all, calls (steps, runs, watched runs and visits of the sweeper), steps and traps.
#[derive(Default, Debug)]
pub struct Totals {
    pub unread: u64,
    pub granules: u64,
    pub isolated: u64,
    pub stored: u64,
    pub open: u64,
    pub told: u64,
    pub calls: [u64; 4],
    pub steps: u64,
    pub trapped: u64,
}

impl Totals {
    /// Whether there was something to find: most pairs are unread, many of these are stored to, many others tell, and runs
    /// are long and do not only trap.
    pub fn complete(&self) -> bool {
        let pairs = self.unread + self.open;
        self.unread > pairs / 2
            && self.isolated > self.unread / 16
            && self.stored > self.unread / 16
            && self.open > pairs / 16
            && self.told > self.open / 4
            && self.calls.iter().all(|&calls| calls > pairs / 2)
            && self.steps > 500 * pairs
            && self.trapped < self.steps / 2
    }
}

/// A machine and its runs with a watch record.
#[derive(Clone, Copy)]
pub struct Program {
    pub machine: Machine,
    pub watched: RunWatched,
}

/// What makes runs: programs, the search that says what nothing outside reaches, and the sweeper.
#[derive(Clone, Copy)]
pub struct Bench<'a> {
    pub programs: &'a [Program],
    pub outside: Reach,
    pub sweep: Sweep,
}

/// The hidden granules, from one up to another.
#[derive(Clone, Copy, Debug)]
struct Hidden {
    first: usize,
    end: usize,
}

impl Hidden {
    /// Somewhere in memory, if it may be not where PCC and the handler are.
    fn choose(random: &mut Random, state: &State) -> Hidden {
        let granules = (state.mem.len() / GRANULE) as u32;
        let mut hidden = Hidden { first: 0, end: 1 };
        for _ in 0..8 {
            let first = random.below(granules);
            let end = (first + 1 + random.below(MOST_HIDDEN)).min(granules);
            hidden = Hidden {
                first: first as usize,
                end: end as usize,
            };
            let at = |place| state.offset(state.capability(place).address, 1);
            let holds = |place| at(place).is_some_and(|offset| hidden.has(offset / GRANULE));
            if !holds(PCC) && !holds(MTCC) {
                break;
            }
        }
        hidden
    }

    fn has(self, granule: usize) -> bool {
        (self.first..self.end).contains(&granule)
    }

    /// Whether something outside has a right there.
    fn query(self, state: &State, rights: u32) -> Query {
        Query {
            low: state.start.wrapping_add((self.first * GRANULE) as u32),
            length: ((self.end - self.first) * GRANULE) as u32,
            rights,
        }
    }

    fn bytes(self) -> std::ops::Range<usize> {
        self.first * GRANULE..self.end * GRANULE
    }
}

/// A capability between two addresses, with the rights, the type and, if it can be, the address of another.
fn piece(value: Capability, low: u64, high: u64) -> Capability {
    let seal = seal_type(value.metadata);
    let metadata = with_type(value.metadata, 0);
    let open = move_address(Capability { metadata, ..value }, low as u32);
    let cut = set_bounds(open, high.saturating_sub(low) as u32);
    let cut = move_address(cut, value.address);
    Capability {
        metadata: with_type(cut.metadata, seal),
        ..cut
    }
}

/// The same without some rights, sealed or not.
fn without(value: Capability, rights: u32) -> Capability {
    let seal = seal_type(value.metadata);
    let metadata = with_type(value.metadata, 0);
    let less = narrow(Capability { metadata, ..value }, !rights);
    Capability {
        metadata: with_type(less.metadata, seal),
        ..less
    }
}

/// What is left of a capability that does not count: what it has below the range or above, all without the right, or no
/// tag. Code stays code if it can.
fn lesser(random: &mut Random, value: Capability, query: Query) -> Capability {
    let (low, high) = bounds(value.address, value.metadata);
    let end = u64::from(query.low) + u64::from(query.length);
    let below = piece(value, low.into(), query.low.into());
    let above = piece(value, end, high);
    let less = without(value, query.rights);
    let is_below = value.address < query.low;
    let tries = match (has(value.metadata, EX), is_below, random.below(3)) {
        (true, true, _) | (false, true, 1) => [below, above, less],
        (true, false, _) | (false, false, 1) => [above, below, less],
        _ => [less, below, above],
    };
    let kept = tries
        .into_iter()
        .find(|&less| less.tag == 1 && !counts(less, query));
    kept.unwrap_or(Capability { tag: 0, ..value })
}

/// Leaves nothing outside the hidden range with a right there.
fn hide(random: &mut Random, state: &mut State, hidden: Hidden, rights: u32) {
    let query = hidden.query(state, rights);
    let inside = |address: u32| {
        state
            .offset(address, 1)
            .is_some_and(|at| hidden.has(at / GRANULE))
    };
    let outside = |place: &Place| !matches!(place, Place::Granule(address) if inside(*address));
    let all = held(state).filter(|(place, value)| outside(place) && counts(*value, query));
    for (place, value) in all.collect::<Vec<(Place, Capability)>>() {
        let less = lend(lesser(random, value, query));
        match place {
            Place::Register(place) => state.set(place, less),
            Place::Granule(address) => state.write_capability(address, less),
        }
    }
}

/// The same start with other bytes and tags in the hidden range: some granules stay, and some hold a capability for everything.
fn other(random: &mut Random, state: &State, hidden: Hidden) -> State {
    let mut other = state.clone();
    for granule in hidden.first..hidden.end {
        let address = state.start.wrapping_add((granule * GRANULE) as u32);
        match random.below(5) {
            0 => {}
            1 => other.set_tag(address, !state.tagged(address.into())),
            2 => {
                other.write_capability(address, lend(crate::capabilities::root(0b111111, address)))
            }
            3 => other.write(
                address.wrapping_add(random.below(8)),
                &[random.word() as u8],
            ),
            _ => {
                let bytes = random.long().to_le_bytes();
                other.write(address, &bytes);
                other.set_tag(address, random.one_in(2));
            }
        }
    }
    let place = hidden.first * GRANULE + random.below(GRANULE as u32) as usize;
    other.mem[place] = state.mem[place] ^ (1 + random.below(255)) as u8;
    other
}

/// Something that a caller does.
#[derive(Clone, Copy, Debug)]
enum Deed {
    Call(Call),
    Watched(u32, Watch),
    Visit(u32),
}

impl Deed {
    /// Its place among the counts of calls.
    fn kind(self) -> usize {
        match self {
            Deed::Call(Call::Step) => 0,
            Deed::Call(Call::Run(_)) => 1,
            Deed::Watched(..) => 2,
            Deed::Visit(_) => 3,
        }
    }

    /// Does it, with all that it answers.
    fn on(self, bench: Bench, program: Program, state: &mut State) -> (u64, Watch) {
        let mut record = Watch::default();
        let answer = match self {
            Deed::Call(call) => (program.machine)(state, call),
            Deed::Watched(steps, lent) => {
                record = lent;
                state.run_watched(program.watched, steps, &mut record)
            }
            Deed::Visit(granule) => state.sweep(bench.sweep, granule),
        };
        (answer, record)
    }
}

/// A record with ranges in memory or out of it, often over what is hidden.
fn record(random: &mut Random, state: &State, hidden: Hidden) -> Watch {
    let Query { low, length, .. } = hidden.query(state, LD);
    [0, 1].map(|_| match random.one_in(2) {
        true => Range {
            start: low,
            length,
            count: 0,
        },
        false => watches::range(random, state, None),
    })
}

/// Runs of growing length, steps, and visits of the hidden granules and others between.
fn deeds(random: &mut Random, state: &State, hidden: Hidden) -> Vec<Deed> {
    let granules = (state.mem.len() / GRANULE) as u32;
    let many = match random.below(256) {
        0 => 20_000,
        _ => random.below(2000),
    };
    let mut deeds = vec![
        Deed::Call(Call::Run(random.below(16))),
        Deed::Call(Call::Step),
        Deed::Watched(random.below(400), record(random, state, hidden)),
        Deed::Call(Call::Run(random.below(400))),
        Deed::Watched(many, record(random, state, hidden)),
    ];
    if random.one_in(2) {
        let place = random.below(5) as usize;
        let visits = (hidden.first..hidden.end).map(|granule| Deed::Visit(granule as u32));
        deeds.splice(place..place, visits);
        deeds.push(Deed::Visit(random.below(granules)));
    }
    deeds
}

/// The tag of a granule.
fn tag(state: &State, granule: usize) -> u8 {
    state.tags[granule / 8] >> (granule % 8) & 1
}

/// Whether a granule of two states is alike in its bytes.
fn same_bytes([one, two]: &[State; 2], granule: usize) -> bool {
    let bytes = granule * GRANULE..(granule + 1) * GRANULE;
    one.mem[bytes.clone()] == two.mem[bytes]
}

/// The first thing that differs now and may not: a register, a byte or a tag outside, or what was alike inside. A sweep may
/// take the tag of one of two granules whose bytes differ.
fn differs(starts: &[State; 2], now: &[State; 2], hidden: Hidden, swept: bool) -> Option<String> {
    let [one, two] = now;
    if one.regs != two.regs {
        return Some("registers differ".into());
    }
    let was_alike = |byte: usize| starts[0].mem[byte] == starts[1].mem[byte];
    let mut bytes = (0..one.mem.len()).filter(|&byte| one.mem[byte] != two.mem[byte]);
    if let Some(byte) = bytes.find(|&byte| !hidden.has(byte / GRANULE) || was_alike(byte)) {
        return Some(format!("byte {byte} differs"));
    }
    let may = |granule: usize| {
        let differed = tag(&starts[0], granule) != tag(&starts[1], granule);
        hidden.has(granule) && (differed || (swept && !same_bytes(starts, granule)))
    };
    let mut tags = (0..one.mem.len() / GRANULE).filter(|&at| tag(one, at) != tag(two, at));
    let granule = tags.find(|&granule| !may(granule))?;
    Some(format!("the tag of granule {granule} differs"))
}

/// The first hidden granule that is not as it was. A sweep may take its tag.
fn changed(start: &State, now: &State, hidden: Hidden, swept: bool) -> Option<String> {
    if start.mem[hidden.bytes()] != now.mem[hidden.bytes()] {
        return Some("a hidden byte changed".into());
    }
    let mut granules = hidden.first..hidden.end;
    let stays = |granule: usize| {
        let (before, after) = (tag(start, granule), tag(now, granule));
        before == after || (swept && before > after)
    };
    let granule = granules.find(|&granule| !stays(granule))?;
    Some(format!("the tag of hidden granule {granule} changed"))
}

/// Two starts and what is hidden in them.
struct Pair {
    starts: [State; 2],
    hidden: Hidden,
    /// Nothing outside may load there, or store there.
    unread: bool,
    shut: bool,
}

impl Pair {
    fn new(bench: Bench, starts: [State; 2], hidden: Hidden) -> Result<Pair, String> {
        let asked = |rights| {
            let query = hidden.query(&starts[0], rights);
            let [one, two] = [0, 1].map(|start| starts[start].reach(bench.outside, query, 0));
            let text = || format!("{query:x?}: {one:x} and {two:x}");
            (one == two).then_some(one == 0).ok_or_else(text)
        };
        let (unread, shut) = (asked(LD)?, asked(SD)?);
        Ok(Pair {
            starts,
            hidden,
            unread,
            shut,
        })
    }

    /// Does the same to both, and looks at them after each deed: what tells them apart.
    fn follow(
        &self,
        bench: Bench,
        program: Program,
        deeds: &[Deed],
        totals: &mut Totals,
    ) -> Result<(), String> {
        let mut now = self.starts.clone();
        let mut swept = false;
        for deed in deeds {
            let [one, two] = now.each_mut().map(|state| deed.on(bench, program, state));
            totals.calls[deed.kind()] += 1;
            swept |= matches!(deed, Deed::Visit(_));
            if !matches!(deed, Deed::Visit(_)) {
                let answer = Answer::of(one.0);
                totals.steps += answer.retired + answer.trapped;
                totals.trapped += answer.trapped;
            }
            if one != two {
                return Err(format!("{deed:?} answers {one:x?} and {two:x?}"));
            }
            if let Some(text) = differs(&self.starts, &now, self.hidden, swept) {
                return Err(format!("after {deed:?}: {text}"));
            }
            self.stays(&now, swept)?;
        }
        let bytes = self.hidden.bytes();
        let stored = now[0].mem[bytes.clone()] != self.starts[0].mem[bytes];
        totals.stored += u64::from(stored && self.unread);
        Ok(())
    }

    /// Where nothing outside may load or store, all stays.
    fn stays(&self, now: &[State; 2], swept: bool) -> Result<(), String> {
        if !self.unread || !self.shut {
            return Ok(());
        }
        let mut both = self.starts.iter().zip(now);
        let found = both.find_map(|(start, now)| changed(start, now, self.hidden, swept));
        found.map_or(Ok(()), Err)
    }
}

/// A start and a range; mostly nothing outside may load there, and at times nothing may store there.
fn start(mix: &Mix, random: &mut Random, state: &mut State) -> Hidden {
    starts::make(mix, random, state);
    let hidden = Hidden::choose(random, state);
    if !random.one_in(4) {
        hide(random, state, hidden, LD);
        if random.one_in(4) {
            hide(random, state, hidden, SD);
        }
    }
    hidden
}

/// Runs each program from the pairs of a seed: the first that tells what it may not.
pub fn search(bench: Bench, table: &Table, seed: u64, cases: u64) -> Result<Totals, Mismatch> {
    let mix = Mix::new(table);
    let mut totals = Totals::default();
    let mut state = State::default();
    for case in 1..=cases {
        let random = &mut Random::new(seed ^ 0x5EC2, case);
        let hidden = start(&mix, random, &mut state);
        let starts = [state.clone(), other(random, &state, hidden)];
        let deeds = deeds(random, &state, hidden);
        let fault = |text| Mismatch { case, text };
        let pair = Pair::new(bench, starts, hidden).map_err(fault)?;
        count(&pair, &mut totals);
        for (number, program) in bench.programs.iter().enumerate() {
            match pair.follow(bench, *program, &deeds, &mut totals) {
                Err(text) if pair.unread => {
                    return Err(fault(format!("program {number}, {hidden:?}: {text}")));
                }
                told => totals.told += u64::from(told.is_err()),
            }
        }
    }
    Ok(totals)
}

fn count(pair: &Pair, totals: &mut Totals) {
    if !pair.unread {
        totals.open += 1;
        return;
    }
    totals.unread += 1;
    totals.granules += (pair.hidden.end - pair.hidden.first) as u64;
    totals.isolated += u64::from(pair.shut);
}

#[cfg(test)]
mod tests {
    use super::*;
    use crate::instructions::table;
    use crate::machines::second;

    const PROGRAM: Program = Program {
        machine: second,
        watched: second::run_watched,
    };

    const SECOND: Bench = Bench {
        programs: &[PROGRAM],
        outside: second::reach_outside,
        sweep: second::sweep,
    };

    #[test]
    fn the_second_program_tells_nothing_and_much_where_something_may_load() {
        let totals = search(SECOND, &table(), 1, 2000).unwrap();
        assert!(totals.complete(), "{totals:?}");
    }

    /// A byte of memory in a register, a tag in a count, a byte moved, and searches that find nothing or count what is hidden.
    #[test]
    fn what_tells_is_found() {
        let loads: Machine = |state, call| {
            let answer = second(state, call);
            state.regs[3 * 7] = u32::from(state.mem[0]);
            answer
        };
        let counts: Machine =
            |state, call| second(state, call) ^ u64::from(state.tags[0] & 1) << 24;
        let moves: Machine = |state, call| {
            let answer = second(state, call);
            state.mem[9] = state.mem[8];
            answer
        };
        for machine in [loads, counts, moves] {
            let programs = &[PROGRAM, Program { machine, ..PROGRAM }];
            let found = search(Bench { programs, ..SECOND }, &table(), 1, 2000).unwrap_err();
            assert!(found.text.starts_with("program 1"), "{}", found.text);
        }
        let none: Reach = |_, _, _, _, _, _| 0;
        for outside in [none, second::reach] {
            assert!(search(Bench { outside, ..SECOND }, &table(), 1, 2000).is_err());
        }
    }
}
