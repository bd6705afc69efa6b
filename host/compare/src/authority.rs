//! The search for gained authority (document 02, 9): long runs of a machine from sound starts, and
//! after each of several budgets a look at every register and granule that holds a tagged
//! capability. One that no capability tagged at the start contains is a gain.

use crate::coverage::Coverage;
use crate::derivations::Mix;
use crate::held::{held, Authority, Origins, Place};
use crate::machines::Machine;
use crate::random::Random;
use crate::rows::{Aim, Outcome, Row, Table};
use crate::starts;
use crate::state::{Call, Case};
use lent::{Answer, State, MOST_STEPS};
use second::capability::is_sealed;
use second::Capability;

/// One start in so many is followed step by step.
const FOLLOWED: u64 = 32;
/// The steps of a followed run.
const FOLLOWED_STEPS: u32 = 400;

/// A gain: the start and the number of steps after which it was seen, where and what.
#[derive(Debug)]
pub struct Gain {
    /// The number of the start, from 1.
    pub number: u64,
    pub case: Case,
    pub place: Place,
    pub value: Capability,
}

/// What was counted.
#[derive(Default, Debug)]
pub struct Counts {
    pub runs: u64,
    /// Runs in which some look saw a derived capability.
    pub deriving_runs: u64,
    pub retired: u64,
    pub trapped: u64,
    pub looks: u64,
    /// Tagged capabilities that were looked at.
    pub seen: u64,
    /// Those whose bounds and rights nothing at the start has, by where they are.
    pub derived_in_registers: u64,
    pub derived_in_memory: u64,
    /// Sealed ones that were not held so at the start.
    pub newly_sealed: u64,
    /// Followed steps that set a tag in memory, and that cleared one.
    pub tags_set: u64,
    pub tags_cleared: u64,
    /// Refused calls, and capabilities with low above high or high above 2^32: there are none.
    pub refused: u64,
    pub unsound: u64,
}

/// What was reached, so that a search that finds nothing is known to have looked.
pub struct Totals {
    pub counts: Counts,
    /// What each followed step did.
    steps: Coverage,
}

impl Totals {
    pub fn new(table: &Table) -> Totals {
        Totals {
            counts: Counts::default(),
            steps: Coverage::new(table),
        }
    }

    fn count_answer(&mut self, answer: u64) {
        let answer = Answer::of(answer);
        self.counts.retired += answer.retired;
        self.counts.trapped += answer.trapped;
        self.counts.refused += u64::from(answer.number != 0);
    }

    /// Counts what a state holds; true if something in it is derived.
    fn count_look(&mut self, origins: &Origins, state: &State) -> bool {
        let counts = &mut self.counts;
        let mut derived = false;
        counts.looks += 1;
        for (place, value) in held(state) {
            let authority = Authority::of(value);
            let sealed = is_sealed(value.metadata) && !origins.have_sealed(value);
            counts.seen += 1;
            counts.unsound += u64::from(!authority.is_sound());
            counts.newly_sealed += u64::from(sealed);
            if !origins.have(authority) {
                derived = true;
                match place {
                    Place::Register(_) => counts.derived_in_registers += 1,
                    Place::Granule(_) => counts.derived_in_memory += 1,
                }
            }
        }
        derived
    }

    fn count_step(&mut self, table: &Table, case: &Case, after: &State, answer: u64) {
        self.steps.count(table, case, after, answer);
        let tags = || case.state.tags.iter().zip(&after.tags);
        let set = tags().any(|(before, after)| after & !before != 0);
        let cleared = tags().any(|(before, after)| before & !after != 0);
        self.counts.tags_set += u64::from(set);
        self.counts.tags_cleared += u64::from(cleared);
    }

    /// What is missing: something that no followed step did, or a count that shows an idle search.
    pub fn faults(&self, table: &Table) -> Vec<String> {
        let mut faults = self.counts.faults();
        for row in &table.rows {
            for &outcome in row.outcomes.iter().filter(|outcome| asked(row, **outcome)) {
                if self.steps.reached(table, row.name, outcome) == 0 {
                    faults.push(format!("not reached: {} {outcome:?}", row.name));
                }
            }
        }
        faults
    }
}

impl Counts {
    /// What does not hold of a search that looked at something.
    #[rustfmt::skip]
    fn faults(&self) -> Vec<String> {
        let runs = self.runs;
        let facts = [
            ("no call is refused", self.refused == 0),
            ("nothing is unsound", self.unsound == 0),
            ("half of the runs derive", self.deriving_runs > runs / 2),
            ("derived in registers", self.derived_in_registers > runs),
            ("derived in memory", self.derived_in_memory > runs / 8),
            ("newly sealed", self.newly_sealed > runs / 8),
            ("tags set in memory", self.tags_set > runs / 64),
            ("tags cleared in memory", self.tags_cleared > runs / 64),
            ("steps trap", self.trapped > runs),
        ];
        let wrong = facts.iter().filter(|(_, holds)| !holds);
        wrong.map(|(fact, _)| format!("does not hold: {fact}")).collect()
    }
}

/// Whether some followed step must do this: retire in each way that it can. A link without a tag is
/// left out, as it takes a jump in the last word of the address space.
fn asked(row: &Row, outcome: Outcome) -> bool {
    match outcome {
        Outcome::Retired | Outcome::Taken | Outcome::Tagged => true,
        Outcome::Untagged => !matches!(row.aim, Aim::Jump | Aim::JumpRegister),
        Outcome::Trap(_) | Outcome::Violation(_) => false,
    }
}

/// How many steps a run makes before each look, together no more than one call may make.
fn budgets(random: &mut Random) -> [u32; 4] {
    let last = match random.below(2048) {
        0 => MOST_STEPS - 1000,
        1..=16 => 20_000,
        _ => random.below(2000),
    };
    [random.below(8), random.below(64), random.below(400), last]
}

/// One search: a machine, and what it reaches if that is asked for.
struct Search<'a> {
    machine: Machine,
    table: &'a Table,
    origins: Origins,
    totals: Option<&'a mut Totals>,
}

impl Search<'_> {
    /// Makes a run in parts and looks after each: a gain, with the steps made until then.
    fn run(&mut self, state: &mut State, budgets: [u32; 4]) -> Option<(u32, Place, Capability)> {
        let (mut steps, mut derived) = (0u32, false);
        for budget in budgets {
            let answer = (self.machine)(state, Call::Run(budget));
            steps += budget;
            if let Some((place, value)) = self.origins.gained(state) {
                return Some((steps, place, value));
            }
            if let Some(totals) = self.totals.as_deref_mut() {
                totals.count_answer(answer);
                derived |= totals.count_look(&self.origins, state);
            }
        }
        if let Some(totals) = self.totals.as_deref_mut() {
            totals.counts.runs += 1;
            totals.counts.deriving_runs += u64::from(derived);
        }
        None
    }

    /// Makes single steps and looks after each.
    fn follow(&mut self, state: &mut State) -> Option<(u32, Place, Capability)> {
        let mut before = Case::default();
        for step in 1..=FOLLOWED_STEPS {
            before.state.clone_from(state);
            let answer = (self.machine)(state, Call::Step);
            if let Some((place, value)) = self.origins.gained(state) {
                return Some((step, place, value));
            }
            if let Some(totals) = self.totals.as_deref_mut() {
                totals.count_step(self.table, &before, state, answer);
            }
        }
        None
    }
}

/// Searches the runs of a machine from the starts of a seed; counts what was reached.
pub fn search(
    machine: Machine,
    table: &Table,
    seed: u64,
    cases: u64,
    mut totals: Option<&mut Totals>,
) -> Result<(), Box<Gain>> {
    let mix = Mix::new(table);
    let (mut start, mut state) = (State::default(), State::default());
    for number in 1..=cases {
        let mut random = Random::new(seed, number);
        starts::make(&mix, &mut random, &mut start);
        state.clone_from(&start);
        let mut search = Search {
            machine,
            table,
            origins: Origins::of(&start),
            totals: totals.as_deref_mut(),
        };
        let found = if number.is_multiple_of(FOLLOWED) {
            search.follow(&mut state)
        } else {
            search.run(&mut state, budgets(&mut random))
        };
        if let Some((steps, place, value)) = found {
            let call = Call::Run(steps);
            let case = Case { state: start, call };
            return Err(Box::new(Gain {
                number,
                case,
                place,
                value,
            }));
        }
    }
    Ok(())
}

/// Whether a machine gains authority by a call on a sound start.
pub fn gains(machine: Machine, case: &Case) -> Option<(Place, Capability)> {
    let sound = |(_, value): (Place, Capability)| Authority::of(value).is_sound();
    if !held(&case.state).all(sound) {
        return None;
    }
    let mut after = case.state.clone();
    machine(&mut after, case.call);
    Origins::of(&case.state).gained(&after)
}

#[cfg(test)]
mod tests {
    use super::*;
    use crate::instructions::table;
    use crate::machines::second;
    use crate::shrink::shrink;
    use lent::MTDC;

    #[test]
    fn the_second_program_gains_nothing_and_reaches_much() {
        let table = table();
        let mut totals = Totals::new(&table);
        search(second, &table, 1, 2000, Some(&mut totals)).unwrap();
        let faults = totals.faults(&table);
        assert!(
            faults.iter().all(|fault| fault.starts_with("not reached")),
            "{faults:?}"
        );
    }

    #[test]
    fn a_machine_that_sets_a_tag_is_found() {
        let wrong: Machine = |state, call| {
            let answer = second(state, call);
            state.regs[3 * MTDC + 2] = 1;
            answer
        };
        let table = table();
        let gain = search(wrong, &table, 1, 100, None).unwrap_err();
        assert_eq!(gain.place, Place::Register(MTDC));
        assert!(gains(wrong, &gain.case).is_some() && gains(second, &gain.case).is_none());
        let small = shrink(gain.case, &|case| gains(wrong, case).is_some());
        let found = gains(wrong, &small).map(|(place, _)| place);
        assert_eq!((small.call, found), (Call::Step, Some(gain.place)));
    }
}
