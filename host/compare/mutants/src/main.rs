//! Runs every comparison against the wrong machines: each must be told from the right one within
//! a bounded number of cases of the seed that the comparison itself uses.
//!
//! `mutants [--cases N] [--seed S]`

use compare::authority;
use compare::conclude;
use compare::cuts::{self, CutAnswer, Label};
use compare::editions;
use compare::engines;
use compare::halves;
use compare::images;
use compare::instructions::table;
use compare::integrity::{self, Bench};
use compare::listing::{self, Lister};
use compare::lists::{self, List};
use compare::machines;
use compare::options::Options;
use compare::reaches::{self, Searches};
use compare::rows::Table;
use compare::secrecy::{self, Program};
use compare::sheets::{self, Sheets};
use compare::state::Call;
use compare::sweeps;
use compare::watches;
use lent::{Run, RunWatched, State};
use mutants::capability::Cut;
use mutants::{select, sheet, MUTANTS};
use std::process::ExitCode;

/// The most cases for one wrong machine.
const CASES: u64 = 1_000_000;
/// Cases for the copy with no edit on, which must agree.
const RIGHT_CASES: u64 = 100_000;
/// The most starts for a machine that gains authority, those for one that gains none, and those for
/// the copy with no edit on.
const STARTS: u64 = 100_000;
const IDLE_STARTS: u64 = 1000;
const RIGHT_STARTS: u64 = 10_000;
/// The same for sheets, of which a case has many, for images, for the sweeper and for engines.
const SHEETS_CASES: u64 = 20_000;
const RIGHT_SHEETS: u64 = 2_000;
const IMAGES_CASES: u64 = 100_000;
const RIGHT_IMAGES: u64 = 20_000;
const SWEEP_CASES: u64 = 100_000;
const RIGHT_SWEEPS: u64 = 20_000;
const RIGHT_WATCHES: u64 = 20_000;
const ENGINE_CASES: u64 = 50_000;
const RIGHT_ENGINES: u64 = 10_000;
const REACH_CASES: u64 = 100_000;
const RIGHT_REACHES: u64 = 5_000;

/// The comparisons with which the copy with no edit on must agree.
const RIGHT: [(&str, u64); 15] = [
    ("cuts", RIGHT_CASES),
    ("lists", RIGHT_CASES),
    ("machine", RIGHT_CASES),
    ("editions", RIGHT_CASES),
    ("halves", RIGHT_CASES),
    ("listing", RIGHT_CASES),
    ("authority", RIGHT_STARTS),
    ("sheets", RIGHT_SHEETS),
    ("images", RIGHT_IMAGES),
    ("sweep", RIGHT_SWEEPS),
    ("watch", RIGHT_WATCHES),
    ("engine", RIGHT_ENGINES),
    ("reach", RIGHT_REACHES),
    ("integrity", IDLE_STARTS),
    ("secrecy", IDLE_STARTS),
];

fn cut(base: u32, length: u32) -> CutAnswer {
    let (number, low, high, exact) = match mutants::capability::cut(base, length) {
        Cut::Region { low, high, exact } => (0, low, high, u32::from(exact)),
        Cut::Refused(number) => (number, 0, 0, 0),
    };
    CutAnswer {
        number,
        low,
        high,
        exact,
    }
}

const LABEL: Label = Label {
    cut,
    bounds: mutants::capability::bounds,
};

const SHEETS: Sheets = Sheets {
    read: sheet::read,
    write: sheet::write,
    compare: sheet::compare,
};

fn calls(list: &mut List) -> u32 {
    lists::lent(list, |start, list| {
        let start = mutants::capability::Capability {
            address: start.address,
            metadata: start.metadata,
            tag: start.tag,
        };
        let made = mutants::calls::calls(start, list).into_iter();
        let plain = made.map(|made| second::Capability {
            address: made.address,
            metadata: made.metadata,
            tag: made.tag,
        });
        plain.collect()
    })
}

const LISTER: Lister = Lister {
    list: mutants::listing::list,
    assemble: mutants::listing::assemble,
};

const WATCHED: (RunWatched, Run) = (mutants::machine::run_watched, mutants::machine::run);

const ENGINES: &[RunWatched] = &[mutants::machine::run_kept];

fn machine(state: &mut State, call: Call) -> u64 {
    call.on(state, mutants::machine::step, mutants::machine::run)
}

/// The selected machine with the right search and the right sweeper: what it writes unasked is its own fault.
const UNASKED: Bench = Bench {
    machines: &[machine],
    reach: second::reach,
    sweep: second::sweep,
};

/// The selected machine and sweeper with the right search: what they tell is their own fault.
const TELLING: secrecy::Bench = secrecy::Bench {
    programs: &[Program {
        machine,
        watched: mutants::machine::run_watched,
    }],
    outside: second::reach_outside,
    sweep: mutants::sweep::sweep,
};

const SEARCHES: Searches = Searches {
    all: mutants::reach::reach,
    outside: mutants::reach::reach_outside,
};

/// The same by what is reached, what is written unasked and what is told.
fn reached(comparison: &str, table: &Table, seed: u64, cases: u64) -> Option<u64> {
    let found = match comparison {
        "reach" => reaches::compare(SEARCHES, seed, cases.min(REACH_CASES)).err(),
        "secrecy" => secrecy::search(TELLING, table, seed, cases.min(STARTS)).err(),
        _ => integrity::search(UNASKED, table, seed, cases.min(STARTS)).err(),
    };
    found.map(|found| found.case)
}

/// The case at which a comparison tells the selected machine from the right one.
fn told_apart(comparison: &str, table: &Table, seed: u64, cases: u64) -> Option<u64> {
    match comparison {
        "cuts" => cuts::compare(LABEL, seed, cases)
            .err()
            .map(|found| found.case),
        "lists" => lists::compare(calls, seed, cases)
            .err()
            .map(|found| found.case),
        "editions" => editions::compare(machine).err().map(|found| found.number),
        // A round of all halves, for there are mistakes in a single one.
        "halves" => halves::compare(machine, seed, halves::CASES, None)
            .err()
            .map(|found| found.number),
        "sheets" => sheets::compare(SHEETS, seed, cases.min(SHEETS_CASES))
            .err()
            .map(|found| found.case),
        "images" => images::compare(mutants::fit::fit, seed, cases.min(IMAGES_CASES))
            .err()
            .map(|found| found.case),
        "sweep" => sweeps::compare(mutants::sweep::sweep, seed, cases.min(SWEEP_CASES))
            .err()
            .map(|found| found.case),
        "watch" => watches::compare(WATCHED, table, seed, cases)
            .err()
            .map(|found| found.case),
        "engine" => engines::compare(ENGINES, table, seed, cases.min(ENGINE_CASES))
            .err()
            .map(|found| found.case),
        "reach" | "integrity" | "secrecy" => reached(comparison, table, seed, cases),
        "listing" => listing::compare(LISTER, seed, listing::CASES)
            .err()
            .map(|found| found.case),
        "authority" => authority::search(machine, table, seed, cases.min(STARTS), None)
            .err()
            .map(|gain| gain.number),
        _ => machines::compare(machine, table, seed, cases, None)
            .err()
            .map(|found| found.number),
    }
}

/// What each comparison says of each wrong machine; an error if one is not told apart.
fn run(options: &Options) -> Result<String, String> {
    let table = table();
    let mut faults = Vec::new();
    for (comparison, cases) in RIGHT {
        if let Some(case) = told_apart(comparison, &table, options.seed, cases) {
            faults.push(format!("no mutant: {comparison} differs at case {case}"));
        }
    }
    for (index, mutant) in MUTANTS.iter().enumerate() {
        select(index + 1);
        for comparison in mutant.by.split_whitespace() {
            let name = mutant.name;
            match told_apart(comparison, &table, options.seed, options.cases) {
                Some(case) => {
                    println!("mutant {name}: told apart after {case} cases by {comparison}")
                }
                None => faults.push(format!("mutant {name}: NOT told apart by {comparison}")),
            }
        }
        if let Some((comparison, why)) = mutant.not.split_once(": ") {
            let name = mutant.name;
            match told_apart(comparison, &table, options.seed, IDLE_STARTS) {
                Some(case) => faults.push(format!("mutant {name}: case {case} of {comparison}")),
                None => println!("mutant {name}: not seen by {comparison}: {why}"),
            }
        }
    }
    if faults.is_empty() {
        Ok(format!("{} mutants told apart", MUTANTS.len()))
    } else {
        Err(faults.join("\n"))
    }
}

fn main() -> ExitCode {
    conclude(Options::of_process(CASES).and_then(|options| run(&options)))
}
