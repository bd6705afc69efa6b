//! Runs one part against the proved machine (`packaging/proved bench_api`) or the proved lister (`packaging/proved
//! listing_api`): `published PART`; or with the second program in its place: `published PART second`.

use compare::conclude;
use compare::listing::{Lister, SECOND};
use compare::machines::{second, Machine};
use published::{decoding, halves, instructions, listing, programs, routines};
use std::process::ExitCode;

const PROVED: Machine = |state, call| call.on(state, proved::step, proved::run);
const LISTER: Lister = Lister {
    list: proved::list_into,
    assemble: proved::assemble_into,
};

/// A part, with what it is about.
enum Part {
    Machine(fn(Machine) -> Result<String, String>),
    Lister(fn(Lister) -> Result<String, String>),
}

const PARTS: [(&str, Part); 6] = [
    ("routines", Part::Machine(routines::run)),
    ("instructions", Part::Machine(instructions::run)),
    ("decoding", Part::Machine(decoding::run)),
    ("halves", Part::Machine(halves::run)),
    ("listing", Part::Lister(listing::run)),
    ("programs", Part::Machine(programs::run)),
];

fn main() -> ExitCode {
    let named = std::env::args().nth(1).unwrap_or_default();
    let part = PARTS.iter().find(|(name, _)| *name == named);
    let programs = match std::env::args().nth(2).as_deref() {
        None => Some((PROVED, LISTER)),
        Some("second") => Some((second as Machine, SECOND)),
        Some(_) => None,
    };
    conclude(match (part, programs) {
        (Some((_, Part::Machine(part))), Some((machine, _))) => part(machine),
        (Some((_, Part::Lister(part))), Some((_, lister))) => part(lister),
        _ => Err(format!("no part {named:?}, or no such program")),
    })
}
