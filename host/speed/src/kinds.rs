//! Kinds of code that the five-instruction loops do not have: long loops, straight and with branches, one rare instruction after another, a list walked
//! with sealed capabilities and calls through a sentry, and two authorities by turns. Written as the assembler reads them, with blanks for its tabs.

use lent::{Capability, State, EXECUTABLE_ROOT, MEMORY_ROOT, MTCC, PCC, SEALING_ROOT};

/// Long loops, in KiB, and the other kinds, for a table of times; a loop of one instruction is "each " and its line.
pub const NAMES: [&str; 9] = [
    "straight4",
    "straight8",
    "straight16",
    "straight64",
    "branchy8",
    "branchy64",
    "list",
    "authorities",
    "specials",
];

/// Where memory starts, its size, and where data begin.
const START: u32 = 0x2000_0000;
const SIZE: usize = 0x2_0000;
const DATA: u32 = START + 0x1_8000;

/// The types that are sealed with: of data, and of a sentry.
const DATA_TYPE: u32 = 9;
const SENTRY: u32 = 1;

/// How many of a rare instruction stand in a loop.
const ROW: usize = 16;

/// A round of straight code, and of code with a branch that is taken by turns.
const STRAIGHT: [&str; 4] = ["addi 1 1 1", "xor 2 2 1", "add 3 1 2", "sra 4 3 2"];
const BRANCHY: [&str; 5] = [
    "addi 1 1 3",
    "andi 2 1 4",
    "bne 2 0 8",
    "xor 3 3 1",
    "add 4 4 3",
];

/// Four cells, each with the next as a sealed capability; a walk unseals it, adds what the cell has, calls, and seals it again.
const LIST: [&str; 25] = [
    "auipcc 10 0",
    "cincaddrimm 10 10 92",
    "cseal 10 10 8",
    "cincaddrimm 11 5 64",
    "cseal 12 11 7",
    "csc 5 12 0",
    "cincaddrimm 13 11 64",
    "cseal 12 13 7",
    "csc 11 12 0",
    "cincaddrimm 14 13 64",
    "cseal 12 14 7",
    "csc 13 12 0",
    "cseal 12 5 7",
    "csc 14 12 0",
    "cmove 9 5",
    "clc 11 9 0",
    "cunseal 9 11 7",
    "clw 2 9 8",
    "add 3 3 2",
    "cjalr 1 10 0",
    "cseal 12 9 7",
    "csc 9 12 16",
    "cjal 0 -28",
    "addi 4 4 1",
    "cjalr 0 1 0",
];

/// A load through each of two capabilities by turns, both in one register.
const AUTHORITIES: [&str; 6] = [
    "csetboundsimm 11 5 64",
    "cmove 9 11",
    "clw 2 9 0",
    "cmove 9 5",
    "clw 3 9 4",
    "cjal 0 -20",
];

/// Registers that are named by instructions alone: a special one read and written, control registers, a right asked of a capability.
const SPECIALS: [&str; 8] = [
    "cspecialrw 2 0 30",
    "cspecialrw 3 2 30",
    "csrrs 1 0 3009",
    "csrrw 0 1 3009",
    "cgetperm 4 5",
    "candperm 9 5 4",
    "cgetlen 11 9",
    "cjal 0 -28",
];

fn assembled(lines: &[String]) -> Option<Vec<u8>> {
    let text: String = lines.iter().map(|l| l.replace(' ', "\t") + "\n").collect();
    proved::assemble(text.as_bytes()).ok()
}

/// A loop of so many lines over a round of them.
fn looped(round: &[&str], lines: usize) -> Vec<String> {
    let body = round.iter().cycle().take(lines);
    let mut all: Vec<String> = body.map(ToString::to_string).collect();
    all.push(format!("cjal 0 -{}", 4 * lines));
    all
}

/// The lines of a program by its name.
fn lines(name: &str) -> Option<Vec<String>> {
    let whole = |lines: &[&str]| Some(lines.iter().map(ToString::to_string).collect());
    match name {
        "list" => return whole(&LIST),
        "authorities" => return whole(&AUTHORITIES),
        "specials" => return whole(&SPECIALS),
        _ => {}
    }
    if let Some(line) = name.strip_prefix("each ") {
        return Some(looped(&[line], ROW));
    }
    let (round, kib) = match name.strip_prefix("straight") {
        Some(kib) => (&STRAIGHT[..], kib),
        None => (&BRANCHY[..], name.strip_prefix("branchy")?),
    };
    let rounds = 256 * kib.parse::<usize>().ok()? / round.len();
    Some(looped(round, (rounds - 1) * round.len()))
}

/// A program ready to run from its first word.
pub fn ready(name: &str) -> Option<State> {
    let code = assembled(&lines(name)?)?;
    let mut state = State::new(START, vec![0; SIZE]);
    let roots = [
        (5, DATA, MEMORY_ROOT),
        (7, DATA_TYPE, SEALING_ROOT),
        (8, SENTRY, SEALING_ROOT),
        (PCC, START, EXECUTABLE_ROOT),
        (MTCC, START, EXECUTABLE_ROOT),
    ];
    for (place, address, root) in roots {
        state.set(place, Capability::tagged(address, root));
    }
    state.set(6, Capability::integer(64));
    state.mem.get_mut(..code.len())?.copy_from_slice(&code);
    Some(state)
}

#[cfg(test)]
mod tests {
    use super::*;

    #[test]
    fn every_kind_goes_on() {
        let rare = ["each csetbounds 2 5 6", "each wfi", "each lui 0 1"];
        for name in NAMES.iter().chain(&rare) {
            let mut state = ready(name).unwrap();
            assert_eq!(state.run(second::run, 5000), 5000, "{name}");
        }
    }

    #[test]
    fn the_list_goes_round_and_calls() {
        let mut state = ready("list").unwrap();
        state.run(second::run, 15 + 40);
        assert_eq!(state.capability(4).address, 4);
    }
}
