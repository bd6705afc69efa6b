//! Each kind of trap: its words against a golden file, its state against the second program.

mod common;

use common::state::{text, with_code, START};
use common::words::*;
use common::{bench_in, directory, golden};
use lent::{Capability, State, EXECUTABLE_ROOT as EXECUTABLE, MEMORY_ROOT as MEMORY};
use lent::{MCAUSE, MTVAL, PCC};
use serde_json::Value;
use std::path::Path;

/// Metadata of [START + 0x40, START + 0x80) with a six-bit code of rights.
const fn small(code: u32) -> u32 {
    code << 25 | 0x80 << 9 | 0x40
}

/// The same with one byte more.
const fn one_more(code: u32) -> u32 {
    code << 25 | 0x81 << 9 | 0x40
}

const ALL: u32 = 0b11_1111;
const EXECUTE_WITHOUT_SR: u32 = 0b10_1011;
const SEALED: u32 = 1 << 22;
/// An executable PCC of [START, START + 0x40).
const SHORT: u32 = EXECUTE_WITHOUT_SR << 25 | 0x40 << 9;
/// An executable PCC of two bytes.
const END_AFTER_TWO: u32 = EXECUTE_WITHOUT_SR << 25 | 2 << 9;
const WITHOUT_SR: u32 = EXECUTE_WITHOUT_SR << 25 | 0x3E_0000;
const MIDDLE: u32 = START + 0x40;
/// The last two bytes of memory.
const LAST_HALF: u32 = START + 0xFE;

/// A name, a capability that is put in a place, and the word at START.
type Case = (&'static str, usize, (u32, u32, u32), u32);

#[rustfmt::skip]
fn fetches() -> Vec<Case> {
    vec![
        ("fetch, no tag", PCC, (START, EXECUTABLE, 0), ECALL),
        ("fetch, sealed", PCC, (START, EXECUTABLE | SEALED, 1), ECALL),
        ("fetch, no right", PCC, (START, MEMORY, 1), ECALL),
        ("fetch, bounds", PCC, (START + 0x80, small(EXECUTE_WITHOUT_SR), 1), ECALL),
        ("fetch, bounds of the second half", PCC, (START, END_AFTER_TWO, 1), ECALL),
        ("fetch, misaligned", PCC, (START + 1, EXECUTABLE, 1), ECALL),
        ("fetch, outside memory", PCC, (0x1000_0000, EXECUTABLE, 1), ECALL),
        ("fetch, second half outside memory", PCC, (LAST_HALF, EXECUTABLE, 1), ECALL),
        ("illegal", 1, (0, 0, 0), 0xFFFF_FFFF),
        ("illegal short word", 1, (0, 0, 0), 0x1234_8002),
        ("short breakpoint", 1, (0, 0, 0), C_EBREAK),
        ("breakpoint", 1, (0, 0, 0), EBREAK),
        ("call", 1, (0, 0, 0), ECALL),
        ("csr, no right", PCC, (START, WITHOUT_SR, 1), csr()),
        ("mret, no right", PCC, (START, WITHOUT_SR, 1), MRET),
        ("special register, no right", PCC, (START, WITHOUT_SR, 1), special()),
    ]
}

#[rustfmt::skip]
fn loads() -> Vec<Case> {
    vec![
        ("load, no tag", 2, (MIDDLE, MEMORY, 0), load(2, 4)),
        ("load, sealed", 2, (MIDDLE, MEMORY | SEALED, 1), load(2, 4)),
        ("load, no right", 2, (MIDDLE, small(0b11_0001), 1), load(2, 4)),
        ("load, past the bounds", 2, (MIDDLE, small(ALL), 1), load(2, 64)),
        ("load, misaligned", 2, (MIDDLE, MEMORY, 1), load(1, 1)),
        ("load, outside memory", 2, (0x3000_0000, MEMORY, 1), load(0, 0)),
        ("capability load, misaligned", 2, (MIDDLE, MEMORY, 1), load(3, 4)),
        ("capability load, memory's end", 2, (START + 0x100, MEMORY, 1), load(3, 0)),
        ("short load, past the bounds", 9, (MIDDLE, small(ALL), 1), C_LW),
        ("short load by the stack, no tag", 2, (MIDDLE, MEMORY, 0), C_LDSP),
    ]
}

#[rustfmt::skip]
fn stores() -> Vec<Case> {
    vec![
        ("store, no tag", 2, (MIDDLE, MEMORY, 0), store(2, 4)),
        ("store, sealed", 2, (MIDDLE, MEMORY | SEALED, 1), store(2, 4)),
        ("store, no right", 2, (MIDDLE, small(0b11_0010), 1), store(2, 4)),
        ("store, below the bounds", 2, (MIDDLE, small(ALL), 1), store(2, -4)),
        ("store, across 2^32", 2, (0, MEMORY, 1), store(2, -2)),
        ("store, misaligned", 2, (MIDDLE, MEMORY, 1), store(2, 2)),
        ("store, outside memory", 2, (START - 4, MEMORY, 1), store(2, 0)),
        ("capability store, no right", 2, (MIDDLE, small(0b11_0011), 1), store(3, 0)),
        ("local capability store, no right", 2, (MIDDLE, small(0b11_1011), 1), store(3, 8)),
        ("short store, misaligned", 9, (MIDDLE + 2, MEMORY, 1), C_SD),
    ]
}

#[rustfmt::skip]
fn jumps() -> Vec<Case> {
    vec![
        ("jump, no tag", 2, (MIDDLE, EXECUTABLE, 0), cjalr(0)),
        ("jump, sealed", 2, (MIDDLE, EXECUTABLE | (4 * SEALED), 1), cjalr(0)),
        ("jump, sentry at an offset", 2, (MIDDLE, EXECUTABLE | SEALED, 1), cjalr(4)),
        ("jump, no right", 2, (MIDDLE, MEMORY, 1), cjalr(0)),
        ("jump, bounds", 2, (MIDDLE, small(EXECUTE_WITHOUT_SR), 1), cjalr(-8)),
        ("jump, one byte in bounds", 2, (MIDDLE, one_more(EXECUTE_WITHOUT_SR), 1), cjalr(0x40)),
        ("relative jump, bounds", PCC, (START, SHORT, 1), cjal(0x40)),
        ("branch, bounds", PCC, (START, SHORT, 1), branch(0x80)),
        ("short jump, bounds", PCC, (START, SHORT, 1), C_JAL),
        ("short branch, bounds", PCC, (START, SHORT, 1), C_BEQZ),
        ("short jump by a register, no right", 2, (MIDDLE, MEMORY, 1), C_JALR),
    ]
}

/// The state that a case starts from; c3 is a tagged capability that is not global.
fn start(case: &Case) -> State {
    let (_, place, (address, metadata, tag), word) = *case;
    let mut state = with_code(&[word]);
    state.set(3, Capability::tagged(MIDDLE, 0x3E3E_0000));
    let value = Capability {
        address,
        metadata,
        tag,
    };
    state.set(place, value);
    if (place, address) == (PCC, LAST_HALF) {
        state.write(LAST_HALF, &word.to_le_bytes()[..2]);
    }
    state
}

/// What the command says of a case, down to the registers.
fn said(directory: &Path, case: &Case) -> String {
    let run = ["run", "--state", "start", "--steps", "1", "--save", "end"];
    let answer = bench_in(directory, &run);
    assert_eq!((answer.status, answer.err.as_str()), (1, ""), "{}", case.0);
    let (trap, _) = answer.out.split_once("  register ").expect("registers");
    format!("== {}\n{trap}", case.0)
}

/// The registers in JSON are those that the second program leaves.
fn agrees(directory: &Path, case: &Case) {
    let answer = bench_in(
        directory,
        &["run", "--state", "start", "--steps", "1", "--json"],
    );
    let (mut state, value) = (start(case), answer.json());
    assert_eq!(state.step(second::step), 1 << 24);
    let number = |value: &Value| value.as_u64().expect("a number") as u32;
    for (place, register) in value["state"]["registers"]
        .as_array()
        .unwrap()
        .iter()
        .enumerate()
    {
        let found = ["address", "metadata", "tag"].map(|name| number(&register[name]));
        assert_eq!(found, state.regs[3 * place..3 * place + 3], "{}", case.0);
    }
    assert_eq!(number(&value["trap"]["mcause"]), state.regs[MCAUSE]);
    assert_eq!(number(&value["trap"]["mtval"]), state.regs[MTVAL]);
}

/// The saved state explains the same trap, but for what MEPCC does not keep.
fn explained(directory: &Path, case: &Case, said: &str) {
    let answer = bench_in(directory, &["explain", "end"]);
    assert_eq!(answer.status, 0);
    if !["fetch, misaligned", "fetch, sealed"].contains(&case.0) {
        let trap = answer.out.split("  register ").next().unwrap_or("");
        assert!(said.ends_with(trap), "{said}\n{trap}");
    }
}

fn all(name: &str, cases: Vec<Case>) {
    let directory = directory(&format!("traps_{name}"));
    let mut shown = String::new();
    for case in &cases {
        std::fs::write(directory.join("start"), text(&start(case))).unwrap();
        let said = said(&directory, case);
        agrees(&directory, case);
        explained(&directory, case, &said);
        shown.push_str(&said);
    }
    golden(name, &shown);
}

#[test]
fn traps_of_fetches_and_system_instructions() {
    all("trap_fetches", fetches());
}

#[test]
fn traps_of_loads() {
    all("trap_loads", loads());
}

#[test]
fn traps_of_stores() {
    all("trap_stores", stores());
}

#[test]
fn traps_of_jumps() {
    all("trap_jumps", jumps());
}
