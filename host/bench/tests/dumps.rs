//! `bench explain` of register dumps: what the bench prints, what gdb prints, what a fitter writes down.

mod common;

use common::{bench_in, directory, examples};
use std::fs;
use std::path::Path;

const IMAGE: &str = "interlock_image.hex";

/// The demonstration's run on the small board: what it prints, with its state saved.
fn stopped(name: &str) -> (std::path::PathBuf, String) {
    let directory = directory(name);
    for file in [IMAGE, "interlock_small.hex", "interlock_small.map"] {
        fs::copy(examples().join(file), directory.join(file)).expect("a copy");
    }
    let run = [
        "run",
        "--map",
        "interlock_small.map",
        "--save",
        "end",
        "interlock_small.hex",
        IMAGE,
    ];
    let out = bench_in(&directory, &run).out;
    (directory, out)
}

fn explained(directory: &Path, text: &str, more: &[&str]) -> common::Answer {
    fs::write(directory.join("dump"), text).expect("the dump is written");
    bench_in(
        directory,
        &[&["explain", "dump", "--map", "interlock_small.map"], more].concat(),
    )
}

#[test]
fn the_benchs_own_registers_are_explained_as_the_state_is() {
    let (directory, out) = stopped("dumps_own");
    let registers = &out[out.find("  register ").expect("a table")..];
    let whole = bench_in(
        &directory,
        &["explain", "end", "--map", "interlock_small.map"],
    )
    .out;
    let (above, below) = whole.split_once("\n  memory there\n").expect("memory");
    let table = &below[below.find("\n  register ").expect("a table")..];
    let answer = explained(&directory, registers, &["--with", IMAGE]);
    assert_eq!((answer.out, answer.status), (format!("{above}{table}"), 0));
}

#[test]
fn without_the_image_the_word_is_not_known() {
    let (directory, out) = stopped("dumps_alone");
    let registers = &out[out.find("  register ").expect("a table")..];
    let answer = explained(&directory, registers, &[]);
    let told = "Trap: access outside the bounds of c2.\n\n  at       2000010c, a word that is not known, byte 12 of image\n  c2       20000480, tagged";
    assert!(answer.out.contains(told), "{}", answer.out);
    assert!(
        !answer.out.contains("asked") && !answer.out.contains("Not in the dump"),
        "{}",
        answer.out
    );
}

#[test]
fn what_a_dump_has_not_is_said_and_not_made_up() {
    let (directory, _) = stopped("dumps_part");
    let by_hand = "mepcc = 0x2000010c metadata 0x56040080 tag 1\nmcause = 0x1c\nmtval = 0x41\npcc = 0x5 metadata 0x0 tag 0\n";
    let answer = explained(&directory, by_hand, &["--with", IMAGE]);
    let told = "Trap: store outside the bounds of c2.\n\n  at       2000010c, word fe113c23, csc 2 1 -8, byte 12 of image\n  machine  mcause 28";
    assert!(answer.out.starts_with(told), "{}", answer.out);
    assert!(
        answer
            .out
            .contains("\nNot in the dump, and shown as null: c1, c2, c3,"),
        "{}",
        answer.out
    );
    let value = explained(&directory, by_hand, &["--json"]).json();
    assert_eq!(value["missing"].as_array().map(Vec::len), Some(18));
    assert_eq!(
        (&value["state"]["size"], &value["trap"]["authority"]),
        (&serde_json::Value::Null, &serde_json::Value::Null)
    );
}

#[test]
fn a_bad_dump_is_refused_with_its_line() {
    let (directory, _) = stopped("dumps_bad");
    let answer = explained(&directory, "c1 00000000 00000000 00000000\nc2 = 5\n", &[]);
    let said = "bench: dump: neither a saved state, which begins with 'oddersnow state', nor a register dump: line 2: '5' is no capability";
    assert!(answer.err.starts_with(said), "{}", answer.err);
    assert_eq!((answer.status, answer.out.as_str()), (3, ""));
    let answer = explained(&directory, "c0 = 0x1 metadata 0x0 tag 0\n", &[]);
    assert!(
        answer.err.starts_with("bench: refused, number 4"),
        "{}",
        answer.err
    );
    assert_eq!((answer.status, answer.out.as_str()), (2, ""));
    let answer = bench_in(&directory, &["explain", "end", "--with", IMAGE]);
    assert_eq!((answer.status, answer.err.as_str()), (3, "bench: interlock_image.hex: a saved state has its memory; --with is for a register dump\n"));
}
