//! Document 01's refusals, by number, with nothing saved.

mod common;

use common::state::{text, with_code, with_code_and_value, LOAD_IT, LOW_ABOVE_HIGH};
use common::words::addi;
use common::{bench_in, directory, golden, shell_in};
use lent::{Capability, State, MEPCC};
use serde_json::json;

/// CJAL c0, .-4.
const BACK: u32 = 0xFFDF_F06F;

/// A state that is refused, by name.
fn states() -> Vec<(&'static str, State)> {
    let changed = |change: fn(&mut State)| {
        let mut state = with_code(&[0x13]);
        change(&mut state);
        state
    };
    vec![
        ("1, too few words", changed(|state| state.regs.truncate(65))),
        ("2, start", changed(|state| state.start = 4)),
        ("2, size", changed(|state| state.mem.truncate(100))),
        ("2, end", changed(|state| state.start = 0xFFFF_FFF8)),
        ("2, window", changed(|state| state.window.start = 32)),
        ("3, tags", changed(|state| state.tags.push(0))),
        ("3, revocation bits", changed(|state| state.revoked.clear())),
        ("4, tag word", changed(|state| state.regs[5] = 2)),
        ("4, c0", changed(|state| state.regs[0] = 1)),
        ("7, edition", changed(|state| state.edition = 2)),
        (
            "8, low above high",
            changed(|state| state.set(5, LOW_ABOVE_HIGH)),
        ),
        (
            "8, high above 2^32",
            changed(|state| {
                state.set(MEPCC, Capability::tagged(0xFFFF_FFFF, 0x5E00_03FF));
                state.set(15, LOW_ABOVE_HIGH);
            }),
        ),
        (
            "lowest first",
            changed(|state| {
                state.regs[0] = 1;
                state.tags.clear();
            }),
        ),
    ]
}

#[test]
fn a_refused_state_is_neither_run_nor_saved() {
    let directory = directory("refused_states");
    let mut said = String::new();
    for (name, state) in states() {
        std::fs::write(directory.join("start"), text(&state)).unwrap();
        let answer = bench_in(&directory, &["run", "--state", "start", "--save", "end"]);
        assert_eq!((answer.status, answer.out.as_str()), (2, ""), "{name}");
        assert!(!directory.join("end").exists(), "{name}");
        assert_eq!(
            bench_in(&directory, &["explain", "start"]).status,
            2,
            "{name}"
        );
        said.push_str(&format!("== {name}\n{}", answer.text()));
    }
    golden("refusals", &said);
}

#[test]
fn a_refused_memory_is_said_before_the_image_is_placed() {
    let directory = directory("refused_memory");
    std::fs::write(directory.join("image"), [0x13, 0, 0, 0]).unwrap();
    for bad in [
        ["--size", "100"],
        ["--size", "1048640"],
        ["--size", "0x100000000"],
        ["--start", "4"],
        ["--window", "32 64"],
        ["--window", "0 100"],
        ["--window", "65536 64"],
        ["--window", "0 0xffffffff"],
        ["--window", "0xffffffc0 64"],
    ] {
        let values = bad[1].split(' ');
        let arguments: Vec<&str> = ["run", "image", bad[0]].into_iter().chain(values).collect();
        let answer = bench_in(&directory, &arguments);
        assert_eq!(answer.status, 2, "{bad:?}");
        assert!(
            answer.err.starts_with("bench: refused, number 2: "),
            "{}",
            answer.err
        );
    }
}

/// A computer with little memory refuses a large size by the same number, from a map sheet too.
#[test]
fn a_size_of_4_gigabytes_needs_no_memory() {
    let directory = directory("refused_huge");
    std::fs::write(directory.join("image"), [0x13, 0, 0, 0]).unwrap();
    let sheet = "region\ta\t00000000\t00000040\trx\nregion\tb\tffffffc0\t00000040\trw\n";
    std::fs::write(directory.join("map"), sheet).unwrap();
    for memory in ["--size 0x100000000", "--map map"] {
        let line = format!("ulimit -v 1000000; exec $BENCH run image {memory}");
        let answer = shell_in(&directory, &line);
        assert_eq!(answer.status, 2, "{memory}: {}", answer.err);
        assert!(answer.err.starts_with("bench: refused, number 2: "));
    }
}

#[test]
fn refusals_are_json_too() {
    let directory = directory("refused_json");
    let answer = bench_in(&directory, &["cut", "0xffffffff", "2", "--json"]);
    assert_eq!(answer.status, 2);
    assert_eq!(answer.json()["refused"]["number"], 6);
}

#[test]
fn an_unsound_register_is_named_in_json() {
    let directory = directory("refused_unsound");
    let mut state = with_code(&[0x13]);
    state.set(5, LOW_ABOVE_HIGH);
    std::fs::write(directory.join("start"), text(&state)).unwrap();
    for arguments in [
        &["run", "--state", "start", "--json"][..],
        &["explain", "start", "--json"],
    ] {
        let answer = bench_in(&directory, arguments);
        assert_eq!(answer.status, 2);
        let json = answer.json();
        let refused = &json["refused"];
        assert_eq!(refused["number"], 8);
        let registers = refused["registers"].as_array().unwrap();
        assert_eq!(registers.len(), 1);
        assert_eq!(registers[0]["name"], "c5");
        assert_eq!(registers[0]["bounds"]["low"], 0x0500_0000);
        assert_eq!(registers[0]["bounds"]["high"], 0x0400_0000);
    }
    // Untagged it may start.
    state.regs[3 * 5 + 2] = 0;
    std::fs::write(directory.join("start"), text(&state)).unwrap();
    let answer = bench_in(&directory, &["run", "--state", "start", "--steps", "1"]);
    assert_eq!(answer.status, 0, "{}", answer.err);
}

/// A jump of one word back, after the load of a value that no start may hold.
#[test]
fn a_run_that_is_refused_on_its_way_says_how_many_steps_were_made() {
    let directory = directory("refused_on_the_way");
    let state = with_code_and_value(&[addi(10, 0, 1), LOAD_IT, addi(10, 10, 1), BACK]);
    std::fs::write(directory.join("start"), text(&state)).unwrap();
    for (more, made) in [
        (&["--steps", "2000000"][..], 1_000_001),
        (&["--sweep", "30"], 30),
    ] {
        let run = [&["run", "--state", "start"], more].concat();
        let answer = bench_in(&directory, &run);
        assert_eq!((answer.status, answer.out.as_str()), (2, ""));
        let steps = if made == 30 { "30" } else { "1,000,001" };
        let told = format!("; before that {steps} steps retired, 0 trapped\n");
        assert!(answer.err.ends_with(&told), "{}", answer.err);
        let json = bench_in(&directory, &[&run[..], &["--json"]].concat()).json();
        let refused = &json["refused"];
        assert_eq!(
            (&refused["number"], &refused["retired"]),
            (&json!(8), &json!(made))
        );
        assert_eq!(refused["trapped"], 0);
    }
    // A start that is refused has made none, and does not speak of any.
    let mut state = with_code(&[0x13]);
    state.set(5, LOW_ABOVE_HIGH);
    std::fs::write(directory.join("start"), text(&state)).unwrap();
    let answer = bench_in(&directory, &["run", "--state", "start", "--json"]);
    assert!(answer.json()["refused"]["retired"].is_null());
    assert!(
        answer.err.ends_with("c5 [05000000, 04000000)\n"),
        "{}",
        answer.err
    );
}

#[test]
fn a_cut_past_the_end_is_refused() {
    let directory = directory("refused_cut");
    golden(
        "refused_cut",
        &bench_in(&directory, &["cut", "0xffffffff", "2"]).text(),
    );
}
