//! The watch record: the option, the counts that a run says, up to the step that stops it, and who is told no.

mod common;

use common::state::{text, with_code, START};
use common::words::{addi, store, EBREAK};
use common::{bench_in, directory};
use lent::{Capability, MEMORY_ROOT};
use serde_json::json;
use std::path::PathBuf;

/// CJAL c0 to itself.
const JUMP_TO_ITSELF: u32 = 0x0000_006F;
/// Where the stores go: c2 points there.
const PLACE: u32 = START + 0x80;

/// A state that stores a word and then a byte, and again, three times, and then traps.
fn storing(name: &str) -> PathBuf {
    let directory = directory(name);
    // c10 counts down from 3; SW and SB by c2; BNE c10, c0 back to the first store.
    let code = [
        addi(10, 0, 3),
        store(2, 0),
        store(0, 7),
        addi(10, 10, -1),
        0xFE05_1AE3,
        EBREAK,
    ];
    let mut state = with_code(&code);
    state.set(2, Capability::tagged(PLACE, MEMORY_ROOT));
    std::fs::write(directory.join("start"), text(&state)).unwrap();
    directory
}

#[test]
fn the_counts_are_told() {
    let directory = storing("watch_told");
    let run = ["run", "--state", "start"];
    let [first, second] = [
        ["--watch", "0x20000083", "1"],
        ["--watch", "0x20000087", "0xffffffff"],
    ];
    let page = ["--report", "page.html"];
    let answer = bench_in(&directory, &[&run[..], &first, &second, &page].concat());
    assert_eq!(answer.status, 1, "{}", answer.err);
    let page = std::fs::read_to_string(directory.join("page.html")).unwrap();
    let lines = [
        "Watch: 1 byte from 20000083, touched by 3 stores.",
        "Watch: 4,294,967,295 bytes from 20000087, touched by 3 stores.",
    ];
    for line in lines {
        assert!(answer.out.contains(line), "{}", answer.out);
        assert!(page.contains(line), "{page}");
    }
    let all = ["--watch", "0x20000080", "8"];
    let value = bench_in(&directory, &[&run[..], &all, &["--json"]].concat()).json();
    let range = json!([{ "start": PLACE, "length": 8, "stores": 6 }]);
    assert_eq!(value["watch"], range);
    let value = bench_in(&directory, &[&run[..], &["--json"]].concat()).json();
    assert_eq!(value["watch"], json!([]));
    assert!(!bench_in(&directory, &run).out.contains("Watch"));
}

// What the search for the step that traps runs more than once is counted once.
#[test]
fn a_run_counts_the_steps_that_it_made() {
    let directory = storing("watch_exact");
    let run = [
        "run",
        "--state",
        "start",
        "--watch",
        "0x20000080",
        "8",
        "--json",
    ];
    for (steps, stores) in [
        ("0", 0),
        ("1", 0),
        ("2", 1),
        ("3", 2),
        ("6", 3),
        ("13", 6),
        ("1000", 6),
    ] {
        let value = bench_in(&directory, &[&run[..], &["--steps", steps]].concat()).json();
        assert_eq!(value["watch"][0]["stores"], stores, "{steps} steps");
    }
}

#[test]
fn an_empty_range_is_not_touched_and_a_third_is_refused() {
    let directory = storing("watch_empty");
    let run = ["run", "--state", "start", "--json"];
    let empty = ["--watch", "0x20000082", "0"];
    let value = bench_in(&directory, &[&run[..], &empty].concat()).json();
    assert_eq!(value["watch"][0]["stores"], 0);
    let thrice = [&run[..], &empty, &empty, &empty].concat();
    let answer = bench_in(&directory, &thrice);
    assert_eq!((answer.status, answer.out.as_str()), (3, ""));
    assert!(answer.err.contains("at most twice"), "{}", answer.err);
    assert_eq!(
        bench_in(&directory, &[&run[..], &["--watch", "0"]].concat()).status,
        3
    );
}

// A program that jumps to itself stores nothing more.
#[test]
fn a_program_that_ended_counts_no_more() {
    let directory = directory("watch_still");
    let mut state = with_code(&[store(2, 0), JUMP_TO_ITSELF]);
    state.set(2, Capability::tagged(PLACE, MEMORY_ROOT));
    std::fs::write(directory.join("start"), text(&state)).unwrap();
    let run = [
        "run",
        "--state",
        "start",
        "--watch",
        "0",
        "0xffffffff",
        "--json",
    ];
    let value = bench_in(&directory, &[&run[..], &["--steps", "5000000"]].concat()).json();
    assert_eq!(
        (&value["end"], &value["watch"][0]["stores"]),
        (&json!("still"), &json!(1))
    );
}
