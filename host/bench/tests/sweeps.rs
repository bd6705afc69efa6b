//! The sweeper: a saved state swept, what is said and saved, refusals, and runs that are swept.

mod common;

use common::state::{text, with_code, START};
use common::words::{addi, i, EBREAK};
use common::{bench_in, directory, golden, shell_in};
use lent::{Capability, State, Window, MEMORY_ROOT};
use serde_json::{json, Value};

/// A map of a board whose heap is the window.
const SHEET: &str = "region\tcode\t20000000\t00000040\trx\n\
                     region\theap\t20000040\t00000080\trw\n\
                     region\tdata\t200000c0\t00000040\trw\n";

/// A memory capability of 8 bytes.
fn object(address: u32) -> Capability {
    let base = address & 0x1FF;
    Capability::tagged(address, 0x7E00_0000 | (base + 8) << 9 | base)
}

/// The window is [64, 192) and the granules at 72 and 184 are marked. Granules hold capabilities with low
/// bounds that are marked, clear and outside, one of them at the window's edge; the last is sealed.
fn state(code: &[u32]) -> State {
    let mut state = with_code(code).with_window(Window {
        start: 64,
        size: 128,
    });
    state.revoke(START + 72);
    state.revoke(START + 184);
    let values = [
        (64, object(START + 72)),
        (72, object(START + 64)),
        (80, object(START + 56)),
        (128, object(START + 184)),
        (136, object(START + 192)),
        (200, Capability::tagged(START, MEMORY_ROOT)),
    ];
    for (place, value) in values {
        state.write_capability(START + place, value);
    }
    let sealed = object(START + 76);
    let sealed = Capability::tagged(sealed.address, sealed.metadata | 1 << 22);
    state.write_capability(START + 248, sealed);
    // No tag: nothing to take.
    state.write_capability(START + 96, object(START + 72));
    state.set_tag(START + 96, false);
    state
}

/// The same without the tags that the test takes.
fn swept(code: &[u32]) -> State {
    let mut state = state(code);
    for place in [64, 128, 248] {
        state.set_tag(START + place, false);
    }
    state
}

#[test]
fn a_saved_state_is_swept_and_the_tags_that_went_are_shown() {
    let directory = directory("sweeps");
    std::fs::write(directory.join("start"), text(&state(&[]))).unwrap();
    std::fs::write(directory.join("map"), SHEET).unwrap();
    let plain = bench_in(&directory, &["sweep", "start"]);
    let mapped = bench_in(
        &directory,
        &["sweep", "start", "--map", "map", "--save", "end"],
    );
    let again = bench_in(&directory, &["sweep", "end", "--save", "end"]);
    golden(
        "sweeps",
        &[plain.text(), mapped.text(), again.text()].join("\n"),
    );
    let saved = std::fs::read_to_string(directory.join("end")).unwrap();
    assert_eq!(saved, text(&swept(&[])));
    // What was not to be saved stays.
    let start = std::fs::read_to_string(directory.join("start")).unwrap();
    assert_eq!(start, text(&state(&[])));
}

#[test]
fn json_has_each_tag_that_went() {
    let directory = directory("sweeps_json");
    std::fs::write(directory.join("start"), text(&state(&[]))).unwrap();
    std::fs::write(directory.join("map"), SHEET).unwrap();
    let said = bench_in(&directory, &["sweep", "start", "--map", "map", "--json"]);
    assert_eq!((said.status, said.err.as_str()), (0, ""));
    let value = said.json();
    assert_eq!(
        (&value["granules"], &value["kept"]),
        (&json!(32), &json!(4))
    );
    let went = value["went"].as_array().unwrap();
    let places: Vec<(&Value, &Value)> = went
        .iter()
        .map(|one| (&one["granule"], &one["at"]))
        .collect();
    let wanted = [8, 16, 31].map(|granule: u32| (json!(granule), json!(START + 8 * granule)));
    assert_eq!(
        places,
        wanted.iter().map(|(a, b)| (a, b)).collect::<Vec<_>>()
    );
    let low = json!({ "low": START + 72, "high": START + 80 });
    assert_eq!(went[0]["held"]["bounds"], low);
    assert_eq!(went[0]["names"], json!([{ "name": "heap", "offset": 8 }]));
    assert_eq!(
        value["state"]["window"],
        json!({ "start": 64, "size": 128 })
    );
}

#[test]
fn many_tags_are_counted_and_the_first_are_shown() {
    let directory = directory("sweeps_many");
    let mut state = State::new(START, vec![0; 1 << 16]);
    state.revoke(START + 8);
    for granule in 0..8192 {
        state.write_capability(START + 8 * granule, object(START + 8));
    }
    std::fs::write(directory.join("start"), text(&state)).unwrap();
    let said = bench_in(&directory, &["sweep", "start"]);
    let lines: Vec<&str> = said.out.lines().collect();
    assert_eq!(
        lines[0],
        "8,192 granules visited; 8,192 tags went, 0 stay. Registers are not swept."
    );
    assert_eq!(lines.len(), 3 + 64 + 1);
    assert_eq!(lines[67], "  and 8,128 more; --json has them all");
    let all = bench_in(&directory, &["sweep", "start", "--json"]);
    assert_eq!(all.json()["went"].as_array().unwrap().len(), 8192);
}

#[test]
fn what_may_not_be_swept_is_refused_and_nothing_is_saved() {
    let directory = directory("sweeps_refused");
    let mut bad = state(&[]);
    bad.window.start = 8;
    std::fs::write(directory.join("start"), text(&bad)).unwrap();
    let said = bench_in(&directory, &["sweep", "start", "--save", "end"]);
    assert_eq!((said.status, said.out.as_str()), (2, ""));
    assert!(said.err.starts_with("bench: refused, number 2: "));
    assert!(!directory.join("end").exists());
    let mut bad = state(&[]);
    bad.tags.push(0);
    std::fs::write(directory.join("start"), text(&bad)).unwrap();
    let said = bench_in(&directory, &["sweep", "start", "--json"]);
    assert_eq!(said.status, 2);
    assert_eq!(said.json()["refused"]["number"], 3);
    // Registers are not lent to the sweeper, so what a run refuses may be swept.
    let mut odd = state(&[]);
    odd.regs[2] = 1;
    std::fs::write(directory.join("start"), text(&odd)).unwrap();
    assert_eq!(bench_in(&directory, &["run", "--state", "start"]).status, 2);
    assert_eq!(bench_in(&directory, &["sweep", "start"]).status, 0);
    let map = ["sweep", "start", "--map", "start", "--save", "start"];
    assert_eq!(bench_in(&directory, &map).status, 3);
    assert_eq!(bench_in(&directory, &["sweep", "none"]).status, 3);
}

/// CLC of the granule at 64 by c2, twice, with some steps between.
fn loading() -> Vec<u32> {
    let clc = |rd: u32| i(64, 2, 3, rd, 0x03);
    vec![clc(4), addi(0, 0, 0), addi(0, 0, 0), clc(5), EBREAK]
}

/// The state that such a program starts from.
fn running() -> State {
    let mut state = state(&loading());
    state.set(2, Capability::tagged(START, MEMORY_ROOT));
    state
}

#[test]
fn a_run_is_swept_after_every_so_many_steps() {
    let directory = directory("sweeps_run");
    std::fs::write(directory.join("start"), text(&running())).unwrap();
    let run = |more: &[&str]| {
        let words = ["run", "--state", "start", "--save", "end"];
        let said = bench_in(&directory, &[&words[..], more].concat());
        let saved = std::fs::read_to_string(directory.join("end")).unwrap();
        (said, saved)
    };
    let (said, unswept) = run(&[]);
    assert!(!said.out.contains("swept"), "{}", said.out);
    let (said, saved) = run(&["--sweep", "2"]);
    let first: Vec<&str> = said.out.lines().take(2).collect();
    assert_eq!(
        first,
        [
            "4 steps retired, 1 trapped. Stopped at the trap.",
            "Memory was swept 2 times; 3 tags went."
        ]
    );
    // Only tags of memory differ: the load filter takes the same tags.
    let differ = |a: &str, b: &str| {
        let lines = a.lines().zip(b.lines()).filter(|(a, b)| a != b);
        lines.map(|(a, _)| a.to_string()).collect::<Vec<String>>()
    };
    assert_eq!(
        differ(&unswept, &saved).len(),
        2,
        "a row of tags and the check"
    );
    let (said, saved) = run(&["--sweep", "100"]);
    assert!(said
        .out
        .contains("\nMemory was swept 0 times; 0 tags went.\n"));
    assert_eq!(saved, unswept);
    let (said, _) = run(&["--sweep", "1", "--steps", "3", "--json"]);
    assert_eq!(said.json()["swept"], json!({ "passes": 3, "tags": 3 }));
    let (said, _) = run(&["--json"]);
    assert_eq!(said.json()["swept"], Value::Null);
    let bad = bench_in(&directory, &["run", "--state", "start", "--sweep", "0"]);
    assert_eq!((bad.status, bad.out.as_str()), (3, ""));
}

#[test]
fn a_bar_is_drawn_on_a_terminal_alone() {
    let directory = directory("sweeps_bar");
    let state = State::new(START, vec![0; 1 << 20]);
    std::fs::write(directory.join("start"), text(&state)).unwrap();
    let plain = shell_in(&directory, "$BENCH sweep start 2>err; wc -c <err");
    assert!(plain.out.ends_with("\n0\n"), "{}", plain.out);
    let line =
        "script -qec '$BENCH sweep start' shown >/dev/null && grep -c 'of 131,072 granules' shown";
    let drawn = shell_in(&directory, line);
    assert_ne!(drawn.out.trim(), "0", "{}", drawn.text());
}
