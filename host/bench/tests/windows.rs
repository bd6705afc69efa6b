//! The window of the revocation bits: which part of memory it is, what a load by it shows, and state
//! files with and without one.

mod common;

use common::state::{old_text, text, with_code, START};
use common::words::{i, EBREAK};
use common::{bench_in, directory};
use lent::{Capability, State, Window, COMPARE, MEMORY_ROOT};
use serde_json::json;
use std::path::Path;

/// A map of a board with a heap in the middle.
const SHEET: &str = "region\tcode\t20000000\t00000400\trx\n\
                     region\theap\t20000400\t00000800\trw\n\
                     region\tdata\t20000c00\t00000400\trw\n";

/// The lines of the state that a run of no steps saves that start with these words.
fn saved(directory: &Path, arguments: &[&str], names: [&str; 2]) -> Vec<String> {
    let run = ["run", "image", "--steps", "0", "--save", "end"];
    let answer = bench_in(directory, &[&run[..], arguments].concat());
    assert_eq!(answer.status, 0, "{}", answer.err);
    let text = std::fs::read_to_string(directory.join("end")).unwrap();
    let wanted = |line: &&str| names.iter().any(|name| line.starts_with(name));
    text.lines().filter(wanted).map(str::to_string).collect()
}

#[test]
fn the_window_is_asked_for_or_the_maps_heap_or_all_of_memory() {
    let directory = directory("windows");
    std::fs::write(directory.join("image"), [0x13, 0, 0, 0]).unwrap();
    std::fs::write(directory.join("map"), SHEET).unwrap();
    let window = |arguments: &[&str]| saved(&directory, arguments, ["window", "revoked"]);
    assert_eq!(window(&[]), ["window 00000000 00010000", "revoked 1024"]);
    let map = ["--map", "map"];
    assert_eq!(window(&map), ["window 00000400 00000800", "revoked 32"]);
    let asked = ["--map", "map", "--window", "0xc00", "64"];
    assert_eq!(window(&asked), ["window 00000c00 00000040", "revoked 1"]);
    let none = ["--window", "65536", "0"];
    assert_eq!(window(&none), ["window 00010000 00000000", "revoked 0"]);
    let large = ["--size", "1048576"];
    assert_eq!(
        window(&large),
        ["window 00000000 00100000", "revoked 16384"]
    );
}

#[test]
fn a_heap_below_memory_is_not_guessed_at() {
    let directory = directory("windows_below");
    std::fs::write(directory.join("image"), [0x13, 0, 0, 0]).unwrap();
    std::fs::write(directory.join("map"), SHEET).unwrap();
    let elsewhere = ["run", "image", "--map", "map", "--start", "0x20000800"];
    let answer = bench_in(&directory, &elsewhere);
    assert_eq!((answer.status, answer.out.as_str()), (3, ""));
    assert!(answer.err.contains("heap"), "{}", answer.err);
    let asked = [&elsewhere[..], &["--window", "0", "0", "--steps", "1"]].concat();
    assert_eq!(bench_in(&directory, &asked).status, 0);
}

/// A memory capability of 8 bytes.
fn object(address: u32) -> Capability {
    let base = address & 0x1FF;
    Capability::tagged(address, 0x7E00_0000 | (base + 8) << 9 | base)
}

/// CLC of four capabilities by c2, into c4 to c7, then a load by c5: the bits are of [64, 192), and the
/// granule at 72 is marked.
fn loading() -> State {
    let clc = |rd: u32, offset: i32| i(offset, 2, 3, rd, 0x03);
    let load = i(0, 5, 2, 10, 0x03);
    let mut state = with_code(&[clc(4, 0), clc(5, 8), clc(6, 16), clc(7, 24), load, EBREAK]);
    state = state.with_window(Window {
        start: 64,
        size: 128,
    });
    state.revoke(START + 72);
    state.set(2, Capability::tagged(START + 128, MEMORY_ROOT));
    for (granule, low) in (16..).zip([56, 72, 64]) {
        state.write_capability(START + 8 * granule, object(START + low));
    }
    state
}

#[test]
fn the_trace_says_what_the_bits_said_of_a_low_bound() {
    let directory = directory("windows_trace");
    std::fs::write(directory.join("start"), text(&loading())).unwrap();
    let answer = bench_in(&directory, &["run", "--state", "start", "--trace"]);
    let lines: Vec<&str> = answer.out.lines().take(5).collect();
    let said = [
        "       1  20000000  00013203  clc 4 2 0                c4 := 20000038 [20000038, 20000040), \
         low bound outside the window",
        "       2  20000004  00813283  clc 5 2 8                c5 := 20000048 no tag [20000048, 20000050), low bound marked",
        "       3  20000008  01013303  clc 6 2 16               c6 := 20000040 [20000040, 20000048), low bound clear",
        "       4  2000000c  01813383  clc 7 2 24",
        "       5  20000010  0002a503  clw 10 5 0               trap: load by c5, which has no tag",
    ];
    assert_eq!(lines, said);
    let line = "  revoked  20000048, its low bound, is marked";
    assert!(
        answer.out.lines().any(|said| said == line),
        "{}",
        answer.out
    );
}

#[test]
fn json_has_the_window_and_what_the_bits_said() {
    let directory = directory("windows_json");
    for (marked, low, said) in [
        (true, 72, "marked"),
        (false, 72, "clear"),
        (true, 56, "outside"),
    ] {
        let mut state = loading();
        state.write_capability(START + 136, object(START + low));
        state.set_tag(START + 136, false);
        if !marked {
            state.revoked.fill(0);
        }
        std::fs::write(directory.join("start"), text(&state)).unwrap();
        let answer = bench_in(&directory, &["run", "--state", "start", "--json"]);
        let value = answer.json();
        assert_eq!(
            value["state"]["window"],
            json!({ "start": 64, "size": 128 })
        );
        assert_eq!(value["trap"]["authority"]["revocation"], said);
    }
}

#[test]
fn an_old_state_file_is_read_with_the_bits_of_all_of_memory() {
    let directory = directory("windows_old");
    let mut state = with_code(&[0x13]);
    state.set_long(COMPARE, 0);
    state.revoke(START + 8);
    std::fs::write(directory.join("start"), old_text(&state)).unwrap();
    let same = ["run", "--state", "start", "--steps", "0", "--save", "end"];
    assert_eq!(bench_in(&directory, &same).status, 0);
    let saved = std::fs::read_to_string(directory.join("end")).unwrap();
    assert_eq!(saved, text(&state));
    let damaged = old_text(&state).replacen("start 2", "start 3", 1);
    std::fs::write(directory.join("start"), damaged).unwrap();
    assert_eq!(bench_in(&directory, &same).status, 3);
}
