//! The two editions: which one a run has, what a report, a trace and JSON say of return sentries and of the
//! jumps that do not take them, and state files with and without an edition.

mod common;

use common::state::{text, text_of_version_3, with_code, START};
use common::words::{i, EBREAK};
use common::{bench_in, directory};
use lent::{Capability, State, EXECUTABLE_ROOT, LATER_EDITION};

/// CJALR with its two registers.
fn cjalr(cd: u32, cs1: u32, offset: i32) -> u32 {
    i(offset, cs1, 0, cd, 0x67)
}

/// An executable capability at an offset of memory, of a type.
fn code(offset: u32, kind: u32) -> Capability {
    Capability::tagged(START + offset, EXECUTABLE_ROOT | kind << 22)
}

/// A state of an edition with code at its start, and c1 and c5 of these types at 64.
fn jumping(edition: u32, word: u32, c1: u32, c5: u32) -> State {
    let mut state = with_code(&[word, EBREAK]);
    state.edition = edition;
    state.set(1, code(64, c1));
    state.set(5, code(64, c5));
    state
}

#[test]
fn a_call_and_its_return_in_words() {
    let directory = directory("editions_call");
    // A call by c5, which turns interrupts off; there the return.
    let mut state = jumping(LATER_EDITION, cjalr(1, 5, 0), 0, 2);
    state.write(START + 64, &cjalr(0, 1, 0).to_le_bytes());
    std::fs::write(directory.join("start"), text(&state)).unwrap();
    let run = ["run", "--state", "start", "--trace"];
    let answer = bench_in(&directory, &run);
    let lines: Vec<&str> = answer.out.lines().take(2).collect();
    let said = [
        "       1  20000000  000280e7  cjalr 1 5 0              \
         c1 := 20000004 [00000000, 100000000) (return sentry, interrupts off), PCC := 20000040 [00000000, 100000000)",
        "       2  20000040  00008067  cjalr 0 1 0              PCC := 20000004 [00000000, 100000000)",
    ];
    assert_eq!(lines, said);
    let shown = |line: &str| answer.out.lines().any(|said| said == line);
    let c1 = "  c1         20000004  1    [00000000, 100000000)  GL LG LM LD MC SR EX  return sentry, interrupts off";
    assert!(shown(c1) && shown("  edition later"), "{}", answer.out);
    let json = bench_in(&directory, &["run", "--state", "start", "--json"]).json();
    assert_eq!(json["state"]["edition"], "later");
    let c1 = &json["state"]["registers"][1];
    assert_eq!(c1["type"], "return sentry, interrupts off");
}

#[test]
fn a_jump_that_does_not_take_a_sentry_is_told_which_does() {
    let directory = directory("editions_traps");
    let call = "which is a sentry: only a call takes it, which links c1";
    let back = "which is a sentry: a return takes return sentries alone";
    let only = "which is a return sentry: only a return takes it, through c1 and without a link";
    for (edition, word, c1, c5, said) in [
        (1, cjalr(1, 5, 0), 0, 4, format!("jump by c5, {only}")),
        (1, cjalr(5, 1, 0), 5, 0, format!("jump by c1, {only}")),
        (1, cjalr(0, 1, 0), 1, 0, format!("jump by c1, {back}")),
        (1, cjalr(0, 1, 0), 3, 0, format!("jump by c1, {back}")),
        (1, cjalr(0, 5, 0), 0, 2, format!("jump by c5, {call}")),
        // C.JR c5, and C.JALR c5.
        (1, 0x8282, 0, 2, format!("jump by c5, {call}")),
        (1, 0x9282, 0, 5, format!("jump by c5, {only}")),
        (
            1,
            cjalr(0, 1, 4),
            4,
            0,
            "jump at an offset by c1, which is a return sentry".into(),
        ),
        (
            1,
            cjalr(1, 5, 4),
            0,
            3,
            "jump at an offset by c5, which is a sentry".into(),
        ),
        (
            1,
            cjalr(1, 5, 0),
            0,
            6,
            "jump by c5, which is sealed".into(),
        ),
        (
            0,
            cjalr(0, 1, 0),
            4,
            0,
            "jump by c1, which is a return sentry: the later edition alone has those".into(),
        ),
        (
            0,
            cjalr(0, 5, 2),
            0,
            1,
            "jump at an offset by c5, which is a sentry".into(),
        ),
    ] {
        let state = jumping(edition, word, c1, c5);
        std::fs::write(directory.join("start"), text(&state)).unwrap();
        let answer = bench_in(&directory, &["run", "--state", "start", "--json"]);
        assert_eq!(answer.status, 1, "{}", answer.err);
        assert_eq!(answer.json()["trap"]["cause"], said, "word {word:08x}");
    }
}

#[test]
fn the_edition_is_asked_for_and_saved() {
    let directory = directory("editions_saved");
    // CJAL c1, .+8.
    std::fs::write(directory.join("image"), 0x0080_00EFu32.to_le_bytes()).unwrap();
    for (asked, saved, kind) in [
        (None, "edition 00000000", "sentry, interrupts off"),
        (Some("report"), "edition 00000000", "sentry, interrupts off"),
        (
            Some("later"),
            "edition 00000001",
            "return sentry, interrupts off",
        ),
    ] {
        let run = ["run", "image", "--steps", "1", "--save", "end", "--json"];
        let edition: Vec<&str> = asked.map_or(vec![], |asked| vec!["--edition", asked]);
        let answer = bench_in(&directory, &[&run[..], &edition].concat());
        assert_eq!(answer.status, 0, "{}", answer.err);
        assert_eq!(answer.json()["state"]["registers"][1]["type"], kind);
        let text = std::fs::read_to_string(directory.join("end")).unwrap();
        assert!(text.lines().any(|line| line == saved), "{text}");
        let again = bench_in(&directory, &["explain", "end", "--json"]).json();
        assert_eq!(again["state"]["edition"], asked.unwrap_or("report"));
    }
    let bad = bench_in(&directory, &["run", "image", "--edition", "2"]);
    assert_eq!((bad.status, bad.out.as_str()), (3, ""));
    let both = ["run", "--state", "end", "--edition", "later"];
    assert_eq!(bench_in(&directory, &both).status, 3);
}

#[test]
fn a_state_file_without_an_edition_is_the_reports() {
    let directory = directory("editions_old");
    let state = with_code(&[0x13]);
    std::fs::write(directory.join("start"), text_of_version_3(&state)).unwrap();
    let same = ["run", "--state", "start", "--steps", "0", "--save", "end"];
    assert_eq!(bench_in(&directory, &same).status, 0);
    let saved = std::fs::read_to_string(directory.join("end")).unwrap();
    assert_eq!(saved, text(&state));
}
