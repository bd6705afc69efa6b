//! How a run ends, told apart: at its end, at a trap that nothing handles, or with its steps used up; and an image's own word
//! on whether it succeeded. Each verdict is changed by one byte of the image.

mod common;

use common::elf::{program, Symbol};
use common::{assembled, bench_in, changed, directory, examples, sheet, SMALL};
use serde_json::json;
use std::path::{Path, PathBuf};

const BOARD: [&str; 2] = ["code 20000000 00000100 rx", "data 20000100 00000f00 rw"];

/// A folder with the board's sheet, and an image in a shelf of its own.
fn with_image(name: &str, code: &str) -> (PathBuf, Vec<u8>) {
    let directory = directory(name);
    std::fs::write(directory.join("board"), sheet(&BOARD)).unwrap();
    std::fs::create_dir(directory.join("shelf")).unwrap();
    let bytes = assembled(&directory, code);
    put(&directory, &bytes);
    (directory, bytes)
}

fn put(directory: &Path, bytes: &[u8]) {
    let label = sheet(&["mine 20000000 00000100 rx"]);
    let bytes = [label.as_bytes(), b"\n", bytes].concat();
    std::fs::write(directory.join("shelf").join("one"), bytes).unwrap();
}

/// The status, the verdict and the end of a run, and the status of the shelf, with some options more.
fn judged(directory: &Path, more: &[&str]) -> (i32, String, String, i32) {
    let run = ["run", "--map", "board", "shelf/one", "--json"];
    let answer = bench_in(directory, &[&run[..], more].concat());
    let value = answer.json();
    let shelf = ["shelf", "shelf", "--board", "board"];
    let shelf = bench_in(directory, &[&shelf[..], more].concat());
    let word = |name: &str| value[name].as_str().unwrap_or_default().to_string();
    (answer.status, word("verdict"), word("end"), shelf.status)
}

fn said(run: i32, verdict: &str, end: &str, shelf: i32) -> (i32, String, String, i32) {
    (run, verdict.into(), end.into(), shelf)
}

/// The options of a run whose end is at an address.
fn at(address: &str) -> [&str; 4] {
    ["--steps", "1000", "--exit-at", address]
}

/// What is said of a run whose end is there.
fn ends_at(directory: &Path, address: &str, expected: (i32, String, String, i32)) {
    assert_eq!(judged(directory, &at(address)), expected, "{address}");
}

/// Counts up, and comes to its end at once; with c0 in the place of the second c10 of its branch, it counts on.
const COUNTS: &str = "addi 10 10 1; bne 10 10 -4; cjal 0 0";

#[test]
fn an_image_that_never_ends_is_not_good_on_a_shelf() {
    let (directory, bytes) = with_image("ends_running", COUNTS);
    let steps = ["--steps", "1000"];
    assert_eq!(judged(&directory, &steps), said(0, "good", "still", 0));
    put(&directory, &changed(&bytes, 6, 0xA5, 0x05));
    assert_eq!(judged(&directory, &steps), said(0, "running", "steps", 5));
    let on = [&steps[..], &["--may-run-on"]].concat();
    assert_eq!(judged(&directory, &on), said(0, "good", "steps", 0));
    let shelf = ["shelf", "shelf", "--board", "board", "--steps", "1000"];
    let answer = bench_in(&directory, &shelf);
    let count = "1 image: 0 fit and are good; 1 have not come to their end.\n";
    assert!(answer.out.ends_with(count), "{}", answer.out);
    let painted = bench_in(&directory, &[&shelf[..], &["--color", "always"]].concat());
    assert!(
        painted.out.contains("\x1b[33m  running  \x1b[0m"),
        "{}",
        painted.out
    );
    let value = bench_in(&directory, &[&shelf[..], &["--json"]].concat()).json();
    assert_eq!(
        (&value["counts"]["running"], &value["counts"]["good"]),
        (&json!(1), &json!(0))
    );
    // With anything else amiss the status is 1.
    std::fs::write(directory.join("shelf").join("other"), b"region\tx\n\n").unwrap();
    assert_eq!(bench_in(&directory, &shelf).status, 1);
}

/// The same, and then on from its start for ever.
const COMES_BY: &str = "addi 10 10 1; bne 10 10 -4; addi 11 0 1; cjal 0 -12";

#[test]
fn a_program_ends_where_its_end_is_named() {
    let (directory, bytes) = with_image("ends_named", COMES_BY);
    ends_at(&directory, "0x20000008", said(0, "good", "exit", 0));
    ends_at(&directory, "0x20000000", said(0, "good", "exit", 0));
    ends_at(&directory, "0x20000010", said(5, "running", "steps", 5));
    // With the steps just used up it is there too.
    let exact = [
        "run",
        "--map",
        "board",
        "shelf/one",
        "--steps",
        "2",
        "--exit-at",
        "0x20000008",
        "--json",
    ];
    let value = bench_in(&directory, &exact).json();
    assert_eq!(
        (&value["end"], &value["retired"]),
        (&json!("exit"), &json!(2))
    );
    for (place, reason) in [("0x20000001", "odd"), ("nowhere", "no symbol or line")] {
        let run = ["run", "--map", "board", "shelf/one", "--exit-at", place];
        let answer = bench_in(&directory, &run);
        assert_eq!(answer.status, 3);
        assert!(answer.err.contains(reason), "{}", answer.err);
    }
    put(&directory, &changed(&bytes, 6, 0xA5, 0x05));
    ends_at(&directory, "0x20000008", said(5, "running", "steps", 5));
}

#[test]
fn an_end_may_be_named_by_a_symbol() {
    let directory = directory("ends_symbol");
    let done = Symbol {
        name: "done",
        address: 0x2000_0004,
        size: 0,
        section: 1,
    };
    // addi c10, c10, 1; jal c0, -4
    let code = [0x0015_0513, 0xFFDF_F06F];
    std::fs::write(
        directory.join("image"),
        program(0x2000_0000, &code, &[done]),
    )
    .unwrap();
    let run = [
        "run",
        "image",
        "--exit-at",
        "done",
        "--exit-value",
        "a0=1",
        "--expect",
        "done=6ff0dfff",
        "--json",
    ];
    let answer = bench_in(&directory, &run);
    assert_eq!(answer.status, 0, "{}", answer.err);
    assert_eq!(
        (&answer.json()["retired"], &answer.json()["end"]),
        (&json!(1), &json!("exit"))
    );
}

#[test]
fn an_images_own_word_is_part_of_the_verdict() {
    let code =
        "cspecialrw 2 0 29; lui 5 131072; csetaddr 2 2 5; addi 10 0 42; csw 2 10 512; cjal 0 0";
    let (directory, bytes) = with_image("ends_value", code);
    let value = ["--exit-value", "c10=42", "--exit-value", "x5=0x20000000"];
    let memory = [
        "--expect",
        "0x20000200=2a000000",
        "--expect",
        "0x20000204=00",
    ];
    for more in [&value[..], &memory] {
        assert_eq!(judged(&directory, more), said(0, "good", "still", 0));
    }
    // One byte of the image: it is 43.
    put(&directory, &changed(&bytes, 14, 0xA0, 0xB0));
    for (more, told) in [
        (&value[..], "c10 is 0000002b, and 0000002a was expected"),
        (
            &memory,
            "memory at 20000200 is 2b000000, and 2a000000 was expected",
        ),
    ] {
        assert_eq!(judged(&directory, more), said(1, "wrong", "still", 1));
        let run = ["run", "--map", "board", "shelf/one"];
        let answer = bench_in(&directory, &[&run[..], more].concat());
        assert!(
            answer.out.contains(&format!("Expected: {told}.\n")),
            "{}",
            answer.out
        );
        let shelf = bench_in(
            &directory,
            &[&["shelf", "shelf", "--board", "board"][..], more].concat(),
        );
        assert!(
            shelf.out.contains("  wrong  ") && shelf.out.contains(told),
            "{}",
            shelf.out
        );
        assert!(
            shelf.out.ends_with("1 did not leave what was expected.\n"),
            "{}",
            shelf.out
        );
    }
    for bad in [
        ["--exit-value", "q=1"],
        ["--expect", "0x20000200=0"],
        ["--expect", "0x30000000=00"],
    ] {
        let run = ["run", "--map", "board", "shelf/one"];
        assert_eq!(
            bench_in(&directory, &[&run[..], &bad].concat()).status,
            3,
            "{bad:?}"
        );
    }
}

/// A call of the environment, which the handler returns from; the end after it. Its handler is set by the third word.
const CALLS: &str =
    "auipcc 5 0; cincaddrimm 5 5 24; cspecialrw 0 5 28; ecall; cjal 0 0; addi 0 0 0; \
                     cspecialrw 6 0 31; cincaddrimm 6 6 4; cspecialrw 0 6 31; mret";

#[test]
fn a_run_through_handled_traps_is_good_and_through_others_is_not() {
    let (directory, bytes) = with_image("ends_traps", CALLS);
    let through = ["--through-traps", "--steps", "1000"];
    assert_eq!(judged(&directory, &[]), said(1, "trapped", "trap", 1));
    assert_eq!(judged(&directory, &through), said(0, "good", "still", 0));
    // One byte of the image: another register than MTCC is set, so that nothing handles the trap.
    put(&directory, &changed(&bytes, 10, 0xC2, 0xD2));
    assert_eq!(judged(&directory, &through), said(1, "trapped", "stuck", 1));
    let on = [&through[..], &["--may-run-on"]].concat();
    assert_eq!(judged(&directory, &on), said(1, "trapped", "stuck", 1));
    let answer = bench_in(
        &directory,
        &["run", "--map", "board", "shelf/one", "--through-traps"],
    );
    let told = "Nothing handles the trap: every further step traps, at 00000000.\n";
    assert!(answer.out.contains(told), "{}", answer.out);
}

#[test]
fn a_handled_tick_does_not_make_a_run_bad() {
    let code = "auipcc 5 0; cincaddrimm 5 5 28; cspecialrw 0 5 28; csrrwi 0 768 8; addi 10 10 1; addi 10 10 1; cjal 0 0; \
                addi 7 0 128; csrrc 0 7 768; mret";
    let (directory, _) = with_image("ends_tick", code);
    let tick = ["--compare", "5", "--steps", "1000"];
    assert_eq!(judged(&directory, &tick), said(1, "trapped", "trap", 1));
    let through = [&tick[..], &["--through-traps", "--exit-value", "a0=2"]].concat();
    assert_eq!(judged(&directory, &through), said(0, "good", "still", 0));
}

/// What a shelf says of its one image, and the head of its page.
fn shelved(directory: &Path, more: &[&str]) -> (serde_json::Value, String) {
    let shelf = [
        "shelf", "shelf", "--board", "board", "--report", "pages", "--json",
    ];
    let row = bench_in(directory, &[&shelf[..], more].concat()).json()["rows"][0].clone();
    let pages = std::fs::read_dir(directory.join("pages")).unwrap();
    let own = pages.map(|entry| entry.unwrap().path());
    let own = own.filter(|path| {
        path.file_name()
            .unwrap()
            .to_str()
            .unwrap()
            .starts_with("one-")
    });
    let text = std::fs::read_to_string(own.last().expect("its page")).unwrap();
    (row, text)
}

// The board's own handler is the demonstration's: a jump to itself.
#[test]
fn a_trap_of_the_demonstration_is_not_handled_by_a_loop() {
    let run = [&SMALL[..], &["--through-traps"]].concat();
    let answer = bench_in(&examples(), &run);
    assert_eq!(answer.status, 1, "{}", answer.out);
    let told = "1 trapped. Nothing handles the trap: the handler jumps to itself at ";
    assert!(answer.out.contains(told), "{}", answer.out);
    let value = bench_in(
        &examples(),
        &[&run[..], &["--json", "--may-run-on"]].concat(),
    )
    .json();
    assert_eq!(
        (&value["verdict"], &value["end"], &value["trap"]["gone_on"]),
        (&json!("trapped"), &json!("unhandled"), &json!(false))
    );
}

/// A call of the environment, whose handler is the jump to itself behind it; by one byte of the second word, the word after that.
const LOOPS: &str =
    "auipcc 5 0; cincaddrimm 5 5 16; cspecialrw 0 5 28; ecall; cjal 0 0; addi 0 0 0; cjal 0 0";

#[test]
fn a_handler_that_loops_handles_nothing() {
    let (directory, bytes) = with_image("ends_unhandled", LOOPS);
    let through = ["--through-traps", "--steps", "1000"];
    assert_eq!(
        judged(&directory, &through),
        said(1, "trapped", "unhandled", 1)
    );
    let (row, page) = shelved(&directory, &through);
    let why = "environment call (ECALL); nothing handles the trap: the handler jumps to itself at 20000010";
    assert_eq!((&row["run"], &row["why"]), (&json!("trapped"), &json!(why)));
    let line = "1 trapped. Nothing handles the trap: the handler jumps to itself at 20000010.";
    assert!(
        page.contains("It traps, and nothing handles it.") && page.contains(line),
        "{page}"
    );
    // One byte: the handler does something before it loops, which is not seen; an end that is named tells it.
    put(&directory, &changed(&bytes, 6, 0x02, 0x42));
    assert_eq!(judged(&directory, &through), said(0, "good", "still", 0));
    let named = [&through[..], &["--exit-at", "0x20000010"]].concat();
    assert_eq!(judged(&directory, &named), said(5, "running", "astray", 5));
}

#[test]
fn a_jump_to_itself_is_no_end_where_another_is_named() {
    let (directory, _) = with_image(
        "ends_astray",
        "bne 10 10 8; addi 11 0 1; cjal 0 0; cjal 0 0",
    );
    ends_at(&directory, "0x20000008", said(0, "good", "exit", 0));
    ends_at(&directory, "0x2000000c", said(5, "running", "astray", 5));
    // That it may run on does not make it good: it runs nowhere.
    let on = [&at("0x2000000c")[..], &["--may-run-on"]].concat();
    assert_eq!(judged(&directory, &on), said(5, "running", "astray", 5));
    let run = ["run", "--map", "board", "shelf/one"];
    let answer = bench_in(&directory, &[&run[..], &at("0x2000000c")].concat());
    let told = "The program has not come to its end: it jumps to itself at 20000008.\n";
    assert!(answer.out.contains(told), "{}", answer.out);
    let (row, page) = shelved(&directory, &at("0x2000000c"));
    let why = "the program has not come to its end: it jumps to itself at 20000008";
    assert_eq!((&row["run"], &row["why"]), (&json!("running"), &json!(why)));
    assert!(
        page.contains("It ran without a trap, and has not ended."),
        "{page}"
    );
    // Without an end that is named it is one.
    assert_eq!(
        judged(&directory, &["--steps", "1000"]),
        said(0, "good", "still", 0)
    );
}

#[test]
fn what_is_expected_at_the_end_needs_an_end() {
    let (directory, bytes) = with_image("ends_expected", COUNTS);
    put(&directory, &changed(&bytes, 6, 0xA5, 0x05));
    for expected in [["--exit-value", "a0=500"], ["--expect", "0x20000000=13"]] {
        let more = [&["--steps", "1000"][..], &expected].concat();
        assert_eq!(judged(&directory, &more), said(5, "running", "steps", 5));
        let on = [&more[..], &["--may-run-on"]].concat();
        assert_eq!(judged(&directory, &on), said(0, "good", "steps", 0));
    }
    let wrong = ["--steps", "1000", "--exit-value", "a0=1"];
    assert_eq!(judged(&directory, &wrong), said(1, "wrong", "steps", 1));
}

// The handler returns behind the call, and the program goes back to it.
#[test]
fn run_and_shelf_agree_on_traps_before_an_end_that_is_not_come_to() {
    let calls = CALLS.replacen("cjal 0 0; addi 0 0 0", "cjal 0 -4; cjal 0 0", 1);
    let (directory, _) = with_image("ends_agree", &calls);
    let through = ["--through-traps", "--steps", "1001"];
    assert_eq!(judged(&directory, &through), said(1, "running", "steps", 5));
    let named = [&through[..], &["--exit-at", "0x20000014"]].concat();
    assert_eq!(judged(&directory, &named), said(5, "running", "steps", 5));
}

#[test]
fn an_image_that_waits_for_its_timer_has_not_ended() {
    let (directory, bytes) = with_image("ends_waits", "csrrwi 0 768 8; cjal 0 0");
    let tick = ["--compare", "5000", "--steps", "1000"];
    assert_eq!(judged(&directory, &tick), said(0, "running", "waits", 5));
    let on = [&tick[..], &["--may-run-on"]].concat();
    assert_eq!(judged(&directory, &on), said(0, "good", "waits", 0));
    let (row, _) = shelved(&directory, &tick);
    let why = "the program waits: it jumps to itself at 20000004, and the timer would interrupt it in 4,999 steps, \
               which is more than were left";
    assert_eq!((&row["run"], &row["why"]), (&json!("running"), &json!(why)));
    // Nobody has set the timer, or one byte: interrupts are off.
    assert_eq!(judged(&directory, &[]), said(0, "good", "still", 0));
    put(&directory, &changed(&bytes, 2, 0x04, 0x00));
    assert_eq!(judged(&directory, &tick), said(0, "good", "still", 0));
}

// A program that clears mcause and mtval in its handler leaves no trap to tell, and it is counted nevertheless.
#[test]
fn a_page_says_traps_by_their_count() {
    let code = "auipcc 5 0; cincaddrimm 5 5 24; cspecialrw 0 5 28; ecall; csrrw 0 0 834; cjal 0 0; \
                cspecialrw 6 0 31; cincaddrimm 6 6 4; cspecialrw 0 6 31; csrrw 0 0 834; csrrw 0 0 835; mret";
    let (directory, _) = with_image("ends_page", code);
    let through = ["--through-traps", "--steps", "1000"];
    assert_eq!(judged(&directory, &through), said(0, "good", "still", 0));
    let run = ["run", "--map", "board", "shelf/one", "--json"];
    let value = bench_in(&directory, &[&run[..], &through].concat()).json();
    assert_eq!(
        (&value["trapped"], &value["trap"]),
        (&json!(1), &json!(null))
    );
    let (_, page) = shelved(&directory, &through);
    assert!(page.contains("It ran to its end, through traps."), "{page}");
}

/// What a run from a state comes to: its status, verdict, end and trap.
fn from_state(directory: &Path, state: &str) -> (i32, serde_json::Value) {
    let run = ["run", "--state", state, "--steps", "1000", "--json"];
    let answer = bench_in(directory, &run);
    let value = answer.json();
    let told = json!([value["verdict"], value["end"], value["trap"]["cause"]]);
    (answer.status, told)
}

// The state was saved where the trap left it, or after more steps of its handler; one byte earlier the program ends well.
#[test]
fn a_state_that_stands_in_its_handler_has_not_ended() {
    let (directory, bytes) = with_image("ends_saved", LOOPS);
    let run = ["run", "--map", "board", "shelf/one", "--save", "state"];
    let trapped = (
        1,
        json!(["trapped", "unhandled", "environment call (ECALL)"]),
    );
    for more in [&[][..], &["--through-traps"]] {
        assert_eq!(bench_in(&directory, &[&run[..], more].concat()).status, 1);
        assert_eq!(from_state(&directory, "state"), trapped);
    }
    // The third word jumps to itself, without a trap.
    let mut ends = bytes.clone();
    ends[12..16].copy_from_slice(&0x6Fu32.to_le_bytes());
    put(&directory, &ends);
    assert_eq!(bench_in(&directory, &run).status, 0);
    assert_eq!(
        from_state(&directory, "state"),
        (0, json!(["good", "still", null]))
    );
}

/// A call of the environment, whose handler does something and then traps itself; by one byte it returns instead.
const TRAPS_AGAIN: &str =
    "auipcc 5 0; cincaddrimm 5 5 20; cspecialrw 0 5 28; ecall; cjal 0 -4; addi 0 0 0; ebreak";

// A handler that never comes back handles nothing, however long the program may run.
#[test]
fn a_handler_that_traps_for_ever_handles_nothing() {
    let (directory, bytes) = with_image("ends_again", TRAPS_AGAIN);
    let on = ["--through-traps", "--may-run-on", "--steps", "1001"];
    assert_eq!(judged(&directory, &on), said(1, "trapped", "stuck", 1));
    let run = ["run", "--map", "board", "shelf/one"];
    let answer = bench_in(&directory, &[&run[..], &on].concat());
    let told = "Nothing handles the trap: 2 steps from 20000018 on come again for ever, with it among them.\n";
    assert!(answer.out.contains(told), "{}", answer.out);
    // An MRET: the call is made again and again, by a program that runs on.
    let mut returns = bytes.clone();
    returns[24..28].copy_from_slice(&0x3020_0073u32.to_le_bytes());
    put(&directory, &returns);
    assert_eq!(judged(&directory, &on), said(0, "good", "steps", 0));
}
