//! What an image says to its console, the signature of a run, revocation bits at the start, and that a shelf takes the
//! options of a run.

mod common;

use common::{assembled, bench_in, changed, directory, sheet};
use serde_json::json;
use std::path::PathBuf;

const BOARD: [&str; 3] = [
    "code 20000000 00000100 rx",
    "data 20000100 00000200 rw",
    "console 20000300 00000040 rw",
];
/// Says Hi and a newline to 20000300, by a byte, a half and a word; and stores beside it.
const SAYS: &str = "cspecialrw 2 0 29; lui 5 131072; csetaddr 2 2 5; addi 10 0 72; csb 2 10 768; csb 2 10 769; \
                    addi 10 0 105; csh 2 10 768; addi 10 0 10; csw 2 10 768; csw 2 10 772; cjal 0 0";

fn with_image(name: &str, code: &str) -> (PathBuf, Vec<u8>) {
    let directory = directory(name);
    std::fs::write(directory.join("board"), sheet(&BOARD)).unwrap();
    std::fs::create_dir(directory.join("shelf")).unwrap();
    let label = sheet(&["mine 20000000 00000100 rx"]);
    let bytes = [label.as_bytes(), b"\n", &assembled(&directory, code)].concat();
    std::fs::write(directory.join("shelf").join("image"), &bytes).unwrap();
    (directory, bytes)
}

#[test]
fn a_console_is_shown_as_it_comes_and_kept() {
    let (directory, _) = with_image("console", SAYS);
    let run = ["run", "shelf/image"];
    for more in [&["--map", "board"][..], &["--console", "0x20000300"]] {
        let answer = bench_in(&directory, &[&run[..], more].concat());
        assert_eq!(answer.status, 0, "{}", answer.err);
        let told = answer.out.find("Hi\n").expect("what was said");
        let report = answer.out.find("steps retired").expect("the report");
        assert!(told < report, "{}", answer.out);
        assert!(
            answer
                .out
                .contains("Console: 3 bytes stored to 20000300.\n"),
            "{}",
            answer.out
        );
    }
    let value = bench_in(
        &directory,
        &["run", "shelf/image", "--map", "board", "--json"],
    )
    .json();
    let said = json!({ "address": 0x2000_0300, "bytes": 3, "kept": 3, "text": "Hi\n" });
    assert_eq!(value["console"], said);
    assert_eq!(
        bench_in(&directory, &["run", "shelf/image", "--json"]).json()["console"],
        json!(null)
    );
    let page = [
        "run",
        "shelf/image",
        "--map",
        "board",
        "--report",
        "page.html",
    ];
    assert_eq!(bench_in(&directory, &page).status, 0);
    let page = std::fs::read_to_string(directory.join("page.html")).unwrap();
    assert!(page.contains("<pre>Hi\n</pre>"), "{page}");
    let shelf = bench_in(
        &directory,
        &["shelf", "shelf", "--board", "board", "--json"],
    )
    .json();
    assert_eq!(shelf["rows"][0]["console"], "Hi\n");
}

// The same steps are made, and the same is left, as without someone who listens.
#[test]
fn a_console_changes_nothing_of_a_run() {
    let (directory, _) = with_image("console_same", SAYS);
    let run = |more: &[&str]| {
        let run = ["run", "shelf/image", "--json", "--save", "end"];
        let mut value = bench_in(&directory, &[&run[..], more].concat()).json();
        value["console"] = json!(null);
        (value, std::fs::read(directory.join("end")).unwrap())
    };
    let watch = ["--watch", "0x20000300", "4", "--cover"];
    for more in [
        &[][..],
        &watch,
        &["--steps", "5"],
        &["--steps", "6"],
        &["--break", "0x20000014"],
    ] {
        let heard = run(&[more, &["--console", "0x20000300"]].concat());
        assert_eq!(heard, run(more), "{more:?}");
    }
    let trace = |more: &[&str]| {
        let run = ["run", "shelf/image", "--json", "--trace"];
        bench_in(&directory, &[&run[..], more].concat()).err
    };
    assert_eq!(trace(&["--console", "0x20000300"]), trace(&[]));
}

#[test]
fn a_console_gives_a_terminal_no_orders() {
    let (directory, bytes) = with_image("console_orders", SAYS);
    // One byte of the image: the first letter takes the cursor back.
    let place = bytes.len() - 12 * 4 + 3 * 4 + 3;
    let image = changed(&bytes, place, 0x04, 0x00);
    std::fs::write(directory.join("shelf").join("image"), image).unwrap();
    let answer = bench_in(&directory, &["run", "shelf/image", "--map", "board"]);
    assert!(
        answer.out.contains("\\u{8}i\n") && !answer.out.contains('\x08'),
        "{}",
        answer.out
    );
}

#[test]
fn a_console_is_in_memory() {
    let (directory, _) = with_image("console_outside", SAYS);
    let answer = bench_in(
        &directory,
        &["run", "shelf/image", "--console", "0x30000000"],
    );
    assert_eq!(answer.status, 3);
    assert!(
        answer
            .err
            .contains("--console 30000000: not all inside memory"),
        "{}",
        answer.err
    );
}

#[test]
fn a_signature_has_a_word_a_line() {
    let (directory, _) = with_image("signature", SAYS);
    let run = [
        "run",
        "shelf/image",
        "--signature",
        "0x200002fc",
        "12",
        "signature",
    ];
    assert_eq!(bench_in(&directory, &run).status, 0);
    let text = std::fs::read_to_string(directory.join("signature")).unwrap();
    assert_eq!(text, "00000000\n0000000a\n0000000a\n");
    for (start, length, file, reason) in [
        ("0x200002fe", "4", "other", "no whole words"),
        ("0x20000300", "6", "other", "no whole words"),
        ("0x30000000", "4", "other", "not all inside memory"),
        ("0x20000300", "4", "shelf/image", "it is read"),
        ("0x20000300", "x", "other", "not a decimal number"),
    ] {
        let answer = bench_in(
            &directory,
            &["run", "shelf/image", "--signature", start, length, file],
        );
        assert_eq!(
            (answer.status, answer.out.as_str()),
            (3, ""),
            "{}",
            answer.err
        );
        assert!(answer.err.contains(reason), "{}", answer.err);
        assert!(!directory.join("other").exists());
    }
    let twice = [
        "run",
        "shelf/image",
        "--save",
        "x",
        "--signature",
        "0x20000300",
        "4",
        "x",
    ];
    assert_eq!(bench_in(&directory, &twice).status, 3);
}

/// Stores a capability for 20000240 and loads it; c10 is its tag.
const LOADS: &str = "cspecialrw 2 0 29; lui 5 131072; csetaddr 2 2 5; addi 6 5 576; csetaddr 3 2 6; csetboundsimm 3 3 16; \
                     csc 2 3 512; clc 4 2 512; cgettag 10 4; cjal 0 0";

#[test]
fn revocation_bits_are_set_at_the_start() {
    let (directory, _) = with_image("revoke", LOADS);
    let run = ["run", "shelf/image", "--map", "board", "--exit-value"];
    let shelf = ["shelf", "shelf", "--board", "board", "--exit-value"];
    let revoked = ["--revoke", "0x20000240", "8"];
    let beside = ["--revoke", "0x20000248", "8", "--revoke", "0x20000238", "8"];
    for (more, tag) in [(&[][..], "a0=1"), (&revoked, "a0=0"), (&beside, "a0=1")] {
        for command in [&run[..], &shelf] {
            let answer = bench_in(&directory, &[command, &[tag], more].concat());
            assert_eq!(answer.status, 0, "{more:?} {}", answer.out);
        }
    }
    for (start, length) in [
        ("0x20000000", "0x401"),
        ("0x20000244", "8"),
        ("0x20000340", "8"),
    ] {
        let bad = [
            "run",
            "shelf/image",
            "--map",
            "board",
            "--revoke",
            start,
            length,
        ];
        let answer = bench_in(&directory, &bad);
        assert_eq!(answer.status, 3, "{start} {}", answer.out);
        assert!(answer.err.contains("--revoke 0x"), "{}", answer.err);
    }
}

/// The options that a command's help names.
fn options(command: &str) -> Vec<String> {
    let directory = directory(&format!("options_{command}"));
    let help = bench_in(&directory, &[command, "--help"]).out;
    let words = help
        .split_whitespace()
        .filter(|word| word.starts_with("--"));
    words.map(str::to_string).collect()
}

#[test]
fn a_shelf_takes_the_options_of_a_run() {
    let (run, shelf) = (options("run"), options("shelf"));
    for option in [
        "--format",
        "--start",
        "--size",
        "--window",
        "--revoke",
        "--stack",
        "--time",
        "--compare",
        "--edition",
        "--engine",
        "--entry",
        "--steps",
        "--sweep",
        "--watch",
        "--through-traps",
        "--exit-at",
        "--may-run-on",
        "--exit-value",
        "--expect",
        "--console",
        "--map-stores",
    ] {
        assert!(run.iter().any(|known| known == option), "{option}");
        assert!(shelf.iter().any(|known| known == option), "{option}");
    }
}

#[test]
fn a_shelf_runs_by_them() {
    let (directory, _) = with_image("shelf_options", SAYS);
    let shelf = |more: &[&str]| {
        let shelf = ["shelf", "shelf", "--board", "board", "--json"];
        let answer = bench_in(&directory, &[&shelf[..], more].concat());
        answer.json()["rows"][0].clone()
    };
    let row = shelf(&["--watch", "0x20000300", "1", "--watch", "0x20000200", "4"]);
    assert_eq!(
        (&row["watch"], &row["run"]),
        (&json!("3 0"), &json!("ended"))
    );
    let row = shelf(&["--exit-at", "0x20000010"]);
    assert_eq!((&row["retired"], &row["run"]), (&json!(4), &json!("ended")));
    let row = shelf(&["--entry", "0x20000028"]);
    assert_eq!(
        (&row["run"], &row["why"]),
        (&json!("trapped"), &json!("store by c2, which has no tag"))
    );
    let row = shelf(&[
        "--edition",
        "later",
        "--window",
        "0x100",
        "0x40",
        "--sweep",
        "2",
    ]);
    assert_eq!(
        (&row["retired"], &row["run"]),
        (&json!(11), &json!("ended"))
    );
}

// A result that was kept stands for the same options alone.
#[test]
fn kept_results_are_of_the_same_options() {
    let (directory, _) = with_image("shelf_kept", SAYS);
    let shelf = |more: &[&str]| {
        let shelf = ["shelf", "shelf", "--board", "board", "--results", "results"];
        bench_in(&directory, &[&shelf[..], more].concat()).err
    };
    assert_eq!(shelf(&[]), "");
    for more in [&[][..], &["--engine", "plain"]] {
        assert_eq!(shelf(more), "bench: 1 of 1 results were at hand\n");
    }
    for more in [
        &["--exit-value", "a0=1"][..],
        &["--map-stores", "off"],
        &["--edition", "later"],
        &["--may-run-on"],
    ] {
        assert_eq!(shelf(more), "", "{more:?}");
    }
}

// What may be given once is refused a second time, and is not left out.
#[test]
fn options_that_may_be_given_once_are_refused_a_second_time() {
    let (directory, _) = with_image("given_twice", SAYS);
    let run = ["run", "shelf/image", "--map", "board"];
    let shelf = ["shelf", "shelf", "--board", "board"];
    let first = ["--signature", "0x20000300", "4", "a"];
    let second = ["--signature", "0x20000300", "4", "b"];
    assert_eq!(bench_in(&directory, &[&run[..], &first].concat()).status, 0);
    let mut commands = vec![[&run[..], &first, &second].concat()];
    for option in ["--window", "--stack"] {
        let once = [option, "0", "64"];
        for command in [&run[..], &shelf] {
            assert_eq!(bench_in(&directory, &[command, &once].concat()).status, 0);
            commands.push([command, &once, &once].concat());
        }
    }
    for command in commands {
        let answer = bench_in(&directory, &command);
        assert_eq!((answer.status, answer.out.as_str()), (3, ""), "{command:?}");
        assert!(
            answer.err.contains("cannot be used multiple times"),
            "{}",
            answer.err
        );
    }
    assert!(!directory.join("b").exists());
}

#[test]
fn what_no_image_can_meet_is_bad_usage_of_a_shelf() {
    let (directory, _) = with_image("shelf_usage", SAYS);
    let shelf = ["shelf", "shelf", "--board", "board", "--results", "results"];
    let watch = ["--watch", "0", "4"].repeat(3);
    for (more, status, said) in [
        (&watch[..], 3, "--watch is given at most twice"),
        (
            &["--revoke", "0x20000244", "8"],
            3,
            "--revoke 0x20000244 8: a granule",
        ),
        (
            &["--revoke", "0x20000340", "8"],
            3,
            "not all inside the window",
        ),
        (
            &["--console", "0x30000000"],
            3,
            "--console 30000000: not all inside memory",
        ),
        (
            &["--expect", "0x30000000=00"],
            3,
            "--expect 30000000: not all inside memory",
        ),
        (&["--exit-at", "0x20000001"], 3, "odd"),
        (
            &["--stack", "0xffffffff", "16"],
            3,
            "the stack ends past 2^32",
        ),
        (&["--size", "100"], 2, "refused, number 2"),
    ] {
        let answer = bench_in(&directory, &[&shelf[..], more].concat());
        assert_eq!(
            (answer.status, answer.out.as_str()),
            (status, ""),
            "{more:?}"
        );
        assert!(answer.err.contains(said), "{}", answer.err);
        assert!(!directory.join("results").exists());
    }
    // A symbol is an image's own: each has a row that says whether it has it.
    for option in ["--console", "--exit-at"] {
        let answer = bench_in(&directory, &[&shelf[..], &[option, "somewhere"]].concat());
        assert_eq!(answer.status, 1, "{}", answer.err);
        assert!(
            answer.out.contains("no symbol or line of an image"),
            "{}",
            answer.out
        );
    }
}
