//! What is odd and was not told: a start where nothing is, lost symbols, a board that no run takes, counts that do not add up;
//! and what a trace, a page and a shelf left out.

mod common;

use common::elf::{elf, program, with_symbols, Header, Symbol, EXEC, RISCV};
use common::state::{text, with_code_and_value, LOAD_IT};
use common::words::addi;
use common::{assembled, bench_in, directory, sheet};
use serde_json::{json, Value};
use std::path::{Path, PathBuf};

const LOOP: u32 = 0x0000_006F;
const BOARD: [&str; 3] = [
    "code 20000000 00000100 rx",
    "data 20000100 00000200 rw",
    "console 20000300 00000100 rw",
];

/// A folder with a board and an empty shelf.
fn board(name: &str) -> PathBuf {
    let directory = directory(name);
    std::fs::write(directory.join("board"), sheet(&BOARD)).unwrap();
    std::fs::create_dir(directory.join("shelf")).unwrap();
    directory
}

fn image(directory: &Path, name: &str, code: &str, label: &str) {
    let code = assembled(directory, code);
    std::fs::write(
        directory.join("shelf").join(name),
        [label.as_bytes(), &code].concat(),
    )
    .unwrap();
}

fn label() -> String {
    sheet(&["mine 20000000 00000100 rx"]) + "\n"
}

#[test]
fn a_start_where_nothing_is_loaded_is_told() {
    let directory = board("odd_start");
    let told = "the program starts at 20000040, where nothing is loaded";
    let file = program(0x2000_0000, &[LOOP], &[]);
    // Where the entry is in the header.
    for (entry, odd) in [(0x2000_0000u32, false), (0x2000_0040, true)] {
        let mut file = file.clone();
        file[24..28].copy_from_slice(&entry.to_le_bytes());
        std::fs::write(directory.join("shelf/image"), &file).unwrap();
        let run = bench_in(
            &directory,
            &["run", "--map", "board", "shelf/image", "--json"],
        );
        assert_eq!(run.err.contains(told), odd, "{}", run.err);
        assert_eq!(
            run.json()["notes"],
            json!(odd.then_some(told).into_iter().collect::<Vec<_>>())
        );
        let shelf = bench_in(
            &directory,
            &["shelf", "shelf", "--board", "board", "--json"],
        );
        assert_eq!(shelf.json()["rows"][0]["note"], json!(odd.then_some(told)));
    }
    // A HEX file whose data lies elsewhere than memory's start, and one that says so itself.
    let hex = ":020000042000DA\n:040040006F0000004D\n";
    for (start, status) in [("", 1), (":040000052000004097\n", 0)] {
        let text = format!("{hex}{start}:00000001FF\n");
        std::fs::write(directory.join("hex"), text).unwrap();
        let run = bench_in(&directory, &["run", "hex"]);
        assert_eq!(
            (run.status, run.err.contains("where nothing is loaded")),
            (status, status == 1),
            "{}",
            run.err
        );
    }
    let entry = ["run", "hex", "--entry", "0x20000044"];
    assert!(bench_in(&directory, &entry)
        .err
        .contains("starts at 20000044, where nothing"));
}

#[test]
fn an_elf_file_without_a_section_table_says_that_symbols_are_gone() {
    let directory = directory("odd_sections");
    let header = Header {
        address: 0x2000_0000,
        offset: 84,
        in_file: 4,
        in_memory: 4,
    };
    let bare = elf(1, EXEC, RISCV, &[header], &LOOP.to_le_bytes());
    let told =
        "bench: file: it has no section table, so that its symbols and source lines are gone\n";
    for (file, err) in [(with_symbols(bare.clone(), &[]), ""), (bare, told)] {
        std::fs::write(directory.join("file"), file).unwrap();
        let run = bench_in(&directory, &["run", "file"]);
        assert_eq!((run.status, run.err.as_str()), (0, err));
    }
    // It is told before a symbol is not found.
    let run = bench_in(&directory, &["run", "file", "--break", "main"]);
    assert!(
        run.status == 3 && run.err.starts_with(told) && run.err.contains("no symbol"),
        "{}",
        run.err
    );
}

#[test]
fn a_breakpoint_at_the_entry_stops_there() {
    let directory = directory("odd_break");
    let start = Symbol {
        name: "_start",
        address: 0x2000_0000,
        size: 8,
        section: 1,
    };
    let code = [addi(10, 10, 1), 0xFFDF_F06F];
    std::fs::write(
        directory.join("file"),
        program(0x2000_0000, &code, &[start]),
    )
    .unwrap();
    let run = bench_in(
        &directory,
        &["run", "file", "--break", "_start", "--save", "state"],
    );
    let said = "0 steps retired, 0 trapped. Stopped before the step at 20000000.\n";
    assert!(run.status == 0 && run.out.starts_with(said), "{}", run.out);
    // From the saved state it goes on, and comes by again.
    let again = ["run", "--state", "state", "--break", "0x20000000", "--json"];
    let value = bench_in(&directory, &again).json();
    assert_eq!(
        (&value["end"], &value["retired"]),
        (&json!("break"), &json!(2))
    );
}

#[test]
fn a_board_that_no_run_takes_is_told_at_its_sheet() {
    let directory = directory("odd_board");
    let check = |regions: &[&str]| {
        std::fs::write(directory.join("sheet"), sheet(regions)).unwrap();
        let answer = bench_in(&directory, &["sheet", "check", "sheet"]);
        let value = bench_in(&directory, &["sheet", "check", "sheet", "--json"]).json();
        assert_eq!(answer.status, 0, "{}", answer.err);
        (answer.out, value["refused_as_board"].clone())
    };
    let (out, value) = check(&["code 00000000 00001000 rx", "data 20000000 00001000 rw"]);
    let said = "No run takes it as its board: refused, number 2: ";
    assert!(
        out.contains(said) && out.contains("more than 1,048,576 bytes"),
        "{out}"
    );
    assert!(
        value.as_str().unwrap().starts_with("refused, number 2: "),
        "{value}"
    );
    // It is what the run says.
    std::fs::write(directory.join("image"), LOOP.to_le_bytes()).unwrap();
    let run = bench_in(&directory, &["run", "--map", "sheet", "image"]);
    assert_eq!(
        (run.status, run.err.trim_end()),
        (2, format!("bench: {}", value.as_str().unwrap()).as_str())
    );
    for good in [
        &BOARD[..],
        &["one 20000000 00000fc0 rx", "last 200fffff 00000001 r"],
    ] {
        let (out, value) = check(good);
        assert!(!out.contains("No run") && value.is_null(), "{out}");
    }
    // An image's label need not be a board: so many bytes are no memory.
    assert!(check(&["mine 20000000 00000018 rx"])
        .0
        .contains("No run takes it as its board"));
}

/// The counts of a shelf.
fn counts(directory: &Path, more: &[&str]) -> (Value, String) {
    let shelf = ["shelf", "shelf", "--board", "board", "--steps", "1000"];
    let value = bench_in(directory, &[&shelf[..], more, &["--json"]].concat()).json();
    let text = bench_in(directory, &[&shelf[..], more].concat()).out;
    (value["counts"].clone(), text.lines().last().unwrap().into())
}

#[test]
fn every_image_of_a_shelf_is_counted_once() {
    let directory = board("odd_counts");
    let (ends, traps, runs) = ("cjal 0 0", "ebreak", "addi 10 10 1; cjal 0 -4");
    let breaks = "cspecialrw 2 0 29; lui 5 131072; csetaddr 2 2 5; csw 2 10 0; cjal 0 0";
    for (name, code) in [
        ("ends", ends),
        ("traps", traps),
        ("runs", runs),
        ("breaks", breaks),
    ] {
        image(&directory, name, code, &label());
        image(&directory, &format!("{name}.bare"), code, "");
    }
    image(
        &directory,
        "misfit",
        ends,
        &(sheet(&["mine 20000000 00000100 rwx"]) + "\n"),
    );
    std::fs::write(directory.join("shelf/empty"), "").unwrap();
    let (value, text) = counts(&directory, &[]);
    let said = "10 images: 1 fit and are good; 1 do not fit; 2 break the map; 2 trapped; 2 have not come to their end; \
                1 could not be run; 1 have no label to be judged by.";
    assert_eq!(text, said);
    let sum = |value: &Value| -> u64 {
        let counts = value.as_object().unwrap().iter();
        counts
            .filter(|(name, _)| *name != "images")
            .map(|(_, count)| count.as_u64().unwrap())
            .sum()
    };
    assert_eq!((sum(&value), &value["images"]), (10, &json!(10)));
    // With a handover that some come to, and all of them with the right to write everywhere.
    let handed = ["--handover", "0x20000000", "--never", "code:w"];
    let (value, text) = counts(&directory, &handed);
    assert_eq!((sum(&value), &value["could"]), (10, &json!(8)), "{text}");
}

/// Says Hi and a newline to the console, and one letter more.
const SAYS: &str = "cspecialrw 2 0 29; lui 5 131072; csetaddr 2 2 5; addi 10 0 72; csb 2 10 768; addi 10 0 105; csb 2 10 768; \
                    addi 10 0 10; csb 2 10 768; addi 10 0 33; csb 2 10 768; cjal 0 0";

#[test]
fn a_console_has_lines_of_its_own_in_a_trace() {
    let directory = board("odd_console");
    image(&directory, "image", SAYS, &label());
    let run = ["run", "--map", "board", "shelf/image"];
    let answer = bench_in(&directory, &[&run[..], &["--trace"]].concat());
    let lines: Vec<&str> = answer.out.lines().collect();
    let said: Vec<usize> = (0..lines.len())
        .filter(|at| lines[*at].starts_with("          console   "))
        .collect();
    let told: Vec<&str> = said.iter().map(|at| lines[*at].trim_start()).collect();
    assert_eq!(told, ["console   Hi", "console   !"], "{}", answer.out);
    // After the step that ended the line, and of each other line the number is its step's.
    assert!(
        lines[said[0] - 1].starts_with("       9  20000020"),
        "{}",
        answer.out
    );
    assert!(answer
        .out
        .contains("Console: 4 bytes stored to 20000300.\n"));
    // The same lines without them are the trace without a console.
    let steps = |text: &str| {
        text.lines()
            .filter(|line| line.contains("  2000"))
            .map(str::to_string)
            .collect::<Vec<_>>()
    };
    let without = bench_in(&directory, &["run", "shelf/image", "--trace"]);
    let (with, without) = (steps(&answer.out), steps(&without.out));
    assert_eq!(with[..12], without[..12]);
}

#[test]
fn what_a_page_and_a_row_leave_out_of_a_console_is_counted() {
    let directory = board("odd_console_page");
    let says = "cspecialrw 2 0 29; lui 5 131072; csetaddr 2 2 5; lui 6 20; addi 10 0 120; csb 2 10 768; addi 6 6 -1; bne 6 0 -8; cjal 0 0";
    image(&directory, "image", says, &label());
    let run = [
        "run",
        "--map",
        "board",
        "shelf/image",
        "--report",
        "page.html",
        "--json",
    ];
    let value = bench_in(&directory, &run).json();
    let said = &value["console"];
    assert_eq!(
        (&said["bytes"], &said["kept"]),
        (&json!(81_920), &json!(81_920))
    );
    let page = std::fs::read_to_string(directory.join("page.html")).unwrap();
    assert!(
        page.contains("xxx.. (16,384 bytes more)"),
        "no word on what is left out"
    );
    let shelf = bench_in(
        &directory,
        &["shelf", "shelf", "--board", "board", "--json"],
    )
    .json();
    let row = shelf["rows"][0]["console"].as_str().unwrap().to_string();
    assert!(row.ends_with("xxx.. (80,896 bytes more)"), "{row}");
}

// The handover lies behind a call of the environment, which a handler returns from.
#[test]
fn a_shelf_goes_to_its_handover_by_its_own_terms() {
    let directory = board("odd_handover");
    let calls = "auipcc 5 0; cincaddrimm 5 5 24; cspecialrw 0 5 28; ecall; cjal 0 0; addi 0 0 0; \
                 cspecialrw 6 0 31; cincaddrimm 6 6 4; cspecialrw 0 6 31; mret";
    image(&directory, "image", calls, &label());
    let shelf = [
        "shelf",
        "shelf",
        "--board",
        "board",
        "--handover",
        "0x20000010",
        "--json",
    ];
    let row = |more: &[&str]| {
        bench_in(&directory, &[&shelf[..], more].concat()).json()["rows"][0].clone()
    };
    let missed = row(&[]);
    assert_eq!(missed["kept"], "missed", "{missed}");
    let kept = row(&["--through-traps", "--sweep", "3"]);
    assert_eq!(
        (&kept["kept"], &kept["handover"]),
        (&json!("holds"), &json!(8)),
        "{kept}"
    );
}

#[test]
fn a_reach_that_is_refused_says_so_as_json() {
    let directory = board("odd_reach");
    image(&directory, "image", "cjal 0 0", &label());
    let reach = ["reach", "--map", "board", "shelf/image", "--json"];
    let missed = bench_in(&directory, &[&reach[..], &["--at", "0x20000040"]].concat());
    let reason = missed.json()["refused"]["reason"]
        .as_str()
        .unwrap()
        .to_string();
    assert!(
        missed.status == 3 && missed.err == format!("bench: {reason}\n"),
        "{}",
        missed.err
    );
    let refused = bench_in(
        &directory,
        &[&reach[..], &["--start", "0x20000004"]].concat(),
    );
    assert_eq!(
        (refused.status, &refused.json()["refused"]["number"]),
        (3, &json!(2)),
        "{}",
        refused.err
    );
    // A register that no start may hold, loaded by the run that left the state.
    let state = text(&with_code_and_value(&[LOAD_IT, LOOP]));
    std::fs::write(directory.join("state"), state).unwrap();
    std::fs::write(directory.join("map"), sheet(&["all 20000000 00000040 rwx"])).unwrap();
    let loads = ["run", "--state", "state", "--steps", "1", "--save", "state"];
    assert_eq!(bench_in(&directory, &loads).status, 0);
    let words = ["reach", "--map", "map", "--state", "state", "--json"];
    let unsound = bench_in(&directory, &words);
    assert_eq!(
        (unsound.status, &unsound.json()["refused"]["number"]),
        (3, &json!(8)),
        "{}",
        unsound.err
    );
}
