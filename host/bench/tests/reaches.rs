//! What any run from a handover on may write, read and execute: the demonstration's boards, saved states, what is asked of
//! them, pages, shelves and messages.

mod common;

use common::elf::{self, Symbol};
use common::state::{text, with_code, with_code_and_value, LOW_ABOVE_HIGH, START};
use common::words::{addi, EBREAK};
use common::{bench_in, directory, examples, golden, Answer};
use lent::{Capability, State, MEMORY_ROOT};
use serde_json::{json, Value};
use std::fs;

const SHEET: &str = "region\tcode\t20000000\t00000040\trx\nregion\tdata\t20000080\t00000080\trw\n";

/// The demonstration's image on the small board with one of the two starts.
fn on_small(start: &str, further: &[&str]) -> Answer {
    let words = [
        "reach",
        "--map",
        "interlock_small.map",
        start,
        "interlock_image.hex",
    ];
    bench_in(&examples(), &[&words[..], further].concat())
}

/// CJAL c0, .+0 and CJAL c0, .-4.
const ITSELF: u32 = 0x0000_006F;
const BACK: u32 = 0xFFDF_F06F;

const CAREFUL: &str = "interlock_small.hex";
const CARELESS: &str = "interlock_careless.hex";
const HANDOVER: [&str; 2] = ["--at", "0x20000100"];

#[test]
fn the_demonstration_with_a_careful_start_a_careless_one_and_none() {
    let asked = [&HANDOVER[..], &["--never", "interlock:w"]].concat();
    let answers = [
        on_small(CAREFUL, &asked),
        on_small(CARELESS, &asked),
        on_small(CAREFUL, &[]),
    ];
    golden("reaches", &answers.map(|answer| answer.text()).join("\n"));
}

/// The small board with its service keys, by one of the two starts; the keys may stay away.
fn with_keys(start: &str, further: &[&str]) -> Answer {
    let words = [
        "reach",
        "--map",
        "interlock_keys.map",
        start,
        "interlock_image.hex",
        "interlock_keys.hex",
    ];
    bench_in(&examples(), &[&words[..], &HANDOVER, further].concat())
}

#[test]
fn keys_that_the_careful_start_hides_and_the_careless_one_shows() {
    let asked = ["--never", "keys:rw"];
    let answers = [CAREFUL, CARELESS].map(|start| with_keys(start, &asked).text());
    golden("reach_keys", &answers.join("\n"));
}

/// What is never read makes no difference: the same report with the keys and with zeros in their place.
#[test]
fn a_run_tells_nothing_of_what_it_never_reads() {
    let run = |further: &[&str]| {
        let words = ["run", "--map", "interlock_keys.map", CAREFUL];
        bench_in(
            &examples(),
            &[&words[..], &["interlock_image.hex"], further].concat(),
        )
    };
    let (with, without) = (run(&["interlock_keys.hex"]), run(&[]));
    assert_eq!((with.status, &with.out), (without.status, &without.out));
    assert!(with.out.contains("trapped"), "{}", with.text());
}

#[test]
fn what_is_asked_for_decides_the_status() {
    let status = |start: &str, nevers: &[&str]| {
        let nevers = nevers.iter().flat_map(|never| ["--never", never]);
        let words: Vec<&str> = HANDOVER.into_iter().chain(nevers).collect();
        on_small(start, &words).status
    };
    assert_eq!(status(CAREFUL, &["interlock:w", "boot:w", "image:w"]), 0);
    assert_eq!(
        status(CAREFUL, &["interlock:xw", "stack:x", "holes:rwx"]),
        0
    );
    assert_eq!(status(CAREFUL, &["interlock:w", "stack:w"]), 1);
    assert_eq!(status(CAREFUL, &["interlock:wr"]), 1);
    assert_eq!(status(CARELESS, &["interlock:w"]), 1);
    assert_eq!(status(CARELESS, &[]), 0);
    let keys = |start: &str, never: &str| with_keys(start, &["--never", never]).status;
    assert_eq!((keys(CAREFUL, "keys:r"), keys(CARELESS, "keys:r")), (0, 1));
    assert_eq!(
        (keys(CAREFUL, "keys:rwx"), keys(CARELESS, "keys:x")),
        (0, 1)
    );
}

#[test]
fn the_same_as_json() {
    let asked = [&HANDOVER[..], &["--json", "--never", "interlock:w"]].concat();
    let answer = on_small(CARELESS, &asked);
    let value = answer.json();
    assert_eq!((answer.status, answer.err.as_str()), (1, ""));
    assert_eq!(
        (&value["at"], &value["steps"]),
        (&json!(0x2000_0100), &json!(26))
    );
    assert_eq!(
        value["nevers"],
        json!([{ "never": "interlock:w", "holds": false }])
    );
    assert_eq!(value["holds"], false);
    let row = &value["rows"][2];
    assert_eq!(
        (&row["name"], &row["rights"]),
        (&json!("interlock"), &json!("rw"))
    );
    assert_eq!(
        (&row["start"], &row["length"]),
        (&json!(0x2000_0400), &json!(128))
    );
    let written = &row["written"];
    assert_eq!(
        (&written["all"], &written["by"][0]["name"]),
        (&json!(1), &json!("MTDC"))
    );
    assert_eq!(
        written["by"][0]["bounds"],
        json!({ "low": 0, "high": 1u64 << 32 })
    );
    assert_eq!(
        (
            &row["read"]["all"],
            row["read"]["by"].as_array().map(Vec::len)
        ),
        (&json!(4), Some(3))
    );
}

#[test]
fn json_tells_what_is_isolated_and_of_which_granules() {
    let rows = |start: &str| with_keys(start, &["--json"]).json()["rows"].clone();
    let (careful, careless) = (rows(CAREFUL), rows(CARELESS));
    let isolated = |rows: &Value| -> Vec<bool> {
        let rows = rows.as_array().expect("rows").iter();
        rows.map(|row| row["isolated"] == true).collect()
    };
    assert_eq!(isolated(&careful), [false, false, false, false, true]);
    assert_eq!(isolated(&careless), [false; 5]);
    let keys = &careful[4];
    assert_eq!(
        (&keys["name"], &keys["read"]["all"]),
        (&json!("keys"), &json!(0))
    );
    let granules = json!({ "start": 0x2000_0800, "length": 64 });
    assert_eq!(keys["granules"], granules);
    assert_eq!(careless[4]["read"]["all"], 3);
}

/// A region that ends inside a granule, on the page and in the table.
#[test]
fn a_region_that_cuts_a_granule_is_told_so() {
    let directory = saved("reach_rounded", &with_code(&[EBREAK]));
    let sheet = SHEET.replace("00000080\trw", "0000007c\trw");
    fs::write(directory.join("map"), sheet).expect("a sheet");
    let said = bench_in(
        &directory,
        &[&SAVED[..], &["--report", "page.html"]].concat(),
    );
    let line = "data [20000080, 200000fc): what is read is told of its whole granules, [20000080, 20000100).";
    assert!(said.out.contains(&format!("  {line}\n")), "{}", said.text());
    let page = fs::read_to_string(directory.join("page.html")).expect("a page");
    assert!(page.contains(line));
    assert_eq!(
        said.out.matches("whole granules").count(),
        2,
        "{}",
        said.out
    );
}

#[test]
fn both_engines_and_both_editions_say_the_same() {
    let asked = [&HANDOVER[..], &["--json"]].concat();
    let value = on_small(CARELESS, &asked).json();
    for more in [["--engine", "plain"], ["--edition", "later"]] {
        let other = on_small(CARELESS, &[&asked[..], &more].concat());
        assert_eq!(other.json(), value, "{more:?}");
    }
    let start = on_small(CAREFUL, &["--json"]).json();
    assert_eq!(
        (&start["at"], &start["steps"]),
        (&json!(START), &Value::Null)
    );
}

/// A state by its name in a directory of its own, and the sheet beside it.
fn saved(name: &str, state: &State) -> std::path::PathBuf {
    let directory = directory(name);
    fs::write(directory.join("state"), text(state)).expect("a state");
    fs::write(directory.join("map"), SHEET).expect("a sheet");
    directory
}

const SAVED: [&str; 5] = ["reach", "--map", "map", "--state", "state"];

#[test]
fn a_saved_state_says_what_the_run_to_it_says() {
    let directory = directory("reach_saved");
    let path = directory.join("state").display().to_string();
    let run = [
        "run",
        "--map",
        "interlock_small.map",
        "--break",
        "0x20000100",
        "--save",
        &path,
        CAREFUL,
        "interlock_image.hex",
    ];
    assert_eq!(bench_in(&examples(), &run).status, 0);
    let words = ["reach", "--map", "interlock_small.map", "--state", &path];
    let rest = |answer: Answer| {
        answer
            .out
            .split_once('\n')
            .map(|(_, rest)| rest.to_string())
    };
    let from_state = bench_in(&examples(), &words);
    assert_eq!(rest(from_state), rest(on_small(CAREFUL, &HANDOVER)));
    // It is there already.
    let there = bench_in(&examples(), &[&words[..], &HANDOVER].concat());
    assert!(
        there.out.starts_with("PCC is at 20000100 after 0 steps."),
        "{}",
        there.out
    );
}

#[test]
fn granules_are_named_by_their_addresses_and_many_are_counted() {
    let mut state = with_code(&[EBREAK]);
    for granule in 0..20 {
        let place = START + 0x40 + 8 * granule;
        state.write_capability(place, Capability::tagged(START + 0x80, MEMORY_ROOT));
    }
    let directory = saved("reach_granules", &state);
    let said = bench_in(&directory, &[&SAVED[..], &["--never", "holes:w"]].concat());
    assert_eq!(said.status, 1);
    let line = "the hole [20000040, 20000080) may be written, by 20000040 [00000000, 100000000), \
                20000048 [00000000, 100000000), 20000050 [00000000, 100000000) and 17 more.";
    assert_eq!(said.out.lines().nth(1), Some(line));
    let row = said
        .out
        .lines()
        .find(|line| line.starts_with("  data"))
        .expect("a row");
    assert!(
        row.contains("rw  20000040 20000048 20000050 and 17 more  "),
        "{row}"
    );
}

#[test]
fn an_unsound_value_in_memory_is_named_and_in_a_register_refused() {
    let directory = saved("reach_unsound", &with_code_and_value(&[EBREAK]));
    let said = bench_in(&directory, &SAVED);
    assert_eq!(said.status, 0);
    let line = said
        .out
        .lines()
        .find(|line| line.starts_with("  20000040 "));
    assert!(line
        .expect("a holder")
        .ends_with("; unsound, so that it counts for every stretch"));
    let mut state = with_code(&[EBREAK]);
    state.set(4, LOW_ABOVE_HIGH);
    fs::write(directory.join("state"), text(&state)).expect("a state");
    let said = bench_in(&directory, &SAVED);
    assert_eq!((said.status, said.out.as_str()), (3, ""));
    assert!(
        said.err.starts_with("bench: refused, number 8: "),
        "{}",
        said.err
    );
    assert!(
        said.err.ends_with("c4 [05000000, 04000000)\n"),
        "{}",
        said.err
    );
}

#[test]
fn a_handover_that_is_not_reached_is_told_with_the_reason() {
    let ends = [
        (EBREAK, "step 2 trapped, at 20000004"),
        (
            ITSELF,
            "after 1 step the program ended at 20000004, where it jumps to itself",
        ),
        (BACK, "9 steps were made, and it is at 20000004"),
    ];
    for (word, why) in ends {
        let directory = saved("reach_missed", &with_code(&[addi(1, 1, 1), word]));
        let said = bench_in(
            &directory,
            &[&SAVED[..], &["--at", "0x20000020", "--steps", "9"]].concat(),
        );
        let wanted = format!("bench: the handover at 20000020 is not reached: {why}\n");
        assert_eq!((said.status, said.out.as_str(), said.err), (3, "", wanted));
    }
    // The last step may be the one that arrives.
    let directory = saved("reach_last", &with_code(&[addi(1, 1, 1), EBREAK]));
    let said = bench_in(
        &directory,
        &[&SAVED[..], &["--at", "0x20000004", "--steps", "1"]].concat(),
    );
    assert!(
        said.out.starts_with("PCC is at 20000004 after 1 step."),
        "{}",
        said.text()
    );
}

#[test]
fn a_handover_may_be_a_symbol() {
    let directory = directory("reach_symbol");
    let symbol = Symbol {
        name: "begin",
        address: START + 8,
        size: 0,
        section: 1,
    };
    let image = elf::program(START, &[addi(1, 1, 1), addi(1, 1, 1), EBREAK], &[symbol]);
    fs::write(directory.join("image"), image).expect("an image");
    fs::write(directory.join("map"), SHEET).expect("a sheet");
    let said = bench_in(
        &directory,
        &["reach", "--map", "map", "--at", "begin", "image"],
    );
    assert!(
        said.out.starts_with("PCC is at 20000008 after 2 steps."),
        "{}",
        said.text()
    );
    let unknown = bench_in(
        &directory,
        &["reach", "--map", "map", "--at", "end", "image"],
    );
    assert_eq!(unknown.status, 3);
    assert!(
        unknown
            .err
            .starts_with("bench: --at end: no symbol or line"),
        "{}",
        unknown.err
    );
}

#[test]
fn an_image_that_does_not_fit_is_not_run() {
    let words = [
        "reach",
        "--map",
        "interlock_small.map",
        CAREFUL,
        "interlock_image.img",
    ];
    let said = bench_in(&examples(), &words);
    assert_eq!((said.status, said.out.as_str()), (2, ""));
    assert!(
        said.err.contains("interlock_image.img does not fit"),
        "{}",
        said.err
    );
}

#[test]
fn a_page_has_a_row_for_each_region_and_the_picture() {
    let directory = directory("reach_page");
    let page = directory.join("page.html").display().to_string();
    let asked = ["--never", "interlock:w", "--report", &page];
    let said = on_small(CARELESS, &[&HANDOVER[..], &asked].concat());
    assert_eq!(said.status, 1);
    let page = fs::read_to_string(&page).expect("a page");
    for text in [
        "interlock may be written, by MTDC [00000000, 100000000).",
        "<td class=\"held\">MTDC</td>",
        "<td class=\"name\">interlock</td><td class=\"code\">[20000400, 20000480)</td>",
        "<svg id=\"map\"",
        "<title>interlock [20000400, 20000480), by MTDC</title>",
        "<text class=\"head\"",
        "nowhere-stays",
    ] {
        assert!(page.contains(text), "{text}");
    }
    let over = on_small(CAREFUL, &["--report", "interlock_small.map"]);
    assert_eq!(over.status, 3);
    let page = directory.join("keys.html").display().to_string();
    with_keys(CAREFUL, &["--report", &page]);
    let page = fs::read_to_string(&page).expect("a page");
    for text in [
        "<td class=\"never\">isolated</td>",
        "<title>keys [20000800, 20000840), isolated</title>",
        "outside-secrecy-claim",
    ] {
        assert!(page.contains(text), "{text}");
    }
}

/// A shelf of the demonstration's image on the small board, by a start and with further words.
fn shelf(name: &str, start: &str, further: &[&str]) -> Answer {
    on_board(name, "image.hex", ["interlock_small.map", start], further)
}

/// The same of one of its images, on a board.
fn on_board(name: &str, image: &str, [board, start]: [&str; 2], further: &[&str]) -> Answer {
    let directory = directory(name);
    let from = examples().join(format!("interlock_{image}"));
    fs::copy(from, directory.join(image)).expect("a copy");
    let folder = directory.display().to_string();
    let words = ["shelf", &folder, "--board", board, "--with", start];
    bench_in(&examples(), &[&words[..], further].concat())
}

#[test]
fn a_shelf_judges_what_may_be_read() {
    for (start, kept) in [(CAREFUL, "holds"), (CARELESS, "could")] {
        let asked = ["--handover", "0x20000100", "--never", "keys:r", "--json"];
        let board = ["interlock_keys.map", start];
        let row = &on_board("reach_shelf_keys", "image.hex", board, &asked).json()["rows"][0];
        assert_eq!(row["kept"], kept);
        let may = row["may_read"].as_str().expect("names");
        assert_eq!(may.contains("keys"), kept == "could");
    }
}

#[test]
fn a_shelf_says_what_any_run_may_write() {
    let asked = ["--handover", "0x20000100", "--never", "interlock:w"];
    let careful = shelf("reach_shelf", CAREFUL, &asked).out;
    let careless = shelf("reach_shelf_less", CARELESS, &asked).out;
    let plain = shelf("reach_shelf_plain", CAREFUL, &[]).out;
    golden("reach_shelf", &[careful, careless, plain].join("\n"));
    let json = [&asked[..], &["--json"]].concat();
    let row = |name: &str, start: &str| shelf(name, start, &json).json()["rows"][0].clone();
    let careful = row("reach_shelf_json", CAREFUL);
    assert_eq!(
        (&careful["kept"], &careful["handover"]),
        (&json!("holds"), &json!(37))
    );
    assert_eq!(
        (&careful["may_write"], &careful["may_execute"]),
        (&json!("stack"), &json!("boot image"))
    );
    let careless = row("reach_shelf_json_less", CARELESS);
    assert_eq!(careless["kept"], "could");
    let missed = shelf(
        "reach_shelf_missed",
        CAREFUL,
        &["--handover", "0x20000104", "--json", "--steps", "20"],
    );
    assert_eq!(
        (missed.status, &missed.json()["rows"][0]["kept"]),
        (1, &json!("missed"))
    );
    assert_eq!(missed.json()["counts"]["missed"], 1);
    for (name, place) in [("symbol", "nosuch"), ("odd", "0x20000101")] {
        let asked = ["--handover", place, "--never", "interlock:w", "--json"];
        let large = ["interlock_large.map", "interlock_large.hex"];
        let name = format!("reach_shelf_{name}");
        let unresolved = on_board(&name, "image.img", large, &asked);
        let row = &unresolved.json()["rows"][0];
        assert_eq!((unresolved.status, &row["run"]), (1, &json!("ended")));
        assert_eq!(row["kept"], "missed");
    }
    let unknown = shelf(
        "reach_shelf_unknown",
        CAREFUL,
        &["--handover", "1", "--never", "nowhere:w"],
    );
    assert_eq!(unknown.status, 3);
}
