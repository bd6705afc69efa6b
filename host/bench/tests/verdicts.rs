//! What makes an image bad on a board though it runs: bytes loaded outside its label or the board, and stores that break the
//! map. Each verdict is changed by one byte of a file.

mod common;

use common::elf::{elf, with_symbols, Header, EXEC, RISCV};
use common::{assembled, bench_in, changed, directory, golden, sheet};
use serde_json::json;
use std::path::{Path, PathBuf};

/// A board with code, a table that is read alone, data, a hole, and a stack.
const BOARD: [&str; 4] = [
    "code 20000000 00000100 rx",
    "table 20000100 00000100 r",
    "data 20000200 00000100 rw",
    "stack 20000400 00000400 rw",
];
/// c2 at the board's start, with every right, and a store of c10 into its data; then the end.
const STORES: &str =
    "cspecialrw 2 0 29; lui 5 131072; csetaddr 2 2 5; addi 10 0 42; csw 2 10 512; cjal 0 0";
/// Where the store's upper offset is: 32 times the byte's upper seven bits.
const OFFSET: usize = 4 * 4 + 3;
const DATA: u8 = 0x20;
const TABLE: u8 = 0x10;
const HOLE: u8 = 0x30;
const CODE: u8 = 0x00;

/// A folder with the board's sheet.
fn board(name: &str) -> PathBuf {
    board_of(name, &BOARD)
}

/// A folder with a sheet of these regions.
fn board_of(name: &str, regions: &[&str]) -> PathBuf {
    let directory = directory(name);
    std::fs::write(directory.join("board"), sheet(regions)).unwrap();
    directory
}

/// An image of bytes with a label.
fn labelled(regions: &[&str], payload: &[u8]) -> Vec<u8> {
    [sheet(regions).as_bytes(), b"\n", payload].concat()
}

fn write(directory: &Path, name: &str, bytes: &[u8]) {
    std::fs::create_dir_all(directory.join("shelf")).unwrap();
    std::fs::write(directory.join(name), bytes).unwrap();
    std::fs::write(directory.join("shelf").join("image"), bytes).unwrap();
}

/// The status and the text of `fit`, `run --map` and `shelf` for one image.
fn everywhere(directory: &Path) -> [(i32, String); 3] {
    let commands: [&[&str]; 3] = [
        &["fit", "board", "image"],
        &["run", "--map", "board", "image"],
        &["shelf", "shelf", "--board", "board"],
    ];
    commands.map(|command| {
        let answer = bench_in(directory, command);
        (answer.status, answer.out + &answer.err)
    })
}

#[test]
fn a_payload_outside_its_label_is_refused_everywhere() {
    let directory = board("payload_label");
    let code = assembled(&directory, STORES);
    let good = labelled(&["mine 20000000 00000018 rx"], &code);
    write(&directory, "image", &good);
    let answers = everywhere(&directory);
    assert_eq!(
        answers.each_ref().map(|answer| answer.0),
        [0; 3],
        "{answers:?}"
    );
    // One byte of the label: it is a byte shorter than the code.
    let place = sheet(&["mine 20000000 0000001"]).len() - 1;
    write(&directory, "image", &changed(&good, place, b'8', b'7'));
    let answers = everywhere(&directory);
    assert_eq!(answers.each_ref().map(|answer| answer.0), [1, 2, 1]);
    let said =
        "raw bytes at [20000000, 20000018): 20000017 lies in no region of the image's label; \
                the nearest is mine, [20000000, 20000017), which ends there";
    for (_, text) in &answers {
        assert!(text.contains(said), "{text}");
    }
    // A shelf has the name before it.
    let named = answers
        .each_ref()
        .map(|answer| answer.1.contains(&format!("image: {said}")));
    assert_eq!(named, [true, true, false], "{answers:?}");
    let value = bench_in(&directory, &["fit", "board", "image", "--json"]).json();
    let outside = &value["images"][0]["outside"];
    assert_eq!(
        (&value["fits"], &outside["address"]),
        (&json!(null), &json!(0x2000_0017))
    );
    assert_eq!(
        (&outside["sheet"], &outside["nearest"]["name"]),
        (&json!("label"), &json!("mine"))
    );
}

/// Intel HEX of bytes at an offset from 20000000.
fn hex(offset: u16, bytes: &[u8]) -> Vec<u8> {
    let record = |offset: u16, kind: u8, data: &[u8]| {
        let [high, low] = offset.to_be_bytes();
        let mut body = [&[data.len() as u8, high, low, kind][..], data].concat();
        let sum = body.iter().fold(0u8, |sum, byte| sum.wrapping_sub(*byte));
        body.push(sum);
        let digits: String = body.iter().map(|byte| format!("{byte:02X}")).collect();
        format!(":{digits}\n")
    };
    let records = [
        record(0, 4, &[0x20, 0]),
        record(offset, 0, bytes),
        record(0, 1, &[]),
    ];
    records.concat().into_bytes()
}

#[test]
fn a_file_without_a_label_is_held_to_the_board() {
    let directory = board("payload_board");
    let code = assembled(&directory, STORES);
    let sheets = sheet(&BOARD);
    const START: usize = "region\tcode\t".len();
    for (name, bytes) in [
        ("raw", code.clone()),
        ("hex", hex(0, &code)),
        ("elf", one_segment(&code)),
    ] {
        std::fs::write(directory.join("board"), &sheets).unwrap();
        write(&directory, "image", &bytes);
        let good = bench_in(&directory, &["run", "--map", "board", "image"]);
        assert_eq!(good.status, 0, "{name}: {}", good.err);
        // One byte of the sheet: its code begins elsewhere.
        let moved = changed(sheets.as_bytes(), START, b'2', b'1');
        std::fs::write(directory.join("board"), moved).unwrap();
        let answer = bench_in(
            &directory,
            &["run", "--map", "board", "image", "--start", "0x20000000"],
        );
        assert_eq!(answer.status, 2, "{name}: {}", answer.err);
        let said = "20000000 lies in no region of the board's sheet; \
                    the nearest is table, [20000100, 20000200), which begins 256 bytes after";
        assert!(answer.err.contains(said), "{name}: {}", answer.err);
        let shelf = bench_in(
            &directory,
            &[
                "shelf",
                "shelf",
                "--board",
                "board",
                "--start",
                "0x20000000",
                "--size",
                "0x1000",
                "--csv",
            ],
        );
        assert_eq!(shelf.status, 1, "{}", shelf.err);
        assert!(shelf.out.contains(",misfit,no,,"), "{}", shelf.out);
    }
}

fn one_segment(code: &[u8]) -> Vec<u8> {
    segment_at(0x2000_0000, code)
}

fn segment_at(address: u32, code: &[u8]) -> Vec<u8> {
    let header = Header {
        address,
        offset: 84,
        in_file: code.len() as u32,
        in_memory: code.len() as u32,
    };
    with_symbols(elf(1, EXEC, RISCV, &[header], code), &[])
}

#[test]
fn a_payload_that_cannot_be_read_does_not_fit() {
    let directory = board("payload_broken");
    let label = ["mine 20000000 00000100 rx"];
    let good = labelled(&label, &hex(0, &[0x13, 0, 0, 0]));
    write(&directory, "image", &good);
    assert_eq!(bench_in(&directory, &["fit", "board", "image"]).status, 0);
    // A digit of the first record, so that its sum is wrong.
    let place = sheet(&label).len() + 1 + 9;
    write(&directory, "image", &changed(&good, place, b'2', b'3'));
    let answers = everywhere(&directory);
    assert_eq!(
        answers.each_ref().map(|answer| answer.0),
        [1, 3, 1],
        "{answers:?}"
    );
    for (_, text) in &answers {
        assert!(
            text.contains("payload: line 1: the record's sum is wrong"),
            "{text}"
        );
    }
    let other = labelled(&label, &[]);
    std::fs::write(directory.join("other"), other).unwrap();
    let answer = bench_in(&directory, &["fit", "board", "image", "other"]);
    assert_eq!(answer.status, 0);
    assert!(
        answer.out.starts_with("Image 2 fits board."),
        "{}",
        answer.out
    );
}

#[test]
fn a_header_of_another_core_is_told() {
    let directory = board("another_core");
    let good = one_segment(&assembled(&directory, STORES));
    const FLAGS: usize = 36;
    for (flags, said) in [
        (8, None),
        (0, Some("a core with 32 registers (not RVE)")),
        (8 | 2, Some("a core with floating point")),
    ] {
        write(&directory, "image", &changed(&good, FLAGS, 8, flags));
        let answer = bench_in(&directory, &["run", "--map", "board", "image"]);
        assert_eq!(answer.status, 0, "{}", answer.err);
        assert_eq!(answer.err.is_empty(), said.is_none(), "{}", answer.err);
        let notes = bench_in(&directory, &["run", "--map", "board", "image", "--json"]).json();
        assert_eq!(
            notes["notes"].as_array().unwrap().len(),
            usize::from(said.is_some())
        );
        let shelf = bench_in(&directory, &["shelf", "shelf", "--board", "board"]);
        let reach = bench_in(
            &directory,
            &[
                "reach",
                "--map",
                "board",
                "image",
                "--report",
                "page.html",
                "--json",
            ],
        );
        let page = std::fs::read_to_string(directory.join("page.html")).unwrap();
        let notes = reach.json()["notes"].as_array().unwrap().len();
        assert_eq!(notes, usize::from(said.is_some()));
        if let Some(text) = said {
            for told in [&answer.err, &shelf.out, &reach.err, &page] {
                assert!(told.contains(text), "{told}");
            }
            assert!(!shelf.out.contains("image: its header"), "{}", shelf.out);
        }
    }
    for (place, to, said) in [
        (4, 2, "no ELF file of 32 bits"),
        (18, 0xF4, "another processor"),
    ] {
        let from = good[place];
        write(&directory, "image", &changed(&good, place, from, to));
        let answer = bench_in(&directory, &["run", "--map", "board", "image"]);
        assert_eq!(answer.status, 3);
        assert!(answer.err.contains(said), "{}", answer.err);
    }
}

/// An image whose store goes where one byte says.
fn storing(directory: &Path, offset: u8) -> Vec<u8> {
    let code = assembled(directory, STORES);
    let label = ["mine 20000000 00000100 rx", "own 20000200 00000100 rw"];
    let place = sheet(&label).len() + 1 + OFFSET;
    changed(&labelled(&label, &code), place, DATA, offset)
}

#[test]
fn one_byte_decides_whether_a_store_breaks_the_map() {
    let directory = board("stores");
    let mut text = String::new();
    for (name, offset, status) in [
        ("data", DATA, 0),
        ("table", TABLE, 1),
        ("hole", HOLE, 1),
        ("code", CODE, 1),
    ] {
        write(&directory, "image", &storing(&directory, offset));
        let run = bench_in(&directory, &["run", "--map", "board", "image"]);
        let told = run.out.split("\n\n").next().unwrap();
        let shelf = bench_in(&directory, &["shelf", "shelf", "--board", "board"]);
        assert_eq!(
            (run.status, shelf.status),
            (status, status),
            "{name}: {}",
            run.out
        );
        text.push_str(&format!("== {name}\n{told}\n{}", shelf.text()));
        let off = bench_in(
            &directory,
            &["run", "--map", "board", "image", "--map-stores", "off"],
        );
        let told = "Map: stores were not judged (--map-stores off).\n";
        assert_eq!(
            (off.status, off.out.contains(told)),
            (0, true),
            "{}",
            off.out
        );
        let off = ["shelf", "shelf", "--board", "board", "--map-stores", "off"];
        assert_eq!(bench_in(&directory, &off).status, 0);
    }
    golden("map_stores", &text);
}

#[test]
fn the_stores_into_each_part_are_counted_and_the_first_is_told() {
    let directory = board("stores_counted");
    let code = "cspecialrw 2 0 29; lui 5 131072; csetaddr 2 2 5; csw 2 10 512; csw 2 10 768; csw 2 10 256; csb 2 10 257; \
                csw 2 10 772; csc 2 0 248; csw 2 10 260; cjal 0 0";
    write(&directory, "image", &assembled(&directory, code));
    let run = ["run", "--map", "board", "image", "--json"];
    let value = bench_in(&directory, &run).json();
    let stores = &value["map_stores"];
    let counts: Vec<_> = stores["parts"]
        .as_array()
        .unwrap()
        .iter()
        .map(|part| &part["stores"])
        .collect();
    assert_eq!(counts, [&json!(1), &json!(3), &json!(2)], "{stores}");
    let first = json!({
        "step": 5, "at": 0x2000_0010, "word": stores["first"]["word"], "instruction": "csw 2 10 768",
        "address": 0x2000_0300, "size": 4, "name": null,
    });
    assert_eq!(stores["first"], first);
    assert_eq!(
        (&value["verdict"], &stores["breaks"]),
        (&json!("breaks"), &json!(true))
    );
    // With fewer steps it is another first, or none.
    for (steps, breaks) in [("4", false), ("5", true)] {
        let value = bench_in(&directory, &[&run[..], &["--steps", steps]].concat()).json();
        assert_eq!(value["map_stores"]["breaks"], breaks, "{steps}");
    }
    // Watched ranges are counted beside them.
    let watch = [
        "--watch",
        "0x20000300",
        "8",
        "--watch",
        "0x20000200",
        "0x100",
    ];
    let value = bench_in(&directory, &[&run[..], &watch].concat()).json();
    let watched: Vec<_> = value["watch"]
        .as_array()
        .unwrap()
        .iter()
        .map(|range| &range["stores"])
        .collect();
    assert_eq!(watched, [&json!(2), &json!(1)]);
    assert_eq!(value["map_stores"], *stores);
}

// A store of which one byte alone lies in the hole.
#[test]
fn a_store_that_touches_a_hole_breaks_the_map() {
    let directory = board("stores_edge");
    let code = "cspecialrw 2 0 29; lui 5 131072; csetaddr 2 2 5; csw 2 10 764; cjal 0 0";
    write(&directory, "image", &assembled(&directory, code));
    let run = ["run", "--map", "board", "image"];
    for (length, status) in [("00000100", 0), ("000000ff", 1)] {
        let text = sheet(&BOARD).replacen("20000200\t00000100", &format!("20000200\t{length}"), 1);
        std::fs::write(directory.join("board"), text).unwrap();
        let answer = bench_in(&directory, &run);
        assert_eq!(answer.status, status, "{}", answer.out);
    }
    let answer = bench_in(&directory, &run);
    let said = "  stored   [200002fc, 20000300), 4 bytes, in the hole [200002ff, 20000400)\n";
    assert!(answer.out.contains(said), "{}", answer.out);
}

#[test]
fn a_map_that_may_be_written_everywhere_judges_nothing() {
    let directory = board_of("stores_free", &["all 20000000 00001000 rwx"]);
    write(&directory, "image", &assembled(&directory, STORES));
    let answer = bench_in(&directory, &["run", "--map", "board", "image"]);
    assert_eq!(answer.status, 0);
    let said = "Map: every byte of memory may be written, so that no store was judged. Loads are not counted.\n";
    assert!(answer.out.contains(said), "{}", answer.out);
}

#[test]
fn that_stores_were_not_judged_is_said_in_every_form() {
    let directory = board("stores_off");
    write(&directory, "image", &storing(&directory, HOLE));
    let run = [
        "run",
        "--map",
        "board",
        "image",
        "--json",
        "--report",
        "page.html",
    ];
    let off = bench_in(&directory, &[&run[..], &["--map-stores", "off"]].concat());
    let page = std::fs::read_to_string(directory.join("page.html")).unwrap();
    assert_eq!((off.status, &off.json()["map_stores"]), (0, &json!("off")));
    assert!(
        page.contains("Map: stores were not judged (--map-stores off)."),
        "{page}"
    );
    let none = bench_in(&directory, &["run", "image", "--json"]).json();
    assert_eq!(none["map_stores"], json!(null));
}

#[test]
fn a_shelf_says_that_stores_were_not_judged() {
    let directory = board("shelf_stores_off");
    write(&directory, "image", &storing(&directory, HOLE));
    let said = "Stores were not judged by the map (--map-stores off).";
    let shelf = ["shelf", "shelf", "--board", "board", "--report", "pages"];
    for (setting, status) in [("on", 1), ("off", 0)] {
        let words = [&shelf[..], &["--map-stores", setting]].concat();
        let answer = bench_in(&directory, &words);
        assert_eq!(answer.status, status, "{}", answer.err);
        let page = std::fs::read_to_string(directory.join("pages/index.html")).unwrap();
        let off = setting == "off";
        assert_eq!(
            (
                answer.out.ends_with(&format!("{said}\n")),
                page.contains(said)
            ),
            (off, off),
            "{}",
            answer.out
        );
    }
}

#[test]
fn a_run_from_a_saved_state_says_what_was_not_judged() {
    let directory = board("stores_resumed");
    let note = "stores before the saved state were not judged by the map";
    let saved = ["run", "--map", "board", "image", "--save", "state"];
    let resumed = ["run", "--map", "board", "--state", "state"];
    // The store is the fifth step.
    for (steps, map) in [
        (
            "5",
            "Map: no store went into a hole or into a region without w since the saved state. ",
        ),
        (
            "4",
            "Breaks the map since the saved state: 1 store into the hole ",
        ),
    ] {
        write(&directory, "image", &storing(&directory, HOLE));
        bench_in(&directory, &[&saved[..], &["--steps", steps]].concat());
        let answer = bench_in(&directory, &resumed);
        assert!(answer.out.contains(map), "{}", answer.out);
        assert!(answer.err.contains(note), "{}", answer.err);
        let json = ["--json", "--report", "page.html"];
        let value = bench_in(&directory, &[&resumed[..], &json].concat()).json();
        assert_eq!(value["notes"], json!([note]));
        let page = std::fs::read_to_string(directory.join("page.html")).unwrap();
        assert!(page.contains(note), "{page}");
    }
    // Where nothing is judged, or all from reset on, there is nothing to say.
    let off = [&resumed[..], &["--map-stores", "off"]].concat();
    for words in [&off[..], &saved, &["run", "--state", "state"]] {
        let answer = bench_in(&directory, words);
        let said = answer.out + &answer.err;
        assert!(!said.contains("saved state"), "{said}");
    }
}

// A note of the label's own payload.
#[test]
fn a_fit_tells_of_another_core() {
    let directory = board("fit_notes");
    let elf = one_segment(&assembled(&directory, STORES));
    let label = ["mine 20000000 00000100 rx"];
    for (flags, notes) in [(8, 0), (0, 1)] {
        write(
            &directory,
            "image",
            &labelled(&label, &changed(&elf, 36, 8, flags)),
        );
        let answer = bench_in(&directory, &["fit", "board", "image", "--json"]);
        let told = answer.json()["images"][0]["notes"]
            .as_array()
            .unwrap()
            .len();
        assert_eq!((answer.status, told), (0, notes), "{}", answer.err);
        assert_eq!(
            answer.err.contains("32 registers"),
            notes == 1,
            "{}",
            answer.err
        );
    }
}

// A label and a board may end at 2^32; bytes may not go on after that.
#[test]
fn a_payload_that_ends_past_2_to_the_32_does_not_fit() {
    let directory = board_of("payload_past", &["all ffff0000 00010000 rwx"]);
    let label = ["mine fffffffc 00000004 rx"];
    let code = assembled(&directory, "cjal 0 0; addi 0 0 0");
    write(&directory, "image", &labelled(&label, &code[..4]));
    assert_eq!(bench_in(&directory, &["fit", "board", "image"]).status, 0);
    write(&directory, "image", &labelled(&label, &code));
    let answers = everywhere(&directory);
    assert_eq!(
        answers.each_ref().map(|answer| answer.0),
        [1, 3, 1],
        "{answers:?}"
    );
    for (_, text) in &answers {
        assert!(text.contains("payload: the bytes end past 2^32"), "{text}");
    }
    let raw = ["run", "--start", "0xffffffc0", "--size", "64", "long"];
    for (bytes, status) in [(64, 1), (65, 3)] {
        std::fs::write(directory.join("long"), vec![0; bytes]).unwrap();
        let answer = bench_in(&directory, &raw);
        assert_eq!(answer.status, status, "{}", answer.err);
        assert_eq!(answer.err.contains("the bytes end past 2^32"), status == 3);
    }
}

/// A shelf with one good image, and a file of the board's own beside it.
fn with_own(directory: &Path, own: &[u8], more: &[&str]) -> (i32, String, String) {
    let code = assembled(directory, STORES);
    write(
        directory,
        "image",
        &labelled(&["mine 20000000 00000018 rx"], &code),
    );
    std::fs::write(directory.join("own"), own).unwrap();
    let shelf = ["shelf", "shelf", "--board", "board", "--with", "own"];
    let answer = bench_in(directory, &[&shelf[..], more].concat());
    (answer.status, answer.out, answer.err)
}

#[test]
fn the_boards_own_files_are_judged_once_and_first() {
    let directory = board("own_files");
    let own = labelled(&["own 20000040 00000004 rx"], &[0; 4]);
    let (status, out, err) = with_own(&directory, &own, &[]);
    assert_eq!((status, err.as_str()), (0, ""), "{out}");
    // One byte of its label: no region of the board has w there; or its payload is longer; or it has none, and lies elsewhere.
    let place = sheet(&["own 20000040 00000004 rx"]).len() - 2;
    let long = labelled(&["own 20000040 00000004 rx"], &[0; 5]);
    for (own, said) in [
        (changed(&own, place, b'x', b'w'), "own does not fit board"),
        (long, "20000044 lies in no region of the image's label"),
        (
            hex(0x300, &[0; 4]),
            "20000300 lies in no region of the board's sheet",
        ),
    ] {
        let (status, out, err) = with_own(&directory, &own, &[]);
        assert_eq!((status, out.as_str()), (2, ""), "{err}");
        assert!(err.contains(said), "{err}");
        let (status, out, _) = with_own(&directory, &own, &["--json"]);
        assert!(status == 2 && out.contains("\"refused\""), "{out}");
    }
    let (status, _, err) = with_own(&directory, b":00", &[]);
    assert!(status == 3 && err.contains("own: line 1"), "{err}");
}

// With --format raw the label is the first bytes of the code, for the judgement too.
#[test]
fn a_shelf_judges_and_loads_by_one_format() {
    let directory = board("one_format");
    let code = assembled(&directory, STORES);
    write(
        &directory,
        "image",
        &labelled(&["mine 20000000 00000018 rx"], &code),
    );
    let shelf = ["shelf", "shelf", "--board", "board", "--json"];
    for (format, label, run) in [
        ("auto", "fits", "ended"),
        ("labelled", "fits", "ended"),
        ("raw", "none", "trapped"),
        ("elf", "none", "no"),
        ("hex", "none", "no"),
    ] {
        let answer = bench_in(&directory, &[&shelf[..], &["--format", format]].concat());
        let row = &answer.json()["rows"][0];
        assert_eq!(
            (&row["label"], &row["run"]),
            (&json!(label), &json!(run)),
            "{row}"
        );
    }
    write(&directory, "image", &code);
    let answer = bench_in(
        &directory,
        &[&shelf[..], &["--format", "labelled"]].concat(),
    );
    assert_eq!(answer.json()["rows"][0]["label"], "bad");
}

// A store over the edge of two parts is one store, and is told of both.
#[test]
fn a_store_into_two_parts_is_one_store() {
    let directory = board("stores_one");
    let code =
        "cspecialrw 2 0 29; lui 5 131072; csetaddr 2 2 5; csc 2 0 248; csw 2 10 508; cjal 0 0";
    write(&directory, "image", &assembled(&directory, code));
    let sheets = sheet(&BOARD).replacen("20000000\t00000100", "20000000\t000000fc", 1);
    let sheets = sheets.replacen("20000100\t00000100", "200000fc\t00000104", 1);
    std::fs::write(directory.join("board"), sheets).unwrap();
    let value = bench_in(&directory, &["run", "--map", "board", "image", "--json"]).json();
    let stores = &value["map_stores"];
    let parts = stores["parts"].as_array().unwrap();
    let counts: Vec<_> = parts.iter().map(|part| &part["stores"]).collect();
    assert_eq!(counts[..2], [&json!(1), &json!(2)], "{stores}");
    assert_eq!(stores["stores"], 2);
    let shelf = ["shelf", "shelf", "--board", "board", "--json"];
    let row = &bench_in(&directory, &shelf).json()["rows"][0];
    assert_eq!(row["map_stores"], 2);
    let why = "1 store into code, [20000000, 200000fc) rx; 2 stores into table, [200000fc, 20000200) r; the first is step 4";
    assert_eq!(row["why"], why);
}

#[test]
fn no_reach_is_told_of_what_lies_outside_the_board() {
    let directory = board("reach_outside");
    std::fs::write(directory.join("image"), hex(0x300, &[0; 4])).unwrap();
    let run = |command: &str| {
        let words = [command, "--map", "board", "image", "--json"];
        let answer = bench_in(&directory, &words);
        (answer.status, answer.out, answer.err)
    };
    let answer = run("reach");
    assert_eq!(answer, run("run"));
    assert!(
        answer.0 == 2 && answer.1.contains("\"nearest\""),
        "{answer:?}"
    );
}

// Two records of one place: which of them counts is not told, so that neither does.
#[test]
fn a_payload_whose_parts_overlap_does_not_fit() {
    let directory = board("payload_overlap");
    let label = ["mine 20000000 00000100 rx"];
    let code = assembled(&directory, STORES);
    let record = |offset| String::from_utf8(hex(offset, &code)).unwrap();
    for (offset, statuses) in [(0x20, [0, 0, 0]), (0x14, [1, 3, 1])] {
        let end = record(offset).lines().last().unwrap().len() + 1;
        let first = record(0);
        let both = format!("{}{}", &first[..first.len() - end], record(offset));
        write(&directory, "image", &labelled(&label, both.as_bytes()));
        let answers = everywhere(&directory);
        assert_eq!(
            answers.each_ref().map(|answer| answer.0),
            statuses,
            "{answers:?}"
        );
        let told = answers
            .iter()
            .filter(|answer| answer.1.contains(" overlaps "));
        assert_eq!(
            told.count(),
            statuses.iter().filter(|status| **status > 0).count()
        );
    }
}

/// A board's file that names no start has the program begin at memory's start, and no image after it decides otherwise.
#[test]
fn an_image_after_another_file_never_is_the_start() {
    let directory = board("start_of_the_first");
    let code = assembled(&directory, "addi 10 0 42; cjal 0 0");
    let image = segment_at(0x2000_0040, &code);
    write(&directory, "image", &image);
    let run = ["run", "--map", "board", "own", "image"];
    let shelf = ["shelf", "shelf", "--board", "board", "--with", "own"];
    for own in [code.clone(), hex(0, &code)] {
        std::fs::write(directory.join("own"), own).unwrap();
        for (more, end) in [
            (&[][..], "20000004"),
            (&["--entry", "0x20000040"], "20000044"),
        ] {
            let answer = bench_in(&directory, &[&run[..], more].concat());
            let said = format!("it jumps to itself at {end}.");
            assert!(answer.out.contains(&said), "{}", answer.out);
            let ends = ["--exit-at", &format!("0x{end}"), "--json"];
            let answer = bench_in(&directory, &[&shelf[..], more, &ends].concat());
            assert_eq!(answer.json()["rows"][0]["run"], "ended", "{}", answer.out);
        }
    }
}
