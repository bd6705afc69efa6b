//! Map sheets: checked and compared, good ones and bad ones, with the line and what is wrong with it.

mod common;

use common::{bench_in, directory, examples, golden};
use serde_json::json;
use std::path::PathBuf;

const CODE: &str = "region\tcode\t20000000\t00000400\trx\n";
const DATA: &str = "region\tdata\t20000400\t00000c00\trw\n";

/// A directory with these files.
fn with_files(name: &str, files: &[(&str, &str)]) -> PathBuf {
    let directory = directory(name);
    for (name, text) in files {
        std::fs::write(directory.join(name), text).unwrap();
    }
    directory
}

/// So many regions of 64 bytes.
fn long(count: u32) -> String {
    let line = |index: u32| {
        let letters = [index / 26, index % 26].map(|place| (b'a' + place as u8) as char);
        let name = String::from_iter(letters);
        format!("region\t{name}\t{:08x}\t00000040\trw\n", 64 * index)
    };
    (0..count).map(line).collect()
}

#[test]
fn the_demonstrations_sheets_are_good_and_differ_in_the_stack() {
    let mut text = String::new();
    for arguments in [
        &["sheet", "check", "interlock_small.map"][..],
        &["sheet", "check", "interlock_large.map"],
        &[
            "sheet",
            "compare",
            "interlock_small.map",
            "interlock_large.map",
        ],
        &[
            "sheet",
            "compare",
            "interlock_small.map",
            "interlock_small.map",
        ],
    ] {
        let answer = bench_in(&examples(), arguments);
        text.push_str(&format!("== {}\n{}", arguments.join(" "), answer.text()));
    }
    golden("sheets", &text);
}

#[test]
fn a_bad_sheet_is_named_with_its_line_and_what_is_wrong() {
    let directory = directory("bad_sheets");
    let second = |line: &str| format!("{CODE}{line}");
    let (full, over) = (long(64), long(65));
    let cases = [
        ("empty", String::new()),
        ("an empty line", second("\n")),
        ("no newline", second(DATA.trim_end())),
        ("another word", second(&DATA.replace("region", "Region"))),
        ("two tabs", second(&DATA.replace("region\t", "region\t\t"))),
        ("spaces", second(&DATA.replace('\t', " "))),
        ("a carriage return", second(&DATA.replace('\n', "\r\n"))),
        (
            "a name of 17 letters",
            second(&DATA.replace("data", "abcdefghijklmnopq")),
        ),
        (
            "a name with a digit",
            second(&DATA.replace("data", "data1")),
        ),
        (
            "a start of seven digits",
            second(&DATA.replace("20000400", "2000400")),
        ),
        (
            "a length with a capital",
            second(&DATA.replace("00000c00", "00000C00")),
        ),
        ("rights in another order", second(&DATA.replace("rw", "wr"))),
        ("length 0", second(&DATA.replace("00000c00", "00000000"))),
        (
            "past the end",
            second(&DATA.replace("20000400", "fffff401")),
        ),
        ("an overlap", second(&DATA.replace("20000400", "200003ff"))),
        ("a repeated name", second(&DATA.replace("data", "code"))),
        ("65 regions", over),
    ];
    let mut text = String::new();
    for (name, sheet) in cases {
        std::fs::write(directory.join("map"), sheet).unwrap();
        let answer = bench_in(&directory, &["sheet", "check", "map"]);
        assert_eq!((answer.status, answer.out.as_str()), (2, ""), "{name}");
        text.push_str(&format!("== {name}\n{}", answer.text()));
    }
    golden("bad_sheets", &text);
    std::fs::write(directory.join("map"), full).unwrap();
    assert_eq!(bench_in(&directory, &["sheet", "check", "map"]).status, 0);
}

#[test]
fn of_two_sheets_the_first_bad_one_is_named() {
    let bad = format!("{CODE}{CODE}");
    let files = [("good", CODE), ("bad", &bad), ("worse", "x\n")];
    let directory = with_files("compared_bad", &files);
    for (first, second, said) in [
        (
            "bad",
            "good",
            "bad: line 2: there is a region code before it",
        ),
        (
            "bad",
            "worse",
            "bad: line 2: there is a region code before it",
        ),
        (
            "good",
            "bad",
            "bad: line 2: there is a region code before it",
        ),
        ("worse", "bad", "worse: line 1: it is not region"),
    ] {
        let answer = bench_in(&directory, &["sheet", "compare", first, second]);
        assert_eq!((answer.status, answer.out.as_str()), (2, ""));
        assert!(
            answer.err.starts_with(&format!("bench: {said}")),
            "{}",
            answer.err
        );
    }
    for missing in [["nowhere", "bad"], ["bad", "nowhere"]] {
        let answer = bench_in(&directory, &["sheet", "compare", missing[0], missing[1]]);
        assert_eq!(answer.status, 3);
        assert!(answer.err.starts_with("bench: nowhere: "), "{}", answer.err);
    }
}

#[test]
fn regions_that_one_sheet_lacks_are_shown_and_the_order_of_lines_is_none_of_them() {
    let (one, other) = (format!("{CODE}{DATA}"), format!("{DATA}{CODE}"));
    let spare = format!("{DATA}{}", CODE.replace("code", "a"));
    let files = [("one", one.as_str()), ("other", &other), ("spare", &spare)];
    let directory = with_files("compared", &files);
    let same = bench_in(&directory, &["sheet", "compare", "one", "other"]);
    assert_eq!(
        (same.status, same.out.as_str()),
        (0, "one and other have the same regions.\n")
    );
    let answer = bench_in(&directory, &["sheet", "compare", "one", "spare"]);
    assert_eq!(answer.status, 1);
    let shown = "2 regions differ between one and spare:\n\n  \
                 a                 none                         [20000000, 20000400) rx\n  \
                 code              [20000000, 20000400) rx      none\n";
    assert_eq!(answer.out, shown);
}

#[test]
fn sheets_as_json() {
    let bad = format!("{CODE}{CODE}");
    let other = CODE.replace("rx", "r");
    let files = [("one", CODE), ("bad", &bad), ("other", &other)];
    let directory = with_files("sheets_json", &files);
    let code =
        |rights| json!({ "name": "code", "start": 0x2000_0000, "length": 0x400, "rights": rights });
    let check = bench_in(&directory, &["sheet", "check", "one", "--json"]);
    let good = json!({ "regions": [code("rx")], "refused_as_board": null });
    assert_eq!(check.json(), good);
    let compare = bench_in(&directory, &["sheet", "compare", "one", "other", "--json"]);
    let pair = json!({ "name": "code", "first": code("rx"), "second": code("r") });
    assert_eq!(
        (compare.status, compare.json()),
        (1, json!({ "differ": [pair] }))
    );
    for (arguments, number) in [
        (&["sheet", "check", "bad", "--json"][..], 13),
        (&["sheet", "compare", "bad", "bad", "--json"], 13),
        (&["sheet", "compare", "one", "bad", "--json"], 14),
    ] {
        let answer = bench_in(&directory, arguments);
        let reason = "there is a region code before it";
        let refused = json!({ "number": number, "file": "bad", "line": 2, "reason": reason });
        assert_eq!(
            (answer.status, answer.json()),
            (2, json!({ "refused": refused }))
        );
    }
}

#[test]
fn bad_usage_of_sheets_has_status_3() {
    let directory = directory("sheet_usage");
    for arguments in [
        &["sheet"][..],
        &["sheet", "check"],
        &["sheet", "compare", "one"],
        &["sheet", "write", "one"],
    ] {
        assert_eq!(bench_in(&directory, arguments).status, 3, "{arguments:?}");
    }
    assert_eq!(bench_in(&directory, &["sheet", "--help"]).status, 0);
}
