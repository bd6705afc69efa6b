//! Text that others wrote, in files, names and symbols, as it reaches a terminal: nothing that a terminal obeys, and no more of
//! it than a person reads.

mod common;

use common::elf::{program, Symbol};
use common::words::EBREAK;
use common::{bench_in, directory, names_in, shell_in, Answer};
use std::ffi::OsStr;
use std::os::unix::ffi::OsStrExt;
use std::path::PathBuf;

/// The most bytes of a message.
const MOST: usize = 3_000;

/// That an answer can be looked at on a terminal, and is not long.
fn is_plain(answer: &Answer, most: usize) {
    let text = answer.out.clone() + &answer.err;
    let obeyed = |letter: char| letter != '\n' && letter.is_control() || letter == '\u{202e}';
    assert!(!text.contains(obeyed), "{text:?}");
    assert!(text.len() < most, "{} bytes", text.len());
}

#[test]
fn a_dump_is_quoted_without_its_orders_and_not_whole() {
    let directory = directory("text_dumps");
    let long = "z".repeat(1 << 20);
    for (dump, quoted) in [
        (
            b"\x1b[2J\x1b]0;title\x07\n".to_vec(),
            "'\\u{1b}[2J\\u{1b}]0;title\\u{7}'",
        ),
        (vec![0; 4 << 20], "(4194184 letters more)"),
        (
            format!("c1 {long} 0 0\n").into_bytes(),
            "(1048456 letters more)",
        ),
        (format!("c1 0x1 0x2 {long}\n").into_bytes(), "is no tag"),
        (
            format!("c1 {{{long}}}\n").into_bytes(),
            "there is no address",
        ),
        (
            format!("c1 {{address={long}}}\n").into_bytes(),
            "letters more)' is no number",
        ),
        (format!("edition {long}\n").into_bytes(), "letters more)'"),
        (format!("time \x1b{long}\n").into_bytes(), "'\\u{1b}zzz"),
        (
            format!("c1 00000000 0 {long}\n").into_bytes(),
            "letters more)' is no capability",
        ),
    ] {
        std::fs::write(directory.join("dump"), dump).unwrap();
        for form in [&[][..], &["--json"]] {
            let answer = bench_in(&directory, &[&["explain", "dump"], form].concat());
            assert_eq!(answer.status, 3);
            assert!(answer.err.contains(quoted), "{}", answer.err);
            is_plain(&answer, MOST);
        }
    }
}

/// Names that a shell's user can give a file: an order to a terminal, one in a single character, and one that turns letters round.
const NAMES: [&str; 3] = ["a\x1b[2Jb", "a\u{9b}2Jb", "a\u{202e}b"];

#[test]
fn a_name_is_written_out_by_every_command() {
    let directory = directory("text_names");
    for name in NAMES {
        for bytes in [&b"region\tx\t00000000\t00000040\trwx\n"[..], b"\0", b"text"] {
            std::fs::write(directory.join(name), bytes).unwrap();
            for command in [
                &["run", name][..],
                &["run", name, "--map", name],
                &["run", "--state", name],
                &["run", "nowhere", "--break", name],
                &["run", name, "--format", "raw", "--break", name],
                &[
                    "run",
                    name,
                    "--format",
                    "raw",
                    "--exit-at",
                    name,
                    "--report",
                    "page.html",
                ],
                &["reach", name, "--map", name],
                &["explain", name],
                &["sweep", name],
                &["sheet", "check", name],
                &["sheet", "compare", name, name],
                &["fit", name, name],
                &["shelf", ".", "--board", name],
                &["shelf", name, "--board", name],
                &["list", name],
                &["list", name, "--format", "hex"],
                &["list", name, "--json", "--format", "raw"],
                &["assemble", name],
                &["cut", name, "1"],
                &["run", "x", "--steps", name],
            ] {
                is_plain(&bench_in(&directory, command), MOST);
            }
        }
    }
}

#[test]
fn a_name_on_the_command_line_is_not_shown_whole() {
    let directory = directory("text_long_names");
    let long = "x".repeat(100_000);
    for command in [
        &["run", &long][..],
        &["list", &long],
        &["sheet", "check", &long],
        &["run", "file", "--break", &long],
        &["cut", &long, "1"],
    ] {
        std::fs::write(directory.join("file"), [0; 4]).unwrap();
        let answer = bench_in(&directory, command);
        assert_eq!(answer.status, 3);
        is_plain(&answer, 10_000);
    }
}

#[test]
fn a_symbol_is_written_out_and_cut() {
    let directory = directory("text_symbols");
    let name = format!("\x1b[2J{}", "s".repeat(100_000));
    let symbol = Symbol {
        name: &name,
        address: 0x2000_0000,
        size: 4,
        section: 1,
    };
    let bytes = program(0x2000_0000, &[EBREAK], &[symbol]);
    std::fs::write(directory.join("image"), bytes).unwrap();
    let answer = bench_in(&directory, &["run", "image", "--cover", "--last", "3"]);
    assert_eq!(answer.status, 1, "{}", answer.err);
    assert!(answer.out.contains("letters more)"), "{}", answer.out);
    is_plain(&answer, 8_000);
}

// JSON is the same to a program, and a terminal has nothing to obey in it.
#[test]
fn json_has_no_raw_order_either() {
    let directory = directory("text_json");
    let sheet = "region\tall\t20000000\t00001000\trwx\n";
    std::fs::write(directory.join("board"), sheet).unwrap();
    std::fs::create_dir(directory.join("shelf")).unwrap();
    for name in NAMES {
        std::fs::write(directory.join("shelf").join(name), format!("{sheet}\n\0")).unwrap();
    }
    let answer = bench_in(
        &directory,
        &["shelf", "shelf", "--board", "board", "--json"],
    );
    is_plain(&answer, 10_000);
    let rows = answer.json()["rows"].as_array().unwrap().clone();
    let files: Vec<&str> = rows
        .iter()
        .map(|row| row["file"].as_str().unwrap())
        .collect();
    let mut names = NAMES;
    names.sort();
    assert_eq!(files, names);
    let one = format!("shelf/{}", NAMES[1]);
    let fit = bench_in(&directory, &["fit", "board", &one, "--json"]);
    is_plain(&fit, MOST);
    assert_eq!(fit.json()["images"][0]["file"], one);
}

/// A folder with a board and a shelf, where files of these bytes have such names.
fn with_shelf(name: &str, bytes: &[u8], names: &[&OsStr]) -> PathBuf {
    let directory = directory(name);
    let sheet = "region\tall\t20000000\t00001000\trwx\n";
    std::fs::write(directory.join("board"), sheet).unwrap();
    std::fs::create_dir(directory.join("shelf")).unwrap();
    for name in names {
        std::fs::write(directory.join("shelf").join(name), bytes).unwrap();
    }
    directory
}

#[test]
fn csv_has_no_raw_order_and_no_line_of_a_name() {
    let names = NAMES.map(OsStr::new);
    let more = [names[0], names[1], names[2], OsStr::new("a\nb")];
    let directory = with_shelf("text_csv", b"region\tx\x1b\n", &more);
    let answer = bench_in(&directory, &["shelf", "shelf", "--board", "board", "--csv"]);
    is_plain(&answer, 10_000);
    assert_eq!(answer.out.lines().count(), 1 + more.len(), "{}", answer.out);
    assert!(answer.out.contains("\na\\nb,"), "{}", answer.out);
}

#[test]
fn a_line_of_a_name_is_no_line_of_a_message() {
    let directory = with_shelf("text_lines", b"", &[]);
    std::fs::write(directory.join("image"), EBREAK.to_le_bytes()).unwrap();
    let name = format!("nodir/{}\nbench: all is good", "x".repeat(100_000));
    let never = format!("{name}:w");
    for command in [
        &["run", "image", "--save", &name][..],
        &["run", "image", "--report", &name],
        &["run", "image", "--save", "end", "--report", &name],
        &["run", "image", "--save", "nodir/\nbench: all is good"],
        &["run", "image", "--save", "image\n/"],
        &[
            "reach",
            "image",
            "--map",
            "board",
            "--at",
            "0x20000000",
            "--never",
            &never,
        ],
        &[
            "reach",
            "image",
            "--map",
            "board",
            "--at",
            "0x20000000",
            "--never",
            "x\n:w",
        ],
    ] {
        let answer = bench_in(&directory, command);
        assert_eq!((answer.status, answer.out.as_str()), (3, ""));
        assert_eq!(answer.err.lines().count(), 1, "{}", answer.err);
        is_plain(&answer, MOST);
    }
}

// Of one the last letter is a byte that is no text, and the other's is that byte written out.
#[test]
fn two_names_that_look_alike_are_two_images() {
    let names = [OsStr::new("a\\xff"), OsStr::from_bytes(b"a\xff")];
    let directory = with_shelf("text_alike", b"", &names);
    for (name, bytes) in names.iter().zip([&[0; 4][..], &[1; 6]]) {
        std::fs::write(directory.join("shelf").join(name), bytes).unwrap();
    }
    let shelf = || {
        let words = [
            "shelf", "shelf", "--board", "board", "--report", "pages", "--json",
        ];
        bench_in(&directory, &words)
    };
    let first = shelf();
    let pages = names_in(&directory.join("pages"));
    assert_eq!(pages.len(), names.len() + 2, "{pages:?}");
    let index = std::fs::read_to_string(directory.join("pages/index.html")).unwrap();
    let rows = first.json()["rows"].as_array().unwrap().clone();
    let links = index.split("<td><a href=\"").skip(1);
    let links: Vec<&str> = links.filter_map(|rest| rest.split('"').next()).collect();
    assert_eq!(links.len(), rows.len());
    for (row, link) in rows.iter().zip(links) {
        let page = std::fs::read_to_string(directory.join("pages").join(link)).unwrap();
        assert!(page.contains(row["sha256"].as_str().unwrap()), "{page}");
    }
    let again = shelf();
    assert_eq!(again.err, "bench: 2 of 2 results were at hand\n");
    assert_eq!(again.out, first.out);
}

// A register dump on a terminal is what a person pastes: white space and all.
#[test]
fn a_good_dump_is_explained_as_before() {
    let directory = directory("text_good");
    let line = "printf 'c2 \\t 0x20000400 metadata 0x7e00_0 tag 0' | tr -d _ | $BENCH explain - | head -n 1";
    let answer = shell_in(&directory, line);
    assert_eq!(answer.out, "No trap is recorded.\n", "{}", answer.err);
}
