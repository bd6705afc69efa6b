//! Listings of parts: which of a file are listed, what ends inside a word, and files of any length.

mod common;

use common::elf::{elf, with_symbols, Header, EXEC, RISCV};
use common::{assembled, bench_in, directory, sheet, shell_in};
use serde_json::json;
use std::path::{Path, PathBuf};

const CODE: &str = "c.nop; addi 10 0 -1; cjal 0 0";
/// Where the flags of a program header are, from the first one on.
const FLAGS: usize = 52 + 24;
const HEADER: usize = 32;
const EXECUTE: u8 = 5;
const WRITE: u8 = 6;

/// An ELF file with code, and with data that ends inside a word; flags of the two.
fn two_parts(code: &[u8], flags: [u8; 2]) -> Vec<u8> {
    let data = [0x13, 0x05, 0x01, 0x00, 0x13, 0x05, 0xF0];
    let header = |address, offset: usize, length: usize, zeros| Header {
        address,
        offset: offset as u32,
        in_file: length as u32,
        in_memory: (length + zeros) as u32,
    };
    let place = 52 + 2 * HEADER;
    let headers = [
        header(0x2000_0000, place, code.len(), 0),
        header(0x2000_0100, place + code.len(), data.len(), 9),
    ];
    let mut file = elf(1, EXEC, RISCV, &headers, &[code, &data].concat());
    for (index, flag) in flags.iter().enumerate() {
        file[FLAGS + HEADER * index] = *flag;
    }
    with_symbols(file, &[])
}

fn with_file(name: &str, flags: [u8; 2]) -> PathBuf {
    let directory = directory(name);
    let code = assembled(&directory, CODE);
    std::fs::write(directory.join("file"), two_parts(&code, flags)).unwrap();
    directory
}

fn list(directory: &Path, more: &[&str]) -> (i32, String, String) {
    let answer = bench_in(directory, &[&["list", "file"], more].concat());
    (answer.status, answer.out, answer.err)
}

const FIRST: &str = "file: segment 0 at [20000000, 2000000a)
  20000000  0001      c.nop
  20000002  fff00513  addi 10 0 -1
  20000006  0000006f  cjal 0 0
";
const SECOND: &str = "file: segment 1 at [20000100, 20000110)
  20000100  00010513  addi 10 2 0
  20000104  1305f0    data: the bytes end inside a word
  then 9 bytes of zeros, which are not in the file
";
const NOT_SECOND: &str =
    "file: segment 1 at [20000100, 20000110), not listed; --segment 1 lists it\n";
const NOT_FIRST: &str =
    "file: segment 0 at [20000000, 2000000a), not listed; --segment 0 lists it\n";

#[test]
fn what_may_be_executed_is_listed_and_a_tail_is_data() {
    let directory = with_file("parts_code", [EXECUTE, WRITE]);
    let both = |first: &str, second: &str| (0, format!("{first}\n{second}"), String::new());
    assert_eq!(list(&directory, &[]), both(FIRST, NOT_SECOND));
    assert_eq!(
        list(&directory, &["--segment", "1"]),
        both(NOT_FIRST, SECOND)
    );
    let named = ["--segment", "1", "--segment", "0x0"];
    assert_eq!(list(&directory, &named), both(FIRST, SECOND));
    // Where nothing may be executed, all of it is listed.
    let directory = with_file("parts_none", [WRITE, WRITE]);
    assert_eq!(list(&directory, &[]), both(FIRST, SECOND));
    let (status, _, err) = list(&directory, &["--segment", "2"]);
    let said = "bench: file: no part has the number 2; there are 0, 1\n";
    assert_eq!((status, err.as_str()), (3, said));
}

#[test]
fn a_range_is_listed_from_its_start_on() {
    let directory = with_file("parts_range", [EXECUTE, WRITE]);
    let at = |start, length| list(&directory, &["--range", start, length]).1;
    let first = "file: segment 0 at [20000000, 2000000a)\n  20000002  fff00513  addi 10 0 -1\n\n";
    assert_eq!(at("0x20000002", "4"), first.to_string() + NOT_SECOND);
    // Data too, and a word that goes on after it.
    let second = "\nfile: segment 1 at [20000100, 20000110)\n  20000102  0001      c.nop\n  \
                  20000104  1305      data: the bytes end inside a word\n  then 9 bytes of zeros, which are not in the file\n";
    assert_eq!(at("0x20000102", "4"), NOT_FIRST.to_string() + second);
    let (status, _, err) = list(&directory, &["--range", "0x2000000a", "2"]);
    assert!(
        status == 3 && err.contains("no byte of it lies in [2000000a, 2000000c)"),
        "{err}"
    );
}

#[test]
fn the_plain_form_has_no_line_for_a_tail() {
    let directory = with_file("parts_plain", [EXECUTE, WRITE]);
    let plain = "c.nop\naddi\t10\t0\t-1\ncjal\t0\t0\n";
    assert_eq!(
        list(&directory, &["--plain"]),
        (0, plain.into(), String::new())
    );
    let (status, out, err) = list(&directory, &["--plain", "--segment", "1"]);
    let said = "bench: refused, number 15: file: segment 1 at [20000100, 20000110): \
                the bytes end inside the word at offset 4, 20000104\n";
    assert_eq!((status, out.as_str(), err.as_str()), (2, "", said));
}

#[test]
fn parts_as_json_say_whether_they_are_listed() {
    let directory = with_file("parts_json", [EXECUTE, WRITE]);
    let value = bench_in(&directory, &["list", "file", "--json"]).json();
    let parts = value["parts"].as_array().unwrap();
    assert_eq!(parts[0]["words"].as_array().unwrap().len(), 3);
    let second = json!({
        "origin": "file: segment 1", "number": 1, "address": 0x2000_0100, "listed": false, "words": [], "tail": null, "zeros": 9,
    });
    assert_eq!(parts[1], second);
    let value = bench_in(&directory, &["list", "file", "--json", "--segment", "1"]).json();
    let tail = json!({ "address": 0x2000_0104, "bytes": "1305f0" });
    assert_eq!(value["parts"][1]["tail"], tail);
    assert_eq!(value["parts"][0]["listed"], false);
}

/// Intel HEX of bytes at an address of two digits.
fn record(at: u8, bytes: &[u8]) -> String {
    let body = [&[bytes.len() as u8, 0, at, 0], bytes].concat();
    let sum = body.iter().fold(0u8, |sum, byte| sum.wrapping_sub(*byte));
    let digits = |bytes: &[u8]| {
        bytes
            .iter()
            .map(|byte| format!("{byte:02X}"))
            .collect::<String>()
    };
    format!(":{}{}\n", digits(&body), digits(&[sum]))
}

#[test]
fn hex_is_listed_part_by_part_in_its_order() {
    let directory = directory("parts_hex");
    let text = [
        record(0x40, &[0x01, 0x00, 0x13]),
        record(0x43, &[0x05, 0xF0, 0xFF, 0x6F]),
        record(0x10, &[0x01, 0x00]),
        ":00000001FF\r\n".into(),
    ];
    std::fs::write(directory.join("file"), text.concat()).unwrap();
    let shown = "file: the data from line 1 on at [00000040, 00000047)
  00000040  0001      c.nop
  00000042  fff00513  addi 10 0 -1
  00000046  6f        data: the bytes end inside a word

file: the data from line 3 on at [00000010, 00000012)
  00000010  0001      c.nop
";
    assert_eq!(list(&directory, &[]), (0, shown.into(), String::new()));
    let range = list(&directory, &["--range", "0x42", "4", "--plain"]);
    assert_eq!(range, (0, "addi\t10\t0\t-1\n".into(), String::new()));
    let one = list(&directory, &["--segment", "1", "--plain"]);
    assert_eq!(one, (0, "c.nop\n".into(), String::new()));
    // What is wrong with a file is told before any of it is listed.
    std::fs::write(directory.join("file"), text[..3].concat()).unwrap();
    let (status, out, err) = list(&directory, &[]);
    assert_eq!((status, out.as_str()), (3, ""), "{err}");
    assert!(
        err.ends_with("file: it is cut short: there is no end record\n"),
        "{err}"
    );
}

#[test]
fn a_payload_is_listed_whatever_its_form() {
    let directory = directory("parts_payload");
    let code = assembled(&directory, CODE);
    let label = sheet(&["mine 20000200 00000100 rx"]) + "\n";
    let hex = record(0x10, &code) + ":00000001FF\n";
    for (payload, address) in [
        (code.clone(), "20000200"),
        (hex.into_bytes(), "00000010"),
        (two_parts(&code, [EXECUTE, WRITE]), "20000000"),
    ] {
        std::fs::write(
            directory.join("file"),
            [label.as_bytes(), &payload].concat(),
        )
        .unwrap();
        let (status, out, err) = list(&directory, &[]);
        let first = format!("  {address}  0001      c.nop\n");
        assert!(status == 0 && out.contains(&first), "{out}{err}");
    }
    std::fs::write(directory.join("file"), &label).unwrap();
    let (status, _, err) = list(&directory, &[]);
    assert_eq!(
        (status, err.as_str()),
        (3, "bench: file: payload: it is empty\n")
    );
}

// More than is listed at a time, so that pieces end inside words; each form says what the lister says of the whole.
#[test]
fn a_long_listing_is_that_of_its_words() {
    let directory = directory("parts_long");
    let piece = [0x01, 0x00, 0x13, 0x05, 0xF0, 0xFF];
    let code: Vec<u8> = piece.iter().copied().cycle().take(600_000).collect();
    std::fs::write(directory.join("file"), &code).unwrap();
    let plain = list(&directory, &["--plain"]).1;
    assert!(plain == "c.nop\naddi\t10\t0\t-1\n".repeat(100_000));
    let (_, shown, _) = list(&directory, &[]);
    let line = "  200927bc  fff00513  addi 10 0 -1";
    assert_eq!(
        (shown.lines().count(), shown.lines().last()),
        (200_001, Some(line))
    );
    let value = bench_in(&directory, &["list", "file", "--json"]).json();
    let words = value["parts"][0]["words"].as_array().unwrap();
    assert_eq!(words.len(), 200_000);
    assert_eq!(words[199_999]["address"], 0x2009_27BC);
    let line = "$BENCH list file --plain | $BENCH assemble - | cmp - file";
    assert_eq!(shell_in(&directory, line).text(), "status 0\n");
    // Whoever reads the first lines alone gets no message.
    let line = "$BENCH list file | head -n 2 | tail -n 1; $BENCH list file --json | head -n 1; $BENCH list file >/dev/full";
    let answer = shell_in(&directory, line);
    assert_eq!(answer.out, "  20000000  0001      c.nop\n{\n");
    assert_eq!(
        (answer.status, answer.err.as_str()),
        (3, "bench: standard output: no room is left there\n")
    );
}
