//! Image files: each form that is read, and odd ones, which are refused by name with nothing
//! written.

mod common;

use common::elf::{elf, Header, EXEC, RISCV};
use common::words::{addi, EBREAK};
use common::{bench_in, directory, golden, shell_in, Answer};
use serde_json::Value;
use std::path::Path;

/// Two instructions: c10 is 42, then a breakpoint.
fn code() -> Vec<u8> {
    let words = [addi(10, 0, 42), EBREAK];
    words.iter().flat_map(|word| word.to_le_bytes()).collect()
}

/// The program's ELF file, its code at an address.
fn program(address: u32) -> Vec<u8> {
    let header = Header {
        address,
        offset: 84,
        in_file: 8,
        in_memory: 16,
    };
    elf(1, EXEC, RISCV, &[header], &code())
}

/// The program's HEX file.
fn hex() -> String {
    let mut record = vec![8, 1, 0, 0];
    record.extend(code());
    let sum = record.iter().fold(0u8, |sum, byte| sum.wrapping_sub(*byte));
    record.push(sum);
    let digits: String = record.iter().map(|byte| format!("{byte:02X}")).collect();
    format!(":020000042000DA\n:{digits}\n:0400000520000100D6\n:00000001FF\n")
}

fn with_file(directory: &Path, bytes: &[u8], more: &[&str]) -> Answer {
    std::fs::write(directory.join("image"), bytes).unwrap();
    let mut arguments = vec!["run", "image", "--save", "end"];
    arguments.extend(more);
    bench_in(directory, &arguments)
}

#[test]
fn each_form_is_loaded_and_run() {
    let directory = directory("forms");
    let forms = [code(), program(0x2000_0100), hex().into_bytes()];
    for (bytes, at) in forms.iter().zip([0x2000_0004u32, 0x2000_0104, 0x2000_0104]) {
        let answer = with_file(&directory, bytes, &["--json"]);
        let value = answer.json();
        assert_eq!(answer.status, 1);
        assert_eq!(value["state"]["registers"][10]["address"], 42);
        assert_eq!(value["trap"]["mcause"], 3);
        assert_eq!(value["trap"]["action"], Value::Null);
        assert_eq!(value["trap"]["at"], at);
    }
}

#[test]
fn a_form_can_be_named() {
    let directory = directory("named_form");
    let answer = with_file(&directory, hex().as_bytes(), &["--format", "raw", "--json"]);
    assert_eq!(answer.json()["trap"]["mcause"], 2);
    assert_eq!(
        with_file(&directory, &code(), &["--format", "hex"]).status,
        3
    );
    assert_eq!(
        with_file(&directory, &code(), &["--format", "elf"]).status,
        3
    );
}

#[test]
fn an_elf_files_symbols_are_not_needed_and_its_zeros_are_there() {
    let directory = directory("elf_zeros");
    let answer = with_file(&directory, &program(0x2000_0100), &["--size", "320"]);
    assert_eq!(answer.status, 1);
    let saved = std::fs::read_to_string(directory.join("end")).unwrap();
    assert!(
        saved.contains("\n00000100 1305a00273001000000000000"),
        "{saved}"
    );
}

/// Bad ELF files by name.
fn bad_elf_files() -> Vec<(&'static str, Vec<u8>)> {
    let header = |address, offset, in_file, in_memory| Header {
        address,
        offset,
        in_file,
        in_memory,
    };
    let one = |header| elf(1, EXEC, RISCV, &[header], &code());
    let twice = [
        header(0x2000_0100, 116, 8, 16),
        header(0x2000_0108, 116, 8, 8),
    ];
    vec![
        ("elf cut in its header", program(0x2000_0100)[..40].to_vec()),
        (
            "elf cut in its program headers",
            program(0x2000_0100)[..60].to_vec(),
        ),
        ("elf cut in a segment", program(0x2000_0100)[..88].to_vec()),
        ("elf of 64 bits", elf(2, EXEC, RISCV, &[], &[0; 64])),
        ("elf for another processor", elf(1, EXEC, 40, &[], &[])),
        ("elf that is not linked", elf(1, 1, RISCV, &[], &[])),
        ("elf without a segment", elf(1, EXEC, RISCV, &[], &[])),
        (
            "elf with more in the file",
            one(header(0x2000_0100, 84, 8, 4)),
        ),
        ("elf past 2^32", one(header(0xFFFF_FFFC, 84, 8, 8))),
        ("elf outside memory", one(header(0x3000_0000, 84, 8, 8))),
        (
            "elf with overlapping segments",
            elf(1, EXEC, RISCV, &twice, &code()),
        ),
    ]
}

#[test]
fn odd_files_are_refused_by_name_and_place() {
    let directory = directory("odd_files");
    let mut files = bad_elf_files();
    let cut_hex = hex().replace(":00000001FF\n", "").into_bytes();
    let odd_start = hex().replace(":0400000520000100D6", ":0400000520000101D5");
    let wrong_sum = hex().replace(":0400000520000100D6", ":0400000520000100D7");
    files.extend([
        ("empty", Vec::new()),
        ("larger than memory", vec![0; 65_537]),
        ("hex cut short", cut_hex),
        ("hex without data", b":00000001FF\n".to_vec()),
        ("hex with a wrong sum", wrong_sum.into_bytes()),
        ("hex with an odd start", odd_start.into_bytes()),
        ("elf with an odd start", program(0x2000_0101)),
        ("hex that is not text", b":\xFF\xFE".to_vec()),
    ]);
    let mut text = String::new();
    for (name, bytes) in files {
        let answer = with_file(&directory, &bytes, &[]);
        assert_eq!((answer.status, answer.out.as_str()), (3, ""), "{name}");
        assert!(!directory.join("end").exists(), "{name}");
        text.push_str(&format!("== {name}\n{}", answer.text()));
    }
    golden("odd_files", &text);
}

#[test]
fn overlapping_images_are_refused() {
    let directory = directory("overlapping");
    std::fs::write(directory.join("first"), hex()).unwrap();
    std::fs::write(directory.join("second"), program(0x2000_0104)).unwrap();
    golden(
        "overlapping",
        &bench_in(&directory, &["run", "first", "second"]).text(),
    );
}

#[test]
fn a_segment_without_bytes_in_the_file_may_be_anywhere_there() {
    let directory = directory("elf_bss");
    let code_at = |address| Header {
        address,
        offset: 116,
        in_file: 8,
        in_memory: 8,
    };
    let bss = Header {
        address: 0x2000_0200,
        offset: 0x7FFF_FFFF,
        in_file: 0,
        in_memory: 64,
    };
    let bytes = elf(1, EXEC, RISCV, &[code_at(0x2000_0100), bss], &code());
    assert_eq!(with_file(&directory, &bytes, &[]).status, 1);
}

/// The place of a segment is looked at before its zeros are made.
#[test]
fn a_segment_of_4_gigabytes_needs_no_memory() {
    let directory = directory("elf_huge");
    let huge = Header {
        address: 0,
        offset: 84,
        in_file: 8,
        in_memory: 0xFFFF_FFFF,
    };
    let bytes = elf(1, EXEC, RISCV, &[huge], &code());
    std::fs::write(directory.join("image"), bytes).unwrap();
    let answer = shell_in(&directory, "ulimit -v 1000000; exec $BENCH run image");
    assert_eq!(answer.status, 3, "{}", answer.err);
    let reason = "bench: image: segment 0 at [00000000, ffffffff): not all inside memory, \
                  [20000000, 20010000)\n";
    assert_eq!(answer.err, reason);
}

#[test]
fn a_file_without_an_end_is_refused() {
    let directory = directory("endless");
    let answer = shell_in(&directory, "ulimit -v 2000000; exec $BENCH run /dev/zero");
    assert_eq!(answer.status, 3);
    let reason = "bench: /dev/zero: the file has more than 268435456 bytes\n";
    assert_eq!(answer.err, reason);
}

#[test]
fn a_bad_map_sheet_is_named_with_its_line_and_what_is_wrong() {
    let directory = directory("bad_map");
    std::fs::write(directory.join("image"), code()).unwrap();
    let sheet = "region\tcode\t20000000\t00000400\trx\nregion\tdata\t200003ff\t00000400\trw\n";
    std::fs::write(directory.join("map"), sheet).unwrap();
    let answer = bench_in(&directory, &["run", "image", "--map", "map"]);
    assert_eq!(answer.status, 3);
    assert_eq!(answer.err, "bench: map: line 2: the region overlaps code\n");
}

#[test]
fn missing_files_are_named() {
    let directory = directory("missing");
    std::fs::write(directory.join("image"), code()).unwrap();
    let mut text = String::new();
    for arguments in [
        &["run", "nowhere"][..],
        &["run", "."],
        &["run", "--state", "nowhere"],
        &["run", "image", "--map", "nowhere"],
        &["run", "image", "--save", "nowhere/end"],
        &["explain", "nowhere"],
        &["explain", "image"],
    ] {
        let answer = bench_in(&directory, arguments);
        assert_eq!(
            (answer.status, answer.out.as_str()),
            (3, ""),
            "{arguments:?}"
        );
        text.push_str(&format!("== {}\n{}", arguments.join(" "), answer.text()));
    }
    golden("missing_files", &text);
}

#[test]
fn bad_usage_has_status_3_and_help_has_0() {
    let directory = directory("usage");
    for arguments in [
        &[][..],
        &["run"],
        &["run", "image", "--steps", "many"],
        &["run", "image", "--steps", "+5"],
        &["run", "image", "--steps", "18446744073709551616"],
        &["run", "image", "--start", "0x100000000"],
        &["run", "image", "--until-trap", "--through-traps"],
        &["run", "--state", "start", "--size", "64"],
        &["cut", "1"],
        &["sweep"],
    ] {
        assert_eq!(bench_in(&directory, arguments).status, 3, "{arguments:?}");
    }
    assert_eq!(bench_in(&directory, &["--help"]).status, 0);
    assert_eq!(bench_in(&directory, &["run", "--help"]).status, 0);
}
