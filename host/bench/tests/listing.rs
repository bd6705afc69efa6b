//! Listings: what people read, the plain form and back to bytes, cut-off words and bad lines.

mod common;

use common::words::{addi, store, EBREAK};
use common::{bench_in, directory, examples, golden, names_in, shell_in};
use serde_json::json;

/// Long and short words, legal and illegal: c.nop, addi, csc, the zero half, a long word that is none.
fn code() -> Vec<u8> {
    let long = |word: u32| word.to_le_bytes().to_vec();
    let short = |half: u16| half.to_le_bytes().to_vec();
    [
        short(0x0001),
        long(addi(10, 0, -1)),
        long(store(3, 8)),
        short(0x0000),
        long(0xFFFF_FFFF),
        short(0x852E),
    ]
    .concat()
}

/// What that lists as.
const PLAIN: &str = "c.nop\naddi\t10\t0\t-1\ncsc\t2\t3\t8\n0000\nffffffff\nc.mv\t10\t11\n";

/// An ELF file of two segments, the second with zeros after its bytes.
fn elf() -> Vec<u8> {
    let (first, second) = (EBREAK.to_le_bytes(), 0x9002u16.to_le_bytes());
    let mut bytes = b"\x7fELF\x01\x01\x01\0\0\0\0\0\0\0\0\0\x02\0\xf3\0".to_vec();
    let words = [1u32, 0x2000_0100, 52, 0, 0];
    bytes.extend(words.iter().flat_map(|word| word.to_le_bytes()));
    let halves = [52u16, 32, 2, 40, 0, 0];
    bytes.extend(halves.iter().flat_map(|half| half.to_le_bytes()));
    for (address, offset, size, in_memory) in [
        (0x2000_0100u32, 116u32, 4u32, 4u32),
        (0x2000_0200, 120, 2, 1002),
    ] {
        let words = [1, offset, address, address, size, in_memory, 7, 4];
        bytes.extend(words.iter().flat_map(|word| word.to_le_bytes()));
    }
    bytes.extend(first);
    bytes.extend(second);
    bytes
}

fn with_file(name: &str, bytes: &[u8]) -> std::path::PathBuf {
    let directory = directory(name);
    std::fs::write(directory.join("file"), bytes).unwrap();
    directory
}

#[test]
fn an_image_is_listed_by_address_word_and_instruction() {
    let mut said = String::new();
    let directory = with_file("listed", &code());
    std::fs::write(directory.join("two.elf"), elf()).unwrap();
    for arguments in [
        &["list", "file"][..],
        &["list", "file", "--start", "0x100"],
        &["list", "two.elf"],
        &["list", "two.elf", "--plain"],
        &["list", "nowhere"],
        &["list", "file", "--format", "hex"],
    ] {
        let answer = bench_in(&directory, arguments);
        said.push_str(&format!("== {}\n{}", arguments.join(" "), answer.text()));
    }
    let image = bench_in(&examples(), &["list", "interlock_image_short.hex"]);
    golden(
        "listing",
        &format!("{said}== short image\n{}", image.text()),
    );
}

#[test]
fn the_plain_form_is_the_listers_and_assembles_to_the_same_bytes() {
    let directory = with_file("plain", &code());
    let plain = bench_in(&directory, &["list", "file", "--plain"]);
    assert_eq!(
        (plain.status, plain.out.as_str(), plain.err.as_str()),
        (0, PLAIN, "")
    );
    std::fs::write(directory.join("text"), &plain.out).unwrap();
    let saved = bench_in(&directory, &["assemble", "text", "-o", "back"]);
    assert_eq!(saved.text(), "status 0\n");
    assert_eq!(std::fs::read(directory.join("back")).unwrap(), code());
    let line = "$BENCH assemble text | cmp - file";
    assert_eq!(shell_in(&directory, line).text(), "status 0\n");
    std::fs::write(directory.join("text"), "").unwrap();
    assert_eq!(
        bench_in(&directory, &["assemble", "text"]).text(),
        "status 0\n"
    );
}

/// Other encodings of FENCE and of FENCE.TSO list as the chosen word, and assemble to that.
#[test]
fn an_encoding_of_the_same_instruction_becomes_the_chosen_word() {
    let bytes = |words: [u32; 2]| words.map(u32::to_le_bytes).concat();
    let directory = with_file("chosen", &bytes([0x933F_8F8F, 0x833F_8F8F]));
    let line = "$BENCH list file --plain | tee text && $BENCH assemble text -o back";
    let text = "fence\t3\t3\nfence.tso\nstatus 0\n";
    assert_eq!(shell_in(&directory, line).text(), text);
    let back = std::fs::read(directory.join("back")).unwrap();
    assert_eq!(back, bytes([0x0330_000F, 0x8330_000F]));
}

#[test]
fn a_listing_is_json_too() {
    let directory = with_file("listed_json", &elf());
    let value = bench_in(&directory, &["list", "file", "--json"]).json();
    let word = |address: u32, word: u32, length: u32, name: &str| {
        let word =
            json!({ "address": address, "word": word, "length": length, "instruction": name });
        json!([word])
    };
    let part = |segment: u32, address: u32, words, zeros: u32| {
        let origin = format!("file: segment {segment}");
        json!({
            "origin": origin, "number": segment, "address": address, "listed": true, "words": words, "tail": null, "zeros": zeros,
        })
    };
    let first = part(0, 0x2000_0100, word(0x2000_0100, EBREAK, 4, "ebreak"), 0);
    let second = part(
        1,
        0x2000_0200,
        word(0x2000_0200, 0x9002, 2, "c.ebreak"),
        1000,
    );
    assert_eq!(value, json!({ "parts": [first, second] }));
}

#[test]
fn a_cut_off_word_is_refused_with_its_place() {
    let directory = directory("cut_off");
    for (bytes, offset) in [(1, 0), (3, 2), (5, 2), (8, 6), (17, 16)] {
        std::fs::write(directory.join("file"), &code()[..bytes]).unwrap();
        let answer = bench_in(&directory, &["list", "file", "--plain"]);
        let end = 0x2000_0000 + bytes;
        let said = format!(
            "bench: refused, number 15: file: raw bytes at [20000000, {end:08x}): \
             the bytes end inside the word at offset {offset}, {:08x}\n",
            0x2000_0000 + offset
        );
        assert_eq!(
            (answer.status, answer.out, answer.err),
            (2, String::new(), said)
        );
        // For a person it is data.
        let shown = bench_in(&directory, &["list", "file"]);
        let code = code();
        let digits = code[offset..bytes].iter().map(|byte| format!("{byte:02x}"));
        let digits: String = digits.collect();
        let line = format!(
            "  {:08x}  {digits:<8}  data: the bytes end inside a word\n",
            0x2000_0000 + offset
        );
        assert!(
            shown.status == 0 && shown.out.ends_with(&line),
            "{}",
            shown.out
        );
    }
}

#[test]
fn a_bad_line_is_refused_with_its_number_and_text() {
    let directory = directory("bad_line");
    let mut said = String::new();
    for text in [
        "c.nop\naddi 10 0 -1\n",
        "c.nop\naddi\t10\t0\t-1\nebreak",
        "c.nop\n\nwfi\n",
        "addi\t10\t0\t007\n",
        "addi\t16\t0\t7\n",
        "00100073\n",
        "FFFFFFFF\n",
        "c.nop\r\n",
        "\u{1b}[2J\n",
        &format!("c.nop\nwfi\n{}\n", "x".repeat(81)),
    ] {
        std::fs::write(directory.join("text"), text).unwrap();
        let answer = bench_in(&directory, &["assemble", "text", "-o", "out"]);
        assert_eq!((answer.status, answer.out.as_str()), (2, ""), "{text}");
        said.push_str(&answer.text());
    }
    golden("bad_lines", &said);
    assert_eq!(names_in(&directory), ["text"]);
}

#[test]
fn what_is_assembled_is_saved_whole_and_not_over_its_text() {
    let directory = with_file("assembled_over", b"wfi\n");
    let over = bench_in(
        &directory,
        &["assemble", "file", "-o", "../assembled_over/file"],
    );
    let reason = "bench: ../assembled_over/file: it is read, and not written over\n";
    assert_eq!((over.status, over.err.as_str()), (3, reason));
    assert_eq!(std::fs::read(directory.join("file")).unwrap(), b"wfi\n");
    for bad in [
        &["assemble", "file", "-o", "nowhere/out"][..],
        &["assemble", "nowhere"],
    ] {
        assert_eq!(bench_in(&directory, bad).status, 3, "{bad:?}");
    }
    assert_eq!(
        shell_in(&directory, "$BENCH assemble file >/dev/full").status,
        3
    );
    assert_eq!(names_in(&directory), ["file"]);
}

#[test]
fn bad_usage_of_the_two_has_status_3() {
    let directory = with_file("listing_usage", &code());
    for arguments in [
        &["list"][..],
        &["list", "file", "file"],
        &["list", "file", "--plain", "--json"],
        &["list", "file", "--start", "0x100000000"],
        &["assemble"],
        &["assemble", "file", "-o"],
    ] {
        assert_eq!(bench_in(&directory, arguments).status, 3, "{arguments:?}");
    }
}
