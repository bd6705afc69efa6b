//! Images with a map sheet: which fits a board, why not, and runs that check it first.

mod common;

use common::words::{addi, EBREAK};
use common::{bench_in, directory, examples, golden, shell_in};
use serde_json::json;
use std::path::PathBuf;

const BOARD: &str = "region\tcode\t20000000\t00000400\trx\nregion\tdata\t20000400\t00000c00\trw\n";

/// An image of one region, with these bytes behind its sheet.
fn image(start: u32, length: u32, rights: &str, payload: &[u8]) -> Vec<u8> {
    let sheet = format!("region\tprogram\t{start:08x}\t{length:08x}\t{rights}\n\n");
    [sheet.as_bytes(), payload].concat()
}

/// A directory with a board and these images.
fn with_images(name: &str, images: &[(&str, Vec<u8>)]) -> PathBuf {
    let directory = directory(name);
    std::fs::write(directory.join("board"), BOARD).unwrap();
    for (name, bytes) in images {
        std::fs::write(directory.join(name), bytes).unwrap();
    }
    directory
}

/// c10 is 42, then a breakpoint.
fn code() -> Vec<u8> {
    let words = [addi(10, 0, 42), EBREAK];
    words.iter().flat_map(|word| word.to_le_bytes()).collect()
}

#[test]
fn the_demonstrations_label_catches_the_small_board() {
    let mut text = String::new();
    for arguments in [
        &["fit", "interlock_large.map", "interlock_image.img"][..],
        &["fit", "interlock_small.map", "interlock_image.img"],
    ] {
        let answer = bench_in(&examples(), arguments);
        text.push_str(&format!("== {}\n{}", arguments.join(" "), answer.text()));
    }
    golden("fits_demonstration", &text);
}

#[test]
fn each_region_that_does_not_fit_is_said_with_its_reason() {
    let directory = with_images("misfits", &[]);
    let mut text = String::new();
    for (name, start, length, rights, status) in [
        ("all of a region", 0x2000_0000, 0x400, "rx", 0),
        ("a byte too long", 0x2000_0400, 0xC01, "rw", 1),
        ("many bytes too long", 0x2000_0400, 0x2000, "rw", 1),
        ("a byte too early", 0x1FFF_FFFF, 0x10, "rx", 1),
        ("no right to write", 0x2000_0000, 0x10, "rw", 1),
        ("no right to execute", 0x2000_0400, 0x10, "rwx", 1),
        ("too long, and no right", 0x2000_0800, 0x1000, "x", 1),
        ("across two regions", 0x2000_03F0, 0x20, "r", 1),
        ("nowhere", 0x3000_0000, 0x20, "r", 1),
    ] {
        let bytes = image(start, length, rights, &code());
        std::fs::write(directory.join("image"), bytes).unwrap();
        let answer = bench_in(&directory, &["fit", "board", "image"]);
        assert_eq!((answer.status, answer.err.as_str()), (status, ""), "{name}");
        text.push_str(&format!("== {name}\n{}", answer.text()));
    }
    golden("misfits", &text);
}

#[test]
fn of_two_images_the_one_that_fits_is_named() {
    let good = image(0x2000_0000, 16, "rx", &code());
    let other = image(0x2000_0400, 16, "rw", b"");
    let misses = image(0x3000_0000, 16, "r", &code());
    let images = [("good", good), ("other", other), ("misses", misses)];
    let directory = with_images("two_images", &images);
    let mut text = String::new();
    for (first, second, status, number) in [
        ("good", "misses", 0, json!(1)),
        ("misses", "good", 0, json!(2)),
        ("good", "other", 0, json!(1)),
        ("other", "good", 0, json!(1)),
        ("misses", "misses", 1, json!(null)),
    ] {
        let answer = bench_in(&directory, &["fit", "board", first, second]);
        assert_eq!((answer.status, answer.err.as_str()), (status, ""));
        text.push_str(&format!("== {first} {second}\n{}", answer.text()));
        let value = bench_in(&directory, &["fit", "board", first, second, "--json"]).json();
        assert_eq!(value["fits"], number);
    }
    golden("two_images", &text);
}

#[test]
fn the_first_bad_sheet_is_named_with_its_line() {
    let good = image(0x2000_0000, 16, "rx", &code());
    let no_empty_line = good[..good.len() - code().len() - 1].to_vec();
    let images = [
        ("good", good),
        ("cut", no_empty_line),
        ("bad", b"x".to_vec()),
    ];
    let directory = with_images("bad_images", &images);
    let cut = "cut: line 2: the image ends here, without the empty line after its sheet";
    for (arguments, number, file, line, said) in [
        (
            ["bad", "bad", "bad"],
            17,
            "bad",
            1,
            "bad: line 1: it has no newline",
        ),
        (
            ["board", "bad", "cut"],
            18,
            "bad",
            1,
            "bad: line 1: it has no newline",
        ),
        (["board", "cut", "good"], 18, "cut", 2, cut),
        (["board", "good", "cut"], 19, "cut", 2, cut),
    ] {
        let arguments = [&["fit"][..], &arguments].concat();
        let answer = bench_in(&directory, &arguments);
        assert_eq!(
            (answer.status, answer.out.as_str()),
            (2, ""),
            "{arguments:?}"
        );
        let label = match number {
            17 => "",
            _ => "; an image that is judged begins with its label, a map sheet and an empty line",
        };
        assert_eq!(answer.err, format!("bench: {said}{label}\n"));
        let answer = bench_in(&directory, &[&arguments[..], &["--json"]].concat());
        let refused = &answer.json()["refused"];
        let found = (&refused["number"], &refused["file"], &refused["line"]);
        assert_eq!(found, (&json!(number), &json!(file), &json!(line)));
    }
    let missing = bench_in(&directory, &["fit", "board", "nowhere"]);
    assert_eq!(missing.status, 3);
    for arguments in [
        &["fit"][..],
        &["fit", "board"],
        &["fit", "board", "a", "b", "c"],
    ] {
        assert_eq!(bench_in(&directory, arguments).status, 3, "{arguments:?}");
    }
}

#[test]
fn a_fit_as_json() {
    let good = image(0x2000_0000, 16, "rx", &code());
    let long = image(0x2000_0400, 0x1000, "rw", &code());
    let directory = with_images("fit_json", &[("good", good), ("long", long)]);
    let region = |start, length, rights| json!({ "name": "program", "start": start, "length": length, "rights": rights });
    let with = |mut region: serde_json::Value, place: Option<&str>, reason: Option<&str>| {
        region["place"] = json!(place);
        region["reason"] = json!(reason);
        region
    };
    let good = with(region(0x2000_0000, 16, "rx"), Some("code"), None);
    let reason = "data is too short by 1,024 bytes";
    let long = with(region(0x2000_0400, 0x1000, "rw"), None, Some(reason));
    let value = bench_in(&directory, &["fit", "board", "long", "good", "--json"]).json();
    let expected = json!({
        "fits": 2,
        "payload": { "start": 37, "length": 8 },
        "images": [
            { "file": "long", "fits": false, "regions": [long], "outside": null, "broken": null, "notes": [] },
            { "file": "good", "fits": true, "regions": [good], "outside": null, "broken": null, "notes": [] },
        ],
    });
    assert_eq!(value, expected);
}

#[test]
fn a_run_checks_the_fit_first_and_says_so() {
    let good = image(0x2000_0000, 16, "rx", &code());
    let misses = image(0x2000_0400, 0x1000, "rw", &code());
    let directory = with_images("fit_runs", &[("good", good), ("misses", misses)]);
    let ran = bench_in(&directory, &["run", "--map", "board", "good"]);
    assert_eq!(ran.status, 1);
    assert!(ran
        .out
        .starts_with("good fits board.\n1 step retired, 1 trapped."));
    let value = bench_in(&directory, &["run", "--map", "board", "good", "--json"]).json();
    assert_eq!(value["fit"][0]["fits"], true);
    assert_eq!(value["state"]["registers"][10]["address"], 42);
    let refused = ["run", "--map", "board", "misses", "--save", "end"];
    let answer = bench_in(&directory, &refused);
    assert_eq!((answer.status, answer.out.as_str()), (2, ""));
    let said = "bench: refused, number 16: misses does not fit board\n  \
                program           [20000400, 20001400) rw      \
                no: data is too short by 1,024 bytes\n";
    assert_eq!(answer.err, said);
    assert!(!directory.join("end").exists());
    let value = bench_in(&directory, &[&refused[..], &["--json"]].concat()).json();
    assert_eq!(value["refused"]["number"], 16);
    let alone = bench_in(&directory, &["run", "misses"]);
    let unchecked = "misses has a map sheet; without a board's (--map) nothing was checked.\n";
    assert!(alone.out.starts_with(unchecked), "{}", alone.out);
}

/// Raw bytes lie where the sheet's first region starts; ELF and HEX where they say.
#[test]
fn the_payload_of_an_image_with_a_sheet_is_loaded() {
    let directory = with_images("payloads", &[]);
    let place = |bytes: Vec<u8>, more: &[&str]| {
        std::fs::write(directory.join("image"), bytes).unwrap();
        let run = ["run", "image", "--json", "--entry", "0x20000100"];
        let answer = bench_in(&directory, &[&run[..], more].concat());
        (
            answer.status,
            answer.json()["state"]["registers"][10]["address"].clone(),
        )
    };
    assert_eq!(
        place(image(0x2000_0100, 16, "rx", &code()), &[]),
        (1, json!(42))
    );
    let labelled = ["--format", "labelled"];
    assert_eq!(
        place(image(0x2000_0100, 16, "rx", &code()), &labelled),
        (1, json!(42))
    );
    let hex = b":020000042000DA\n:040100001305A00241\n:00000001FF\n";
    assert_eq!(
        place(image(0x2000_0000, 0x200, "rx", hex), &[]),
        (1, json!(42))
    );
    for (bytes, said) in [
        (image(0x2000_0100, 16, "rx", b""), "payload: it is empty"),
        (
            image(0x2000_0100, 16, "rx", b":x"),
            "payload: line 1: not pairs",
        ),
        (b"region\tx\n\n".to_vec(), "line 1: it is not region"),
    ] {
        std::fs::write(directory.join("image"), bytes).unwrap();
        let answer = bench_in(&directory, &["run", "image"]);
        assert_eq!((answer.status, answer.out.as_str()), (3, ""));
        assert!(
            answer.err.starts_with(&format!("bench: image: {said}")),
            "{}",
            answer.err
        );
    }
}

/// Files that can be read once, and output that cannot be written: the run is made and saved all the same.
#[test]
fn pipes_are_read_once_and_what_cannot_be_said_is_saved() {
    let good = image(0x2000_0000, 16, "rx", &code());
    let directory = with_images("fit_pipes", &[("good", good)]);
    let answer = shell_in(
        &directory,
        "$BENCH fit <(cat board) <(cat good) <(cat good)",
    );
    assert_eq!((answer.status, answer.err.as_str()), (0, ""));
    assert!(answer.out.starts_with("Image 1 fits /dev/fd/"));
    let answer = shell_in(
        &directory,
        "$BENCH run --map board good --save end >/dev/full",
    );
    assert_eq!(answer.status, 3, "{}", answer.err);
    assert!(directory.join("end").exists());
}
