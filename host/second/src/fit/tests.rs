//! Expectations are worked out by hand from document 02, section 12.

use super::*;

const BOARD: &[u8] =
    b"region\tcode\t20000000\t00000400\trx\nregion\tdata\t20000400\t00000c00\trw\n";

fn said(number: u64, rest: u64) -> u64 {
    number * 281_474_976_710_656 + rest
}

/// A line of 28 bytes and the rights.
fn line(start: u32, length: u32, rights: &str) -> String {
    format!("region\ta\t{start:08x}\t{length:08x}\t{rights}\n")
}

/// An image of one region, and where its payload is.
fn image(start: u32, length: u32, rights: &str, payload: &str) -> (Vec<u8>, u64) {
    let sheet = line(start, length, rights);
    let place = sheet.len() as u64 + 1;
    (format!("{sheet}\n{payload}").into_bytes(), place)
}

/// Whether an image of one region fits the board.
fn one_fits(start: u32, length: u32, rights: &str) -> bool {
    let (image, place) = image(start, length, rights, "payload");
    let answer = fit(BOARD, &image, &image);
    assert!(answer == said(16, 0) || answer == said(0, (1 << 40) + place));
    answer != said(16, 0)
}

#[test]
fn a_region_fits_up_to_the_last_byte_of_one_board_region() {
    assert!(one_fits(0x2000_0000, 0x400, "rx"));
    assert!(!one_fits(0x1FFF_FFFF, 0x400, "rx"));
    assert!(!one_fits(0x1FFF_FFFF, 0x401, "rx"));
    assert!(!one_fits(0x2000_0000, 0x401, "r"));
    assert!(one_fits(0x2000_0400, 0xC00, "rw"));
    assert!(!one_fits(0x2000_0400, 0xC01, "rw"));
    assert!(!one_fits(0x2000_0401, 0xC00, "rw"));
    assert!(one_fits(0x2000_0FFF, 1, "w"));
    assert!(!one_fits(0x2000_1000, 1, "w"));
    // Two that adjoin are not one, though both have the right to read.
    assert!(!one_fits(0x2000_03FF, 2, "r"));
}

#[test]
fn each_right_must_be_there() {
    for (rights, in_code, in_data) in [
        ("r", true, true),
        ("w", false, true),
        ("x", true, false),
        ("rw", false, true),
        ("rx", true, false),
        ("wx", false, false),
        ("rwx", false, false),
    ] {
        assert_eq!(one_fits(0x2000_0000, 1, rights), in_code, "{rights}");
        assert_eq!(one_fits(0x2000_0400, 1, rights), in_data, "{rights}");
    }
}

#[test]
fn every_region_of_an_image_counts() {
    let good = "region\tb\t20000000\t00000001\tx\n";
    for (second, fits) in [
        (line(0x2000_0400, 1, "w"), true),
        (line(0x2000_0400, 1, "x"), false),
    ] {
        let image = [good, &second, "\n"].concat();
        let expected = if fits {
            said(0, (1 << 40) + 59)
        } else {
            said(16, 0)
        };
        assert_eq!(fit(BOARD, image.as_bytes(), image.as_bytes()), expected);
    }
}

#[test]
fn the_first_that_fits_is_handed_back_with_its_payload() {
    let (good, place) = image(0x2000_0000, 4, "r", "one\n\ntwo");
    let (other, other_place) = image(0x2000_0400, 16, "rw", "other");
    let (bad_place, _) = image(0x3000_0000, 4, "r", "none");
    assert_eq!(choose(BOARD, &good, &other), Fit::Image(1, b"one\n\ntwo"));
    assert_eq!(choose(BOARD, &other, &good), Fit::Image(1, b"other"));
    assert_eq!(
        choose(BOARD, &bad_place, &good),
        Fit::Image(2, b"one\n\ntwo")
    );
    assert_eq!(
        choose(BOARD, &good, &bad_place),
        Fit::Image(1, b"one\n\ntwo")
    );
    assert_eq!(choose(BOARD, &bad_place, &bad_place), Fit::Neither);
    assert_eq!(fit(BOARD, &good, &other), said(0, (1 << 40) + place));
    assert_eq!(
        fit(BOARD, &bad_place, &other),
        said(0, (2 << 40) + other_place)
    );
}

#[test]
fn an_empty_payload_fits() {
    let (empty, place) = image(0x2000_0000, 4, "r", "");
    assert_eq!(place, empty.len() as u64);
    assert_eq!(fit(BOARD, &empty, &empty), said(0, (1 << 40) + place));
    assert_eq!(choose(BOARD, &empty, &empty), Fit::Image(1, b""));
}

#[test]
fn the_first_bad_sheet_is_named_even_if_the_other_image_fits() {
    let (good, _) = image(0x2000_0000, 4, "r", "payload");
    let (bad, worse) = (b"region\n", [&good[..29], b"x\n\n"].concat());
    assert_eq!(fit(b"", &good, &good), said(17, 1));
    assert_eq!(fit(b"", bad, bad), said(17, 1));
    assert_eq!(fit(b"\n", &good, bad), said(17, 1));
    assert_eq!(fit(BOARD, bad, &good), said(18, 1));
    assert_eq!(fit(BOARD, &worse, bad), said(18, 2));
    assert_eq!(fit(BOARD, &good, bad), said(19, 1));
    assert_eq!(fit(BOARD, &good, &worse), said(19, 2));
}

#[test]
fn an_image_needs_its_empty_line() {
    let sheet = line(0x2000_0000, 4, "r");
    for (image, bad_line) in [
        (sheet.clone(), 2),
        (format!("{sheet}payload"), 2),
        (format!("{sheet}payload\n\n"), 2),
        (format!("{sheet}\r\n"), 2),
        (format!("{sheet}{}", sheet.replace("\ta", "\tb")), 2),
        (String::new(), 1),
        ("\n".into(), 1),
        (format!("\n{sheet}\n"), 1),
        (sheet.trim_end().into(), 1),
    ] {
        let image = image.as_bytes();
        assert_eq!(fit(BOARD, image, image), said(18, bad_line), "{image:?}");
    }
    // The board's sheet has none.
    let (good, _) = image(0x2000_0000, 4, "r", "");
    assert_eq!(fit(&[BOARD, b"\n"].concat(), &good, &good), said(17, 3));
}

#[test]
fn an_image_of_64_regions_ends_at_its_empty_line() {
    let name = |index: u32| [b'a' + (index / 26) as u8, b'a' + (index % 26) as u8];
    let line = |index: u32| {
        let name = String::from_utf8(name(index).to_vec()).unwrap();
        format!("region\t{name}\t{:08x}\t00000001\tr\n", 0x2000_0000 + index)
    };
    let sheet = |count: u32| (0..count).map(line).collect::<String>();
    let full = sheet(64) + "\n";
    let place = full.len() as u64;
    assert_eq!(
        fit(BOARD, full.as_bytes(), full.as_bytes()),
        said(0, (1 << 40) + place)
    );
    for (image, bad_line) in [(sheet(65) + "\n", 65), (sheet(64), 65), (sheet(63), 64)] {
        assert_eq!(fit(BOARD, image.as_bytes(), b"\n"), said(18, bad_line));
    }
}
