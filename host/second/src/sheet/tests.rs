//! Expectations are worked out by hand from document 02, section 7.

use super::*;

const BOARD: &[u8] =
    b"region\tcode\t20000000\t00000400\trx\nregion\tdata\t20000400\t00000c00\trw\n";
/// The records of that sheet: "code" and "data" with their low letters first.
const RECORDS: [u32; 14] = [
    0x6564_6F63,
    0,
    0,
    0,
    0x2000_0000,
    0x400,
    5, //
    0x6174_6164,
    0,
    0,
    0,
    0x2000_0400,
    0xC00,
    3,
];
const UNWRITTEN: u32 = 0xA5A5_5A5A;

fn said(number: u64, rest: u64) -> u64 {
    number * 281_474_976_710_656 + rest
}

/// The number and the rest of reading a sheet with room for all records, which stay in a refusal.
fn reading(sheet: &[u8]) -> u64 {
    let mut records = [UNWRITTEN; 7 * 64];
    let answer = read(sheet, &mut records);
    if answer >> 48 != 0 {
        assert_eq!(records, [UNWRITTEN; 7 * 64]);
    }
    answer
}

/// A sheet of so many regions of 16 bytes, one after the other.
fn long(count: u32) -> Vec<u8> {
    let name = |index: u32| [b'a' + (index / 26) as u8, b'a' + (index % 26) as u8];
    let line = |index: u32| {
        let name = String::from_utf8(name(index).to_vec()).unwrap();
        format!("region\t{name}\t{:08x}\t00000010\trwx\n", 16 * index)
    };
    (0..count)
        .flat_map(|index| line(index).into_bytes())
        .collect()
}

#[test]
fn a_good_sheet_is_read_and_written_back() {
    let mut records = [UNWRITTEN; 15];
    assert_eq!(read(BOARD, &mut records), said(0, 2));
    assert_eq!((&records[..14], records[14]), (&RECORDS[..], UNWRITTEN));
    let mut out = [7; 68];
    assert_eq!(write(&RECORDS, &mut out), said(0, 66));
    assert_eq!((&out[..66], &out[66..]), (BOARD, &[7, 7][..]));
}

#[test]
fn every_form_that_is_none_is_bad() {
    let good = "region\tcode\t20000000\t00000400\trx\n";
    for line in [
        "\n",
        "region\n",
        "region\tdata\t20000400\t00000400\trx",
        "region\tdata\t20000400\t00000400\trx\r\n",
        "region\tdata\t20000400\t00000400\trx \n",
        "region\tdata\t20000400\t00000400\trx\t\n",
        "region\tdata\t20000400\t00000400\n",
        "region\tdata\t20000400\t00000400\t\n",
        "region\t\tdata\t20000400\t00000400\trx\n",
        "region data\t20000400\t00000400\trx\n",
        "regions\tdata\t20000400\t00000400\trx\n",
        "Region\tdata\t20000400\t00000400\trx\n",
        "\tdata\t20000400\t00000400\trx\n",
        "region\t\t20000400\t00000400\trx\n",
        "region\tDATA\t20000400\t00000400\trx\n",
        "region\tdat1\t20000400\t00000400\trx\n",
        "region\tda_ta\t20000400\t00000400\trx\n",
        "region\tabcdefghijklmnopq\t20000400\t00000400\trx\n",
        "region\tdata\t2000400\t00000400\trx\n",
        "region\tdata\t020000400\t00000400\trx\n",
        "region\tdata\t0x000400\t00000400\trx\n",
        "region\tdata\t2000040A\t00000400\trx\n",
        "region\tdata\t2000040g\t00000400\trx\n",
        "region\tdata\t20000400\t0000040\trx\n",
        "region\tdata\t20000400\t000000400\trx\n",
        "region\tdata\t20000400\t00000400\tX\n",
        "region\tdata\t20000400\t00000400\txr\n",
        "region\tdata\t20000400\t00000400\twr\n",
        "region\tdata\t20000400\t00000400\trr\n",
        "region\tdata\t20000400\t00000400\trwxr\n",
        "region\tdata\t20000400\t00000400\tr,w\n",
        "region\tdata\t20000400\t00000400\tr w\n",
        "region\tdata\t20000400\t00000400\t-\n",
        " region\tdata\t20000400\t00000400\trx\n",
        "#\n",
        "x",
    ] {
        assert_eq!(
            reading(format!("{good}{line}").as_bytes()),
            said(13, 2),
            "{line:?}"
        );
        assert_eq!(
            reading(format!("{line}{good}").as_bytes()),
            said(13, 1),
            "{line:?}"
        );
    }
    assert_eq!(reading(b""), said(13, 1));
}

#[test]
fn every_rights_text_is_read() {
    for (rights, text) in ["r", "w", "rw", "x", "rx", "wx", "rwx"].iter().enumerate() {
        let sheet = format!("region\ta\t00000000\t00000001\t{text}\n");
        let mut records = [0; 7];
        assert_eq!(read(sheet.as_bytes(), &mut records), said(0, 1));
        assert_eq!(records, [0x61, 0, 0, 0, 0, 1, rights as u32 + 1], "{text}");
    }
}

#[test]
fn names_have_1_to_16_letters() {
    let sheet = |name: &str| format!("region\t{name}\t00000000\t00000001\tr\n").into_bytes();
    assert_eq!(reading(&sheet("a")), said(0, 1));
    let mut records = [0; 7];
    assert_eq!(read(&sheet("abcdefghijklmnop"), &mut records), said(0, 1));
    let name = [0x6463_6261, 0x6867_6665, 0x6C6B_6A69, 0x706F_6E6D];
    assert_eq!(records[..4], name);
}

#[test]
fn lengths_ends_and_clashes() {
    let after = |start: &str, length: &str, name: &str| {
        let one = "region\tone\t20000000\t00000400\trx\n";
        let whole = format!("{one}region\t{name}\t{start}\t{length}\tr\n");
        reading(whole.as_bytes())
    };
    // Length 0, and an end at and past 2^32.
    assert_eq!(after("20000400", "00000000", "two"), said(13, 2));
    assert_eq!(after("fffffff0", "00000010", "two"), said(0, 2));
    assert_eq!(after("fffffff0", "00000011", "two"), said(13, 2));
    assert_eq!(after("ffffffff", "ffffffff", "two"), said(13, 2));
    // Touching is no overlap; one byte in common is.
    assert_eq!(after("20000400", "00000001", "two"), said(0, 2));
    assert_eq!(after("200003ff", "00000001", "two"), said(13, 2));
    assert_eq!(after("1fffffff", "00000001", "two"), said(0, 2));
    assert_eq!(after("1fffffff", "00000002", "two"), said(13, 2));
    assert_eq!(after("20000100", "00000010", "two"), said(13, 2));
    assert_eq!(after("10000000", "20000000", "two"), said(13, 2));
    assert_eq!(after("20000000", "00000400", "two"), said(13, 2));
    // A repeated name; a name that begins another is another.
    assert_eq!(after("30000000", "00000001", "one"), said(13, 2));
    assert_eq!(after("30000000", "00000001", "on"), said(0, 2));
    assert_eq!(after("30000000", "00000001", "ones"), said(0, 2));
}

#[test]
fn of_two_that_clash_the_later_is_bad_and_of_bad_lines_the_first_is_told() {
    let line = |name: &str, start: u32| format!("region\t{name}\t{start:08x}\t00000010\tr\n");
    let clash = [
        line("a", 0),
        line("b", 64),
        line("c", 32),
        line("a", 96),
        "bad".into(),
    ];
    assert_eq!(reading(clash.concat().as_bytes()), said(13, 4));
    let overlap = [line("a", 0), line("b", 64), line("c", 15), line("a", 96)];
    assert_eq!(reading(overlap.concat().as_bytes()), said(13, 3));
}

#[test]
fn the_65th_region_is_bad_whatever_it_is() {
    assert_eq!(reading(&long(64)), said(0, 64));
    assert_eq!(reading(&long(65)), said(13, 65));
    assert_eq!(reading(&long(66)), said(13, 65));
    assert_eq!(reading(&[long(64), b"x".to_vec()].concat()), said(13, 65));
    assert_eq!(reading(&[long(64), b"\n".to_vec()].concat()), said(13, 65));
}

#[test]
fn too_little_room_is_told_last_and_nothing_is_written() {
    for room in 0..14 {
        let mut records = vec![UNWRITTEN; room];
        assert_eq!(read(BOARD, &mut records), said(10, 0));
        assert_eq!(records, vec![UNWRITTEN; room]);
    }
    for room in 0..66 {
        let mut out = vec![7; room];
        assert_eq!(write(&RECORDS, &mut out), said(10, 0));
        assert_eq!(out, vec![7; room]);
    }
    assert_eq!(read(b"x", &mut []), said(13, 1));
    assert_eq!(write(&[0; 7], &mut []), said(13, 1));
    assert_eq!(compare(b"x", b"x", &mut []), said(13, 1));
    assert_eq!(compare(BOARD, b"x", &mut []), said(14, 1));
}

#[test]
fn records_that_no_line_stands_for_are_refused_by_their_number() {
    let written = |change: fn(&mut Vec<u32>)| {
        let mut records = RECORDS.to_vec();
        change(&mut records);
        let mut out = [7; 100];
        let answer = write(&records, &mut out);
        assert!(answer == said(0, 66) || out == [7; 100]);
        answer
    };
    assert_eq!(written(|_| {}), said(0, 66));
    assert_eq!(written(Vec::clear), said(13, 1));
    assert_eq!(written(|records| records.truncate(13)), said(13, 2));
    assert_eq!(written(|records| records.push(1)), said(13, 3));
    assert_eq!(written(|records| records.truncate(8)), said(13, 2));
    assert_eq!(written(|records| records.truncate(6)), said(13, 1));
    // The name: none, another byte, a byte after the end, one after a zero in another word.
    assert_eq!(written(|records| records[0] = 0), said(13, 1));
    assert_eq!(written(|records| records[0] = 0x6564_6F43), said(13, 1));
    assert_eq!(written(|records| records[0] = 0x6500_6F63), said(13, 1));
    assert_eq!(written(|records| records[10] = 0x61), said(13, 2));
    assert_eq!(written(|records| records[7] |= 0x8000_0000), said(13, 2));
    // Rights, length, end, overlap, the name before.
    assert_eq!(written(|records| records[13] = 0), said(13, 2));
    assert_eq!(written(|records| records[13] = 8), said(13, 2));
    assert_eq!(written(|records| records[6] = 0x1_0005), said(13, 1));
    assert_eq!(written(|records| records[5] = 0), said(13, 1));
    assert_eq!(written(|records| records[5] = 0x401), said(13, 2));
    assert_eq!(written(|records| records[11] = 0xFFFF_F401), said(13, 2));
    assert_eq!(written(|records| records[7] = records[0]), said(13, 2));
}

#[test]
fn a_comparison_lists_the_names_that_differ_sorted_and_once() {
    let line = |name: &str, start: u32, length: u32, rights: &str| {
        format!("region\t{name}\t{start:08x}\t{length:08x}\t{rights}\n")
    };
    let (same, other) = (line("same", 0, 16, "r"), line("other", 16, 16, "r"));
    let first = [
        same.clone(),
        line("z", 64, 16, "r"),
        line("ab", 128, 16, "r"),
        line("a", 256, 16, "r"),
        line("b", 512, 16, "rw"),
    ];
    let second = [
        line("b", 512, 16, "r"),
        line("ab", 128, 17, "r"),
        other,
        line("z", 65, 16, "r"),
        same,
    ];
    let (first, second) = (first.concat(), second.concat());
    let expected = b"a\nab\nb\nother\nz\n";
    for (one, two) in [(&first, &second), (&second, &first)] {
        let mut out = [7; 20];
        let answer = compare(one.as_bytes(), two.as_bytes(), &mut out);
        assert_eq!(answer, said(0, 15));
        assert_eq!((&out[..15], &out[15..]), (&expected[..], &[7; 5][..]));
        for room in 0..15 {
            let mut short = vec![7; room];
            assert_eq!(
                compare(one.as_bytes(), two.as_bytes(), &mut short),
                said(10, 0)
            );
            assert_eq!(short, vec![7; room]);
        }
    }
    // The order of lines is no difference, and no difference needs no room.
    let turned = b"region\tdata\t20000400\t00000c00\trw\nregion\tcode\t20000000\t00000400\trx\n";
    assert_eq!(compare(BOARD, turned, &mut []), said(0, 0));
}
