//! Rows of what was executed.

use super::*;
use lent::State;

const START: u32 = 0x2000_0000;

fn segment(address: u32, length: usize) -> Segment {
    Segment {
        address,
        bytes: vec![0; length],
        zeros: 4,
        origin: "part".into(),
    }
}

/// Short words at 2 and 10, a long one at 4, of an image of 12 bytes and one of 2 further on.
fn covered() -> (Cover, [Segment; 2]) {
    let mut cover = Cover::new(&State::new(START, vec![0; 64]));
    for (offset, word) in [(2, 1), (4, 3), (4, 3), (10, 1), (40, 1)] {
        cover.retired(START + offset, word);
    }
    (cover, [segment(START, 12), segment(START + 48, 2)])
}

#[test]
fn bytes_are_counted_by_segment_and_by_name() {
    let (cover, segments) = covered();
    let names = Names(vec![
        Name::new(b"first", START, 4),
        Name::new(b"elsewhere", START + 20, 4),
        Name::new(b"whole", 0, 1 << 32),
        Name::new(b"below", 0, u64::from(START)),
        Name::new(b"across", START + 10, u32::MAX.into()),
    ]);
    let rows = cover.rows(&segments, &names);
    let told: Vec<(&str, u64, u64)> = rows
        .iter()
        .map(|row| (row.name.as_str(), row.executed, row.bytes))
        .collect();
    let wanted = [
        ("part", 8, 12),
        ("part", 0, 2),
        ("first", 2, 4),
        ("whole", 8, 14),
        ("across", 2, 4),
    ];
    assert_eq!(told, wanted);
    let base = u64::from(START);
    assert_eq!(rows[0].missed, [(base, base + 2), (base + 8, base + 10)]);
    assert_eq!(cover.outside(&segments), 2);
}

#[test]
fn the_table_and_the_json_say_the_same() {
    let (cover, segments) = covered();
    let text = cover.text(&segments, &Names::default());
    let wanted = "Executed, in bytes of the image:
       8 of      12   66%  [20000000, 2000000c)  part, first not at 20000000
       0 of       2    0%  [20000030, 20000032)  part, first not at 20000030
       2 outside the image
";
    assert_eq!(text, wanted);
    let json = cover.json(&segments, &Names::default());
    assert_eq!(json["rows"][0]["executed"], 8);
    assert_eq!(json["words"].as_array().map(Vec::len), Some(4));
    assert_eq!(json["words"][1]["times"], 2);
    assert_eq!(json["outside"], 2);
}

#[test]
fn a_word_at_the_end_of_memory_and_one_outside() {
    let mut cover = Cover::new(&State::new(START, vec![0; 64]));
    cover.retired(START + 60, 3);
    cover.retired(START - 2, 1);
    cover.retired(START + 64, 1);
    assert_eq!(cover.executed().count(), 1);
    assert_eq!(cover.outside(&[]), 4);
}
