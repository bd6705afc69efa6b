//! HEX files, good and bad.

use super::*;

const END: &str = ":00000001FF\n";

fn bad(text: &str) -> String {
    read(text.as_bytes()).unwrap_err()
}

#[test]
fn data_bases_and_the_start_are_taken() {
    let text = ":020000042000DA\n:0401000001020304F1\n:02010400AABB94\n:02020000CCDD53\n\
                :0400000520000100D6\n:00000001FF\n";
    let image = read(text.as_bytes()).unwrap();
    assert_eq!(image.entry, Some(0x2000_0100));
    assert_eq!(image.segments.len(), 2);
    assert_eq!(image.segments[0].address, 0x2000_0100);
    assert_eq!(image.segments[0].bytes, [1, 2, 3, 4, 0xAA, 0xBB]);
    assert_eq!(image.segments[1].address, 0x2000_0200);
}

#[test]
fn a_segment_base_counts_sixteens() {
    let image = read(format!(":020000021000EC\n:0100020041BC\n{END}").as_bytes()).unwrap();
    assert_eq!(image.segments[0].address, 0x1_0002);
}

#[test]
fn bad_lines_are_named() {
    assert!(bad("").contains("no end record"));
    assert!(bad(":0401000001020304F1\n").contains("no end record"));
    assert!(bad(END).contains("no data"));
    assert!(bad(&format!(":020000042000DA\n:00010000FF\n{END}")).contains("no data"));
    assert!(bad(&format!("{END}{END}")).starts_with("line 2: a record after"));
    assert!(bad("0401000001020304F1\n").starts_with("line 1: a record starts"));
    assert!(bad(":0401000001020304F2\n").contains("sum is wrong"));
    assert!(bad(":0401000001020304\n").contains("length"));
    assert!(bad(":04010\n").contains("pairs"));
    assert!(bad(":0401\n").contains("too short"));
    assert!(bad(":00000006FA\n").contains("no record"));
    assert!(bad(":0400000300000000F9\n").contains("segmented"));
    assert!(bad(":02000004FFFFFC\n:02FFFF00000000\n").starts_with("line 2: the data ends past"));
}
