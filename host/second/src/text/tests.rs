//! Expectations come from document 01, "Cases", the cutting program.

use super::*;

const HEADER: &str = "cut\tlow\thigh\texact\n";

fn output(input: &[u8]) -> String {
    String::from_utf8(cutting_program(input)).expect("the output is plain text")
}

fn after_header(input: &[u8]) -> String {
    output(input)
        .strip_prefix(HEADER)
        .expect("the header comes first")
        .to_string()
}

// The printed example, byte for byte.
#[test]
fn the_printed_example() {
    let input = b"20000001\t00000200\nffffffff\t00000002\n";
    let expected = "cut\tlow\thigh\texact\n1\t20000000\t020000202\tno\n2\tbad\t6\n";
    assert_eq!(output(input), expected);
}

// No input: the header and nothing else.
#[test]
fn empty_input() {
    assert_eq!(output(b""), HEADER);
}

// A last line without a newline is a line; what is written for it has one.
#[test]
fn last_line_without_newline() {
    assert_eq!(
        after_header(b"20000001\t000001ff"),
        "1\t20000001\t020000200\tyes\n"
    );
}

// Nine digits of high: the whole space ends at 2^32.
#[test]
fn high_has_nine_digits() {
    assert_eq!(
        after_header(b"00000000\tffffffff\n"),
        "1\t00000000\t100000000\tno\n"
    );
}

// Lines that are ill-formed: anything but eight lower-case digits, a tab, eight again.
#[test]
fn ill_formed_lines() {
    let lines: [&[u8]; 12] = [
        b"",
        b"2000000\t00000200",
        b"200000001\t00000200",
        b"20000001\t000002000",
        b"20000001 00000200",
        b"2000000A\t00000200",
        b"2000000g\t00000200",
        b"+2000000\t00000200",
        b"20000001\t00000200\r",
        b"20000001\t00000200 ",
        b"\xFF\xFE0000001\t0000020",
        b"0x200001\t00000200",
    ];
    for line in lines {
        let whole = [line, b"\n"].concat();
        assert_eq!(after_header(&whole), "1\tbad\tline\n", "{line:?}");
    }
    let long = vec![b'0'; 100_000];
    assert_eq!(after_header(&long), "1\tbad\tline\n");
}

// The first line is number 1, and bad ones count.
#[test]
fn lines_count_from_one() {
    let input = b"\n\n20000000\t00000000\nx";
    let expected = "1\tbad\tline\n2\tbad\tline\n3\t20000000\t020000000\tyes\n4\tbad\tline\n";
    assert_eq!(after_header(input), expected);
}
