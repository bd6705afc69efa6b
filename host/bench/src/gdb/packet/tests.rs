//! Packets taken apart and put together.

use super::*;
use crate::sequence::Sequence;

fn events(bytes: &[u8]) -> Vec<Event> {
    let mut framer = Framer::default();
    bytes.iter().filter_map(|byte| framer.take(*byte)).collect()
}

fn packet(payload: &[u8]) -> Event {
    Event::Packet(payload.to_vec())
}

#[test]
fn packets_are_found_among_other_bytes() {
    assert_eq!(events(b"+$g#67+"), [packet(b"g")]);
    assert_eq!(events(b"$#00"), [packet(b"")]);
    assert_eq!(events(b"$?#3f$g#67"), [packet(b"?"), packet(b"g")]);
    assert_eq!(events(b"\x03-+x"), [Event::Interrupt, Event::Again]);
    // Upper-case digits, and an interrupt's byte inside a packet, which is data there.
    assert_eq!(events(b"$mA#AE"), [packet(b"mA")]);
    assert_eq!(events(b"$\x03#03"), [packet(b"\x03")]);
    // The end of the first was lost.
    assert_eq!(events(b"$m2000$g#67"), [packet(b"g")]);
}

#[test]
fn a_wrong_sum_is_told() {
    let wrong = [
        &b"$g#68"[..],
        b"$g#6",
        b"$g#",
        b"$g#zz",
        b"$g#  ",
        b"$g##6",
        b"$g#\xFF\xFF",
    ];
    for bytes in wrong {
        let found = events(&[bytes, b"$g#67"].concat());
        assert_eq!(found, [Event::BadSum, packet(b"g")], "{bytes:?}");
    }
}

#[test]
fn a_long_packet_is_dropped_and_the_next_is_taken() {
    let exact = framed(&vec![b'a'; MOST_PAYLOAD]);
    assert_eq!(events(&exact), [packet(&vec![b'a'; MOST_PAYLOAD])]);
    let long = framed(&vec![b'a'; MOST_PAYLOAD + 1]);
    let mut framer = Framer::default();
    let both = [&long[..], b"$g#67"].concat();
    let found: Vec<Event> = both.iter().filter_map(|byte| framer.take(*byte)).collect();
    assert_eq!(found, [Event::TooLong, packet(b"g")]);
    assert!(framer.payload.capacity() <= 2 * MOST_PAYLOAD);
}

#[test]
fn what_is_framed_is_taken_apart_again() {
    assert_eq!(framed(b"OK"), b"$OK#9a");
    assert_eq!(framed(b"}#$*"), b"$}]}\x03}\x04}\x0a#62");
    let mut words = Sequence(1);
    for length in 0..500 {
        let payload: Vec<u8> = (0..length).map(|_| words.word() as u8).collect();
        let Some(Event::Packet(taken)) = events(&framed(&payload)).pop() else {
            panic!("no packet");
        };
        assert_eq!(unescaped(&taken), Some(payload));
    }
    assert_eq!(unescaped(b"ab}"), None);
}

#[test]
fn numbers_and_bytes_are_hexadecimal_digits() {
    assert_eq!(number(b"20000aF"), Some(0x0200_00AF));
    assert_eq!(number(b"ffffffffffffffff"), Some(u64::MAX));
    for bad in [
        &b""[..],
        b"10000000000000000",
        b"-1",
        b"+1",
        b"0x1",
        b" 1",
        b"g",
    ] {
        assert_eq!(number(bad), None);
    }
    assert_eq!(bytes(b"00fFa1"), Some(vec![0, 0xFF, 0xA1]));
    assert_eq!(bytes(b""), Some(Vec::new()));
    for bad in [&b"0"[..], b"0g", b"000"] {
        assert_eq!(bytes(bad), None);
    }
    assert_eq!(digits(&[0, 0xFF, 0xA1]), b"00ffa1");
    assert_eq!(split(b"a,b,c", b','), Some((&b"a"[..], &b"b,c"[..])));
    assert_eq!(split(b"abc", b','), None);
}
