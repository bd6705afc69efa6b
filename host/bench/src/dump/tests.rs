use super::*;
use crate::report;
use lent::{MCAUSE, MEPCC, PCC};

fn register(text: &str, place: usize) -> Capability {
    let dump = read(text).unwrap_or_else(|reason| panic!("{reason}: {text}"));
    dump.state(0, vec![0; 64]).capability(place)
}

const STACK: Capability = Capability {
    address: 0x2000_0480,
    metadata: 0x7E04_0040,
    tag: 1,
};

#[test]
fn a_capability_has_four_forms() {
    let forms = [
        "c2 = 0x20000480 metadata 0x7e040040 tag 1",
        "C2 20000480 7E040040 00000001   # the stack",
        "c2\t{address = 0x20000480, metadata = 0x7e040040, tag = 0x1, low = 0x20000480, high = 0x20000800}\t{address = 5}",
        "c2 {address = 536872064, metadata = 2114191424, tag = 1}",
        "  c2         20000480  1    [20000480, 20000800)   GL LG SD LM SL LD MC  unsealed",
    ];
    for form in forms {
        assert_eq!(register(form, 2), STACK, "{form}");
    }
}

const WORDS_TOLD: &str = "mcause         0x1c\t28
mtval = 0x41
mshwm 20000490, mshwmb 20000480, time 365, compare 0xffffffffffffffff
edition later
sp 0x1 0x1";

#[test]
fn words_stand_alone_or_side_by_side() {
    let dump = read(WORDS_TOLD).unwrap();
    let state = dump.state(0, Vec::new());
    assert_eq!(
        (state.register(MCAUSE), state.register(lent::MTVAL)),
        (28, 0x41)
    );
    assert_eq!(
        (state.register(lent::MSHWM), state.long(TIME)),
        (0x2000_0490, 365)
    );
    assert_eq!(
        (state.edition, state.capability(2)),
        (1, Capability::integer(0))
    );
}

/// The table that the bench prints of a state is a dump of it, whatever the registers hold.
#[test]
fn what_the_bench_prints_is_read_again() {
    let mut state = State::reset(0x2000_0000, vec![0; 64], 0x2000_0000);
    let values = [
        (1, 0x2000_013C, 0x5684_0080, 1),
        (2, 0x2000_0480, 0x7E04_0040, 1),
        (3, 0x2000_0400, 0x2401_0000, 0),
        (4, 0xFFFF_FFFF, 0x7E00_01FF, 1),
        (5, 0xFFFF_FFFF, 0, 0),
        (6, 0, 0x7E00_0808, 0),
        (7, 0x1234_5678, 0x0000_0000, 1),
        (MEPCC, 0x2000_010C, 0x5604_0080, 1),
    ];
    for (place, address, metadata, tag) in values {
        state.set(
            place,
            Capability {
                address,
                metadata,
                tag,
            },
        );
    }
    state.regs[MCAUSE] = 28;
    state.set_long(TIME, 1 << 40);
    let text = report::registers(&state);
    let dump = read(&text).unwrap_or_else(|reason| panic!("{reason}: {text}"));
    assert_eq!(
        report::registers(&dump.state(0x2000_0000, vec![0; 64])),
        text
    );
    assert!(dump.missing().is_empty());
}

#[test]
fn what_was_not_told_is_named() {
    let dump = read("c1 00000000 00000000 00000000\npcc 00000000 00000000 00000000").unwrap();
    let missing = dump.missing();
    assert_eq!(
        (missing.len(), missing[0].as_str()),
        (CAPABILITIES - 3, "c2")
    );
    assert!(!missing.contains(&place_name(PCC)));
}

/// Dumps, and what is wrong with each.
const BAD_LINES: &[(&str, &str)] = &[
    ("", "it names no register"),
    ("# nothing\n\n", "it names no register"),
    (
        "c1 00000000 00000000 00000000\nhello",
        "line 2: no register has the name 'hello'",
    ),
    (
        "c16 00000000 00000000 00000000",
        "line 1: no register has the name 'c16'",
    ),
    ("x9 00000000", "line 1: no register has the name 'x9'"),
    (
        "c1 0x100000000 metadata 0x0 tag 0",
        "line 1: '0x100000000' is no number",
    ),
    ("c1 1234 5678 1", "line 1: '1234' is no number"),
    (
        "c1 = 0x1 metadata 0x0 tag 7",
        "line 1: '7' is no tag, 0 or 1",
    ),
    ("c1", "line 1: '' is no capability"),
    (
        "c1 {address = 1, metadata = 2",
        "line 1: the brace is not closed",
    ),
    ("c1 {address = 1, metadata = 2}", "line 1: there is no tag"),
    (
        "c1 {address = 1, metadata = 0x7e3e0000, tag = 1, low = 0, high = 5}",
        "line 1: high is not that of the address and the metadata, 0x100000000",
    ),
    (
        "c1 20000480  1    [20000480, 20000801)   GL XX  unsealed",
        "line 1: '20000480  1    [20000480, 20000801)   GL XX  unsealed' is no capability",
    ),
    ("mcause 1c", "line 1: '1c' is no number"),
    ("time -1", "line 1: '-1' is no number"),
    ("edition last", "line 1: no edition 'last'"),
    (
        "mtval 00000000\nmtval 00000000",
        "line 2: mtval was told before",
    ),
];

#[test]
fn a_bad_line_is_named_with_its_number() {
    for (text, reason) in BAD_LINES {
        let said = read(text)
            .err()
            .unwrap_or_else(|| panic!("it was read: {text}"));
        assert!(said.starts_with(reason), "{said}, not {reason}");
    }
}
