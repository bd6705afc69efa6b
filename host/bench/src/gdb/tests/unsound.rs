//! Sessions in which a step loads a value that no start may hold: the machine goes on, and what is written is refused.

use super::*;
use crate::samples::{counting, loading};

/// Why the machine refuses a start that holds the value.
const REFUSED: &str = "refused, number 8: a tagged register has low above high, or high above 2^32: c4 [05000000, 04000000)";

/// The loop that stores, after such a load as the first step.
fn loaded() -> Target {
    held(loading(&[], storing(5, EBREAK)))
}

#[test]
fn steps_and_stops_go_on() {
    let mut target = loaded();
    let mut session = Session::new(&mut target);
    assert_eq!(stop(&mut session, "s").0, "T05");
    let value = "c4 05000000, tag 1, bounds [05000000, 04000000)";
    let told = monitor(&mut session, "cap c4");
    assert!(told.starts_with(value), "{told}");
    assert_eq!(stop(&mut session, "s").0, "T05");
    // The loop's last word.
    assert_eq!(answer(&mut session, "Z0,2000000c,4"), "OK");
    assert_eq!(stop(&mut session, "c").0, "T05");
    assert_eq!(
        (session.target.at(), session.target.counts.retired),
        (START + 12, 3)
    );
    assert_eq!(stop(&mut session, "s").0, "T05");
    assert_eq!(answer(&mut session, "z0,2000000c,4"), "OK");
    assert_eq!(answer(&mut session, "Z2,20000030,2"), "OK");
    for round in 1..=2 {
        assert_eq!(stop(&mut session, "c").0, "T05watch:20000030;");
        assert_eq!(session.target.state().word(START + 0x30), Some(round));
    }
    assert_eq!(answer(&mut session, "z2,20000030,2"), "OK");
    let (_, said) = stop(&mut session, "c");
    assert!(
        said.starts_with("Trap at 20000010: breakpoint (EBREAK)."),
        "{said}"
    );
    assert_eq!(session.target.counts.retired, 16);
    assert!(monitor(&mut session, "explain").contains("20000010, word 00100073"));
    assert_eq!(stop(&mut session, "s").0, "T05");
    assert_eq!(session.target.counts.trapped, 1);
    assert_eq!(monitor(&mut session, "cap c4"), told);
}

#[test]
fn what_is_written_is_a_start_and_may_be_refused() {
    let mut target = loaded();
    let mut session = Session::new(&mut target);
    stop(&mut session, "s");
    let state = session.target.state().clone();
    let refused = format!("E.{REFUSED}");
    for packet in ["P6=01000000", "M20000040,1:00", "c20000000", "P20=00000020"] {
        assert_eq!(answer(&mut session, packet), refused, "{packet}");
        assert_eq!(*session.target.state(), state);
    }
    assert_eq!(stop(&mut session, "s").0, "T05");
    // The value itself is written over, and the rest may be written then.
    assert_eq!(answer(&mut session, "P4=01000000"), "OK");
    assert_eq!(answer(&mut session, "P6=01000000"), "OK");
    assert_eq!(stop(&mut session, "s").0, "T05");
    assert_eq!(session.target.counts.retired, 3);
    assert!(monitor(&mut session, "reset").starts_with("Back at the start"));
    assert_eq!(stop(&mut session, "s").0, "T05");
    assert_eq!(*session.target.state(), state);
}

#[test]
fn a_refusal_is_told_with_its_registers_and_the_steps_before_it_are_counted() {
    let mut target = held(loading(&[], counting(u32::MAX, EBREAK)));
    let mut session = Session::new(&mut target);
    let (signal, said) = stop(&mut session, "c");
    assert_eq!(signal, "T06");
    let wanted = format!("The machine makes no further step: {REFUSED}.\n");
    assert_eq!(said, wanted);
    assert_eq!(session.target.state().long(TIME), 1_000_000);
    let told = monitor(&mut session, "steps");
    assert_eq!(
        told,
        "1,000,000 steps retired, 0 trapped since the start.\n"
    );
}
