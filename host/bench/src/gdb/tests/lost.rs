//! Clients that are lost while the machine runs, or that leave it at a stop: the next one is told of the machine, not of
//! stops that are over.

use super::*;

/// The calls that make a trap that was told and seven steps after it: one of its own, then calls that grow from one step.
const CALLS: usize = 4;

/// A trap whose handler runs into another one just where those calls end.
fn handled() -> Target {
    let mut state = coded(&[EBREAK, NOP, NOP, NOP, NOP, NOP, NOP, NOP, EBREAK]);
    let mut handler = state.capability(MTCC);
    handler.address = START + 4;
    state.set(MTCC, handler);
    held(state)
}

/// The stop that a new client is answered.
fn asked(target: &mut Target) -> String {
    let mut session = Session::new(target);
    session.reasons = true;
    answer(&mut session, "?")
}

#[test]
fn a_run_that_lost_its_client_stands_as_an_interrupted_one() {
    let mut target = handled();
    let mut session = Session::new(&mut target);
    assert_eq!(stop(&mut session, "c").0, "T05");
    session.receive(&framed(b"c"));
    for _ in 0..CALLS {
        session.work();
    }
    assert!(session.is_going());
    target.leave();
    assert_eq!(asked(&mut target), "T0220:20000020;2:00000000;thread:1;");
    let mut session = Session::new(&mut target);
    let explained = monitor(&mut session, "explain");
    assert!(explained.contains("at       20000000"), "{explained}");
    // The trap that comes next was told to nobody.
    let (signal, said) = stop(&mut session, "c");
    assert_eq!(signal, "T05");
    assert!(said.starts_with("Trap at 20000020: "), "{said}");
    assert_eq!(session.target.counts.trapped, 1);
}

#[test]
fn a_stop_for_what_a_client_had_set_goes_with_it() {
    for (set, told) in [
        ("Z0,20000004,4", "T05swbreak:;"),
        ("Z2,20000030,4", "T05watch:20000030;"),
    ] {
        let mut target = machine(5);
        let mut session = Session::new(&mut target);
        session.reasons = true;
        answer(&mut session, set);
        assert_eq!(stop(&mut session, "c").0, told);
        target.leave();
        assert_eq!(asked(&mut target), "T0520:04000020;2:30000020;thread:1;");
        // Whoever watches it next has not been told of the store that comes.
        let mut session = Session::new(&mut target);
        session.reasons = true;
        answer(&mut session, set);
        assert_eq!(stop(&mut session, "c").0, told);
        assert_eq!(session.target.counts.retired, 1);
    }
}

#[test]
fn a_trap_that_was_told_is_told_to_the_next_client() {
    let mut target = handled();
    assert_eq!(stop(&mut Session::new(&mut target), "c").0, "T05");
    target.leave();
    let mut session = Session::new(&mut target);
    assert!(monitor(&mut session, "explain").contains("at       20000000"));
    assert_eq!(stop(&mut session, "s").0, "T05");
    assert_eq!(session.target.counts.trapped, 1);
}
