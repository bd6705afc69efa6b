//! Sessions in memory: what a client is answered, and packets that no client sends.

mod fuzz;
mod lost;
mod unsound;

use super::packet::{bytes, digits, framed, Event, Framer};
use super::session::{Ended, Session};
use super::stop::Stop;
use super::target::Target;
use crate::drive::{self, End};
use crate::names::{Name, Names};
use crate::samples::{coded, plan, storing, EBREAK, JUMP_TO_ITSELF, NOP, START};
use lent::{Capability, State, MTCC, TIME};

/// A loop of three steps a round that stores, then a breakpoint's trap; memory holds a capability too.
fn program(rounds: u32) -> State {
    let mut state = storing(rounds, EBREAK);
    state.write_capability(START + 0x40, state.capability(2));
    state
}

fn machine(rounds: u32) -> Target {
    held(program(rounds))
}

fn held(state: State) -> Target {
    let names = Names(vec![Name::new(b"loop", START, 12)]);
    Target::new(state, names, None)
}

/// The packets in some output, whose sums must be right, without acknowledgements.
fn packets(output: &[u8]) -> Vec<Vec<u8>> {
    let mut framer = Framer::default();
    let events = output.iter().filter_map(|byte| framer.take(*byte));
    events
        .map(|event| match event {
            Event::Packet(packet) => packet,
            other => panic!("{other:?} in {}", output.escape_ascii()),
        })
        .collect()
}

/// Sends a packet, lets the machine go on until it stops, and gives the answers.
fn answers(session: &mut Session, payload: &[u8]) -> Vec<String> {
    session.receive(&framed(payload));
    for _ in 0..10_000 {
        session.work();
    }
    assert!(!session.is_going());
    let text = |packet: Vec<u8>| String::from_utf8(packet).expect("text");
    let output = session.take_output();
    packets(&output).into_iter().map(text).collect()
}

fn answer(session: &mut Session, payload: &str) -> String {
    let all = answers(session, payload.as_bytes());
    assert_eq!(all.len(), 1, "{payload}: {all:?}");
    all.into_iter().next().unwrap()
}

/// The stop after what was said on the console, and that.
fn stop(session: &mut Session, payload: &str) -> (String, String) {
    let mut all = answers(session, payload.as_bytes());
    let stop = all.pop().expect("a stop");
    let said = all.iter().map(|packet| said(packet)).collect();
    (
        stop.split_once("20:")
            .map_or(stop.clone(), |(head, _)| head.into()),
        said,
    )
}

fn said(packet: &str) -> String {
    let digits = packet.strip_prefix('O').expect("text for the console");
    String::from_utf8(bytes(digits.as_bytes()).unwrap()).unwrap()
}

fn monitor(session: &mut Session, command: &str) -> String {
    let payload = [b"qRcmd,", &digits(command.as_bytes())[..]].concat();
    let mut all = answers(session, &payload);
    assert_eq!(all.pop().as_deref(), Some("OK"));
    all.iter().map(|packet| said(packet)).collect()
}

#[test]
fn a_client_is_told_what_is_understood() {
    let mut target = machine(5);
    let mut session = Session::new(&mut target);
    let told = answer(&mut session, "qSupported:multiprocess+;swbreak+;hwbreak+");
    assert!(
        told.starts_with("PacketSize=4000;QStartNoAckMode+"),
        "{told}"
    );
    assert!(session.reasons);
    for (asked, told) in [
        ("qC", "QC1"),
        ("qfThreadInfo", "m1"),
        ("qsThreadInfo", "l"),
        ("qAttached", "1"),
        ("qSymbol::", "OK"),
        ("Hg0", "OK"),
        ("Hc-1", "OK"),
        ("Hg2", "E01"),
        ("T1", "OK"),
        ("T2", "E01"),
        ("vCont?", "vCont;c;C;s;S;r"),
        ("vMustReplyEmpty", ""),
        ("qTStatus", ""),
        ("!", ""),
        ("", ""),
        ("Z3,20000000,4", ""),
        ("?", "T0520:00000020;2:30000020;thread:1;"),
    ] {
        assert_eq!(answer(&mut session, asked), told, "{asked}");
    }
}

#[test]
fn acknowledgements_are_sent_until_they_are_not_wanted() {
    let mut target = machine(5);
    let mut session = Session::new(&mut target);
    session.receive(b"$qC#b4");
    assert_eq!(session.take_output(), b"+$QC1#c5");
    for asked in ["-", "---"] {
        session.receive(asked.as_bytes());
        assert_eq!(session.take_output(), b"$QC1#c5");
    }
    session.receive(b"$qC#b5");
    assert_eq!(session.take_output(), b"-");
    session.receive(b"$QStartNoAckMode#b0+");
    assert_eq!(session.take_output(), b"+$OK#9a");
    session.receive(b"$qC#b4-");
    assert_eq!(session.take_output(), b"$QC1#c5");
    session.receive(b"$qC#b5");
    assert_eq!(session.take_output(), b"$E04#a9");
    let long = framed(&[b'm'; 0x4001]);
    session.receive(&long);
    assert_eq!(packets(&session.take_output()), [b"E03"]);
}

#[test]
fn the_description_comes_in_parts() {
    let mut target = machine(5);
    let mut session = Session::new(&mut target);
    let (mut text, mut all) = (String::new(), false);
    while !all {
        let asked = format!("qXfer:features:read:target.xml:{:x},1ff", text.len());
        let part = answer(&mut session, &asked);
        all = part.starts_with('l');
        text.push_str(&part[1..]);
    }
    assert_eq!(text, super::description::target());
    let map = answer(&mut session, "qXfer:memory-map:read::0,fff");
    assert!(map.starts_with('l') && map.contains("0x20000000"));
    for (asked, told) in [
        ("qXfer:features:read:other.xml:0,10", "E01"),
        ("qXfer:features:read:target.xml:ffffff,10", "E01"),
        ("qXfer:features:read:target.xml:0", "E01"),
        ("qXfer:features:read:target.xml:0,x", "E01"),
        ("qXfer:auxv:read::0,10", ""),
        ("qXfer:features:write:target.xml:0:x", "E01"),
        ("qXfer:", "E01"),
    ] {
        assert_eq!(answer(&mut session, asked), told, "{asked}");
    }
}

#[test]
fn memory_is_read_as_far_as_it_reaches() {
    let mut target = machine(5);
    let mut session = Session::new(&mut target);
    assert_eq!(answer(&mut session, "m20000000,4"), "13051500");
    assert_eq!(answer(&mut session, "m20000000,0"), "");
    assert_eq!(answer(&mut session, "m2000007c,8"), "00000000");
    for outside in [
        "m20000080,1",
        "m1fffffff,1",
        "mffffffffffffffff,2",
        "m100000000,4",
    ] {
        assert_eq!(answer(&mut session, outside), "E02", "{outside}");
    }
    assert_eq!(
        answer(&mut session, "m20000000,ffffffffffffffff").len(),
        256
    );
    for bad in [
        "m",
        "m,",
        "m20000000",
        "mxx,4",
        "m20000000,",
        "m20000000,-1",
        "m0,10000000000000000",
    ] {
        assert_eq!(answer(&mut session, bad), "E01", "{bad}");
    }
}

#[test]
fn memory_that_is_written_loses_its_tags() {
    let mut kept = program(5);
    // Two granules beside each other, the second of them memory's last.
    let beside = [0x2000_0070, 0x2000_0078];
    for granule in beside {
        kept.set_tag(granule, true);
    }
    let mut target = held(kept.clone());
    let mut session = Session::new(&mut target);
    assert_eq!(answer(&mut session, "X20000040,0:"), "OK");
    for bad in [
        "M2000007c,8:0000000000000000",
        "M1ffffffe,4:00000000",
        "M100000000,1:00",
    ] {
        assert_eq!(answer(&mut session, bad), "E02", "{bad}");
    }
    for bad in [
        "M20000040,4:00",
        "M20000040,1:0",
        "M20000040:00",
        "M,:",
        "X20000040,2:a",
    ] {
        assert_eq!(answer(&mut session, bad), "E01", "{bad}");
    }
    // An escape with nothing after it.
    session.receive(b"$X20000040,1:}#f2");
    assert_eq!(packets(&session.take_output()), [b"E01"]);
    assert_eq!(*session.target.state(), kept);
    assert!(!session.target.written);
    assert_eq!(answer(&mut session, "M20000047,1:ff"), "OK");
    let state = session.target.state();
    assert!(kept.tagged(0x2000_0040) && !state.tagged(0x2000_0040));
    assert_eq!(state.byte(0x2000_0047), Some(0xFF));
    assert!(session.target.written);
    let tagged =
        |session: &Session| beside.map(|granule| session.target.state().tagged(granule.into()));
    assert_eq!(tagged(&session), [true; 2]);
    assert_eq!(answer(&mut session, "M20000077,2:ffff"), "OK");
    assert_eq!(tagged(&session), [false; 2]);
    let said: String = session.notes.concat();
    assert!(said.contains("1 bytes from 20000047 on were written") && said.contains("new start"));
    session.receive(&framed(b"X20000050,2:#a"));
    assert_eq!(packets(&session.take_output()), [b"OK"]);
    assert_eq!(session.target.state().half(0x2000_0050), Some(0x6123));
}

#[test]
fn registers_are_read_and_written() {
    let mut target = machine(5);
    let mut session = Session::new(&mut target);
    let all = answer(&mut session, "g");
    assert_eq!(all.len(), 2 * (17 * 4 + 21 * 24 + 5 * 4 + 2 * 8));
    assert_eq!(answer(&mut session, "p20"), "00000020");
    assert_eq!(answer(&mut session, "p2"), "30000020");
    for (asked, told) in [
        ("p10", "E02"),
        ("pffff", "E02"),
        ("p", "E01"),
        ("px", "E01"),
    ] {
        assert_eq!(answer(&mut session, asked), told);
    }
    assert_eq!(answer(&mut session, "Pa=07000000"), "OK");
    assert_eq!(
        session.target.state().capability(10),
        Capability::integer(7)
    );
    for (bad, told) in [
        ("Pa=0700", "E.another number of bytes"),
        (
            "P0=01000000",
            "E.refused, number 4: a tag word is above 1, or c0 is not all zero",
        ),
        ("P10=00000000", "E02"),
        ("Pa", "E01"),
        ("Pa=0", "E01"),
    ] {
        assert_eq!(answer(&mut session, bad), told, "{bad}");
    }
    // All registers at once: what is the same is not written, so that tags stay.
    let all = answer(&mut session, "g").replacen("07000000", "09000000", 1);
    assert_eq!(answer(&mut session, &format!("G{all}")), "OK");
    assert_eq!(session.target.state().capability(2).tag, 1);
    assert_eq!(session.target.state().register(30), 9);
    let before = session.target.state().clone();
    // x10 differs, and after it the tag of c0 in the whole capabilities, which is refused: neither is written.
    let mut forged = all.replacen("09000000", "0a000000", 1);
    let tag = 2 * (17 * 4 + 8);
    forged.replace_range(tag..tag + 8, "01000000");
    assert!(answer(&mut session, &format!("G{forged}")).starts_with("E."));
    assert_eq!(*session.target.state(), before);
    let changed = all.replacen("09000000", "0a000000", 1);
    assert_eq!(answer(&mut session, &format!("G{}", &changed[..90])), "E01");
    assert_eq!(*session.target.state(), before);
}

#[test]
fn refused_registers_change_nothing() {
    let mut target = machine(2);
    let mut session = Session::new(&mut target);
    stop(&mut session, "c");
    let (told, state) = (session.target.stop.clone(), session.target.state().clone());
    assert!(matches!(told, Stop::Trap(..)));
    let all = answer(&mut session, "g");
    // x10 is 2 and would be 3; the tag of c0 in the whole capabilities is refused after it.
    let mut forged = all.replacen("02000000", "03000000", 1);
    let tag = 2 * (17 * 4 + 8);
    forged.replace_range(tag..tag + 8, "01000000");
    for refused in [&format!("G{forged}"), "P0=01000000", "M20000080,1:00"] {
        assert!(answer(&mut session, refused).starts_with('E'), "{refused}");
        assert_eq!(
            (&session.target.stop, session.target.state()),
            (&told, &state)
        );
        assert!(!session.target.written && session.notes.concat().starts_with("Trap at"));
    }
    // The same values are no change either.
    assert_eq!(answer(&mut session, &format!("G{all}")), "OK");
    assert_eq!(
        (&session.target.stop, session.target.written),
        (&told, false)
    );
    // The trap that was told is made at once.
    stop(&mut session, "c");
    assert_eq!(session.target.counts.trapped, 1);
}

#[test]
fn going_on_from_an_address_is_told_as_a_write_of_pc() {
    let noted = |packets: &[&str]| {
        let mut target = machine(5);
        let mut session = Session::new(&mut target);
        for packet in packets {
            answers(&mut session, packet.as_bytes());
        }
        let said = session.notes.concat();
        (said, target.state().clone(), target.written)
    };
    let written = noted(&["P20=04000020", "s"]);
    let told = "By the debugger, pc was written.\nWhat is held now is a new start: ";
    assert!(written.0.starts_with(told), "{}", written.0);
    assert_eq!(noted(&["s20000004"]), written);
    assert_eq!(noted(&["S05;20000004"]), written);
    let trap = noted(&["P20=0c000020", "c"]);
    assert_eq!(noted(&["c2000000c"]), trap);
}

#[test]
fn steps_breakpoints_and_watched_ranges_stop_where_they_are() {
    let mut target = machine(5);
    let mut session = Session::new(&mut target);
    answer(&mut session, "qSupported:swbreak+");
    assert_eq!(stop(&mut session, "s").0, "T05");
    assert_eq!(session.target.at(), START + 4);
    assert_eq!(answer(&mut session, "Z0,20000008,4"), "OK");
    assert_eq!(stop(&mut session, "vCont;c:1").0, "T05swbreak:;");
    assert_eq!(session.target.at(), START + 8);
    // Whoever goes on with the breakpoint in place stops there at once; a step is made over it.
    assert_eq!(stop(&mut session, "c").0, "T05swbreak:;");
    assert_eq!(stop(&mut session, "vCont;s:1").0, "T05");
    assert_eq!(answer(&mut session, "z0,20000008,4"), "OK");
    assert_eq!(answer(&mut session, "Z2,20000030,2"), "OK");
    // The store is the next step, as RISC-V's own watchpoints have it; whoever goes on makes it.
    for round in 1..=2 {
        assert_eq!(stop(&mut session, "c").0, "T05watch:20000030;");
        assert_eq!(session.target.at(), START + 4);
        assert_eq!(session.target.state().word(START + 0x30), Some(round));
    }
    assert_eq!(stop(&mut session, "s").0, "T05");
    assert_eq!(session.target.state().word(START + 0x30), Some(3));
    assert_eq!(answer(&mut session, "Z2,20000020,8"), "OK");
    let third = answer(&mut session, "Z2,20000028,8");
    assert_eq!(third, "E.two ranges are watched already");
    assert_eq!(answer(&mut session, "z2,20000030,2"), "OK");
    let (trap, said) = stop(&mut session, "c");
    assert_eq!(trap, "T05");
    assert!(
        said.starts_with("Trap at 2000000c: breakpoint (EBREAK)."),
        "{said}"
    );
    assert_eq!(session.target.counts.retired, 15);
    // A range of no bytes is taken, one of all addresses is not.
    assert_eq!(answer(&mut session, "Z2,20000030,0"), "OK");
    for bad in [
        "Z2,0,100000000",
        "Z0",
        "Z0,",
        "Z0,x,4",
        "Z0,100000000,4",
        "Z0,20000000",
        "Z2,20000000,fffffffff",
    ] {
        assert_eq!(answer(&mut session, bad), "E01", "{bad}");
    }
}

#[test]
fn steps_stay_inside_a_range() {
    let mut target = machine(5);
    let mut session = Session::new(&mut target);
    stop(&mut session, "vCont;r20000000,20000008:1");
    assert_eq!(
        (session.target.at(), session.target.counts.retired),
        (START + 8, 2)
    );
    assert_eq!(answer(&mut session, "Z0,20000004,4"), "OK");
    stop(&mut session, "vCont;r20000000,2000000c:1");
    assert_eq!(
        (session.target.at(), session.target.counts.retired),
        (START + 4, 4)
    );
}

#[test]
fn a_trap_is_told_before_it_is_made() {
    let mut state = program(2);
    let mut handler = state.capability(MTCC);
    handler.address = START;
    state.set(MTCC, handler);
    let mut target = held(state);
    let mut session = Session::new(&mut target);
    let (_, said) = stop(&mut session, "c");
    assert!(said.contains("\"monitor explain\""), "{said}");
    assert_eq!(session.target.counts.trapped, 0);
    let explained = monitor(&mut session, "explain");
    assert!(
        explained.starts_with("Trap: breakpoint (EBREAK).\n"),
        "{explained}"
    );
    assert!(explained.contains("mcause 3"));
    // Going on makes it, and its handler is the loop: one more round counts past the end.
    stop(&mut session, "vCont;S05:1");
    assert_eq!(
        (session.target.at(), session.target.counts.trapped),
        (START, 1)
    );
    assert_eq!(session.target.state().long(TIME), 7);
    assert!(monitor(&mut session, "steps").starts_with("6 steps retired, 1 trapped"));
    assert!(monitor(&mut session, "reset").starts_with("Back at the start, 20000000."));
    assert_eq!(session.target.state().long(TIME), 0);
    // A signal that the client passes is not told: with the handler at 0 the next trap is.
    let mut target = machine(2);
    let mut session = Session::new(&mut target);
    assert_eq!(answer(&mut session, "QPassSignals:5;e"), "OK");
    let (signal, _) = stop(&mut session, "c");
    assert_eq!((signal.as_str(), session.target.counts.trapped), ("T0b", 1));
}

#[test]
fn what_is_mended_before_a_trap_does_not_trap() {
    let mut target = machine(2);
    let mut session = Session::new(&mut target);
    stop(&mut session, "c");
    // Another trap is told too: an illegal word.
    assert_eq!(answer(&mut session, "M2000000c,4:00000000"), "OK");
    assert_eq!(stop(&mut session, "c").0, "T04");
    assert_eq!(session.target.counts.trapped, 0);
    // jump to itself
    assert_eq!(answer(&mut session, "M2000000c,4:6f000000"), "OK");
    let (signal, said) = stop(&mut session, "c");
    assert_eq!(signal, "T11");
    assert!(
        said.contains("a new start") && said.contains("it jumps to itself at 2000000c"),
        "{said}"
    );
    assert_eq!(session.target.counts.trapped, 0);
}

// As a run does that begins at such a place.
#[test]
fn whoever_goes_on_at_a_jump_to_itself_makes_one_step() {
    for setting in ["qC", "Z0,20000000,4", "Z2,20000030,4"] {
        let mut target = held(coded(&[NOP, JUMP_TO_ITSELF]));
        let mut session = Session::new(&mut target);
        answer(&mut session, setting);
        assert_eq!(stop(&mut session, "s").0, "T05");
        for made in 2..=3 {
            assert_eq!(stop(&mut session, "c").0, "T11", "{setting}");
            assert_eq!(session.target.counts.retired, made, "{setting}");
        }
    }
    let mut driven = coded(&[JUMP_TO_ITSELF]);
    let outcome = drive::run(&mut driven, plan(100, false)).unwrap();
    assert_eq!((outcome.end, outcome.counts.retired), (End::Still, 1));
}

// The store is the last step before the jump: nothing is made after it.
#[test]
fn a_store_that_was_told_leads_to_a_jump_to_itself() {
    for setting in ["qC", "Z0,20000000,4"] {
        let mut state = storing(5, JUMP_TO_ITSELF);
        state.write(START + 8, &JUMP_TO_ITSELF.to_le_bytes());
        let mut target = held(state);
        let mut session = Session::new(&mut target);
        assert_eq!(stop(&mut session, "s").0, "T05");
        answer(&mut session, setting);
        answer(&mut session, "Z2,20000030,4");
        assert_eq!(stop(&mut session, "c").0, "T05watch:20000030;");
        assert_eq!(stop(&mut session, "c").0, "T11");
        assert_eq!(session.target.counts.retired, 2, "{setting}");
    }
}

#[test]
fn a_run_is_interrupted_and_packets_meanwhile_are_not_obeyed() {
    let mut target = machine(u32::MAX);
    let mut session = Session::new(&mut target);
    session.receive(&framed(b"c"));
    for _ in 0..5 {
        session.work();
    }
    assert!(session.is_going());
    assert_eq!(session.take_output(), b"+");
    session.receive(&framed(b"g"));
    assert_eq!(packets(&session.take_output()), [b"E05"]);
    session.receive(b"\x03");
    assert!(!session.is_going());
    assert!(session.take_output().starts_with(b"$T02"));
    assert_eq!(session.target.counts.retired, 31);
    session.receive(b"\x03");
    assert_eq!(session.take_output(), b"");
}

#[test]
fn the_monitor_says_what_the_bench_says() {
    let mut target = machine(5);
    let mut session = Session::new(&mut target);
    let help = monitor(&mut session, "help");
    for (command, said) in [
        ("explain", "No trap is recorded.\n"),
        ("cap c0", "c0 00000000, tag 0, integer 0\n"),
        ("registers", "  register   address   tag"),
        ("list", "=> 20000000  00150513  addi 10 10 1"),
        ("stack", "No mark is set for a stack.\n"),
        ("steps", "0 steps retired, 0 trapped since the start.\n"),
        ("reset", "Back at the start, 20000000.\n"),
        ("help", "explain  "),
    ] {
        let name = command.split(' ').next().unwrap();
        assert!(help.lines().any(|line| line.starts_with(name)), "{name}");
        let answer = monitor(&mut session, command);
        assert!(answer.starts_with(said), "{command}: {answer}");
    }
    let root = "20000030, tag 1, bounds [00000000, 100000000), 4,294,967,296 bytes, GL LG SD LM SL LD MC, unsealed\n";
    assert_eq!(monitor(&mut session, "cap c2"), format!("c2 {root}"));
    let integer = "c11 00000005, tag 0, integer 5\n";
    assert_eq!(monitor(&mut session, "cap c11"), integer);
    assert!(monitor(&mut session, "cap MTCC").contains("MTCC"));
    assert!(monitor(&mut session, "cap 0x20000044").ends_with(root));
    assert!(monitor(&mut session, "cap 0x1000").contains("No memory"));
    assert!(monitor(&mut session, "cap q").contains("no register"));
    let listed = monitor(&mut session, "list 0x20000004 2");
    let wanted = "   20000004  00a12023  csw 2 10 0, byte 4 of loop\n   \
                  20000008  feb51ce3  bne 10 11 -8, byte 8 of loop\n";
    assert_eq!(listed, wanted);
    assert!(monitor(&mut session, "list 0x2000007e 9").contains("20000080  no whole word"));
    assert!(monitor(&mut session, "list x").starts_with("list [0xADDRESS"));
    assert!(monitor(&mut session, "nonsense").starts_with("No such command"));
    assert_eq!(answer(&mut session, "qRcmd,zz"), "E01");
    assert_eq!(answer(&mut session, "qRcmd,ff"), "E01");
}

#[test]
fn a_client_leaves_or_ends_the_machine() {
    for (payload, ended, told) in [
        ("D", Ended::Detached, "+$OK#9a"),
        ("D;1", Ended::Detached, "+$OK#9a"),
        ("k", Ended::Killed, "+"),
        ("vKill;1", Ended::Killed, "+$OK#9a"),
    ] {
        let mut target = machine(5);
        let mut session = Session::new(&mut target);
        session.receive(&[framed(payload.as_bytes()), framed(b"g")].concat());
        assert_eq!(session.ended, Some(ended), "{payload}");
        assert_eq!(session.take_output(), told.as_bytes());
    }
}
