//! Packets of any kind, many of them: no end of the process, no answer out of form, no tag from nothing, no state that the
//! machine refuses, and afterwards a session that works.

use super::*;
use crate::proved;
use crate::samples::loading;
use crate::sequence::Sequence;
use lent::CAPABILITIES;

/// Packets as clients send them, to be changed.
const KNOWN: [&str; 40] = [
    "?",
    "g",
    "p2",
    "p20",
    "p31",
    "P2=00000020",
    "P20=00000020",
    "P23=300000200000003e7e01000000000000000000000001000000",
    "G00",
    "m20000000,40",
    "mffffffff,ffffffff",
    "M20000030,4:01020304",
    "M20000000,10:130515002320a1006f00000073001000",
    "X20000040,2:ab",
    "c",
    "c20000000",
    "s",
    "C05;20000004",
    "S0b",
    "vCont?",
    "vCont;c",
    "vCont;s:1;c",
    "vCont;r20000000,2000000c:1",
    "Z0,20000008,4",
    "z0,20000008,4",
    "Z1,20000004,2",
    "Z2,20000030,8",
    "z2,20000030,8",
    "Z2,0,ffffffff",
    "Z4,20000030,8",
    "Hg0",
    "T1",
    "qSupported:swbreak+;xmlRegisters=i386",
    "qXfer:features:read:target.xml:0,fff",
    "qXfer:memory-map:read::0,ffffffffffffffff",
    "qRcmd,6578706c61696e",
    "qRcmd,63617020633130",
    "qRcmd,6c697374203078666666666666666620393939",
    "QPassSignals:5;b;e;ffff",
    "qfThreadInfo",
];

/// A payload: a known one, a changed one, or bytes.
fn payload(words: &mut Sequence) -> Vec<u8> {
    let mut bytes = KNOWN[words.word() as usize % KNOWN.len()]
        .as_bytes()
        .to_vec();
    match words.word() % 4 {
        0 => bytes,
        1 => (0..words.word() % 40).map(|_| words.word() as u8).collect(),
        _ => {
            for _ in 0..=words.word() % 3 {
                change(&mut bytes, words);
            }
            bytes
        }
    }
}

/// One change of a payload.
fn change(bytes: &mut Vec<u8>, words: &mut Sequence) {
    const LETTERS: &[u8] = b"0123456789abcdef,;:=-+#$}*mMXGPZzvqQHc\x00\x03\xff";
    let letter = LETTERS[words.word() as usize % LETTERS.len()];
    let place = words.word() as usize % (bytes.len() + 1);
    match words.word() % 5 {
        0 => bytes.insert(place, letter),
        1 => bytes.truncate(place),
        2 => bytes.extend_from_within(place..),
        3 => bytes
            .splice(place..place, *b"ffffffffffffffff")
            .for_each(drop),
        _ => match bytes.get_mut(place) {
            Some(byte) => *byte = letter,
            None => bytes.push(letter),
        },
    }
}

/// The bytes of a payload on the line: whole, or with something lost or wrong.
fn sent(payload: &[u8], words: &mut Sequence) -> Vec<u8> {
    let mut bytes = framed(payload);
    match words.word() % 8 {
        0 => bytes.truncate(words.word() as usize % (bytes.len() + 1)),
        1 => {
            let place = words.word() as usize % bytes.len();
            bytes[place] ^= 1 << (words.word() % 8);
        }
        // A payload that is not escaped.
        2 => bytes = [b"$", payload, b"#00"].concat(),
        _ => {}
    }
    bytes
}

/// How often a machine that goes on works before it is interrupted.
const BUDGETS: [usize; 4] = [1, 2, 10, 3];
/// How many steps by one packet, without a breakpoint, are more than single ones.
const EARNEST: u64 = 100;

/// What came of packets: how many answers, and how many that let the machine go on in earnest.
#[derive(Default)]
struct Tried {
    answered: usize,
    gone_on: usize,
}

/// How many tags a state has.
fn tags(state: &State) -> u32 {
    let registers: u32 = (0..CAPABILITIES)
        .map(|place| state.capability(place).tag)
        .sum();
    registers + state.tags.iter().map(|byte| byte.count_ones()).sum::<u32>()
}

/// Sends bytes; what comes back must be in form, nothing but steps may set a tag, and the state must be a start unless
/// a step may have loaded what none may hold.
fn tried(target: &mut Target, loads: bool, session_bytes: &[Vec<u8>]) -> Tried {
    let mut session = Session::new(target);
    let mut tried = Tried::default();
    for (number, bytes) in session_bytes.iter().enumerate() {
        let (before, steps) = (
            tags(session.target.state()),
            session.target.state().long(TIME),
        );
        session.receive(bytes);
        // Calls grow, so that this is from one step to 1,023; with a breakpoint it is up to 16,384.
        let unbroken = session.target.breaks().is_empty();
        let budget = if unbroken {
            BUDGETS[number % BUDGETS.len()]
        } else {
            1
        };
        (0..budget).for_each(|_| session.work());
        session.receive(b"\x03");
        session.notes.clear();
        let state = session.target.state();
        assert!(loads || proved::run(&mut state.clone(), 0).is_ok());
        let made = state.long(TIME).wrapping_sub(steps);
        assert!(
            made != 0 || tags(state) <= before,
            "{}",
            bytes.escape_ascii()
        );
        tried.gone_on += usize::from(unbroken && (EARNEST..1 << 32).contains(&made));
        let output: Vec<u8> = session.take_output();
        tried.answered += answers_in(&output);
        if session.ended.is_some() {
            return tried;
        }
    }
    // A packet's start gives up whatever is open.
    session.receive(b"$?#3f");
    let output = session.take_output();
    assert!(packets(&without_refusals(&output))
        .last()
        .unwrap()
        .starts_with(b"T"));
    tried
}

/// The packets in an answer; acknowledgements may stand between them.
fn answers_in(output: &[u8]) -> usize {
    packets(&without_refusals(output)).len()
}

/// Output without the signs that ask for a packet again. In packets there is none: digits, letters and XML of ours.
fn without_refusals(output: &[u8]) -> Vec<u8> {
    let mut framer = Framer::default();
    let mut kept = Vec::new();
    for byte in output {
        match framer.take(*byte) {
            Some(Event::Again) => {}
            _ => kept.push(*byte),
        }
    }
    kept
}

#[test]
fn packets_of_any_kind_are_answered() {
    let mut words = Sequence(2026);
    let mut all_tried = Tried::default();
    for number in 0..400 {
        let loads = number % 4 == 0;
        let mut target = match loads {
            true => held(loading(&[NOP], program(1_000))),
            false => machine(1_000),
        };
        let all: Vec<Vec<u8>> = (0..150)
            .map(|_| {
                let payload = payload(&mut words);
                sent(&payload, &mut words)
            })
            .collect();
        let tried = tried(&mut target, loads, &all);
        all_tried.answered += tried.answered;
        all_tried.gone_on += tried.gone_on;
    }
    let Tried { answered, gone_on } = all_tried;
    assert!(answered > 30_000, "{answered}");
    assert!(gone_on > 50, "{gone_on}");
}

#[test]
fn bytes_of_any_kind_are_taken() {
    let mut words = Sequence(7);
    for _ in 0..200 {
        let mut target = machine(1_000);
        let all: Vec<Vec<u8>> = (0..50)
            .map(|_| {
                (0..words.word() % 100)
                    .map(|_| words.word() as u8)
                    .collect()
            })
            .collect();
        tried(&mut target, false, &all);
    }
}

#[test]
fn a_packet_with_a_wrong_sum_is_not_obeyed() {
    for known in KNOWN {
        let mut target = machine(1_000);
        let kept = target.state().clone();
        let mut session = Session::new(&mut target);
        let sum = known.bytes().fold(1u8, |sum, byte| sum.wrapping_add(byte));
        session.receive(format!("${known}#{sum:02x}").as_bytes());
        assert_eq!(session.take_output(), b"-", "{known}");
        assert!(!session.is_going() && session.ended.is_none());
        assert_eq!(*session.target.state(), kept);
        assert!(session.target.breaks().is_empty());
    }
}
