//! One client's session, without its connection: bytes in, bytes out, and the machine between them. Whatever comes in,
//! the answer is a packet, an acknowledgement or nothing; a session ends by the client's word alone.

use super::packet::{bytes, digits, framed, number, split, unescaped, Event, Framer, MOST_PAYLOAD};
use super::registers::{registers, value, Register};
use super::target::{Go, Target, Unwritten};
use super::{monitor, query, resume};
use lent::Range;

/// A packet that is not understood as far as its first letter is.
pub const MALFORMED: &[u8] = b"E01";
/// A register or an address that is not there.
const NOT_THERE: &[u8] = b"E02";
/// A packet that is longer than the client was told.
const TOO_LONG: &[u8] = b"E03";
/// A packet with another sum, where there are no acknowledgements.
const BAD_SUM: &[u8] = b"E04";
/// A packet while the machine goes on.
const GOES_ON: &[u8] = b"E05";
/// The bytes of memory in one answer, two digits each.
const MOST_READ: usize = MOST_PAYLOAD / 2 - 8;
/// The letters of text in one packet to the client's console.
const MOST_TEXT: usize = 1024;

pub const OK: &[u8] = b"OK";

/// How a session ended.
#[derive(Clone, Copy, PartialEq, Eq, Debug)]
pub enum Ended {
    /// The client left; the machine stays.
    Detached,
    /// The client wants the machine to end.
    Killed,
}

pub struct Session<'a> {
    pub target: &'a mut Target,
    registers: Vec<Register>,
    framer: Framer,
    acknowledges: bool,
    /// Whether the client takes a breakpoint as a reason for a stop.
    pub reasons: bool,
    going: Option<Go>,
    sent: Vec<u8>,
    /// Whether that was sent again since the last bytes came in.
    sent_again: bool,
    out: Vec<u8>,
    /// What is to be said where the bench was started, and on the client's console as soon as that may be.
    pub notes: Vec<String>,
    untold: String,
    pub ended: Option<Ended>,
}

impl Session<'_> {
    pub fn new(target: &mut Target) -> Session<'_> {
        Session {
            target,
            registers: registers(),
            framer: Framer::default(),
            acknowledges: true,
            reasons: false,
            going: None,
            sent: Vec::new(),
            sent_again: false,
            out: Vec::new(),
            notes: Vec::new(),
            untold: String::new(),
            ended: None,
        }
    }

    /// What is to be sent.
    pub fn take_output(&mut self) -> Vec<u8> {
        std::mem::take(&mut self.out)
    }

    pub fn is_going(&self) -> bool {
        self.going.is_some()
    }

    /// Takes bytes from the client.
    pub fn receive(&mut self, bytes: &[u8]) {
        self.sent_again = false;
        for byte in bytes {
            if let (None, Some(event)) = (self.ended, self.framer.take(*byte)) {
                self.meet(event);
            }
        }
    }

    /// Lets the machine go on for a while, if it is to.
    pub fn work(&mut self) {
        let Some(go) = self.going else { return };
        if let Some(stop) = self.target.go(go) {
            if let Some(words) = stop.words(self.target.state()) {
                self.note(&words);
            }
            self.stopped();
        }
    }

    fn stopped(&mut self) {
        self.going = None;
        let text = std::mem::take(&mut self.untold);
        self.console(&text);
        let packet = self.stop_packet();
        self.send(&packet);
    }

    fn stop_packet(&self) -> Vec<u8> {
        self.target.stop.packet(self.target.state(), self.reasons)
    }

    fn send(&mut self, payload: &[u8]) {
        self.sent = framed(payload);
        self.out.extend(&self.sent);
    }

    fn acknowledge(&mut self, sign: u8) {
        if self.acknowledges {
            self.out.push(sign);
        }
    }

    /// Text for the client's console, which it takes while the machine goes on and in answer to a command.
    fn console(&mut self, text: &str) {
        for part in text.as_bytes().chunks(MOST_TEXT) {
            self.send(&[b"O", &digits(part)[..]].concat());
        }
    }

    /// Text for both consoles.
    pub fn note(&mut self, text: &str) {
        self.notes.push(text.into());
        self.untold.push_str(text);
    }

    fn meet(&mut self, event: Event) {
        match event {
            Event::Packet(packet) => {
                self.acknowledge(b'+');
                self.obey(&packet);
            }
            Event::BadSum if self.acknowledges => self.acknowledge(b'-'),
            Event::BadSum => self.send(BAD_SUM),
            Event::TooLong => {
                self.acknowledge(b'+');
                self.send(TOO_LONG);
            }
            Event::Interrupt if self.is_going() => {
                self.target.stop = super::stop::Stop::Interrupted;
                self.stopped();
            }
            Event::Interrupt => {}
            // Once for any row of bytes, however often it is asked for.
            Event::Again if self.acknowledges && !self.sent_again => {
                self.sent_again = true;
                self.out.extend(&self.sent);
            }
            Event::Again => {}
        }
    }

    /// Obeys a packet.
    fn obey(&mut self, packet: &[u8]) {
        if self.is_going() {
            return self.send(GOES_ON);
        }
        let (letter, rest) = match packet.split_first() {
            Some((letter, rest)) => (*letter, rest),
            None => return self.send(b""),
        };
        match letter {
            b'c' | b'C' | b's' | b'S' => self.resume(resume::plain(letter, rest)),
            b'v' => self.verbose(rest),
            b'k' => self.ended = Some(Ended::Killed),
            b'D' => {
                self.send(OK);
                self.ended = Some(Ended::Detached);
            }
            b'q' if rest.starts_with(b"Rcmd,") => self.command(&rest[5..]),
            b'Q' if rest == b"StartNoAckMode" => {
                self.send(OK);
                self.acknowledges = false;
            }
            _ => {
                let answer = self.answer(letter, rest);
                self.send(&answer);
            }
        }
    }

    /// The answer to a packet that leaves the machine where it is.
    fn answer(&mut self, letter: u8, rest: &[u8]) -> Vec<u8> {
        let answer = match letter {
            b'?' => Some(self.stop_packet()),
            b'g' => Some(self.all_registers()),
            b'G' => self.write_registers(rest),
            b'p' => self.read_register(rest),
            b'P' => self.write_register(rest),
            b'm' => self.read_memory(rest),
            b'M' => self.write_memory(rest, bytes),
            b'X' => self.write_memory(rest, unescaped),
            b'Z' | b'z' => self.place_stop(letter == b'Z', rest),
            b'H' => query::thread(rest.get(1..)),
            b'T' => query::thread(Some(rest)),
            b'q' => query::asked(self, rest),
            b'Q' => query::set(self, rest),
            _ => Some(Vec::new()),
        };
        answer.unwrap_or(MALFORMED.to_vec())
    }

    /// vCont, and what gdb tries out.
    fn verbose(&mut self, rest: &[u8]) {
        match rest {
            b"Cont?" => self.send(b"vCont;c;C;s;S;r"),
            _ if rest.starts_with(b"Cont;") => {
                let go = resume::by_thread(&rest[5..]);
                self.resume(go.map(|go| (go, None)));
            }
            _ if rest.starts_with(b"Kill;") => {
                self.send(OK);
                self.ended = Some(Ended::Killed);
            }
            _ => self.send(b""),
        }
    }

    fn resume(&mut self, asked: Option<resume::Asked>) {
        let Some((go, from)) = asked else {
            return self.send(MALFORMED);
        };
        if let Some(address) = from {
            if let Err(reason) = self.target.move_to(address) {
                return self.send(&refused(&reason));
            }
            self.wrote("pc was written");
        }
        self.target.begin();
        self.going = Some(go);
    }

    /// A command of the client's monitor.
    fn command(&mut self, digits: &[u8]) {
        let text = bytes(digits).and_then(|text| String::from_utf8(text).ok());
        match text {
            None => self.send(MALFORMED),
            Some(text) => {
                let said = monitor::obey(self.target, &text);
                self.console(&said);
                self.send(OK);
            }
        }
    }

    fn all_registers(&self) -> Vec<u8> {
        let state = self.target.state();
        let values = self
            .registers
            .iter()
            .map(|register| value(state, register.part));
        digits(&values.collect::<Vec<_>>().concat())
    }

    fn register(&self, number: u64) -> Option<&Register> {
        let mut registers = self.registers.iter();
        registers.find(|register| register.number as u64 == number)
    }

    fn read_register(&self, rest: &[u8]) -> Option<Vec<u8>> {
        let register = self.register(number(rest)?);
        let state = self.target.state();
        let value = register.map(|register| digits(&value(state, register.part)));
        Some(value.unwrap_or(NOT_THERE.to_vec()))
    }

    fn write_register(&mut self, rest: &[u8]) -> Option<Vec<u8>> {
        let (index, value) = split(rest, b'=')?;
        let (index, value) = (number(index)?, bytes(value)?);
        let Some(register) = self.register(index).cloned() else {
            return Some(NOT_THERE.to_vec());
        };
        let written = self.target.write_registers(&[(register.part, &value)]);
        Some(match written {
            Ok(()) => self.wrote(&format!("{} was written", register.name)),
            Err(reason) => refused(&reason),
        })
    }

    /// Writes the registers that differ: all of them, or none.
    fn write_registers(&mut self, rest: &[u8]) -> Option<Vec<u8>> {
        let values = bytes(rest)?;
        let sizes = self.registers.iter().map(|register| register.part.bytes());
        if values.len() != sizes.sum::<usize>() {
            return None;
        }
        let state = self.target.state();
        let (mut place, mut differing) = (0, Vec::new());
        for part in self.registers.iter().map(|register| register.part) {
            let given = values.get(place..place + part.bytes())?;
            place += part.bytes();
            if given != value(state, part) {
                differing.push((part, given));
            }
        }
        if differing.is_empty() {
            return Some(OK.to_vec());
        }
        Some(match self.target.write_registers(&differing) {
            Ok(()) => self.wrote("registers were written"),
            Err(reason) => refused(&reason),
        })
    }

    fn read_memory(&self, rest: &[u8]) -> Option<Vec<u8>> {
        let (address, length) = split(rest, b',')?;
        let (address, length) = (number(address)?, number(length)?);
        let length = length.min(MOST_READ as u64);
        let addresses = (0..length).map(|place| address.checked_add(place));
        let state = self.target.state();
        let found = addresses.map_while(|address| state.byte(address?));
        let found: Vec<u8> = found.collect();
        Some(match found.is_empty() && length > 0 {
            true => NOT_THERE.to_vec(),
            false => digits(&found),
        })
    }

    /// Writes memory, its data in the form that `read` reads.
    fn write_memory(&mut self, rest: &[u8], read: fn(&[u8]) -> Option<Vec<u8>>) -> Option<Vec<u8>> {
        let (place, data) = split(rest, b':')?;
        let (address, length) = split(place, b',')?;
        let (address, length, data) = (number(address)?, number(length)?, read(data)?);
        if data.len() as u64 != length {
            return None;
        }
        if data.is_empty() {
            return Some(OK.to_vec());
        }
        Some(match self.target.write(address, &data) {
            Ok(()) => self.wrote(&format!(
                "{length} bytes from {address:08x} on were written"
            )),
            Err(Unwritten::NotThere) => NOT_THERE.to_vec(),
            Err(Unwritten::Refused(reason)) => refused(&reason),
        })
    }

    /// Says what was written, and what that means for the theorem that no run gains authority; the answer for it.
    fn wrote(&mut self, what: &str) -> Vec<u8> {
        self.notes.push(format!("By the debugger, {what}.\n"));
        let said =
            "What is held now is a new start: that no run gains authority holds from here on.\n";
        if !self.untold.contains(said) {
            self.note(said);
        }
        OK.to_vec()
    }

    /// Sets or removes a breakpoint or a watched range.
    fn place_stop(&mut self, sets: bool, rest: &[u8]) -> Option<Vec<u8>> {
        let (kind, place) = split(rest, b',')?;
        let (address, length) = split(place, b',')?;
        let length = length.split(|byte| *byte == b';').next()?;
        let (kind, length) = (number(kind)?, u32::try_from(number(length)?).ok()?);
        let start = u32::try_from(number(address)?).ok()?;
        let range = Range {
            start,
            length,
            count: 0,
        };
        let target = &mut *self.target;
        let placed = match (kind, sets) {
            (0 | 1, true) => target.set_break(start),
            (0 | 1, false) => {
                target.remove_break(start);
                Ok(())
            }
            (2, true) => target.set_watch(range),
            (2, false) => {
                target.remove_watch(range);
                Ok(())
            }
            _ => return Some(Vec::new()),
        };
        Some(placed.map_or_else(refused, |()| OK.to_vec()))
    }
}

/// An error with its reason, which gdb shows.
fn refused(reason: &str) -> Vec<u8> {
    format!("E.{reason}").into_bytes()
}
