//! Why the machine stands, as a client is told it: a signal, a reason, and for a person the cause in words.

use super::packet::digits;
use super::registers::{value, Part, PC};
use crate::proved::Refusal;
use crate::report;
use lent::{State, PCC, TIMER_INTERRUPT};

/// A signal by gdb's number for it.
#[derive(Clone, Copy, PartialEq, Eq, PartialOrd, Ord, Debug)]
pub struct Signal(pub u8);

const SIGINT: Signal = Signal(2);
const SIGILL: Signal = Signal(4);
const SIGTRAP: Signal = Signal(5);
const SIGABRT: Signal = Signal(6);
const SIGBUS: Signal = Signal(10);
const SIGSEGV: Signal = Signal(11);
const SIGSYS: Signal = Signal(12);
const SIGALRM: Signal = Signal(14);
const SIGSTOP: Signal = Signal(17);

impl Signal {
    /// The signal that a trap is shown as, by its mcause.
    pub fn of_trap(mcause: u32) -> Signal {
        match mcause {
            0 | 4 | 6 => SIGBUS,
            2 => SIGILL,
            3 => SIGTRAP,
            11 => SIGSYS,
            TIMER_INTERRUPT => SIGALRM,
            _ => SIGSEGV,
        }
    }
}

#[derive(Clone, PartialEq, Eq, Debug)]
pub enum Stop {
    /// A step was made, or none yet.
    Step,
    /// A breakpoint stands at PCC.
    Break,
    /// The next step stores into the watched range that starts here.
    Watch(u32),
    /// The next step traps.
    Trap(Signal, String),
    Interrupted,
    /// The program jumps to itself.
    Still,
    /// The machine refused to go on.
    Refused(Refusal),
}

impl Stop {
    fn signal(&self) -> Signal {
        match self {
            Stop::Step | Stop::Break | Stop::Watch(_) => SIGTRAP,
            Stop::Trap(signal, _) => *signal,
            Stop::Interrupted => SIGINT,
            Stop::Still => SIGSTOP,
            Stop::Refused(_) => SIGABRT,
        }
    }

    /// The stop as a packet, with pc and sp; `reasons` if the client takes a breakpoint for a reason.
    pub fn packet(&self, state: &State, reasons: bool) -> Vec<u8> {
        let reason = match self {
            Stop::Break if reasons => "swbreak:;".into(),
            Stop::Watch(start) => format!("watch:{start:x};"),
            _ => String::new(),
        };
        let mut packet = format!("T{:02x}{reason}", self.signal().0).into_bytes();
        for (number, place) in [(PC, PCC), (2, 2)] {
            packet.extend(format!("{number:x}:").into_bytes());
            packet.extend(digits(&value(state, Part::Address(place))));
            packet.push(b';');
        }
        packet.extend(b"thread:1;");
        packet
    }

    /// The words for it, where a signal does not say enough.
    pub fn words(&self, state: &State) -> Option<String> {
        let at = state.capability(PCC).address;
        match self {
            Stop::Trap(_, cause) => Some(format!(
                "Trap at {at:08x}: {cause}. \"monitor explain\" says more; the next step makes it.\n"
            )),
            Stop::Still => Some(format!(
                "The program ended: it jumps to itself at {at:08x}.\n"
            )),
            Stop::Refused(refusal) => {
                let said = report::refused(*refusal, state);
                Some(format!("The machine makes no further step: {said}.\n"))
            }
            _ => None,
        }
    }
}

#[cfg(test)]
mod tests {
    use super::*;

    #[test]
    fn a_stop_is_a_signal_with_a_reason_and_two_registers() {
        let mut state = State::reset(0x2000_0000, vec![0; 64], 0x2000_0004);
        state.regs[6] = 0x2000_0800;
        let packet = |stop: Stop| String::from_utf8(stop.packet(&state, true)).unwrap();
        let registers = "20:04000020;2:00080020;thread:1;";
        assert_eq!(packet(Stop::Break), format!("T05swbreak:;{registers}"));
        assert_eq!(
            packet(Stop::Watch(0x40)),
            format!("T05watch:40;{registers}")
        );
        assert_eq!(packet(Stop::Interrupted), format!("T02{registers}"));
        let trap = Stop::Trap(Signal::of_trap(28), "store".into());
        assert_eq!(packet(trap), format!("T0b{registers}"));
        let plain = Stop::Break.packet(&state, false);
        assert_eq!(plain, format!("T05{registers}").into_bytes());
    }

    #[test]
    fn traps_have_the_signals_that_a_program_would_get() {
        let signals = [0, 1, 2, 3, 4, 5, 6, 7, 11, 28, TIMER_INTERRUPT].map(Signal::of_trap);
        assert_eq!(
            signals.map(|signal| signal.0),
            [10, 11, 4, 5, 10, 11, 10, 11, 12, 11, 14]
        );
    }
}
