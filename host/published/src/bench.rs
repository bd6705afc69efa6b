//! Calls on the bench: a routine's image as lent memory, run by both machines until it ends, and
//! what they leave held against what qemu left.

use crate::image::{Image, START};
use crate::qemu::Record;
use compare::machines::{second, shown, Machine};
use compare::state::Call;
use lent::{word_name, Answer, Capability, State, EXECUTABLE_ROOT, MEMORY_ROOT};
use lent::{MCAUSE, MEPCC, MSCRATCHC, MSTATUS, MTCC, MTDC, MTVAL, PCC};

/// The lowest bit of the type in a metadata word.
const TYPE_AT: u32 = 22;

const BREAKPOINT: u32 = 3;
const CAPABILITY_TRAP: u32 = 28;
const TAG_VIOLATION: u32 = 2;

/// Steps in one call of a machine, and the calls after which a routine has not ended.
const STEPS: u32 = 256;
const CALLS: u32 = 4096;

/// How a call is made.
#[derive(Clone, Copy)]
pub struct Manner {
    /// The registers hold tagged capabilities whose addresses are the numbers, not plain numbers.
    pub dressed: bool,
    /// The type of the capability that is called: 0 for none, or a sentry.
    pub sentry: u32,
    pub mstatus: u32,
    /// The repairing handler is in place; else the first trap ends the call.
    pub repairing: bool,
}

impl Manner {
    /// The manners in turn.
    pub fn of(number: usize, repairing: bool) -> Manner {
        Manner {
            dressed: number & 1 == 1,
            sentry: (number >> 1) as u32 & 3,
            mstatus: [0, 0x08, 0x80, 0x88][number >> 3 & 3],
            repairing,
        }
    }
}

/// How a call ended.
#[derive(Clone, Copy, PartialEq, Eq, Debug)]
pub enum End {
    Returned,
    /// By an EBREAK in the routine.
    Broke(u32),
    /// At a return through an integer, which has no tag.
    IntegerReturn,
}

/// One image on the bench; the buffers are used for every call.
pub struct Bench<'a> {
    image: &'a Image,
    machine: Machine,
    call: u32,
    returned: u32,
    stop: u32,
    repair: u32,
    saved: u32,
    stack: u32,
    lent: State,
    ours: State,
    theirs: State,
    /// The traps of the last call, the one that ended it among them.
    pub traps: u64,
}

impl<'a> Bench<'a> {
    pub fn new(image: &'a Image, machine: Machine) -> Result<Bench<'a>, String> {
        let lent = State::new(START, image.memory.clone());
        Ok(Bench {
            image,
            machine,
            call: image.address("call")?,
            returned: image.address("returned")?,
            stop: image.address("stop")?,
            repair: image.address("repair")?,
            saved: image.address("saved")?,
            stack: image.address("sp_start")?,
            ours: lent.clone(),
            theirs: lent.clone(),
            lent,
            traps: 0,
        })
    }

    /// Makes a call on both machines and holds what they leave against what qemu left.
    pub fn check(&mut self, record: &Record, manner: Manner, qemu: &Record) -> Result<End, String> {
        self.lend(record, manner);
        self.run()?;
        let end = self.end()?;
        self.same(end, qemu)?;
        if !manner.repairing {
            self.plain()?;
        }
        Ok(end)
    }

    /// Lends the registers and the window of a record.
    fn lend(&mut self, record: &Record, manner: Manner) {
        let state = &mut self.lent;
        for (place, &number) in record.registers.iter().enumerate().skip(2) {
            let number = if place == 2 { self.stack } else { number };
            let value = if manner.dressed {
                Capability::tagged(number, MEMORY_ROOT)
            } else {
                Capability::integer(number)
            };
            state.set(place, value);
        }
        let called = EXECUTABLE_ROOT | manner.sentry << TYPE_AT;
        state.set(1, Capability::tagged(record.place, called));
        state.set(PCC, Capability::tagged(self.call, EXECUTABLE_ROOT));
        let handler = if manner.repairing {
            self.repair
        } else {
            self.stop
        };
        state.set(MTCC, Capability::tagged(handler, EXECUTABLE_ROOT));
        state.set(MTDC, Capability::tagged(0, MEMORY_ROOT));
        state.set(MSCRATCHC, Capability::tagged(self.saved, MEMORY_ROOT));
        state.regs[MSTATUS] = manner.mstatus;
        for (address, word) in (self.stack..).step_by(4).zip(record.window) {
            state.write(address, &word.to_le_bytes());
        }
    }

    /// Runs both machines until the call has ended.
    fn run(&mut self) -> Result<(), String> {
        self.ours.clone_from(&self.lent);
        self.theirs.clone_from(&self.lent);
        self.traps = 0;
        for _ in 0..CALLS {
            let ours = (self.machine)(&mut self.ours, Call::Run(STEPS));
            let theirs = second(&mut self.theirs, Call::Run(STEPS));
            if ours != theirs {
                let (ours, theirs) = (shown(ours), shown(theirs));
                return Err(format!("answer: ours {ours}, second {theirs}"));
            }
            self.traps += Answer::of(ours).trapped;
            if self.ours.capability(PCC).address == self.stop {
                return self.agree();
            }
        }
        Err("does not end".to_string())
    }

    /// That both machines left the same.
    fn agree(&self) -> Result<(), String> {
        if self.ours == self.theirs {
            return Ok(());
        }
        let mut words = self.ours.regs.iter().zip(&self.theirs.regs);
        match words.position(|(a, b)| a != b) {
            Some(index) => Err(format!(
                "{}: ours {:08x}, second {:08x}",
                word_name(index),
                self.ours.regs[index],
                self.theirs.regs[index]
            )),
            None => Err("the machines left different memory or tags".to_string()),
        }
    }

    /// How the call ended, from the one trap that nothing repaired.
    fn end(&self) -> Result<End, String> {
        let (cause, value) = (self.ours.regs[MCAUSE], self.ours.regs[MTVAL]);
        let place = self.ours.capability(MEPCC).address;
        let register = value >> 5;
        // CJALR c0 and C.JR by the register.
        let jumps = [register << 15 | 0x67, register << 7 | 0x8002].map(Some);
        match (cause, value & 31) {
            (BREAKPOINT, 0) if value == 0 && place == self.returned => Ok(End::Returned),
            (BREAKPOINT, 0) if value == 0 => Ok(End::Broke(place)),
            (CAPABILITY_TRAP, TAG_VIOLATION)
                if register < 16
                    && jumps.contains(&self.image.instruction(place))
                    && self.ours.capability(register as usize).address == self.returned =>
            {
                Ok(End::IntegerReturn)
            }
            _ => Err(format!(
                "trap at {place:08x}: mcause {cause}, mtval {value:x}"
            )),
        }
    }

    /// That the end, every register's number and the window are as qemu left them.
    fn same(&self, end: End, qemu: &Record) -> Result<(), String> {
        let stopped = match end {
            End::Returned | End::IntegerReturn => 0,
            End::Broke(place) => place,
        };
        if stopped != qemu.place {
            return Err(format!("ended {end:?}, under qemu {:08x}", qemu.place));
        }
        for (place, &theirs) in qemu.registers.iter().enumerate() {
            let ours = self.ours.capability(place).address;
            if ours != theirs {
                return Err(format!("x{place}: {ours:08x}, under qemu {theirs:08x}"));
            }
        }
        for (address, theirs) in (self.stack..).step_by(4).zip(qemu.window) {
            let ours = self.ours.word(address);
            if ours != Some(theirs) {
                return Err(format!(
                    "at {address:08x}: {ours:x?}, under qemu {theirs:08x}"
                ));
            }
        }
        Ok(())
    }

    /// That memory is as lent, and every general register as lent, an integer, a link, or PCC
    /// moved (what AUIPCC gives).
    fn plain(&self) -> Result<(), String> {
        if self.ours.mem != self.lent.mem || self.ours.tags != self.lent.tags {
            return Err("memory or tags changed".to_string());
        }
        let code = [0, 2, 3].map(|kind| EXECUTABLE_ROOT | kind << TYPE_AT);
        for place in 0..16 {
            let value = self.ours.capability(place);
            let lent = value == self.lent.capability(place);
            let code = value.tag == 1 && code.contains(&value.metadata);
            if !lent && !code && value != Capability::integer(value.address) {
                return Err(format!("c{place} is no integer: {value:x?}"));
            }
        }
        Ok(())
    }
}
