//! A small lent state for the tests: 256 bytes at 0x20000000, PCC at their start.

use crate::capability::{set_bounds, with_type, Capability};
use crate::machine;
use lent::{Board, Watch, Window};

pub const START: u32 = 0x2000_0000;
pub const HANDLER: u32 = START + 0xC0;
pub const RETIRED: u64 = 1;
pub const TRAPPED: u64 = 1 << 24;

pub const MEMORY_ROOT: u32 = 0x7E3E_0000;
pub const EXECUTABLE_ROOT: u32 = 0x5E3E_0000;
pub const SEALING_ROOT: u32 = 0x4E3E_0000;

// Places in the register file (document 01, "What is lent").
pub const PCC: usize = 16;
pub const MTCC: usize = 17;
pub const MTDC: usize = 18;
pub const MSCRATCHC: usize = 19;
pub const MEPCC: usize = 20;
pub const MSTATUS: usize = 63;
pub const MCAUSE: usize = 64;
pub const MTVAL: usize = 65;
// Document 02, 6.
pub const MSHWM: usize = 66;
pub const MSHWMB: usize = 67;
pub const TIME: usize = 68;
pub const COMPARE: usize = 70;

pub fn tagged(address: u32, metadata: u32) -> Capability {
    Capability {
        address,
        metadata,
        tag: 1,
    }
}

pub fn untagged(capability: Capability) -> Capability {
    Capability {
        tag: 0,
        ..capability
    }
}

pub fn sealed(capability: Capability, stored_type: u32) -> Capability {
    Capability {
        metadata: with_type(capability.metadata, stored_type),
        ..capability
    }
}

/// A memory capability of `length` bytes at an address.
pub fn memory(address: u32, length: u32) -> Capability {
    set_bounds(tagged(address, MEMORY_ROOT), length)
}

pub fn integer(value: u32) -> Capability {
    Capability {
        address: value,
        metadata: 0,
        tag: 0,
    }
}

#[derive(Clone, PartialEq, Eq, Debug)]
pub struct Bench {
    pub regs: Vec<u32>,
    pub start: u32,
    pub mem: Vec<u8>,
    pub tags: Vec<u8>,
    pub window: Window,
    pub revoked: Vec<u8>,
    pub edition: u32,
}

impl Bench {
    /// Special registers as at reset (CHERIoT report, Table 7.2), but for the addresses; the timer is as far
    /// off as it can be.
    pub fn new() -> Bench {
        let mut bench = Bench {
            regs: vec![0; 72],
            start: START,
            mem: vec![0; 256],
            tags: vec![0; 4],
            window: Window::whole(256),
            revoked: vec![0; 4],
            edition: 0,
        };
        bench.set(PCC, tagged(START, EXECUTABLE_ROOT));
        bench.set(MTCC, tagged(HANDLER, EXECUTABLE_ROOT));
        bench.set(MTDC, tagged(0, MEMORY_ROOT));
        bench.set(MSCRATCHC, tagged(0, SEALING_ROOT));
        bench.set(MEPCC, tagged(0, EXECUTABLE_ROOT));
        bench.set_long(COMPARE, u64::MAX);
        bench
    }

    pub fn get(&self, place: usize) -> Capability {
        Capability {
            address: self.regs[3 * place],
            metadata: self.regs[3 * place + 1],
            tag: self.regs[3 * place + 2],
        }
    }

    pub fn set(&mut self, place: usize, value: Capability) {
        let words = [value.address, value.metadata, value.tag];
        self.regs[3 * place..3 * place + 3].copy_from_slice(&words);
    }

    /// The number of two words.
    pub fn long(&self, place: usize) -> u64 {
        u64::from(self.regs[place]) | u64::from(self.regs[place + 1]) << 32
    }

    pub fn set_long(&mut self, place: usize, value: u64) {
        self.regs[place] = value as u32;
        self.regs[place + 1] = (value >> 32) as u32;
    }

    /// Writes instruction words from PCC on.
    pub fn program(&mut self, words: &[u32]) {
        let at = (self.get(PCC).address - self.start) as usize;
        for (index, word) in words.iter().enumerate() {
            self.mem[at + 4 * index..][..4].copy_from_slice(&word.to_le_bytes());
        }
    }

    /// Writes short words from PCC on; a long one is two.
    pub fn halves(&mut self, halves: &[u16]) {
        let at = (self.get(PCC).address - self.start) as usize;
        for (index, half) in halves.iter().enumerate() {
            self.mem[at + 2 * index..][..2].copy_from_slice(&half.to_le_bytes());
        }
    }

    /// Puts a capability into memory at an offset, with its tag.
    pub fn put(&mut self, offset: usize, value: Capability) {
        self.mem[offset..][..4].copy_from_slice(&value.address.to_le_bytes());
        self.mem[offset + 4..][..4].copy_from_slice(&value.metadata.to_le_bytes());
        self.tags[offset / 64] |= (value.tag as u8) << (offset / 8 % 8);
    }

    pub fn tag_at(&self, offset: usize) -> u8 {
        self.tags[offset / 64] >> (offset / 8 % 8) & 1
    }

    pub fn board(&self) -> Board {
        Board {
            start: self.start,
            window: self.window,
            edition: self.edition,
        }
    }

    pub fn step(&mut self) -> u64 {
        let board = self.board();
        machine::step(
            &mut self.regs,
            board,
            &mut self.mem,
            &mut self.tags,
            &self.revoked,
        )
    }

    pub fn run(&mut self, steps: u32) -> u64 {
        let board = self.board();
        machine::run(
            &mut self.regs,
            board,
            &mut self.mem,
            &mut self.tags,
            &self.revoked,
            steps,
        )
    }

    pub fn run_watched(&mut self, steps: u32, watch: &mut Watch) -> u64 {
        let board = self.board();
        machine::run_watched(
            &mut self.regs,
            board,
            &mut self.mem,
            &mut self.tags,
            &self.revoked,
            steps,
            watch,
        )
    }

    /// Runs one word that must retire and move PCC on by four.
    pub fn retire(&mut self, word: u32) {
        self.program(&[word]);
        let pcc = self.get(PCC);
        assert_eq!(self.step(), RETIRED, "word {word:08x}");
        assert_eq!(self.get(PCC), tagged(pcc.address + 4, pcc.metadata));
    }

    /// Runs one short word that must retire and move PCC on by two.
    pub fn retire_half(&mut self, half: u16) {
        self.halves(&[half]);
        let pcc = self.get(PCC);
        assert_eq!(self.step(), RETIRED, "half {half:04x}");
        assert_eq!(self.get(PCC), tagged(pcc.address + 2, pcc.metadata));
    }

    /// Runs one word that must trap, and checks the whole state after it.
    pub fn trap(&mut self, word: u32, mcause: u32, mtval: u32) {
        self.program(&[word]);
        self.trap_in_place(mcause, mtval);
    }

    /// The same for whatever lies at PCC. PCC and MTCC must be tagged and unsealed.
    pub fn trap_in_place(&mut self, mcause: u32, mtval: u32) {
        let mut expected = self.clone();
        let pcc = self.get(PCC);
        expected.set(MEPCC, tagged(pcc.address & !1, pcc.metadata));
        expected.set(PCC, self.get(MTCC));
        let enabled = self.regs[MSTATUS] >> 3 & 1;
        expected.regs[MSTATUS] = self.regs[MSTATUS] & !0x88 | enabled << 7;
        expected.regs[MCAUSE] = mcause;
        expected.regs[MTVAL] = mtval;
        expected.set_long(TIME, self.long(TIME).wrapping_add(1));
        assert_eq!(self.step(), TRAPPED);
        assert_eq!((self.regs[MCAUSE], self.regs[MTVAL]), (mcause, mtval));
        assert_eq!(*self, expected);
    }
}
