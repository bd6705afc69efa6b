//! What is lent to a machine (document 01, "What is lent"; document 02, 5, 8 and 14), good or bad, and the
//! answer. It knows no machine: each is a function on slices.

#![forbid(unsafe_code)]

mod answer;
mod registers;
mod watch;

pub use answer::{number_and_rest, Answer, MOST_STEPS};
pub use registers::*;
pub use watch::{Range, Watch};

/// The bytes of a granule, which has one tag and one revocation bit.
pub const GRANULE: usize = 8;

/// The bytes that one byte of tags or of revocation bits is for.
pub const BLOCK: usize = 8 * GRANULE;

/// The most bytes of memory.
pub const MOST_MEMORY: usize = 1 << 20;

/// The part of memory that the revocation bits are for; its start is counted from memory's.
#[derive(Clone, Copy, PartialEq, Eq, Debug, Default)]
pub struct Window {
    pub start: u32,
    pub size: u32,
}

impl Window {
    /// All of a memory of so many bytes.
    pub fn whole(size: usize) -> Window {
        Window {
            start: 0,
            size: size as u32,
        }
    }

    /// The offset into memory after its last byte.
    pub fn end(self) -> u64 {
        u64::from(self.start) + u64::from(self.size)
    }
}

/// The editions of the architecture: the report, and the later one.
pub const REPORT_EDITION: u32 = 0;
pub const LATER_EDITION: u32 = 1;

/// What is lent as numbers: memory's start, the window, and the edition.
#[derive(Clone, Copy, PartialEq, Eq, Debug, Default)]
pub struct Board {
    pub start: u32,
    pub window: Window,
    pub edition: u32,
}

/// What the revocation bits say of an address.
#[derive(Clone, Copy, PartialEq, Eq, Debug)]
pub enum Revocation {
    /// The window does not hold it.
    Outside,
    Clear,
    Marked,
}

/// A machine's step: registers, the board's numbers, memory, tags, revocation bits; its answer.
pub type Step = fn(&mut [u32], Board, &mut [u8], &mut [u8], &[u8]) -> u64;
/// A machine's run, with its number of steps after the rest.
pub type Run = fn(&mut [u32], Board, &mut [u8], &mut [u8], &[u8], u32) -> u64;
/// A machine's run with a watch record, which it changes in place.
pub type RunWatched = fn(&mut [u32], Board, &mut [u8], &mut [u8], &[u8], u32, &mut Watch) -> u64;

/// A machine's sweeper: the board's numbers, memory, tags, revocation bits, the granule to visit; its
/// answer.
pub type Sweep = fn(Board, &[u8], &mut [u8], &[u8], u32) -> u64;

/// What is asked of a search for capabilities: a range of `length` bytes from an address on, its end a whole
/// number, and the rights, as a mask, that one must have to count.
#[derive(Clone, Copy, PartialEq, Eq, Debug, Default)]
pub struct Query {
    pub low: u32,
    pub length: u32,
    pub rights: u32,
}

/// The search of a state: registers, memory's start, memory, tags, what is asked, and the place to begin
/// at; its answer.
pub type Reach = fn(&[u32], u32, &[u8], &[u8], Query, u32) -> u64;

/// Everything that is lent.
#[derive(Clone, PartialEq, Eq, Debug, Default)]
pub struct State {
    pub regs: Vec<u32>,
    pub start: u32,
    pub mem: Vec<u8>,
    pub tags: Vec<u8>,
    pub window: Window,
    pub revoked: Vec<u8>,
    pub edition: u32,
}

/// The byte among the tags, and the bit in it, of the granule that holds an offset into memory; the
/// revocation bits have the same order, from the window's start on.
fn bit_of(offset: usize) -> (usize, u8) {
    let granule = offset / GRANULE;
    (granule / 8, 1 << (granule % 8))
}

/// The bytes of an instruction by its first half: two, or four if its low two bits are set (the RISC-V
/// standard).
pub fn instruction_bytes(instruction: u32) -> u32 {
    match instruction & 3 {
        3 => 4,
        _ => 2,
    }
}

impl State {
    /// Memory with null registers, without tags or revoked granules; the window is all of it, and the
    /// edition is the report's. Time is 0 and compare the last number, so that a program that sets MIE is
    /// not interrupted.
    pub fn new(start: u32, mem: Vec<u8>) -> State {
        let bytes = mem.len() / BLOCK;
        let mut state = State {
            regs: vec![0; WORDS],
            start,
            window: Window::whole(mem.len()),
            mem,
            tags: vec![0; bytes],
            revoked: vec![0; bytes],
            edition: REPORT_EDITION,
        };
        state.set_long(COMPARE, u64::MAX);
        state
    }

    /// The same with another window, without revoked granules in it.
    pub fn with_window(self, window: Window) -> State {
        State {
            window,
            revoked: vec![0; window.size as usize / BLOCK],
            ..self
        }
    }

    /// The state at reset (the CHERIoT report, 7.3, Table 7.2 and 7.13): the roots, and null
    /// registers.
    pub fn reset(start: u32, mem: Vec<u8>, entry: u32) -> State {
        let mut state = State::new(start, mem);
        state.set(PCC, Capability::tagged(entry, EXECUTABLE_ROOT));
        state.set(MTCC, Capability::tagged(0, EXECUTABLE_ROOT));
        state.set(MTDC, Capability::tagged(0, MEMORY_ROOT));
        state.set(MSCRATCHC, Capability::tagged(0, SEALING_ROOT));
        state.set(MEPCC, Capability::tagged(0, EXECUTABLE_ROOT));
        state
    }

    /// Makes a machine's step.
    pub fn step(&mut self, step: Step) -> u64 {
        let board = self.board();
        let (mem, tags) = (&mut self.mem, &mut self.tags);
        step(&mut self.regs, board, mem, tags, &self.revoked)
    }

    /// Makes a machine's run.
    pub fn run(&mut self, run: Run, steps: u32) -> u64 {
        let board = self.board();
        let (mem, tags) = (&mut self.mem, &mut self.tags);
        run(&mut self.regs, board, mem, tags, &self.revoked, steps)
    }

    /// Makes a machine's run with a watch record.
    pub fn run_watched(&mut self, run: RunWatched, steps: u32, watch: &mut Watch) -> u64 {
        let board = self.board();
        let (mem, tags) = (&mut self.mem, &mut self.tags);
        run(
            &mut self.regs,
            board,
            mem,
            tags,
            &self.revoked,
            steps,
            watch,
        )
    }

    /// Makes a machine's sweeper visit a granule. No registers are lent to it.
    pub fn sweep(&mut self, sweep: Sweep, granule: u32) -> u64 {
        let board = self.board();
        sweep(board, &self.mem, &mut self.tags, &self.revoked, granule)
    }

    /// Asks a search for the first place from one on. All is lent to be read.
    pub fn reach(&self, reach: Reach, query: Query, from: u32) -> u64 {
        reach(&self.regs, self.start, &self.mem, &self.tags, query, from)
    }

    /// What is lent as numbers.
    pub fn board(&self) -> Board {
        Board {
            start: self.start,
            window: self.window,
            edition: self.edition,
        }
    }

    /// A word of the register file, 0 past its end.
    pub fn register(&self, index: usize) -> u32 {
        self.regs.get(index).copied().unwrap_or(0)
    }

    /// The number of two words of the register file, the low one first: time or compare.
    pub fn long(&self, place: usize) -> u64 {
        u64::from(self.register(place + 1)) << 32 | u64::from(self.register(place))
    }

    /// Puts a number into two words, if the register file has them.
    pub fn set_long(&mut self, place: usize, value: u64) {
        if let Some(words) = self.regs.get_mut(place..place + 2) {
            words.copy_from_slice(&[value as u32, (value >> 32) as u32]);
        }
    }

    /// Whether the next step is the timer interrupt (document 02, 6).
    pub fn interrupted(&self) -> bool {
        self.register(MSTATUS) & MIE != 0 && self.long(TIME) >= self.long(COMPARE)
    }

    /// The capability at a place, null past the end of the register file.
    pub fn capability(&self, place: usize) -> Capability {
        Capability {
            address: self.register(3 * place),
            metadata: self.register(3 * place + 1),
            tag: self.register(3 * place + 2),
        }
    }

    /// Puts a capability at a place, if the register file has it.
    pub fn set(&mut self, place: usize, value: Capability) {
        if let Some(words) = self.regs.get_mut(3 * place..3 * place + 3) {
            words.copy_from_slice(&[value.address, value.metadata, value.tag]);
        }
    }

    /// The address after memory's last byte.
    pub fn end(&self) -> u64 {
        u64::from(self.start) + self.mem.len() as u64
    }

    /// The place of an address in memory, if so many bytes are there.
    pub fn offset(&self, address: u32, size: usize) -> Option<usize> {
        let offset = address.checked_sub(self.start)? as usize;
        (offset + size <= self.mem.len()).then_some(offset)
    }

    /// The byte at an address, if it is in memory.
    pub fn byte(&self, address: u64) -> Option<u8> {
        let offset = self.offset(u32::try_from(address).ok()?, 1)?;
        self.mem.get(offset).copied()
    }

    /// The word at an address, if it is in memory.
    pub fn word(&self, address: u32) -> Option<u32> {
        let offset = self.offset(address, 4)?;
        let bytes = self.mem.get(offset..)?.first_chunk()?;
        Some(u32::from_le_bytes(*bytes))
    }

    /// The half word at an address, if it is in memory.
    pub fn half(&self, address: u32) -> Option<u16> {
        let offset = self.offset(address, 2)?;
        let bytes = self.mem.get(offset..)?.first_chunk()?;
        Some(u16::from_le_bytes(*bytes))
    }

    /// The instruction that stands at an address, if all of it is in memory: its first half, or the word if
    /// the half says so.
    pub fn instruction(&self, address: u32) -> Option<u32> {
        let half = u32::from(self.half(address)?);
        match instruction_bytes(half) {
            2 => Some(half),
            _ => self.word(address),
        }
    }

    /// Writes bytes if they are all in memory.
    pub fn write(&mut self, address: u32, bytes: &[u8]) {
        if let Some(offset) = self.offset(address, bytes.len()) {
            self.mem[offset..offset + bytes.len()].copy_from_slice(bytes);
        }
    }

    /// Writes a capability and its tag at a granule in memory.
    pub fn write_capability(&mut self, address: u32, value: Capability) {
        self.write(address, &value.address.to_le_bytes());
        self.write(address.wrapping_add(4), &value.metadata.to_le_bytes());
        self.set_tag(address, value.tag == 1);
    }

    /// Whether the granule that holds an address is in memory and tagged.
    pub fn tagged(&self, address: u64) -> bool {
        let address = u32::try_from(address).ok();
        let offset = address.and_then(|address| self.offset(address, 1));
        offset.map(bit_of).is_some_and(|(byte, bit)| {
            let tags = self.tags.get(byte);
            tags.is_some_and(|tags| tags & bit != 0)
        })
    }

    /// Sets or clears the tag of a granule in memory.
    pub fn set_tag(&mut self, address: u32, tag: bool) {
        if let Some((byte, bit)) = self.offset(address, GRANULE).map(bit_of) {
            if let Some(tags) = self.tags.get_mut(byte) {
                *tags = if tag { *tags | bit } else { *tags & !bit };
            }
        }
    }

    /// What the revocation bits say of the granule that holds an address.
    pub fn revocation(&self, address: u32) -> Revocation {
        let bit = self.revocation_bit(address);
        match bit.and_then(|(byte, bit)| Some(self.revoked.get(byte)? & bit != 0)) {
            None => Revocation::Outside,
            Some(false) => Revocation::Clear,
            Some(true) => Revocation::Marked,
        }
    }

    /// The byte among the revocation bits, and the bit in it, of the granule that holds an address
    /// in the window.
    fn revocation_bit(&self, address: u32) -> Option<(usize, u8)> {
        let offset = u64::from(address).checked_sub(self.start.into())?;
        let place = offset.checked_sub(self.window.start.into())?;
        (place < self.window.size.into()).then(|| bit_of(place as usize))
    }

    /// Sets the revocation bit of a granule in the window.
    pub fn revoke(&mut self, address: u32) {
        if let Some((byte, bit)) = self.revocation_bit(address) {
            if let Some(revoked) = self.revoked.get_mut(byte) {
                *revoked |= bit;
            }
        }
    }
}

#[cfg(test)]
mod tests {
    use super::*;

    const START: u32 = 0x2000_0000;

    #[test]
    fn a_capability_in_memory_is_its_words_and_its_granules_tag() {
        let mut state = State::new(START, vec![0; 128]);
        state.tags[1] = 0xFF;
        state.write_capability(START + 72, Capability::integer(0x0403_0201));
        state.write_capability(START + 16, Capability::tagged(5, MEMORY_ROOT));
        assert_eq!(state.tags, [0b100, 0b1111_1101]);
        assert_eq!(state.mem[72..77], [1, 2, 3, 4, 0]);
        assert_eq!(state.word(START + 20), Some(MEMORY_ROOT));
        let tagged = |offset| state.tagged(u64::from(START + offset));
        assert_eq!([15, 16, 23, 24].map(tagged), [false, true, true, false]);
        state.revoke(START + 127);
        state.revoke(START + 120);
        assert_eq!(state.revoked, [0, 0x80]);
    }

    #[test]
    fn revocation_bits_are_counted_from_the_windows_start() {
        use Revocation::{Clear, Marked, Outside};
        let window = Window {
            start: 64,
            size: 128,
        };
        let mut state = State::new(START, vec![0; 256]).with_window(window);
        for offset in [63, 64, 191, 192] {
            state.revoke(START + offset);
        }
        assert_eq!(state.revoked, [1, 0x80]);
        let said = |offset: u32| state.revocation(START.wrapping_add(offset));
        let offsets = [0u32.wrapping_sub(1), 0, 63, 64, 71, 72, 183, 184, 191, 192];
        let all = [Outside, Outside, Outside, Marked, Marked, Clear, Clear];
        assert_eq!(offsets.map(said)[..7], all);
        assert_eq!(offsets.map(said)[7..], [Marked, Marked, Outside]);
        let mut empty = state.with_window(Window {
            start: 256,
            size: 0,
        });
        empty.revoke(START + 256);
        assert_eq!(empty.revocation(START + 256), Outside);
        assert_eq!(empty.revoked, []);
    }

    #[test]
    fn nothing_is_outside_memory() {
        let mut state = State::new(0xFFFF_FFC0, vec![7; 64]);
        state.tags[0] = 0xFF;
        assert_eq!(state.word(0xFFFF_FFFC), Some(0x0707_0707));
        assert_eq!(state.word(0xFFFF_FFFD), None);
        assert_eq!(state.byte(0xFFFF_FFFF), Some(7));
        assert_eq!([0, 1 << 32].map(|address| state.byte(address)), [None; 2]);
        assert!(!state.tagged(1 << 32) && !state.tagged(0xFFFF_FFB8));
        let before = state.clone();
        state.write(0xFFFF_FFFE, &[1; 4]);
        state.set_tag(0, false);
        assert_eq!(state, before);
    }

    #[test]
    fn an_instruction_has_two_or_four_bytes() {
        let mut state = State::new(START, vec![0; 64]);
        state.write(START + 60, &[0x13, 0x05, 0x73, 0x9F]);
        assert_eq!(state.instruction(START), Some(0));
        assert_eq!(state.instruction(START + 60), Some(0x9F73_0513));
        // The low bits of 0x9F73 are set, and the rest of it is outside.
        assert_eq!(state.half(START + 62), Some(0x9F73));
        assert_eq!(state.instruction(START + 62), None);
        state.write(START + 62, &[0x72, 0x9F]);
        assert_eq!(state.instruction(START + 62), Some(0x9F72));
        assert_eq!(state.half(START + 63), None);
        assert_eq!([0, 1, 2, 3, 7].map(instruction_bytes), [2, 2, 2, 4, 4]);
    }

    #[test]
    fn the_timer_interrupts_from_compare_on_with_mie_set() {
        let mut state = State::new(START, Vec::new());
        assert_eq!((state.long(TIME), state.long(COMPARE)), (0, u64::MAX));
        state.set_long(COMPARE, 0x1_0000_0002);
        assert_eq!(state.regs[COMPARE..], [2, 1]);
        for (time, reached) in [(0x1_0000_0001, false), (0x1_0000_0002, true), (!0, true)] {
            state.set_long(TIME, time);
            state.regs[MSTATUS] = !MIE;
            assert!(!state.interrupted());
            state.regs[MSTATUS] = MIE;
            assert_eq!(state.interrupted(), reached);
        }
    }

    #[test]
    fn a_short_register_file_has_null_for_what_it_lacks() {
        let mut state = State::new(START, Vec::new());
        state.regs = vec![9; 4];
        assert_eq!(state.capability(1), Capability::integer(9));
        state.set(1, Capability::tagged(1, 1));
        state.set_long(3, 0);
        assert_eq!(state.regs, [9; 4]);
        assert_eq!(state.long(3), 9);
    }
}
