//! The machine: lent state and its refusals, fetch, every instruction, traps, a step and a
//! run (document 01, "What is lent", "Answers" and "Traps"; document 02, 5, 6, 8, 13 and 14; the CHERIoT
//! report, 7 and 9).

#[cfg(test)]
mod tests;

use crate::capability::{
    self, bounds, has, in_bounds, is_sealed, move_address, rights, seal_type, with_type,
    Capability, EX, GL, LD, MC, NULL, SD, SL, SR,
};
use crate::decode::{
    instruction, length, Arithmetic, Condition, Csr, CsrOperation, Derivation, Instruction,
    LoadWidth, Operand, Pairing, Query, Register, Special, StoreWidth, CGP, LONG_BYTES,
    SHORT_BYTES,
};
use lent::{Board, Range, Watch};

// Places in the register file, counted in capabilities, then in words.
const PCC: usize = 16;
const MTCC: usize = 17;
const MTDC: usize = 18;
const MSCRATCHC: usize = 19;
const MEPCC: usize = 20;
const CAPABILITIES: usize = 21;
const MSTATUS: usize = 63;
const MCAUSE: usize = 64;
const MTVAL: usize = 65;
// The stack's high-water mark and its base, then two numbers of two words each, the low one first
// (document 02, 6).
const MSHWM: usize = 66;
const MSHWMB: usize = 67;
const TIME: usize = 68;
const COMPARE: usize = 70;
const WORDS: usize = 72;

/// The most bytes of memory (document 02, 5).
const MOST_MEMORY: usize = 1 << 20;

// The two bits of mstatus that mean anything here.
const MIE: u32 = 1 << 3;
const MPIE: u32 = 1 << 7;

// Ordinary trap causes (RISC-V privileged standard).
const FETCH_MISALIGNED: u32 = 0;
const FETCH_ACCESS: u32 = 1;
const ILLEGAL: u32 = 2;
const BREAKPOINT: u32 = 3;
const LOAD_MISALIGNED: u32 = 4;
const LOAD_ACCESS: u32 = 5;
const STORE_MISALIGNED: u32 = 6;
const STORE_ACCESS: u32 = 7;
const ECALL: u32 = 11;
const CAPABILITY_TRAP: u32 = 28;

/// The machine timer interrupt: its cause 7 with the top bit, and nothing in mtval (document 02, 6).
const TIMER_INTERRUPT: Trap = Trap {
    cause: 0x8000_0007,
    value: 0,
};

/// The bits of the mark pair that a CSR write and a store clear.
const MARK_BITS: u32 = 15;

// Capability causes (CHERIoT report, Table 7.3).
const BOUNDS: u32 = 1;
const TAG: u32 = 2;
const SEAL: u32 = 3;
const EXECUTE: u32 = 17;
const LOAD: u32 = 18;
const STORE: u32 = 19;
const STORE_CAPABILITY: u32 = 21;
const STORE_LOCAL_CAPABILITY: u32 = 22;
const SYSTEM_REGISTERS: u32 = 24;

/// The name of PCC in mtval; a special register n is named by this plus n (CHERIoT report,
/// Figure 7.1).
const PCC_NAME: u32 = 32;

// Sentry types (CHERIoT report, 7.13.2); 1 is the sentry that leaves MIE alone.
const DISABLING_SENTRY: u32 = 2;
const ENABLING_SENTRY: u32 = 3;

// Return sentries, which the later edition alone has (document 02, 8).
const DISABLING_RETURN: u32 = 4;
const ENABLING_RETURN: u32 = 5;

/// The later edition's number, and the greatest that is one.
const LATER: u32 = 1;

const CAPABILITY_BYTES: u32 = 8;

// The low address bits that are cleared on the way through MTCC and MEPCC (document 02, 3).
const MTCC_BITS: u32 = 3;
const MEPCC_BITS: u32 = 1;

const MOST_STEPS: u32 = 1_000_000;

/// A trap about to be taken: what mcause and mtval will hold.
#[derive(Clone, Copy)]
struct Trap {
    cause: u32,
    value: u32,
}

/// The trap of a capability check that names a register.
fn capability_trap(register: u32, cause: u32) -> Trap {
    Trap {
        cause: CAPABILITY_TRAP,
        value: register * 32 + cause,
    }
}

/// One check: its trap unless the condition holds.
fn require(condition: bool, trap: Trap) -> Result<(), Trap> {
    if condition {
        Ok(())
    } else {
        Err(trap)
    }
}

/// The first checks of every use of a capability: tag, seal, right.
fn usable(authority: Capability, name: u32, right: u32, cause: u32) -> Result<(), Trap> {
    require(authority.tag != 0, capability_trap(name, TAG))?;
    require(!is_sealed(authority.metadata), capability_trap(name, SEAL))?;
    require(has(authority.metadata, right), capability_trap(name, cause))
}

/// The bounds check of an access.
fn within(authority: Capability, name: u32, address: u32, size: u32) -> Result<(), Trap> {
    require(
        in_bounds(authority, address, size),
        capability_trap(name, BOUNDS),
    )
}

/// The alignment check of an access; sizes are powers of two.
fn aligned(address: u32, size: u32, cause: u32) -> Result<(), Trap> {
    require(
        address & (size - 1) == 0,
        Trap {
            cause,
            value: address,
        },
    )
}

/// The check of a jump target: the bytes of the smallest instruction are in bounds, which is
/// min_instruction_bytes in the CHERIoT report's CJAL and CJALR and 2 in its 7.5. A target is even:
/// PCC is and offsets are, and CJALR clears bit 0.
fn target_allowed(authority: Capability, name: u32, target: u32) -> Result<(), Trap> {
    within(authority, name, target, SHORT_BYTES)
}

/// An integer result: the NULL capability with that address (CHERIoT report, 7.3).
fn integer(value: u32) -> Capability {
    Capability {
        address: value,
        ..NULL
    }
}

/// Whether a tagged capability has low at most high at most 2^32; of an untagged one nothing is asked
/// (document 02, 13).
pub(crate) fn is_sound(value: Capability) -> bool {
    let (low, high) = bounds(value.address, value.metadata);
    value.tag == 0 || (u64::from(low) <= high && high <= capability::SPACE)
}

/// A capability as it passes through MTCC or MEPCC: low address bits cleared by the address-move
/// rule, also of an address that has none set (document 01, "Traps").
fn legalised(capability: Capability, bits: u32) -> Capability {
    move_address(capability, capability.address & !bits)
}

/// Whether a store of so many bytes has a byte in a watched range, whose end is a whole number and which has
/// none if its length is 0 (document 02, 14).
fn touches(range: Range, address: u32, size: u32) -> bool {
    let first = u64::from(range.start);
    let after = first + u64::from(range.length);
    let mut bytes = (0..size).map(|byte| u64::from(address) + u64::from(byte));
    bytes.any(|byte| first <= byte && byte < after)
}

/// The lent state, checked.
struct Machine<'a> {
    words: &'a mut [u32; WORDS],
    start: u32,
    memory: &'a mut [u8],
    tags: &'a mut [u8],
    /// The first address that has a revocation bit, and the first after those that have one.
    window: (u64, u64),
    revoked: &'a [u8],
    edition: u32,
    watch: Watch,
}

/// What the revocation bits say of an address (document 02, 5).
enum Revocation {
    Outside,
    Clear,
    Marked,
}

/// Whether the memory's start and size keep the limits.
pub(crate) fn memory_allowed(start: u32, size: usize) -> bool {
    (64..=MOST_MEMORY).contains(&size)
        && size.is_multiple_of(64)
        && start.is_multiple_of(8)
        && u64::from(start) + size as u64 <= capability::SPACE
}

/// Whether the window's start and size keep theirs: multiples of 64, inside a memory of this size.
/// A window of no bytes is one too.
pub(crate) fn window_allowed(start: u32, size: u32, memory: usize) -> bool {
    start.is_multiple_of(64)
        && size.is_multiple_of(64)
        && u64::from(start) + u64::from(size) <= memory as u64
}

/// Whether every tag word is 0 or 1 and c0 is all zero.
pub(crate) fn words_allowed(words: &[u32; WORDS]) -> bool {
    let tags_allowed = (0..CAPABILITIES).all(|place| words[3 * place + 2] <= 1);
    tags_allowed && words[..3] == [0, 0, 0]
}

impl<'a> Machine<'a> {
    /// Checks lent state: the machine, or the number of the refusal, the lowest first.
    fn lent(
        words: &'a mut [u32],
        board: Board,
        memory: &'a mut [u8],
        tags: &'a mut [u8],
        revoked: &'a [u8],
    ) -> Result<Machine<'a>, u64> {
        let words: &mut [u32; WORDS] = words.try_into().map_err(|_| 1u64)?;
        let (start, window, size) = (board.start, board.window, memory.len());
        if !memory_allowed(start, size) || !window_allowed(window.start, window.size, size) {
            return Err(2);
        }
        if tags.len() != size / 64 || revoked.len() != window.size as usize / 64 {
            return Err(3);
        }
        if !words_allowed(words) {
            return Err(4);
        }
        let first = u64::from(start) + u64::from(window.start);
        Ok(Machine {
            words,
            start,
            memory,
            tags,
            window: (first, first + u64::from(window.size)),
            revoked,
            edition: board.edition,
            watch: Watch::default(),
        })
    }

    /// The capability at a place of the register file.
    fn capability(&self, place: usize) -> Capability {
        match self.words.get(3 * place..) {
            Some(&[address, metadata, tag, ..]) => Capability {
                address,
                metadata,
                tag,
            },
            _ => NULL,
        }
    }

    fn set_capability(&mut self, place: usize, value: Capability) {
        if let Some([address, metadata, tag, ..]) = self.words.get_mut(3 * place..) {
            *address = value.address;
            *metadata = value.metadata;
            *tag = value.tag;
        }
    }

    fn register(&self, register: Register) -> Capability {
        self.capability(register.number() as usize)
    }

    /// Writes a general register; c0 stays zero.
    fn set_register(&mut self, register: Register, value: Capability) {
        if register.number() != 0 {
            self.set_capability(register.number() as usize, value);
        }
    }

    /// The integer that an operand stands for.
    fn operand(&self, operand: Operand) -> u32 {
        match operand {
            Operand::Register(register) => self.register(register).address,
            Operand::Immediate(value) => value,
        }
    }

    /// The bytes at an address, if all of them are in memory.
    fn read<const N: usize>(&self, address: u32) -> Option<[u8; N]> {
        let offset = address.checked_sub(self.start)? as usize;
        self.memory.get(offset..)?.first_chunk().copied()
    }

    /// Writes aligned bytes and the tag of their granule, or nothing if they are not all in
    /// memory.
    fn write<const N: usize>(&mut self, address: u32, bytes: [u8; N], tag: u32) -> Option<()> {
        let offset = address.checked_sub(self.start)? as usize;
        *self.memory.get_mut(offset..)?.first_chunk_mut()? = bytes;
        let byte = self.tags.get_mut(offset / 64)?;
        let bit = 1 << (offset / 8 % 8);
        *byte = if tag == 0 { *byte & !bit } else { *byte | bit };
        Some(())
    }

    /// The tag of the granule that holds an address, 0 outside memory.
    fn tag_at(&self, address: u32) -> u32 {
        let offset = address.checked_sub(self.start);
        offset.map_or(0, |offset| bit(self.tags, offset.into()))
    }

    /// What the revocation bits say of the granule that holds an address: their first is that of
    /// the window's first granule.
    fn revocation(&self, address: u32) -> Revocation {
        let (address, (first, end)) = (u64::from(address), self.window);
        if address < first || address >= end {
            return Revocation::Outside;
        }
        match bit(self.revoked, address - first) {
            0 => Revocation::Clear,
            _ => Revocation::Marked,
        }
    }

    /// One step: true if it retired, false if it trapped. The interrupt comes before all of the fetch,
    /// by the time at the start of the step; time goes on whatever the step does.
    fn step(&mut self) -> bool {
        let done = if self.interrupts_enabled() && self.long(TIME) >= self.long(COMPARE) {
            Err(TIMER_INTERRUPT)
        } else {
            self.fetch().and_then(|word| self.execute(word))
        };
        self.set_long(TIME, self.long(TIME).wrapping_add(1));
        match done {
            Ok(next) => {
                self.set_capability(PCC, next);
                true
            }
            Err(trap) => {
                self.enter_trap(trap);
                false
            }
        }
    }

    /// The number of two words of the register file.
    fn long(&self, place: usize) -> u64 {
        u64::from(self.words[place + 1]) << 32 | u64::from(self.words[place])
    }

    fn set_long(&mut self, place: usize, value: u64) {
        self.words[place] = value as u32;
        self.words[place + 1] = (value >> 32) as u32;
    }

    /// The mark after a store at an address, the lowest it touched: it goes down to the store if that
    /// lies from the base up to below the mark, both as whole words.
    fn lower_mark(&mut self, address: u32) {
        let (mark, base) = (self.words[MSHWM], self.words[MSHWMB]);
        if base <= address && address < mark {
            self.words[MSHWM] = address & !MARK_BITS;
        }
    }

    /// Counts a store, once its bytes are written, for each watched range that it touches; a count stops at its
    /// last number.
    fn count_touched(&mut self, address: u32, size: u32) {
        for range in &mut self.watch {
            if touches(*range, address, size) {
                range.count = range.count.saturating_add(1);
            }
        }
    }

    /// The word at PCC, a short one with zeros above it (document 01, "Traps", on fetches, as
    /// document 02, 3, amends it): all checks of the first two bytes, and if the word is long those
    /// of two more.
    fn fetch(&self) -> Result<u32, Trap> {
        let pcc = self.capability(PCC);
        usable(pcc, PCC_NAME, EX, EXECUTE)?;
        within(pcc, PCC_NAME, pcc.address, SHORT_BYTES)?;
        aligned(pcc.address, SHORT_BYTES, FETCH_MISALIGNED)?;
        let outside = |address| Trap {
            cause: FETCH_ACCESS,
            value: address,
        };
        let half = self.read(pcc.address).ok_or(outside(pcc.address))?;
        let half = u32::from(u16::from_le_bytes(half));
        if length(half) == SHORT_BYTES {
            return Ok(half);
        }
        within(pcc, PCC_NAME, pcc.address, LONG_BYTES)?;
        let second = pcc.address.wrapping_add(SHORT_BYTES);
        let whole = self.read(pcc.address).ok_or(outside(second))?;
        Ok(u32::from_le_bytes(whole))
    }

    /// Trap entry. MTCC itself stays; no trap is vectored.
    fn enter_trap(&mut self, trap: Trap) {
        self.set_capability(MEPCC, legalised(self.capability(PCC), MEPCC_BITS));
        self.set_capability(PCC, legalised(self.capability(MTCC), MTCC_BITS));
        let enabled = self.interrupts_enabled();
        self.set_status(MPIE, enabled);
        self.set_status(MIE, false);
        self.words[MCAUSE] = trap.cause;
        self.words[MTVAL] = trap.value;
    }

    fn interrupts_enabled(&self) -> bool {
        self.words[MSTATUS] & MIE != 0
    }

    fn set_status(&mut self, bit: u32, value: bool) {
        if value {
            self.words[MSTATUS] |= bit;
        } else {
            self.words[MSTATUS] &= !bit;
        }
    }

    /// The capability of the next instruction in order, after one of so many bytes.
    fn next(&self, bytes: u32) -> Capability {
        let pcc = self.capability(PCC);
        move_address(pcc, pcc.address.wrapping_add(bytes))
    }

    /// Executes a word of either length: the next PCC, or a trap with nothing changed.
    #[rustfmt::skip]
    fn execute(&mut self, word: u32) -> Result<Capability, Trap> {
        use Instruction as I;
        let illegal = Trap { cause: ILLEGAL, value: word };
        let bytes = length(word);
        match instruction(word).ok_or(illegal)? {
            I::Lui { rd, value } => self.set_register(rd, integer(value)),
            I::Auipcc { cd, offset } => self.add_to(cd, self.capability(PCC), offset),
            I::Auicgp { cd, offset } => self.add_to(cd, self.register(CGP), offset),
            I::Cjal { cd, offset } => return self.jump(cd, offset, bytes),
            I::Cjalr { cd, cs1, offset } => return self.jump_register(cd, cs1, offset, bytes),
            I::Branch { condition, rs1, rs2, offset } => {
                if self.holds(condition, rs1, rs2) {
                    return self.branch(offset);
                }
            }
            I::Load { width, rd, cs1, offset } => self.load(width, rd, cs1, offset)?,
            I::Clc { cd, cs1, offset } => self.load_capability(cd, cs1, offset)?,
            I::Store { width, rs2, cs1, offset } => self.store(width, rs2, cs1, offset)?,
            I::Csc { cs2, cs1, offset } => self.store_capability(cs2, cs1, offset)?,
            I::Integer { operation, rd, rs1, operand } => {
                self.arithmetic(operation, rd, rs1, operand)
            }
            I::Csr { operation, csr, rd, operand } => self.csr(operation, csr, rd, operand)?,
            I::Query { query, rd, cs1 } => self.query(query, rd, cs1),
            I::Derive { derivation, cd, cs1, operand } => {
                self.derive(derivation, cd, cs1, operand)
            }
            I::Pair { pairing, cd, cs1, cs2 } => self.pair(pairing, cd, cs1, cs2),
            I::CSpecialRw { cd, special, cs1 } => self.special_read_write(cd, special, cs1)?,
            I::Fence | I::Wfi => {}
            I::Ecall => return Err(Trap { cause: ECALL, value: 0 }),
            I::Ebreak => return Err(Trap { cause: BREAKPOINT, value: 0 }),
            I::Mret => return self.trap_return(),
        }
        Ok(self.next(bytes))
    }

    /// AUIPCC and AUICGP: a capability with an offset added to its address.
    fn add_to(&mut self, cd: Register, source: Capability, offset: u32) {
        let sum = source.address.wrapping_add(offset);
        self.set_register(cd, move_address(source, sum));
    }

    /// The link of an instruction of so many bytes: the next one's PCC, sealed as a sentry that
    /// brings back the present interrupt state (CHERIoT report, CJAL), in the later edition as a
    /// return sentry.
    fn link(&self, bytes: u32) -> Capability {
        let (disabling, enabling) = match self.edition {
            LATER => (DISABLING_RETURN, ENABLING_RETURN),
            _ => (DISABLING_SENTRY, ENABLING_SENTRY),
        };
        let sentry = if self.interrupts_enabled() {
            enabling
        } else {
            disabling
        };
        let next = self.next(bytes);
        Capability {
            metadata: with_type(next.metadata, sentry),
            ..next
        }
    }

    /// CJAL.
    fn jump(&mut self, cd: Register, offset: u32, bytes: u32) -> Result<Capability, Trap> {
        let pcc = self.capability(PCC);
        let target = pcc.address.wrapping_add(offset);
        target_allowed(pcc, PCC_NAME, target)?;
        self.set_register(cd, self.link(bytes));
        Ok(move_address(pcc, target))
    }

    /// Whether CJALR takes a sealed target of a type. The report: each sentry. The later edition, by
    /// the registers: a return (c0, c1) the return sentries, a call that links c1 the other three, any
    /// other jump the one that leaves MIE alone.
    fn accepts(&self, seal: u32, cd: Register, cs1: Register) -> bool {
        match (self.edition, cd.number(), cs1.number()) {
            (LATER, 0, 1) => matches!(seal, DISABLING_RETURN | ENABLING_RETURN),
            (LATER, 1, _) => matches!(seal, 1..=3),
            (LATER, _, _) => seal == 1,
            _ => matches!(seal, 1..=3),
        }
    }

    /// CJALR; a sentry is unsealed before the jump, and only a jump without offset takes one.
    fn jump_register(
        &mut self,
        cd: Register,
        cs1: Register,
        offset: u32,
        bytes: u32,
    ) -> Result<Capability, Trap> {
        let (source, name) = (self.register(cs1), cs1.number());
        let target = source.address.wrapping_add(offset) & !1;
        let sentry = self.accepts(seal_type(source.metadata), cd, cs1);
        let seal_allowed = !is_sealed(source.metadata) || (sentry && offset == 0);
        require(source.tag != 0, capability_trap(name, TAG))?;
        require(seal_allowed, capability_trap(name, SEAL))?;
        require(has(source.metadata, EX), capability_trap(name, EXECUTE))?;
        target_allowed(source, name, target)?;
        // The link holds the interrupt state from before the sentry changes it.
        self.set_register(cd, self.link(bytes));
        match seal_type(source.metadata) {
            DISABLING_SENTRY | DISABLING_RETURN => self.set_status(MIE, false),
            ENABLING_SENTRY | ENABLING_RETURN => self.set_status(MIE, true),
            _ => {}
        }
        let unsealed = Capability {
            metadata: with_type(source.metadata, 0),
            ..source
        };
        Ok(move_address(unsealed, target))
    }

    /// Whether a branch is taken.
    fn holds(&self, condition: Condition, rs1: Register, rs2: Register) -> bool {
        let (left, right) = (self.register(rs1).address, self.register(rs2).address);
        match condition {
            Condition::Equal => left == right,
            Condition::NotEqual => left != right,
            Condition::Less => (left as i32) < right as i32,
            Condition::GreaterOrEqual => left as i32 >= right as i32,
            Condition::LessUnsigned => left < right,
            Condition::GreaterOrEqualUnsigned => left >= right,
        }
    }

    /// A branch that is taken; one that is not checks nothing (CHERIoT report, 7.5).
    fn branch(&self, offset: u32) -> Result<Capability, Trap> {
        let pcc = self.capability(PCC);
        let target = pcc.address.wrapping_add(offset);
        target_allowed(pcc, PCC_NAME, target)?;
        Ok(move_address(pcc, target))
    }

    /// LB, LH, LW, LBU and LHU.
    fn load(
        &mut self,
        width: LoadWidth,
        rd: Register,
        cs1: Register,
        offset: u32,
    ) -> Result<(), Trap> {
        let size = match width {
            LoadWidth::Byte | LoadWidth::ByteUnsigned => 1,
            LoadWidth::Half | LoadWidth::HalfUnsigned => 2,
            LoadWidth::Word => 4,
        };
        let address = self.load_address(cs1, offset, size)?;
        let value = match width {
            LoadWidth::Byte => self.read(address).map(|b| i8::from_le_bytes(b) as u32),
            LoadWidth::Half => self.read(address).map(|b| i16::from_le_bytes(b) as u32),
            LoadWidth::Word => self.read(address).map(u32::from_le_bytes),
            LoadWidth::ByteUnsigned => self.read(address).map(|b| u8::from_le_bytes(b).into()),
            LoadWidth::HalfUnsigned => self.read(address).map(|b| u16::from_le_bytes(b).into()),
        };
        let outside = Trap {
            cause: LOAD_ACCESS,
            value: address,
        };
        self.set_register(rd, integer(value.ok_or(outside)?));
        Ok(())
    }

    /// The address of a load, with all checks but the last, whether it is in memory.
    fn load_address(&self, cs1: Register, offset: u32, size: u32) -> Result<u32, Trap> {
        let (authority, name) = (self.register(cs1), cs1.number());
        let address = authority.address.wrapping_add(offset);
        usable(authority, name, LD, LOAD)?;
        within(authority, name, address, size)?;
        aligned(address, size, LOAD_MISALIGNED)?;
        Ok(address)
    }

    /// CLC (document 01, "Loading capabilities"). Memory keeps its own tag.
    fn load_capability(&mut self, cd: Register, cs1: Register, offset: u32) -> Result<(), Trap> {
        let address = self.load_address(cs1, offset, CAPABILITY_BYTES)?;
        let bytes: [u8; 8] = self.read(address).ok_or(Trap {
            cause: LOAD_ACCESS,
            value: address,
        })?;
        let both = u64::from_le_bytes(bytes);
        let value = Capability {
            address: both as u32,
            metadata: (both >> 32) as u32,
            tag: self.tag_at(address),
        };
        let authority_rights = rights(self.register(cs1).metadata);
        // Outside the window counts as clear.
        let revoked = |low| match self.revocation(low) {
            Revocation::Outside | Revocation::Clear => false,
            Revocation::Marked => true,
        };
        let loaded = capability::load_filter(value, authority_rights, revoked);
        self.set_register(cd, loaded);
        Ok(())
    }

    /// SB, SH and SW; the granule touched loses its tag.
    fn store(
        &mut self,
        width: StoreWidth,
        rs2: Register,
        cs1: Register,
        offset: u32,
    ) -> Result<(), Trap> {
        let (authority, name) = (self.register(cs1), cs1.number());
        let address = authority.address.wrapping_add(offset);
        let size = match width {
            StoreWidth::Byte => 1,
            StoreWidth::Half => 2,
            StoreWidth::Word => 4,
        };
        usable(authority, name, SD, STORE)?;
        within(authority, name, address, size)?;
        aligned(address, size, STORE_MISALIGNED)?;
        let value = self.register(rs2).address;
        let written = match width {
            StoreWidth::Byte => self.write(address, (value as u8).to_le_bytes(), 0),
            StoreWidth::Half => self.write(address, (value as u16).to_le_bytes(), 0),
            StoreWidth::Word => self.write(address, value.to_le_bytes(), 0),
        };
        written.ok_or(Trap {
            cause: STORE_ACCESS,
            value: address,
        })?;
        self.lower_mark(address);
        self.count_touched(address, size);
        Ok(())
    }

    /// CSC, its checks in the order of the CHERIoT report's page.
    fn store_capability(&mut self, cs2: Register, cs1: Register, offset: u32) -> Result<(), Trap> {
        let (authority, name) = (self.register(cs1), cs1.number());
        let address = authority.address.wrapping_add(offset);
        let value = self.register(cs2);
        let local = value.tag != 0 && !has(value.metadata, GL);
        usable(authority, name, SD, STORE)?;
        require(
            value.tag == 0 || has(authority.metadata, MC),
            capability_trap(name, STORE_CAPABILITY),
        )?;
        require(
            !local || has(authority.metadata, SL),
            capability_trap(name, STORE_LOCAL_CAPABILITY),
        )?;
        within(authority, name, address, CAPABILITY_BYTES)?;
        aligned(address, CAPABILITY_BYTES, STORE_MISALIGNED)?;
        let both = u64::from(value.metadata) << 32 | u64::from(value.address);
        self.write(address, both.to_le_bytes(), value.tag)
            .ok_or(Trap {
                cause: STORE_ACCESS,
                value: address,
            })?;
        self.lower_mark(address);
        self.count_touched(address, CAPABILITY_BYTES);
        Ok(())
    }

    /// The integer instructions of OP and OP-IMM.
    fn arithmetic(&mut self, operation: Arithmetic, rd: Register, rs1: Register, second: Operand) {
        let left = self.register(rs1).address;
        let right = self.operand(second);
        // Shifts take the low five bits of their amount, as wrapping shifts do.
        let result = match operation {
            Arithmetic::Add => left.wrapping_add(right),
            Arithmetic::Sub => left.wrapping_sub(right),
            Arithmetic::ShiftLeft => left.wrapping_shl(right),
            Arithmetic::SetLess => u32::from((left as i32) < right as i32),
            Arithmetic::SetLessUnsigned => u32::from(left < right),
            Arithmetic::Xor => left ^ right,
            Arithmetic::ShiftRight => left.wrapping_shr(right),
            Arithmetic::ShiftRightArithmetic => (left as i32).wrapping_shr(right) as u32,
            Arithmetic::Or => left | right,
            Arithmetic::And => left & right,
            Arithmetic::Multiply => left.wrapping_mul(right),
            Arithmetic::MultiplyHigh => high_half(signed(left) * signed(right)),
            Arithmetic::MultiplyHighSignedUnsigned => high_half(signed(left) * unsigned(right)),
            Arithmetic::MultiplyHighUnsigned => high_half_unsigned(left, right),
            Arithmetic::Divide => divide(left, right),
            Arithmetic::DivideUnsigned => left.checked_div(right).unwrap_or(!0),
            Arithmetic::Remainder => remainder(left, right),
            Arithmetic::RemainderUnsigned => left.checked_rem(right).unwrap_or(left),
        };
        self.set_register(rd, integer(result));
    }

    /// The right to reach system registers; the trap names the register refused.
    fn system_allowed(&self, name: u32) -> Result<(), Trap> {
        require(
            has(self.capability(PCC).metadata, SR),
            capability_trap(name, SYSTEM_REGISTERS),
        )
    }

    /// The CSR instructions. A set or clear by register 0 or by the number 0 does not write (the RISC-V
    /// standard); by another register that holds 0 it writes, and a write clears the mark's low bits.
    fn csr(
        &mut self,
        operation: CsrOperation,
        csr: Csr,
        rd: Register,
        operand: Operand,
    ) -> Result<(), Trap> {
        self.system_allowed(PCC_NAME)?;
        let (place, writable) = match csr {
            Csr::Mstatus => (MSTATUS, MIE | MPIE),
            Csr::Mcause => (MCAUSE, !0),
            Csr::Mtval => (MTVAL, !0),
            Csr::Mshwm => (MSHWM, !0),
            Csr::Mshwmb => (MSHWMB, !0),
        };
        let cleared = match csr {
            Csr::Mshwm | Csr::Mshwmb => MARK_BITS,
            Csr::Mstatus | Csr::Mcause | Csr::Mtval => 0,
        };
        let only_reads = match operand {
            Operand::Register(register) => register.number() == 0,
            Operand::Immediate(number) => number == 0,
        };
        let (old, mask) = (self.words[place], self.operand(operand));
        let new = match operation {
            CsrOperation::Write => mask,
            CsrOperation::Set => old | mask,
            CsrOperation::Clear => old & !mask,
        };
        if operation == CsrOperation::Write || !only_reads {
            self.words[place] = (old & !writable) | (new & writable & !cleared);
        }
        self.set_register(rd, integer(old));
        Ok(())
    }

    /// MRET (CHERIoT report, 7.9 and 7.11; the privileged standard for mstatus).
    fn trap_return(&mut self) -> Result<Capability, Trap> {
        self.system_allowed(PCC_NAME)?;
        let enabled = self.words[MSTATUS] & MPIE != 0;
        self.set_status(MIE, enabled);
        self.set_status(MPIE, true);
        Ok(legalised(self.capability(MEPCC), MEPCC_BITS))
    }

    /// CSpecialRW: c0 as a source only reads.
    fn special_read_write(
        &mut self,
        cd: Register,
        special: Special,
        cs1: Register,
    ) -> Result<(), Trap> {
        let (place, number, bits) = match special {
            Special::Mtcc => (MTCC, 28, Some(MTCC_BITS)),
            Special::Mtdc => (MTDC, 29, None),
            Special::MScratchC => (MSCRATCHC, 30, None),
            Special::Mepcc => (MEPCC, 31, Some(MEPCC_BITS)),
        };
        self.system_allowed(PCC_NAME + number)?;
        let through = |value| bits.map_or(value, |bits| legalised(value, bits));
        let (old, new) = (self.capability(place), self.register(cs1));
        self.set_register(cd, through(old));
        if cs1.number() != 0 {
            self.set_capability(place, through(new));
        }
        Ok(())
    }

    /// The instructions that answer an integer about one register.
    fn query(&mut self, query: Query, rd: Register, cs1: Register) {
        let source = self.register(cs1);
        let (low, high) = bounds(source.address, source.metadata);
        let length = high.wrapping_sub(low.into()) & (2 * capability::SPACE - 1);
        let answer = match query {
            Query::CGetPerm => rights(source.metadata),
            Query::CGetType => seal_type(source.metadata),
            Query::CGetBase => low,
            Query::CGetLen => at_most_a_word(length),
            Query::CGetTag => source.tag,
            Query::CRoundRepresentableLength => {
                capability::round_representable_length(source.address)
            }
            Query::CRepresentableAlignmentMask => {
                capability::representable_alignment_mask(source.address)
            }
            Query::CGetAddr => source.address,
            Query::CGetHigh => source.metadata,
            Query::CGetTop => at_most_a_word(high),
        };
        self.set_register(rd, integer(answer));
    }

    /// The instructions that derive a capability from one register and an integer.
    fn derive(&mut self, derivation: Derivation, cd: Register, cs1: Register, operand: Operand) {
        let source = self.register(cs1);
        let value = self.operand(operand);
        let result = match derivation {
            Derivation::CMove => source,
            Derivation::CClearTag => Capability { tag: 0, ..source },
            Derivation::CAndPerm => capability::narrow(source, value),
            Derivation::CSetAddr => move_address(source, value),
            Derivation::CIncAddr => move_address(source, source.address.wrapping_add(value)),
            Derivation::CSetBounds => capability::set_bounds(source, value),
            Derivation::CSetBoundsExact => capability::set_bounds_exact(source, value),
            Derivation::CSetHigh => Capability {
                address: source.address,
                metadata: value,
                tag: 0,
            },
        };
        self.set_register(cd, result);
    }

    /// The instructions on two capabilities.
    fn pair(&mut self, pairing: Pairing, cd: Register, cs1: Register, cs2: Register) {
        let (first, second) = (self.register(cs1), self.register(cs2));
        let result = match pairing {
            Pairing::CSeal => capability::seal(first, second),
            Pairing::CUnseal => capability::unseal(first, second),
            Pairing::CSub => integer(first.address.wrapping_sub(second.address)),
            Pairing::CTestSubset => integer(u32::from(is_subset(first, second))),
            Pairing::CSetEqualExact => integer(u32::from(first == second)),
        };
        self.set_register(cd, result);
    }
}

/// The bit for the granule at an offset: the lowest bit of a byte is the first granule's.
pub(crate) fn bit(bits: &[u8], offset: u64) -> u32 {
    let byte = bits.get(offset as usize / 64).copied().unwrap_or(0);
    u32::from(byte >> (offset / 8 % 8) & 1)
}

/// A word read with its sign.
fn signed(word: u32) -> i64 {
    i64::from(word as i32)
}

/// A word read without a sign.
fn unsigned(word: u32) -> i64 {
    i64::from(word)
}

/// The upper word of a product with a signed factor, which 64 bits always hold.
fn high_half(product: i64) -> u32 {
    (product >> 32) as u32
}

/// The upper word of an unsigned product.
fn high_half_unsigned(left: u32, right: u32) -> u32 {
    ((u64::from(left) * u64::from(right)) >> 32) as u32
}

/// DIV: rounded towards zero. By zero it is -1, and the one overflow, the most negative by -1, is
/// the dividend again (the RISC-V standard, M, the table of both).
fn divide(dividend: u32, divisor: u32) -> u32 {
    match divisor {
        0 => !0,
        _ => (dividend as i32).wrapping_div(divisor as i32) as u32,
    }
}

/// REM: its sign is the dividend's. By zero it is the dividend, and 0 at the overflow.
fn remainder(dividend: u32, divisor: u32) -> u32 {
    match divisor {
        0 => dividend,
        _ => (dividend as i32).wrapping_rem(divisor as i32) as u32,
    }
}

/// A 33-bit number, or the largest word if it is no word (CHERIoT report, CGetLen and
/// CGetTop).
fn at_most_a_word(value: u64) -> u32 {
    u32::try_from(value).unwrap_or(u32::MAX)
}

/// CTestSubset: tags alike, and the inner bounds and rights within the outer ones.
fn is_subset(outer: Capability, inner: Capability) -> bool {
    let (outer_low, outer_high) = bounds(outer.address, outer.metadata);
    let (inner_low, inner_high) = bounds(inner.address, inner.metadata);
    outer.tag == inner.tag
        && outer_low <= inner_low
        && inner_high <= outer_high
        && has(outer.metadata, rights(inner.metadata))
}

/// The answer as one number: the number, the trapped count, the retired count.
fn answer(number: u64, trapped: u32, retired: u32) -> u64 {
    number << 48 | u64::from(trapped) << 24 | u64::from(retired)
}

/// One step on lent state: a run of one.
pub fn step(
    regs: &mut [u32],
    board: Board,
    mem: &mut [u8],
    tags: &mut [u8],
    revoked: &[u8],
) -> u64 {
    run(regs, board, mem, tags, revoked, 1)
}

/// A run of steps on lent state: number * 2^48 + trapped * 2^24 + retired. A refused call
/// changes nothing and counts nothing (document 01, "Answers").
pub fn run(
    regs: &mut [u32],
    board: Board,
    mem: &mut [u8],
    tags: &mut [u8],
    revoked: &[u8],
    steps: u32,
) -> u64 {
    let mut nothing = Watch::default();
    run_watched(regs, board, mem, tags, revoked, steps, &mut nothing)
}

/// A run with a watch record, whose counts rise in place; a refused one leaves them (document 02, 14).
pub fn run_watched(
    regs: &mut [u32],
    board: Board,
    mem: &mut [u8],
    tags: &mut [u8],
    revoked: &[u8],
    steps: u32,
    watch: &mut Watch,
) -> u64 {
    let mut machine = match Machine::lent(regs, board, mem, tags, revoked) {
        Ok(machine) => machine,
        Err(number) => return answer(number, 0, 0),
    };
    if steps > MOST_STEPS {
        return answer(5, 0, 0);
    }
    if machine.edition > LATER {
        return answer(7, 0, 0);
    }
    // What a step loads later on is not asked again.
    if !(0..CAPABILITIES).all(|place| is_sound(machine.capability(place))) {
        return answer(8, 0, 0);
    }
    machine.watch = *watch;
    let mut retired = 0;
    for _ in 0..steps {
        retired += u32::from(machine.step());
    }
    *watch = machine.watch;
    answer(0, steps - retired, retired)
}
