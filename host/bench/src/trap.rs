//! A trap in words, from what the machine left: mcause, mtval, PCC and the registers, which a trap
//! does not change (document 01, "Traps"; the CHERIoT report, Table 7.3). Of a register without a tag
//! it is told what the revocation bits say of its low bound, since a load may have taken the tag.

#[cfg(test)]
mod tests;

use crate::capability_text::is_integer;
use crate::edition;
use crate::probe::jump::{self, Jump};
use crate::probe::{self, access, fetch, value};
use crate::probe::{BOUNDS, CAPABILITY_CHECK, EXECUTE, LOAD, NAMES, PCC_NAME, SEAL, STORE, TAG};
use crate::proved::{bounds, word_at, Region};
use crate::request::Request;
use lent::{place_name, Capability, Revocation, State, MCAUSE, MEPCC, MTVAL, PCC, TIMER_INTERRUPT};

/// The special register with the lowest number, MTCC (the CHERIoT report, Table 7.2). A special register n is named in
/// mtval by PCC's name plus n (7.11).
const FIRST_SPECIAL: u32 = 28;

/// One more cause of a capability check (the CHERIoT report, Table 7.3).
const SYSTEM_REGISTERS: u32 = 24;

/// What the step was doing when it trapped.
#[derive(Clone, Copy, PartialEq, Eq, Debug)]
pub enum Action {
    Fetch,
    Load,
    Store,
    Jump,
    Other,
}

impl Action {
    pub fn noun(self) -> &'static str {
        match self {
            Action::Fetch => "fetch",
            Action::Load => "load",
            Action::Store => "store",
            Action::Jump => "jump",
            Action::Other => "access",
        }
    }
}

/// The bytes that were asked for.
#[derive(Clone, Copy, PartialEq, Eq, Debug)]
pub struct Asked {
    pub address: u32,
    pub size: u32,
}

impl Asked {
    /// The address after the last byte, up to 2^32 + 7.
    pub fn end(self) -> u64 {
        u64::from(self.address) + u64::from(self.size)
    }
}

/// The capability that the access was made by.
#[derive(Clone, PartialEq, Eq, Debug)]
pub struct Authority {
    pub name: String,
    pub value: Capability,
    pub bounds: Region,
    /// What the revocation bits say of its low bound, if it is a general register with bounds and
    /// without a tag.
    pub revocation: Option<Revocation>,
}

#[derive(Clone, PartialEq, Eq, Debug)]
pub struct Trap {
    /// PCC at the trap.
    pub pcc: Capability,
    /// The instruction word, short or long, if it could be fetched.
    pub word: Option<u32>,
    pub mcause: u32,
    pub mtval: u32,
    pub action: Action,
    pub cause: String,
    pub authority: Option<Authority>,
    pub asked: Option<Asked>,
    /// Whether the program has gone on since, and may have written what the trap left.
    pub gone_on: bool,
}

impl Trap {
    /// The trap that a step from `before` ended in, leaving `after`.
    pub fn of_step(before: &State, after: &State) -> Trap {
        Trap::new(after, before.capability(PCC))
    }

    /// The last trap that a state records, if it records one. MEPCC stands for the PCC of that
    /// time, and the registers for what they were, unless the program has written them since.
    pub fn recorded(state: &State) -> Option<Trap> {
        let none = state.register(MCAUSE) == 0 && state.register(MTVAL) == 0;
        (!none).then(|| Trap {
            gone_on: state.capability(PCC).address != probe::handler(state),
            ..Trap::new(state, state.capability(MEPCC))
        })
    }

    /// The trap of a step from PCC, by the state that it left.
    pub fn new(after: &State, pcc: Capability) -> Trap {
        let (mcause, mtval) = (after.register(MCAUSE), after.register(MTVAL));
        let action = action(after, pcc, mcause, mtval);
        let word = word_at(after, pcc.address);
        let word = word.filter(|_| action != Action::Fetch && mcause != TIMER_INTERRUPT);
        let authority = authority(after, pcc, mcause, mtval, action, word);
        let mut trap = Trap {
            pcc,
            word,
            mcause,
            mtval,
            action,
            cause: cause(mcause, mtval, action),
            authority,
            asked: None,
            gone_on: false,
        };
        trap.asked = trap.asked(after);
        if let Some(cause) = trap.by_a_sentry(after.edition) {
            trap.cause = cause;
        }
        trap
    }

    /// Whether it is the timer interrupt, which comes before the fetch.
    pub fn is_interrupt(&self) -> bool {
        self.mcause == TIMER_INTERRUPT
    }

    /// mcause as the papers write it: a small number, or the digits of an interrupt.
    pub fn mcause_shown(&self) -> String {
        match self.is_interrupt() {
            true => format!("{:08x}", self.mcause),
            false => self.mcause.to_string(),
        }
    }

    /// Why a jump by a sentry was refused. It is sealed, but so it would be where the jump is made.
    fn by_a_sentry(&self, edition: u32) -> Option<String> {
        let Authority { name, value, .. } = self.authority.as_ref()?;
        let sealed = self.mcause == CAPABILITY_CHECK && self.mtval % NAMES == SEAL;
        let refused = sealed && self.action == Action::Jump && value.tag == 1;
        let kind = value::seal_type(value.metadata);
        let word = self.word.filter(|_| refused && jump::is_sentry(kind))?;
        Some(edition::refusal(edition, kind, Jump::of(word)?, name))
    }

    /// The bytes that were asked for, as far as the cause has any.
    fn asked(&self, after: &State) -> Option<Asked> {
        let size = self.size();
        let address = match (self.mcause, self.action) {
            (0 | 1 | 4..=7, _) => Some(self.mtval),
            (CAPABILITY_CHECK, Action::Fetch) => Some(self.pcc.address),
            (CAPABILITY_CHECK, Action::Load | Action::Store) => {
                access::address(self.word?, self.authority.as_ref()?.value.address)
            }
            (CAPABILITY_CHECK, Action::Jump) => target(after, self.pcc, self.word?),
            _ => None,
        }?;
        Some(Asked { address, size })
    }

    /// The bytes of the access. A fetch asks for those of a long word where a short one's have passed.
    fn size(&self) -> u32 {
        let [short, long] = fetch::bytes();
        match self.word.map(Request::of) {
            Some(Request::Load { size, .. } | Request::Store { size, .. }) => size,
            _ if self.action == Action::Jump => jump::bytes(),
            _ if self.action == Action::Fetch && self.second_half() => long,
            _ => short,
        }
    }

    /// Whether a fetch was refused for the bounds of its second half: a short word would have been fetched.
    fn second_half(&self) -> bool {
        let outside = self.mcause == CAPABILITY_CHECK && self.mtval % NAMES == BOUNDS;
        outside && fetch::passed(self.pcc) == [true, false]
    }
}

/// What the step was doing.
fn action(after: &State, pcc: Capability, mcause: u32, mtval: u32) -> Action {
    let word = word_at(after, pcc.address);
    match mcause {
        0 | 1 => Action::Fetch,
        4 | 5 => Action::Load,
        6 | 7 => Action::Store,
        CAPABILITY_CHECK => checked_action(pcc, word, mtval),
        _ => Action::Other,
    }
}

/// The target of the jump or branch at PCC, if an instruction may stand there.
fn target(after: &State, pcc: Capability, word: u32) -> Option<u32> {
    match Request::of(word) {
        _ if !fetch::is_place(pcc.address) => None,
        Request::RegisterJump { by } => jump::by_register(word, after.capability(by).address),
        _ => jump::from_pcc(after, pcc),
    }
}

/// What a capability check refused. One of PCC is a fetch, unless the word could be fetched.
fn checked_action(pcc: Capability, word: Option<u32>, mtval: u32) -> Action {
    let (name, cause) = (mtval / NAMES, mtval % NAMES);
    let fetched = || word.is_some_and(|word| fetch::lets(pcc, word));
    match (name, word.map(Request::of)) {
        _ if cause == SYSTEM_REGISTERS => Action::Other,
        (PCC_NAME, _) if cause == BOUNDS && fetched() => Action::Jump,
        (PCC_NAME, _) => Action::Fetch,
        (_, Some(Request::Load { .. })) => Action::Load,
        (_, Some(Request::Store { .. })) => Action::Store,
        (_, Some(Request::RegisterJump { .. })) => Action::Jump,
        _ => Action::Other,
    }
}

/// The capability that the access was made by.
fn authority(
    after: &State,
    pcc: Capability,
    mcause: u32,
    mtval: u32,
    action: Action,
    word: Option<u32>,
) -> Option<Authority> {
    let named = |name: String, value: Capability| Authority {
        name,
        value,
        bounds: bounds(value),
        revocation: None,
    };
    let place = match (mcause, action) {
        (CAPABILITY_CHECK, _) if ((mtval / NAMES) as usize) < PCC => (mtval / NAMES) as usize,
        (_, Action::Load | Action::Store) => Request::of(word?).register()?,
        (0 | 1 | CAPABILITY_CHECK, _) => return Some(named("PCC".into(), pcc)),
        _ => return None,
    };
    let value = after.capability(place);
    let loaded = value.tag == 0 && !is_integer(value);
    Some(Authority {
        revocation: loaded.then(|| probe::revocation(after, bounds(value).low)),
        ..named(place_name(place), value)
    })
}

/// The cause in words.
fn cause(mcause: u32, mtval: u32, action: Action) -> String {
    match mcause {
        0 => format!("misaligned {}", action.noun()),
        1 => "fetch outside memory".into(),
        2 => "illegal instruction".into(),
        3 => "breakpoint (EBREAK)".into(),
        4 => "misaligned load".into(),
        5 => "load outside memory".into(),
        6 => "misaligned store".into(),
        7 => "store outside memory".into(),
        11 => "environment call (ECALL)".into(),
        CAPABILITY_CHECK => checked_cause(mtval / NAMES, mtval % NAMES, action.noun()),
        TIMER_INTERRUPT => "timer interrupt".into(),
        _ => format!("mcause {mcause}, which this machine does not give"),
    }
}

/// The cause of a capability check in words.
fn checked_cause(name: u32, cause: u32, noun: &str) -> String {
    let register = register_name(name);
    match cause {
        BOUNDS => format!("{noun} outside the bounds of {register}"),
        TAG => format!("{noun} by {register}, which has no tag"),
        SEAL => format!("{noun} by {register}, which is sealed"),
        EXECUTE => format!("{noun} by {register}, which lacks the right to execute (EX)"),
        LOAD => format!("load by {register}, which lacks the right to load (LD)"),
        STORE => format!("store by {register}, which lacks the right to store (SD)"),
        21 => {
            format!("store of a capability by {register}, which lacks the right to store them (MC)")
        }
        22 => format!(
            "store of a local capability by {register}, which lacks the right to store them (SL)"
        ),
        SYSTEM_REGISTERS if name == PCC_NAME => {
            "system instruction, and PCC lacks the right to system registers (SR)".into()
        }
        SYSTEM_REGISTERS => {
            format!("use of {register}, and PCC lacks the right to system registers (SR)")
        }
        _ => format!("check {cause} of {register}, which this machine does not give"),
    }
}

/// The register that mtval names.
fn register_name(name: u32) -> String {
    const LAST_SPECIAL: u32 = PCC_NAME + FIRST_SPECIAL + 3;
    match name {
        0..=15 => format!("c{name}"),
        PCC_NAME => "PCC".into(),
        60..=LAST_SPECIAL => place_name((name - PCC_NAME - FIRST_SPECIAL) as usize + PCC + 1),
        _ => format!("register {name}"),
    }
}
