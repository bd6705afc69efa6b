//! Where jumps go, what they link, and which sentries they take.

use super::access::{changed, free};
use super::value::{cut, sealed};
use super::{check, proved, retires, scratch, untag_others, word, BOUNDS, PCC_NAME};
use lent::{Capability, State, EXECUTABLE_ROOT, LATER_EDITION, MSTATUS, PCC, REPORT_EDITION};
use std::cell::RefCell;
use std::collections::HashMap;
use std::rc::Rc;
use std::sync::OnceLock;

/// The types that a capability can have.
const TYPES: u32 = 16;

/// A machine with a jump by a register that is a root's at an address.
fn by_root(word: u32, address: u32) -> Option<State> {
    let (word, by) = free(word)?;
    let mut state = scratch(0, word);
    state.set(by, Capability::tagged(address, EXECUTABLE_ROOT));
    Some(state)
}

/// The target of a jump by a register whose authority is at `address`.
pub fn by_register(word: u32, address: u32) -> Option<u32> {
    target(by_root(word, address)?)
}

/// The target of the branch or jump from PCC that `state` is at, with PCC widened to the root, and without interrupts; none
/// if PCC's bounds do not refuse it. It goes by no other tag, and one that no start may hold would be refused.
pub fn from_pcc(state: &State, pcc: Capability) -> Option<u32> {
    let mut state = state.clone();
    state.regs[MSTATUS] = 0;
    untag_others(&mut state, PCC);
    state.set(PCC, pcc);
    let refused = match proved::run(&mut state.clone(), 0) {
        Ok(_) => check(&mut state.clone()) == Some((PCC_NAME, BOUNDS)),
        // A PCC that no start may hold cannot be asked.
        Err(_) => true,
    };
    state.set(PCC, Capability::tagged(pcc.address, EXECUTABLE_ROOT));
    refused.then(|| target(state))?
}

/// Where a jump by root authority goes: a root has the bytes of every target.
fn target(mut state: State) -> Option<u32> {
    retires(&mut state).then(|| state.capability(PCC).address)
}

/// How many bytes a jump asks of its target: the fewest that its authority must have there.
pub fn bytes() -> u32 {
    const MOST: u32 = 64;
    static BYTES: OnceLock<u32> = OnceLock::new();
    let taken = |bytes: &u32| {
        let mut state = scratch(0, word("cjalr 0 1 0"));
        state.set(1, cut(0, EXECUTABLE_ROOT, *bytes));
        retires(&mut state)
    };
    *BYTES.get_or_init(|| (1..MOST).find(taken).unwrap_or(MOST))
}

/// The registers of a jump: the one that it links, c0 if it links none, and the one that it goes by.
#[derive(Clone, Copy, PartialEq, Eq, Debug)]
pub struct Jump {
    pub links: usize,
    pub by: usize,
}

impl Jump {
    /// The registers of a word that jumps by a register.
    pub fn of(word: u32) -> Option<Jump> {
        Some(Jump {
            links: changed(&mut by_root(word, 0)?).unwrap_or(0),
            by: super::access::register(word)?,
        })
    }

    /// Whether an edition's jump without an offset takes a sealed capability.
    fn takes(self, value: Capability, edition: u32) -> bool {
        let Jump { links, by } = self;
        let mut state = scratch(0, word(&format!("cjalr {links} {by} 0")));
        state.set(by, value);
        state.edition = edition;
        retires(&mut state)
    }
}

/// The jumps without an offset that take a capability of a type, in an edition. Each pair of registers is tried once.
pub fn takers(kind: u32, edition: u32) -> Rc<[Jump]> {
    type Known = HashMap<(u32, u32), Rc<[Jump]>>;
    thread_local!(static KNOWN: RefCell<Known> = RefCell::default());
    let known = KNOWN.with_borrow(|known| known.get(&(kind, edition)).cloned());
    known.unwrap_or_else(|| {
        let found = tried(kind, edition);
        KNOWN.with_borrow_mut(|known| known.insert((kind, edition), Rc::clone(&found)));
        found
    })
}

fn tried(kind: u32, edition: u32) -> Rc<[Jump]> {
    let Some(value) = sealed(kind).filter(|_| kind != 0) else {
        return Rc::new([]);
    };
    let registers = || 0..PCC;
    let pairs = registers().flat_map(|links| registers().map(move |by| Jump { links, by }));
    pairs
        .filter(|jump| jump.by != 0 && jump.takes(value, edition))
        .collect()
}

/// Whether a type is a sentry's: some jump takes it, in one edition or the other.
pub fn is_sentry(kind: u32) -> bool {
    let editions = [LATER_EDITION, REPORT_EDITION];
    editions
        .iter()
        .any(|&edition| !takers(kind, edition).is_empty())
}

/// Whether a type is a return sentry's, a sentry that the later edition alone has.
pub fn is_return(kind: u32) -> bool {
    is_sentry(kind) && takers(kind, REPORT_EDITION).is_empty()
}

/// The types of the return sentries that a jump takes in an edition.
pub fn takes_returns(jump: Jump, edition: u32) -> bool {
    let mut returns = (0..TYPES).filter(|&kind| is_return(kind));
    returns.any(|kind| takers(kind, edition).contains(&jump))
}
