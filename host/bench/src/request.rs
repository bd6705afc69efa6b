//! What an instruction asks for, by its word, short or long: the machine is asked on scratch states, and what it answered is
//! kept by word. It is read for what is said of a trap or a load.

#[cfg(test)]
mod tests;

use crate::probe::{access, EXECUTE, LOAD, STORE};
use std::cell::RefCell;
use std::collections::HashMap;

/// What a word asks for.
#[derive(Clone, Copy, PartialEq, Eq, Debug)]
pub enum Request {
    /// A load of so many bytes by a register into another, none if it is c0, with the tag there or without.
    Load {
        by: usize,
        size: u32,
        to: Option<usize>,
        tags: bool,
    },
    /// A store of so many bytes by a register.
    Store {
        by: usize,
        size: u32,
    },
    /// A jump by a register.
    RegisterJump {
        by: usize,
    },
    Other,
}

impl Request {
    pub fn of(word: u32) -> Request {
        thread_local!(static KNOWN: RefCell<HashMap<u32, Request>> = RefCell::default());
        let known = KNOWN.with_borrow(|known| known.get(&word).copied());
        known.unwrap_or_else(|| {
            let request = asked(word).unwrap_or(Request::Other);
            KNOWN.with_borrow_mut(|known| known.insert(word, request));
            request
        })
    }

    /// The register that the request is made by.
    pub fn register(self) -> Option<usize> {
        match self {
            Request::Load { by, .. } | Request::Store { by, .. } => Some(by),
            Request::RegisterJump { by } => Some(by),
            Request::Other => None,
        }
    }
}

/// The request by the register that the machine names, and the right that it asks of it.
fn asked(word: u32) -> Option<Request> {
    let by = access::register(word)?;
    match access::right(word)? {
        EXECUTE => Some(Request::RegisterJump { by }),
        LOAD => {
            let (size, (to, tags)) = (access::size(word)?, access::loaded(word)?);
            Some(Request::Load { by, size, to, tags })
        }
        STORE => Some(Request::Store {
            by,
            size: access::size(word)?,
        }),
        _ => None,
    }
}
