//! Wrong machines, one of them at a time: the second program with one line changed (mutants.txt),
//! copied and edited by build.rs.

#![allow(clippy::all, unused)]

use std::sync::atomic::{AtomicUsize, Ordering};

include!(concat!(env!("OUT_DIR"), "/modules.rs"));

/// One wrong machine.
pub struct Mutant {
    pub name: &'static str,
    /// The comparisons that must tell it from the right machine.
    pub by: &'static str,
    /// `authority` and why, for one that gains none though it is wrong about capabilities.
    pub not: &'static str,
}

/// Every wrong machine; number 1 is the first of them.
pub const MUTANTS: &[Mutant] = include!(concat!(env!("OUT_DIR"), "/list.rs"));

/// The number of the wrong machine that is on; 0 for none.
static SELECTED: AtomicUsize = AtomicUsize::new(0);

/// Turns one wrong machine on and every other off; 0 turns all off.
pub fn select(number: usize) {
    SELECTED.store(number, Ordering::Relaxed);
}

/// Whether a wrong machine is on.
fn on(number: usize) -> bool {
    SELECTED.load(Ordering::Relaxed) == number
}
