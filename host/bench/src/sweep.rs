//! A pass of the proved sweeper over a state: each granule of memory, from 0 on, by the numbers that come
//! back.

#[cfg(test)]
mod tests;

use crate::proved::{self, Refusal};
use lent::{Capability, State, GRANULE};

/// A tag that a pass took: the granule, its address, and the capability there.
#[derive(Clone, Copy, PartialEq, Eq, Debug)]
pub struct Went {
    pub granule: u32,
    pub address: u32,
    pub value: Capability,
}

/// How many steps are left to the next sweep, after so many that were made, where one comes after every so many.
pub fn left(every: Option<u64>, made: u64) -> u64 {
    every.map_or(u64::MAX, |every| every - made % every)
}

/// Whether one comes after so many steps.
pub fn is_due(every: Option<u64>, made: u64) -> bool {
    made > 0 && every == Some(left(every, made))
}

/// The granules of a state's memory.
pub fn granules(state: &State) -> u64 {
    (state.mem.len() / GRANULE) as u64
}

/// How many of its tags are set.
pub fn tags(state: &State) -> u64 {
    let set = state.tags.iter().map(|byte| u64::from(byte.count_ones()));
    set.sum()
}

/// The tagged capability of a granule.
pub fn held(state: &State, granule: u32) -> Option<Went> {
    let offset = u32::try_from(u64::from(granule) * GRANULE as u64).ok()?;
    let address = state.start.checked_add(offset)?;
    state.tagged(address.into()).then_some(())?;
    let metadata = state.word(address.checked_add(4)?)?;
    let value = Capability::tagged(state.word(address)?, metadata);
    Some(Went {
        granule,
        address,
        value,
    })
}

/// Sweeps all of memory: the tags that went, in the order of their granules. `seen` is told how many granules
/// were visited. A refused pass changes nothing: what is refused is refused at granule 0.
pub fn pass(state: &mut State, mut seen: impl FnMut(u64)) -> Result<Vec<Went>, Refusal> {
    let mut went = Vec::new();
    let mut granule = 0;
    loop {
        let before = held(state, granule);
        let next = proved::sweep(state, granule)?;
        if held(state, granule).is_none() {
            went.extend(before);
        }
        seen(u64::from(granule) + 1);
        match next {
            Some(next) => granule = next,
            None => return Ok(went),
        }
    }
}
