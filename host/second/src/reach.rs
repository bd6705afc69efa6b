//! The search for capabilities that reach into a range: the first place, in the register file and then in
//! memory, whose tagged capability has some rights and a byte in common with a range of addresses. What is
//! never reached with the right to store is never written (the theorem on integrity). The same search passes
//! over the granules of the range itself: what is never reached from outside with the right to load makes no
//! difference outside (the theorem on secrecy).

#[cfg(test)]
mod tests;

use crate::capability::{bounds, has, Capability};
use crate::machine::{bit, is_sound, memory_allowed, words_allowed};
use crate::sweep::{stored, GRANULE_BYTES};
use lent::Query;

/// The capability registers, which are the first places; the granules of memory come after them.
const REGISTERS: usize = 21;

/// The rights have numbers below this.
const RIGHTS: u32 = 12;

/// The granules that are looked at: all, or those that do not lie in the range.
#[derive(Clone, Copy, PartialEq, Eq)]
enum Looked {
    All,
    Outside,
}

/// Whether a range begins and ends between granules, so that each lies in it or outside. Where the end is past
/// 2^32, which is a whole number of granules, what is over says the same.
fn is_of_granules(query: Query) -> bool {
    let edges = [query.low, query.low.wrapping_add(query.length)];
    edges.iter().all(|edge| edge % GRANULE_BYTES as u32 == 0)
}

/// Whether a granule lies in such a range.
fn lies_in(start: u32, granule: usize, query: Query) -> bool {
    let address = u64::from(start) + (granule * GRANULE_BYTES) as u64;
    let first = u64::from(query.low);
    (first..first + u64::from(query.length)).contains(&address)
}

/// Whether some addresses of a sound capability are also in the range; both ends are whole numbers.
fn meets(value: Capability, query: Query) -> bool {
    let (low, high) = bounds(value.address, value.metadata);
    let first = u64::from(query.low);
    let after = first + u64::from(query.length);
    u64::from(low).max(first) < high.min(after)
}

/// Whether a capability counts. Of an unsound one nothing is known, so that it counts for every range that
/// has a byte. Whether one is sealed is not asked.
pub fn counts(value: Capability, query: Query) -> bool {
    if value.tag == 0 || query.length == 0 {
        return false;
    }
    !is_sound(value) || (has(value.metadata, query.rights) && meets(value, query))
}

/// The capability of a register.
fn register(regs: &[u32], place: usize) -> Option<Capability> {
    match regs.get(3 * place..) {
        Some(&[address, metadata, tag, ..]) => Some(Capability {
            address,
            metadata,
            tag,
        }),
        _ => None,
    }
}

/// The capability of a granule, if its tag is set.
fn in_memory(mem: &[u8], tags: &[u8], granule: usize) -> Option<Capability> {
    let offset = granule * GRANULE_BYTES;
    let bytes = mem.get(offset..)?.first_chunk()?;
    (bit(tags, offset as u64) == 1).then(|| stored(bytes))
}

/// The first place from one on, or none; or the number of a refusal.
fn first(
    regs: &[u32],
    start: u32,
    mem: &[u8],
    tags: &[u8],
    (query, looked): (Query, Looked),
    from: u32,
) -> Result<Option<usize>, u64> {
    let words = regs.try_into().map_err(|_| 1u64)?;
    let size = mem.len();
    let places = REGISTERS + size / GRANULE_BYTES;
    let reasons = [
        (2, !memory_allowed(start, size)),
        (3, tags.len() != size / 64),
        (4, !words_allowed(words)),
        (20, query.rights >> RIGHTS != 0),
        (21, from as usize >= places),
        (22, looked == Looked::Outside && !is_of_granules(query)),
    ];
    if let Some((number, _)) = reasons.iter().find(|(_, refused)| *refused) {
        return Err(*number);
    }
    let held = |place: usize| match place.checked_sub(REGISTERS) {
        None => register(regs, place),
        Some(granule) if looked == Looked::Outside && lies_in(start, granule, query) => None,
        Some(granule) => in_memory(mem, tags, granule),
    };
    let mut places = from as usize..places;
    Ok(places.find(|&place| held(place).is_some_and(|value| counts(value, query))))
}

/// The answer is number * 2^48 + the place and 1, or + 0 where there is none; a refusal has nothing but its
/// number.
fn packed(found: Result<Option<usize>, u64>) -> u64 {
    match found {
        Ok(place) => place.map_or(0, |place| place as u64 + 1),
        Err(number) => number << 48,
    }
}

/// The search.
pub fn reach(regs: &[u32], start: u32, mem: &[u8], tags: &[u8], query: Query, from: u32) -> u64 {
    packed(first(regs, start, mem, tags, (query, Looked::All), from))
}

/// The search from outside, by registers and by the granules that do not lie in the range.
pub fn reach_outside(
    regs: &[u32],
    start: u32,
    mem: &[u8],
    tags: &[u8],
    query: Query,
    from: u32,
) -> u64 {
    packed(first(
        regs,
        start,
        mem,
        tags,
        (query, Looked::Outside),
        from,
    ))
}
