//! The sweeper (document 02, section 10): a call visits one granule of memory. The capability stored there
//! loses its tag where the load filter's revocation test would clear it.

#[cfg(test)]
mod tests;

use crate::capability::{load_filter, Capability};
use crate::machine::{bit, memory_allowed, window_allowed};
use lent::Board;

pub(crate) const GRANULE_BYTES: usize = 8;

/// Says that the granule was the last one.
const LAST: u64 = 1 << 32;

/// An authority that has every right, so that the filter's losses for a missing one stay away.
const EVERY_RIGHT: u32 = !0;

/// What the revocation bits say of the granule that holds a low bound: outside the window nothing is
/// revoked (document 02, 5).
fn marked(board: Board, revoked: &[u8], low: u32) -> bool {
    let first = u64::from(board.start) + u64::from(board.window.start);
    let place = u64::from(low).checked_sub(first);
    place.is_some_and(|place| place < board.window.size.into() && bit(revoked, place) == 1)
}

/// Whether a stored value loses its tag.
fn loses_tag(value: Capability, board: Board, revoked: &[u8]) -> bool {
    let swept = load_filter(value, EVERY_RIGHT, |low| marked(board, revoked, low));
    swept.tag != value.tag
}

/// The tagged capability of eight bytes of memory.
pub(crate) fn stored(bytes: &[u8; GRANULE_BYTES]) -> Capability {
    let word =
        |at: usize| u32::from_le_bytes([bytes[at], bytes[at + 1], bytes[at + 2], bytes[at + 3]]);
    Capability {
        address: word(0),
        metadata: word(4),
        tag: 1,
    }
}

/// Visits a granule: the number of the next one, none after the last, or a refusal's number. A refusal
/// changes nothing.
fn visit(
    board: Board,
    memory: &[u8],
    tags: &mut [u8],
    revoked: &[u8],
    granule: u32,
) -> Result<Option<u32>, u64> {
    let (start, window, size) = (board.start, board.window, memory.len());
    if !memory_allowed(start, size) || !window_allowed(window.start, window.size, size) {
        return Err(2);
    }
    if tags.len() != size / 64 || revoked.len() != window.size as usize / 64 {
        return Err(3);
    }
    let place = granule as usize * GRANULE_BYTES;
    let bytes = memory.get(place..).and_then(|from| from.first_chunk());
    let bytes = bytes.ok_or(9u64)?;
    let (byte, own) = (granule as usize / 8, 1u8 << (granule % 8));
    if tags[byte] & own != 0 && loses_tag(stored(bytes), board, revoked) {
        tags[byte] &= !own;
    }
    let last = place + GRANULE_BYTES == size;
    Ok((!last).then_some(granule + 1))
}

/// One granule swept. The answer is number * 2^48 + last * 2^32 + the next granule's number, which is 0
/// after the last and where the call is refused.
pub fn sweep(board: Board, mem: &[u8], tags: &mut [u8], revoked: &[u8], granule: u32) -> u64 {
    match visit(board, mem, tags, revoked, granule) {
        Ok(Some(next)) => next.into(),
        Ok(None) => LAST,
        Err(number) => number << 48,
    }
}
