//! The sweeper: granules a second of whole passes over 1 MiB, by the proved library and by the second
//! program.

use crate::turns;
use lent::{Capability, State, Sweep, GRANULE, MEMORY_ROOT, MOST_MEMORY};
use std::hint::black_box;
use std::time::Instant;

/// How many passes of each are tried, turn by turn: the best counts. A pass is short, so that some are made
/// while nothing else runs.
const TRIES: u32 = 200;

const START: u32 = 0x2000_0000;

/// What memory holds: no tag; in every granule a tagged capability that is not revoked, or one that is.
const KINDS: [&str; 3] = ["untagged", "kept", "revoked"];

/// A sweeper by its name.
pub fn sweeper(name: &str) -> Option<Sweep> {
    match name {
        "proved" => Some(proved::sweep),
        "second" => Some(second::sweep),
        _ => None,
    }
}

/// A capability for 8 bytes at a multiple of 512, which its words give exactly.
fn object(address: u32) -> Capability {
    Capability::tagged(address, 0x7E00_0000 | 8 << 9)
}

/// A memory of 1 MiB of a kind, and how many tags a pass leaves set.
fn memory(kind: &str) -> Option<(State, u32)> {
    let mut state = State::new(START, vec![0; MOST_MEMORY]);
    let granules = (MOST_MEMORY / GRANULE) as u32;
    state.revoke(START + 512);
    let (value, left) = match kind {
        "untagged" => return Some((state, 0)),
        "kept" => (Capability::tagged(START, MEMORY_ROOT), granules),
        "revoked" => (object(START + 512), 0),
        _ => return None,
    };
    for granule in 0..granules {
        state.write_capability(START + 8 * granule, value);
    }
    Some((state, left))
}

/// A whole pass; it must visit every granule, and leave so many tags. Each visit is a call, as it is for C:
/// neither sweeper is compiled into the loop.
fn pass(sweep: Sweep, state: &mut State, left: u32) -> u64 {
    let sweep = black_box(sweep);
    let mut visits = 1;
    let mut answer = state.sweep(sweep, 0);
    while answer >> 32 == 0 {
        answer = state.sweep(sweep, answer as u32);
        visits += 1;
    }
    assert_eq!(answer, 1 << 32, "the last granule");
    let tags: u32 = state.tags.iter().map(|byte| byte.count_ones()).sum();
    assert_eq!((visits, tags), ((MOST_MEMORY / GRANULE) as u64, left));
    visits
}

/// So many passes over a memory of a kind, and the granules of one.
pub fn count(name: &str, kind: &str, passes: u32) -> Option<u64> {
    let (sweep, (state, left)) = (sweeper(name)?, memory(kind)?);
    let mut swept = state.clone();
    for _ in 0..passes {
        swept.tags.copy_from_slice(&state.tags);
        pass(sweep, &mut swept, left);
    }
    Some((MOST_MEMORY / GRANULE) as u64)
}

/// Millions of granules a second of one pass.
fn measure(sweep: Sweep, state: &State, swept: &mut State, left: u32) -> f64 {
    swept.tags.copy_from_slice(&state.tags);
    let begin = Instant::now();
    let visits = pass(sweep, swept, left);
    visits as f64 / 1e6 / begin.elapsed().as_secs_f64()
}

/// Every kind by both, by turns.
pub fn compare_all() {
    println!("{}", turns::HEAD);
    for kind in KINDS {
        let (state, left) = memory(kind).unwrap_or_default();
        let mut swept = state.clone();
        turns::row(kind, TRIES, |is_proved| {
            let sweep: Sweep = if is_proved {
                proved::sweep
            } else {
                second::sweep
            };
            measure(sweep, &state, &mut swept, left)
        });
    }
}

#[cfg(test)]
mod tests {
    use super::*;

    /// Each sweeper visits every granule of each kind of memory and leaves the right tags; `pass` asserts it.
    #[test]
    fn both_sweepers_leave_the_same_tags() {
        for name in ["proved", "second"] {
            for kind in KINDS {
                assert_eq!(count(name, kind, 2), Some(131_072), "{name}, {kind}");
            }
        }
        assert_eq!(count("proved", "other", 1), None);
    }
}
