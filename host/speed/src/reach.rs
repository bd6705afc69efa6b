//! The search for capabilities: granules a second of queries over 1 MiB that find nothing, so that every granule is looked
//! at, by the proved library and by the second program.

use crate::turns;
use lent::{Capability, Query, Reach, State, GRANULE, MEMORY_ROOT, MOST_MEMORY};
use std::hint::black_box;
use std::time::Instant;

/// How many queries of each are tried, turn by turn: the best counts.
const TRIES: u32 = 200;

const START: u32 = 0x2000_0000;
const GRANULES: u32 = (MOST_MEMORY / GRANULE) as u32;

/// What memory holds: no tag; in every granule a capability with the right to store that lies elsewhere, or one without it
/// for all addresses.
const KINDS: [&str; 3] = ["untagged", "elsewhere", "unable"];

/// What is asked: whether something held may store into the first half of memory.
const QUERY: Query = Query {
    low: START,
    length: 1 << 19,
    rights: 1 << 2,
};

/// The memory root without the right to store: the code for LD, MC, LM, LG and GL.
const READ_ONLY_ROOT: u32 = (MEMORY_ROOT & !(0x3F << 25)) | 0b110111 << 25;

/// A search by its name.
pub fn searcher(name: &str) -> Option<Reach> {
    match name {
        "proved" => Some(proved::reach),
        "second" => Some(second::reach),
        _ => None,
    }
}

/// A memory of 1 MiB of a kind.
fn memory(kind: &str) -> Option<State> {
    let mut state = State::new(START, vec![0; MOST_MEMORY]);
    let value = match kind {
        "untagged" => return Some(state),
        // 8 bytes past the half that is asked about, at a multiple of 512.
        "elsewhere" => Capability::tagged(START + (1 << 19), 0x7E00_0000 | 8 << 9),
        "unable" => Capability::tagged(START, READ_ONLY_ROOT),
        _ => return None,
    };
    for granule in 0..GRANULES {
        state.write_capability(START + 8 * granule, value);
    }
    Some(state)
}

/// A query, which must find nothing.
fn ask(reach: Reach, state: &State) {
    let found = state.reach(black_box(reach), black_box(QUERY), 0);
    assert_eq!(found, 0, "nothing reaches there");
}

/// So many queries of a memory of a kind, and the granules of one.
pub fn count(name: &str, kind: &str, queries: u32) -> Option<u64> {
    let (reach, mut state) = (searcher(name)?, memory(kind)?);
    for _ in 0..queries {
        ask(reach, &state);
    }
    let last = START + 8 * (GRANULES - 1);
    state.write_capability(last, Capability::tagged(START, MEMORY_ROOT));
    assert_eq!(state.reach(reach, QUERY, 0), u64::from(21 + GRANULES));
    Some(GRANULES.into())
}

/// Millions of granules a second of one query.
fn measure(reach: Reach, state: &State) -> f64 {
    let begin = Instant::now();
    ask(reach, state);
    f64::from(GRANULES) / 1e6 / begin.elapsed().as_secs_f64()
}

/// Every kind by both, by turns.
pub fn compare_all() {
    println!("{}", turns::HEAD);
    for kind in KINDS {
        let state = memory(kind).unwrap_or_default();
        turns::row(kind, TRIES, |is_proved| {
            let reach: Reach = if is_proved {
                proved::reach
            } else {
                second::reach
            };
            measure(reach, &state)
        });
    }
}

#[cfg(test)]
mod tests {
    use super::*;

    /// Each search looks at every granule of each kind of memory; `count` asserts it.
    #[test]
    fn both_searches_find_what_stands_in_the_last_granule() {
        for name in ["proved", "second"] {
            for kind in KINDS {
                assert_eq!(count(name, kind, 2), Some(131_072), "{name}, {kind}");
            }
        }
        assert_eq!(count("proved", "other", 1), None);
    }
}
