//! Lookups of bounds: the proved routine, the second program's, and one tuned by hand.
//!
//! The label library gives low and high by a function each, so the plain routines are asked in the
//! same way, and none of the calls is inlined.

mod plain;
mod words;

use std::time::Instant;
use words::{of_kind, Pair, KINDS, PAIRS};

/// Lookups of one timing, and how many timings of each routine are tried, turn by turn: the best counts.
const LOOKUPS: usize = 10_000_000;
const TRIES: u32 = 10;

/// A routine: low and high of an address and a metadata word.
#[derive(Clone, Copy)]
pub struct Routine {
    name: &'static str,
    low: extern "C" fn(u32, u32) -> u32,
    high: extern "C" fn(u32, u32) -> u64,
}

const PROVED: Routine = Routine {
    name: "proved",
    low: proved::bounds_low,
    high: proved::bounds_high,
};

const SECOND: Routine = Routine {
    name: "second",
    low: plain::second_low,
    high: plain::second_high,
};

const TUNED: Routine = Routine {
    name: "tuned",
    low: plain::tuned_low,
    high: plain::tuned_high,
};

#[cfg(not(feature = "before"))]
const ROUTINES: [Routine; 3] = [PROVED, SECOND, TUNED];
#[cfg(feature = "before")]
const ROUTINES: [Routine; 4] = [PROVED, SECOND, TUNED, before::ROUTINE];

/// The label library of another state beside this one's: libbefore.a, whose names have before_ in front.
#[cfg(feature = "before")]
mod before {
    // SAFETY: declared as in include/oddersnow.h; each takes and gives plain numbers, and is total.
    #[link(name = "before", kind = "static")]
    unsafe extern "C" {
        safe fn before_oddersnow_bounds_low(address: u32, metadata: u32) -> u32;
        safe fn before_oddersnow_bounds_high(address: u32, metadata: u32) -> u64;
    }

    pub const ROUTINE: super::Routine = super::Routine {
        name: "before",
        low: before_oddersnow_bounds_low,
        high: before_oddersnow_bounds_high,
    };
}

/// A routine by its name.
pub fn routine(name: &str) -> Option<Routine> {
    ROUTINES.into_iter().find(|routine| routine.name == name)
}

/// The sum of both bounds over some lookups, which go round the pairs.
#[inline(never)]
fn sum(routine: Routine, pairs: &[Pair; PAIRS], lookups: usize) -> u64 {
    let asked = pairs.iter().cycle().take(lookups);
    asked.fold(0, |sum: u64, &(address, metadata)| {
        sum.wrapping_add((routine.low)(address, metadata).into())
            .wrapping_add((routine.high)(address, metadata))
    })
}

/// Some millions of lookups and no times, for an instruction count by callgrind.
pub fn run(routine: Routine, kind: &str, millions: usize) -> Option<u64> {
    Some(sum(routine, &of_kind(kind)?, millions * 1_000_000))
}

/// Seconds of one timing, and its sum.
fn measure(routine: Routine, pairs: &[Pair; PAIRS]) -> (f64, u64) {
    let begin = Instant::now();
    let sum = sum(routine, pairs, LOOKUPS);
    (begin.elapsed().as_secs_f64(), sum)
}

/// The best time of each routine, by turns; all must have the same sum.
fn best(pairs: &[Pair; PAIRS]) -> [f64; ROUTINES.len()] {
    let mut best = [f64::INFINITY; ROUTINES.len()];
    let (_, right) = measure(SECOND, pairs);
    for _ in 0..TRIES {
        for (best, routine) in best.iter_mut().zip(ROUTINES) {
            let (time, sum) = measure(routine, pairs);
            assert_eq!(sum, right, "{}: other bounds", routine.name);
            *best = best.min(time);
        }
    }
    best
}

/// Every routine on the words of every kind: its nanoseconds, and the first one's time over its.
pub fn compare_all() {
    let names = ROUTINES.map(|routine| format!("{:>8}  ratio", routine.name));
    println!("words    {}   (ns a lookup)", names.join(""));
    for kind in KINDS {
        let Some(pairs) = of_kind(kind) else { continue };
        let times = best(&pairs);
        let columns = times.map(|t| format!("{:>8.2} {:>6.2}", nanoseconds(t), times[0] / t));
        println!("{kind:<9}{}", columns.join(""));
    }
}

fn nanoseconds(seconds: f64) -> f64 {
    seconds * 1e9 / LOOKUPS as f64
}

#[cfg(test)]
mod tests {
    use super::*;

    /// On the words of every kind, each routine gives what the second program does.
    #[test]
    fn routines_agree_with_the_second_program() {
        for kind in KINDS {
            for (address, metadata) in of_kind(kind).expect("a kind") {
                let right = second::bounds(address, metadata);
                for Routine { name, low, high } in ROUTINES {
                    let found = (low(address, metadata), high(address, metadata));
                    assert_eq!(found, right, "{name}: {address:08x} {metadata:08x}");
                }
            }
        }
    }
}
