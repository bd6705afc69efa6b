//! The generator of every comparison: deterministic, one stream for each case, with the numbers
//! that lie at edges drawn as often as those that lie anywhere.

/// A stream of numbers (SplitMix64).
pub struct Random(u64);

/// The mixing step of SplitMix64.
fn mixed(state: u64) -> u64 {
    let first = (state ^ (state >> 30)).wrapping_mul(0xBF58_476D_1CE4_E5B9);
    let second = (first ^ (first >> 27)).wrapping_mul(0x94D0_49BB_1331_11EB);
    second ^ (second >> 31)
}

impl Random {
    /// The stream of one case of one seed.
    pub fn new(seed: u64, case: u64) -> Random {
        Random(mixed(
            seed.wrapping_add(mixed(case ^ 0x9E37_79B9_7F4A_7C15)),
        ))
    }

    /// Any 64 bits.
    pub fn long(&mut self) -> u64 {
        self.0 = self.0.wrapping_add(0x9E37_79B9_7F4A_7C15);
        mixed(self.0)
    }

    /// Any word.
    pub fn word(&mut self) -> u32 {
        (self.long() >> 32) as u32
    }

    /// A number below a limit; 0 for a limit of 0.
    pub fn below(&mut self, limit: u32) -> u32 {
        ((u64::from(self.word()) * u64::from(limit)) >> 32) as u32
    }

    /// True once in so many times.
    pub fn one_in(&mut self, times: u32) -> bool {
        self.below(times) == 0
    }

    /// One of a few values.
    pub fn pick<T: Copy, const N: usize>(&mut self, values: [T; N]) -> T {
        values[self.below(N as u32) as usize]
    }

    /// A word of any width, so that short ones come up as often as long ones.
    pub fn sized(&mut self) -> u32 {
        let width = self.below(33);
        self.word().checked_shr(32 - width).unwrap_or(0)
    }

    /// A word at most a few away from another.
    pub fn near(&mut self, centre: u32) -> u32 {
        let distance = match self.below(8) {
            0..=2 => 0,
            3..=5 => 1,
            6 => self.below(9),
            _ => self.pick([2, 4, 8, 16, 64]),
        };
        if self.one_in(2) {
            centre.wrapping_add(distance)
        } else {
            centre.wrapping_sub(distance)
        }
    }

    /// A word near a power of two, with 0 and 2^32 among them.
    pub fn edge(&mut self) -> u32 {
        let power = 1u32.checked_shl(self.below(33)).unwrap_or(0);
        self.near(power)
    }

    /// A word of any of these kinds.
    pub fn number(&mut self) -> u32 {
        match self.below(4) {
            0 => self.word(),
            1 => self.sized(),
            _ => self.edge(),
        }
    }
}
