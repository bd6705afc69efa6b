//! A small fixed generator for the tests that sample the properties of the papers.

/// The next word of a fixed sequence (a 64-bit linear congruence, high half given out).
pub struct Sample(pub u64);

impl Sample {
    /// Any 32-bit word.
    pub fn word(&mut self) -> u32 {
        self.0 = self
            .0
            .wrapping_mul(6_364_136_223_846_793_005)
            .wrapping_add(1_442_695_040_888_963_407);
        (self.0 >> 32) as u32
    }

    /// A word of a random width, so that short lengths come up as often as long ones.
    pub fn sized(&mut self) -> u32 {
        let width = self.word() % 33;
        self.word().checked_shr(32 - width).unwrap_or(0)
    }

    /// A word close to another one, so that edges come up.
    pub fn near(&mut self, centre: u32) -> u32 {
        let reach = self.sized();
        if self.word() & 1 == 0 {
            centre.wrapping_add(reach)
        } else {
            centre.wrapping_sub(reach)
        }
    }
}
