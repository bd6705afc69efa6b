//! Words for the tests, the same in every run.

/// Words of a fixed sequence.
pub struct Sequence(pub u64);

impl Sequence {
    pub fn word(&mut self) -> u32 {
        self.0 = self
            .0
            .wrapping_mul(6_364_136_223_846_793_005)
            .wrapping_add(1);
        (self.0 >> 32) as u32
    }
}
