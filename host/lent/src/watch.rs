//! The watch record (document 02, 14).

/// A watched range of addresses, and how many stores have touched it. Its end is a whole number, start + length.
#[derive(Clone, Copy, PartialEq, Eq, Debug, Default)]
pub struct Range {
    pub start: u32,
    pub length: u32,
    pub count: u32,
}

impl Range {
    /// The number after its last address, which may lie past 2^32.
    pub fn end(self) -> u64 {
        u64::from(self.start) + u64::from(self.length)
    }
}

/// The two ranges. Ranges of length 0 watch nothing.
pub type Watch = [Range; 2];

#[cfg(test)]
mod tests {
    use super::*;

    #[test]
    fn a_range_may_end_past_the_address_space() {
        let range = Range {
            start: u32::MAX,
            length: u32::MAX,
            count: 0,
        };
        assert_eq!(range.end(), (1 << 33) - 2);
        assert_eq!(Range::default().end(), 0);
    }
}
