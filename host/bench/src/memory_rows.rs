//! The memory around a request, in rows of 16 bytes.

use crate::trap::Asked;
use lent::{State, GRANULE};

/// Bytes in a row.
pub const ROW: usize = 16;

/// A row: its bytes, none where there is no memory, and its granules' tags.
#[derive(Clone, PartialEq, Eq, Debug)]
pub struct Row {
    pub address: u64,
    pub bytes: [Option<u8>; ROW],
    pub tags: [bool; ROW / GRANULE],
}

impl Row {
    fn new(address: u64, state: &State) -> Row {
        Row {
            address,
            bytes: std::array::from_fn(|place| state.byte(address + place as u64)),
            tags: std::array::from_fn(|place| state.tagged(address + (GRANULE * place) as u64)),
        }
    }
}

/// The rows that hold a request, one before and one after them, as far as there is memory; none if
/// no byte of the request is in memory.
pub fn rows(asked: Asked, state: &State) -> Vec<Row> {
    let (first, end) = (u64::from(asked.address), asked.end());
    if !(first..end).any(|address| state.byte(address).is_some()) {
        return Vec::new();
    }
    let row = ROW as u64;
    let places = (first / row).saturating_sub(1)..=(end - 1) / row + 1;
    places
        .map(|place| Row::new(place * row, state))
        .filter(|row| row.bytes.iter().any(Option::is_some))
        .collect()
}
