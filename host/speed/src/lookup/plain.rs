//! Two plain routines. The second program's keeps to document 01's formulas ("Capability word"). The
//! tuned one has the same comparisons, and counts in units of 2^e until a single shift places each end.

/// The bits that each of the fields T and B has, and their place and E's.
const FIELD: u64 = 0x1FF;
const T_AT: u32 = 9;
const E_AT: u32 = 18;

/// The units of a block, as a shift.
const BLOCK: u32 = 9;

/// The stored E that stands for the largest exponent, and that exponent.
const LARGEST_FIELD: u32 = 15;
const LARGEST: u32 = 24;

/// High is modulo 2^33.
const HIGH_BITS: u64 = (1 << 33) - 1;

#[inline(always)]
fn tuned(address: u32, metadata: u32) -> (u32, u64) {
    let stored = metadata >> E_AT & 0xF;
    let e = if stored == LARGEST_FIELD {
        LARGEST
    } else {
        stored
    };
    let base = u64::from(metadata) & FIELD;
    let top = u64::from(metadata >> T_AT) & FIELD;
    let unit = u64::from(address) >> e;
    let block = (unit >> BLOCK).wrapping_sub(u64::from(unit & FIELD < base));
    let top_block = block.wrapping_add(u64::from(top < base));
    let low = (block << BLOCK | base) << e;
    let high = (top_block << BLOCK | top) << e;
    (low as u32, high & HIGH_BITS)
}

#[inline(never)]
pub extern "C" fn tuned_low(address: u32, metadata: u32) -> u32 {
    tuned(address, metadata).0
}

#[inline(never)]
pub extern "C" fn tuned_high(address: u32, metadata: u32) -> u64 {
    tuned(address, metadata).1
}

#[inline(never)]
pub extern "C" fn second_low(address: u32, metadata: u32) -> u32 {
    second::bounds(address, metadata).0
}

#[inline(never)]
pub extern "C" fn second_high(address: u32, metadata: u32) -> u64 {
    second::bounds(address, metadata).1
}
