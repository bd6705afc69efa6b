//! Lists of cuts, moves and narrowings on one capability (document 01, "Lists of cuts, moves
//! and narrowings").

#[cfg(test)]
mod tests;

use crate::capability::{move_address, narrow, set_bounds, set_bounds_exact, Capability};

/// One call by its kind: 0 cut, 1 exact cut, 2 move, 3 narrow. The argument is the length,
/// the new address or the mask. Any other kind is no call and leaves the capability as it is.
pub fn call(capability: Capability, kind: u32, argument: u32) -> Capability {
    match kind {
        0 => set_bounds(capability, argument),
        1 => set_bounds_exact(capability, argument),
        2 => move_address(capability, argument),
        3 => narrow(capability, argument),
        _ => capability,
    }
}

/// Every capability that a list of (kind, argument) returns, one for each call; each call
/// gets what the one before it returned.
pub fn calls(start: Capability, list: &[(u32, u32)]) -> Vec<Capability> {
    list.iter()
        .scan(start, |capability, &(kind, argument)| {
            *capability = call(*capability, kind, argument);
            Some(*capability)
        })
        .collect()
}
