//! Revocation bits that are set at the start: whole granules of the window.

use lent::{State, GRANULE};

/// Sets the bits of ranges, each by its first address and its bytes. Nothing is set unless all of them are good.
pub fn set(state: &mut State, numbers: &[u32]) -> Result<(), String> {
    let ranges = || numbers.chunks(2).map(|range| (range[0], range[1]));
    ranges().try_for_each(|range| good(state, range))?;
    for (start, length) in ranges() {
        let granules = (0..length).step_by(GRANULE);
        granules.for_each(|offset| state.revoke(start + offset));
    }
    Ok(())
}

/// That a range is whole granules, and all of it in the window.
fn good(state: &State, (start, length): (u32, u32)) -> Result<(), String> {
    let said = format!("--revoke {start:#x} {length}");
    let granule = GRANULE as u32;
    if start % granule != 0 || length % granule != 0 {
        return Err(format!(
            "{said}: a granule is {granule} bytes, and start and length are multiples of it"
        ));
    }
    let low = u64::from(state.start) + u64::from(state.window.start);
    let high = low + u64::from(state.window.size);
    let (from, to) = (u64::from(start), u64::from(start) + u64::from(length));
    match from >= low && to <= high {
        true => Ok(()),
        false => Err(format!(
            "{said}: not all inside the window, [{low:08x}, {high:08x})"
        )),
    }
}

#[cfg(test)]
mod tests {
    use super::*;
    use lent::{Revocation, Window};

    fn state() -> State {
        let window = Window {
            start: 64,
            size: 128,
        };
        State::new(0x2000_0000, vec![0; 256]).with_window(window)
    }

    #[test]
    fn whole_granules_of_the_window_are_revoked() {
        let mut state = state();
        set(&mut state, &[0x2000_0048, 16, 0x2000_00B8, 8]).unwrap();
        for address in 0x2000_0040..0x2000_00C0 {
            let marked = (0x48..0x58).contains(&(address & 0xFF)) || address >= 0x2000_00B8;
            let expected = if marked {
                Revocation::Marked
            } else {
                Revocation::Clear
            };
            assert_eq!(state.revocation(address), expected, "{address:08x}");
        }
    }

    #[test]
    fn a_range_that_is_not_all_in_the_window_sets_nothing() {
        for range in [
            [0x2000_0038, 8],
            [0x2000_00B8, 16],
            [0x2000_0044, 8],
            [0x2000_0048, 4],
            [0, 8],
            [0xFFFF_FFF8, 16],
        ] {
            let mut state = state();
            let numbers = [&[0x2000_0040, 8][..], &range].concat();
            let said = set(&mut state, &numbers).unwrap_err();
            assert!(said.starts_with("--revoke 0x"), "{said}");
            assert_eq!(state, super::tests::state());
        }
    }
}
