//! What a state holds: its tagged capabilities, in the register file and in memory, each with its
//! bounds and rights by the second program's decoder; and whether what is held later lies inside
//! something that was held at the start (document 02, 9).

use crate::state::as_second;
use lent::{place_name, State, CAPABILITIES, GRANULE};
use second::capability::{bounds, is_sealed, rights, SPACE};
use second::Capability;
use std::fmt;

/// What a capability allows; a sealed one counts with its own bounds and rights.
#[derive(Clone, Copy, PartialEq, Eq, PartialOrd, Ord, Debug)]
pub struct Authority {
    low: u64,
    high: u64,
    rights: u32,
}

impl Authority {
    pub fn of(value: Capability) -> Authority {
        let (low, high) = bounds(value.address, value.metadata);
        Authority {
            low: low.into(),
            high,
            rights: rights(value.metadata),
        }
    }

    /// What a start may hold: low at most high at most 2^32.
    pub fn is_sound(self) -> bool {
        self.low <= self.high && self.high <= SPACE
    }

    /// Whether another's bounds and rights lie inside these.
    pub fn contains(self, inner: Authority) -> bool {
        self.low <= inner.low && inner.high <= self.high && inner.rights & !self.rights == 0
    }
}

/// Where a capability is held: a place in the register file, or a granule by its address.
#[derive(Clone, Copy, PartialEq, Eq, Debug)]
pub enum Place {
    Register(usize),
    Granule(u32),
}

impl fmt::Display for Place {
    fn fmt(&self, out: &mut fmt::Formatter) -> fmt::Result {
        match *self {
            Place::Register(place) => write!(out, "{}", place_name(place)),
            Place::Granule(address) => write!(out, "memory at {address:08x}"),
        }
    }
}

/// The tagged capabilities of a state, register file first.
pub fn held(state: &State) -> impl Iterator<Item = (Place, Capability)> + '_ {
    let registers = (0..CAPABILITIES).filter_map(|place| {
        let value = as_second(state.capability(place));
        (value.tag != 0).then_some((Place::Register(place), value))
    });
    let granules = (0..state.mem.len() / GRANULE).filter_map(|granule| {
        let tags = state.tags.get(granule / 8)?;
        (tags >> (granule % 8) & 1 == 1).then(|| in_granule(state, granule))
    });
    registers.chain(granules)
}

/// The capability of a tagged granule.
fn in_granule(state: &State, granule: usize) -> (Place, Capability) {
    let address = state.start.wrapping_add((granule * GRANULE) as u32);
    let value = Capability {
        address: state.word(address).unwrap_or(0),
        metadata: state.word(address.wrapping_add(4)).unwrap_or(0),
        tag: 1,
    };
    (Place::Granule(address), value)
}

/// What a start holds.
pub struct Origins {
    /// In order, each once.
    all: Vec<Authority>,
    /// Those that lie in no other.
    widest: Vec<Authority>,
    sealed: Vec<Capability>,
}

impl Origins {
    pub fn of(state: &State) -> Origins {
        let mut all: Vec<_> = held(state).map(|(_, value)| Authority::of(value)).collect();
        all.sort_unstable();
        all.dedup();
        let lies_in_another = |inner: &Authority| {
            let mut others = all.iter().filter(|&outer| outer != inner);
            others.any(|outer| outer.contains(*inner))
        };
        let widest = all.iter().copied().filter(|one| !lies_in_another(one));
        Origins {
            widest: widest.collect(),
            sealed: held(state)
                .map(|(_, value)| value)
                .filter(|value| is_sealed(value.metadata))
                .collect(),
            all,
        }
    }

    /// Whether one of them has exactly these bounds and rights.
    pub fn have(&self, authority: Authority) -> bool {
        self.all.binary_search(&authority).is_ok()
    }

    /// Whether one of them contains these bounds and rights.
    pub fn contain(&self, authority: Authority) -> bool {
        self.widest.iter().any(|origin| origin.contains(authority))
    }

    /// Whether one of them is this sealed capability.
    pub fn have_sealed(&self, value: Capability) -> bool {
        self.sealed.contains(&value)
    }

    /// The first tagged capability of a later state that none of them contains.
    pub fn gained(&self, later: &State) -> Option<(Place, Capability)> {
        held(later).find(|(_, value)| !self.contain(Authority::of(*value)))
    }
}

#[cfg(test)]
mod tests {
    use super::*;
    use crate::state::lend;
    use lent::{EXECUTABLE_ROOT, MEMORY_ROOT, MEPCC};
    use second::capability::{narrow, set_bounds, with_type, GL, SD};

    const START: u32 = 0x2000_0000;

    fn memory(address: u32, length: u32) -> Capability {
        let root = Capability {
            address,
            metadata: MEMORY_ROOT,
            tag: 1,
        };
        set_bounds(root, length)
    }

    /// A state with these in memory, a granule each.
    fn state(values: &[Capability]) -> State {
        let mut state = State::new(START, vec![0; 128]);
        for (granule, &value) in values.iter().enumerate() {
            state.write_capability(START + 8 * granule as u32, lend(value));
        }
        state
    }

    #[test]
    fn bounds_and_rights_must_both_lie_inside() {
        let origins = Origins::of(&state(&[memory(64, 64), narrow(memory(0, 256), !SD)]));
        let gained = |value| origins.gained(&state(&[value])).is_some();
        assert!(!gained(memory(64, 64)) && !gained(memory(127, 1)));
        assert!(gained(memory(63, 64)) && gained(memory(64, 65)));
        assert!(!gained(narrow(memory(0, 256), !(SD | GL))));
        assert!(gained(Capability {
            metadata: EXECUTABLE_ROOT,
            ..memory(64, 64)
        }));
    }

    #[test]
    fn sealed_ones_count_and_untagged_ones_do_not() {
        let sealed = Capability {
            metadata: with_type(memory(64, 64).metadata, 2),
            ..memory(64, 64)
        };
        let untagged = Capability {
            tag: 0,
            ..memory(0, 256)
        };
        let origins = Origins::of(&state(&[untagged, sealed]));
        assert!(origins.have_sealed(sealed));
        assert_eq!(origins.gained(&state(&[memory(64, 8), untagged])), None);
        let found = origins.gained(&state(&[untagged, memory(63, 1)]));
        assert_eq!(found, Some((Place::Granule(START + 8), memory(63, 1))));
    }

    #[test]
    fn every_place_is_looked_at() {
        let origins = Origins::of(&State::new(START, vec![0; 128]));
        for place in 0..CAPABILITIES {
            let mut later = State::new(START, vec![0; 128]);
            later.set(place, lend(memory(0, 1)));
            assert_eq!(
                origins.gained(&later),
                Some((Place::Register(place), memory(0, 1)))
            );
        }
        for granule in 0..16 {
            let mut later = State::new(START, vec![0; 128]);
            later.write_capability(START + 8 * granule, lend(memory(0, 1)));
            let found = origins.gained(&later);
            assert_eq!(
                found,
                Some((Place::Granule(START + 8 * granule), memory(0, 1)))
            );
        }
        assert_eq!(Place::Register(MEPCC).to_string(), "MEPCC");
    }

    #[test]
    fn low_above_high_and_high_above_the_top_are_unsound() {
        let sound = |low, high| {
            Authority {
                low,
                high,
                rights: 0,
            }
            .is_sound()
        };
        assert!(sound(0, SPACE) && sound(5, 5));
        assert!(!sound(5, 4) && !sound(0, SPACE + 1));
    }
}
