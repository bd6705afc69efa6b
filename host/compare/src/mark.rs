//! The stack mark in the cases (document 02, 6): pairs around a store and around memory, with low bits; and
//! where the stores lay by them.

use crate::capabilities::Layout;
use crate::random::Random;
use crate::rows::Form;
use crate::state::as_second;
use lent::{State, MSHWM, MSHWMB};
use second::decode::{instruction, Instruction};

/// The bits that are cleared in a mark that moves and in what a CSR write leaves.
const LOW_BITS: u32 = 15;

/// Any pair: around memory, at an edge of it, without order, or none.
pub fn fill(random: &mut Random, layout: Layout, state: &mut State) {
    let end = layout.start.wrapping_add(layout.size);
    let (mark, base) = match random.below(8) {
        0 => (0, 0),
        1 => (random.word(), random.word()),
        2 => (random.near(end), random.near(layout.start)),
        3 => (random.edge(), random.edge()),
        4 => (u32::MAX, 0),
        _ => {
            let [one, other] = [0, 1].map(|_| layout.inside(random, 1));
            (one.max(other), one.min(other))
        }
    };
    state.regs[MSHWM] = mark;
    state.regs[MSHWMB] = base;
}

/// A pair by the address of a store: the address is at, just below or inside one of its ends.
pub fn around(random: &mut Random, address: u32, state: &mut State) {
    let below = address.saturating_sub(random.pick([0, 1, 8, 16, 300]));
    let above = address.saturating_add(1 + random.pick([0, 1, 7, 16, 300]));
    let row = address | LOW_BITS;
    let in_row = address.saturating_add(1 + random.below(row - address));
    let (mark, base) = match random.below(8) {
        0 => (above.saturating_add(1), address.saturating_add(1)),
        1 => (above, address),
        2 => (address.saturating_add(1), below),
        3 => (address, below),
        4 => (above.max(in_row.saturating_add(1)), in_row),
        5 => (in_row, below),
        6 => (below, above),
        _ => (above, below),
    };
    state.regs[MSHWM] = mark;
    state.regs[MSHWMB] = base;
}

/// Where a store lies by the pair.
const PLACES: [&str; 9] = [
    "at base - 1",
    "at the base",
    "at mark - 1",
    "at the mark",
    "between base and mark",
    "below the base in its 16 bytes",
    "below the mark in its 16 bytes",
    "from the mark to a base above it",
    "between base and mark, and trapped",
];
pub const STORE_PLACES: usize = PLACES.len();

/// Which of the places a store has.
pub fn places(state: &State, word: u32, retired: bool) -> [bool; STORE_PLACES] {
    let Some(address) = stored_at(state, word) else {
        return [false; STORE_PLACES];
    };
    let (mark, base) = (state.register(MSHWM), state.register(MSHWMB));
    let inside = base <= address && address < mark;
    let row = |other: u32| other & !LOW_BITS == address & !LOW_BITS;
    let made = [
        address.checked_add(1) == Some(base) && address < mark,
        address == base && inside,
        address.checked_add(1) == Some(mark) && inside,
        address == mark && base <= address,
        inside && address != base && address + 1 != mark,
        address < base && row(base) && base < mark,
        inside && row(mark),
        mark <= address && address < base,
    ];
    let mut places = [false; STORE_PLACES];
    for (place, made) in places.iter_mut().zip(made) {
        *place = made && retired;
    }
    places[STORE_PLACES - 1] = inside && !retired;
    places
}

/// A place in words.
pub fn place_name(row: &str, place: usize) -> String {
    format!("{row} {}", PLACES[place])
}

/// The address of a store.
fn stored_at(state: &State, word: u32) -> Option<u32> {
    let (cs1, offset) = match instruction(word)? {
        Instruction::Store { cs1, offset, .. } | Instruction::Csc { cs1, offset, .. } => {
            (cs1, offset)
        }
        _ => return None,
    };
    let authority = as_second(state.capability(cs1.number() as usize));
    Some(authority.address.wrapping_add(offset))
}

/// What a CSR instruction on the pair takes, where the old word has low bits.
const SOURCES: [&str; 3] = [
    "by register 0 or the number 0",
    "by another register that holds 0",
    "by a number with low bits",
];
pub const CSR_SOURCES: usize = SOURCES.len();

/// The sources that a form can have.
pub fn sources(form: Form) -> &'static [usize] {
    match form {
        Form::Number => &[0, 2],
        _ => &[0, 1, 2],
    }
}

/// Which source a CSR instruction on the pair has.
pub fn source(state: &State, form: Form, word: u32) -> Option<usize> {
    let register = if word >> 20 & 1 == 1 { MSHWM } else { MSHWMB };
    if state.register(register) & LOW_BITS == 0 {
        return None;
    }
    let field = word >> 15 & 31;
    let value = match form {
        Form::Number => field,
        _ => state.capability(field as usize).address,
    };
    match (field, value) {
        (0, _) => Some(0),
        (_, 0) => Some(1),
        _ => (value & LOW_BITS != 0).then_some(2),
    }
}

/// A source in words.
pub fn source_name(row: &str, source: usize) -> String {
    format!("{row} {}", SOURCES[source])
}

#[cfg(test)]
mod tests {
    use super::*;
    use crate::capabilities::root;
    use crate::state::lend;

    const START: u32 = 0x2000_0000;
    /// SB x2, 4(x1).
    const SB: u32 = 0x0020_8223;

    #[test]
    fn each_place_is_told_and_a_pair_around_a_store_reaches_them() {
        let mut state = State::new(START, vec![0; 64]);
        let mut reached = [0; STORE_PLACES];
        for number in 1..=4000 {
            let random = &mut Random::new(1, number);
            let address = START + 4 + random.below(60);
            state.set(1, lend(root(0b111111, address - 4)));
            around(random, address, &mut state);
            let retired = !random.one_in(2);
            for (count, place) in reached.iter_mut().zip(places(&state, SB, retired)) {
                *count += u32::from(place);
            }
        }
        assert!(reached.iter().all(|&count| count > 50), "{reached:?}");
        let told = |mark: u32, base: u32| {
            state.regs[MSHWM] = mark;
            state.regs[MSHWMB] = base;
            state.set(1, lend(root(0b111111, START + 4)));
            let places = places(&state, SB, true);
            (0..STORE_PLACES)
                .filter(|&place| places[place])
                .collect::<Vec<_>>()
        };
        let mut told = told;
        assert_eq!(told(START + 0x20, START + 9), [0, 5]);
        assert_eq!(told(START + 0x20, START + 8), [1]);
        assert_eq!(told(START + 9, START), [2, 6]);
        assert_eq!(told(START + 8, START), [3]);
        assert_eq!(told(START + 0x20, START), [4]);
        assert_eq!(told(START, START + 0x20), [7]);
        assert_eq!(told(0, 0), []);
    }

    #[test]
    fn each_source_is_told() {
        let mut state = State::new(START, vec![0; 64]);
        state.regs[MSHWM] = 1;
        state.set(2, lend(root(0b111111, 0x13)));
        state.set(3, lend(root(0b111111, 0x10)));
        let csr = |rs1: u32| 0xBC1 << 20 | rs1 << 15 | 1 << 12 | 0x73;
        let told = |rs1| source(&state, Form::Single, csr(rs1));
        assert_eq!([0, 1, 2, 3].map(told), [Some(0), Some(1), Some(2), None]);
        let number = |rs1| source(&state, Form::Number, csr(rs1));
        assert_eq!([0, 1, 16].map(number), [Some(0), Some(2), None]);
        let base = source(&state, Form::Single, csr(0) ^ 3 << 20);
        assert_eq!(base, None);
    }
}
