//! What no start may hold, low above high or high above 2^32, brought into a register by the run itself: it
//! loads the value from memory, takes it on to PCC or a special register, and then meets the instruction of
//! the case (document 02, 13).

use crate::capabilities::{anything, root, sealed};
use crate::held::Authority;
use crate::random::Random;
use crate::state::{as_second, lend, Call, Case};
use lent::{State, GRANULE, MEMORY_ROOT, PCC};
use second::capability::move_address;
use second::Capability;

/// CLC c0, 0(c0); CJALR c0, 0(c0); CSpecialRW c0, special register 0, c0.
const LOAD: u32 = 0x0000_3003;
const JUMP: u32 = 0x0000_0067;
const SPECIAL: u32 = 0x0200_005B;
/// The special registers' own numbers are 28 to 31.
const FIRST_SPECIAL: u32 = 28;

/// The codes of executable capabilities with SR, and of those for memory.
const EXECUTABLE: u32 = 0b101111;
const CODES: [u32; 6] = [0b111111, 0b111111, EXECUTABLE, 0b110100, 0b100111, 0b110001];

/// The place of E in a metadata word, of T and of B: nine bits of each of the two.
const E: u32 = 18;
const T: u32 = 9;
const FIELD: u32 = 0x1FF;

/// A tagged value that is not sound; sometimes a sealed one.
pub fn value(random: &mut Random) -> Capability {
    let value = of_code(random, 0);
    match random.below(4) {
        0 => sealed(value, random.below(8)),
        _ => value,
    }
}

/// One at an address, if what is drawn has none of its own.
fn of_code(random: &mut Random, address: u32) -> Capability {
    let code = random.pick(CODES);
    let base = 1 + random.below(FIELD);
    match random.below(8) {
        0 => fields(code, address & 0x1FF, 0, random.below(base), base),
        1 => fields(
            code,
            address & 0x1FF,
            0,
            base + random.below(512 - base),
            base,
        ),
        2 => fields(
            code,
            !0,
            random.below(15),
            1 + random.below(base.min(8)),
            1 + FIELD - 8,
        ),
        3 => fields(code, address, 15, (base & 0xFF) / 2, (base & 0xFF) / 2 + 1),
        4 => drawn(random).unwrap_or_else(|| beyond(random, code, address)),
        _ => beyond(random, code, address),
    }
}

fn fields(code: u32, address: u32, scale: u32, top: u32, base: u32) -> Capability {
    let made = Capability {
        address,
        metadata: code << 25 | scale << E | (top & FIELD) << T | base & FIELD,
        tag: 1,
    };
    if Authority::of(made).is_sound() {
        // T of 257 with exponent 24: high is 2^32 + 2^24.
        Capability {
            metadata: code << 25 | 15 << E | 257 << T,
            ..made
        }
    } else {
        made
    }
}

/// From 0 to more than 2^32.
fn beyond(random: &mut Random, code: u32, address: u32) -> Capability {
    let metadata = root(code, address).metadata & !(FIELD << T);
    Capability {
        metadata: metadata | (257 + random.below(255)) << T,
        ..root(code, address)
    }
}

/// Words that are anything, if some of a few draws are not sound.
fn drawn(random: &mut Random) -> Option<Capability> {
    let mut draws = (0..16).map(|_| Capability {
        tag: 1,
        ..anything(random)
    });
    draws.find(|&value| !Authority::of(value).is_sound())
}

/// Makes a case's step the last of a run that loads such a value first. Where there is no room for that before
/// PCC, or in memory, the case stays.
pub fn bring(random: &mut Random, case: &mut Case) {
    let register = named(random, &case.state);
    let place = case.state.capability(PCC).address;
    let mut value = of_code(random, place);
    let mut words = vec![LOAD | register << 15 | register << 7];
    match random.below(4) {
        0 => {
            value = beyond(random, EXECUTABLE, place);
            words.push(JUMP | register << 15);
        }
        1 => words.push(SPECIAL | (FIRST_SPECIAL + random.below(4)) << 20 | register << 15),
        _ => {}
    }
    let granules = case.state.mem.len() / GRANULE;
    let granule = GRANULE as u32 * random.below(granules as u32);
    let granule = case.state.start.wrapping_add(granule);
    if let Some(state) = brought(&case.state, register, value, granule, &words) {
        case.state = state;
        case.call = Call::Run(words.len() as u32 + 1);
    }
}

/// Makes a case a run from the start of its memory that loads a PCC with a high above 2^32 into c15, jumps by it to
/// an address, and makes one step there.
pub fn jump(random: &mut Random, address: u32, case: &mut Case) {
    let state = &mut case.state;
    let start = state.start;
    let granule = start + GRANULE as u32;
    for (at, word) in [(0, LOAD | 15 << 15 | 15 << 7), (4, JUMP | 15 << 15)] {
        state.write(start + at, &word.to_le_bytes());
    }
    let value = beyond(random, EXECUTABLE, address);
    state.write_capability(granule, lend(value));
    state.set(PCC, lend(root(EXECUTABLE, start)));
    let authority = lent::Capability::tagged(granule, MEMORY_ROOT);
    state.set(15, authority);
    case.call = Call::Run(3);
}

/// A general register: often one that the instruction names.
fn named(random: &mut Random, state: &State) -> u32 {
    let word = state
        .instruction(state.capability(PCC).address)
        .unwrap_or(0);
    let any = random.word();
    let register = random.pick([word >> 15, word >> 20, any]) & 15;
    register.max(1)
}

/// The state with these words before PCC, which goes back to them, and the value in a granule that a register is for.
fn brought(
    before: &State,
    register: u32,
    value: Capability,
    granule: u32,
    words: &[u32],
) -> Option<State> {
    let pcc = as_second(before.capability(PCC));
    let bytes = 4 * words.len() as u32;
    let first = pcc.address.checked_sub(bytes)?;
    let moved = move_address(pcc, first);
    let apart = granule.wrapping_sub(first).wrapping_add(7) >= bytes + 4 + 7;
    if moved.tag == 0 || first < before.start || !apart {
        return None;
    }
    let mut state = before.clone();
    for (index, word) in (0..).zip(words) {
        state.write(first + 4 * index, &word.to_le_bytes());
    }
    state.write_capability(granule, lend(value));
    state.set(PCC, lend(moved));
    let authority = lent::Capability::tagged(granule, MEMORY_ROOT);
    state.set(register as usize, authority);
    Some(state)
}

#[cfg(test)]
mod tests {
    use super::*;
    use second::decode::{decode, Instruction};

    #[test]
    fn no_value_is_sound() {
        let mut random = Random::new(1, 1);
        for _ in 0..100_000 {
            let value = value(&mut random);
            assert!(value.tag == 1 && !Authority::of(value).is_sound());
        }
    }

    #[test]
    fn the_words_are_what_they_say() {
        assert!(matches!(decode(LOAD), Some(Instruction::Clc { .. })));
        assert!(matches!(decode(JUMP), Some(Instruction::Cjalr { .. })));
        let special = decode(SPECIAL | FIRST_SPECIAL << 20);
        assert!(matches!(special, Some(Instruction::CSpecialRw { .. })));
    }
}
