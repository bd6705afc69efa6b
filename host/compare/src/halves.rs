//! Every short word, and every half that begins a long one: all 65,536 from several kinds of registers,
//! at both alignments and at each edge that a fetch has. A case is one half at one edge with one kind
//! of registers; a round has each once.

use crate::capabilities::{integer, region, register, root, sealed, sentry, wide, Layout, Rights};
use crate::cases::{fill, fill_registers};
use crate::machines::{Both, Differing, Machine};
use crate::random::Random;
use crate::refusals;
use crate::rows::{Form, Table};
use crate::state::{lend, Call, Case};
use crate::timer;
use crate::unsound;
use lent::{instruction_bytes, Answer, State, MCAUSE, MTVAL, PCC};
use second::capability::move_address;
use second::Capability;
use std::fmt;

/// Where the half stands.
#[derive(Clone, Copy, PartialEq, Eq, Debug)]
enum Edge {
    /// At a multiple of four, and between two of them.
    Aligned,
    Between,
    /// So many bytes before the end of PCC's bounds, at either alignment.
    Bounds(u32),
    /// In the last two bytes of memory, inside PCC's bounds.
    Memory,
    /// In the last two bytes of the address space: PCC the root, or cut to memory, or with a high
    /// above 2^32, which a run has to load and to jump by.
    TopRoot,
    TopCut,
    TopBeyond,
}

const EDGES: [Edge; 9] = [
    Edge::Aligned,
    Edge::Between,
    Edge::Bounds(2),
    Edge::Bounds(3),
    Edge::Bounds(4),
    Edge::Memory,
    Edge::TopRoot,
    Edge::TopCut,
    Edge::TopBeyond,
];

/// What the registers hold.
#[derive(Clone, Copy, PartialEq, Eq, Debug)]
enum Registers {
    /// Anything that a program might leave.
    Any,
    /// Authorities over memory at multiples of eight, so that accesses are made.
    Data,
    /// Capabilities to jump to, half of them sentries.
    Code,
    /// Sealed ones and untagged ones, so that a tag or a type that is left shows.
    Spoilt,
    /// Integers: 0, addresses and any.
    Numbers,
}

const REGISTERS: [Registers; 5] = [
    Registers::Any,
    Registers::Data,
    Registers::Code,
    Registers::Spoilt,
    Registers::Numbers,
];

/// The address of the last half of the address space.
const LAST_HALF: u32 = 0xFFFF_FFFE;

const HALVES: u64 = 1 << 16;
const COMBINATIONS: u64 = (EDGES.len() * REGISTERS.len()) as u64;
/// A round: each half in each combination.
pub const CASES: u64 = HALVES * COMBINATIONS;
/// An odd number, so that the halves of a round come in another order, each once.
const STRIDE: u64 = 40_503;

/// What a case is about.
struct About {
    half: u16,
    edge: Edge,
    registers: Registers,
}

impl About {
    fn of(number: u64) -> About {
        let index = number - 1;
        let combination = (index % COMBINATIONS) as usize;
        About {
            half: (index / COMBINATIONS * STRIDE % HALVES) as u16,
            edge: EDGES[combination % EDGES.len()],
            registers: REGISTERS[combination / EDGES.len()],
        }
    }
}

/// Makes a case of a seed, in place of the one before.
fn make(seed: u64, number: u64, case: &mut Case) {
    let about = About::of(number);
    let random = &mut Random::new(seed, number);
    let layout = layout(random, about.edge);
    let state = &mut case.state;
    state.edition = random.below(2);
    fill(random, layout, state);
    fill_registers(random, layout, state);
    for place in 1..16 {
        if let Some(value) = value(random, layout, about.registers) {
            state.set(place, lend(value));
        }
    }
    timer::far(random, state);
    let pcc = counter(random, layout, about.edge);
    state.set(PCC, lend(pcc));
    state.write(pcc.address, &about.half.to_le_bytes());
    case.call = Call::Step;
    refusals::settle(state);
    if about.edge == Edge::TopBeyond {
        unsound::jump(random, LAST_HALF, case);
    }
}

/// Memory with room behind it, or at the end of the address space.
fn layout(random: &mut Random, edge: Edge) -> Layout {
    let size = 64 * (2 + random.below(3));
    let top = matches!(edge, Edge::TopRoot | Edge::TopCut | Edge::TopBeyond);
    let last = 0u32.wrapping_sub(size);
    let start = if top {
        last
    } else {
        (random.word() & !7).min(last - 64)
    };
    Layout { start, size }
}

/// What a general register holds; nothing to leave it as it is.
fn value(random: &mut Random, layout: Layout, registers: Registers) -> Option<Capability> {
    let address = layout.inside(random, 8);
    let data = wide(random, layout, Rights::ReadWrite, address);
    match registers {
        Registers::Any => None,
        Registers::Data => Some(data),
        Registers::Code if random.one_in(2) => {
            let address = layout.inside(random, 2);
            Some(wide(random, layout, Rights::Executable, address))
        }
        Registers::Code => {
            let address = layout.inside(random, 2);
            Some(sentry(random, layout, address))
        }
        Registers::Spoilt if random.one_in(2) => Some(Capability {
            tag: 0,
            ..register(random, layout)
        }),
        Registers::Spoilt => Some(sealed(data, random.below(8))),
        Registers::Numbers => {
            let number = random.number();
            Some(integer(random.pick([0, data.address, number])))
        }
    }
}

/// PCC at an edge.
fn counter(random: &mut Random, layout: Layout, edge: Edge) -> Capability {
    let end = layout.start.wrapping_add(layout.size);
    let middle = layout.start + 4 * (1 + random.below(layout.size / 4 - 2));
    let place = match edge {
        Edge::Aligned => middle,
        Edge::Between => middle + 2,
        Edge::Bounds(_) => middle + random.pick([0, 2]),
        Edge::Memory | Edge::TopRoot | Edge::TopCut | Edge::TopBeyond => end.wrapping_sub(2),
    };
    let code = match edge {
        Edge::Aligned | Edge::Between if random.one_in(2) => root(0b101111, place),
        Edge::Aligned | Edge::Between => {
            region(random, Rights::Executable, layout.start, layout.size)
        }
        Edge::Bounds(bytes) => {
            let length = place - layout.start + bytes;
            region(random, Rights::Executable, layout.start, length)
        }
        Edge::Memory => {
            let length = layout.size + random.pick([8, 64]);
            region(random, Rights::Executable, layout.start, length)
        }
        Edge::TopRoot | Edge::TopBeyond => root(0b101111, place),
        Edge::TopCut => region(random, Rights::Executable, layout.start, layout.size),
    };
    move_address(code, place)
}

/// What was reached.
pub struct Totals<'a> {
    table: &'a Table,
    retired: u64,
    trapped: u64,
    /// For each half, whether it was executed, and whether it was illegal.
    executed: Vec<bool>,
    illegal: Vec<bool>,
    /// Fetches that trapped, by edge.
    unfetched: [u64; EDGES.len()],
    /// Cases that the papers shut out.
    wrong: u64,
}

impl<'a> Totals<'a> {
    pub fn new(table: &'a Table) -> Totals<'a> {
        Totals {
            table,
            retired: 0,
            trapped: 0,
            executed: vec![false; HALVES as usize],
            illegal: vec![false; HALVES as usize],
            unfetched: [0; EDGES.len()],
            wrong: 0,
        }
    }

    /// Counts a case, what was left after it, and the answer.
    fn count(&mut self, number: u64, before: &State, after: &State, answer: u64) {
        let About { half, edge, .. } = About::of(number);
        let place = match edge {
            Edge::TopBeyond => LAST_HALF,
            _ => before.capability(PCC).address,
        };
        let answer = Answer::of(answer);
        self.retired += answer.retired;
        self.trapped += answer.trapped;
        let trap = (after.regs[MCAUSE], after.regs[MTVAL]);
        if let Some(expected) = unfetched(edge, half, place) {
            self.unfetched[place_of(edge)] += 1;
            self.wrong += u64::from(answer.trapped != 1 || trap != expected);
            return;
        }
        if instruction_bytes(half.into()) == 4 {
            return;
        }
        let illegal = answer.trapped == 1 && trap.0 == 2;
        self.wrong += u64::from(illegal && trap.1 != half.into());
        let seen = if illegal {
            &mut self.illegal
        } else {
            &mut self.executed
        };
        seen[usize::from(half)] = true;
    }

    /// Whether a row of the table has a short word, with registers below 16.
    fn legal(&self, half: u32) -> bool {
        let row = self.table.find(half).map(|row| self.table.rows[row].form);
        match row {
            Some(Form::Short(short)) => {
                let named = [short.rd, short.rs1, short.rs2];
                named.iter().all(|named| named.of(half) < 16)
            }
            _ => false,
        }
    }

    /// What does not hold of a whole round.
    pub fn faults(&self) -> Vec<String> {
        let mut faults = Vec::new();
        for half in (0..HALVES as usize).filter(|half| half & 3 != 3) {
            let legal = self.legal(half as u32);
            if (self.executed[half], self.illegal[half]) != (legal, !legal) {
                faults.push(format!("half {half:04x}: legal in the table: {legal}"));
            }
        }
        for (edge, count) in EDGES.iter().zip(self.unfetched) {
            let unfetched = !matches!(edge, Edge::Aligned | Edge::Between | Edge::Bounds(4));
            if (count > 0) != unfetched {
                faults.push(format!("fetches that trapped, {edge:?}: {count}"));
            }
        }
        if self.wrong > 0 {
            faults.push(format!("not the trap of the papers: {}", self.wrong));
        }
        faults.truncate(40);
        faults
    }
}

impl fmt::Display for Totals<'_> {
    fn fmt(&self, out: &mut fmt::Formatter) -> fmt::Result {
        let count = |seen: &[bool]| seen.iter().filter(|&&seen| seen).count();
        let edges: Vec<_> = EDGES.iter().zip(self.unfetched).collect();
        write!(
            out,
            "steps retired {}, trapped {}; short words legal {}, illegal {}; second halves that \
             could not be fetched {edges:?}",
            self.retired,
            self.trapped,
            count(&self.executed),
            count(&self.illegal)
        )
    }
}

fn place_of(edge: Edge) -> usize {
    EDGES.iter().position(|&other| other == edge).unwrap_or(0)
}

/// mcause and mtval of a fetch that traps there, by the order of its checks (document 02, 3): all that
/// the first half needs it has, so only a long word's second half can fail, by PCC's bounds, which are
/// whole numbers, and then by memory, with its own address.
fn unfetched(edge: Edge, half: u16, place: u32) -> Option<(u32, u32)> {
    const OUT_OF_BOUNDS: (u32, u32) = (28, 32 * 32 + 1);
    if instruction_bytes(half.into()) == 2 {
        return None;
    }
    match edge {
        Edge::Bounds(2 | 3) | Edge::TopRoot | Edge::TopCut => Some(OUT_OF_BOUNDS),
        Edge::Memory | Edge::TopBeyond => Some((1, place.wrapping_add(2))),
        Edge::Aligned | Edge::Between | Edge::Bounds(_) => None,
    }
}

/// Compares a machine with the second program on the cases of a seed; counts what was reached.
pub fn compare(
    ours: Machine,
    seed: u64,
    cases: u64,
    mut totals: Option<&mut Totals>,
) -> Result<(), Box<Differing>> {
    let mut case = Case::default();
    let mut both = Both::default();
    for number in 1..=cases {
        make(seed, number, &mut case);
        if !both.agree(ours, &case) {
            return Err(Box::new(Differing { number, case }));
        }
        if let Some(totals) = totals.as_deref_mut() {
            totals.count(number, &case.state, &both.theirs, both.their_answer);
        }
    }
    Ok(())
}

#[cfg(test)]
mod tests {
    use super::*;
    use crate::instructions::table;
    use crate::machines::second;
    use std::collections::BTreeSet;

    #[test]
    fn a_round_has_every_half_in_every_combination() {
        let about = |number| {
            let about = About::of(number);
            (
                about.half,
                format!("{:?} {:?}", about.edge, about.registers),
            )
        };
        let last = CASES - 2 * COMBINATIONS..CASES;
        let seen: BTreeSet<_> = last.map(|index| about(index + 1)).collect();
        assert_eq!(seen.len() as u64, 2 * COMBINATIONS);
        let halves: BTreeSet<u16> = (0..HALVES)
            .map(|step| About::of(step * COMBINATIONS + 1).half)
            .collect();
        assert_eq!(halves.len() as u64, HALVES);
    }

    #[test]
    fn the_second_program_agrees_with_itself_and_reaches_what_the_papers_say() {
        let table = table();
        let mut totals = Totals::new(&table);
        compare(second, 1, CASES, Some(&mut totals)).unwrap();
        assert_eq!(totals.faults(), Vec::<String>::new());
        let legal = totals.executed.iter().filter(|&&seen| seen).count();
        assert_eq!(legal, 27_751);
    }

    #[test]
    fn a_machine_without_short_words_is_found() {
        let wrong: Machine = |state, call| {
            let place = state.capability(PCC).address;
            let half = state.half(place).unwrap_or(0);
            let answer = second(state, call);
            if instruction_bytes(half.into()) == 2 {
                state.regs[3 * PCC] ^= 2;
            }
            answer
        };
        assert!(compare(wrong, 1, 200, None).is_err());
    }
}
