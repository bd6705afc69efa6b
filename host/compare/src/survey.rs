//! What the steps of a run do that an engine with kept code can get wrong: the second program makes them one by one.

use crate::watches::{is_touched, next_store};
use lent::{instruction_bytes, Answer, State, Watch, PCC};
use second::decode::{instruction, Arithmetic, Instruction};

/// The kinds of events.
#[derive(Clone, Copy, PartialEq, Eq, Debug)]
pub enum Kind {
    Trap,
    Interrupt,
    /// A store over an instruction that has run.
    Change,
    /// A jump to a register.
    Call,
}

pub const EVENTS: usize = 4;

/// An event, and the number of its step, from 1.
#[derive(Clone, Copy, PartialEq, Eq, Debug)]
pub struct Event {
    pub step: u32,
    pub kind: Kind,
}

/// How a store lies by an instruction that has run and that it changes.
const PLACES: [&str; 8] = [
    "it is the store",
    "it follows the store",
    "only its first half is changed",
    "only its second half is changed",
    "its second half is in the next granule, and changed",
    "it is a short one",
    "the store is followed by a jump",
    "it is two or more on from the store's first byte",
];

/// What trapped: jumps to registers and others, branches, loads, stores, and anything else.
const TRAPS: usize = 6;
/// What retired: products, quotients, jumps with a link, jumps to registers, AUIPCC, AUICGP.
const RETIRED: usize = 6;

/// How often it came up: changes by the store's size and by place, changed instructions that run again, interrupts at code that
/// has run and at other, traps and retired steps by instruction, steps at a slot that was another address's, and at an address
/// that has run under other metadata, and stores that trap in a watched range.
#[derive(Default, Debug)]
pub struct Reached {
    pub sizes: [u64; 4],
    pub places: [u64; PLACES.len()],
    pub again: u64,
    pub interrupts: [u64; 2],
    pub traps: [u64; TRAPS],
    pub retired: [u64; RETIRED],
    pub slots: u64,
    pub counters: u64,
    pub trapped_in_range: u64,
}

impl Reached {
    fn counts(&self) -> impl Iterator<Item = u64> + '_ {
        let one = [self.again, self.slots, self.counters, self.trapped_in_range];
        let many = self
            .sizes
            .iter()
            .chain(&self.places)
            .chain(&self.interrupts);
        let many = many.chain(&self.traps).chain(&self.retired);
        many.copied().chain(one)
    }

    pub fn complete(&self) -> bool {
        self.counts().all(|count| count > 0)
    }

    pub fn add(&mut self, other: &Reached) {
        let pairs = [
            (&mut self.sizes[..], &other.sizes[..]),
            (&mut self.places[..], &other.places[..]),
            (&mut self.interrupts[..], &other.interrupts[..]),
            (&mut self.traps[..], &other.traps[..]),
            (&mut self.retired[..], &other.retired[..]),
        ];
        for (mine, theirs) in pairs {
            mine.iter_mut()
                .zip(theirs)
                .for_each(|(sum, count)| *sum += count);
        }
        self.again += other.again;
        self.slots += other.slots;
        self.counters += other.counters;
        self.trapped_in_range += other.trapped_in_range;
    }
}

#[derive(Default)]
pub struct Survey {
    pub events: Vec<Event>,
    pub reached: Reached,
}

/// What has run at an even address: its bytes, 0 for nothing; PCC's metadata; whether it was changed since.
#[derive(Clone, Copy, Default)]
struct Ran {
    bytes: u32,
    metadata: u32,
    changed: bool,
}

/// The slots of an engine with so many of them, by the address that ran last.
const SLOTS: usize = 1024;

struct Walk<'a> {
    watch: Watch,
    start: u32,
    ran: Vec<Ran>,
    slots: [Option<u32>; SLOTS],
    survey: &'a mut Survey,
}

/// Makes at most so many steps one by one, as long as none is refused.
pub fn survey(state: &State, watch: Watch, steps: u32) -> Survey {
    let mut survey = Survey::default();
    let mut walk = Walk {
        watch,
        start: state.start,
        ran: vec![Ran::default(); state.mem.len() / 2],
        slots: [None; SLOTS],
        survey: &mut survey,
    };
    let mut state = state.clone();
    for step in 1..=steps {
        let before = Before::of(&state);
        let answer = Answer::of(state.step(second::step));
        if answer.number != 0 {
            break;
        }
        walk.see(step, &before, answer.trapped == 1);
    }
    survey
}

/// What a step is about to do.
struct Before {
    at: u32,
    metadata: u32,
    word: Option<u32>,
    next: Option<u32>,
    interrupted: bool,
    store: Option<(u32, u32)>,
}

impl Before {
    fn of(state: &State) -> Before {
        let pcc = state.capability(PCC);
        let word = state
            .instruction(pcc.address)
            .filter(|_| pcc.address.is_multiple_of(2));
        let bytes = word.map_or(0, instruction_bytes);
        Before {
            at: pcc.address,
            metadata: pcc.metadata,
            word,
            next: state.instruction(pcc.address.wrapping_add(bytes)),
            interrupted: state.interrupted(),
            store: next_store(state).filter(|_| word.is_some()),
        }
    }
}

impl Walk<'_> {
    /// The place of an even address among those that can have run.
    fn place(&self, address: u32) -> Option<usize> {
        let offset = address.checked_sub(self.start)? as usize / 2;
        (offset < self.ran.len()).then_some(offset)
    }

    fn see(&mut self, step: u32, before: &Before, trapped: bool) {
        if before.interrupted {
            let has_run = self
                .place(before.at)
                .is_some_and(|place| self.ran[place].bytes > 0);
            self.survey.reached.interrupts[usize::from(has_run)] += 1;
            self.note(step, Kind::Interrupt);
            return;
        }
        let met = before.word.and_then(instruction);
        if trapped {
            self.see_trap(before, met);
            self.note(step, Kind::Trap);
            return;
        }
        self.see_run(before);
        if let Some(kind) = met.and_then(retired) {
            self.survey.reached.retired[kind] += 1;
        }
        if matches!(met, Some(Instruction::Cjalr { .. })) {
            self.note(step, Kind::Call);
        }
        if before
            .store
            .is_some_and(|store| self.see_store(before, store))
        {
            self.note(step, Kind::Change);
        }
    }

    fn note(&mut self, step: u32, kind: Kind) {
        self.survey.events.push(Event { step, kind });
    }

    fn see_trap(&mut self, before: &Before, met: Option<Instruction>) {
        use Instruction as I;
        let kind = match met {
            Some(I::Cjalr { .. }) => 0,
            Some(I::Cjal { .. }) => 1,
            Some(I::Branch { .. }) => 2,
            Some(I::Load { .. } | I::Clc { .. }) => 3,
            Some(I::Store { .. } | I::Csc { .. }) => 4,
            _ => 5,
        };
        self.survey.reached.traps[kind] += 1;
        let inside = before.store.is_some_and(|(address, size)| {
            let mut ranges = self.watch.iter();
            ranges.any(|range| is_touched(*range, address, size))
        });
        self.survey.reached.trapped_in_range += u64::from(inside);
    }

    /// An instruction that retires at its address.
    fn see_run(&mut self, before: &Before) {
        let slot = &mut self.slots[before.at as usize / 2 % SLOTS];
        let other = slot
            .replace(before.at)
            .is_some_and(|last| last != before.at);
        let reached = &mut self.survey.reached;
        reached.slots += u64::from(other);
        let Some(place) = self.place(before.at) else {
            return;
        };
        let ran = &mut self.ran[place];
        let reached = &mut self.survey.reached;
        reached.again += u64::from(ran.changed);
        reached.counters += u64::from(ran.bytes > 0 && ran.metadata != before.metadata);
        *ran = Ran {
            bytes: before.word.map_or(0, instruction_bytes),
            metadata: before.metadata,
            changed: false,
        };
    }

    /// A store that retires: whether it changes an instruction that has run.
    fn see_store(&mut self, before: &Before, (address, size): (u32, u32)) -> bool {
        let mut changes = false;
        let first = address & !1;
        for back in 0..=size.div_ceil(2) {
            let at = first.wrapping_add(size.max(2)).wrapping_sub(2 + 2 * back);
            let Some(place) = self.place(at) else {
                continue;
            };
            let bytes = self.ran[place].bytes;
            let ends = at.wrapping_add(bytes).wrapping_sub(first) as i32;
            if bytes == 0 || ends <= 0 {
                continue;
            }
            self.ran[place].changed = true;
            changes = true;
            self.see_change(before, (address, size), (at, bytes));
        }
        if changes {
            self.survey.reached.sizes[size.trailing_zeros() as usize] += 1;
        }
        changes
    }

    /// A store over the instruction of so many bytes at an address.
    fn see_change(&mut self, before: &Before, store: (u32, u32), (at, bytes): (u32, u32)) {
        let stored = |byte: u32| at.wrapping_add(byte).wrapping_sub(store.0) < store.1;
        let halves = [
            stored(0) || stored(1),
            bytes == 4 && (stored(2) || stored(3)),
        ];
        let after = before
            .at
            .wrapping_add(before.word.map_or(0, instruction_bytes));
        let jumps = before.next.and_then(instruction).is_some_and(is_jump);
        let places = [
            at == before.at,
            at == after,
            bytes == 4 && halves == [true, false],
            bytes == 4 && halves == [false, true],
            bytes == 4 && at % 8 == 6 && halves[1],
            bytes == 2,
            jumps,
            at.wrapping_sub(store.0) as i32 >= 2,
        ];
        for (count, place) in self.survey.reached.places.iter_mut().zip(places) {
            *count += u64::from(place);
        }
    }
}

fn is_jump(met: Instruction) -> bool {
    matches!(met, Instruction::Cjal { .. } | Instruction::Cjalr { .. })
}

/// The kind of what retired, of those that are counted.
fn retired(met: Instruction) -> Option<usize> {
    use Arithmetic as A;
    match met {
        Instruction::Integer { operation, .. } => match operation {
            A::Multiply | A::MultiplyHigh => Some(0),
            A::MultiplyHighSignedUnsigned | A::MultiplyHighUnsigned => Some(0),
            A::Divide | A::DivideUnsigned => Some(1),
            A::Remainder | A::RemainderUnsigned => Some(1),
            _ => None,
        },
        Instruction::Cjal { cd, .. } if cd.number() != 0 => Some(2),
        Instruction::Cjalr { .. } => Some(3),
        Instruction::Auipcc { .. } => Some(4),
        Instruction::Auicgp { .. } => Some(5),
        _ => None,
    }
}
