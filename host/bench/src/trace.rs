//! A step on one line: where, the word, its instruction, and what it changed; of a load of a tagged capability also
//! what the revocation bits said of its low bound.

use crate::capability_text::{is_integer, region, revocation_words, type_words};
use crate::probe::{self, access};
use crate::proved::{bounds, digits, instruction, word_at, word_length, Counts};
use crate::request::Request;
use crate::trap::Trap;
use lent::{place_name, Capability, State, CAPABILITIES, CONTROL, GRANULE, MSTATUS, PCC, TIME};

/// The letters that nearly every instruction has room in: those of `cincaddrimm 15 15 -2048`.
const SAID: usize = 23;

/// Why steps are not shown one by one.
const NOT_SHOWN: &str =
    "a register holds what no start may hold, so that each would be made with all before it again";

/// A granule of memory: where it lies, its bytes and its tag.
type Granule = (u32, Vec<u8>, bool);

/// What a line needs of the state before a step: its registers, the word there, and the granules that this may store to. A
/// step changes nothing else of memory.
pub struct Before {
    registers: State,
    word: Option<u32>,
    stored: Vec<Granule>,
}

impl Before {
    pub fn of(state: &State) -> Before {
        let registers = State {
            regs: state.regs.clone(),
            ..State::default()
        };
        let word = word_at(state, state.capability(PCC).address);
        let stored = word.and_then(|word| stored(word, state));
        Before {
            stored: stored.unwrap_or_default(),
            registers,
            word,
        }
    }
}

/// The granules that a word stores to, as far as they are in memory.
fn stored(word: u32, state: &State) -> Option<Vec<Granule>> {
    let Request::Store { by, size } = Request::of(word) else {
        return None;
    };
    let first = access::address(word, state.capability(by).address)?;
    let last = first.checked_add(size - 1)?;
    let granule = GRANULE as u32;
    let places = (first / granule..=last / granule).map(|place| place * granule);
    Some(places.filter_map(|address| held(state, address)).collect())
}

/// The granule at an address.
fn held(state: &State, address: u32) -> Option<Granule> {
    let place = state.offset(address, GRANULE)?;
    let bytes = state.mem[place..place + GRANULE].to_vec();
    Some((address, bytes, state.tagged(address.into())))
}

/// The line of the step from `before` to `after`, or of several that are not shown one by one.
pub fn line(number: u64, before: &Before, after: &State, made: Counts) -> String {
    if made.steps() > 1 {
        let first = number - made.steps() + 1;
        return format!("{first:>8}  to {number}, not shown: {NOT_SHOWN}");
    }
    let pcc = before.registers.capability(PCC);
    let (word, changes) = if made.trapped > 0 {
        let trap = Trap::new(after, pcc);
        let said = match trap.is_interrupt() {
            true => trap.cause,
            false => format!("trap: {}", trap.cause),
        };
        (trap.word, vec![said])
    } else {
        let word = before.word;
        let mut changes = changes(before, after, word.unwrap_or(0));
        changes.extend(word.and_then(|word| filtered(word, &before.registers, after)));
        (word, changes)
    };
    let said = word.map_or(String::new(), instruction);
    let word = word.map_or("--------".into(), digits);
    let text = format!(
        "{number:>8}  {:08x}  {word:<8}  {said:<SAID$}  {}",
        pcc.address,
        changes.join(", ")
    );
    text.trim_end().into()
}

/// What a step by a word that retired changed: registers, memory, and PCC where it is not the next in
/// order. Time goes on in every step and is not said.
fn changes(known: &Before, after: &State, word: u32) -> Vec<String> {
    let (before, mut changes) = (&known.registers, Vec::new());
    for place in (0..PCC).chain(PCC + 1..CAPABILITIES) {
        let (old, new) = (before.capability(place), after.capability(place));
        if old != new {
            changes.push(format!("{} := {}", place_name(place), shown(new)));
        }
    }
    for (place, name) in (MSTATUS..TIME).zip(CONTROL) {
        if before.register(place) != after.register(place) {
            changes.push(format!("{name} := {:08x}", after.register(place)));
        }
    }
    changes.extend(memory_change(&known.stored, after));
    let (mut next, new) = (before.capability(PCC), after.capability(PCC));
    next.address = next.address.wrapping_add(word_length(word));
    if new != next {
        changes.push(format!("PCC := {}", shown(new)));
    }
    changes
}

/// What the load filter asked, where the step loaded a tagged capability; it left memory as it was.
fn filtered(word: u32, before: &State, after: &State) -> Option<String> {
    let Request::Load { by, to, tags, .. } = Request::of(word) else {
        return None;
    };
    let to = to.filter(|_| tags)?;
    let address = access::address(word, before.capability(by).address)?;
    let low = bounds(after.capability(to)).low;
    let said = after
        .tagged(address.into())
        .then(|| probe::revocation(after, low))?;
    Some(format!("low bound {}", revocation_words(said)))
}

fn shown(value: Capability) -> String {
    if is_integer(value) {
        return format!("{:08x}", value.address);
    }
    let tag = if value.tag == 1 { "" } else { " no tag" };
    let kind = match type_words(value.metadata).as_str() {
        "unsealed" => String::new(),
        kind => format!(" ({kind})"),
    };
    format!("{:08x}{tag} {}{kind}", value.address, region(bounds(value)))
}

/// The first granule that a store changed, with its address and its bytes.
fn memory_change(before: &[Granule], after: &State) -> Option<String> {
    let mut now = before
        .iter()
        .filter_map(|was| held(after, was.0).filter(|now| now != was));
    let (address, bytes, tagged) = now.next()?;
    let digits: Vec<String> = bytes.iter().map(|byte| format!("{byte:02x}")).collect();
    let tag = if tagged { " tagged" } else { "" };
    Some(format!("[{address:08x}] := {}{tag}", digits.join(" ")))
}
