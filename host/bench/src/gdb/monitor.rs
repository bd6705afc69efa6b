//! The commands of a client's monitor: what the bench itself says of the machine.

use super::target::Target;
use crate::capability_text::{count, grouped, is_integer, length, region, rights, type_words};
use crate::proved::{bounds, digits, instruction, word_at, word_length};
use crate::report;
use lent::{place_name, Capability, State, CAPABILITIES, GRANULE, PCC};
use std::fmt::Write;

const HELP: &str = "\
explain              the trap that the next step makes, or the last one: where, what was asked, which bounds
cap REGISTER         a capability: c0 to c15, pcc, mtcc, mtdc, mscratchc, mepcc
cap 0xADDRESS        the capability in memory at an address
registers            all registers
list [0xADDRESS [N]] N words from an address on, or from pc, as the proved lister lists them
stack                how deep the stack went
steps                how many steps were made
reset                back to the start; breakpoints stay
help                 this
";

/// The words that `list` shows if it is not told how many, and the most that it shows.
const LISTED: u64 = 8;
const MOST_LISTED: u64 = 256;

/// What a command says.
pub fn obey(target: &mut Target, command: &str) -> String {
    let words: Vec<&str> = command.split_whitespace().collect();
    match words[..] {
        ["explain"] => explain(target),
        ["cap", place] => capability(target.state(), place),
        ["registers"] => report::registers(target.state()),
        ["list", ref rest @ ..] => list(target, rest),
        ["stack"] => stack(target),
        ["steps"] => steps(target),
        ["reset"] => {
            target.reset();
            format!("Back at the start, {:08x}.\n", target.at())
        }
        ["help"] | [] => HELP.into(),
        _ => format!("No such command; there are:\n{HELP}"),
    }
}

fn explain(target: &Target) -> String {
    match target.explained() {
        None => "No trap is recorded.\n".into(),
        Some((trap, after)) => {
            let used = report::stack(&after, target.stack);
            format!("{used}{}", report::trap(&trap, &after, &target.names))
        }
    }
}

/// A register by its name, or a granule by its address.
fn capability(state: &State, place: &str) -> String {
    let named = (0..CAPABILITIES).find(|at| name(*at) == place.to_lowercase());
    if let Some(at) = named {
        return shown(&place_name(at), state.capability(at));
    }
    let Some(address) = address(place) else {
        return format!("{place} is no register, and no address after 0x.\n");
    };
    let granule = address & !(GRANULE as u32 - 1);
    let words = [granule, granule.wrapping_add(4)].map(|address| state.word(address));
    match words {
        [Some(address), Some(metadata)] => {
            let tag = u32::from(state.tagged(granule.into()));
            let value = Capability {
                address,
                metadata,
                tag,
            };
            shown(&format!("[{granule:08x}]"), value)
        }
        _ => format!("No memory at {granule:08x}.\n"),
    }
}

/// A capability in words.
fn shown(name: &str, value: Capability) -> String {
    let Capability { address, tag, .. } = value;
    let start = format!("{name} {address:08x}, tag {tag}");
    if is_integer(value) {
        return format!("{start}, integer {}\n", address as i32);
    }
    let bounds = bounds(value);
    let (low_high, long) = (region(bounds), length(bounds));
    let held = match rights(value.metadata).join(" ") {
        none if none.is_empty() => "no rights".into(),
        held => held,
    };
    let kind = type_words(value.metadata);
    format!("{start}, bounds {low_high}, {long}, {held}, {kind}\n")
}

fn name(place: usize) -> String {
    place_name(place).to_lowercase()
}

fn address(text: &str) -> Option<u32> {
    u32::from_str_radix(text.strip_prefix("0x")?, 16).ok()
}

/// Words from an address on, with an arrow at pc.
fn list(target: &Target, asked: &[&str]) -> String {
    let state = target.state();
    let pc = state.capability(PCC).address;
    let (from, words) = match *asked {
        [] => (Some(pc), Some(LISTED)),
        [from] => (address(from), Some(LISTED)),
        [from, words] => (address(from), words.parse().ok()),
        _ => (None, None),
    };
    let (Some(mut at), Some(words)) = (from, words) else {
        return "list [0xADDRESS [N]]\n".into();
    };
    let mut text = String::new();
    for _ in 0..words.min(MOST_LISTED) {
        let Some(word) = word_at(state, at) else {
            let _ = writeln!(text, "   {at:08x}  no whole word in memory");
            break;
        };
        let arrow = if at == pc { "=>" } else { "  " };
        let (said, place) = (instruction(word), target.names.place(at));
        let line = format!("{arrow} {at:08x}  {:<8}  {said}{place}", digits(word));
        let _ = writeln!(text, "{line}");
        at = at.wrapping_add(word_length(word));
    }
    text
}

fn stack(target: &Target) -> String {
    match report::stack(target.state(), target.stack) {
        none if none.is_empty() => "No mark is set for a stack.\n".into(),
        text => text,
    }
}

fn steps(target: &Target) -> String {
    let retired = count(target.counts.retired, "step");
    let trapped = grouped(target.counts.trapped);
    let written = match target.written {
        true => " Registers or memory were written by the debugger.",
        false => "",
    };
    format!("{retired} retired, {trapped} trapped since the start.{written}\n")
}
