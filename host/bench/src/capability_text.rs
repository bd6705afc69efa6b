//! A capability in words: its rights as the paper's two letters, its type, its bounds.

use crate::probe::{jump, value};
use crate::proved::Region;
use lent::{Capability, Revocation};

/// The rights from bit 0 (document 01, "Capability word").
const RIGHTS: [&str; 12] = [
    "GL", "LG", "SD", "LM", "SL", "LD", "MC", "SR", "EX", "US", "SE", "U0",
];

/// All of them, as a mask: no capability has them at once.
pub const ALL_RIGHTS: u32 = (1 << RIGHTS.len()) - 1;

/// The mask of a right by its name; of no right for what is none.
pub fn right(name: &str) -> u32 {
    let place = RIGHTS.iter().position(|right| *right == name);
    place.map_or(0, |place| 1 << place)
}

/// The names of the rights that a metadata word holds.
pub fn rights(metadata: u32) -> Vec<&'static str> {
    let held = value::rights(metadata);
    let names = RIGHTS.into_iter().enumerate();
    names
        .filter(|(bit, _)| held >> bit & 1 == 1)
        .map(|(_, name)| name)
        .collect()
}

/// The type in words (the CHERIoT report, 7.13.2, and document 02, 8).
pub fn type_words(metadata: u32) -> String {
    let kind = value::seal_type(metadata);
    match (kind, jump::is_sentry(kind)) {
        (0, _) => "unsealed".into(),
        (1, true) => "sentry".into(),
        (2, true) => "sentry, interrupts off".into(),
        (3, true) => "sentry, interrupts on".into(),
        (4, true) => "return sentry, interrupts off".into(),
        (5, true) => "return sentry, interrupts on".into(),
        (number, _) => format!("sealed {number}"),
    }
}

/// What the revocation bits say, in a word.
pub fn revocation_word(said: Revocation) -> &'static str {
    match said {
        Revocation::Outside => "outside",
        Revocation::Clear => "clear",
        Revocation::Marked => "marked",
    }
}

/// The same of a granule, in words.
pub fn revocation_words(said: Revocation) -> &'static str {
    match said {
        Revocation::Outside => "outside the window",
        Revocation::Clear => "clear",
        Revocation::Marked => "marked",
    }
}

/// Bounds as text.
pub fn region(region: Region) -> String {
    format!("[{:08x}, {:08x})", region.low, region.high)
}

/// Whether a register holds a plain integer: no metadata and no tag.
pub fn is_integer(capability: Capability) -> bool {
    capability.metadata == 0 && capability.tag == 0
}

/// A number of bytes, with its digits in groups of three.
pub fn grouped(number: u64) -> String {
    let digits = number.to_string();
    let mut text = String::new();
    for (place, digit) in digits.chars().enumerate() {
        if place > 0 && (digits.len() - place).is_multiple_of(3) {
            text.push(',');
        }
        text.push(digit);
    }
    text
}

/// A number of things, in the singular for one.
pub fn count(number: u64, thing: &str) -> String {
    let plural = if number == 1 { "" } else { "s" };
    format!("{} {thing}{plural}", grouped(number))
}

/// How long a region is; an unsound one, whose high is below its low, has no length.
pub fn length(region: Region) -> String {
    match region.high.checked_sub(region.low.into()) {
        Some(bytes) => count(bytes, "byte"),
        None => "high below low".into(),
    }
}
