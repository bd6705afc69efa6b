//! The metadata word of a capability that is told by its bounds, rights and type. Words are tried one after another, and the
//! proved libraries and the proved machine say of each what it is.

use crate::capability_text::{region, rights, type_words};
use crate::proved::{bounds, Region};
use lent::Capability;

/// The bits of a word that bounds go by; rights and type go by those above (document 01, "Capability word").
const LOWER: u32 = 22;

/// A word with what a row of the table says after the tag: bounds, rights, type. Of several the least, which is the one with
/// the least exponent.
pub fn metadata(address: u32, text: &str) -> Option<u32> {
    let (said, kinds) = text.split_once(')')?;
    let kinds: Vec<&str> = kinds.split_whitespace().collect();
    let kinds = kinds.join(" ");
    let mut uppers = (0..1 << (u32::BITS - LOWER)).map(|upper| upper << LOWER);
    let upper = uppers.find(|&word| shown_kinds(word) == kinds)?;
    let (low, high) = said.trim_start_matches('[').split_once(", ")?;
    let wanted = Region {
        low: u32::from_str_radix(low, 16).ok()?,
        high: u64::from_str_radix(high, 16).ok()?,
    };
    if region(wanted) != format!("{said})") {
        return None;
    }
    let has_bounds = |metadata: &u32| {
        let (metadata, tag) = (*metadata, 0);
        bounds(Capability {
            address,
            metadata,
            tag,
        }) == wanted
    };
    let mut words = (0..1 << LOWER).map(|lower| upper | lower);
    words.find(has_bounds)
}

/// Rights and type as a row of the table has them.
fn shown_kinds(metadata: u32) -> String {
    let (held, kind) = (rights(metadata).join(" "), type_words(metadata));
    format!("{held} {kind}").trim_start().into()
}
