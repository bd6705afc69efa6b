//! The packets that ask and set: q and Q.

use super::description;
use super::packet::{digits, number, split, MOST_PAYLOAD};
use super::session::{Session, OK};
use super::stop::Signal;

/// An answer for the one thread that there is, by its number or one that means any; an error for another.
pub fn thread(name: Option<&[u8]>) -> Option<Vec<u8>> {
    matches!(name?, b"1" | b"0" | b"-1").then(|| OK.to_vec())
}

/// q.
pub fn asked(session: &mut Session, rest: &[u8]) -> Option<Vec<u8>> {
    if let Some(features) = rest.strip_prefix(b"Supported") {
        return Some(supported(session, features));
    }
    if let Some(object) = rest.strip_prefix(b"Xfer:") {
        return object_part(session, object);
    }
    Some(match rest {
        b"C" => b"QC1".to_vec(),
        b"fThreadInfo" => b"m1".to_vec(),
        b"sThreadInfo" => b"l".to_vec(),
        b"Attached" => b"1".to_vec(),
        b"ThreadExtraInfo,1" => digits(b"the machine"),
        _ if rest.starts_with(b"Symbol:") => OK.to_vec(),
        _ => Vec::new(),
    })
}

/// What is understood, and how long packets may be.
fn supported(session: &mut Session, features: &[u8]) -> Vec<u8> {
    let features = features.strip_prefix(b":").unwrap_or(features);
    let mut features = features.split(|byte| *byte == b';');
    session.reasons = features.any(|feature| feature == b"swbreak+");
    format!(
        "PacketSize={MOST_PAYLOAD:x};QStartNoAckMode+;QPassSignals+;qXfer:features:read+;\
         qXfer:memory-map:read+;swbreak+;vContSupported+"
    )
    .into_bytes()
}

/// A part of one of the texts: OBJECT:read:NAME:OFFSET,LENGTH.
fn object_part(session: &Session, object: &[u8]) -> Option<Vec<u8>> {
    let (object, rest) = split(object, b':')?;
    let (verb, rest) = split(rest, b':')?;
    let (name, place) = split(rest, b':')?;
    let (offset, length) = split(place, b',')?;
    let text = match (object, verb, name) {
        (b"features", b"read", b"target.xml") => description::target(),
        (b"memory-map", b"read", b"") => description::memory(session.target.state()),
        (b"features" | b"memory-map", b"read", _) => return None,
        _ => return Some(Vec::new()),
    };
    let (offset, length) = (number(offset)?, number(length)?);
    let rest = text.as_bytes().get(usize::try_from(offset).ok()?..)?;
    // Each byte may be escaped.
    let length = length.min(MOST_PAYLOAD as u64 / 2 - 1) as usize;
    Some(match rest.len() <= length {
        true => [b"l", rest].concat(),
        false => [b"m", &rest[..length]].concat(),
    })
}

/// Q.
pub fn set(session: &mut Session, rest: &[u8]) -> Option<Vec<u8>> {
    let Some(signals) = rest.strip_prefix(b"PassSignals:") else {
        return Some(Vec::new());
    };
    let signals = signals.split(|byte| *byte == b';');
    let signals = signals.filter(|digits| !digits.is_empty());
    let passed: Option<Vec<u64>> = signals.map(number).collect();
    let passed = passed?.into_iter();
    let passed = passed.filter_map(|signal| u8::try_from(signal).ok().map(Signal));
    session.target.passed = passed.collect();
    Some(OK.to_vec())
}
