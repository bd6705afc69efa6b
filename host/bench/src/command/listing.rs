//! `bench list` and `bench assemble`: between an image's bytes and their listing.

use super::{refused_by, say_bytes};
use crate::arguments::{Assemble, List};
use crate::capability_text::count;
use crate::colour::Painter;
use crate::image::parts::{Part, Parts};
use crate::image::DEFAULT_START;
use crate::listing::{Form, Lister, Tail};
use crate::proved::{self, Refused};
use crate::save::Place;
use crate::visible::{self, quoted};
use crate::{colour, file, Status};
use serde_json::Value;
use std::io::{Error, ErrorKind, Write};

/// The most letters of a bad line that are shown.
const MOST_SHOWN: usize = 80;

pub fn list(asked: &List) -> Result<Status, String> {
    let start = asked.start.unwrap_or(DEFAULT_START);
    let mut image = Parts::of(&asked.image, asked.format, start)?;
    let parts = chosen(asked, &image.parts)?;
    if asked.plain {
        if let Some(reason) = cut_off(&mut image, &parts)? {
            return refused_by(CUT_OFF, &reason, false);
        }
    }
    let mut out = std::io::stdout().lock();
    let listed = match (asked.plain, asked.json) {
        (true, _) => plain(&mut out, &mut image, &parts),
        (_, true) => json(&mut out, &mut image, &parts),
        _ if colour::paints() => shown(&mut Painter::new(&mut out), &mut image, &parts),
        _ => shown(&mut out, &mut image, &parts),
    };
    match listed.and_then(|()| Ok(out.flush()?)) {
        Ok(()) | Err(Stopped::Closed) => Ok(Status::Ran),
        Err(Stopped::Told(reason)) => Err(reason),
    }
}

/// Why a listing went no further: nobody reads it any more, or something that is told.
enum Stopped {
    Closed,
    Told(String),
}

impl From<String> for Stopped {
    fn from(reason: String) -> Stopped {
        Stopped::Told(reason)
    }
}

impl From<Error> for Stopped {
    fn from(error: Error) -> Stopped {
        match error.kind() {
            ErrorKind::BrokenPipe => Stopped::Closed,
            _ => Stopped::Told(format!("standard output: {}", file::why(&error))),
        }
    }
}

/// A part, and the bytes of it that are listed: from which on, and how many; none where it is left out.
type Chosen = (Part, Option<(u64, u64)>);

/// What is listed of the parts: those that are named, else what may be executed, else all; and of these what lies in the range.
fn chosen(asked: &List, parts: &[Part]) -> Result<Vec<Chosen>, String> {
    let known = |number: &u64| parts.iter().any(|part| part.number as u64 == *number);
    if let Some(number) = asked.segment.iter().find(|number| !known(number)) {
        let known: Vec<String> = parts.iter().map(|part| part.number.to_string()).collect();
        let name = visible::name(&asked.image);
        return Err(format!(
            "{name}: no part has the number {number}; there are {}",
            quoted(&known.join(", "))
        ));
    }
    let no_code = !parts.iter().any(|part| part.code);
    let wanted = |part: &Part| match asked.segment.is_empty() {
        false => asked.segment.contains(&(part.number as u64)),
        true => part.code || no_code || asked.range.is_some(),
    };
    let (low, high) = match asked.range.as_deref() {
        Some(&[start, length]) => (start.into(), u64::from(start) + u64::from(length)),
        _ => (0, 1 << 32),
    };
    let listed = |part: &Part| {
        let within = part.within(low, high);
        let named = asked.range.is_none() || within.1 > 0;
        (part.clone(), (wanted(part) && named).then_some(within))
    };
    let chosen: Vec<Chosen> = parts.iter().map(listed).collect();
    match chosen.iter().any(|(_, listed)| listed.is_some()) {
        true => Ok(chosen),
        false => Err(format!(
            "{}: no byte of it lies in [{low:08x}, {high:08x})",
            visible::name(&asked.image)
        )),
    }
}

/// The number of the refusal of bytes that end inside a word (include/oddersnow.h).
const CUT_OFF: u64 = 15;

/// Where the bytes of a part end inside a word, which no line of the plain form is; so that nothing is written then.
fn cut_off(image: &mut Parts, parts: &[Chosen]) -> Result<Option<String>, String> {
    for (part, bytes) in listed(parts) {
        let tail = words(image, part, bytes, Form::None, &mut std::io::sink());
        let tail = tail.map_err(|_: Stopped| "nothing is written".to_string())?;
        if let Some(Tail { address, .. }) = tail {
            let (origin, place) = (&part.origin, part.shown());
            let offset = address - u64::from(part.address);
            return Ok(Some(format!(
                "{origin} at {place}: the bytes end inside the word at offset {offset}, {address:08x}"
            )));
        }
    }
    Ok(None)
}

/// The parts that are listed.
fn listed(parts: &[Chosen]) -> impl Iterator<Item = (&Part, (u64, u64))> {
    parts
        .iter()
        .filter_map(|(part, bytes)| Some((part, (*bytes)?)))
}

/// Lists bytes of a part; what is left is what ends inside a word.
fn words(
    image: &mut Parts,
    part: &Part,
    bytes: (u64, u64),
    form: Form,
    out: &mut dyn Write,
) -> Result<Option<Tail>, Stopped> {
    let mut lister = Lister::new(out, form, u64::from(part.address) + bytes.0);
    image.each(part, bytes, &mut |piece| {
        Ok::<(), Stopped>(lister.take(piece)?)
    })?;
    Ok(lister.finish()?)
}

fn plain(out: &mut dyn Write, image: &mut Parts, parts: &[Chosen]) -> Result<(), Stopped> {
    for (part, bytes) in listed(parts) {
        words(image, part, bytes, Form::Plain, out)?;
    }
    Ok(())
}

/// The parts one after the other: where each lies, its words, and how many zeros follow.
fn shown(out: &mut dyn Write, image: &mut Parts, parts: &[Chosen]) -> Result<(), Stopped> {
    for (place, (part, bytes)) in parts.iter().enumerate() {
        let (origin, range, number) = (&part.origin, part.shown(), part.number);
        let before = if place == 0 { "" } else { "\n" };
        let Some(bytes) = *bytes else {
            writeln!(
                out,
                "{before}{origin} at {range}, not listed; --segment {number} lists it"
            )?;
            continue;
        };
        writeln!(out, "{before}{origin} at {range}")?;
        let tail = words(image, part, bytes, Form::Shown, out)?;
        out.write_all(tail.map_or(String::new(), |tail| tail.line()).as_bytes())?;
        if part.zeros > 0 {
            let zeros = count(part.zeros, "byte");
            writeln!(out, "  then {zeros} of zeros, which are not in the file")?;
        }
    }
    Ok(out.flush()?)
}

/// The same as JSON, a word a line.
fn json(out: &mut dyn Write, image: &mut Parts, parts: &[Chosen]) -> Result<(), Stopped> {
    write!(out, "{{\n  \"parts\": [")?;
    for (place, (part, bytes)) in parts.iter().enumerate() {
        let comma = if place == 0 { "" } else { "," };
        let origin = Value::from(part.origin.as_str()).to_string();
        let (origin, listed) = (visible::json(&origin), bytes.is_some());
        let (number, address) = (part.number, part.address);
        write!(
            out,
            "{comma}\n    {{\"origin\": {origin}, \"number\": {number}, \"address\": {address}, \"listed\": {listed}, \"words\": ["
        )?;
        let tail = bytes.map(|bytes| words(image, part, bytes, Form::Json, out));
        let tail = tail.transpose()?.flatten();
        let tail = tail.map_or("null".into(), |tail| tail.json());
        write!(
            out,
            "\n    ], \"tail\": {tail}, \"zeros\": {}}}",
            part.zeros
        )?;
    }
    Ok(writeln!(out, "\n  ]\n}}")?)
}

pub fn assemble(asked: &Assemble) -> Result<Status, String> {
    let text = file::read(&asked.text)?;
    let code = match proved::assemble(&text) {
        Ok(code) => code,
        Err(refusal) => {
            let (name, reason) = (visible::name(&asked.text), bad_line(&text, refusal));
            return refused_by(refusal.number, &format!("{name}: {reason}"), false);
        }
    };
    match &asked.output {
        Some(path) => Place::apart(path, &[&asked.text], &[])?.write(&code)?,
        None => say_bytes(&code)?,
    }
    Ok(Status::Ran)
}

/// What is said of a bad line: its number and its text. A terminal obeys some bytes, and a tab is not
/// told from spaces there, so they are written out.
fn bad_line(text: &[u8], refusal: Refused) -> String {
    let number = refusal.place;
    let mut lines = text.split_inclusive(|byte| *byte == b'\n');
    let line = lines
        .nth((number as usize).saturating_sub(1))
        .unwrap_or(&[]);
    let (line, end) = match line.strip_suffix(b"\n") {
        Some(line) => (line, ""),
        None => (line, ", without a newline"),
    };
    let more = if line.len() > MOST_SHOWN { ".." } else { "" };
    let shown = line[..line.len().min(MOST_SHOWN)].escape_ascii();
    format!("line {number} is no word's listing: '{shown}'{more}{end}")
}
