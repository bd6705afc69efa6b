//! Register dumps: a line for each register, as a fitter writes it down, as gdb prints it, or as the bench does. The
//! forms are docs/STATE.md's. A dump has no memory, and may have some of the registers only.

mod found;
#[cfg(test)]
mod tests;

use crate::digits;
use crate::edition::Edition;
use crate::proved;
use crate::visible::quoted;
use clap::ValueEnum;
use lent::{place_name, Capability, State};
use lent::{CAPABILITIES, CONTROL, MSTATUS, REPORT_EDITION, TIME, WORDS};

/// What gdb calls the addresses of c0 to c15 and of PCC; it prints the capabilities beside them.
const ADDRESSES: [&str; 19] = [
    "zero", "ra", "sp", "gp", "tp", "t0", "t1", "t2", "fp", "s0", "s1", "a0", "a1", "a2", "a3",
    "a4", "a5", "pc", "register",
];
/// Numbers of 64 bits, each with the place of its low word.
const LONG: [(&str, usize); 2] = [("time", TIME), ("compare", lent::COMPARE)];

/// The registers that a dump has.
pub struct Dump {
    regs: Vec<u32>,
    edition: u32,
    /// Which words were told.
    given: Vec<bool>,
}

/// The registers of a dump's text, or its first bad line.
pub fn read(text: &str) -> Result<Dump, String> {
    let mut dump = Dump {
        regs: State::new(0, Vec::new()).regs,
        edition: REPORT_EDITION,
        given: vec![false; WORDS],
    };
    for (number, line) in (1..).zip(text.lines()) {
        let line = line.split('#').next().unwrap_or_default().trim();
        let told = dump.line(line);
        told.map_err(|reason| format!("line {number}: {reason}"))?;
    }
    match dump.given.contains(&true) {
        true => Ok(dump),
        false => Err("it names no register".into()),
    }
}

impl Dump {
    /// The registers that were not told, by name; they are null.
    pub fn missing(&self) -> Vec<String> {
        let missing = (1..CAPABILITIES).filter(|place| !self.given[3 * place]);
        missing.map(place_name).collect()
    }

    /// A state with these registers, and with some memory.
    pub fn state(&self, start: u32, mem: Vec<u8>) -> State {
        State {
            regs: self.regs.clone(),
            edition: self.edition,
            ..State::new(start, mem)
        }
    }

    fn line(&mut self, line: &str) -> Result<(), String> {
        let end = line.find([' ', '\t', '=']).unwrap_or(line.len());
        let (name, rest) = line.split_at(end);
        let rest = rest.trim_start_matches([' ', '\t', '=']);
        let named = |place: &usize| place_name(*place).eq_ignore_ascii_case(name);
        if line.is_empty() || ADDRESSES.contains(&name) {
            Ok(())
        } else if let Some(place) = (0..CAPABILITIES).find(named) {
            let value = capability(rest)?;
            let words = [value.address, value.metadata, value.tag];
            self.put(3 * place, &words, name)
        } else {
            line.split(',').try_for_each(|part| self.control(part))
        }
    }

    /// A word that is no capability: its name, and its number once, or as gdb prints it twice.
    fn control(&mut self, text: &str) -> Result<(), String> {
        let parts = text.split([' ', '\t', '=']);
        let parts: Vec<&str> = parts.filter(|part| !part.is_empty()).collect();
        let name = parts.first().copied().unwrap_or_default();
        let told = match parts.as_slice() {
            [_, told, _] => told.to_string(),
            parts => parts.iter().skip(1).copied().collect::<Vec<_>>().join(" "),
        };
        let told = told.as_str();
        let is = |known: &str| known == name.to_lowercase();
        if is("edition") {
            let edition = Edition::from_str(told, true);
            self.edition = edition
                .map_err(|_| format!("no edition '{}'", quoted(told)))?
                .number();
            Ok(())
        } else if let Some((_, place)) = LONG.iter().find(|(known, _)| is(known)) {
            let value = long(told).ok_or_else(|| no_number(told))?;
            self.put(*place, &[value as u32, (value >> 32) as u32], name)
        } else if let Some(index) = CONTROL.iter().position(|known| is(known)) {
            let value = word(told).ok_or_else(|| no_number(told))?;
            self.put(MSTATUS + index, &[value], name)
        } else {
            Err(format!("no register has the name '{}'", quoted(name)))
        }
    }

    fn put(&mut self, place: usize, words: &[u32], name: &str) -> Result<(), String> {
        let places = place..place + words.len();
        if self.given[places.clone()].contains(&true) {
            return Err(format!("{name} was told before"));
        }
        self.given[places.clone()].fill(true);
        self.regs[places].copy_from_slice(words);
        Ok(())
    }
}

fn no_number(text: &str) -> String {
    let text = quoted(text);
    format!("'{text}' is no number: eight hexadecimal digits, or hexadecimal after 0x")
}

/// A word: eight digits as the bench writes them, or hexadecimal after 0x.
fn word(text: &str) -> Option<u32> {
    match text.strip_prefix("0x") {
        Some(digits) => hexadecimal(digits)?.try_into().ok(),
        None => digits::word(&text.to_lowercase()),
    }
}

fn hexadecimal(digits: &str) -> Option<u64> {
    let good = !digits.is_empty() && digits.bytes().all(|digit| digit.is_ascii_hexdigit());
    good.then(|| u64::from_str_radix(digits, 16).ok())?
}

/// A number of 64 bits: decimal, or hexadecimal after 0x.
fn long(text: &str) -> Option<u64> {
    match text.strip_prefix("0x") {
        Some(digits) => hexadecimal(digits),
        None => text
            .bytes()
            .all(|digit| digit.is_ascii_digit())
            .then(|| text.parse().ok())?,
    }
}

/// The forms of a capability, for whoever has another.
const FORMS: &str =
    "no capability: write 0xADDRESS metadata 0xWORD tag 0 or 1, or what gdb or bench prints of it";

/// A capability in one of its forms, without its name.
fn capability(text: &str) -> Result<Capability, String> {
    if let Some(fields) = text.strip_prefix('{') {
        let (fields, _) = fields.split_once('}').ok_or("the brace is not closed")?;
        return of_fields(fields);
    }
    let words: Vec<&str> = text.split_whitespace().collect();
    let (address, metadata, tag) = match words.as_slice() {
        [address, "metadata", metadata, "tag", tag] => (address, metadata, *tag),
        [address, metadata, tag] if !metadata.starts_with('[') && *metadata != "0" => {
            (address, metadata, *tag)
        }
        [address, tag, rest @ ..] if !rest.is_empty() => return shown(address, tag, text, rest),
        _ => return Err(format!("'{}' is {FORMS}", quoted(text))),
    };
    Ok(Capability {
        address: word(address).ok_or_else(|| no_number(address))?,
        metadata: word(metadata).ok_or_else(|| no_number(metadata))?,
        tag: tag_of(tag)?,
    })
}

/// A tag, as a digit or a word.
fn tag_of(text: &str) -> Result<u32, String> {
    match text {
        "0" | "0x0" => Ok(0),
        "1" | "0x1" => Ok(1),
        _ => word(text).ok_or_else(|| format!("'{}' is no tag, 0 or 1", quoted(text))),
    }
}

/// gdb's structure: address, metadata and tag; low and high, where they stand there, are those of the pair.
fn of_fields(text: &str) -> Result<Capability, String> {
    let field = |name: &str| {
        let fields = text.split(',').filter_map(|field| field.split_once('='));
        let mut named = fields.filter(|(known, _)| known.trim() == name);
        named.next().map(|(_, value)| value.trim())
    };
    let number = |name: &str| {
        let told = field(name).ok_or_else(|| format!("there is no {name}"))?;
        long(told).ok_or_else(|| format!("'{}' is no number", quoted(told)))
    };
    let short = |name: &str| {
        let number = number(name)?;
        u32::try_from(number).map_err(|_| format!("{name} is not below 2^32"))
    };
    let value = Capability {
        address: short("address")?,
        metadata: short("metadata")?,
        tag: short("tag")?,
    };
    let bounds = proved::bounds(value);
    for (name, bound) in [("low", bounds.low.into()), ("high", bounds.high)] {
        if field(name).is_some() && number(name)? != bound {
            return Err(format!(
                "{name} is not that of the address and the metadata, {bound:#x}"
            ));
        }
    }
    Ok(value)
}

/// A row of the bench's own table, which has no metadata.
fn shown(address: &str, tag: &str, text: &str, rest: &[&str]) -> Result<Capability, String> {
    let address = word(address).ok_or_else(|| no_number(address))?;
    let tag = tag_of(tag)?;
    if rest[0] == "integer" && tag == 0 {
        return Ok(Capability::integer(address));
    }
    let metadata = text
        .find('[')
        .and_then(|at| found::metadata(address, &text[at..]));
    let metadata = metadata.ok_or_else(|| {
        let text = quoted(text);
        format!("'{text}' is {FORMS}, and no capability has such bounds, rights and type")
    })?;
    Ok(Capability {
        address,
        metadata,
        tag,
    })
}
