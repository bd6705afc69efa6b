//! `bench explain`: the last trap and the registers of a saved state, or of a register dump.

use super::{refused_state, say, say_json};
use crate::arguments::Explain;
use crate::dump::{self, Dump};
use crate::image::{self, Format, Segment, DEFAULT_START};
use crate::names::{Name, Names};
use crate::stack::Stack;
use crate::trap::{Action, Authority, Trap};
use crate::{file, json, proved, report, state_file, visible, Status};
use lent::{State, BLOCK, MEPCC, MOST_MEMORY};
use serde_json::Value;
use std::path::Path;

/// How a state file begins, of any version; every other file is a dump.
const STATE: &[u8] = b"oddersnow";

pub fn obey(asked: &Explain) -> Result<Status, String> {
    let map = asked.map.as_deref().map(crate::sheet::read).transpose()?;
    let stack = map.as_ref().and_then(Stack::of_map);
    let mut names = map.map_or(Vec::new(), |map| map.names());
    let bytes = file::read(&asked.state)?;
    let (mut state, dump) = match bytes.starts_with(STATE) {
        true => (saved(asked, &bytes)?, None),
        false => {
            let dump = dumped(asked, &bytes)?;
            (with_images(asked, &dump, &mut names)?, Some(dump))
        }
    };
    if let Err(refusal) = proved::run(&mut state, 0) {
        return refused_state(refusal, &state, asked.json);
    }
    let trap = Trap::recorded(&state).map(|trap| match &dump {
        Some(dump) => as_known(trap, dump),
        None => trap,
    });
    let told = Told {
        state: &state,
        trap,
        names: &Names(names),
        stack,
        dump,
    };
    match asked.json {
        true => say_json(&told.json())?,
        false => say(&told.text())?,
    }
    Ok(Status::Ran)
}

fn named(path: &Path, reason: &str) -> String {
    format!("{}: {reason}", visible::name(path))
}

fn saved(asked: &Explain, bytes: &[u8]) -> Result<State, String> {
    if let Some(path) = asked.with.first() {
        return Err(named(
            path,
            "a saved state has its memory; --with is for a register dump",
        ));
    }
    state_file::read(bytes).map_err(|reason| named(&asked.state, &reason))
}

fn dumped(asked: &Explain, bytes: &[u8]) -> Result<Dump, String> {
    let neither = "neither a saved state, which begins with 'oddersnow state', nor a register dump";
    let text = std::str::from_utf8(bytes).map_err(|_| "it is no text".to_string());
    let dump = text.and_then(dump::read);
    dump.map_err(|reason| named(&asked.state, &format!("{neither}: {reason}")))
}

/// The dump's registers, with the bytes of the image that the trap was in, if it is among those given. Its symbols are names.
fn with_images(asked: &Explain, dump: &Dump, names: &mut Vec<Name>) -> Result<State, String> {
    let at = dump.state(0, Vec::new()).capability(MEPCC).address;
    let mut here = None;
    for path in &asked.with {
        let image = image::read(path, &file::read(path)?, Format::Auto, DEFAULT_START)?;
        let holds = |segment: &Segment| {
            let (start, end) = segment.range();
            (start..end).contains(&u64::from(at))
        };
        here = here.or(image.segments.into_iter().find(holds));
        names.extend(image.names);
    }
    match here {
        Some(segment) => memory(dump, &segment),
        // Memory that the trap was not in: nothing is known of what was.
        None => Ok(dump.state(if at < 1 << 31 { 1 << 31 } else { 0 }, vec![0; BLOCK])),
    }
}

/// Memory that is a part of an image, in whole blocks.
fn memory(dump: &Dump, segment: &Segment) -> Result<State, String> {
    let (low, high) = segment.range();
    let start = low - low % BLOCK as u64;
    let size = (high - start).next_multiple_of(BLOCK as u64) as usize;
    if size > MOST_MEMORY {
        return Err(format!("{}: more than {MOST_MEMORY} bytes", segment.origin));
    }
    let mut state = dump.state(start as u32, vec![0; size]);
    state.write(segment.address, &segment.bytes);
    Ok(state)
}

/// A trap as far as a dump tells it. Without the word, or the register that it went by, what was asked for is not known;
/// without PCC or MTCC, whether the program has gone on; revocation bits never are.
fn as_known(mut trap: Trap, dump: &Dump) -> Trap {
    let missing = dump.missing();
    let lacks = |name: &str| missing.iter().any(|known| known == name);
    let by_unknown = |authority: &Authority| lacks(&authority.name) && authority.name != "PCC";
    if trap.authority.as_ref().is_some_and(by_unknown) {
        trap.authority = None;
        trap.asked = None;
    }
    if trap.word.is_none() && trap.action != Action::Fetch {
        trap.asked = None;
    }
    if let Some(authority) = &mut trap.authority {
        authority.revocation = None;
    }
    trap.gone_on &= !lacks("PCC") && !lacks("MTCC");
    trap
}

/// All that is said.
struct Told<'a> {
    state: &'a State,
    trap: Option<Trap>,
    names: &'a Names,
    stack: Option<Stack>,
    dump: Option<Dump>,
}

impl Told<'_> {
    fn text(&self) -> String {
        let trap = |trap: &Trap| match self.dump {
            Some(_) => report::trap_alone(trap, self.state, self.names),
            None => report::trap(trap, self.state, self.names),
        };
        let last = self
            .trap
            .as_ref()
            .map_or("No trap is recorded.\n".into(), trap);
        let used = report::stack(self.state, self.stack);
        let missing = self.dump.as_ref().map_or(String::new(), not_told);
        format!("{used}{last}\n{}{missing}", report::registers(self.state))
    }

    fn json(&self) -> Value {
        let mut value = json::explained(self.state, self.trap.as_ref(), self.names);
        value["stack"] = json::stack(self.state, self.stack);
        value["missing"] = self.dump.as_ref().map(Dump::missing).into();
        if self.dump.is_some() {
            for memory in ["start", "size", "window"] {
                value["state"][memory] = Value::Null;
            }
        }
        value
    }
}

/// Which registers a dump does not have.
fn not_told(dump: &Dump) -> String {
    match dump.missing().as_slice() {
        [] => String::new(),
        missing => format!(
            "\nNot in the dump, and shown as null: {}.\n",
            missing.join(", ")
        ),
    }
}
