//! The same results as JSON. Numbers are numbers; bounds are low and high.

use crate::account::Account;
use crate::capability_text::{revocation_word, rights, type_words};
use crate::command::fit::{Beside, Chosen};
use crate::command::sheet::Pair;
use crate::drive::{End, Outcome, Refused, Swept};
use crate::edition;
use crate::memory_rows::rows;
use crate::names::Names;
use crate::payload::Outside;
use crate::probe;
use crate::proved::sheets::{Record, NEITHER};
use crate::proved::{bounds, instruction, word_length, Refusal, Region, UNSOUND};
use crate::sheet::{letters, Bad};
use crate::stack::{Stack, Used};
use crate::sweep::{self, Went};
use crate::trap::{Action, Asked, Authority, Trap};
use lent::{
    place_name, Capability, Range, State, CAPABILITIES, COMPARE, MCAUSE, MSHWM, MSHWMB, MSTATUS,
    MTVAL, TIME,
};
use serde_json::{json, Value};
use std::path::Path;

/// All that is said of a run.
pub fn account(account: &Account) -> Value {
    let Account { state, outcome, .. } = account;
    let mut value = run(state, outcome, account.trap.as_ref(), account.names);
    value["swept"] = account.swept.then(|| sweeps(outcome.swept)).into();
    value["fit"] = images(account.fits);
    value["stack"] = stack(state, account.stack);
    value["watch"] = watch(&account.judged.watched);
    account.judged.put(outcome, &mut value);
    value
}

/// A run that was made.
fn run(state: &State, outcome: &Outcome, trap: Option<&Trap>, names: &Names) -> Value {
    let end = match outcome.end {
        End::Steps => "steps",
        End::Still => "still",
        End::Waits(_) => "waits",
        End::Unhandled => "unhandled",
        End::Astray => "astray",
        End::Trap(_) => "trap",
        End::Break => "break",
        End::Exit => "exit",
        End::Stuck(_) => "stuck",
        End::Stopped => "stopped",
    };
    json!({
        "retired": outcome.counts.retired,
        "trapped": outcome.counts.trapped,
        "end": end,
        "trap": trap.map(|trap| self::trap(trap, state, names)),
        "state": self::state(state),
    })
}

/// The watched ranges, and how many stores touched each.
fn watch(ranges: &[Range]) -> Value {
    let range = |range: &Range| json!({ "start": range.start, "length": range.length, "stores": range.count });
    ranges.iter().map(range).collect()
}

/// The sweeps of a run.
fn sweeps(swept: Swept) -> Value {
    json!({ "passes": swept.passes, "tags": swept.tags })
}

/// A pass of the sweeper, with each tag that went and the named stretches that its low bound lies in.
pub fn swept(state: &State, went: &[Went], names: &Names) -> Value {
    let went = went.iter().map(|went| {
        let low = bounds(went.value).low;
        json!({
            "granule": went.granule,
            "at": went.address,
            "held": capability(went.value),
            "names": places(low, names),
        })
    });
    json!({
        "granules": sweep::granules(state),
        "went": went.collect::<Vec<Value>>(),
        "kept": sweep::tags(state),
        "state": self::state(state),
    })
}

/// A saved state.
pub fn explained(state: &State, trap: Option<&Trap>, names: &Names) -> Value {
    json!({
        "trap": trap.map(|trap| self::trap(trap, state, names)),
        "state": self::state(state),
    })
}

pub fn refused(number: u64, reason: &str) -> Value {
    json!({ "refused": { "number": number, "reason": reason } })
}

/// A refused state; for an unsound one also the registers, each with its bounds.
pub fn refused_state(refusal: Refusal, state: &State) -> Value {
    let mut value = refused(refusal.0, refusal.reason());
    if refusal != UNSOUND {
        return value;
    }
    let places = probe::unsound(state).into_iter();
    let registers = places.map(|place| {
        let bounds = region(bounds(state.capability(place)));
        json!({ "name": place_name(place), "bounds": bounds })
    });
    value["refused"]["registers"] = registers.collect();
    value
}

/// A handover that is not reached, and why; document 01 has no number for it.
pub fn not_reached(reason: &str) -> Value {
    json!({ "refused": { "number": null, "reason": reason } })
}

/// A run that was refused on its way: the same, with the steps that were made.
pub fn refused_on_the_way(refused: Refused, state: &State) -> Value {
    let mut value = refused_state(refused.refusal, state);
    value["refused"]["retired"] = refused.made.retired.into();
    value["refused"]["trapped"] = refused.made.trapped.into();
    value
}

/// A bad sheet.
pub fn refused_sheet(number: u64, path: &Path, bad: &Bad) -> Value {
    let (file, line, reason) = (path.display().to_string(), bad.line, &bad.reason);
    json!({ "refused": { "number": number, "file": file, "line": line, "reason": reason } })
}

/// A good sheet, and why no run takes it as its board, if none does.
pub fn sheet(regions: &[Record], refused: Option<&str>) -> Value {
    let regions: Vec<Value> = regions.iter().map(record).collect();
    json!({ "regions": regions, "refused_as_board": refused })
}

/// The names in which two sheets differ.
pub fn differing(pairs: &[Pair]) -> Value {
    let pair = |(name, first, second): &Pair| {
        let [first, second] = [first, second].map(|region| region.map(record));
        json!({ "name": name, "first": first, "second": second })
    };
    json!({ "differ": pairs.iter().map(pair).collect::<Vec<Value>>() })
}

/// How deep the stack went: null where no mark was set; `used` and `size` are null where its end is not known.
pub fn stack(state: &State, stack: Option<Stack>) -> Value {
    Used::of(state, stack).map_or(Value::Null, |used| {
        let (bytes, size) = used.bytes.unzip();
        json!({
            "mark": used.mark,
            "base": used.base,
            "left": used.left,
            "used": bytes,
            "size": size,
        })
    })
}

/// An image that does not fit the board that it was to run on.
pub fn misfit(image: &Beside) -> Value {
    let reason = "the image does not fit the board";
    let image = beside(image);
    json!({ "refused": { "number": NEITHER, "reason": reason, "image": image } })
}

/// A byte of an image outside the board that it was to run on.
pub fn refused_outside(outside: &Outside) -> Value {
    json!({ "refused": self::outside(outside) })
}

/// What is loaded outside a sheet: the part, the first such byte, whose sheet it is, and the nearest region.
fn outside(outside: &Outside) -> Value {
    json!({
        "reason": outside.reason(),
        "part": outside.part,
        "address": outside.address,
        "sheet": outside.whose.word(),
        "nearest": outside.nearest.as_ref().map(record),
    })
}

/// Images beside a board.
pub fn images(images: &[Beside]) -> Value {
    images.iter().map(beside).collect()
}

/// Which image fits, and each image beside the board.
pub fn fit(chosen: Option<&Chosen>, images: &[Beside]) -> Value {
    json!({
        "fits": chosen.map(|chosen| chosen.number),
        "payload": chosen.map(|chosen| json!({ "start": chosen.payload, "length": chosen.length })),
        "images": self::images(images),
    })
}

/// An image beside a board: its regions, each with the board's that holds it or why none does.
fn beside(image: &Beside) -> Value {
    let regions = image.regions.iter().map(|placed| {
        let mut value = record(placed.region);
        value["place"] = placed
            .place
            .as_ref()
            .ok()
            .map(|place| &place.name[..])
            .into();
        value["reason"] = placed.place.as_ref().err().map(String::as_str).into();
        value
    });
    json!({
        "file": image.path.display().to_string(),
        "fits": image.fits,
        "regions": regions.collect::<Vec<Value>>(),
        "outside": image.outside.as_ref().map(outside),
        "broken": image.broken,
        "notes": image.notes,
    })
}

fn record(region: &Record) -> Value {
    json!({
        "name": region.name,
        "start": region.start,
        "length": region.length,
        "rights": letters(region.rights),
    })
}

pub fn cut(region: Region, exact: bool) -> Value {
    json!({ "low": region.low, "high": region.high, "exact": exact })
}

pub fn capability(value: Capability) -> Value {
    json!({
        "address": value.address,
        "metadata": value.metadata,
        "tag": value.tag,
        "bounds": region(bounds(value)),
        "rights": rights(value.metadata),
        "type": type_words(value.metadata),
    })
}

fn region(region: Region) -> Value {
    json!({ "low": region.low, "high": region.high })
}

fn state(state: &State) -> Value {
    let registers = (0..CAPABILITIES).map(|place| {
        let mut value = capability(state.capability(place));
        value["name"] = place_name(place).into();
        value
    });
    json!({
        "registers": registers.collect::<Vec<Value>>(),
        "mstatus": state.register(MSTATUS),
        "mcause": state.register(MCAUSE),
        "mtval": state.register(MTVAL),
        "mshwm": state.register(MSHWM),
        "mshwmb": state.register(MSHWMB),
        "time": state.long(TIME),
        "compare": state.long(COMPARE),
        "start": state.start,
        "size": state.mem.len(),
        "window": { "start": state.window.start, "size": state.window.size },
        "edition": edition::name(state.edition),
    })
}

fn trap(trap: &Trap, state: &State, names: &Names) -> Value {
    json!({
        "gone_on": trap.gone_on,
        "at": trap.pcc.address,
        "names": places(trap.pcc.address, names),
        "word": trap.word,
        "length": trap.word.map(word_length),
        "instruction": trap.word.map(instruction),
        "cause": trap.cause,
        "mcause": trap.mcause,
        "mtval": trap.mtval,
        "action": (trap.action != Action::Other).then(|| trap.action.noun()),
        "asked": trap.asked.map(|bytes| asked(bytes, state, names)),
        "authority": trap.authority.as_ref().map(authority),
    })
}

fn asked(asked: Asked, state: &State, names: &Names) -> Value {
    let rows = rows(asked, state);
    let memory = rows
        .iter()
        .map(|row| json!({ "address": row.address, "bytes": row.bytes, "tags": row.tags }));
    json!({
        "address": asked.address,
        "size": asked.size,
        "names": places(asked.address, names),
        "memory": memory.collect::<Vec<Value>>(),
    })
}

/// The named stretches that hold an address, and how far into each that is.
fn places(address: u32, names: &Names) -> Vec<Value> {
    let places = names.at(address);
    places
        .map(|(name, offset)| json!({ "name": name, "offset": offset }))
        .collect()
}

fn authority(authority: &Authority) -> Value {
    let mut value = capability(authority.value);
    value["name"] = authority.name.clone().into();
    value["revocation"] = authority.revocation.map(revocation_word).into();
    value
}
