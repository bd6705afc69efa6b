//! `bench sheet`: map sheets checked and compared.

use super::run::{self, Halt};
use super::{refused_sheet, say, say_json};
use crate::arguments::{Run, SheetCheck, SheetCommand, SheetCompare};
use crate::capability_text::count;
use crate::proved::sheets::{differing, Record, Which, BAD, SECOND_BAD};
use crate::sheet::{self, letters, Bad, Sheet};
use crate::{file, json, visible, Status};
use std::path::Path;

pub fn obey(command: &SheetCommand) -> Result<Status, String> {
    match command {
        SheetCommand::Check(asked) => checked(asked),
        SheetCommand::Compare(asked) => compared(asked),
    }
}

/// A region as a person reads it.
fn shown(region: &Record) -> String {
    let (start, end) = (region.start, region.end());
    format!("[{start:08x}, {end:08x}) {}", letters(region.rights))
}

fn checked(asked: &SheetCheck) -> Result<Status, String> {
    match sheet::of(&file::read(&asked.sheet)?) {
        Err(bad) => refused_sheet(BAD, &asked.sheet, &bad, asked.json),
        Ok(sheet) => {
            let refused = refused_as_board(&sheet);
            match asked.json {
                true => say_json(&json::sheet(&sheet.regions, refused.as_deref()))?,
                false => say(&good(&asked.sheet, &sheet, refused.as_deref()))?,
            }
            Ok(Status::Ran)
        }
    }
}

/// Why no run takes a sheet as its board, if none does: the machine is asked, without an image. A label need not be a board.
fn refused_as_board(sheet: &Sheet) -> Option<String> {
    run::ready(&Run::default(), &[], Some(sheet))
        .err()
        .map(Halt::said)
}

/// What is said of a good sheet: how many regions, each of them, and that it is no board where it is none.
fn good(path: &Path, sheet: &Sheet, refused: Option<&str>) -> String {
    let regions = count(sheet.regions.len() as u64, "region");
    let mut text = format!("{}: a good sheet, {regions}\n\n", visible::name(path));
    for region in &sheet.regions {
        let bytes = count(region.length.into(), "byte");
        text.push_str(&format!(
            "  {:<16}  {:<27}  {bytes}\n",
            region.name,
            shown(region)
        ));
    }
    match refused {
        Some(refused) => format!("{text}\nNo run takes it as its board: {refused}\n"),
        None => text,
    }
}

fn compared(asked: &SheetCompare) -> Result<Status, String> {
    let (first, second) = (file::read(&asked.first)?, file::read(&asked.second)?);
    let names = match differing(&first, &second) {
        Ok(names) => names,
        Err((which, line)) => {
            let (number, path, bytes) = match which {
                Which::First => (BAD, &asked.first, &first),
                Which::Second => (SECOND_BAD, &asked.second, &second),
            };
            return refused_sheet(number, path, &Bad::of(bytes, line), asked.json);
        }
    };
    // Both are good, so that what each has of a name can be shown.
    let (Ok(first), Ok(second)) = (sheet::of(&first), sheet::of(&second)) else {
        unreachable!("a sheet that was compared is good");
    };
    let pairs = names
        .iter()
        .map(|name| (name.as_str(), find(&first, name), find(&second, name)));
    let pairs: Vec<Pair> = pairs.collect();
    if asked.json {
        say_json(&json::differing(&pairs))?;
    } else {
        say(&difference(asked, &pairs))?;
    }
    Ok(if pairs.is_empty() {
        Status::Ran
    } else {
        Status::Differ
    })
}

/// A name, and what each of two sheets has under it.
pub type Pair<'a> = (&'a str, Option<&'a Record>, Option<&'a Record>);

fn find<'a>(sheet: &'a Sheet, name: &str) -> Option<&'a Record> {
    sheet.regions.iter().find(|region| region.name == name)
}

/// What is said of two good sheets: each name that differs, with what the one and the other has.
fn difference(asked: &SheetCompare, pairs: &[Pair]) -> String {
    let (first, second) = (visible::name(&asked.first), visible::name(&asked.second));
    if pairs.is_empty() {
        return format!("{first} and {second} have the same regions.\n");
    }
    let differ = if pairs.len() == 1 {
        "differs"
    } else {
        "differ"
    };
    let regions = count(pairs.len() as u64, "region");
    let mut text = format!("{regions} {differ} between {first} and {second}:\n\n");
    for (name, one, other) in pairs {
        let [one, other] = [one, other].map(|region| region.map_or("none".into(), shown));
        text.push_str(&format!("  {name:<16}  {one:<27}  {other}\n"));
    }
    text
}
