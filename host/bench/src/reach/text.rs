//! The same in words, for a person.

use super::{Account, Held, Holder, Judged, Row, DEEDS, HOLES};
use crate::capability_text::{count, grouped, region, rights, type_words};
use crate::proved::bounds;
use crate::sheet::letters;
use std::array;

/// Name, place, the sheet's rights, the three deeds, and whether it is isolated.
const COLUMNS: usize = 7;

/// What stands below the table: what each word means, and which law says it.
pub const LAWS: [&str; 4] = [
    "Never written: no step, run or sweep from here changes a byte of it, however many are made (law reach-claim).",
    "Never read: nothing held outside may load there, so nothing that a run does or leaves elsewhere tells what stands there (law outside-secrecy-claim).",
    "Isolated: neither written nor read. What stands inside does not count, for nothing outside can load it (law outside-isolation-claim).",
    "Never executed: nothing held has that right there, and after any run nothing has (law nowhere-stays); what is never read is not fetched either.",
];

/// The account: what was asked for first, then the table, the holders and the laws.
pub fn told(account: &Account) -> String {
    let mut text = format!("{}\n", head(account));
    for judged in account.judged() {
        text.push_str(&format!("{}\n", verdict(&judged)));
    }
    text.push_str(&format!("\n{}", table(account.rows)));
    for line in account.rows.iter().filter_map(rounded) {
        text.push_str(&format!("  {line}\n"));
    }
    text.push('\n');
    for holder in account.holders() {
        text.push_str(&format!("  {:<9}  {}\n", holder.name, held_words(holder)));
    }
    if !account.holders().is_empty() {
        text.push('\n');
    }
    text + &LAWS.join("\n") + "\n"
}

/// Where the run was looked at.
pub fn head(account: &Account) -> String {
    let at = account.at;
    match account.steps {
        Some(steps) => format!(
            "PCC is at {at:08x} after {}. Of every run from here on:",
            count(steps, "step")
        ),
        None => format!("Before the first step, at {at:08x}. Of every run from here on:"),
    }
}

/// One thing that was asked for: that it holds, or the first place where it does not, and how many more there are.
pub fn verdict(judged: &Judged) -> String {
    let done = DEEDS[judged.deed].done;
    let Some(row) = judged.broken.first() else {
        return match judged.region {
            HOLES => format!("no hole is ever {done}."),
            name => format!("{name} is never {done}."),
        };
    };
    let place = match &row.region {
        Some((name, _)) => name.clone(),
        None => format!("the hole [{:08x}, {:08x})", row.start, row.end()),
    };
    let more = match judged.broken.len() as u64 - 1 {
        0 => String::new(),
        more => format!("; so may {} more", count(more, "hole")),
    };
    let by = with_bounds(&row.held[judged.deed]);
    format!("{place} may be {done}, by {by}{more}.")
}

/// Holders, each with its bounds.
fn with_bounds(held: &Held) -> String {
    let named = held.first.iter().map(|holder| {
        let unsound = if holder.unsound { ", unsound" } else { "" };
        format!("{} {}{unsound}", holder.name, region(bounds(holder.value)))
    });
    named.collect::<Vec<String>>().join(", ") + &more(held)
}

fn more(held: &Held) -> String {
    match held.more() {
        0 => String::new(),
        more => format!(" and {} more", grouped(more)),
    }
}

/// The holders of a cell of the table by name alone.
pub fn cell(held: &Held) -> String {
    if held.is_never() {
        return "never".into();
    }
    let names: Vec<&str> = held.first.iter().map(|holder| &holder.name[..]).collect();
    names.join(" ") + &more(held)
}

/// What a holder has.
pub fn held_words(holder: &Holder) -> String {
    let (bounds, metadata) = (bounds(holder.value), holder.value.metadata);
    let rights = rights(metadata).join(" ");
    let unsound = match holder.unsound {
        true => "; unsound, so that it counts for every stretch",
        false => "",
    };
    format!(
        "{} {rights}, {}{unsound}",
        region(bounds),
        type_words(metadata)
    )
}

/// What a row is called where it is neither written nor read.
pub fn isolated(row: &Row) -> &'static str {
    match row.is_isolated() {
        true => "isolated",
        false => "",
    }
}

/// Of which bytes a row tells what is read, where these are more than itself.
pub fn rounded(row: &Row) -> Option<String> {
    let (low, high) = row.rounded()?;
    let (name, start, end) = (row.name(), row.start, row.end());
    Some(format!(
        "{name} [{start:08x}, {end:08x}): what is read is told of its whole granules, [{low:08x}, {high:08x})."
    ))
}

/// A line for each row, with columns as wide as they need to be.
fn table(rows: &[Row]) -> String {
    let head = ["region", "where", "", "written", "read", "executed", ""].map(String::from);
    let body = rows.iter().map(|row| {
        let [written, read, executed] = [0, 1, 2].map(|deed| cell(&row.held[deed]));
        let rights = row
            .region
            .as_ref()
            .map_or("", |(_, rights)| letters(*rights));
        let place = format!("[{:08x}, {:08x})", row.start, row.end());
        let name = row.name().to_string();
        let last = isolated(row).into();
        [name, place, rights.into(), written, read, executed, last]
    });
    let lines: Vec<[String; COLUMNS]> = [head].into_iter().chain(body).collect();
    let wide = |column: usize| lines.iter().map(|line| line[column].len()).max();
    let widths: [usize; COLUMNS] = array::from_fn(|column| wide(column).unwrap_or(0));
    let line = |line: &[String; COLUMNS]| {
        let cells = line.iter().zip(widths);
        let cells = cells.map(|(cell, width)| format!("  {cell:<width$}"));
        format!("{}\n", cells.collect::<String>().trim_end())
    };
    lines.iter().map(line).collect()
}
