//! The same as a page: a matrix of rows and deeds, with the picture of memory beside it.

use super::text::{cell, head, held_words, isolated, rounded, verdict, LAWS};
use super::{Account, Row, DEEDS};
use crate::map::{Kind, Map, Shape};
use crate::page::{about, filled, Subject};
use crate::sheet::letters;
use serde_json::{json, Value};

/// The page.
pub fn of(subject: &Subject, account: &Account) -> Result<String, String> {
    let lines: Vec<String> = account.judged().map(|judged| verdict(&judged)).collect();
    let kind = if account.holds() { "quiet" } else { "bad" };
    let holders = account.holders().into_iter();
    let holders = holders.map(|holder| json!({ "name": holder.name, "held": held_words(holder) }));
    let mut value = about(subject);
    value["reach"] = true.into();
    value["verdict"] = json!({ "kind": kind, "head": head(account), "lines": lines });
    value["map"] = picture(account.rows).narrow();
    value["deeds"] = DEEDS.iter().map(|deed| deed.done).collect();
    // High addresses are at the top, as in the picture.
    value["rows"] = account.rows.iter().rev().map(row).collect();
    value["rounded"] = account.rows.iter().rev().filter_map(rounded).collect();
    value["holders"] = holders.collect();
    value["laws"] = LAWS[..].into();
    filled("reach.html", &value)
}

fn place(row: &Row) -> (u64, u64) {
    (row.start.into(), row.end())
}

fn row(row: &Row) -> Value {
    let cells = row.held.iter().map(|held| {
        let kind = if held.is_never() { "never" } else { "held" };
        json!({ "kind": kind, "text": cell(held) })
    });
    let (low, high) = place(row);
    json!({
        "name": row.name(),
        "place": format!("[{low:08x}, {high:08x})"),
        "rights": row.region.as_ref().map_or("", |(_, rights)| letters(*rights)),
        "cells": cells.collect::<Vec<Value>>(),
        "isolated": isolated(row),
    })
}

/// The board's regions, and beside them where each of the deeds may be done.
fn picture(rows: &[Row]) -> Map {
    let regions = rows.iter().filter(|row| row.region.is_some());
    let board = regions.map(|row| {
        let more = if row.is_isolated() { ", isolated" } else { "" };
        Shape::new(place(row), row.name(), more, "board")
    });
    let reached = |deed: usize| {
        let held = rows.iter().filter(move |row| !row.held[deed].is_never());
        let shape = |row: &Row| {
            let by = format!(", by {}", cell(&row.held[deed]));
            Shape::new(place(row), row.name(), &by, ["amiss", "part", "used"][deed])
        };
        held.map(shape).collect()
    };
    let (low, high) = (
        rows.first().map_or(0, |row| place(row).0),
        rows.last().map_or(0, |row| place(row).1),
    );
    Map {
        low,
        high,
        board: board.collect(),
        image: reached(0),
        stack: reached(1),
        trap: reached(2),
        row: Map::bytes_a_line(low, high),
        kind: Kind::Reach,
        ..Map::default()
    }
}
