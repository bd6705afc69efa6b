//! The rows of a shelf as text, CSV, JSON and a page, one row after the other.

use super::row::{Kept, Kind, Label, Ran, Row};
use super::{page_name, Results, Shelf};
use crate::arguments::{MapStores, Terms};
use crate::capability_text::{count, grouped};
use crate::page::{filled, Source};
use crate::verdict::Verdict;
use crate::visible::{self, quoted, shortened};
use crate::Status;
use serde_json::{json, Value};
use std::ffi::OsStr;
use std::io::{Error, Write};

/// How many images are what. Each is counted once.
#[derive(Clone, Copy, Default, PartialEq, Eq, Debug)]
pub struct Counted {
    pub images: u64,
    pub good: u64,
    pub misfits: u64,
    pub trapped: u64,
    /// A store broke the map, what was expected is not there, it has not ended.
    pub breaks: u64,
    pub wrong: u64,
    pub running: u64,
    /// Judged or run they could not be.
    pub bad: u64,
    pub unlabelled: u64,
    /// A handover was asked for; runs from there could do what none may, or it was not reached.
    pub judged: u64,
    pub could: u64,
    pub missed: u64,
    /// All that is amiss is that it still runs.
    runs_on: u64,
    /// A signal came before them.
    pub left: u64,
}

impl Counted {
    pub fn of(results: &Results) -> Counted {
        let mut counted = Counted {
            left: results.left(),
            ..Counted::default()
        };
        for row in results.rows() {
            counted.images += 1;
            counted.judged += u64::from(row.kept.is_some());
            counted.runs_on += u64::from(row.runs_on());
            *counted.of_kind(row.kind()) += 1;
        }
        counted
    }

    /// How many images are of a kind; all kinds together are all images.
    fn of_kind(&mut self, kind: Kind) -> &mut u64 {
        match kind {
            Kind::Misfit => &mut self.misfits,
            Kind::Bad => &mut self.bad,
            Kind::Breaks => &mut self.breaks,
            Kind::Trapped => &mut self.trapped,
            Kind::Wrong => &mut self.wrong,
            Kind::Could => &mut self.could,
            Kind::Missed => &mut self.missed,
            Kind::Running => &mut self.running,
            Kind::Unlabelled => &mut self.unlabelled,
            Kind::Good => &mut self.good,
        }
    }

    /// Whether every image fits and its run is good.
    pub fn all_good(&self) -> bool {
        self.good == self.images
    }

    /// The status of the shelf: its own where all that is amiss is that images still run.
    pub fn status(&self) -> Status {
        match self.good + self.runs_on == self.images {
            _ if self.left > 0 => Status::Stopped,
            _ if self.all_good() => Status::Ran,
            true => Status::Running,
            false => Status::NoFit,
        }
    }

    /// Whether all of them are good, in a word and in a sentence.
    fn verdict(&self) -> (&'static str, &'static str) {
        match (self.status(), self.judged) {
            (Status::Ran, 0) => ("quiet", "Every image fits the board and is good."),
            (Status::Ran, _) => (
                "quiet",
                "Every image fits the board, is good and passes at the handover.",
            ),
            (Status::Stopped, _) => (
                "running",
                "A signal stopped the shelf: not every image is judged.",
            ),
            (Status::Running, _) => (
                "running",
                "Every image fits the board, and some have not come to their end.",
            ),
            (_, 0) => ("bad", "Not every image fits the board and is good."),
            _ => (
                "bad",
                "Not every image fits the board, is good and passes at the handover.",
            ),
        }
    }

    /// What is wanted of an image.
    fn wanted(&self) -> &'static str {
        match self.judged {
            0 => "fit and are good",
            _ => "fit, are good and pass at the handover",
        }
    }

    fn said(&self) -> String {
        let parts = [
            (self.misfits, "do not fit"),
            (self.breaks, "break the map"),
            (self.trapped, "trapped"),
            (self.wrong, "did not leave what was expected"),
            (self.running, "have not come to their end"),
            (self.bad, "could not be run"),
            (self.unlabelled, "have no label to be judged by"),
            (self.could, "could do what they never may"),
            (self.missed, "do not come to the handover"),
            (self.left, "more are not judged, since a signal came"),
        ];
        let (images, good) = (count(self.images, "image"), grouped(self.good));
        let mut text = format!("{images}: {good} {}", self.wanted());
        for (number, what) in parts.iter().filter(|(number, _)| *number > 0) {
            text.push_str(&format!("; {} {what}", grouped(*number)));
        }
        text + "."
    }
}

/// The most letters of a name that the table makes room for.
const MOST_LETTERS: usize = 40;
/// The most regions that are named in a cell.
const MOST_NAMES: usize = 3;
/// What stands above the cells of what may be written.
const MAY_WRITE: &str = "may write";

fn label(row: &Row) -> &'static str {
    match row.label {
        Label::Fits => "fits",
        Label::Misfit => "does not fit",
        Label::None => "no label",
        Label::Bad => "bad",
    }
}

/// How the run went, or what is wrong with it.
fn run(row: &Row) -> &'static str {
    match (row.run, row.verdict) {
        (_, Some(Verdict::Breaks)) => "breaks",
        (_, Some(Verdict::Wrong)) => "wrong",
        (Ran::Ended, _) => "ended",
        (Ran::Running, _) => "running",
        (Ran::Trapped, _) => "trapped",
        (Ran::No, _) => "not run",
    }
}

fn stack(row: &Row) -> String {
    match (row.stack_used, row.stack_size) {
        (Some(used), Some(size)) => format!("{} of {}", grouped(used), grouped(size)),
        _ => String::new(),
    }
}

/// What any run may write: the first names, and how many more there are.
fn may_write(row: &Row) -> String {
    let names = row.may_write.as_deref();
    let names: Vec<&str> = names.unwrap_or_default().split_whitespace().collect();
    let first = names[..names.len().min(MOST_NAMES)].join(" ");
    match (row.may_write.is_some(), names.len()) {
        (false, _) => String::new(),
        (true, 0) => "nothing".into(),
        (true, all) if all > MOST_NAMES => format!("{first} and {} more", all - MOST_NAMES),
        _ => first,
    }
}

/// Why, and of a trap where; else what its header says.
fn why(row: &Row) -> String {
    match (row.at, &row.note) {
        (Some(at), _) => format!("at {at:08x}: {}", row.why),
        (None, Some(note)) if row.why.is_empty() => note.clone(),
        (None, _) => row.why.clone(),
    }
}

/// The table for people.
pub fn text(out: &mut impl Write, results: &Results, terms: &Terms) -> Result<(), Error> {
    let letters = results.rows().map(|row| quoted(&row.file).chars().count());
    let width = letters.max().unwrap_or(0).clamp(5, MOST_LETTERS);
    let counted = Counted::of(results);
    // A column of its own where a handover was asked for.
    let cells = results.rows().map(|row| may_write(&row).len());
    let room = cells.max().unwrap_or(0).max(MAY_WRITE.len());
    let column = |cell: &str| match counted.judged {
        0 => String::new(),
        _ => format!("{cell:<room$}  "),
    };
    writeln!(
        out,
        "{:<width$}  label         run      {:>14}  {:>16}  {}why",
        "image",
        "steps",
        "stack",
        column(MAY_WRITE)
    )?;
    for row in results.rows() {
        let (file, steps) = (
            quoted(&row.file),
            row.retired.map_or(String::new(), grouped),
        );
        let line = format!(
            "{file:<width$}  {:<12}  {:<7}  {steps:>14}  {:>16}  {}{}",
            label(&row),
            run(&row),
            stack(&row),
            column(&may_write(&row)),
            visible::said(&why(&row).replace('\n', "\\n")),
        );
        writeln!(out, "{}", line.trim_end())?;
    }
    writeln!(out, "\n{}", counted.said())?;
    match unjudged(terms) {
        Some(said) => writeln!(out, "{said}"),
        None => Ok(()),
    }
}

/// What is said where no store was judged.
fn unjudged(terms: &Terms) -> Option<&'static str> {
    let off = terms.map_stores == MapStores::Off;
    off.then_some("Stores were not judged by the map (--map-stores off).")
}

/// The rows as CSV, under the names that JSON has. It has no escapes of its own, so that what is not seen is written out.
pub fn csv(out: &mut impl Write, results: &Results) -> Result<(), Error> {
    let mut writer = csv::Writer::from_writer(out);
    for row in results.rows() {
        let row = Row {
            file: visible::visible(&row.file),
            why: visible::visible(&row.why),
            note: row.note.as_deref().map(visible::visible),
            ..row
        };
        writer.serialize(row).map_err(Error::other)?;
    }
    writer.flush()
}

/// The rows as JSON, and how many are what.
pub fn json(out: &mut impl Write, results: &Results) -> Result<(), Error> {
    write!(out, "{{\n  \"rows\": [")?;
    for (place, row) in results.rows().enumerate() {
        let comma = if place == 0 { "" } else { "," };
        let row = serde_json::to_string(&row)?;
        write!(out, "{comma}\n    {}", visible::json(&row))?;
    }
    let counted = Counted::of(results);
    let counts = json!({
        "images": counted.images, "good": counted.good, "misfits": counted.misfits, "trapped": counted.trapped,
        "breaks": counted.breaks, "wrong": counted.wrong, "running": counted.running,
        "bad": counted.bad, "unlabelled": counted.unlabelled, "could": counted.could, "missed": counted.missed,
        "left": counted.left,
    });
    writeln!(out, "\n  ],\n  \"counts\": {counts}\n}}")
}

fn fill(out: &mut impl Write, template: &str, value: &Value) -> Result<(), Error> {
    let text = filled(template, value).map_err(Error::other)?;
    out.write_all(text.as_bytes())
}

/// A row of that page.
fn page_row(name: &OsStr, row: &Row, judged: bool) -> Value {
    let kind = match (row.label, row.verdict) {
        (_, Some(Verdict::Trapped | Verdict::Breaks | Verdict::Wrong)) => "trapped",
        (Label::Misfit, _) => "not-fit",
        (_, None) => "bad",
        _ if matches!(row.kept, Some(Kept::Could | Kept::Missed)) => "bad",
        (_, Some(Verdict::Running)) => "running",
        _ => "quiet",
    };
    let steps = row.retired.map_or(String::new(), grouped);
    json!({
        "kind": kind, "page": page_name(name), "file": shortened(&row.file), "label": label(row),
        "end": run(row), "steps": steps, "stack": stack(row), "judged": judged, "may_write": may_write(row), "why": why(row),
    })
}

/// The page of all, with a link to each image's own.
pub fn page(out: &mut impl Write, results: &Results, shelf: &Shelf) -> Result<(), Error> {
    let counted = Counted::of(results);
    let judged = counted.judged > 0;
    let (kind, said) = counted.verdict();
    let folder = shortened(&visible::plain_name(&shelf.folder));
    let board = shortened(&visible::plain_name(&shelf.board_name));
    let title = format!("{folder} on {board}");
    let head = json!({
        "title": title, "kind": kind, "head": said, "summary": counted.said(),
        "judged": judged.then_some(MAY_WRITE), "unjudged": unjudged(&shelf.terms),
    });
    fill(out, "shelf_head.html", &head)?;
    for (name, row) in results.named() {
        let value = page_row(name, &row, judged);
        fill(out, "shelf_row.html", &value)?;
    }
    let own = shelf
        .with
        .iter()
        .map(|(path, bytes)| Source::of(path, bytes));
    let board = Source::of(&shelf.board_name, &shelf.board.bytes);
    let files: Vec<_> = own.chain([board]).map(|source| source.value()).collect();
    let foot = json!({ "files": files, "version": env!("CARGO_PKG_VERSION") });
    fill(out, "shelf_foot.html", &foot)
}
