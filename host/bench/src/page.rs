//! What a run or an image comes to, as a page: one file that loads nothing and runs nothing. The page is made of
//! templates (src/page), and whatever is put into them is escaped in one place, `visible::html`.

use crate::account::Account;
use crate::capability_text::{count, grouped};
use crate::changes::{self, Stretch};
use crate::command::fit::Beside;
use crate::console::Said;
use crate::drive::{End, Outcome};
use crate::image::Segment;
use crate::map::{Kind, Map, Shape, Strip};
use crate::names::{Name, Names};
use crate::proved::sheets::Record;
use crate::proved::word_length;
use crate::report::{self, Held};
use crate::sheet::{letters, Sheet};
use crate::stack::Used;
use crate::trap::Trap;
use crate::verdict::Verdict;
use crate::visible::{self, shortened};
use lent::{place_name, State, CAPABILITIES};
use serde_json::{json, Value};
use sha2::{Digest, Sha256};
use std::path::Path;
use std::sync::OnceLock;
use tera::{Context, Tera};

/// The last steps that a page shows.
pub const LAST: u64 = 24;
/// The most parts of an image that are drawn: as many as a sheet has regions.
const MOST_PARTS: usize = 64;

/// The most bytes of what a program said.
const MOST_SAID: usize = 1 << 16;
/// The most names that are told of a trap's places.
const MOST_NAMES: usize = 16;
/// How many times the board's size the picture goes past the board.
const FAR: u64 = 4;

const TEMPLATES: [(&str, &str); 11] = [
    ("head.html", include_str!("page/head.html")),
    ("foot.html", include_str!("page/foot.html")),
    ("page.html", include_str!("page/page.html")),
    ("page.css", include_str!("page/page.css")),
    ("map.html", include_str!("page/map.html")),
    ("strip.html", include_str!("page/strip.html")),
    ("proved.html", include_str!("page/proved.html")),
    ("reach.html", include_str!("page/reach.html")),
    ("shelf_head.html", include_str!("page/shelf_head.html")),
    ("shelf_row.html", include_str!("page/shelf_row.html")),
    ("shelf_foot.html", include_str!("page/shelf_foot.html")),
];

/// The text of a template with what it names.
pub fn filled(template: &str, value: &Value) -> Result<String, String> {
    static ENGINE: OnceLock<Result<Tera, String>> = OnceLock::new();
    let made = || {
        let mut engine = Tera::default();
        engine.set_escape_fn(visible::html);
        let added = engine.add_raw_templates(TEMPLATES);
        added.map(|()| engine).map_err(|error| format!("{error:?}"))
    };
    let engine = ENGINE.get_or_init(made).as_ref().map_err(String::clone)?;
    let context = Context::from_value(value.clone()).map_err(|error| format!("{error:?}"))?;
    let text = engine.render(template, &context);
    text.map_err(|error| format!("the page's template {template}: {error:?}"))
}

/// A file that an answer is about.
pub struct Source {
    name: String,
    bytes: u64,
    sha256: String,
}

impl Source {
    pub fn of(path: &Path, bytes: &[u8]) -> Source {
        Source {
            name: visible::plain_name(path),
            bytes: bytes.len() as u64,
            sha256: digest(bytes),
        }
    }

    /// Its name, how long it is and its sum.
    pub fn value(&self) -> Value {
        let name = shortened(&self.name);
        json!({ "name": name, "bytes": grouped(self.bytes), "sha256": self.sha256 })
    }
}

/// The SHA-256 sum of bytes, in digits.
pub fn digest(bytes: &[u8]) -> String {
    let sum = Sha256::digest(bytes);
    sum.iter().map(|byte| format!("{byte:02x}")).collect()
}

/// What a page is about: files, the board's name and sheet, where the image's parts lie, and each label beside the board.
pub struct Subject<'a> {
    pub files: Vec<Source>,
    pub board: Option<(Source, &'a Sheet)>,
    pub segments: &'a [Segment],
    pub fits: &'a [Beside<'a>],
    /// What headers say of another core.
    pub notes: &'a [String],
}

/// What came of it.
pub enum Answer<'a> {
    Ran {
        account: &'a Account<'a>,
        /// The state before the first step.
        before: &'a State,
        /// The lines of the last steps.
        last: Vec<String>,
    },
    Misfit,
    /// It loads a byte outside the board, and which.
    Outside(String),
    /// It could not be run, and why.
    Bad(String),
}

/// The page.
pub fn of(subject: &Subject, answer: &Answer) -> Result<String, String> {
    let mut value = about(subject);
    value["verdict"] = verdict(answer);
    value["map"] = map(subject, answer);
    value["ran"] = matches!(answer, Answer::Ran { .. }).into();
    if let Answer::Ran {
        account,
        before,
        last,
    } = answer
    {
        value["swept"] = account.swept.into();
        value["watched"] = (!account.judged.watched.is_empty()).into();
        value["stores"] = account.judged.map.is_some().into();
        value["console"] = account.judged.console.as_ref().map(said).into();
        value["trap"] = account
            .trap
            .as_ref()
            .map(|trap| trapped(trap, account, subject))
            .into();
        value["last"] = steps(last, account);
        value["changes"] = changed(before, account.state, subject);
        value["registers"] = registers(account.state);
        value["control"] = report::control_lines(account.state).into();
    }
    filled("page.html", &value)
}

/// What a program said, a line each.
fn said(said: &Said) -> Vec<String> {
    said.text(MOST_SAID).lines().map(str::to_string).collect()
}

/// What every page has: what it is about, and nothing yet of what came of it.
pub fn about(subject: &Subject) -> Value {
    let names: Vec<String> = subject
        .files
        .iter()
        .map(|file| shortened(&file.name))
        .collect();
    let board = subject.board.as_ref().map(|(board, _)| board);
    let on = board.map_or(String::new(), |board| {
        format!(" on {}", shortened(&board.name))
    });
    json!({
        "title": format!("{}{on}", names.join(", ")),
        "version": env!("CARGO_PKG_VERSION"),
        "notes": subject.notes,
        "files": subject.files.iter().chain(board).map(Source::value).collect::<Vec<Value>>(),
        "board": subject.board.is_some(),
        "fits": subject.fits.iter().map(fit).collect::<Vec<Value>>(),
        "ran": false, "reach": false, "swept": false, "watched": false, "stores": false, "console": null,
        "trap": null, "last": null, "changes": null, "registers": null, "control": null,
    })
}

/// The answer in a sentence, and what belongs to it.
fn verdict(answer: &Answer) -> Value {
    let (kind, head, lines) = match answer {
        Answer::Misfit => {
            let head = "It does not fit the board, and was not run.".to_string();
            ("misfit", head, Vec::new())
        }
        Answer::Outside(reason) => {
            let head = "It does not fit the board, and was not run.".to_string();
            ("misfit", head, vec![reason.clone()])
        }
        Answer::Bad(reason) => ("bad", "It could not be run.".into(), vec![reason.clone()]),
        Answer::Ran { account, .. } => ran(account),
    };
    json!({ "kind": kind, "head": head, "lines": lines })
}

fn ran(account: &Account) -> (&'static str, String, Vec<String>) {
    let Account { state, outcome, .. } = account;
    let (kind, head) = headed(account);
    let mut text = report::counts(state, outcome);
    text.push_str(&report::stack(state, account.stack));
    text.push_str(&report::watch(&account.judged.watched));
    if account.swept {
        text.push_str(&report::sweeps(outcome.swept));
    }
    text.push_str(&report::judged(account));
    (kind, head, text.lines().map(str::to_string).collect())
}

/// The verdict in a sentence, and its colour.
fn headed(account: &Account) -> (&'static str, String) {
    let (verdict, end) = (account.verdict(), &account.outcome.end);
    let calm = match verdict {
        Verdict::Running | Verdict::Stopped => "running",
        _ => "quiet",
    };
    match (verdict, &account.trap, end) {
        (Verdict::Stopped, ..) => (calm, "A signal stopped it, and it is not judged.".into()),
        (Verdict::Breaks, ..) => ("trapped", "It breaks the map.".into()),
        (Verdict::Trapped, Some(trap), End::Trap(_)) => (
            "trapped",
            format!("It was stopped by a trap: {}.", trap.cause),
        ),
        (Verdict::Trapped, _, End::Stuck(_) | End::Unhandled) => {
            ("trapped", "It traps, and nothing handles it.".into())
        }
        (Verdict::Trapped, ..) => ("trapped", "It ran, with traps.".into()),
        (Verdict::Wrong, ..) => ("trapped", "It did not leave what was expected.".into()),
        _ => (calm, went(account.outcome).into()),
    }
}

/// How a run went that nothing is amiss with but that it may not have ended.
fn went(outcome: &Outcome) -> &'static str {
    let ended = matches!(outcome.end, End::Still | End::Exit);
    match (ended, outcome.counts.trapped) {
        (true, 0) => "It ran to its end without a trap.",
        (true, _) => "It ran to its end, through traps.",
        (false, 0) => "It ran without a trap, and has not ended.",
        (false, _) => "It ran through traps, and has not ended.",
    }
}

fn fit(image: &Beside) -> Value {
    let regions = image.regions.iter().map(|placed| {
        let place = match &placed.place {
            Ok(place) => format!("in {}", place.name),
            Err(reason) => format!("no: {reason}"),
        };
        json!({ "name": placed.region.name, "wanted": wanted(placed.region), "place": place })
    });
    json!({
        "file": shortened(&visible::plain_name(image.path)),
        "fits": image.fits,
        "regions": regions.collect::<Vec<Value>>(),
        "amiss": image.amiss(),
    })
}

fn wanted(region: &Record) -> String {
    format!(
        "[{:08x}, {:08x}) {}",
        region.start,
        region.end(),
        letters(region.rights)
    )
}

/// The board's regions as they are drawn; all of memory where there is no board.
fn board(subject: &Subject, (low, high): (u64, u64)) -> Vec<Shape> {
    let Some((_, sheet)) = &subject.board else {
        return vec![Shape::new((low, high), "memory", "", "board")];
    };
    let shape = |region: &Record| {
        let rights = format!(" {}", letters(region.rights));
        Shape::new(
            (region.start.into(), region.end()),
            &region.name,
            &rights,
            "board",
        )
    };
    sheet.regions.iter().map(shape).collect()
}

/// An image's parts: the regions of its label, or of an image without one what is put into memory.
fn parts(subject: &Subject) -> Vec<Shape> {
    let labelled = subject.fits.iter().flat_map(|image| &image.regions);
    let labelled = labelled.map(|placed| {
        let rights = format!(" {}", letters(placed.region.rights));
        let range = (placed.region.start.into(), placed.region.end());
        let kind = if placed.place.is_ok() {
            "part"
        } else {
            "amiss"
        };
        Shape::new(range, &placed.region.name, &rights, kind)
    });
    let labelled: Vec<Shape> = labelled.collect();
    if !labelled.is_empty() {
        return labelled;
    }
    let loaded = subject.segments.iter();
    let loaded = loaded.map(|segment| Shape::new(segment.range(), "loaded", "", "part"));
    loaded.collect()
}

/// The addresses that are drawn: memory, or where nothing was run the board and what is wanted of it, unless that is so
/// far off that the board could not be seen.
fn span(subject: &Subject, answer: &Answer) -> Option<(u64, u64)> {
    if let Answer::Ran { account, .. } = answer {
        return Some((account.state.start.into(), account.state.end()));
    }
    let (start, size) = subject.board.as_ref()?.1.span()?;
    let (start, end) = (u64::from(start), u64::from(start) + size);
    let parts = parts(subject);
    let low = parts.iter().map(|part| part.low).min().unwrap_or(start);
    let high = parts.iter().map(|part| part.high).max().unwrap_or(end);
    let room = (start.saturating_sub(FAR * size), end + FAR * size);
    Some((low.clamp(room.0, start), high.clamp(end, room.1)))
}

/// The picture; none where there is neither a board nor a run.
fn map(subject: &Subject, answer: &Answer) -> Value {
    let Some((low, high)) = span(subject, answer) else {
        return Value::Null;
    };
    let mut image = parts(subject);
    let more = image.len().saturating_sub(MOST_PARTS);
    image.truncate(MOST_PARTS);
    let mut map = Map {
        low,
        high,
        board: board(subject, (low, high)),
        image,
        row: Map::bytes_a_line(low, high),
        ..Map::default()
    };
    if let Answer::Ran {
        account, before, ..
    } = answer
    {
        map.kind = Kind::Ran;
        map.stack = stack(account);
        map.changed = changes::rows(before, account.state, map.row);
        map.trap = account.trap.as_ref().map_or(Vec::new(), trap_shapes);
    }
    let mut value = map.value();
    let left_out = format!("{} of the image are not drawn.", count(more as u64, "part"));
    value["left_out"] = (more > 0).then_some(left_out).into();
    value
}

/// The stack's region and how much of it was used.
fn stack(account: &Account) -> Vec<Shape> {
    let Some(stack) = account.stack else {
        return Vec::new();
    };
    let (start, end) = stack.range();
    let mut shapes = vec![Shape::new((start, end), "stack", "", "stack")];
    let used = Used::of(account.state, account.stack);
    if let Some((mark, (bytes @ 1.., size))) = used.and_then(|used| Some((used.mark, used.bytes?)))
    {
        let said = format!(", {} of {}", grouped(bytes), count(size, "byte"));
        shapes.push(Shape::new(
            (u64::from(mark).max(start), end),
            "used",
            &said,
            "used",
        ));
    }
    shapes
}

/// Where the trap was, what was asked, and what its authority allows.
fn trap_shapes(trap: &Trap) -> Vec<Shape> {
    let at = u64::from(trap.pcc.address);
    let length = trap.word.map_or(1, word_length);
    let mut shapes = Vec::new();
    if let Some(authority) = &trap.authority {
        let (bounds, name) = (authority.bounds, format!("bounds of {}", authority.name));
        shapes.push(Shape::new(
            (bounds.low.into(), bounds.high),
            &name,
            "",
            "bounds",
        ));
    }
    if let Some(asked) = trap.asked {
        let what = format!("asked, {}", trap.action.noun());
        shapes.push(Shape::new(
            (asked.address.into(), asked.end()),
            &what,
            "",
            "asked",
        ));
    }
    shapes.push(Shape::new(
        (at, at + u64::from(length)),
        "trapped at",
        "",
        "at",
    ));
    shapes
}

fn trapped(trap: &Trap, account: &Account, subject: &Subject) -> Value {
    let state = account.state;
    let names = first_names(account.names, trap);
    let memory = trap.asked.map(|asked| report::memory_there(asked, state));
    let memory = memory.unwrap_or_default();
    let memory: Vec<&str> = memory.lines().skip(2).collect();
    json!({
        "cause": trap.cause,
        "gone_on": trap.gone_on.then_some(report::GONE_ON),
        "rows": report::trap_rows(trap, state, &names),
        "memory": memory,
        "strip": strip(trap, &board(subject, (state.start.into(), state.end()))),
    })
}

/// The first names of a trap's places.
fn first_names(names: &Names, trap: &Trap) -> Names {
    let asked = trap.asked.map(|asked| asked.address);
    let told = |name: &&Name| {
        let holds = |address: u32| {
            let offset = address.checked_sub(name.start);
            offset.is_some_and(|offset| u64::from(offset) < name.length)
        };
        holds(trap.pcc.address) || asked.is_some_and(holds)
    };
    let first = names.0.iter().filter(told).take(MOST_NAMES);
    Names(first.cloned().collect())
}

/// The bytes around the request, where there is one and an authority.
fn strip(trap: &Trap, board: &[Shape]) -> Option<Value> {
    let (asked, authority) = (trap.asked?, trap.authority.as_ref()?);
    let strip = Strip {
        asked: (asked.address.into(), asked.end()),
        bounds: (authority.bounds.low.into(), authority.bounds.high),
        board,
    };
    Some(strip.value())
}

/// The last steps, and which they are.
fn steps(lines: &[String], account: &Account) -> Value {
    let counts = account.outcome.counts;
    let made = counts.retired + counts.trapped;
    let said = match lines.len() as u64 {
        0 => return Value::Null,
        shown if shown == made => "Every step of the run.".into(),
        shown => format!(
            "The last {} of {}, made again one by one.",
            grouped(shown),
            count(made, "step")
        ),
    };
    json!({ "said": said, "lines": lines })
}

/// What differs in memory: in each region of the board where something does, and in all.
fn changed(before: &State, after: &State, subject: &Subject) -> Value {
    let regions = subject
        .board
        .as_ref()
        .map_or(Vec::new(), |(_, sheet)| sheet.names());
    let (all, regions) = changes::by_region(before, after, &Names(regions));
    let row = |stretch: &Stretch| {
        let span = stretch.span.map_or(String::new(), |(low, high)| {
            format!("[{low:08x}, {high:08x})")
        });
        json!({
            "name": stretch.name, "bytes": grouped(stretch.bytes), "span": span,
            "tags_set": grouped(stretch.tags_set), "tags_cleared": grouped(stretch.tags_cleared),
        })
    };
    regions.iter().chain([&all]).map(row).collect()
}

fn registers(state: &State) -> Value {
    let row = |place| {
        let value = state.capability(place);
        let mut row = json!({
            "name": place_name(place), "address": format!("{:08x}", value.address), "tag": value.tag, "integer": null,
        });
        match report::contents(value) {
            Held::Integer(number) => row["integer"] = number.to_string().into(),
            Held::Capability([bounds, rights, kind]) => {
                row["bounds"] = bounds.into();
                row["rights"] = rights.into();
                row["type"] = kind.into();
            }
        }
        row
    };
    (0..CAPABILITIES).map(row).collect()
}
