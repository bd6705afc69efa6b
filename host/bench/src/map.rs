//! The picture of a board's memory, to scale: where its regions lie, an image's parts, the stack, what the run
//! changed, and what a trap asked for beside what it was allowed. High addresses are at the top. It knows places
//! alone; the page draws them.

#[cfg(test)]
mod tests;

use serde_json::{json, Value};

/// The picture's measures, in its own units. A label takes a line of its own, so that many make the picture longer.
const TOP: f64 = 34.0;
const LEAST_HEIGHT: f64 = 420.0;
const LINE: f64 = 15.0;
/// Columns by their left edges and widths.
const BOARD: (f64, f64) = (345.0, 74.0);
const IMAGE: (f64, f64) = (427.0, 60.0);
const STACK: (f64, f64) = (495.0, 46.0);
const CHANGED: (f64, f64) = (549.0, 62.0);
const TRAP: (f64, f64) = (619.0, 46.0);
const READ: (f64, f64) = (495.0, 60.0);
const EXECUTED: (f64, f64) = (563.0, 60.0);
/// Around columns that are drawn without labels.
const MARGIN: f64 = 12.0;
const WIDTH: f64 = 1060.0;
/// From a column at either side to the labels beside it.
const LEAD: f64 = 34.0;
/// The least height of a shape: one of none at all is not drawn.
const LEAST: f64 = 0.6;

/// A stretch of addresses, its name, and the class that the page's style draws it by.
#[derive(Clone, PartialEq, Debug)]
pub struct Shape {
    pub low: u64,
    pub high: u64,
    pub name: String,
    /// What is written beside it.
    pub label: String,
    pub kind: &'static str,
}

impl Shape {
    /// A stretch with its name and its addresses beside it, and what else is to be said.
    pub fn new((low, high): (u64, u64), name: &str, more: &str, kind: &'static str) -> Shape {
        Shape {
            low,
            high,
            name: name.into(),
            label: format!("{name} [{low:08x}, {high:08x}){more}"),
            kind,
        }
    }
}

/// What is to be drawn of [low, high).
#[derive(Default)]
pub struct Map {
    pub low: u64,
    pub high: u64,
    pub board: Vec<Shape>,
    pub image: Vec<Shape>,
    pub stack: Vec<Shape>,
    /// Rows of `row` bytes from `low` on in which something changed.
    pub changed: Vec<u64>,
    pub row: u64,
    pub trap: Vec<Shape>,
    pub kind: Kind,
}

/// What the columns beside the board's are for: of an image that was judged its parts, of a run also the stack, what changed
/// and the trap; or in the places of parts, stack and trap what may be written, read and executed.
#[derive(Clone, Copy, Default, PartialEq, Eq, Debug)]
pub enum Kind {
    #[default]
    Judged,
    Ran,
    Reach,
}

impl Kind {
    /// The columns of parts, stack and trap.
    fn lanes(self) -> [(f64, f64); 3] {
        match self {
            Kind::Judged | Kind::Ran => [IMAGE, STACK, TRAP],
            Kind::Reach => [IMAGE, READ, EXECUTED],
        }
    }

    /// The columns that are drawn, with what stands above each.
    fn heads(self) -> &'static [((f64, f64), &'static str)] {
        match self {
            Kind::Judged => &[(BOARD, "board"), (IMAGE, "image")],
            Kind::Ran => &[
                (BOARD, "board"),
                (IMAGE, "image"),
                (STACK, "stack"),
                (CHANGED, "changed"),
                (TRAP, "trap"),
            ],
            Kind::Reach => &[
                (BOARD, "board"),
                (IMAGE, "written"),
                (READ, "read"),
                (EXECUTED, "executed"),
            ],
        }
    }
}

impl Map {
    /// The height of the drawn part: at least what the labels of one side take.
    fn height(&self) -> f64 {
        let right = self.image.len() + self.stack.len() + self.trap.len();
        let lines = self.board.len().max(right) + 1;
        LEAST_HEIGHT.max(LINE * lines as f64)
    }

    /// The place of an address, cut to what is drawn.
    fn y(&self, address: u64) -> f64 {
        let address = address.clamp(self.low, self.high);
        let share = (self.high - address) as f64 / (self.high - self.low).max(1) as f64;
        TOP + share * self.height()
    }

    /// A box of a column, none where all of it lies outside.
    fn drawn(&self, shape: &Shape, (x, width): (f64, f64)) -> Option<Value> {
        if shape.high <= self.low || shape.low >= self.high || shape.high < shape.low {
            return None;
        }
        let bottom = self.y(shape.low);
        let top = self.y(shape.high).min(bottom - LEAST);
        Some(json!({
            "x": number(x), "width": number(width), "y": number(top), "height": number(bottom - top),
            "kind": shape.kind, "name": shape.label,
        }))
    }

    fn column(&self, shapes: &[Shape], place: (f64, f64)) -> Vec<Value> {
        let drawn = shapes.iter().filter_map(|shape| self.drawn(shape, place));
        drawn.collect()
    }

    /// The labels of some boxes, each on a line of its own as near to its box as there is room.
    fn labels(&self, shapes: &[(&Shape, f64)], text: f64) -> Vec<Value> {
        let middle = |shape: &Shape| (self.y(shape.low) + self.y(shape.high)) / 2.0;
        let mut sorted: Vec<(&Shape, f64)> = shapes.to_vec();
        sorted.sort_by(|a, b| middle(a.0).total_cmp(&middle(b.0)));
        let wanted: Vec<f64> = sorted.iter().map(|(shape, _)| middle(shape)).collect();
        let places = spread(&wanted, TOP, TOP + self.height());
        let labels = sorted.iter().zip(places).map(|((shape, edge), y)| {
            // The line ends a little before the text.
            let end = if text < *edge { text + 4.0 } else { text - 4.0 };
            json!({
                "kind": shape.kind, "text": shape.label, "x": number(text), "y": number(y + 4.0),
                "line": format!("{:.1},{:.1} {end:.1},{y:.1}", edge, middle(shape)),
            })
        });
        labels.collect()
    }

    /// The rows that changed, neighbours as one.
    fn changes(&self) -> Vec<Value> {
        let mut stretches: Vec<(u64, u64)> = Vec::new();
        for row in &self.changed {
            match stretches.last_mut() {
                Some((_, end)) if *end == *row => *end += 1,
                _ => stretches.push((*row, row + 1)),
            }
        }
        let shape = |(first, end): &(u64, u64)| {
            let (low, high) = (self.low + first * self.row, self.low + end * self.row);
            let shape = Shape::new((low, high), "changed", "", "changed");
            self.drawn(&shape, CHANGED)
        };
        stretches.iter().filter_map(shape).collect()
    }

    /// How many bytes one line of the picture stands for: the least that a row of changes can be told by.
    pub fn bytes_a_line(low: u64, high: u64) -> u64 {
        ((high - low) as f64 / LEAST_HEIGHT).ceil().max(1.0) as u64
    }

    /// What is written at the right: of the image, the stack and the trap, as far as it is drawn.
    fn right(&self) -> Vec<(&Shape, f64)> {
        let columns = [&self.image, &self.stack, &self.trap];
        let columns = columns.into_iter().zip(self.kind.lanes());
        let beside = columns.flat_map(|(shapes, (x, width))| {
            let drawn = shapes
                .iter()
                .filter(move |shape| self.drawn(shape, (x, width)).is_some());
            drawn.map(move |shape| (shape, x + width))
        });
        beside.collect()
    }

    /// The picture without labels, for a place beside a table that has them.
    pub fn narrow(&self) -> Value {
        let heads = self.kind.heads();
        let left = BOARD.0 - MARGIN;
        let right = heads.last().map_or(BOARD, |(lane, _)| *lane);
        let mut value = self.value();
        value["x"] = number(left).into();
        value["width"] = number(right.0 + right.1 + MARGIN - left).into();
        value["left"] = json!([]);
        value["right"] = json!([]);
        value
    }

    /// The numbers of the picture.
    pub fn value(&self) -> Value {
        let left = self.board.iter();
        let left = left.filter(|shape| self.drawn(shape, BOARD).is_some());
        let left: Vec<(&Shape, f64)> = left.map(|shape| (shape, BOARD.0)).collect();
        let height = self.height();
        let shown = self.kind.heads();
        let [image, stack, trap] = self.kind.lanes();
        let heads = shown
            .iter()
            .map(|((x, width), text)| json!({ "x": number(x + width / 2.0), "text": text }));
        let lanes = shown.iter();
        let lanes =
            lanes.map(|((x, width), _)| json!({ "x": number(*x), "width": number(*width) }));
        json!({
            "x": number(0.0), "width": number(WIDTH), "height": number(TOP + height + 24.0), "span": number(height),
            "top": number(TOP), "bottom": number(TOP + height), "foot": number(TOP + height + 16.0),
            "middle": number(BOARD.0 + BOARD.1 / 2.0), "low": format!("{:08x}", self.low), "high": format!("{:08x}", self.high),
            "groups": [
                self.column(&self.board, BOARD), self.column(&self.image, image), self.column(&self.stack, stack),
                self.changes(), self.column(&self.trap, trap),
            ],
            "left": self.labels(&left, BOARD.0 - LEAD),
            "right": self.labels(&self.right(), TRAP.0 + TRAP.1 + LEAD),
            "heads": heads.collect::<Vec<Value>>(), "columns": lanes.collect::<Vec<Value>>(), "row": self.row,
        })
    }
}

/// A number of the picture.
fn number(value: f64) -> String {
    format!("{value:.1}")
}

/// Places for labels in order, each a line from the next and as near to where it is wanted as the room allows: pushed
/// down from the top, then up from the bottom.
fn spread(wanted: &[f64], top: f64, bottom: f64) -> Vec<f64> {
    let mut least = top;
    let pushed = wanted.iter().map(|place| {
        let place = place.max(least);
        least = place + LINE;
        place
    });
    let mut places: Vec<f64> = pushed.collect();
    let mut most = bottom;
    for place in places.iter_mut().rev() {
        *place = place.min(most);
        most = *place - LINE;
    }
    places
}

/// The measures of the strip around a request.
const STRIP: (f64, f64) = (10.0, 840.0);
/// The bytes before and after a request that the strip shows.
const AROUND: u64 = 32;
const GRAIN: u64 = 16;

/// The bytes around a request: the request, the bounds beside it, and the regions that begin or end there.
pub struct Strip<'a> {
    pub asked: (u64, u64),
    pub bounds: (u64, u64),
    pub board: &'a [Shape],
}

impl Strip<'_> {
    /// The numbers of the strip.
    pub fn value(&self) -> Value {
        let (first, end) = self.asked;
        let low = (first / GRAIN * GRAIN).saturating_sub(AROUND);
        let high = (end.div_ceil(GRAIN) * GRAIN + AROUND).min(1 << 32);
        let x = |address: u64| {
            let share = (address.clamp(low, high) - low) as f64 / (high - low).max(1) as f64;
            STRIP.0 + share * STRIP.1
        };
        let shape = |(from, to): (u64, u64), name: &str| {
            (from < to && from < high && to > low).then(|| {
                json!({
                    "x": number(x(from)), "width": number(x(to) - x(from)), "text": number(x(from) + 4.0),
                    "name": name, "before": from < low, "after": to > high,
                })
            })
        };
        let regions = self.board.iter();
        let regions = regions.filter_map(|region| shape((region.low, region.high), &region.name));
        let ticks = (low..=high).step_by(GRAIN as usize);
        let ticks = ticks.map(|at| json!({ "x": number(x(at)), "text": format!("{at:08x}") }));
        json!({
            "asked": shape(self.asked, "asked"),
            "bounds": shape(self.bounds, "allowed"),
            "regions": regions.collect::<Vec<Value>>(),
            "ticks": ticks.collect::<Vec<Value>>(),
        })
    }
}
