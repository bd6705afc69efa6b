//! What someone looks at in a run: breakpoints, the last steps, what was executed.

use super::run::Ready;
use crate::arguments::{self, Run};
use crate::cover::Cover;
use crate::last::Last;
use crate::proved::Refusal;
use crate::recent::Recent;
use crate::visible;
use serde_json::Value;
use std::collections::BTreeSet;

/// What was seen of a run's steps.
#[derive(Default)]
pub struct Look {
    pub breaks: BTreeSet<u32>,
    pub cover: Option<Cover>,
    recent: Option<Recent>,
}

impl Look {
    pub fn of(asked: &Run, ready: &Ready) -> Result<Look, String> {
        let breaks = asked.breaks.iter();
        let breaks = breaks.map(|place| even_place("--break", place, ready));
        Ok(Look {
            breaks: breaks.collect::<Result<_, String>>()?,
            cover: asked.cover.then(|| Cover::new(&ready.state)),
            recent: None,
        })
    }

    /// Looks back at the last steps of a run that made so many, where they were asked for.
    pub fn back(&mut self, asked: &Run, last: Option<&Last>, made: u64) -> Result<(), Refusal> {
        let recent = asked.last.zip(last);
        let recent = recent.map(|(most, last)| Recent::of(last, made, most));
        self.recent = recent.transpose()?;
        Ok(())
    }

    pub fn text(&self, ready: &Ready) -> String {
        let last = self.recent.as_ref();
        let last = last.map(|last| last.text(&ready.names, &ready.lines));
        let cover = self.cover.as_ref();
        let cover = cover.map(|cover| cover.text(&ready.segments, &ready.names));
        let parts = last.into_iter().chain(cover);
        parts.map(|part| format!("\n{part}")).collect()
    }

    /// The same as JSON: null where it was not asked for.
    pub fn put(&self, ready: &Ready, value: &mut Value) {
        let last = self.recent.as_ref();
        value["last"] = last.map(|last| last.json(&ready.lines)).into();
        let cover = self.cover.as_ref();
        let cover = cover.map(|cover| cover.json(&ready.segments, &ready.names));
        value["cover"] = cover.into();
    }
}

/// The address of a place that an option names: a number, else an image's symbol or a line of its source. What is written as
/// a number is one, whatever an image calls its symbols.
pub fn place(option: &str, place: &str, ready: &Ready) -> Result<u32, String> {
    address(option, place, ready, arguments::word)
}

/// The same of a place where an instruction may stand.
pub fn even_place(option: &str, place: &str, ready: &Ready) -> Result<u32, String> {
    address(option, place, ready, arguments::even)
}

fn address(
    option: &str,
    place: &str,
    ready: &Ready,
    number: impl Fn(&str) -> Result<u32, String>,
) -> Result<u32, String> {
    let named = || {
        let label = ready.labels.iter().find(|(name, _)| name == place);
        let label = label.map(|(_, address)| *address);
        label.or_else(|| ready.lines.address(place))
    };
    let is_number = arguments::is_number(place);
    let found = if is_number { None } else { named() };
    let nameless = match is_number {
        true => "",
        false => "no symbol or line of an image has that name, and ",
    };
    found.map_or_else(|| number(place), Ok).map_err(|reason| {
        let place = visible::quoted(place);
        format!("{option} {place}: {nameless}as a number it is {reason}")
    })
}
