//! `bench sweep`: a pass of the sweeper over a saved state, which tags went, and what is saved.

use super::{read_state, refused, say, say_json};
use crate::arguments::Sweep;
use crate::names::Names;
use crate::save::Place;
use crate::sweep::{granules, pass, Went};
use crate::{json, report, sheet, state_file, Status};
use indicatif::{ProgressBar, ProgressStyle};
use lent::State;
use std::path::Path;

/// The granules from one drawing of the bar to the next.
const DRAWN: u64 = 1024;

pub fn obey(asked: &Sweep) -> Result<Status, String> {
    let map = asked.map.as_deref().map(sheet::read).transpose()?;
    let names = map.map_or(Names::default(), |map| Names(map.names()));
    let mut state = read_state(&asked.state)?;
    let place = asked.save.as_deref().map(|path| place(path, asked));
    let place = place.transpose()?;
    let bar = progress(&state);
    let swept = pass(&mut state, |seen| {
        if seen.is_multiple_of(DRAWN) {
            bar.set_position(seen);
        }
    });
    bar.finish_and_clear();
    match swept {
        Err(refusal) => refused(refusal, asked.json),
        Ok(went) => {
            // What cannot be said is saved nevertheless, and what cannot be saved is said.
            let said = conclude(asked, &state, &went, &names);
            place.map_or(Ok(()), |place| {
                place.write(state_file::write(&state).as_bytes())
            })?;
            said.map(|()| Status::Ran)
        }
    }
}

/// The place to save to. The state may be written over, but no sheet.
fn place(path: &Path, asked: &Sweep) -> Result<Place, String> {
    let read: Vec<&Path> = asked.map.as_deref().into_iter().collect();
    Place::apart(path, &read, &[])
}

/// A bar on standard error; it draws nothing where that is no terminal.
fn progress(state: &State) -> ProgressBar {
    let form = "{elapsed_precise} {wide_bar} {human_pos} of {human_len} granules";
    let style = ProgressStyle::with_template(form);
    let style = style.unwrap_or_else(|_| ProgressStyle::default_bar());
    ProgressBar::new(granules(state)).with_style(style)
}

/// Says which tags went.
fn conclude(asked: &Sweep, state: &State, went: &[Went], names: &Names) -> Result<(), String> {
    if asked.json {
        return say_json(&json::swept(state, went, names));
    }
    say(&report::swept(state, went, names))
}
