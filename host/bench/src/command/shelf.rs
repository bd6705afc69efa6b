//! `bench shelf`: every image of a folder on a board.

use super::run::{self, Halt};
use super::{refused_sheet, refused_state};
use crate::arguments::{Run, Shelf as Asked, Start};
use crate::capability_text::{count, grouped};
use crate::colour::Painter;
use crate::command::fit::Board;
use crate::proved::sheets::BAD_BOARD;
use crate::save::Place;
use crate::shelf::table::{self, Counted};
use crate::shelf::{own, work, Done, Results, Shelf};
use crate::trial::Trial;
use crate::{complain, file, progress, stop, visible, Status};
use std::fs;
use std::io::{BufWriter, Error, ErrorKind, Write};
use std::path::{Path, PathBuf};
use std::thread;

pub fn obey(asked: &Asked) -> Result<Status, String> {
    let board = match Board::of(file::read(&asked.board)?) {
        Ok(board) => board,
        Err(bad) => return refused_sheet(BAD_BOARD, &asked.board, &bad, asked.json),
    };
    let shelf = shelf(asked, board)?;
    let sheet = &shelf.board.sheet;
    shelf
        .nevers
        .iter()
        .try_for_each(|never| never.check(sheet))?;
    if let Some(status) = refused_at_once(asked, &shelf)? {
        return Ok(status);
    }
    let names = shelf.names()?;
    if names.is_empty() {
        return Err(format!(
            "{}: there is no image in it",
            visible::name(&asked.folder)
        ));
    }
    let index = asked
        .report
        .as_deref()
        .map(|folder| index(folder, asked))
        .transpose()?;
    let kept = kept(asked)?;
    let pages = asked.report.as_deref().map(index_of);
    let results = Results::of(shelf.key()?, &names, kept.as_deref(), pages.as_deref())?;
    let bar = progress::bar(names.len() as u64, "images");
    stop::heed();
    let done = work(&shelf, &names, results, jobs(asked), &bar);
    bar.finish_and_clear();
    conclude(asked, &shelf, &done?, index)
}

/// What every image meets.
fn shelf(asked: &Asked, board: Board) -> Result<Shelf, String> {
    let with = asked.with.iter();
    let with = with.map(|path| Ok((path.clone(), file::read(path)?)));
    Ok(Shelf {
        folder: asked.folder.clone(),
        board_name: asked.board.clone(),
        board,
        with: with.collect::<Result<_, String>>()?,
        setting: asked.setting.clone(),
        terms: asked.terms.clone(),
        handover: asked.handover.clone(),
        nevers: asked.never.clone(),
        pages: asked.report.clone(),
    })
}

/// Judges once what is the same for any image, as `run` does: whether the board's own files fit it, and whether what is
/// asked for can be. What is refused is told.
fn refused_at_once(asked: &Asked, shelf: &Shelf) -> Result<Option<Status>, String> {
    let from = Start {
        images: asked.with.clone(),
        setting: asked.setting.clone(),
        map: Some(asked.board.clone()),
        ..Start::default()
    };
    let run = Run {
        from,
        json: asked.json,
        ..Run::default()
    };
    let files = shelf.with.iter().map(|(_, bytes)| bytes.as_slice());
    let files: Vec<&[u8]> = files.collect();
    let labelled = run::labelled(&run, &files);
    let fits = run::fits(Some(&shelf.board), &labelled);
    if let Some(file) = fits.iter().find(|file| !file.fits) {
        return run::misfit(&run, file).map(Some);
    }
    let map = Some(&shelf.board.sheet);
    let refused = match run::ready(&run, &files, map) {
        Ok(ready) => {
            let terms = asked.terms.of_any_image();
            return Trial::of(&terms, &ready, map).map(|_| None);
        }
        Err(Halt::Refused(refusal, state)) => refused_state(refusal, &state, asked.json),
        Err(Halt::Outside(outside)) => run::refused_outside(&outside, asked.json),
        Err(Halt::Bad(reason)) => Err(reason),
    };
    refused.map(Some)
}

/// The jobs that are asked for, or one for each core.
fn jobs(asked: &Asked) -> usize {
    let cores = || thread::available_parallelism().map_or(1, usize::from);
    let asked = asked
        .jobs
        .map(|jobs| usize::try_from(jobs).unwrap_or(usize::MAX));
    asked.unwrap_or_else(cores)
}

/// The folder of the pages, made where it is missing, and the place of the page of all.
fn index(folder: &Path, asked: &Asked) -> Result<Place, String> {
    let told = |error| format!("{}: {}", visible::name(folder), file::why(&error));
    fs::create_dir_all(folder).map_err(told)?;
    apart(folder, asked)?;
    Place::of_page(&index_of(folder), own::is_index)?.tried()
}

/// The page of all in the folder of the pages.
fn index_of(folder: &Path) -> PathBuf {
    folder.join("index.html")
}

/// The file that keeps the results, if one does.
fn kept(asked: &Asked) -> Result<Option<PathBuf>, String> {
    let beside = asked
        .report
        .as_ref()
        .map(|folder| folder.join("results.txt"));
    let kept = asked.results.clone().or(beside);
    if let Some(folder) = kept.as_deref().and_then(Path::parent) {
        let here = folder.as_os_str().is_empty();
        apart(if here { Path::new(".") } else { folder }, asked)?;
    }
    Ok(kept)
}

/// Nothing is written among the images: it would be one of them the next time.
fn apart(folder: &Path, asked: &Asked) -> Result<(), String> {
    let same = folder.canonicalize().ok() == asked.folder.canonicalize().ok();
    match same {
        true => Err(format!(
            "{}: the images are there, and nothing is written among them",
            visible::name(folder)
        )),
        false => Ok(()),
    }
}

/// Says what came of the shelf, and writes the page of all.
fn conclude(
    asked: &Asked,
    shelf: &Shelf,
    done: &Done,
    index: Option<Place>,
) -> Result<Status, String> {
    let results = &done.results;
    if let Some(index) = index {
        index.write_by(|file| table::page(file, results, shelf))?;
    }
    if done.at_hand > 0 {
        let (at_hand, all) = (done.at_hand, results.rows().count());
        complain(&format!("{at_hand} of {all} results were at hand"));
    }
    let mut out = BufWriter::new(std::io::stdout().lock());
    let said = match (asked.csv, asked.json) {
        (true, _) => table::csv(&mut out, results),
        (_, true) => table::json(&mut out, results),
        _ => text(&mut out, results, shelf),
    };
    unless_closed(said.and_then(|()| out.flush()))?;
    let counted = Counted::of(results);
    if counted.status() == Status::Stopped {
        complain(&stopped(&counted));
    }
    Ok(counted.status())
}

/// What is said of a shelf that a signal stopped.
fn stopped(counted: &Counted) -> String {
    let (signal, judged) = (stop::name(), grouped(counted.images));
    let all = count(counted.images + counted.left, "image");
    format!("{signal} came after {judged} of {all}; the table has these")
}

fn text(out: &mut impl Write, results: &Results, shelf: &Shelf) -> Result<(), Error> {
    let mut painter = Painter::new(out);
    table::text(&mut painter, results, &shelf.terms)?;
    painter.flush()
}

/// A reader that has gone away is no error.
fn unless_closed(written: Result<(), Error>) -> Result<(), String> {
    match written {
        Err(error) if error.kind() != ErrorKind::BrokenPipe => {
            Err(format!("standard output: {}", file::why(&error)))
        }
        _ => Ok(()),
    }
}
