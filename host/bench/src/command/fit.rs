//! `bench fit`: which image fits a board, or for each of its regions why not.

use super::{refused_sheet, say, say_json};
use crate::arguments::Fit as Asked;
use crate::capability_text::count;
use crate::image::{self, Format, Image};
use crate::payload::{self, Outside};
use crate::proved::sheets::{self, BadLine, Fit, Label, BAD_BOARD, BAD_IMAGE};
use crate::sheet::label::{placed, Placed};
use crate::sheet::{self, letters, Bad, Sheet};
use crate::{complain, file, json, visible, Status};
use std::path::Path;

/// A board: the bytes of its sheet, which is good, and its regions.
pub struct Board {
    pub bytes: Vec<u8>,
    pub sheet: Sheet,
}

impl Board {
    /// The board of a sheet's bytes, or what is wrong with them.
    pub fn of(bytes: Vec<u8>) -> Result<Board, Bad> {
        let sheet = sheet::of(&bytes)?;
        Ok(Board { bytes, sheet })
    }
}

/// An image's file with its label, which is good.
pub struct Labelled<'a> {
    pub path: &'a Path,
    pub bytes: &'a [u8],
    pub label: Label,
}

impl Labelled<'_> {
    /// An image with its label, or its first bad line.
    pub fn of<'a>(path: &'a Path, bytes: &'a [u8]) -> Result<Labelled<'a>, BadLine> {
        let label = sheets::label(bytes)?;
        Ok(Labelled { path, bytes, label })
    }

    /// What its payload loads; an empty one loads nothing.
    fn loaded(&self) -> Result<Option<Image>, String> {
        match self.bytes.len() > self.label.payload {
            true => image::read(self.path, self.bytes, Format::Labelled, 0).map(Some),
            false => Ok(None),
        }
    }
}

/// An image beside a board.
pub struct Beside<'a> {
    pub path: &'a Path,
    /// Whether its label fits, and what it loads lies inside.
    pub fits: bool,
    pub regions: Vec<Placed<'a>>,
    /// What it loads outside its label or the board.
    pub outside: Option<Outside>,
    /// Why its payload cannot be loaded.
    pub broken: Option<String>,
    /// What its payload's header says of another core.
    pub notes: Vec<String>,
}

impl Beside<'_> {
    /// An image beside a board, by itself: it is lent twice, and fits exactly if the first of the two does.
    pub fn of<'a>(board: &'a Board, image: &'a Labelled) -> Beside<'a> {
        let fits = sheets::fit(&board.bytes, image.bytes, image.bytes) != Fit::Neither;
        // What a label that does not fit holds is not looked at.
        let loaded = if fits { image.loaded() } else { Ok(None) };
        let regions = &board.sheet.regions;
        let payload = loaded.as_ref().ok().and_then(Option::as_ref);
        let outside = payload.and_then(|image| payload::outside(image, regions));
        let notes = payload.map_or(Vec::new(), |image| image.notes.clone());
        Beside {
            path: image.path,
            fits: fits && outside.is_none(),
            regions: placed(&image.label.regions, regions, fits),
            outside,
            broken: loaded.err(),
            notes,
        }
    }

    /// What is wrong with its payload, in words.
    pub fn amiss(&self) -> Option<String> {
        let outside = self.outside.as_ref().map(Outside::reason);
        outside.or_else(|| self.broken.clone())
    }

    /// Whether it could be put onto the board.
    fn is_good(&self) -> bool {
        self.fits && self.broken.is_none()
    }
}

/// The image that is chosen: its number from 1, where its payload starts and how long it is.
pub struct Chosen {
    pub number: usize,
    pub payload: usize,
    pub length: usize,
}

pub fn obey(asked: &Asked) -> Result<Status, String> {
    let bytes = file::read(&asked.board)?;
    let images = asked.images.iter().map(|path| file::read(path));
    let images: Vec<Vec<u8>> = images.collect::<Result<_, _>>()?;
    // One image is lent twice.
    let (first, second) = (&images[0], &images[images.len() - 1]);
    match sheets::fit(&bytes, first, second) {
        Fit::BadBoard(line) => {
            let bad = Bad::of(&bytes, line);
            return refused_sheet(BAD_BOARD, &asked.board, &bad, asked.json);
        }
        Fit::BadImage(which, line) => {
            let place = which.place();
            let bad = Bad::of_image(&images[place], line);
            return refused_sheet(BAD_IMAGE[place], &asked.images[place], &bad, asked.json);
        }
        Fit::Neither | Fit::Image(..) => {}
    }
    let board = Board::of(bytes).map_err(|bad| bad.shown(&asked.board))?;
    conclude(asked, &board, &images)
}

/// Says the answer; every sheet is good. The first image that fits by itself is chosen.
fn conclude(asked: &Asked, board: &Board, images: &[Vec<u8>]) -> Result<Status, String> {
    let labelled = asked.images.iter().zip(images);
    let labelled = labelled.filter_map(|(path, bytes)| Labelled::of(path, bytes).ok());
    let labelled: Vec<Labelled> = labelled.collect();
    let images = labelled.iter().map(|image| Beside::of(board, image));
    let images: Vec<Beside> = images.collect();
    let place = images.iter().position(Beside::is_good);
    let chosen = place.map(|place| {
        let Labelled { bytes, label, .. } = &labelled[place];
        Chosen {
            number: place + 1,
            payload: label.payload,
            length: bytes.len() - label.payload,
        }
    });
    let notes = images.iter().flat_map(|image| &image.notes);
    notes.for_each(|note| complain(note));
    if asked.json {
        say_json(&json::fit(chosen.as_ref(), &images))?;
    } else {
        say(&told(&asked.board, chosen.as_ref(), &images))?;
    }
    Ok(chosen.map_or(Status::NoFit, |_| Status::Ran))
}

/// The answer, and then each image beside the board.
fn told(board: &Path, chosen: Option<&Chosen>, images: &[Beside]) -> String {
    let payload = match chosen {
        None => String::new(),
        Some(Chosen { length: 0, .. }) => " Its payload is empty.".into(),
        Some(chosen) => {
            let (length, place) = (count(chosen.length as u64, "byte"), chosen.payload);
            format!(" Its payload is {length}, from byte {place} on.")
        }
    };
    if let [image] = images {
        return format!("{}.{payload}\n\n{}", verdict(board, image), rows(image));
    }
    let board = visible::name(board);
    let mut text = match chosen.map(|chosen| chosen.number) {
        Some(number) => format!("Image {number} fits {board}.{payload}\n"),
        None => format!("Neither image fits {board}.\n"),
    };
    for (number, image) in (1..).zip(images) {
        let fits = if image.is_good() {
            "fits"
        } else {
            "does not fit"
        };
        let (file, rows) = (visible::name(image.path), rows(image));
        text.push_str(&format!("\nimage {number}, {file}: {fits}\n\n{rows}"));
    }
    text
}

/// Whether an image fits, in a few words.
pub fn verdict(board: &Path, image: &Beside) -> String {
    let verb = if image.is_good() {
        "fits"
    } else {
        "does not fit"
    };
    format!(
        "{} {verb} {}",
        visible::name(image.path),
        visible::name(board)
    )
}

/// Each region of an image, with where it lies on the board or why it does not.
pub fn rows(image: &Beside) -> String {
    let row = |Placed { region, place }: &Placed| {
        let (start, end) = (region.start, region.end());
        let shown = format!("[{start:08x}, {end:08x}) {}", letters(region.rights));
        let place = match place {
            Ok(place) => format!("in {}", place.name),
            Err(reason) => format!("no: {reason}"),
        };
        format!("  {:<16}  {shown:<27}  {place}\n", region.name)
    };
    let mut text: String = image.regions.iter().map(row).collect();
    if let Some(amiss) = image.amiss() {
        text.push_str(&format!("  payload           no: {amiss}\n"));
    }
    text
}
