//! The work on a shelf: each job takes the next image in order, and puts its result in the image's place.

use super::judge::{judge, unread, Judged};
use super::results::Results;
use super::row::Row;
use super::{name_text, write_page, Shelf};
use crate::file;
use crate::page::digest;
use crate::stop;
use indicatif::ProgressBar;
use std::ffi::OsString;
use std::fs;
use std::sync::atomic::{AtomicUsize, Ordering};
use std::sync::{Mutex, MutexGuard, PoisonError};
use std::thread;

/// What was done: every result in its place, and how many of them were at hand.
pub struct Done {
    pub results: Results,
    pub at_hand: u64,
}

/// What the jobs share.
struct Bench<'a> {
    shelf: &'a Shelf,
    names: &'a [OsString],
    next: AtomicUsize,
    done: Mutex<(Done, Option<String>)>,
    bar: &'a ProgressBar,
}

/// Judges all images, with so many jobs at a time; or what kept a result from being written.
pub fn work(
    shelf: &Shelf,
    names: &[OsString],
    results: Results,
    jobs: usize,
    bar: &ProgressBar,
) -> Result<Done, String> {
    let done = Done {
        results,
        at_hand: 0,
    };
    let bench = Bench {
        shelf,
        names,
        next: AtomicUsize::new(0),
        done: Mutex::new((done, None)),
        bar,
    };
    thread::scope(|scope| {
        for _ in 0..jobs.clamp(1, names.len().max(1)) {
            scope.spawn(|| bench.job());
        }
    });
    let done = bench.done.into_inner();
    let (mut done, failed) = done.unwrap_or_else(PoisonError::into_inner);
    let saved = done.results.save();
    failed.map_or(Ok(()), Err).and(saved)?;
    Ok(done)
}

impl Bench<'_> {
    fn done(&self) -> MutexGuard<'_, (Done, Option<String>)> {
        self.done.lock().unwrap_or_else(PoisonError::into_inner)
    }

    /// Takes images until there are no more, something could not be written, or a signal comes.
    fn job(&self) {
        loop {
            let place = self.next.fetch_add(1, Ordering::Relaxed);
            if place >= self.names.len() || self.done().1.is_some() || stop::is_asked() {
                return;
            }
            if let Err(reason) = self.image(place) {
                self.done().1 = Some(reason);
            }
            self.bar.inc(1);
        }
    }

    /// The result of an image: the one at hand, if it is of the same bytes and its page is there, or a new one.
    fn image(&self, place: usize) -> Result<(), String> {
        let (shelf, name) = (self.shelf, &self.names[place]);
        let (file, page) = (name_text(name), shelf.page(name));
        let bytes = file::read(&shelf.folder.join(name));
        let row = match &bytes {
            Ok(bytes) => Row::new(file, bytes.len() as u64, digest(bytes)),
            Err(_) => Row::new(file, 0, String::new()),
        };
        let kept = self.done().0.results.kept(place);
        let stands = kept.is_some_and(|kept| {
            let same = kept.row.sha256 == row.sha256 && bytes.is_ok();
            let page = page.as_ref().map(|page| fs::read(page).unwrap_or_default());
            same && page.is_none_or(|page| kept.has_page(&page))
        });
        if stands {
            let done = &mut self.done().0;
            done.at_hand += 1;
            done.results.stand(place);
            return Ok(());
        }
        let judged = match bytes {
            Ok(bytes) => judge(shelf, &row, &bytes),
            Err(reason) => unread(shelf, &row, reason),
        };
        let Judged { row, page: text } = judged?;
        // A run that was stopped says nothing of the image.
        if stop::is_asked() {
            return Ok(());
        }
        if let (Some(path), Some(text)) = (&page, &text) {
            write_page(path, text)?;
        }
        self.done().0.results.take(place, &row, text.as_deref())
    }
}
