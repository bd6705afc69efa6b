//! One image of a shelf: its label beside the board, its run, its row and its page.

use super::row::{Label, Row};
use super::Shelf;
use crate::account::Account;
use crate::arguments::{Run, Start};
use crate::command::fit::{Beside, Labelled};
use crate::command::look::even_place;
use crate::command::run::{ran_page, ready, Halt, Ready};
use crate::console::Console;
use crate::drive::{self, Nobody, Outcome, Plan, Refused};
use crate::image;
use crate::last::{Last, Seen};
use crate::page::{self, Answer, Source, Subject, LAST};
use crate::payload::Outside;
use crate::reach::{self, rows};
use crate::sheet::Bad;
use crate::trial::Trial;
use crate::{handover, report, verdict, visible};
use lent::State;
use std::panic::{catch_unwind, AssertUnwindSafe};
use std::path::{Path, PathBuf};

/// An image's row, and its page where pages are wanted.
pub struct Judged {
    pub row: Row,
    pub page: Option<String>,
}

/// Judges an image by its name and bytes. Whatever is wrong with it is said in its row, and stops no other.
pub fn judge(shelf: &Shelf, row: &Row, bytes: &[u8]) -> Result<Judged, String> {
    let name = PathBuf::from(&row.file);
    let image = Image {
        shelf,
        name: &name,
        bytes,
    };
    let judged = catch_unwind(AssertUnwindSafe(|| image.judged(row.clone())));
    judged.unwrap_or_else(|_| unread(shelf, row, "the bench itself failed at it".into()))
}

/// The row and the page of a file that could not be read.
pub fn unread(shelf: &Shelf, row: &Row, why: String) -> Result<Judged, String> {
    let name = PathBuf::from(&row.file);
    let image = Image {
        shelf,
        name: &name,
        bytes: &[],
    };
    image.bad(row.clone(), why)
}

struct Image<'a> {
    shelf: &'a Shelf,
    name: &'a Path,
    bytes: &'a [u8],
}

impl Image<'_> {
    fn judged(&self, mut row: Row) -> Result<Judged, String> {
        if !image::is_labelled(self.shelf.setting.format, self.bytes) {
            row.label = Label::None;
            return self.run(row, &[]);
        }
        let labelled = match Labelled::of(self.name, self.bytes) {
            Ok(labelled) => labelled,
            Err(line) => {
                let bad = Bad::of_image(self.bytes, line);
                return self.bad(row, format!("line {}: {}", bad.line, bad.reason));
            }
        };
        let fits = [Beside::of(&self.shelf.board, &labelled)];
        if fits[0].fits {
            row.label = Label::Fits;
            return self.run(row, &fits);
        }
        row.label = Label::Misfit;
        row.why = self.unnamed(reasons(&fits[0]));
        let page = self.page(|| page::of(&self.subject(None, &fits), &Answer::Misfit));
        Ok(Judged {
            row,
            page: page.transpose()?,
        })
    }

    /// What is asked of the image: the board's own files beside it, and the shelf's terms.
    fn asked(&self) -> Run {
        let own = self.shelf.with.iter().map(|(path, _)| path.clone());
        let from = Start {
            images: own.chain([self.name.into()]).collect(),
            setting: self.shelf.setting.clone(),
            ..Start::default()
        };
        Run {
            from,
            terms: self.shelf.terms.clone(),
            ..Run::default()
        }
    }

    /// The image in the board's memory, beside the board's own files, and run.
    fn run(&self, mut row: Row, fits: &[Beside]) -> Result<Judged, String> {
        let asked = self.asked();
        let own = self.shelf.with.iter().map(|(_, bytes)| bytes.as_slice());
        let files: Vec<&[u8]> = own.chain([self.bytes]).collect();
        let map = Some(&self.shelf.board.sheet);
        let mut ready = match ready(&asked, &files, map) {
            Ok(ready) => ready,
            Err(Halt::Outside(outside)) => return self.outside(row, &outside),
            Err(halt) => return self.bad(row, halt.said()),
        };
        let trial = match Trial::of(&asked.terms, &ready, map) {
            Ok(trial) => trial,
            Err(reason) => return self.bad(row, reason),
        };
        let before = ready.state.clone();
        let mut last = Last::new(&before, LAST, asked.terms.sweep);
        let (outcome, judged) = match tried(&mut ready, &before, &trial, &mut last) {
            Ok(judged) => judged,
            Err(refused) => {
                return self.bad(row, report::refused_on_the_way(refused, &ready.state))
            }
        };
        let named = (&ready.names, ready.stack);
        let judged = (&judged, asked.terms.sweep.is_some());
        let account = Account::of(&ready.state, &outcome, named, fits, judged);
        row.take(&account);
        row.note = self.note(&ready);
        if let Err(why) = self.reach(&mut row, &ready, &before) {
            row.miss(&why);
        }
        let subject = || self.subject(Some(&ready), fits);
        let page = self.page(|| ran_page(&subject(), &account, &before, &last));
        Ok(Judged {
            row,
            page: page.transpose()?,
        })
    }

    /// An image of which a byte lies outside the board.
    fn outside(&self, mut row: Row, outside: &Outside) -> Result<Judged, String> {
        row.label = Label::Misfit;
        row.why = self.unnamed(outside.reason());
        let answer = Answer::Outside(row.why.clone());
        let page = self.page(|| page::of(&self.subject(None, &[]), &answer));
        Ok(Judged {
            row,
            page: page.transpose()?,
        })
    }

    /// What any run of the image from the handover on may do, where that is asked for; or why that is not known.
    fn reach(&self, row: &mut Row, ready: &Ready, before: &State) -> Result<(), String> {
        let Some(place) = &self.shelf.handover else {
            return Ok(());
        };
        let at = even_place("--handover", place, ready)?;
        let mut state = before.clone();
        let terms = &self.shelf.terms;
        let mut nobody = Nobody;
        let plan = Plan {
            through_traps: terms.through_traps,
            sweep: terms.sweep,
            ..Plan::new(terms.steps, &mut nobody)
        };
        let steps = Some(handover::arrive_by(&mut state, at, plan)?);
        let rows = rows(&state, &self.shelf.board.sheet);
        let rows = rows.map_err(|refusal| report::refused(refusal, &state))?;
        row.take_reach(&reach::Account {
            at,
            steps,
            rows: &rows,
            nevers: &self.shelf.nevers,
        });
        Ok(())
    }

    /// What is said of the image, which does not name it again.
    fn unnamed(&self, said: String) -> String {
        let own = [self.shelf.folder.join(self.name), self.name.into()];
        let own = own.map(|path| format!("{}: ", visible::name(&path)));
        let short = own.iter().find_map(|own| said.strip_prefix(own));
        short.map(str::to_string).unwrap_or(said)
    }

    /// What headers say of another core.
    fn note(&self, ready: &Ready) -> Option<String> {
        let notes = ready.notes.iter().cloned();
        let notes: Vec<String> = notes.map(|note| self.unnamed(note)).collect();
        (!notes.is_empty()).then(|| notes.join("; "))
    }

    /// An image that cannot be judged or run, and why.
    fn bad(&self, mut row: Row, why: String) -> Result<Judged, String> {
        row.why = self.unnamed(why);
        let answer = Answer::Bad(row.why.clone());
        let page = self.page(|| page::of(&self.subject(None, &[]), &answer));
        Ok(Judged {
            row,
            page: page.transpose()?,
        })
    }

    fn page<T>(&self, made: impl FnOnce() -> T) -> Option<T> {
        self.shelf.pages.as_ref().map(|_| made())
    }

    fn subject<'b>(&'b self, ready: Option<&'b Ready>, fits: &'b [Beside<'b>]) -> Subject<'b> {
        let own = self.shelf.with.iter();
        let own = own.map(|(path, bytes)| Source::of(path, bytes));
        let (name, board) = (&self.shelf.board_name, &self.shelf.board);
        Subject {
            files: [Source::of(self.name, self.bytes)]
                .into_iter()
                .chain(own)
                .collect(),
            board: Some((Source::of(name, &board.bytes), &board.sheet)),
            segments: ready.map_or(&[], |ready| &ready.segments),
            fits,
            notes: ready.map_or(&[], |ready| &ready.notes),
        }
    }
}

/// Why an image does not fit: what is said of each region that does not.
fn reasons(image: &Beside) -> String {
    let amiss = image.regions.iter().filter_map(|placed| {
        let reason = placed.place.as_ref().err()?;
        Some(format!("{}: {reason}", placed.region.name))
    });
    let outside = image.outside.as_ref().map(Outside::reason);
    amiss.chain(outside).collect::<Vec<String>>().join("; ")
}

/// Runs and judges the run, and keeps states for the last steps.
fn tried(
    ready: &mut Ready,
    before: &State,
    trial: &Trial,
    last: &mut Last,
) -> Result<(Outcome, verdict::Judged), Refused> {
    let mut watch = Seen { last, made: 0 };
    let mut console = trial.console.map(|address| Console::new(address, &|_| ()));
    let mut hear = console
        .as_mut()
        .map(|console| |state: &State| console.hear(state));
    let plan = Plan {
        stored: hear.as_mut().map(|hear| hear as &mut dyn FnMut(&State)),
        ..trial.plan(&mut watch)
    };
    let outcome = drive::run(&mut ready.state, plan)?;
    let said = console.map(Console::said);
    let judged = trial.judged(before, (&outcome, &ready.state), said);
    let made = outcome.counts;
    let judged = judged.map_err(|refusal| Refused { refusal, made })?;
    Ok((outcome, judged))
}

#[cfg(test)]
mod tests {
    use super::*;
    use crate::command::run::Halt;
    use crate::proved::UNSOUND;
    use crate::samples::{coded, LOADED, UNSOUND_VALUE};

    #[test]
    fn a_refused_state_is_told_with_its_registers() {
        let mut state = coded(&[]);
        state.set(LOADED, UNSOUND_VALUE);
        let why = Halt::Refused(UNSOUND, Box::new(state)).said();
        assert!(why.starts_with("refused, number 8: "), "{why}");
        assert!(why.ends_with(": c4 [05000000, 04000000)"), "{why}");
        let subject = Subject {
            files: Vec::new(),
            board: None,
            segments: &[],
            fits: &[],
            notes: &[],
        };
        let page = page::of(&subject, &Answer::Bad(why)).unwrap();
        assert!(page.contains("c4 [05000000, 04000000)"));
    }
}
