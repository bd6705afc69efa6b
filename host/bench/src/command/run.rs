//! `bench run`: the start state, the run, what is said and saved at the end.

use super::fit::{rows, verdict, Beside, Board, Labelled};
use super::look::Look;
use super::{read_state, refused_on_the_way, refused_state, say, say_bytes, say_json, signature};
use crate::account::Account;
use crate::arguments::Run;
use crate::capability_text::count;
use crate::console::{Console, Said};
use crate::drive::{self, Outcome, Plan, Refused, Watcher};
use crate::edition::Edition;
use crate::image::lines::Lines;
use crate::image::{self, Image, Segment, DEFAULT_START};
use crate::last::Last;
use crate::names::Names;
use crate::page::{self, Answer, Source, Subject, LAST};
use crate::payload::{self, Outside};
use crate::probe::fetch;
use crate::proved::sheets::NEITHER;
use crate::proved::{self, Counts, Refusal, MOST_STEPS};
use crate::save::Place;
use crate::sheet::Sheet;
use crate::stack::Stack;
use crate::trace::{self, Before};
use crate::trial::Trial;
use crate::{
    colour, complain, file, json, progress, report, revoke, state_file, stop, visible, Status,
};
use indicatif::ProgressBar;
use lent::{State, Window, COMPARE, TIME};
use std::cell::RefCell;
use std::io::Write;
use std::path::{Path, PathBuf};

const DEFAULT_SIZE: u64 = 65_536;
/// The region of a map whose granules have revocation bits.
const HEAP: &str = "heap";
/// The most memory that is made. The machine refuses any above 1,048,576 bytes with one number, so
/// for a larger one no more than this is lent, and for a larger window no more bits.
const MOST_SIZE: u64 = 1 << 24;

pub fn run(asked: Run) -> Result<Status, String> {
    with_files(&asked, |task, labelled| {
        let mut ready = match task.ready() {
            Err(Halt::Refused(refusal, state)) => {
                return refused_state(refusal, &state, asked.json)
            }
            Err(Halt::Outside(outside)) => return task.outside(&outside),
            Err(Halt::Bad(reason)) => return Err(reason),
            Ok(ready) => ready,
        };
        ready.notes.iter().for_each(|note| complain(note));
        let look = Look::of(&asked, &ready)?;
        let map = task.board.map(|board| &board.sheet);
        let trial = Trial::of(&asked.terms, &ready, map)?;
        if let Some(note) = trial.unjudged() {
            complain(note);
            ready.notes.push(note.into());
        }
        let signature = signature::Asked::of(&asked, &ready)?;
        let place = asked.save.as_deref().map(|path| place(path, &asked));
        let place = place.transpose()?;
        let told = if asked.json {
            Ok(())
        } else {
            say(&labels_told(&asked, labelled, task.fits))
        };
        let status = task.carry_out(ready, look, &trial, (place, signature))?;
        told.map(|()| status)
    })
}

/// Reads the files and the board and goes on with them, unless an image does not fit the board: that is told.
pub fn with_files(
    asked: &Run,
    go_on: impl FnOnce(&Task, &[Labelled]) -> Result<Status, String>,
) -> Result<Status, String> {
    let board = asked.map.as_deref().map(board).transpose()?;
    let bytes = asked.images.iter().map(|path| file::read(path));
    let bytes: Vec<Vec<u8>> = bytes.collect::<Result<_, _>>()?;
    let files: Vec<&[u8]> = bytes.iter().map(Vec::as_slice).collect();
    let labelled = labelled(asked, &files);
    let fits = fits(board.as_ref(), &labelled);
    let page = asked.report.as_deref().map(|path| page_place(path, asked));
    let task = Task {
        asked,
        files: &files,
        board: board.as_ref(),
        fits: &fits,
        page: page.transpose()?,
    };
    if let Some(image) = fits.iter().find(|image| !image.fits) {
        task.write_page(|| page::of(&task.subject(None)?, &Answer::Misfit))?;
        return misfit(asked, image);
    }
    go_on(&task, &labelled)
}

/// What is asked, with the files and the board, and where the page goes.
pub struct Task<'a> {
    pub asked: &'a Run,
    files: &'a [&'a [u8]],
    pub board: Option<&'a Board>,
    fits: &'a [Beside<'a>],
    page: Option<Place>,
}

impl<'a> Task<'a> {
    /// What is there before the first step.
    pub fn ready(&self) -> Result<Ready, Halt> {
        let map = self.board.map(|board| &board.sheet);
        ready(self.asked, self.files, map)
    }

    /// Runs, says how the run went, saves the state and writes the page.
    fn carry_out(
        &self,
        mut ready: Ready,
        mut look: Look,
        trial: &Trial,
        places: (Option<Place>, Option<signature::Asked>),
    ) -> Result<Status, String> {
        stop::heed();
        let asked = self.asked;
        let before = ready.state.clone();
        let wanted = asked.last.max(self.page.as_ref().map(|_| LAST));
        let mut last = wanted.map(|wanted| Last::new(&before, wanted, asked.terms.sweep));
        let run = drive(asked, &mut ready, last.as_mut(), (&mut look, trial));
        let run = run.and_then(|(outcome, said)| {
            let refused = refused_after(&outcome);
            let looked = look.back(asked, last.as_ref(), outcome.counts.steps());
            let judged = trial.judged(&before, (&outcome, &ready.state), said);
            let judged = looked.and(judged).map_err(refused)?;
            Ok((outcome, judged))
        });
        let (outcome, judged) = match run {
            Err(refused) => return refused_on_the_way(refused, &ready.state, asked.json),
            Ok(judged) => judged,
        };
        let named = (&ready.names, ready.stack);
        let with = (&judged, asked.terms.sweep.is_some());
        let account = Account::of(&ready.state, &outcome, named, self.fits, with);
        // What cannot be said is saved nevertheless, and what cannot be saved is said.
        let said = conclude(asked, &ready, &account, &look);
        self.save(&ready, &account, (&before, last.as_ref()), places)?;
        if judged.stopped {
            complain(&stopped(asked, outcome.counts));
        }
        said
    }

    /// Saves what is asked for: the state, the signature, the page. What fails first is told, and the others are saved.
    fn save(
        &self,
        ready: &Ready,
        account: &Account,
        (before, last): (&State, Option<&Last>),
        (place, signature): (Option<Place>, Option<signature::Asked>),
    ) -> Result<(), String> {
        let saved = place.map_or(Ok(()), |place| {
            place.write(state_file::write(&ready.state).as_bytes())
        });
        let signed = signature.map_or(Ok(()), |signature| signature.write(&ready.state));
        let paged = last.map_or(Ok(()), |last| {
            let subject = self.subject(Some(ready));
            self.write_page(|| ran_page(&subject?, account, before, last))
        });
        saved.and(signed).and(paged)
    }

    /// Says that a byte of an image lies outside the board, on the page too; nothing is run.
    pub fn outside(&self, outside: &Outside) -> Result<Status, String> {
        let said = outside.reason();
        self.write_page(|| page::of(&self.subject(None)?, &Answer::Outside(said)))?;
        refused_outside(outside, self.asked.json)
    }

    /// What the page is about, with what is ready, if something is.
    pub fn subject(&self, ready: Option<&'a Ready>) -> Result<Subject<'a>, String> {
        let images = self.asked.images.iter().zip(self.files);
        let mut files: Vec<Source> = images
            .map(|(path, bytes)| Source::of(path, bytes))
            .collect();
        if let Some(path) = &self.asked.state {
            files.push(Source::of(path, &file::read(path)?));
        }
        let named = self.asked.map.as_ref().zip(self.board);
        Ok(Subject {
            files,
            board: named.map(|(path, board)| (Source::of(path, &board.bytes), &board.sheet)),
            segments: ready.map_or(&[], |ready| &ready.segments),
            fits: self.fits,
            notes: ready.map_or(&[], |ready| &ready.notes),
        })
    }

    /// Writes a page, if one is wanted.
    pub fn write_page(&self, page: impl FnOnce() -> Result<String, String>) -> Result<(), String> {
        let place = self.page.as_ref();
        place.map_or(Ok(()), |place| place.write(page()?.as_bytes()))
    }
}

/// Why nothing is run.
pub enum Halt {
    Refused(Refusal, Box<State>),
    /// A byte of an image lies outside the board.
    Outside(Outside),
    Bad(String),
}

impl Halt {
    /// Why, in words.
    pub fn said(self) -> String {
        match self {
            Halt::Refused(refusal, state) => report::refused(refusal, &state),
            Halt::Outside(outside) => outside.reason(),
            Halt::Bad(reason) => reason,
        }
    }
}

impl From<String> for Halt {
    fn from(reason: String) -> Halt {
        Halt::Bad(reason)
    }
}

/// What is there before the first step.
pub struct Ready {
    pub state: State,
    /// Whether it was saved, so that steps went before.
    pub resumed: bool,
    pub segments: Vec<Segment>,
    pub names: Names,
    pub stack: Option<Stack>,
    pub labels: Vec<(String, u32)>,
    pub lines: Lines,
    /// What is odd about the images: headers of another core, lost symbols, a start where nothing is.
    pub notes: Vec<String>,
}

/// The images in memory, and what is known of it.
pub fn ready(asked: &Run, files: &[&[u8]], map: Option<&Sheet>) -> Result<Ready, Halt> {
    let stack = stack(asked, map)?;
    let (mut state, images) = start(asked, files, map)?;
    set_words(asked, stack, &mut state);
    if let Err(refusal) = proved::run(&mut state, 0) {
        return Err(Halt::Refused(refusal, Box::new(state)));
    }
    revoke::set(&mut state, &asked.revoke)?;
    image::load(&mut state, &images.segments)?;
    let mut names = map.map_or(Vec::new(), Sheet::names);
    names.extend(images.names);
    Ok(Ready {
        state,
        resumed: asked.state.is_some(),
        segments: images.segments,
        names: Names(names),
        stack,
        labels: images.labels,
        lines: images.lines,
        notes: images.notes,
    })
}

/// The page of a run, with its last steps.
pub fn ran_page(
    subject: &Subject,
    account: &Account,
    before: &State,
    last: &Last,
) -> Result<String, String> {
    let last = last.lines(account.outcome.counts.steps(), LAST);
    let last = last.map_err(|refusal| refusal.reason().to_string())?;
    let answer = Answer::Ran {
        account,
        before,
        last,
    };
    page::of(subject, &answer)
}

/// The place of the page: no file that is read, nor the one that is saved to.
fn page_place(path: &Path, asked: &Run) -> Result<Place, String> {
    place_apart(path, asked, asked.save.as_deref().as_slice())
}

/// The place of something else than the state: no file that is read, nor one of these that are written.
pub fn place_apart(path: &Path, asked: &Run, written: &[&Path]) -> Result<Place, String> {
    let read = asked.images.iter().chain(&asked.map).chain(&asked.state);
    let read: Vec<&Path> = read.map(PathBuf::as_path).collect();
    Place::apart(path, &read, written)
}

/// What is said of a run that a signal stopped: after which steps, and what is saved of them.
fn stopped(asked: &Run, made: Counts) -> String {
    let (signal, steps) = (stop::name(), count(made.steps(), "step"));
    let files: Vec<String> = outputs(asked).map(visible::output).collect();
    match files.is_empty() {
        true => format!("{signal} came after {steps}; nothing was to be saved"),
        false => format!(
            "{signal} came after {steps}; saved up to there: {}",
            files.join(", ")
        ),
    }
}

/// The files that a run writes.
fn outputs(asked: &Run) -> impl Iterator<Item = &Path> {
    let signature = asked.signature.as_ref().and_then(|words| words.last());
    let files = [&asked.save, &asked.report].into_iter().flatten();
    let files = files.map(PathBuf::as_path);
    files.chain(signature.map(Path::new))
}

/// The board of a map sheet's file.
pub fn board(path: &Path) -> Result<Board, String> {
    Board::of(file::read(path)?).map_err(|bad| bad.shown(path))
}

/// The images that have a map sheet, where it is good; a bad one is told as the image is read.
pub fn labelled<'a>(asked: &'a Run, files: &[&'a [u8]]) -> Vec<Labelled<'a>> {
    let files = asked.images.iter().zip(files);
    let files = files.filter(|(_, bytes)| image::is_labelled(asked.format, bytes));
    files
        .filter_map(|(path, bytes)| Labelled::of(path, bytes).ok())
        .collect()
}

/// Each of them beside the board, where there is one.
pub fn fits<'a>(board: Option<&'a Board>, images: &'a [Labelled]) -> Vec<Beside<'a>> {
    let beside = |board: &'a Board| {
        images
            .iter()
            .map(|image| Beside::of(board, image))
            .collect()
    };
    board.map_or(Vec::new(), beside)
}

/// What is said before a run of the images that have a map sheet.
pub fn labels_told(asked: &Run, labelled: &[Labelled], fits: &[Beside]) -> String {
    let Some(board) = &asked.map else {
        let unchecked = |image: &Labelled| {
            let file = visible::name(image.path);
            format!("{file} has a map sheet; without a board's (--map) nothing was checked.\n")
        };
        return labelled.iter().map(unchecked).collect();
    };
    let told = fits
        .iter()
        .map(|image| format!("{}.\n", verdict(board, image)));
    told.collect()
}

/// Says that an image does not fit the board; nothing is run.
pub fn misfit(asked: &Run, image: &Beside) -> Result<Status, String> {
    if asked.json {
        say_json(&json::misfit(image))?;
    }
    let board = asked.map.as_deref().unwrap_or(Path::new(""));
    let (verdict, rows) = (verdict(board, image), rows(image));
    complain(&format!(
        "refused, number {NEITHER}: {verdict}\n{}",
        rows.trim_end()
    ));
    Ok(Status::Refused)
}

/// Says that a byte of an image lies outside the board; nothing is run.
pub fn refused_outside(outside: &Outside, as_json: bool) -> Result<Status, String> {
    if as_json {
        say_json(&json::refused_outside(outside))?;
    }
    complain(&format!("refused: {}", outside.reason()));
    Ok(Status::Refused)
}

/// The state to start from, a saved one or reset, and the images that go into its memory. No image has itself started in the
/// place of a file before it, also of one that names no start.
fn start(asked: &Run, files: &[&[u8]], map: Option<&Sheet>) -> Result<(State, Image), Halt> {
    let saved = asked.state.as_deref().map(read_state).transpose()?;
    let span = map.and_then(Sheet::span);
    let (map_start, map_size) = span.unwrap_or((DEFAULT_START, DEFAULT_SIZE));
    let start = asked.start.unwrap_or(map_start);
    let start = saved.as_ref().map_or(start, |state| state.start);
    let mut images = Image::default();
    let mut first = None;
    for (path, bytes) in asked.images.iter().zip(files) {
        let image = image::read(path, bytes, asked.format, start)?;
        let outside = map.and_then(|map| payload::outside(&image, &map.regions));
        outside.map_or(Ok(()), |outside| Err(Halt::Outside(outside)))?;
        first.get_or_insert(image.entry);
        images.segments.extend(image.segments);
        images.names.extend(image.names);
        images.labels.extend(image.labels);
        images.lines.0.extend(image.lines.0);
        images.notes.extend(image.notes);
    }
    if let Some(state) = saved {
        return Ok((state, images));
    }
    let entry = asked.entry.or(first.flatten()).unwrap_or(start);
    if !fetch::is_place(entry) {
        let odd = "odd, and an instruction's address is even";
        return Err(format!("the image's start, {entry:08x}, is {odd}").into());
    }
    if !images.segments.is_empty() && !images.segments.iter().any(|part| part.holds(entry)) {
        let note = format!("the program starts at {entry:08x}, where nothing is loaded");
        images.notes.push(note);
    }
    let size = asked.size.unwrap_or(map_size).min(MOST_SIZE);
    let mut state = State::reset(start, vec![0; size as usize], entry);
    state.edition = asked.edition.unwrap_or(Edition::Report).number();
    Ok(match window(asked, map, start)? {
        Some(window) => (windowed(state, window), images),
        None => (state, images),
    })
}

/// The window that is asked for, or the map's; none is all of memory.
fn window(asked: &Run, map: Option<&Sheet>, start: u32) -> Result<Option<Window>, String> {
    if let Some(&[start, size]) = asked.window.as_deref() {
        return Ok(Some(Window { start, size }));
    }
    let heap = map.and_then(|map| map.regions.iter().find(|region| region.name == HEAP));
    let Some(heap) = heap else {
        return Ok(None);
    };
    match heap.start.checked_sub(start) {
        Some(start) => Ok(Some(Window {
            start,
            size: heap.length,
        })),
        None => Err("the map's heap begins below memory's start; --window says which part".into()),
    }
}

/// The stack that is asked for, or the map's.
fn stack(asked: &Run, map: Option<&Sheet>) -> Result<Option<Stack>, String> {
    match asked.stack.as_deref() {
        Some(&[start, size]) => Stack::new(start, size).map(Some),
        _ => Ok(map.and_then(Stack::of_map)),
    }
}

/// Sets the mark for the stack at reset, and the timer as it is asked for.
fn set_words(asked: &Run, stack: Option<Stack>, state: &mut State) {
    if let (None, Some(stack)) = (&asked.state, stack) {
        stack.set_mark(state);
    }
    for (place, asked) in [(TIME, asked.time), (COMPARE, asked.compare)] {
        if let Some(number) = asked {
            state.set_long(place, number);
        }
    }
}

/// A state with a window. Where no memory could hold it, its bits are left as they are: the machine
/// refuses it before it looks at them.
fn windowed(state: State, window: Window) -> State {
    if window.end() > MOST_SIZE {
        return State { window, ..state };
    }
    state.with_window(window)
}

/// The place to save to. A state may be written over, to go on from it, but no image or sheet.
fn place(path: &Path, asked: &Run) -> Result<Place, String> {
    let read = asked.images.iter().chain(&asked.map);
    let read: Vec<&Path> = read.map(PathBuf::as_path).collect();
    Place::apart(path, &read, &[])
}

/// What a run that made its steps is refused for afterwards, where they cannot be made again.
fn refused_after(outcome: &Outcome) -> impl Fn(Refusal) -> Refused {
    let made = outcome.counts;
    move |refusal| Refused { refusal, made }
}

/// Runs, with a line a step or a bar of progress. Where the last steps are wanted, states are kept on the way.
fn drive(
    asked: &Run,
    ready: &mut Ready,
    last: Option<&mut Last>,
    (look, trial): (&mut Look, &Trial),
) -> Result<(Outcome, Option<Said>), Refused> {
    let (bar, heard) = (bar_of(asked), RefCell::default());
    let mut watch = Shown {
        asked,
        bar: &bar,
        last,
        number: 0,
        before: None,
        heard: &heard,
    };
    // Between lines of a trace, letters wait until their line is whole.
    let show = |text: &str| match (asked.json, asked.trace) {
        (true, _) => (),
        (_, true) => heard.borrow_mut().push_str(text),
        _ => bar.suspend(|| say_bytes(text.as_bytes()).unwrap_or(())),
    };
    let mut console = trial.console.map(|address| Console::new(address, &show));
    let mut hear = console
        .as_mut()
        .map(|console| |state: &State| console.hear(state));
    let mut plan = Plan {
        breaks: std::mem::take(&mut look.breaks),
        cover: look.cover.as_mut(),
        stored: hear.as_mut().map(|hear| hear as &mut dyn FnMut(&State)),
        leaves: asked.state.is_some(),
        ..trial.plan(&mut watch)
    };
    if asked.trace {
        plan.call = 1;
    }
    let outcome = drive::run(&mut ready.state, plan);
    bar.finish_and_clear();
    let said = console.map(Console::said);
    tell_heard(&heard);
    outcome.map(|outcome| (outcome, said))
}

/// Who is shown each call of a run, keeps states on the way and shows a line a step, or how far it has come.
struct Shown<'a> {
    asked: &'a Run,
    bar: &'a ProgressBar,
    last: Option<&'a mut Last>,
    number: u64,
    before: Option<Before>,
    /// What the program said that is not shown yet.
    heard: &'a RefCell<String>,
}

impl Watcher for Shown<'_> {
    fn before(&mut self, state: &State) {
        if let Some(last) = &mut self.last {
            last.see(self.number, state);
        }
        self.before = self.asked.trace.then(|| Before::of(state));
    }

    fn after(&mut self, state: &State, made: Counts) -> bool {
        self.number += made.steps();
        self.bar.set_position(self.number);
        let Some(before) = self.before.take() else {
            return true;
        };
        let line = trace::line(self.number, &before, state, made);
        let told = tell(self.asked.json, &line) && tell_heard(self.heard);
        told || outputs(self.asked).next().is_some()
    }
}

/// The bar of a long run.
fn bar_of(asked: &Run) -> ProgressBar {
    if asked.trace || asked.terms.steps <= MOST_STEPS {
        return ProgressBar::hidden();
    }
    progress::bar(asked.terms.steps, "steps")
}

/// The lines that a program has said whole, told apart from those of the trace, and whether they were written.
fn tell_heard(heard: &RefCell<String>) -> bool {
    let mut heard = heard.borrow_mut();
    let whole = heard.rfind('\n').map_or(0, |end| end + 1);
    let lines: Vec<String> = heard
        .drain(..whole)
        .as_str()
        .lines()
        .map(str::to_string)
        .collect();
    let mut lines = lines.iter();
    lines.all(|line| tell(false, &format!("{:>8}  console   {line}", "")))
}

/// A line of the trace, and whether it was written: whoever closes the output does not want the
/// rest.
fn tell(on_error: bool, line: &str) -> bool {
    if on_error {
        let _ = writeln!(std::io::stderr(), "{}", colour::error(line));
        return true;
    }
    writeln!(std::io::stdout(), "{}", colour::output(line)).is_ok()
}

/// Says how the run went, and what was seen of its steps.
fn conclude(asked: &Run, ready: &Ready, account: &Account, look: &Look) -> Result<Status, String> {
    if asked.json {
        let mut value = json::account(account);
        value["notes"] = ready.notes.clone().into();
        look.put(ready, &mut value);
        say_json(&value)?;
    } else {
        say(&report::run(account))?;
        say(&look.text(ready))?;
    }
    Ok(account.status())
}
