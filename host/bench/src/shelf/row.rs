//! A row of a shelf: what came of one image, in plain words and numbers. The same row is kept, and shown in every form.

use crate::account::Account;
use crate::drive::End;
use crate::proved::instruction;
use crate::reach::{self, text};
use crate::report;
use crate::stack::Used;
use crate::verdict::Verdict;
use serde::{Deserialize, Serialize};

/// What an image's label says beside the board.
#[derive(Clone, Copy, PartialEq, Eq, Debug, Serialize, Deserialize)]
#[serde(rename_all = "lowercase")]
pub enum Label {
    Fits,
    Misfit,
    /// It has none.
    None,
    /// The file could not be judged.
    Bad,
}

/// How a run went.
#[derive(Clone, Copy, PartialEq, Eq, Debug, Serialize, Deserialize)]
#[serde(rename_all = "lowercase")]
pub enum Ran {
    /// To its end: it jumps to itself, or came to where it ends.
    Ended,
    /// It has not come to its end, by the steps that were asked for or where it stands.
    Running,
    Trapped,
    /// It was not run.
    No,
}

/// Whether every run from the handover on keeps to what was asked for.
#[derive(Clone, Copy, PartialEq, Eq, Debug, Serialize, Deserialize)]
#[serde(rename_all = "lowercase")]
pub enum Kept {
    Holds,
    /// A run could do what none may.
    Could,
    /// The handover is no place of the image, or was not reached.
    Missed,
}

#[derive(Clone, PartialEq, Eq, Debug, Serialize, Deserialize)]
pub struct Row {
    pub file: String,
    pub bytes: u64,
    pub sha256: String,
    pub label: Label,
    pub run: Ran,
    /// What the run is worth on the board, where there was one.
    pub verdict: Option<Verdict>,
    /// Why it does not fit, cannot be run, trapped or is not good.
    pub why: String,
    pub retired: Option<u64>,
    pub trapped: Option<u64>,
    /// Where it trapped, by which instruction, what was asked and what its authority allows.
    pub at: Option<u32>,
    pub instruction: Option<String>,
    pub asked_low: Option<u32>,
    pub asked_high: Option<u64>,
    pub bounds_low: Option<u32>,
    pub bounds_high: Option<u64>,
    pub stack_used: Option<u64>,
    pub stack_size: Option<u64>,
    pub stack_mark: Option<u32>,
    /// How many stores broke the map, where they were judged.
    pub map_stores: Option<u64>,
    /// The stores into the watched ranges, parted by spaces.
    pub watch: Option<String>,
    /// The first of what it said.
    pub console: Option<String>,
    /// What its header says of another core.
    pub note: Option<String>,
    /// Where a handover is asked for: the steps to it, what any run from there may do, by the names of regions, and whether
    /// it keeps to what was asked for.
    pub handover: Option<u64>,
    pub may_write: Option<String>,
    pub may_read: Option<String>,
    pub may_execute: Option<String>,
    pub kept: Option<Kept>,
}

/// What an image counts as on its shelf: the first of these that holds, so that every image is counted once.
#[derive(Clone, Copy, PartialEq, Eq, Debug)]
pub enum Kind {
    Misfit,
    /// It could not be judged or run.
    Bad,
    /// A run from the handover on could do what none may.
    Could,
    Breaks,
    Trapped,
    Wrong,
    /// The handover is not reached.
    Missed,
    Running,
    /// All is well, but that there is no label to be judged by.
    Unlabelled,
    Good,
}

/// The most bytes of what an image said.
const MOST_SAID: usize = 1 << 10;

impl Row {
    /// The row of an image of which nothing is known yet.
    pub fn new(file: String, bytes: u64, sha256: String) -> Row {
        Row {
            file,
            bytes,
            sha256,
            label: Label::Bad,
            run: Ran::No,
            verdict: None,
            why: String::new(),
            retired: None,
            trapped: None,
            at: None,
            instruction: None,
            asked_low: None,
            asked_high: None,
            bounds_low: None,
            bounds_high: None,
            stack_used: None,
            stack_size: None,
            stack_mark: None,
            map_stores: None,
            watch: None,
            console: None,
            note: None,
            handover: None,
            may_write: None,
            may_read: None,
            may_execute: None,
            kept: None,
        }
    }

    /// Takes up what a run came to.
    pub fn take(&mut self, account: &Account) {
        let (outcome, trap) = (account.outcome, account.trap.as_ref());
        self.run = match outcome.end {
            End::Still | End::Exit => Ran::Ended,
            End::Steps | End::Break | End::Waits(_) | End::Astray | End::Stopped => Ran::Running,
            End::Trap(_) | End::Stuck(_) | End::Unhandled => Ran::Trapped,
        };
        self.judge(account);
        self.retired = Some(outcome.counts.retired);
        self.trapped = Some(outcome.counts.trapped);
        // A trap that was handled is not why.
        let stopped = account.verdict() == Verdict::Trapped;
        if let Some(trap) = trap.filter(|_| stopped) {
            self.why.clone_from(&trap.cause);
            self.say_also(&report::unended(account.state, outcome));
            self.at = Some(trap.pcc.address);
            self.instruction = trap.word.map(instruction);
        }
        let trap = trap.filter(|_| stopped);
        let asked = trap.and_then(|trap| trap.asked);
        self.asked_low = asked.map(|asked| asked.address);
        self.asked_high = asked.map(|asked| asked.end());
        let bounds = trap.and_then(|trap| Some(trap.authority.as_ref()?.bounds));
        self.bounds_low = bounds.map(|bounds| bounds.low);
        self.bounds_high = bounds.map(|bounds| bounds.high);
        let used = Used::of(account.state, account.stack);
        self.stack_mark = used.map(|used| used.mark);
        (self.stack_used, self.stack_size) = used.and_then(|used| used.bytes).unzip();
    }

    /// Takes up what it is judged by.
    fn judge(&mut self, account: &Account) {
        let (judged, verdict) = (account.judged, account.verdict());
        self.verdict = Some(verdict);
        self.why = match (verdict, &judged.map) {
            (Verdict::Breaks, Some(map)) => map.why(),
            (Verdict::Wrong, _) => judged.wrong().join("; "),
            (Verdict::Good, _) => String::new(),
            _ => report::unended(account.state, account.outcome),
        };
        self.map_stores = judged.map.as_ref().map(|map| map.all);
        let counts = judged.watched.iter().map(|range| range.count.to_string());
        let counts: Vec<String> = counts.collect();
        self.watch = (!counts.is_empty()).then(|| counts.join(" "));
        let said = judged.console.as_ref();
        self.console = said.map(|said| said.text(MOST_SAID));
    }

    /// Takes up what any run from the handover on may do.
    pub fn take_reach(&mut self, account: &reach::Account) {
        self.handover = account.steps;
        let [write, read, execute] = [0, 1, 2].map(|deed| Some(account.may(deed).join(" ")));
        (self.may_write, self.may_read, self.may_execute) = (write, read, execute);
        let broken = account.judged();
        let broken = broken.filter(|judged| !judged.broken.is_empty());
        let broken: Vec<String> = broken.map(|judged| text::verdict(&judged)).collect();
        self.kept = Some(match broken.is_empty() {
            true => Kept::Holds,
            false => Kept::Could,
        });
        let broken = broken.iter().map(|verdict| verdict.trim_end_matches('.'));
        self.say_also(&broken.collect::<Vec<&str>>().join("; "));
    }

    /// Takes up that the handover was not reached, and why.
    pub fn miss(&mut self, why: &str) {
        self.kept = Some(Kept::Missed);
        self.say_also(why);
    }

    /// Says one thing more of why the image is not good.
    fn say_also(&mut self, why: &str) {
        if !self.why.is_empty() && !why.is_empty() {
            self.why.push_str("; ");
        }
        self.why.push_str(why);
    }

    pub fn kind(&self) -> Kind {
        match (self.label, self.verdict, self.kept) {
            (Label::Misfit, ..) => Kind::Misfit,
            (_, None, _) => Kind::Bad,
            (.., Some(Kept::Could)) => Kind::Could,
            (_, Some(Verdict::Breaks), _) => Kind::Breaks,
            (_, Some(Verdict::Trapped), _) => Kind::Trapped,
            (_, Some(Verdict::Wrong), _) => Kind::Wrong,
            (.., Some(Kept::Missed)) => Kind::Missed,
            (_, Some(Verdict::Running | Verdict::Stopped), _) => Kind::Running,
            (Label::None | Label::Bad, ..) => Kind::Unlabelled,
            (Label::Fits, Some(Verdict::Good), _) => Kind::Good,
        }
    }

    /// Whether all that is amiss is that it still runs.
    pub fn runs_on(&self) -> bool {
        self.label == Label::Fits && self.kind() == Kind::Running
    }
}
