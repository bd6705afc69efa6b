//! What a run is worth on its board: whether it ended, trapped, broke the map, left what was expected, or still runs.

use crate::console::Said;
use crate::drive::{End, Outcome};
use crate::map_stores::Stores;
use crate::Status;
use lent::Range;
use serde::{Deserialize, Serialize};
use serde_json::{json, Value};

/// The verdict on a run; the first of these that holds.
#[derive(Clone, Copy, PartialEq, Eq, Debug, Serialize, Deserialize)]
#[serde(rename_all = "lowercase")]
pub enum Verdict {
    /// A store went into a hole of the map, or into a region without w.
    Breaks,
    /// A step trapped, and nothing handles it.
    Trapped,
    /// A register or memory does not hold what was expected at the end.
    Wrong,
    /// The program has not ended: the steps were used up, it waits for its timer, or it jumps to itself where its end is not.
    Running,
    /// A signal stopped the run, or what is counted of it afterwards: it is not judged.
    Stopped,
    Good,
}

/// Something that had to be so at the end, and what was there.
#[derive(Clone, PartialEq, Eq, Debug)]
pub struct Compared {
    pub place: String,
    pub wanted: String,
    pub found: String,
}

impl Compared {
    fn met(&self) -> bool {
        self.wanted == self.found
    }

    /// In words.
    fn said(&self) -> String {
        let Compared {
            place,
            wanted,
            found,
        } = self;
        match self.met() {
            true => format!("{place} is {found}, as expected"),
            false => format!("{place} is {found}, and {wanted} was expected"),
        }
    }

    fn json(&self) -> Value {
        json!({ "place": self.place, "wanted": self.wanted, "found": self.found, "met": self.met() })
    }
}

/// What a run was judged by.
#[derive(Clone, Default, PartialEq, Eq, Debug)]
pub struct Judged {
    /// The watched ranges at the end.
    pub watched: Vec<Range>,
    /// Its stores by the map, where they were judged.
    pub map: Option<Stores>,
    pub compared: Vec<Compared>,
    pub console: Option<Said>,
    /// Whether there was a map, and its stores were not judged.
    pub map_off: bool,
    /// Whether a signal came before all was counted.
    pub stopped: bool,
    /// Whether a trap may be handled, whether it may still run at the end, and whether it has to end: a place or a value at
    /// its end was named.
    pub through_traps: bool,
    pub may_run_on: bool,
    pub exit_named: bool,
}

impl Judged {
    /// What was not as expected, in words.
    pub fn wrong(&self) -> Vec<String> {
        let wrong = self.compared.iter().filter(|compared| !compared.met());
        wrong.map(Compared::said).collect()
    }

    /// What was expected and what was found, a line each.
    pub fn values(&self) -> String {
        let lines = self.compared.iter();
        lines
            .map(|value| format!("Expected: {}.\n", value.said()))
            .collect()
    }

    pub fn verdict(&self, outcome: &Outcome) -> Verdict {
        let handled = self.through_traps || outcome.counts.trapped == 0;
        match outcome.end {
            _ if self.stopped => Verdict::Stopped,
            _ if self.map.as_ref().is_some_and(Stores::broken) => Verdict::Breaks,
            End::Trap(_) | End::Stuck(_) | End::Unhandled => Verdict::Trapped,
            _ if !handled => Verdict::Trapped,
            _ if !self.wrong().is_empty() => Verdict::Wrong,
            End::Astray => Verdict::Running,
            End::Steps | End::Break | End::Waits(_) if !self.may_run_on => Verdict::Running,
            _ => Verdict::Good,
        }
    }

    /// The status of a run by itself. Whoever asks for so many steps and names nothing of the end has them all, so that such
    /// a run is good where it had no trap.
    pub fn status(&self, outcome: &Outcome) -> Status {
        match self.verdict(outcome) {
            Verdict::Good => Status::Ran,
            Verdict::Running if self.exit_named && outcome.end != End::Break => Status::Running,
            Verdict::Running if outcome.counts.trapped > 0 => Status::Trapped,
            Verdict::Running => Status::Ran,
            Verdict::Stopped => Status::Stopped,
            _ => Status::Trapped,
        }
    }

    pub fn put(&self, outcome: &Outcome, value: &mut Value) {
        let verdict = serde_json::to_value(self.verdict(outcome));
        value["verdict"] = verdict.unwrap_or_default();
        value["map_stores"] = match &self.map {
            Some(map) => map.json(),
            None if self.map_off => "off".into(),
            None => Value::Null,
        };
        value["expected"] = self.compared.iter().map(Compared::json).collect();
        value["console"] = self.console.as_ref().map(Said::json).into();
    }
}

#[cfg(test)]
mod tests {
    use super::*;
    use crate::proved::Counts;

    fn outcome(end: End, trapped: u64) -> Outcome {
        let counts = Counts {
            retired: 1,
            trapped,
        };
        Outcome {
            counts,
            end,
            ..Outcome::default()
        }
    }

    fn judged(through_traps: bool, may_run_on: bool, exit_named: bool) -> Judged {
        Judged {
            through_traps,
            may_run_on,
            exit_named,
            ..Judged::default()
        }
    }

    #[test]
    fn ends_are_told_apart() {
        let ends = [
            End::Still,
            End::Exit,
            End::Steps,
            End::Break,
            End::Waits(9),
            End::Astray,
            End::Stuck(1),
            End::Unhandled,
        ];
        let verdicts = |judged: &Judged, trapped| {
            let verdict = |end: &End| judged.verdict(&outcome(end.clone(), trapped));
            ends.iter().map(verdict).collect::<Vec<Verdict>>()
        };
        use Verdict::{Good, Running, Trapped};
        let plain = [
            Good, Good, Running, Running, Running, Running, Trapped, Trapped,
        ];
        assert_eq!(verdicts(&judged(false, false, false), 0), plain);
        assert_eq!(verdicts(&judged(true, false, false), 7), plain);
        assert_eq!(verdicts(&judged(false, false, false), 7), [Trapped; 8]);
        let on = [Good, Good, Good, Good, Good, Running, Trapped, Trapped];
        assert_eq!(verdicts(&judged(true, true, false), 7), on);
    }

    #[test]
    fn a_run_has_the_status_of_its_verdict() {
        let status = |judged: &Judged, end, trapped| judged.status(&outcome(end, trapped)).code();
        let plain = judged(false, false, false);
        assert_eq!(status(&plain, End::Steps, 0), 0);
        assert_eq!(status(&judged(false, false, true), End::Steps, 0), 5);
        assert_eq!(status(&judged(false, false, true), End::Break, 0), 0);
        assert_eq!(status(&judged(false, true, true), End::Steps, 0), 0);
        assert_eq!(status(&judged(true, false, false), End::Steps, 1), 1);
        assert_eq!(status(&judged(true, true, false), End::Steps, 1), 0);
        assert_eq!(status(&judged(true, false, false), End::Still, 1), 0);
        assert_eq!(status(&judged(true, true, false), End::Stuck(2), 1), 1);
        assert_eq!(status(&judged(true, true, false), End::Unhandled, 1), 1);
        // Where an end is named, that it was not come to is said before that traps were handled.
        assert_eq!(status(&judged(true, false, true), End::Steps, 1), 5);
        assert_eq!(status(&judged(false, true, true), End::Astray, 0), 5);
        assert_eq!(status(&judged(false, false, true), End::Waits(9), 0), 5);
        assert_eq!(status(&judged(false, false, false), End::Waits(9), 0), 0);
        assert_eq!(status(&judged(true, false, false), End::Waits(9), 1), 1);
    }

    #[test]
    fn what_was_expected_and_is_not_there_makes_a_run_wrong() {
        let value = |found: &str| Compared {
            place: "c10".into(),
            wanted: "0000002a".into(),
            found: found.into(),
        };
        let with = |found: &str| Judged {
            compared: vec![value(found)],
            ..Judged::default()
        };
        let ended = outcome(End::Still, 0);
        assert_eq!(with("0000002a").verdict(&ended), Verdict::Good);
        assert_eq!(with("0000002b").verdict(&ended), Verdict::Wrong);
        let said = "Expected: c10 is 0000002b, and 0000002a was expected.\n";
        assert_eq!(with("0000002b").values(), said);
    }
}
