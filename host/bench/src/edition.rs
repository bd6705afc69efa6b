//! The editions of the architecture by name (document 02, 8), and what is said of a sentry that a jump does not take.

use crate::probe::jump::{is_return, takers, takes_returns, Jump};
use lent::{LATER_EDITION, REPORT_EDITION};

/// An edition that can be asked for.
#[derive(Clone, Copy, PartialEq, Eq, Debug, clap::ValueEnum)]
pub enum Edition {
    /// The CHERIoT report
    Report,
    /// The later one, which has return sentries
    Later,
}

impl Edition {
    /// Its number for the machine.
    pub fn number(self) -> u32 {
        match self {
            Edition::Report => REPORT_EDITION,
            Edition::Later => LATER_EDITION,
        }
    }
}

/// The name of an edition's number.
pub fn name(number: u32) -> &'static str {
    match number {
        REPORT_EDITION => "report",
        LATER_EDITION => "later",
        _ => "none",
    }
}

/// Why a jump by a sentry of a type was refused in an edition, by what the machine takes: it has none of that type, the jump
/// is another one than takes it, or, if it takes that type, its offset. `name` is the register's.
pub fn refusal(edition: u32, kind: u32, jump: Jump, name: &str) -> String {
    let takers = takers(kind, edition);
    let what = if is_return(kind) {
        "a return sentry"
    } else {
        "a sentry"
    };
    let said = match &takers[..] {
        takers if takers.contains(&jump) => {
            return format!("jump at an offset by {name}, which is {what}")
        }
        [] => "the later edition alone has those".into(),
        _ if takes_returns(jump, edition) => "a return takes return sentries alone".into(),
        takers => who(takers),
    };
    format!("jump by {name}, which is {what}: {said}")
}

/// Which jumps take a sentry: those with one link, or without one through one register.
fn who(takers: &[Jump]) -> String {
    let Jump { links, by } = takers[0];
    let same_link = takers.iter().all(|jump| jump.links == links);
    let same_register = takers.iter().all(|jump| jump.by == by);
    match (links, same_link, same_register) {
        (0, true, true) => format!("only a return takes it, through c{by} and without a link"),
        (1.., true, false) => format!("only a call takes it, which links c{links}"),
        _ => "only other jumps take it".into(),
    }
}

#[cfg(test)]
mod tests {
    use super::*;

    /// What a sealed target asks of a jump in the later edition, where the jump with these registers is another one.
    fn wanted(sealed: u32, cd: usize, cs1: usize) -> Option<&'static str> {
        let returns = (cd, cs1) == (0, 1);
        match sealed {
            1..=3 if returns => Some("a return takes return sentries alone"),
            2 | 3 if cd != 1 => Some("only a call takes it, which links c1"),
            4 | 5 if !returns => Some("only a return takes it, through c1 and without a link"),
            _ => None,
        }
    }

    #[test]
    fn each_kind_of_jump_is_told_what_it_does_not_take() {
        let pairs = (0..16).flat_map(|links| (1..16).map(move |by| Jump { links, by }));
        for (jump, kind) in pairs.flat_map(|jump| (1..6).map(move |kind| (jump, kind))) {
            let what = if kind > 3 {
                "a return sentry"
            } else {
                "a sentry"
            };
            let at_offset = format!("jump at an offset by cx, which is {what}");
            let said = |said: &str| format!("jump by cx, which is {what}: {said}");
            let told = wanted(kind, jump.links, jump.by).map_or(at_offset.clone(), said);
            assert_eq!(refusal(LATER_EDITION, kind, jump, "cx"), told, "{jump:?}");
            let told = match kind {
                1..=3 => at_offset,
                _ => said("the later edition alone has those"),
            };
            assert_eq!(refusal(REPORT_EDITION, kind, jump, "cx"), told, "{jump:?}");
        }
    }

    #[test]
    fn an_edition_has_its_number_and_its_name() {
        assert_eq!(Edition::Report.number(), 0);
        assert_eq!(Edition::Later.number(), 1);
        assert_eq!([0, 1, 2].map(name), ["report", "later", "none"]);
    }
}
