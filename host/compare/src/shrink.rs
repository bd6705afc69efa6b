//! Makes a case on which two machines differ smaller while they still differ: fewer steps, then
//! words, bytes and bits set to zero.

use crate::machines::second;
use crate::state::{Call, Case};
use lent::{State, CAPABILITIES, MOST_STEPS};

/// The smaller case; `differs` says whether the machines differ on a case.
pub fn shrink(case: Case, differs: &dyn Fn(&Case) -> bool) -> Case {
    let mut case = fewer_steps(case, differs);
    for place in 0..CAPABILITIES {
        zero(&mut case, differs, |state| words(state, 3 * place, 3));
    }
    for index in 0..case.state.regs.len() {
        zero(&mut case, differs, |state| words(state, index, 1));
    }
    for size in [case.state.mem.len(), 1024, 64, 8, 4, 1] {
        for at in (0..case.state.mem.len()).step_by(size.max(1)) {
            zero(&mut case, differs, |state| bytes(&mut state.mem, at, size));
        }
    }
    for at in 0..case.state.tags.len() {
        zero(&mut case, differs, |state| bytes(&mut state.tags, at, 1));
    }
    for at in 0..case.state.revoked.len() {
        zero(&mut case, differs, |state| bytes(&mut state.revoked, at, 1));
    }
    case
}

/// The one step on which they differ, if there is one; else the fewest steps found.
fn fewer_steps(case: Case, differs: &dyn Fn(&Case) -> bool) -> Case {
    let Call::Run(steps) = case.call else {
        return case;
    };
    let mut now = Case {
        call: Call::Step,
        ..case.clone()
    };
    for _ in 0..steps.min(MOST_STEPS) {
        if differs(&now) {
            return now;
        }
        second(&mut now.state, Call::Step);
    }
    let shorter = (0..32).map(|power| (1u32 << power) - 1).chain(0..100);
    let shorter = shorter.filter(|&fewer| fewer < steps).map(|fewer| Case {
        state: case.state.clone(),
        call: Call::Run(fewer),
    });
    shorter.into_iter().find(differs).unwrap_or(case)
}

/// Tries one change, and takes it back if the machines then agree.
fn zero(case: &mut Case, differs: &dyn Fn(&Case) -> bool, change: impl Fn(&mut State)) {
    let before = case.state.clone();
    change(&mut case.state);
    if case.state != before && !differs(case) {
        case.state = before;
    }
}

fn words(state: &mut State, at: usize, count: usize) {
    state
        .regs
        .iter_mut()
        .skip(at)
        .take(count)
        .for_each(|word| *word = 0);
}

fn bytes(bytes: &mut [u8], at: usize, count: usize) {
    bytes
        .iter_mut()
        .skip(at)
        .take(count)
        .for_each(|byte| *byte = 0);
}

#[cfg(test)]
mod tests {
    use super::*;
    use crate::instructions::table;
    use crate::machines::{compare, Both, Machine};
    use lent::{Answer, WORDS};

    /// Leaves c5's address odd.
    const WRONG: Machine = |state, call| {
        let answer = second(state, call);
        let Answer {
            number, retired, ..
        } = Answer::of(answer);
        if number == 0 && retired != 0 {
            state.regs[15] |= 1;
        }
        answer
    };

    #[test]
    fn a_difference_stays_and_little_else() {
        let found = compare(WRONG, &table(), 1, 10_000, None).unwrap_err();
        let differs = |case: &Case| !Both::default().agree(WRONG, case);
        let small = shrink(found.case, &differs);
        assert!(differs(&small));
        assert_eq!(small.call, Call::Step);
        let kept = (0..WORDS)
            .filter(|&index| small.state.regs[index] != 0)
            .count();
        assert!(kept <= 6, "{kept} words are left");
    }
}
