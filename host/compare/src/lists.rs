//! Lists of cuts, exact cuts, moves and narrowings on one capability (document 01, "Lists of
//! cuts, moves and narrowings"), of 0 to 40 calls, and lists that the interface refuses.

use crate::capabilities::{anything, sound_anywhere};
use crate::cuts::request;
use crate::random::Random;
use crate::Mismatch;
use second::calls::{call, calls};
use second::{bounds, Capability};

/// A list as it is lent: kinds 0 cut, 1 exact cut, 2 move, 3 narrowing; each with its length,
/// address or mask; and the words that take three for each call.
pub struct List {
    pub start: Capability,
    pub kinds: Vec<u32>,
    pub values: Vec<u32>,
    pub words: Vec<u32>,
}

/// A program that makes the calls of a list.
pub type Calls = fn(&mut List) -> u32;

/// Document 01's number for a tag word that is not 0 or 1.
pub const BAD_TAG: u32 = 4;
// The refusals of this interface alone; documents 01 and 02 use the numbers below 11.
pub const WRONG_SIZE: u32 = 11;
pub const UNKNOWN_KIND: u32 = 12;

const MOST_CALLS: u32 = 40;
/// What the lent words hold before a list, so that an unwritten one is seen.
const UNWRITTEN: u32 = 0xA5A5_5A5A;

/// All the calls of a list, without the interface.
pub type Plain = fn(Capability, &[(u32, u32)]) -> Vec<Capability>;

/// The second program behind the same interface.
pub fn second(list: &mut List) -> u32 {
    lent(list, calls)
}

/// A list behind the lent interface: its three refusals, the lowest number first, then the words
/// of every call.
pub fn lent(list: &mut List, calls: Plain) -> u32 {
    if list.start.tag > 1 {
        return BAD_TAG;
    }
    let count = list.kinds.len();
    if list.values.len() != count || list.words.len() != 3 * count {
        return WRONG_SIZE;
    }
    if list.kinds.iter().any(|&kind| kind > 3) {
        return UNKNOWN_KIND;
    }
    let both = list.kinds.iter().zip(&list.values);
    let pairs: Vec<_> = both.map(|(&kind, &value)| (kind, value)).collect();
    for (words, made) in list
        .words
        .chunks_exact_mut(3)
        .zip(calls(list.start, &pairs))
    {
        words.copy_from_slice(&[made.address, made.metadata, made.tag]);
    }
    0
}

/// A start: sound or anything, tagged or not, sealed or not.
fn start(random: &mut Random) -> Capability {
    let capability = match random.below(4) {
        0 => anything(random),
        _ => sound_anywhere(random),
    };
    match random.below(16) {
        0 => Capability {
            tag: 0,
            ..capability
        },
        _ => capability,
    }
}

/// A length, an address or a mask, at an edge of the capability that the call will be given.
fn argument(random: &mut Random, kind: u32, now: Capability) -> u32 {
    let (low, high) = bounds(now.address, now.metadata);
    match (kind, random.below(8)) {
        (0 | 1, 0..=3) => random.near((high as u32).wrapping_sub(now.address)),
        (0 | 1, 4) => request(random).1,
        (0 | 1, _) => random.sized(),
        (2, 0 | 1) => random.near(low),
        (2, 2 | 3) => random.near(high as u32),
        (2, 4 | 5) => random
            .near(low)
            .wrapping_add(512 << ((now.metadata >> 18) & 0xF)),
        (2, _) => random.number(),
        (_, 0..=3) => !(1 << random.below(12)),
        _ => random.word(),
    }
}

/// The next call. A careful list tries again where the tag would be lost, so that some lists keep
/// it to the end.
fn next_call(random: &mut Random, careful: bool, now: Capability) -> (u32, u32) {
    let tries = if careful { 8 } else { 1 };
    let mut made = (0, 0);
    for _ in 0..tries {
        let kind = random.below(4);
        made = (kind, argument(random, kind, now));
        if call(now, made.0, made.1).tag == now.tag {
            break;
        }
    }
    made
}

/// A list, made call by call so that each value lies near what the call will see.
fn list(random: &mut Random) -> List {
    let start = start(random);
    let careful = !random.one_in(3);
    let mut now = start;
    let (mut kinds, mut values) = (Vec::new(), Vec::new());
    for _ in 0..random.below(MOST_CALLS + 1) {
        let (kind, value) = next_call(random, careful, now);
        now = call(now, kind, value);
        kinds.push(kind);
        values.push(value);
    }
    let words = vec![UNWRITTEN; 3 * kinds.len()];
    List {
        start,
        kinds,
        values,
        words,
    }
}

/// Breaks a list in the ways that are refused: an unknown kind, a wrong size, a start tag above 1,
/// often several of them.
fn spoil(random: &mut Random, list: &mut List) {
    if random.one_in(2) && !list.kinds.is_empty() {
        let at = random.below(list.kinds.len() as u32) as usize;
        list.kinds[at] = random.pick([4, 5, 7, 0x8000_0000, u32::MAX]);
    }
    match random.below(6) {
        0 => list.values.push(0),
        1 => list.words.push(UNWRITTEN),
        2 => drop(list.words.pop()),
        3 => drop(list.kinds.pop()),
        4 => list.words.clear(),
        _ => {}
    }
    if random.one_in(4) {
        list.start.tag = random.pick([2, 3, 0x100, 0x8000_0001, u32::MAX]);
    }
}

/// What was compared: lists by their answer, calls of each kind that kept and that cleared a tag.
#[derive(Default, Debug)]
pub struct Totals {
    pub lists: u64,
    pub empty: u64,
    pub tagged_to_the_end: u64,
    pub bad_tag: u64,
    pub wrong_size: u64,
    pub unknown_kind: u64,
    pub calls: u64,
    pub kept: [u64; 4],
    pub cleared: [u64; 4],
}

impl Totals {
    /// Whether every kind of list and of call came up.
    pub fn complete(&self) -> bool {
        let lists = [
            self.empty,
            self.tagged_to_the_end,
            self.bad_tag,
            self.wrong_size,
            self.unknown_kind,
        ];
        let mut all = lists.iter().chain(&self.kept).chain(&self.cleared);
        all.all(|&count| count > 0)
    }

    fn count(&mut self, list: &List, number: u32) {
        self.lists += 1;
        match number {
            0 => self.count_calls(list),
            BAD_TAG => self.bad_tag += 1,
            WRONG_SIZE => self.wrong_size += 1,
            _ => self.unknown_kind += 1,
        }
    }

    fn count_calls(&mut self, list: &List) {
        let mut tag = list.start.tag;
        for (&kind, words) in list.kinds.iter().zip(list.words.chunks(3)) {
            self.calls += 1;
            self.kept[kind as usize] += u64::from(tag == 1 && words[2] == 1);
            self.cleared[kind as usize] += u64::from(tag == 1 && words[2] == 0);
            tag = words[2];
        }
        self.empty += u64::from(list.kinds.is_empty());
        self.tagged_to_the_end += u64::from(tag == 1 && !list.kinds.is_empty());
    }
}

/// Compares a program with the second one.
pub fn compare(ours: Calls, seed: u64, cases: u64) -> Result<Totals, Mismatch> {
    let mut totals = Totals::default();
    for case in 1..=cases {
        let mut random = Random::new(seed, case);
        let mut theirs = list(&mut random);
        if random.one_in(16) {
            spoil(&mut random, &mut theirs);
        }
        let mut mine = List {
            start: theirs.start,
            kinds: theirs.kinds.clone(),
            values: theirs.values.clone(),
            words: theirs.words.clone(),
        };
        let (my_number, number) = (ours(&mut mine), second(&mut theirs));
        totals.count(&theirs, number);
        if my_number != number || mine.words != theirs.words {
            let text = difference(&mine, my_number, &theirs, number);
            return Err(Mismatch { case, text });
        }
    }
    Ok(totals)
}

/// The list, and both answers with the words of the first call that differs.
fn difference(mine: &List, my_number: u32, theirs: &List, number: u32) -> String {
    let mut words = mine.words.iter().zip(&theirs.words);
    let call = words.position(|(a, b)| a != b).unwrap_or(0) / 3;
    let shown = |list: &List, number: u32| {
        let words: Vec<_> = list.words.iter().skip(3 * call).take(3).collect();
        format!("{number}, call {call}: {words:x?}")
    };
    let (start, kinds, values) = (theirs.start, &theirs.kinds, &theirs.values);
    let lent = theirs.words.len();
    let list =
        format!("start {start:x?}\n  kinds {kinds:x?}\n  values {values:x?}\n  words {lent}");
    let (ours, second) = (shown(mine, my_number), shown(theirs, number));
    format!("{list}\n  ours   {ours}\n  second {second}")
}

#[cfg(test)]
mod tests {
    use super::*;

    #[test]
    fn the_second_program_agrees_with_itself() {
        assert!(compare(second, 1, 5_000).unwrap().complete());
    }

    #[test]
    fn a_wrong_word_is_found() {
        let wrong = |list: &mut List| {
            let number = second(list);
            list.words.iter_mut().for_each(|word| *word |= 2);
            number
        };
        assert!(compare(wrong, 1, 100).is_err());
    }

    /// A start of the whole address space with a tag, one cut, and so many words lent for it.
    fn one_cut(tag: u32, words: usize) -> List {
        let start = Capability {
            address: 0,
            metadata: 0x7E3E_0000,
            tag,
        };
        List {
            start,
            kinds: vec![0],
            values: vec![64],
            words: vec![UNWRITTEN; words],
        }
    }

    #[test]
    fn a_start_tag_above_1_is_refused_before_all_else() {
        for tag in [2, 3, u32::MAX] {
            let mut list = one_cut(tag, 4);
            list.kinds[0] = 4;
            assert_eq!(second(&mut list), BAD_TAG);
            assert!(list.words.iter().all(|&word| word == UNWRITTEN));
        }
        assert_eq!(second(&mut one_cut(1, 4)), WRONG_SIZE);
        assert_eq!(second(&mut one_cut(1, 3)), 0);
    }

    #[test]
    fn a_program_that_takes_any_start_tag_is_found() {
        let wrong = |list: &mut List| {
            list.start.tag = list.start.tag.min(1);
            second(list)
        };
        assert!(compare(wrong, 1, 1_000).is_err());
    }
}
