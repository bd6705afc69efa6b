//! The two editions (document 02, 8), whole: jumps through every type of every pair of registers, with
//! and without an offset, from each interrupt status, in both; jumps that go nowhere by a capability;
//! and every other edition with each set of reasons to refuse. Nothing is drawn: each case is there once.

use crate::machines::{Both, Differing, Machine};
use crate::state::{Call, Case};
use lent::{
    Answer, Capability, State, EXECUTABLE_ROOT, LATER_EDITION, MEMORY_ROOT, MEPCC, MOST_STEPS,
    MSTATUS, MTCC, MTVAL, PCC, REPORT_EDITION,
};
use std::fmt;

const START: u32 = 0x2000_0000;
const SIZE: usize = 256;
const TARGET: u32 = START + 0x40;
const HANDLER: u32 = START + 0x80;
/// Where the three bits of a type stand in the metadata.
const TYPE: u32 = 22;

const EDITIONS: [u32; 2] = [REPORT_EDITION, LATER_EDITION];
/// What is no edition.
const OTHERS: [u32; 6] = [2, 3, 7, 0x100, 0x8000_0001, u32::MAX];
/// MIE off and on, with the other bits clear, as they were and set.
const STATUSES: [u32; 6] = [0, 0x08, 0x80, 0x88, 0xFFFF_FFF7, 0xFFFF_FFFF];
const OFFSETS: [u32; 4] = [0, 4, 1, 0xFFE];
const TYPES: u32 = 8;
/// Executable, and not; tagged, and not.
const TARGETS: [(u32, u32); 3] = [(EXECUTABLE_ROOT, 1), (MEMORY_ROOT, 1), (EXECUTABLE_ROOT, 0)];
const REGISTERS: u32 = 16;

/// The kinds of pairs that the later edition tells apart.
const KINDS: [&str; 3] = ["a return", "a call", "another jump"];

fn kind(cd: u32, cs1: u32) -> usize {
    match (cd, cs1) {
        (0, 1) => 0,
        (1, _) => 1,
        _ => 2,
    }
}

/// The types that each kind of jump takes where nothing else stops it; unsealed ones always.
const TAKEN: [[&[u32]; 3]; 2] = [
    [&[0, 1, 2, 3], &[0, 1, 2, 3], &[0, 1, 2, 3]],
    [&[0, 4, 5], &[0, 1, 2, 3], &[0, 1]],
];

/// A jump.
#[derive(Clone, Copy)]
enum Jump {
    /// CJALR, or the short word that it is where the pair has one.
    Long {
        cd: u32,
        cs1: u32,
        offset: u32,
    },
    Short {
        cd: u32,
        cs1: u32,
    },
    /// CJAL, and its short words.
    Near {
        cd: u32,
    },
    ShortNear {
        cd: u32,
    },
}

impl Jump {
    fn word(self) -> u32 {
        match self {
            Jump::Long { cd, cs1, offset } => offset << 20 | cs1 << 15 | cd << 7 | 0x67,
            Jump::Short { cd, cs1 } => 0x8002 | cd << 12 | cs1 << 7,
            // To 0x40 bytes on.
            Jump::Near { cd } => 0x0400_006F | cd << 7,
            Jump::ShortNear { cd: 0 } => 0xA081,
            Jump::ShortNear { .. } => 0x2081,
        }
    }

    /// The registers of the link and of the target.
    fn registers(self) -> Option<(u32, u32)> {
        match self {
            Jump::Long { cd, cs1, .. } | Jump::Short { cd, cs1 } => Some((cd, cs1)),
            Jump::Near { .. } | Jump::ShortNear { .. } => None,
        }
    }

    fn offset(self) -> u32 {
        match self {
            Jump::Long { offset, .. } => offset,
            _ => 0,
        }
    }
}

/// Every jump.
fn jumps() -> Vec<Jump> {
    let mut jumps = Vec::new();
    for cd in 0..REGISTERS {
        for cs1 in 0..REGISTERS {
            for offset in OFFSETS {
                jumps.push(Jump::Long { cd, cs1, offset });
            }
            if cd < 2 && cs1 != 0 {
                jumps.push(Jump::Short { cd, cs1 });
            }
        }
        jumps.push(Jump::Near { cd });
    }
    jumps.extend([0, 1].map(|cd| Jump::ShortNear { cd }));
    jumps
}

/// What both machines did, counted.
#[derive(Default)]
pub struct Totals {
    cases: u64,
    near: u64,
    untagged: u64,
    with_offset: u64,
    data: u64,
    /// By edition, kind of pair and type: taken, and refused as sealed.
    taken: [[[u64; 8]; 3]; 2],
    shut: [[[u64; 8]; 3]; 2],
    /// By the number of the answer.
    refused: [u64; 9],
    faults: Vec<String>,
}

impl Totals {
    /// What was not as the table has it.
    pub fn faults(&self) -> Vec<String> {
        let mut faults = self.faults.clone();
        for (edition, kinds) in TAKEN.iter().enumerate() {
            for (kind, types) in kinds.iter().enumerate() {
                for sealed in 0..8 {
                    let (taken, shut) = (
                        self.taken[edition][kind][sealed],
                        self.shut[edition][kind][sealed],
                    );
                    let wanted = types.contains(&(sealed as u32));
                    if (taken > 0, shut > 0) != (wanted, !wanted) {
                        let kind = KINDS[kind];
                        faults.push(format!(
                            "edition {edition}, {kind}, type {sealed}: taken {taken}, shut {shut}"
                        ));
                    }
                }
            }
        }
        for number in [1, 2, 3, 4, 5, 7, 8] {
            if self.refused[number] == 0 {
                faults.push(format!("not reached: refusal {number}"));
            }
        }
        faults
    }

    /// Counts a jump by what the second program left.
    fn count(&mut self, edition: usize, jump: Jump, target: Capability, both: &Both) {
        let retired = Answer::of(both.their_answer).retired == 1;
        let Some((cd, cs1)) = jump.registers() else {
            self.near += u64::from(retired);
            return;
        };
        if target.tag == 0 || cs1 == 0 {
            self.untagged += 1;
        } else if jump.offset() != 0 {
            self.with_offset += 1;
        } else if target.metadata & !(7 << TYPE) == MEMORY_ROOT {
            self.data += 1;
        } else {
            let sealed = (target.metadata >> TYPE & 7) as usize;
            let counts = if retired {
                &mut self.taken
            } else {
                &mut self.shut
            };
            counts[edition][kind(cd, cs1)][sealed] += 1;
            if !retired && both.theirs.regs[MTVAL] != cs1 * 32 + 3 {
                self.faults
                    .push(format!("no seal violation: {:08x}", jump.word()));
            }
        }
    }
}

impl Totals {
    /// Counts a call that may be refused, and then leaves all as it was.
    fn count_refusal(&mut self, case: &Case, both: &Both) {
        let number = Answer::of(both.their_answer).number as usize;
        self.refused[number] += 1;
        if number != 0 && both.theirs != case.state {
            self.faults
                .push(format!("refusal {number} changed something"));
        }
    }
}

impl fmt::Display for Totals {
    fn fmt(&self, text: &mut fmt::Formatter) -> fmt::Result {
        for edition in 0..2 {
            for (kind, name) in KINDS.iter().enumerate() {
                write!(text, "edition {edition}, {name:13}")?;
                for sealed in 0..8 {
                    let taken = self.taken[edition][kind][sealed];
                    let shut = self.shut[edition][kind][sealed];
                    write!(text, "  type {sealed}: {taken} taken, {shut} shut")?;
                }
                writeln!(text)?;
            }
        }
        writeln!(
            text,
            "with an offset {}, not executable {}, untagged {}, to a place by PCC {}",
            self.with_offset, self.data, self.untagged, self.near
        )?;
        for number in [1, 2, 3, 4, 5, 7, 8] {
            write!(text, "refused {number}: {}  ", self.refused[number])?;
        }
        write!(text, "\n{} cases", self.cases)
    }
}

/// The case of a jump.
fn jump_case(edition: u32, status: u32, jump: Jump, target: Capability) -> Case {
    let mut state = State::new(START, vec![0; SIZE]);
    state.edition = edition;
    state.set(PCC, Capability::tagged(START, EXECUTABLE_ROOT));
    state.set(MTCC, Capability::tagged(HANDLER, EXECUTABLE_ROOT));
    if let Some((_, cs1 @ 1..)) = jump.registers() {
        state.set(cs1 as usize, target);
    }
    state.regs[MSTATUS] = status;
    state.write(START, &jump.word().to_le_bytes());
    Case {
        state,
        call: Call::Step,
    }
}

/// The case of another edition, with those of the reasons 1 to 5 that the bits tell, and the sixth for 8.
fn refused_case(edition: u32, reasons: u32, call: Call) -> Case {
    let wanted = |reason: u32| reasons >> (reason - 1) & 1 == 1;
    let mut case = jump_case(edition, 8, Jump::Near { cd: 1 }, Capability::integer(0));
    case.call = call;
    if wanted(6) {
        let unsound = Capability::tagged(0, EXECUTABLE_ROOT | 1 << 9);
        case.state.set(MEPCC, unsound);
    }
    if wanted(4) {
        case.state.regs[5] = 2;
    }
    if wanted(1) {
        case.state.regs.push(0);
    }
    if wanted(2) {
        case.state.start += 4;
    }
    if wanted(3) {
        case.state.tags.pop();
    }
    if wanted(5) {
        case.call = Call::Run(MOST_STEPS + 1);
    }
    case
}

/// Every target: each type, executable or not, tagged or not.
fn targets() -> Vec<Capability> {
    let of_type = |sealed: u32| {
        TARGETS.map(|(root, tag)| Capability {
            address: TARGET,
            metadata: root | sealed << TYPE,
            tag,
        })
    };
    (0..TYPES).flat_map(of_type).collect()
}

/// Every edition with every interrupt status.
fn settings() -> Vec<(u32, u32)> {
    let with = |edition| STATUSES.map(|status| (edition, status));
    EDITIONS.into_iter().flat_map(with).collect()
}

/// Every other edition, and those that are, with every set of reasons.
fn refusals() -> Vec<(u32, u32)> {
    let editions = OTHERS.into_iter().chain(EDITIONS);
    editions
        .flat_map(|edition| (0..64).map(move |reasons| (edition, reasons)))
        .collect()
}

/// Compares a machine with the second program on all of it.
pub fn compare(ours: Machine) -> Result<Totals, Box<Differing>> {
    let mut totals = Totals::default();
    let mut both = Both::default();
    let (jumps, targets) = (jumps(), targets());
    for (edition, status) in settings() {
        for (&jump, &target) in jumps
            .iter()
            .flat_map(|jump| targets.iter().map(move |target| (jump, target)))
        {
            let case = jump_case(edition, status, jump, target);
            agreed(&mut both, ours, &mut totals, &case)?;
            totals.count(edition as usize, jump, target, &both);
        }
    }
    for (edition, reasons) in refusals() {
        for call in [Call::Step, Call::Run(0), Call::Run(3)] {
            let case = refused_case(edition, reasons, call);
            agreed(&mut both, ours, &mut totals, &case)?;
            totals.count_refusal(&case, &both);
        }
    }
    Ok(totals)
}

/// Counts a case on which both agree.
fn agreed(
    both: &mut Both,
    ours: Machine,
    totals: &mut Totals,
    case: &Case,
) -> Result<(), Box<Differing>> {
    totals.cases += 1;
    if both.agree(ours, case) {
        return Ok(());
    }
    Err(Box::new(Differing {
        number: totals.cases,
        case: case.clone(),
    }))
}

#[cfg(test)]
mod tests {
    use super::*;
    use crate::machines::second;

    #[test]
    fn the_second_program_has_the_table() {
        let totals = compare(second).unwrap_or_else(|found| panic!("case {}", found.number));
        assert_eq!(totals.faults(), Vec::<String>::new());
    }

    #[test]
    fn each_jump_is_the_word_that_it_says() {
        use ::second::decode::{instruction, Instruction};
        for jump in jumps() {
            let shown = instruction(jump.word());
            match shown {
                Some(Instruction::Cjalr { cd, cs1, offset }) => {
                    assert_eq!(jump.registers(), Some((cd.number(), cs1.number())));
                    assert_eq!(jump.offset() != 0, offset != 0);
                }
                Some(Instruction::Cjal { offset, .. }) => {
                    assert!(jump.registers().is_none() && offset < 0x80);
                }
                _ => panic!("{:08x}", jump.word()),
            }
        }
    }
}
