//! What the machine comparison reached, counted for every cell that the papers make reachable:
//! each instruction with each thing it can do, products and quotients of each pair of extremes,
//! each question of the load filter, each failed fetch of a first half and of a second, words of both lengths that are no
//! instruction, each refusal alone and with each later one, times by compare, interrupts before each failed
//! fetch, stores by the stack mark, CSR writes of it, and runs.

use crate::filter::{self, PLACES, QUESTIONS};
use crate::instructions::{BOUNDS, EXECUTE, FETCH_ACCESS, FETCH_MISALIGNED, ILLEGAL, SEAL, TAG};
use crate::machines::second;
use crate::mark::{self, CSR_SOURCES, STORE_PLACES};
use crate::refusals::{
    memory_allowed, reasons, unsound_places, window_faults, NUMBERS, REASONS, WINDOW_FAULTS,
};
use crate::rows::{Aim, Outcome, Row, Table, COLUMNS, EXTREMES};
use crate::state::{as_second, Call, Case};
use crate::timer::{Times, TURNS};
use lent::{instruction_bytes, place_name, Answer, State, CAPABILITIES, MCAUSE, MTVAL, PCC};
use lent::{COMPARE, MIE, MSHWM, MSTATUS, TIME, TIMER_INTERRUPT};
use second::capability::{has, in_bounds, is_sealed, EX};
use std::fmt::Write;

/// The opcodes under which a word can be no instruction whatever registers it names; the last
/// stands for every opcode that has no instruction.
const OPCODES: [u32; 10] = [0x03, 0x0F, 0x13, 0x23, 0x33, 0x5B, 0x63, 0x67, 0x73, 0x00];

/// The short words among which some are no instruction whatever registers they name, by quadrant and
/// funct3: reserved ones, floating point, shifts by 32 and more, and words of RV64.
const HALVES: [u32; 12] = [
    0x0000, 0x2000, 0x8000, 0xA000, 0x6001, 0x8001, 0x0002, 0x2002, 0x4002, 0x6002, 0x8002, 0xA002,
];

/// Pairs of extremes.
const PAIRS: usize = EXTREMES.len() * EXTREMES.len();

/// What a bad window comes with: nothing, another reason, or memory that is refused by the same number.
const WITH: [&str; 8] = [
    "alone",
    "with reason 1",
    "with memory's own limits",
    "with reason 3",
    "with reason 4",
    "with reason 5",
    "with reason 7",
    "with reason 8",
];

/// Where the step before the last left what no start may hold, and whether the last one retired.
const UNSOUND: [&str; 6] = [
    "unsound in a general register, then a trap",
    "unsound in a general register, then a step that retired",
    "unsound in PCC, then a trap",
    "unsound in PCC, then a step that retired",
    "unsound in a special register, then a trap",
    "unsound in a special register, then a step that retired",
];

/// Kinds of runs.
const RUNS: [&str; 8] = [
    "runs of 0 steps",
    "runs of 1 to 199 steps",
    "runs of 200 to 20,000 steps",
    "runs of 1,000,000 steps",
    "runs that retired over 1,000 steps",
    "followed runs that executed a word they had written",
    "followed runs that were interrupted after a step that was not",
    "followed runs in which a store lowered the mark",
];

/// Register files that are too short or too long by few words: those of before the mark and the timer, and
/// those with a word less or more than now.
const LENGTHS: [usize; 3] = [66, 71, 73];

/// The counts.
pub struct Coverage {
    rows: Vec<[u64; COLUMNS]>,
    /// Of each row, the pairs of extremes that it retired with.
    pairs: Vec<[u64; PAIRS]>,
    /// What the load filter was asked, and where the low bounds lay.
    filter: [u64; QUESTIONS],
    places: [u64; PLACES],
    fetch: [u64; COLUMNS],
    /// Of a long word whose first half passed; apart from those whose second half would be at 2^32.
    second_half: [u64; COLUMNS],
    second_half_at_top: [u64; COLUMNS],
    unknown: [u64; OPCODES.len()],
    unknown_halves: [u64; HALVES.len()],
    refused: [u64; NUMBERS],
    refused_also: [[u64; NUMBERS]; NUMBERS],
    /// Windows that break one limit, with nothing else or with each other reason.
    windows: [[u64; WITH.len()]; WINDOW_FAULTS.len()],
    runs: [u64; RUNS.len()],
    unsound: [u64; UNSOUND.len()],
    /// Register files with one thing that no start may hold, by its place.
    unsound_starts: [u64; CAPABILITIES],
    lengths: [u64; LENGTHS.len()],
    /// Steps by their time, and what an interrupt came before: a failed fetch, by column, or an instruction.
    times: Times,
    interrupts: [u64; COLUMNS],
    /// Runs of two steps whose first changes MIE one step before compare.
    turns: [u64; TURNS.len()],
    /// Of each row, where its stores lay by the mark, and what its CSR instructions wrote to the pair.
    stores: Vec<[u64; STORE_PLACES]>,
    sources: Vec<[u64; CSR_SOURCES]>,
    retired: u64,
    trapped: u64,
    /// Answers that are not the lowest reason there is to refuse.
    misrefused: u64,
    /// Words that are no instruction and did not trap as illegal.
    misread: u64,
    /// Steps that were interrupted and should not have been, or should have been and were not.
    misinterrupted: u64,
}

/// What a fetch finds.
enum Fetched {
    /// An instruction; a short one has zeros above it.
    Word(u32),
    /// The first half fails a check, or the second one does.
    First,
    Second,
}

/// The fetch at PCC (documents 01, "Traps", and 02, 3).
fn fetched(state: &State) -> Fetched {
    let pcc = as_second(state.capability(PCC));
    let usable = pcc.tag == 1 && !is_sealed(pcc.metadata) && has(pcc.metadata, EX);
    let here = in_bounds(pcc, pcc.address, 2) && pcc.address.is_multiple_of(2);
    match state.half(pcc.address) {
        Some(half) if usable && here => {
            let whole = instruction_bytes(half.into()) == 2 || in_bounds(pcc, pcc.address, 4);
            let word = state.instruction(pcc.address).filter(|_| whole);
            word.map_or(Fetched::Second, Fetched::Word)
        }
        _ => Fetched::First,
    }
}

/// The trap that a state has just taken.
fn trap(after: &State) -> Outcome {
    match after.regs[MCAUSE] {
        28 => Outcome::Violation(after.regs[MTVAL] & 31),
        cause => Outcome::Trap(cause),
    }
}

/// The name of a column.
fn name(outcome: Outcome) -> String {
    let text = match outcome {
        Outcome::Retired => "retired",
        Outcome::Taken => "taken",
        Outcome::Tagged => "tagged",
        Outcome::Untagged => "untagged",
        Outcome::Trap(cause) => return format!("mcause-{cause}"),
        Outcome::Violation(1) => "bounds",
        Outcome::Violation(2) => "tag",
        Outcome::Violation(3) => "seal",
        Outcome::Violation(17) => "execute",
        Outcome::Violation(18) => "load",
        Outcome::Violation(19) => "store",
        Outcome::Violation(21) => "store-capability",
        Outcome::Violation(22) => "store-local",
        Outcome::Violation(24) => "system",
        Outcome::Violation(cause) => return format!("cause-{cause}"),
    };
    text.to_string()
}

/// What a failed fetch can be, and one of a second half.
const FETCH: [Outcome; 6] = [TAG, SEAL, EXECUTE, BOUNDS, FETCH_MISALIGNED, FETCH_ACCESS];
const SECOND_HALF: [Outcome; 2] = [BOUNDS, FETCH_ACCESS];
/// No start has a PCC with a high above 2^32; runs that load one are among the halves.
const SECOND_HALF_AT_TOP: [Outcome; 1] = [BOUNDS];
/// The address of the last half of the address space.
const LAST_HALF: u32 = 0xFFFF_FFFE;

impl Coverage {
    pub fn new(table: &Table) -> Coverage {
        Coverage {
            rows: vec![[0; COLUMNS]; table.rows.len()],
            pairs: vec![[0; PAIRS]; table.rows.len()],
            filter: [0; QUESTIONS],
            places: [0; PLACES],
            fetch: [0; COLUMNS],
            second_half: [0; COLUMNS],
            second_half_at_top: [0; COLUMNS],
            unknown: [0; OPCODES.len()],
            unknown_halves: [0; HALVES.len()],
            refused: [0; NUMBERS],
            refused_also: [[0; NUMBERS]; NUMBERS],
            windows: [[0; WITH.len()]; WINDOW_FAULTS.len()],
            runs: [0; RUNS.len()],
            unsound: [0; UNSOUND.len()],
            unsound_starts: [0; CAPABILITIES],
            lengths: [0; LENGTHS.len()],
            times: Times::default(),
            interrupts: [0; COLUMNS],
            turns: [0; TURNS.len()],
            stores: vec![[0; STORE_PLACES]; table.rows.len()],
            sources: vec![[0; CSR_SOURCES]; table.rows.len()],
            retired: 0,
            trapped: 0,
            misrefused: 0,
            misread: 0,
            misinterrupted: 0,
        }
    }

    /// Counts a case, what was left after it, and the answer.
    pub fn count(&mut self, table: &Table, case: &Case, after: &State, answer: u64) {
        let answer = Answer::of(answer);
        let reasons = reasons(case);
        let lowest = reasons.iter().position(|&reason| reason).unwrap_or(0);
        self.misrefused += u64::from(answer.number != lowest as u64);
        if lowest != 0 {
            let words = case.state.regs.len();
            if let Some(length) = LENGTHS.iter().position(|&length| length == words) {
                self.lengths[length] += 1;
            }
            self.count_window(case, reasons);
            if let (8, [place]) = (lowest, &unsound_places(&case.state)[..]) {
                self.unsound_starts[*place] += 1;
            }
            return self.count_refusal(lowest, reasons);
        }
        let retired = answer.retired;
        self.trapped += answer.trapped;
        self.retired += retired;
        match case.call {
            Call::Step | Call::Run(1) => self.count_step(table, &case.state, after, retired == 1),
            Call::Run(steps) => {
                if steps == 2 {
                    self.count_turn(table, &case.state, after);
                }
                if matches!(steps, 2 | 3) {
                    self.count_unsound(&case.state, steps, retired);
                }
                self.count_run(&case.state, steps, retired);
            }
        }
    }

    /// Counts a run of two steps whose first changes MIE, at compare - 1. The second step is interrupted
    /// exactly if MIE was set.
    fn count_turn(&mut self, table: &Table, before: &State, after: &State) {
        if before.long(TIME).checked_add(1) != Some(before.long(COMPARE)) {
            return;
        }
        let mut between = before.clone();
        let retired = Answer::of(second(&mut between, Call::Step)).retired == 1;
        let [was, is] = [before, &between].map(|state| state.register(MSTATUS) & MIE != 0);
        let row = match fetched(before) {
            Fetched::Word(word) if retired => table.find(word),
            _ => None,
        };
        let name = row.map(|row| table.rows[row].name);
        let by = match name {
            None => 6,
            Some("MRET") => 4,
            Some(name) if name.starts_with("CSR") => 0,
            Some(_) => 2,
        };
        if was != is {
            let turn = if by == 6 { 6 } else { by + usize::from(was) };
            self.turns[turn] += 1;
            let interrupted = after.register(MCAUSE) == TIMER_INTERRUPT;
            self.misinterrupted += u64::from(is && !interrupted);
        }
    }

    /// Counts a short run by what its last step but one left.
    fn count_unsound(&mut self, before: &State, steps: u32, retired: u64) {
        let mut between = before.clone();
        let earlier = Answer::of(second(&mut between, Call::Run(steps - 1)));
        let last = usize::from(retired > earlier.retired);
        for place in unsound_places(&between) {
            let kind = match place {
                0..PCC => 0,
                PCC => 2,
                _ => 4,
            };
            self.unsound[kind + last] += 1;
        }
    }

    fn count_refusal(&mut self, number: usize, reasons: [bool; NUMBERS]) {
        self.refused[number] += 1;
        for (count, also) in self.refused_also[number].iter_mut().zip(reasons) {
            *count += u64::from(also);
        }
    }

    /// Counts a window that breaks one of its limits.
    fn count_window(&mut self, case: &Case, reasons: [bool; NUMBERS]) {
        let faults = window_faults(&case.state);
        let [fault] = faults[..] else {
            return;
        };
        let [_, one, _, three, four, five, _, seven, eight] = reasons;
        let memory = !memory_allowed(&case.state);
        let others = [one, memory, three, four, five, seven, eight];
        let counts = &mut self.windows[fault];
        counts[0] += u64::from(others == [false; 7]);
        for (count, also) in counts[1..].iter_mut().zip(others) {
            *count += u64::from(also);
        }
    }

    fn count_run(&mut self, state: &State, steps: u32, retired: u64) {
        let kind = match steps {
            0 => 0,
            1..200 => 1,
            200..=20_000 => 2,
            _ => 3,
        };
        self.runs[kind] += 1;
        self.runs[4] += u64::from(retired > 1000);
        // Following a run costs more than making it: one in 16 is enough.
        if steps <= 20_000 && state.regs[MTVAL].is_multiple_of(16) {
            for (count, seen) in self.runs[5..].iter_mut().zip(followed(state, steps)) {
                *count += u64::from(seen);
            }
        }
    }

    /// Counts an interrupt by what it came before, and checks what it left.
    fn count_interrupt(&mut self, before: &State, after: &State, retired: bool) {
        let left = [MCAUSE, MTVAL].map(|place| after.register(place));
        self.misinterrupted += u64::from(retired || left != [TIMER_INTERRUPT, 0]);
        let column = match fetched(before) {
            Fetched::Word(_) => Outcome::Retired.column(),
            Fetched::First | Fetched::Second => {
                let mut quiet = before.clone();
                quiet.regs[MSTATUS] &= !MIE;
                second(&mut quiet, Call::Step);
                trap(&quiet).column()
            }
        };
        self.interrupts[column] += 1;
    }

    fn count_step(&mut self, table: &Table, before: &State, after: &State, retired: bool) {
        if before.interrupted() {
            self.times.count(before, 2);
            return self.count_interrupt(before, after, retired);
        }
        self.times.count(before, usize::from(!retired));
        self.misinterrupted += u64::from(!retired && after.regs[MCAUSE] == TIMER_INTERRUPT);
        let column = trap(after).column();
        let word = match fetched(before) {
            Fetched::Word(word) => word,
            Fetched::First => {
                self.fetch[column] += 1;
                return;
            }
            Fetched::Second if before.capability(PCC).address == LAST_HALF => {
                self.second_half_at_top[column] += 1;
                return;
            }
            Fetched::Second => {
                self.second_half[column] += 1;
                return;
            }
        };
        let Some(index) = table.find(word) else {
            self.count_unknown(word);
            let misread = retired || trap(after) != ILLEGAL || after.regs[MTVAL] != word;
            self.misread += u64::from(misread);
            return;
        };
        self.count_mark(&table.rows[index], index, before, (word, retired));
        if retired {
            self.count_retired(&table.rows[index], index, word, [before, after]);
        } else {
            self.rows[index][column] += 1;
        }
    }

    /// Counts where a store lies by the mark, and what a CSR instruction writes to the mark or its base.
    fn count_mark(&mut self, row: &Row, index: usize, before: &State, step: (u32, bool)) {
        let (word, retired) = step;
        match row.aim {
            Aim::Store(_) => {
                let places = mark::places(before, word, retired);
                for (count, place) in self.stores[index].iter_mut().zip(places) {
                    *count += u64::from(place);
                }
            }
            Aim::Mark if retired => {
                if let Some(source) = mark::source(before, row.form, word) {
                    self.sources[index][source] += 1;
                }
            }
            _ => {}
        }
    }

    /// Counts a word that retired.
    fn count_retired(&mut self, row: &Row, index: usize, word: u32, states: [&State; 2]) {
        let [before, after] = states;
        let counts = &mut self.rows[index];
        counts[Outcome::Retired.column()] += 1;
        if let Some(pair) = pair_of_extremes(before, word) {
            self.pairs[index][pair] += 1;
        }
        if row.aim == Aim::Load(8) {
            if let Some(question) = filter::question(before, word) {
                self.filter[question] += 1;
            }
            if let Some(place) = filter::place(before, word) {
                self.places[place] += 1;
            }
        }
        if let Some(more) = retired_how(row, word, before, after) {
            counts[more.column()] += 1;
        }
    }

    /// Counts a word that is no instruction.
    fn count_unknown(&mut self, word: u32) {
        if instruction_bytes(word) == 2 {
            let group = HALVES.iter().position(|&group| group == word & 0xE003);
            match group {
                Some(group) => self.unknown_halves[group] += 1,
                None => self.misread += 1,
            }
            return;
        }
        let opcode = OPCODES.iter().position(|&opcode| opcode == word & 0x7F);
        self.unknown[opcode.unwrap_or(OPCODES.len() - 1)] += 1;
    }

    /// The failed fetches: what failed, its outcomes and their counts.
    fn fetches(&self) -> [(&'static str, &'static [Outcome], &[u64; COLUMNS]); 3] {
        [
            ("fetch", &FETCH, &self.fetch),
            ("fetch of a second half", &SECOND_HALF, &self.second_half),
            (
                "fetch of one at 2^32",
                &SECOND_HALF_AT_TOP,
                &self.second_half_at_top,
            ),
        ]
    }

    /// How often a row's step did this.
    pub fn reached(&self, table: &Table, name: &str, outcome: Outcome) -> u64 {
        let rows = table.rows.iter().zip(&self.rows);
        let counts = rows.filter(|(row, _)| row.name == name);
        counts.map(|(_, counts)| counts[outcome.column()]).sum()
    }

    /// Every reachable cell with its name and count.
    fn cells(&self, table: &Table) -> Vec<(String, u64)> {
        let mut cells = Vec::new();
        for (row, counts) in table.rows.iter().zip(&self.rows) {
            for &outcome in &row.outcomes {
                let cell = format!("{} {}", row.name, name(outcome));
                cells.push((cell, counts[outcome.column()]));
            }
        }
        let extremes = |(row, _): &(&Row, _)| row.aim == Aim::Extremes;
        for (row, counts) in table.rows.iter().zip(&self.pairs).filter(extremes) {
            for (pair, &count) in counts.iter().enumerate() {
                cells.push((format!("{} of {}", row.name, pair_name(pair)), count));
            }
        }
        for (question, &count) in self.filter.iter().enumerate() {
            cells.push((filter::question_name(question), count));
        }
        for (place, &count) in self.places.iter().enumerate() {
            cells.push((filter::place_name(place), count));
        }
        for (what, outcomes, counts) in self.fetches() {
            for &outcome in outcomes {
                let cell = format!("{what} {}", name(outcome));
                cells.push((cell, counts[outcome.column()]));
            }
        }
        for (group, &count) in HALVES.iter().zip(&self.unknown_halves) {
            cells.push((format!("no instruction, half {group:04x}"), count));
        }
        for (opcode, &count) in OPCODES.iter().zip(&self.unknown) {
            cells.push((format!("no instruction, opcode {opcode:02x}"), count));
        }
        for number in REASONS {
            for also in REASONS.into_iter().filter(|&also| also >= number) {
                let cell = format!("refused {number} with reason {also}");
                cells.push((cell, self.refused_also[number][also]));
            }
        }
        for (fault, counts) in WINDOW_FAULTS.iter().zip(&self.windows) {
            for (with, &count) in WITH.iter().zip(counts) {
                cells.push((format!("a window whose {fault}, {with}"), count));
            }
        }
        for (kind, &count) in RUNS.iter().zip(&self.runs) {
            cells.push((kind.to_string(), count));
        }
        cells.extend(self.unsound_cells());
        cells.extend(self.timer_cells());
        cells.extend(self.mark_cells(table));
        cells
    }

    /// The cells of what no start may hold: where it stood between two steps, and in starts that are refused.
    fn unsound_cells(&self) -> Vec<(String, u64)> {
        let between = UNSOUND.iter().zip(&self.unsound);
        let mut cells: Vec<_> = between
            .map(|(kind, &count)| (kind.to_string(), count))
            .collect();
        for (place, &count) in self.unsound_starts.iter().enumerate().skip(1) {
            cells.push((format!("refused 8 for {} alone", place_name(place)), count));
        }
        cells
    }

    /// The cells of the timer: register files, times, interrupts and changes of MIE.
    fn timer_cells(&self) -> Vec<(String, u64)> {
        let mut cells = Vec::new();
        for (length, &count) in LENGTHS.iter().zip(&self.lengths) {
            cells.push((format!("refused with {length} words"), count));
        }
        cells.extend(self.times.cells());
        let before = "interrupt before a fetch that would trap by";
        for outcome in FETCH {
            let cell = format!("{before} {}", name(outcome));
            cells.push((cell, self.interrupts[outcome.column()]));
        }
        let good = self.interrupts[Outcome::Retired.column()];
        cells.push(("interrupt before a word that could be fetched".into(), good));
        for (turn, &count) in TURNS.iter().zip(&self.turns) {
            cells.push((format!("{turn} at compare - 1"), count));
        }
        cells
    }

    /// The cells of the stack mark: stores by it, and CSR writes of it.
    fn mark_cells(&self, table: &Table) -> Vec<(String, u64)> {
        let mut cells = Vec::new();
        let is_store = |row: &Row| matches!(row.aim, Aim::Store(_));
        let rows = table.rows.iter().zip(&self.stores);
        for (row, counts) in rows.filter(|(row, _)| is_store(row)) {
            for (place, &count) in counts.iter().enumerate() {
                cells.push((mark::place_name(row.name, place), count));
            }
        }
        let rows = table.rows.iter().zip(&self.sources);
        for (row, counts) in rows.filter(|(row, _)| row.aim == Aim::Mark) {
            for &source in mark::sources(row.form) {
                cells.push((mark::source_name(row.name, source), counts[source]));
            }
        }
        cells
    }

    /// The cells that were not reached, and what the papers shut out and was reached.
    pub fn faults(&self, table: &Table) -> Vec<String> {
        let mut faults = Vec::new();
        for (cell, count) in self.cells(table) {
            if count == 0 {
                faults.push(format!("not reached: {cell}"));
            }
        }
        let rows = table.rows.iter().zip(&self.rows);
        let rows = rows.map(|(row, counts)| (row.name, row.outcomes.as_slice(), counts));
        for (name, outcomes, counts) in rows.chain(self.fetches()) {
            let listed = outcomes.iter().map(|outcome| counts[outcome.column()]);
            if listed.sum::<u64>() != counts.iter().sum() {
                faults.push(format!("reached more than its row lists: {name}"));
            }
        }
        if self.misrefused > 0 {
            faults.push(format!(
                "not the lowest reason to refuse: {}",
                self.misrefused
            ));
        }
        if self.misread > 0 {
            faults.push(format!("no instruction, and not illegal: {}", self.misread));
        }
        if self.misinterrupted > 0 {
            faults.push(format!(
                "not the papers' interrupt: {}",
                self.misinterrupted
            ));
        }
        faults
    }

    /// The table, a line a row.
    pub fn table(&self, table: &Table) -> String {
        let mut text = String::new();
        for (row, counts) in table.rows.iter().zip(&self.rows) {
            let _ = writeln!(text, "{:28}{}", row.name, line(&row.outcomes, counts));
        }
        for (question, count) in self.filter.iter().enumerate() {
            let _ = writeln!(text, "{}   {count}", filter::question_name(question));
        }
        for (place, count) in self.places.iter().enumerate() {
            let _ = writeln!(text, "{}   {count}", filter::place_name(place));
        }
        for (what, outcomes, counts) in self.fetches() {
            let _ = writeln!(text, "{what:28}{}", line(outcomes, counts));
        }
        for (group, count) in HALVES.iter().zip(&self.unknown_halves) {
            let _ = writeln!(text, "no instruction, half {group:04x}   {count}");
        }
        for (opcode, count) in OPCODES.iter().zip(&self.unknown) {
            let _ = writeln!(text, "no instruction, opcode {opcode:02x}   {count}");
        }
        for number in REASONS {
            let later = REASONS.into_iter().filter(|&also| also > number);
            let also: Vec<_> = later
                .map(|also| format!(" with-{also} {}", self.refused_also[number][also]))
                .collect();
            let _ = writeln!(
                text,
                "refused {number}   {}{}",
                self.refused[number],
                also.concat()
            );
        }
        for (fault, counts) in WINDOW_FAULTS.iter().zip(&self.windows) {
            let counts: Vec<_> = WITH.iter().zip(counts).collect();
            let shown = counts
                .iter()
                .map(|(with, count)| format!(" {with} {count}"));
            let _ = writeln!(
                text,
                "a window whose {fault}  {}",
                shown.collect::<String>()
            );
        }
        for (kind, count) in RUNS.iter().zip(&self.runs) {
            let _ = writeln!(text, "{kind}   {count}");
        }
        let marks = self.mark_cells(table);
        let cells = self.unsound_cells().into_iter().chain(self.timer_cells());
        for (cell, count) in cells.chain(marks) {
            let _ = writeln!(text, "{cell}   {count}");
        }
        let _ = writeln!(
            text,
            "steps retired {}, trapped {}",
            self.retired, self.trapped
        );
        let cells = self.cells(table).len();
        let _ = write!(
            text,
            "cells {cells}, not reached {}",
            self.faults(table).len()
        );
        text
    }
}

fn line(outcomes: &[Outcome], counts: &[u64; COLUMNS]) -> String {
    let cell = |&outcome: &Outcome| format!(" {} {}", name(outcome), counts[outcome.column()]);
    outcomes.iter().map(cell).collect()
}

/// The number of the pair of extremes that a word's two registers hold, if both hold one.
fn pair_of_extremes(before: &State, word: u32) -> Option<usize> {
    let extreme = |register: u32| {
        let value = before.capability(register as usize & 31).address;
        EXTREMES.iter().position(|&extreme| extreme == value)
    };
    Some(extreme(word >> 15)? * EXTREMES.len() + extreme(word >> 20)?)
}

fn pair_name(pair: usize) -> String {
    let [first, second] = [pair / EXTREMES.len(), pair % EXTREMES.len()];
    format!("{:x} and {:x}", EXTREMES[first], EXTREMES[second])
}

/// More of how an instruction retired: a branch that was taken, the tag of what was written.
fn retired_how(row: &Row, word: u32, before: &State, after: &State) -> Option<Outcome> {
    let bytes = instruction_bytes(word);
    let next = before.capability(PCC).address.wrapping_add(bytes);
    if row.can(Outcome::Taken) {
        return (after.capability(PCC).address != next).then_some(Outcome::Taken);
    }
    let rd = row.form.written(word);
    if !row.can(Outcome::Untagged) || rd == 0 {
        return None;
    }
    match after.capability(rd).tag {
        0 => Some(Outcome::Untagged),
        _ => Some(Outcome::Tagged),
    }
}

/// A run followed step by step: whether it executes a word that it wrote itself, whether it is interrupted
/// after a step that was not, and whether a store lowers the mark.
fn followed(state: &State, steps: u32) -> [bool; 3] {
    let mut now = state.clone();
    let mut seen = [false; 3];
    let mut undisturbed = false;
    for _ in 0..steps.min(2000) {
        let pcc = now.capability(PCC).address;
        let interrupted = now.interrupted();
        let mut stores = false;
        match fetched(&now) {
            Fetched::Word(word) if !interrupted => {
                seen[0] |= state.instruction(pcc) != Some(word);
                stores = mark::places(&now, word, true).contains(&true);
            }
            _ => {}
        }
        seen[1] |= interrupted && undisturbed;
        undisturbed |= !interrupted;
        let mark = now.register(MSHWM);
        if Answer::of(second(&mut now, Call::Step)).number != 0 {
            // A register is unsound: the run goes on, single steps do not.
            break;
        }
        seen[2] |= stores && now.register(MSHWM) < mark;
    }
    seen
}
