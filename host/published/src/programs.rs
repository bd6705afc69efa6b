//! Capability programs of our own (tests/programs), assembled by Debian's assembler and run on both
//! machines: in one run and step by step, with the state compared after every step, and the end
//! compared with what the program's comments derive from the papers.

use crate::image::START;
use crate::script::{lines, Line, Place};
use crate::tools::{self, Symbols};
use compare::machines::{second, shown, Machine};
use compare::state::Call;
use lent::{Answer, Capability, State, Window};
use std::fs;
use std::path::{Path, PathBuf};

const SIZE: u32 = 4096;
/// The fewest programs and expectations, so that none goes unnoticed.
const FEWEST: (usize, usize) = (25, 658);
/// Programs that are about the places of long words: a PCC that ends in one, steps that are counted, and
/// the last word of the address space. The others run a second time as the assembler makes them with
/// short words wherever it can, and meet the same expectations.
const LONG_ALONE: [&str; 4] = ["fetch", "repair", "timer", "top"];

/// A program's state on both machines, and the counts of its last run.
struct Running {
    machine: Machine,
    ours: State,
    theirs: State,
    retired: u32,
    trapped: u32,
}

impl Running {
    /// The state at reset, with PCC's address at the start of memory.
    fn new(machine: Machine, start: u32, mut memory: Vec<u8>, size: u32) -> Running {
        memory.resize(size as usize, 0);
        let state = State::reset(start, memory, start);
        Running {
            machine,
            theirs: state.clone(),
            ours: state,
            retired: 0,
            trapped: 0,
        }
    }

    /// Does a line; whether it was an expectation.
    fn line(&mut self, line: &Line) -> Result<bool, String> {
        match line {
            Line::Memory(..) => {}
            Line::Lend(place, values) => {
                lend(&mut self.ours, place, values)?;
                lend(&mut self.theirs, place, values)?;
            }
            Line::Window(first, end) => {
                let start = first.wrapping_sub(self.ours.start);
                let size = end.wrapping_sub(*first);
                for state in [&mut self.ours, &mut self.theirs] {
                    *state = std::mem::take(state).with_window(Window { start, size });
                }
            }
            Line::Revoke(first, end) => {
                for granule in (*first..*end).step_by(8) {
                    self.ours.revoke(granule);
                    self.theirs.revoke(granule);
                }
            }
            Line::Edition(edition) => {
                self.ours.edition = *edition;
                self.theirs.edition = *edition;
            }
            Line::Run(steps) => self.run(*steps)?,
            Line::Expect(place, values) => {
                let found = self.found(place)?;
                if found != *values {
                    return Err(format!("{place:x?} is {found:x?}, expected {values:x?}"));
                }
                return Ok(true);
            }
        }
        Ok(false)
    }

    /// Runs both machines, at once and step by step.
    fn run(&mut self, steps: u32) -> Result<(), String> {
        let (mut ours, mut theirs) = (self.ours.clone(), self.theirs.clone());
        let mut counts = 0;
        for step in 1..=steps {
            let answers = (
                (self.machine)(&mut ours, Call::Step),
                second(&mut theirs, Call::Step),
            );
            if answers.0 != answers.1 || ours != theirs {
                let (left, right) = (shown(answers.0), shown(answers.1));
                return Err(format!("step {step}: ours {left}, second {right}"));
            }
            counts += answers.0;
        }
        let answer = (self.machine)(&mut self.ours, Call::Run(steps));
        let their_answer = second(&mut self.theirs, Call::Run(steps));
        if answer != counts || their_answer != counts {
            let shown = [counts, answer, their_answer].map(shown);
            return Err(format!("{steps} steps and a run differ: {shown:?}"));
        }
        if self.ours != ours || self.theirs != ours {
            return Err(format!("{steps} steps and a run leave different states"));
        }
        let answer = Answer::of(answer);
        self.retired = answer.retired as u32;
        self.trapped = answer.trapped as u32;
        Ok(())
    }

    /// What a place holds.
    fn found(&self, place: &Place) -> Result<Vec<u32>, String> {
        let state = &self.ours;
        let three = |at| {
            let found = state.capability(at);
            vec![found.address, found.metadata, found.tag]
        };
        match *place {
            Place::Capability(at) => Ok(three(at)),
            Place::Integer(at) => match three(at)[..] {
                [value, 0, 0] => Ok(vec![value]),
                _ => Err(format!("c{at} is no integer: {:x?}", three(at))),
            },
            Place::Control(at) => Ok(vec![state.regs[at]]),
            Place::Word(at) => Ok(state.word(at).into_iter().collect()),
            Place::Stored(at) => {
                state.offset(at, 8).ok_or(format!("{at:x}: no memory"))?;
                let tag = state.tagged(at.into()).into();
                let words = [state.word(at), state.word(at + 4), Some(tag)];
                Ok(words.into_iter().flatten().collect())
            }
            Place::Retired => Ok(vec![self.retired]),
            Place::Trapped => Ok(vec![self.trapped]),
        }
    }
}

fn capability(words: &[u32]) -> Capability {
    match *words {
        [address, metadata, tag] => Capability {
            address,
            metadata,
            tag,
        },
        _ => Capability::integer(0),
    }
}

/// Lends a value at a place.
fn lend(state: &mut State, place: &Place, values: &[u32]) -> Result<(), String> {
    match *place {
        Place::Capability(at) => state.set(at, capability(values)),
        Place::Integer(at) => state.set(at, Capability::integer(values[0])),
        Place::Control(at) => state.regs[at] = values[0],
        Place::Word(at) => state.write(at, &values[0].to_le_bytes()),
        _ => return Err(format!("{place:?} is not lent")),
    }
    Ok(())
}

/// The memory that a source asks for, before there are labels.
fn memory(source: &str) -> Result<(u32, u32), String> {
    let line = source.lines().find(|line| line.starts_with("// memory: "));
    match line.map(|line| lines(line, &Symbols::new())).transpose()? {
        Some(found) => match found[..] {
            [(_, Line::Memory(start, size))] => Ok((start, size)),
            _ => Err("no memory".to_string()),
        },
        None => Ok((START, SIZE)),
    }
}

/// Assembles, links and runs a program; how many expectations it met, and how many bytes of it are not 0.
fn program(
    machine: Machine,
    place: &Path,
    source: &Path,
    architecture: &str,
) -> Result<(usize, usize), String> {
    let text = String::from_utf8_lossy(&tools::read(source)?).into_owned();
    let (start, size) = memory(&text)?;
    let named = place.join(source.file_name().unwrap_or_default());
    let (object, linked) = (named.with_extension("o"), named.with_extension("elf"));
    tools::assemble_for(architecture, source, &object)?;
    let mut ld = tools::tool("ld");
    ld.args(["-m", "elf32lriscv", "--no-relax", "-e", "0"]);
    ld.arg(format!("-Ttext={start:#x}")).arg(&object);
    tools::run(ld.arg("-o").arg(&linked))?;
    let image = tools::section(&linked, ".text")?;
    let used = image.iter().filter(|&&byte| byte != 0).count();
    let mut running = Running::new(machine, start, image, size);
    let mut met = 0;
    for (number, line) in lines(&text, &tools::symbols(&linked)?)? {
        let expected = running.line(&line);
        met += usize::from(expected.map_err(|error| format!("line {number}: {error}"))?);
    }
    if met == 0 {
        return Err("expects nothing".to_string());
    }
    Ok((met, used))
}

/// Runs every program.
pub fn run(machine: Machine) -> Result<String, String> {
    let place = tools::workplace("programs")?;
    let listed = fs::read_dir(tools::programs()).map_err(|error| error.to_string())?;
    let paths = listed.filter_map(|entry| Some(entry.ok()?.path()));
    let mut sources: Vec<PathBuf> = paths
        .filter(|path| path.extension().is_some_and(|end| end == "S"))
        .collect();
    sources.sort();
    let (mut expectations, mut compressed, mut saved) = (0, 0, 0);
    let mut report = String::new();
    for source in &sources {
        let name = source.file_stem().unwrap_or_default().to_string_lossy();
        let told = |text| format!("{name}: {text}");
        let (met, used) = program(machine, &place, source, tools::LONG).map_err(told)?;
        expectations += met;
        report.push_str(&format!("{name}: {met}\n"));
        if !LONG_ALONE.contains(&&*name) {
            let (again, fewer) = program(machine, &place, source, tools::SHORT).map_err(told)?;
            if again != met || fewer > used {
                return Err(told(format!("{again} expectations with short words")));
            }
            compressed += 1;
            saved += used - fewer;
        }
    }
    let totals = format!(
        "{report}{} programs, {expectations} expectations; {compressed} of them with short words too",
        sources.len()
    );
    let few = sources.len() < FEWEST.0 || expectations < FEWEST.1;
    if few || saved == 0 || compressed + LONG_ALONE.len() != sources.len() {
        return Err(format!("{totals}: fewer than there were"));
    }
    Ok(totals)
}
