//! Steps of the proved engines and of the second program, timed by turns in one process, or made for an instruction count.

use crate::kinds;
use crate::programs::{ready, NAMES};
use lent::{Board, Run, State, Watch, MOST_STEPS};
use std::time::Instant;

/// Steps of one timing, and how many timings of each are tried, turn by turn: the best counts.
const STEPS: u32 = 10_000_000;
const TRIES: u32 = 10;

/// The second engine, with nothing watched.
fn quick(
    regs: &mut [u32],
    board: Board,
    mem: &mut [u8],
    tags: &mut [u8],
    revoked: &[u8],
    steps: u32,
) -> u64 {
    let mut nothing = Watch::default();
    proved::run_quick(regs, board, mem, tags, revoked, steps, &mut nothing)
}

const ENGINES: [(&str, Run); 3] = [
    ("plain", proved::run),
    ("quick", quick),
    ("second", second::run),
];

/// A machine by its name.
pub fn engine(name: &str) -> Option<Run> {
    let found = ENGINES.iter().find(|(known, _)| *known == name);
    found.map(|(_, engine)| *engine)
}

/// A program by calls of some steps, a million unless it says otherwise after a colon; a file that does is started again
/// at each call.
struct Program {
    start: State,
    call: u32,
    restarts: bool,
}

impl Program {
    fn of(asked: &str) -> Option<Program> {
        let (name, call) = asked.split_once(':').unwrap_or((asked, ""));
        let call = match call {
            "" => MOST_STEPS,
            digits => digits.parse().ok().filter(|call| *call > 0)?,
        };
        Some(Program {
            start: ready(name)?,
            call,
            restarts: asked != name && !NAMES.contains(&name),
        })
    }

    /// Makes steps; every one must retire.
    fn run(&self, engine: Run, steps: u32) {
        let mut state = self.start.clone();
        let mut left = steps;
        while left > 0 {
            let call = left.min(self.call);
            assert_eq!(state.run(engine, call), call.into(), "a step trapped");
            left -= call;
            if self.restarts {
                state.clone_from(&self.start);
            }
        }
    }

    /// Millions of steps a second.
    fn measure(&self, engine: Run) -> f64 {
        let begin = Instant::now();
        self.run(engine, STEPS);
        f64::from(STEPS) / 1e6 / begin.elapsed().as_secs_f64()
    }

    /// The best of some tries of each machine, by turns, so that what else the computer does meets all.
    fn best(&self) -> [f64; 3] {
        let mut best = [0.0f64; 3];
        for _ in 0..TRIES {
            for (best, (_, engine)) in best.iter_mut().zip(ENGINES) {
                *best = best.max(self.measure(engine));
            }
        }
        best
    }
}

/// Makes steps of a program, if there is such a program.
pub fn run(engine: Run, program: &str, steps: u32) -> Option<()> {
    Program::of(program)?.run(engine, steps);
    Some(())
}

/// Every program on each machine, files of raw code after those by name.
pub fn compare_all(files: &[&str]) -> Option<()> {
    println!("program       plain   quick  second  quick/plain  plain/second   (millions of steps a second)");
    for program in NAMES.iter().chain(&kinds::NAMES).chain(files) {
        let [plain, quick, second] = Program::of(program)?.best();
        println!(
            "{program:<11} {plain:>7.1} {quick:>7.1} {second:>7.1} {:>12.2} {:>13.2}",
            quick / plain,
            plain / second
        );
    }
    Some(())
}
