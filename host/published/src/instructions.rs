//! Every integer instruction of RV32E and M on tables of operands, against qemu-riscv32: a program is
//! generated with one small routine for each instruction, choice of registers and immediate, and
//! called as the published routines are. The link puts both programs at the same addresses, so
//! links and jump targets are compared too.

use crate::bench::{Bench, End, Manner};
use crate::image::{Image, Linker};
use crate::qemu::{self, Record, WINDOW};
use crate::tools;
use compare::machines::Machine;
use compare::random::Random;
use std::fmt::Write;

const OP: [&str; 10] = [
    "add", "sub", "sll", "slt", "sltu", "xor", "srl", "sra", "or", "and",
];
const M: [&str; 8] = [
    "mul", "mulh", "mulhsu", "mulhu", "div", "divu", "rem", "remu",
];
const OP_IMM: [&str; 6] = ["addi", "slti", "sltiu", "xori", "ori", "andi"];
const SHIFT_IMM: [&str; 3] = ["slli", "srli", "srai"];
const BRANCH: [&str; 6] = ["beq", "bne", "blt", "bge", "bltu", "bgeu"];

/// rd, rs1 and rs2: each register in each place, and the places where two or three are the same.
/// No routine writes x1, its way back, or x2.
#[rustfmt::skip]
const TRIPLES: [[usize; 3]; 20] = [
    [10, 11, 12], [10, 10, 11], [11, 10, 11], [10, 10, 10], [0, 10, 11], [10, 0, 11], [10, 11, 0],
    [0, 0, 0], [15, 14, 13], [3, 4, 5], [6, 7, 8], [9, 15, 3], [5, 1, 2], [8, 9, 10], [12, 6, 4],
    [7, 3, 9], [13, 5, 14], [14, 12, 15], [4, 8, 6], [11, 13, 7],
];

/// Operands at the edges.
#[rustfmt::skip]
const OPERANDS: [u32; 26] = [
    0, 1, 2, 3, 5, 31, 32, 33, 0x7FF, 0x800, 0xFFF, 0x7FFF, 0x8000, 0xFFFF, 0x1_0000, 0x1234_5678,
    0x5555_5555, 0x7FFF_FFFE, 0x7FFF_FFFF, 0x8000_0000, 0x8000_0001, 0xAAAA_AAAA, 0xFFFF_F7FF,
    0xFFFF_F800, 0xFFFF_FFFE, 0xFFFF_FFFF,
];

/// A routine of the generated program and the registers whose operands vary (not x0 to x2).
struct Routine {
    label: String,
    sources: Vec<usize>,
}

/// The program as it grows.
#[derive(Default)]
struct Program {
    text: String,
    routines: Vec<Routine>,
}

impl Program {
    /// Adds a routine; `body` may use its label, and returns by itself.
    fn add(&mut self, sources: &[usize], body: impl FnOnce(&str) -> String) {
        let label = format!("f{}", self.routines.len());
        let body = body(&label);
        let _ = write!(self.text, "{label}:\n{body}");
        let mut sources: Vec<usize> = sources.iter().copied().filter(|&at| at > 2).collect();
        sources.dedup();
        self.routines.push(Routine { label, sources });
    }

    /// Adds one instruction and a return.
    fn one(&mut self, sources: &[usize], instruction: &str) {
        self.add(sources, |_| format!("{instruction}\nret\n"));
    }

    /// OP: two registers.
    fn registers(&mut self) {
        self.two_registers(&OP);
    }

    /// OP with the words of M.
    fn products(&mut self) {
        self.two_registers(&M);
    }

    fn two_registers(&mut self, names: &[&str]) {
        for name in names {
            for [rd, rs1, rs2] in TRIPLES {
                self.one(&[rs1, rs2], &format!("{name} x{rd}, x{rs1}, x{rs2}"));
            }
        }
    }

    /// OP-IMM and LUI.
    fn immediates(&mut self) {
        for [rd, rs1, _] in TRIPLES.into_iter().step_by(3) {
            for (name, immediate) in OP_IMM.into_iter().flat_map(with(immediates())) {
                self.one(&[rs1], &format!("{name} x{rd}, x{rs1}, {immediate}"));
            }
            for (name, amount) in SHIFT_IMM.into_iter().flat_map(with((0..32).collect())) {
                self.one(&[rs1], &format!("{name} x{rd}, x{rs1}, {amount}"));
            }
        }
        for ([rd, ..], bit) in TRIPLES.into_iter().flat_map(with((0..20).collect())) {
            for value in [1 << bit, 0xF_FFFF ^ 1 << bit] {
                self.one(&[], &format!("lui x{rd}, {value}"));
            }
        }
    }

    /// Branches forwards and backwards; another register tells whether the branch was taken.
    fn branches(&mut self) {
        for name in BRANCH {
            for [mark, rs1, rs2] in TRIPLES {
                let branch = format!("{name} x{rs1}, x{rs2}");
                let set = |value: u32| format!("li x{mark}, {value}\nret\n");
                let (taken, not) = (set(0x55), set(0x66));
                self.add(&[rs1, rs2], |at| {
                    format!("{branch}, {at}t\n{not}{at}t:\n{taken}")
                });
                self.add(&[rs1, rs2], |at| {
                    format!("j {at}b\n{at}t:\n{taken}{at}b:\n{branch}, {at}t\n{not}")
                });
            }
        }
    }

    /// A field of landings, each of which loads its number, with branches and jumps to them from
    /// before and behind: the bits of the B and J formats' immediates.
    fn distances(&mut self) {
        let targets: Vec<usize> = (0..9)
            .flat_map(|bit| [1 << bit, 510 - (1 << bit)])
            .collect();
        let sites = |program: &mut Program| {
            for &target in &targets {
                program.add(&[], |_| format!("beq x0, x0, landing{target}\n"));
                program.add(&[], |_| format!("jal x0, landing{target}\n"));
                program.add(&[], |_| format!("jal x5, landing{target}\n"));
            }
        };
        sites(self);
        for number in 0..511 {
            let _ = write!(self.text, "landing{number}:\nli a5, {number}\nret\n");
        }
        sites(self);
    }

    /// JALR from a capability that AUIPC gives (with an immediate of 0 it is AUIPCC), at each of a
    /// few landings, odd targets too, and through the link that a JAL leaves.
    fn jumps(&mut self) {
        let landings: String = (0..16)
            .map(|number| format!("li a5, {number}\nret\n"))
            .collect();
        for (number, [link, base, _]) in TRIPLES.into_iter().enumerate() {
            if matches!(base, 0..=2) {
                continue;
            }
            for choice in 4 * number..4 * number + 4 {
                let distance = (choice % 16 * 8 + choice % 2) as i32;
                let (forth, back) = (distance + 8, distance - 128);
                let jump = format!("auipc x{base}, 0\njalr x{link}, ");
                self.add(&[], |_| format!("{jump}{forth}(x{base})\n{landings}"));
                self.add(&[], |at| {
                    format!("j {at}s\n{landings}{at}s:\n{jump}{back}(x{base})\n")
                });
            }
            self.add(&[], |at| {
                format!("jal x{base}, {at}t\nret\n{at}t:\njalr x{link}, 0(x{base})\n")
            });
        }
    }
}

/// Something with each of a few numbers.
fn with<T: Copy>(numbers: Vec<i32>) -> impl Fn(T) -> Vec<(T, i32)> {
    move |thing| numbers.iter().map(|&number| (thing, number)).collect()
}

/// Immediates of the I format: about each power of two, both signs.
fn immediates() -> Vec<i32> {
    let mut all: Vec<i32> = (0..12)
        .flat_map(|bit| [1 << bit, (1 << bit) - 1, -(1 << bit), 1 - (1 << bit)])
        .filter(|immediate| (-2048..2048).contains(immediate))
        .collect();
    all.sort_unstable();
    all.dedup();
    all
}

/// Calls of a routine with operands at random, beyond the choices of edges.
const MORE: usize = 200;

/// The calls of a routine: every choice of its operands at the edges, then some at random; anything in
/// the other registers.
fn calls(routine: &Routine, place: u32, random: &mut Random) -> Vec<Record> {
    let choices = OPERANDS.len().pow(routine.sources.len() as u32);
    let more = if routine.sources.len() == 2 { MORE } else { 0 };
    let call = |choice: usize| {
        let mut registers = [0; 16].map(|_: u32| random.number());
        let mut rest = choice;
        for &source in routine.sources.iter().filter(|_| choice < choices) {
            registers[source] = OPERANDS[rest % OPERANDS.len()];
            rest /= OPERANDS.len();
        }
        registers[0] = 0;
        Record {
            place,
            registers,
            window: [0; WINDOW],
        }
    };
    (0..choices + more).map(call).collect()
}

/// Adds a part of the instructions to a program.
type Fill = fn(&mut Program);

const PROGRAMS: [(&str, Fill); 6] = [
    ("registers", Program::registers),
    ("products", Program::products),
    ("immediates", Program::immediates),
    ("branches", Program::branches),
    ("distances", Program::distances),
    ("jumps", Program::jumps),
];

/// Assembles a program and links it.
fn image(name: &str, program: &Program) -> Result<Image, String> {
    let place = tools::workplace(&format!("instructions/{name}"))?;
    let source = place.join("instructions.S");
    let text = format!(".option norelax\n.text\n.globl f0\n{}", program.text);
    tools::write(&source, text.as_bytes())?;
    let object = source.with_extension("o");
    tools::assemble(&source, &object)?;
    Linker::new(&place)?.link("f0", &object)
}

/// Compares every routine of a program on every choice of operands; how many calls that were.
fn compare(machine: Machine, name: &str, program: &Program) -> Result<usize, String> {
    let image = image(name, program)?;
    let mut random = Random::new(1, program.routines.len() as u64);
    let mut records = Vec::new();
    for routine in &program.routines {
        let place = image.address(&routine.label)?;
        records.extend(calls(routine, place, &mut random));
    }
    let left = qemu::call(&image.program, &records)?;
    let mut bench = Bench::new(&image, machine)?;
    for (number, (record, left)) in records.iter().zip(&left).enumerate() {
        let told = |text| format!("{name}, call {number}, {record:x?}: {text}");
        let end = bench.check(record, Manner::of(number, false), left);
        let end = end.map_err(told)?;
        if end != End::Returned {
            return Err(told(format!("ended {end:?}")));
        }
    }
    Ok(records.len())
}

/// Compares every program.
pub fn run(machine: Machine) -> Result<String, String> {
    let (mut routines, mut calls) = (0, 0);
    for (name, fill) in PROGRAMS {
        let mut program = Program::default();
        fill(&mut program);
        routines += program.routines.len();
        calls += compare(machine, name, &program)?;
    }
    Ok(format!(
        "{routines} instructions with their registers and immediates, {calls} calls"
    ))
}
