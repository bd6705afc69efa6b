//! Published programs: the routines of GCC's library for RV32E, without and with the M extension, and with
//! M and compressed code, which nobody here wrote, each linked from Debian's archives and called on the proved machine, on
//! the second program and under qemu-riscv32, on the same registers and stack words.
//!
//! A routine that touches no memory runs as it is: the first trap ends the call. All of them run
//! once more with the repairing handler (repair.S), and with it those that keep integers for
//! addresses: on this machine each such use traps, is repaired and tried again.

use crate::arguments::{calls, Fixed, Kind};
use crate::bench::{Bench, End, Manner};
use crate::image::{Image, Linker};
use crate::{qemu, tools};
use compare::machines::Machine;
use compare::random::Random;
use lent::instruction_bytes;
use std::fmt;
use std::path::Path;

/// Every routine by its arguments (GCC internals, "The GCC low-level runtime library"): w a word,
/// l 64 bits, f, d and q a float of 32, 64 and 128 bits, r the place of a result, n a count.
#[rustfmt::skip]
const SIGNATURES: [(&str, &str); 25] = [
    ("w", "__absvsi2 __negvsi2 __popcountsi2 __paritysi2 __bswapsi2 __clzsi2 __ctzsi2 __ffssi2 \
        __clrsbsi2 __floatsidf __floatsisf __floatunsidf __floatunsisf __enable_execute_stack"),
    ("ww", "__addvsi3 __subvsi3 __mulvsi3 __mulsi3 __divsi3 __modsi3 __udivsi3 __umodsi3 \
        __hidden___udivsi3 __clear_cache"),
    ("wwww", "__udiv_w_sdiv"),
    ("l", "__absvdi2 __negvdi2 __negdi2 __popcountdi2 __paritydi2 __bswapdi2 __clzdi2 __ctzdi2 \
        __ffsdi2 __clrsbdi2 __floatdidf __floatdisf __floatundidf __floatundisf"),
    ("ll", "__addvdi3 __subvdi3 __mulvdi3 __muldi3 __divdi3 __moddi3 __udivdi3 __umoddi3 \
        __cmpdi2 __ucmpdi2"),
    ("lw", "__ashldi3 __ashrdi3 __lshrdi3"),
    ("llr", "__divmoddi4 __udivmoddi4"),
    ("f", "__negsf2 __fixsfsi __fixunssfsi __fixsfdi __fixunssfdi __extendsfdf2"),
    ("ff", "__addsf3 __subsf3 __mulsf3 __divsf3 __eqsf2 __nesf2 __gesf2 __gtsf2 __lesf2 __ltsf2 \
        __unordsf2"),
    ("d", "__negdf2 __fixdfsi __fixunsdfsi __fixdfdi __fixunsdfdi __truncdfsf2"),
    ("dd", "__adddf3 __subdf3 __muldf3 __divdf3 __eqdf2 __nedf2 __gedf2 __gtdf2 __ledf2 __ltdf2 \
        __unorddf2"),
    ("q", "__fixtfsi __fixunstfsi __fixtfdi __fixunstfdi __trunctfsf2 __trunctfdf2"),
    ("qq", "__eqtf2 __netf2 __getf2 __gttf2 __letf2 __lttf2 __unordtf2"),
    ("rq", "__negtf2"),
    ("rqq", "__addtf3 __subtf3 __multf3 __divtf3"),
    ("rw", "__floatsitf __floatunsitf"),
    ("rl", "__floatditf __floatunditf"),
    ("rf", "__extendsftf2"),
    ("rd", "__extenddftf2"),
    ("qqn", "__gcc_bcmp"),
    ("fw", "__powisf2"),
    ("dw", "__powidf2"),
    ("rqw", "__powitf2"),
    ("ffff", "__mulsc3 __divsc3"),
    ("rdddd", "__muldc3 __divdc3"),
];

/// What the archive has besides, by the reason for which it is not called.
const NOT_CALLED: [(&str, &str); 5] = [
    (
        "needs a C library's malloc, free or abort",
        "_Unwind_ __register_frame __deregister_frame __frame_state_for __gcc_personality __emutls",
    ),
    (
        "is entered by t0, not by a call",
        "__riscv_save __riscv_restore",
    ),
    ("has 96 bytes by reference", "__multc3 __divtc3"),
    ("has LR and SC of the A extension", "__sync_"),
    (
        "is a table",
        "__clz_tab __popcount_tab __CTOR_LIST__ __DTOR_LIST__",
    ),
];

/// Calls at random for each routine, beyond the pairs of edges.
const MORE: usize = 2000;

/// An archive, and the fewest routines that it must have: in all, without memory, with words of the M
/// extension, and with short words. So none goes unnoticed.
struct Archive {
    architecture: &'static str,
    routines: usize,
    plain: usize,
    multiplying: usize,
    compressed: usize,
}

const ARCHIVES: [Archive; 3] = [
    Archive {
        architecture: "rv32e",
        routines: 110,
        plain: 44,
        multiplying: 0,
        compressed: 0,
    },
    Archive {
        architecture: "rv32em",
        routines: 110,
        plain: 46,
        multiplying: 22,
        compressed: 0,
    },
    Archive {
        architecture: "rv32emac",
        routines: 113,
        plain: 46,
        multiplying: 22,
        compressed: 113,
    },
];

/// What the code of an image is made of.
#[derive(Clone, Copy, PartialEq, Eq, Debug)]
enum Code {
    /// LUI, OP-IMM, OP, branches and jumps, and EBREAK, and their short forms.
    Plain,
    /// Loads and stores of integers too.
    Memory,
    /// A word of another opcode.
    Other(u32),
}

fn code(words: &[u32]) -> Code {
    let mut found = Code::Plain;
    for &word in words {
        if instruction_bytes(word) == 2 {
            match short_code(word) {
                Code::Plain => {}
                Code::Memory => found = Code::Memory,
                other => return other,
            }
            continue;
        }
        match (word & 0x7F, word >> 12 & 7) {
            (0x13 | 0x33 | 0x37 | 0x63 | 0x67 | 0x6F, _) => {}
            (0x73, _) if word == 0x0010_0073 => {}
            (0x03, 0..=2 | 4 | 5) | (0x23, 0..=2) => found = Code::Memory,
            _ => return Code::Other(word),
        }
    }
    found
}

/// The same of a short word, by quadrant and funct3: C.LW, C.SW and those of the stack use memory; the
/// capability forms and the reserved ones are of another kind.
fn short_code(half: u32) -> Code {
    match (half & 3, half >> 13) {
        (0 | 2, 2 | 6) => Code::Memory,
        (1, _) | (2, 0 | 4) => Code::Plain,
        (0, 0) if half != 0 => Code::Plain,
        _ => Code::Other(half),
    }
}

/// Whether some word multiplies or divides.
fn multiplies(words: &[u32]) -> bool {
    words.iter().any(|word| word & 0xFE00_007F == 0x0200_0033)
}

/// What the run of an archive has counted.
#[derive(Default)]
struct Totals {
    routines: usize,
    plain: usize,
    multiplying: usize,
    compressed: usize,
    /// Instructions in all of them, and short ones.
    words: usize,
    short_words: usize,
    calls: usize,
    broke: usize,
    integer_returns: usize,
    repaired_calls: usize,
    repairs: u64,
    not_run: Vec<String>,
}

impl fmt::Display for Totals {
    fn fmt(&self, out: &mut fmt::Formatter) -> fmt::Result {
        write!(
            out,
            "{} routines of libgcc, {} with words of M; {} words, {} short; {} without memory: {} calls, \
             {} ended by EBREAK, {} at a return through an integer; {} calls with the repairing handler, \
             {} repairs",
            self.routines,
            self.multiplying,
            self.words,
            self.short_words,
            self.plain,
            self.calls,
            self.broke,
            self.integer_returns,
            self.repaired_calls,
            self.repairs
        )
    }
}

/// Runs every routine of the archives.
pub fn run(machine: Machine) -> Result<String, String> {
    let (mut not_run, mut report) = (String::new(), Vec::new());
    for archive in &ARCHIVES {
        let name = archive.architecture;
        let totals = run_archive(machine, archive).map_err(|text| format!("{name}: {text}"))?;
        for line in &totals.not_run {
            not_run.push_str(&format!("{name}: not run: {line}\n"));
        }
        report.push(format!("{name}: {totals}"));
    }
    Ok(not_run + &report.join("; "))
}

fn run_archive(machine: Machine, archive: &Archive) -> Result<Totals, String> {
    let place = tools::workplace(&format!("routines/{}", archive.architecture))?;
    let (linker, file) = (Linker::new(&place)?, tools::libgcc(archive.architecture)?);
    let mut totals = Totals::default();
    for name in tools::symbols(&file)?.keys() {
        routine(machine, &linker, &file, name, &mut totals)
            .map_err(|text| format!("{name}: {text}"))?;
    }
    let few = totals.routines < archive.routines
        || totals.plain < archive.plain
        || totals.multiplying < archive.multiplying
        || totals.compressed < archive.compressed;
    if few {
        return Err(format!("{totals}\nfewer routines than there were"));
    }
    Ok(totals)
}

/// Why a name of the archive is not called.
fn reason(name: &str) -> &'static str {
    let has = |starts: &str| {
        starts
            .split_whitespace()
            .any(|start| name.starts_with(start))
    };
    let found = NOT_CALLED.iter().find(|(_, starts)| has(starts));
    found.map_or("is not in the list", |(reason, _)| *reason)
}

/// Runs one routine if it can run here; else notes why not.
fn routine(
    machine: Machine,
    linker: &Linker,
    archive: &Path,
    name: &str,
    totals: &mut Totals,
) -> Result<(), String> {
    let has = |names: &str| names.split_whitespace().any(|other| other == name);
    let Some((signature, _)) = SIGNATURES.iter().find(|(_, names)| has(names)) else {
        totals.not_run.push(format!("{name} {}", reason(name)));
        return Ok(());
    };
    let image = linker.link(name, archive)?;
    let code = code(&image.code);
    if let Code::Other(word) = code {
        let what = match word & 0x7F {
            0x17 => "has an AUIPC, which is AUIPCC here",
            _ => "has a word of another kind",
        };
        totals.not_run.push(format!("{name} {what}: {word:x}"));
        return Ok(());
    }
    totals.routines += 1;
    totals.plain += usize::from(code == Code::Plain);
    totals.multiplying += usize::from(multiplies(&image.code));
    let short = |word: &&u32| instruction_bytes(**word) == 2;
    let short_words = image.code.iter().filter(short).count();
    totals.compressed += usize::from(short_words > 0);
    totals.words += image.code.len();
    totals.short_words += short_words;
    check(machine, &image, name, signature, code, totals)
}

/// Calls a routine in every way.
fn check(
    machine: Machine,
    image: &Image,
    name: &str,
    signature: &str,
    code: Code,
    totals: &mut Totals,
) -> Result<(), String> {
    let fixed = Fixed {
        routine: image.address(name)?,
        stack: image.address("sp_start")?,
        global: image.address("__global_pointer$")?,
    };
    let mut random = Random::new(1, fixed.routine.into());
    let records = calls(&Kind::of(signature), MORE, &mut random, fixed);
    let left = qemu::call(&image.program, &records)?;
    let mut bench = Bench::new(image, machine)?;
    for (number, (record, left)) in records.iter().zip(&left).enumerate() {
        let told = |text| format!("call {number}, {record:x?}: {text}");
        if code == Code::Plain {
            let end = bench.check(record, Manner::of(number, false), left);
            let end = end.map_err(told)?;
            totals.calls += 1;
            totals.broke += usize::from(matches!(end, End::Broke(_)));
            totals.integer_returns += usize::from(end == End::IntegerReturn);
        }
        let end = bench.check(record, Manner::of(number, true), left);
        if end.map_err(told)? == End::IntegerReturn {
            return Err(told("a return was not repaired".to_string()));
        }
        totals.repaired_calls += 1;
        totals.repairs += bench.traps - 1;
    }
    Ok(())
}

#[cfg(test)]
mod tests {
    use super::*;

    #[test]
    fn words_of_m() {
        assert!(multiplies(&[0x0000_8067, 0x02C5_8533]) && multiplies(&[0x02C5_F533]));
        assert!(!multiplies(&[0x00C5_8533, 0x40C5_8533, 0x02C5_8513]));
    }

    #[test]
    fn kinds_of_code() {
        assert_eq!(code(&[0x0010_0073, 0x0000_8067]), Code::Plain);
        assert_eq!(code(&[0x0000_8067, 0x0081_2083]), Code::Memory);
        assert_eq!(code(&[0x0000_0517, 0x0081_2083]), Code::Other(0x517));
        assert_eq!(code(&[0x0000_0073]), Code::Other(0x73));
        assert_eq!(code(&[0x0000_3003]), Code::Other(0x3003));
        // c.mv, c.ret; c.lwsp; c.ldsp, the zero half.
        assert_eq!(code(&[0x82AA, 0x8082]), Code::Plain);
        assert_eq!(code(&[0x4082, 0x8082]), Code::Memory);
        assert_eq!(code(&[0x6082]), Code::Other(0x6082));
        assert_eq!(code(&[0]), Code::Other(0));
    }
}
