//! Listing and assembling: megabytes a second of the proved library and of the second program, on code of the
//! bench's long words, of its short ones, and of both by turns without a pattern.

use std::time::Instant;

/// A function from lent bytes to lent bytes.
type Routine = fn(&[u8], &mut [u8]) -> u64;

/// The bytes of code, and how many timings of each routine are tried, turn by turn: the best counts.
const CODE: usize = 1 << 20;
const TRIES: u32 = 10;
/// More than a listing of so much code needs: the longest line of two bytes is below 24.
const TEXT: usize = 12 * CODE;

/// Words of every format, and some that are illegal.
#[rustfmt::skip]
const LONG: [u32; 16] = [
    0xFFF5_0513, 0x0000_8067, 0x80F0_8063, 0x0051_2423, 0x8041_4603, 0x7FFF_F537, 0x801F_F0EF, 0x3004_6073,
    0x40B5_0533, 0x0340_C5B3, 0xFC01_115B, 0x1083_02DB, 0xFE26_82DB, 0x7EC1_3E23, 0x0FF0_000F, 0xFFFF_FFFF,
];
#[rustfmt::skip]
const SHORT: [u16; 16] = [
    0x0505, 0x4501, 0x7179, 0x5FE4, 0xC05C, 0x70FE, 0x852E, 0x8082, 0xAFFD, 0xD001, 0x757D, 0x8C1D, 0x00FE, 0xDFBE,
    0x0001, 0x0000,
];

/// The kinds of code.
const KINDS: [&str; 3] = ["mixed", "long", "short"];

/// Code of a kind.
fn code(kind: &str) -> Option<Vec<u8>> {
    let kind = KINDS.iter().position(|known| *known == kind)?;
    let (mut code, mut state) = (Vec::with_capacity(CODE), 1u32);
    while code.len() + 4 <= CODE {
        state = state.wrapping_mul(1_664_525).wrapping_add(1_013_904_223);
        let at = (state >> 16 & 15) as usize;
        let short = [state >> 31 == 1, false, true][kind];
        if short {
            code.extend_from_slice(&SHORT[at].to_le_bytes());
        } else {
            code.extend_from_slice(&LONG[at].to_le_bytes());
        }
    }
    Some(code)
}

/// What is asked of a routine by its name, with the input and the room of the output.
fn asked(what: &str, kind: &str) -> Option<(Routine, Routine, Vec<u8>, usize)> {
    let code = code(kind)?;
    match what {
        "list" => Some((proved::list_into, second::list, code, TEXT)),
        "assemble" => Some((proved::assemble_into, second::assemble, text(&code), CODE)),
        _ => None,
    }
}

/// The listing of code.
fn text(code: &[u8]) -> Vec<u8> {
    let mut text = vec![0; TEXT];
    let answer = second::list(code, &mut text);
    assert_eq!(answer >> 48, 0, "the listing is refused");
    text.truncate(answer as usize);
    text
}

/// A success's bytes.
fn run(routine: Routine, given: &[u8], out: &mut [u8]) -> usize {
    let answer = routine(given, out);
    assert_eq!(answer >> 48, 0, "refused");
    answer as usize
}

/// The bytes of the input, after some rounds of one routine and no times, for an instruction count by
/// callgrind. With no round, only the input is made.
pub fn count(engine: &str, what: &str, kind: &str, rounds: u32) -> Option<usize> {
    let (proved, second, given, room) = asked(what, kind)?;
    let mut out = vec![0; room];
    let routine = match engine {
        "proved" => proved,
        "second" => second,
        _ => return None,
    };
    for _ in 0..rounds {
        run(routine, &given, &mut out);
    }
    Some(given.len())
}

/// Megabytes a second of both routines; they must write the same.
fn best(what: &str, kind: &str) -> Option<(f64, f64)> {
    let (proved, second, given, room) = asked(what, kind)?;
    let (mut ours, mut theirs) = (vec![0; room], vec![0; room]);
    let measure = |routine, out: &mut [u8]| {
        let begin = Instant::now();
        run(routine, &given, out);
        given.len() as f64 / begin.elapsed().as_secs_f64() / 1e6
    };
    let mut best: (f64, f64) = (0.0, 0.0);
    for _ in 0..TRIES {
        best.0 = best.0.max(measure(proved, &mut ours));
        best.1 = best.1.max(measure(second, &mut theirs));
        assert_eq!(ours, theirs, "{what}: other bytes");
    }
    Some(best)
}

/// Both functions on both programs, with their ratio.
pub fn compare_all() {
    println!("                 proved  second  ratio   (millions of bytes a second: code listed, text assembled)");
    for what in ["list", "assemble"] {
        for kind in KINDS {
            let Some((proved, second)) = best(what, kind) else {
                continue;
            };
            let ratio = proved / second;
            println!("{what:<9} {kind:<5} {proved:>7.1} {second:>7.1} {ratio:>6.2}");
        }
    }
}
