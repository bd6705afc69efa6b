//! Map sheets: bytes a second of reading and of writing, by the proved library, by the second program
//! and by a reader and a writer in plain Rust.

mod plain;

use std::time::Instant;

/// Bytes of one timing, and how many timings of each are tried, turn by turn: the best counts. A timing
/// is short, so that some are made while nothing else runs.
const BYTES: usize = 400_000;
const TRIES: u32 = 50;
/// Regions of the sheets.
pub const SIZES: [u32; 3] = [4, 16, 64];
/// Room for any records and any text.
const RECORDS: usize = 7 * 64;
const TEXT: usize = 46 * 64;

/// A reader and a writer.
#[derive(Clone, Copy)]
pub struct Routine {
    name: &'static str,
    read: fn(&[u8], &mut [u32]) -> u64,
    write: fn(&[u32], &mut [u8]) -> u64,
}

const ROUTINES: [Routine; 3] = [
    Routine {
        name: "proved",
        read: proved::sheet_read,
        write: proved::sheet_write,
    },
    Routine {
        name: "second",
        read: second::sheet::read,
        write: second::sheet::write,
    },
    Routine {
        name: "plain",
        read: plain::read,
        write: plain::write,
    },
];

/// A routine by its name.
pub fn routine(name: &str) -> Option<Routine> {
    ROUTINES.into_iter().find(|routine| routine.name == name)
}

/// A good sheet of so many regions, with names of 2 to 16 letters, and its records.
fn sheet(regions: u32) -> (Vec<u8>, Vec<u32>) {
    let line = |index: u32| {
        let letters = [index / 26, index % 26].map(|place| (b'a' + place as u8) as char);
        let name = String::from_iter(letters) + &"z".repeat((index % 15) as usize);
        let rights = ["r", "rw", "rx", "rwx"][(index % 4) as usize];
        format!(
            "region\t{name}\t{:08x}\t00001000\t{rights}\n",
            0x2000_0000 + 0x1000 * index
        )
    };
    let text: String = (0..regions).map(line).collect();
    let mut records = vec![0; 7 * regions as usize];
    let answer = second::sheet::read(text.as_bytes(), &mut records);
    assert_eq!(answer, regions.into(), "a good sheet");
    (text.into_bytes(), records)
}

/// What is timed: reading or writing.
#[derive(Clone, Copy)]
pub enum Way {
    Read,
    Write,
}

/// A way by its name.
pub fn way(name: &str) -> Option<Way> {
    match name {
        "read" => Some(Way::Read),
        "write" => Some(Way::Write),
        _ => None,
    }
}

/// Reads or writes a sheet of so many regions until some bytes of text were; how many that were.
pub fn run(routine: Routine, way: Way, regions: u32, bytes: usize) -> usize {
    let (text, records) = sheet(regions);
    let (mut made, mut out) = ([0; RECORDS], [0; TEXT]);
    let turns = bytes.div_ceil(text.len());
    for _ in 0..turns {
        let (answer, right) = match way {
            Way::Read => ((routine.read)(&text, &mut made), regions as usize),
            Way::Write => ((routine.write)(&records, &mut out), text.len()),
        };
        assert_eq!(answer, right as u64, "{}: another answer", routine.name);
    }
    match way {
        Way::Read => assert_eq!(made[..records.len()], records, "{}", routine.name),
        Way::Write => assert_eq!(out[..text.len()], text, "{}", routine.name),
    }
    turns * text.len()
}

/// Millions of bytes a second.
fn measure(routine: Routine, way: Way, regions: u32) -> f64 {
    let begin = Instant::now();
    let bytes = run(routine, way, regions, BYTES);
    bytes as f64 / 1e6 / begin.elapsed().as_secs_f64()
}

/// The best of some tries of each routine, by turns.
fn best(way: Way, regions: u32) -> [f64; ROUTINES.len()] {
    (0..TRIES).fold([0.0; ROUTINES.len()], |mut best, _| {
        for (best, routine) in best.iter_mut().zip(ROUTINES) {
            *best = best.max(measure(routine, way, regions));
        }
        best
    })
}

/// Both ways on sheets of each size: millions of bytes a second of each routine.
pub fn compare_all() {
    let names = ROUTINES.map(|routine| format!("{:>8}", routine.name));
    println!("          regions{}   (MB a second)", names.join(""));
    for (name, way) in [("reading", Way::Read), ("writing", Way::Write)] {
        for regions in SIZES {
            let columns = best(way, regions).map(|rate| format!("{rate:>8.0}"));
            println!("{name:<10}{regions:>7}{}", columns.join(""));
        }
    }
}

#[cfg(test)]
mod tests {
    use super::*;

    /// Each routine reads and writes as the second program does, a bad line among them.
    #[test]
    fn routines_agree_with_the_second_program() {
        for routine in ROUTINES {
            for regions in [1, 4, 16, 64] {
                for way in [Way::Read, Way::Write] {
                    assert!(run(routine, way, regions, 1) > 0);
                }
                let (mut text, _) = sheet(regions);
                text.pop();
                let answer = (routine.read)(&text, &mut [0; RECORDS]);
                assert_eq!(answer, (13 << 48) + u64::from(regions));
            }
        }
    }
}
