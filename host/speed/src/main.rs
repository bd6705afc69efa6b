//! Steps a second of both proved engines and of the second program on long programs, in one process,
//! lookups of bounds by the proved routine and by plain ones, map sheets read and written by both,
//! bytes a second of lister and assembler, and granules a second of the sweeper and of the search for capabilities.
//!
//!   speed [PROGRAM ..]         all programs by name and those given on the three, with ratios. A program is a name or
//!                              a FILE of raw code, run from its first byte; after it may stand :CALL, the steps of one
//!                              call, a million if it does not, and at each a file then starts again
//!   speed ENGINE PROGRAM THOUSANDS
//!                              so many thousands of steps and no times, for an instruction count by callgrind;
//!                              ENGINE is plain, quick or second
//!   speed lookup               every routine on words of every kind, with their ratios
//!   speed lookup ROUTINE KIND LOOKUPS
//!                              lookups by one routine and no times; ROUTINE is proved, second or tuned,
//!                              KIND random, whole, exponent4 or small, LOOKUPS a number of millions
//!   speed sheets               sheets of each size read and written by every routine
//!   speed sheets ROUTINE WAY REGIONS BYTES
//!                              one routine and no times; ROUTINE is proved, second or plain, WAY read or
//!                              write, BYTES a number of millions
//!   speed listing              listing and assembling by both, with their ratio
//!   speed listing ENGINE FUNCTION KIND ROUNDS
//!                              so many rounds and no times, and the bytes of one; FUNCTION is list or assemble,
//!                              KIND mixed, long or short
//!   speed sweep                passes of the sweeper over 1 MiB by both, with their ratio
//!   speed sweep ENGINE KIND PASSES
//!                              so many passes and no times, and the granules of one; KIND is untagged, kept or
//!                              revoked
//!   speed reach                queries over 1 MiB that find nothing, by both, with their ratio
//!   speed reach ENGINE KIND QUERIES
//!                              so many queries and no times, and the granules of one; KIND is untagged, elsewhere or
//!                              unable

mod kinds;
mod listing;
mod lookup;
mod machine;
mod programs;
mod reach;
mod sheets;
mod sweep;
mod turns;

/// Does what the command line asks for, if it asks for something that there is.
fn asked(arguments: &[&str]) -> Option<()> {
    match arguments {
        ["lookup"] => lookup::compare_all(),
        ["lookup", name, kind, millions] => {
            let sum = lookup::run(lookup::routine(name)?, kind, millions.parse().ok()?)?;
            println!("{sum:016x}");
        }
        ["sheets"] => sheets::compare_all(),
        ["sheets", name, way, regions, millions] => {
            let bytes: usize = millions.parse().ok()?;
            let (routine, way) = (sheets::routine(name)?, sheets::way(way)?);
            sheets::run(routine, way, regions.parse().ok()?, 1_000_000 * bytes);
        }
        ["listing"] => listing::compare_all(),
        ["listing", name, what, kind, rounds] => {
            println!(
                "{}",
                listing::count(name, what, kind, rounds.parse().ok()?)?
            );
        }
        ["sweep"] => sweep::compare_all(),
        ["sweep", name, kind, passes] => {
            println!("{}", sweep::count(name, kind, passes.parse().ok()?)?);
        }
        ["reach"] => reach::compare_all(),
        ["reach", name, kind, queries] => {
            println!("{}", reach::count(name, kind, queries.parse().ok()?)?);
        }
        [name, program, thousands] if machine::engine(name).is_some() => {
            let steps = 1000 * thousands.parse::<u32>().ok()?;
            machine::run(machine::engine(name)?, program, steps)?;
        }
        programs => machine::compare_all(programs)?,
    }
    Some(())
}

fn main() {
    let arguments: Vec<String> = std::env::args().skip(1).collect();
    let arguments: Vec<&str> = arguments.iter().map(String::as_str).collect();
    asked(&arguments).expect(
        "speed [PROGRAM .. | ENGINE PROGRAM THOUSANDS | [lookup ROUTINE KIND | sheets ROUTINE WAY REGIONS] MILLIONS | listing [ENGINE FUNCTION KIND ROUNDS] | sweep [ENGINE KIND PASSES] | reach [ENGINE KIND QUERIES]]",
    );
}
