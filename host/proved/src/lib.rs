//! The proved libraries as safe functions on slices and numbers: what include/oddersnow.h declares, each
//! under its name there without the prefix. build.rs links them.
//!
//! A function with a body is `#[inline]`: it is compiled where it is called, so that a program links
//! only the libraries that it calls.

mod listing;

pub use listing::{assemble, list, piece_ends, Refused};

// SAFETY: declared as in include/oddersnow.h; each takes and gives plain numbers, and is total.
unsafe extern "C" {
    #[link_name = "oddersnow_cut_number"]
    pub safe fn cut_number(base: u32, length: u32) -> u32;
    #[link_name = "oddersnow_cut_low"]
    pub safe fn cut_low(base: u32, length: u32) -> u32;
    #[link_name = "oddersnow_cut_high"]
    pub safe fn cut_high(base: u32, length: u32) -> u64;
    #[link_name = "oddersnow_cut_exact"]
    pub safe fn cut_exact(base: u32, length: u32) -> u32;
    #[link_name = "oddersnow_bounds_low"]
    pub safe fn bounds_low(address: u32, metadata: u32) -> u32;
    #[link_name = "oddersnow_bounds_high"]
    pub safe fn bounds_high(address: u32, metadata: u32) -> u64;
}

use lent::{Board, Query, Watch};

/// A function of the machine. The step and the run take the same lent buffers, so their arguments stand
/// here once; the run has its number of steps after them.
macro_rules! machine_function {
    ($(#[$doc:meta])* $name:ident is $declared:ident $(, $steps:ident: $number:ty)?) => {
        // SAFETY: declared as in include/oddersnow.h.
        unsafe extern "C" {
            fn $declared(
                regs: *mut u32,
                regs_len: usize,
                start: u32,
                mem: *mut u8,
                mem_len: usize,
                tags: *mut u8,
                tags_len: usize,
                window_start: u32,
                window_size: u32,
                revoked: *const u8,
                revoked_len: usize,
                edition: u32,
                $($steps: $number,)?
            ) -> u64;
        }

        $(#[$doc])*
        #[inline]
        pub fn $name(
            regs: &mut [u32], board: Board, mem: &mut [u8], tags: &mut [u8], revoked: &[u8],
            $($steps: $number,)?
        ) -> u64 {
            // SAFETY: each pointer is of a live slice with as many elements as the count after it
            // says, and no two overlap.
            unsafe {
                $declared(
                    regs.as_mut_ptr(),
                    regs.len(),
                    board.start,
                    mem.as_mut_ptr(),
                    mem.len(),
                    tags.as_mut_ptr(),
                    tags.len(),
                    board.window.start,
                    board.window.size,
                    revoked.as_ptr(),
                    revoked.len(),
                    board.edition,
                    $($steps,)?
                )
            }
        }
    };
}

machine_function! {
    /// One step. The answer is number * 2^48 + trapped * 2^24 + retired.
    step is oddersnow_step
}

machine_function! {
    /// A run of some steps, with the same answer.
    run is oddersnow_run, steps: u32
}

/// A run with a watch record: the ranges go as numbers, and the two counts are lent.
macro_rules! watched_function {
    ($(#[$doc:meta])* $name:ident is $declared:ident) => {
        // SAFETY: declared as in include/oddersnow.h.
        unsafe extern "C" {
            fn $declared(
                regs: *mut u32,
                regs_len: usize,
                start: u32,
                mem: *mut u8,
                mem_len: usize,
                tags: *mut u8,
                tags_len: usize,
                window_start: u32,
                window_size: u32,
                revoked: *const u8,
                revoked_len: usize,
                edition: u32,
                steps: u32,
                start1: u32,
                length1: u32,
                count1: *mut u32,
                start2: u32,
                length2: u32,
                count2: *mut u32,
            ) -> u64;
        }

        $(#[$doc])*
        #[inline]
        pub fn $name(
            regs: &mut [u32], board: Board, mem: &mut [u8], tags: &mut [u8], revoked: &[u8],
            steps: u32, watch: &mut Watch,
        ) -> u64 {
            let [first, second] = watch;
            // SAFETY: as for the machine; the two counts are words of their own.
            unsafe {
                $declared(
                    regs.as_mut_ptr(),
                    regs.len(),
                    board.start,
                    mem.as_mut_ptr(),
                    mem.len(),
                    tags.as_mut_ptr(),
                    tags.len(),
                    board.window.start,
                    board.window.size,
                    revoked.as_ptr(),
                    revoked.len(),
                    board.edition,
                    steps,
                    first.start,
                    first.length,
                    &mut first.count,
                    second.start,
                    second.length,
                    &mut second.count,
                )
            }
        }
    };
}

watched_function! {
    /// A run of some steps with a watch record, whose counts rise in place; the same answer.
    run_watched is oddersnow_run_watched
}

watched_function! {
    /// The same run by the second engine: the same answer, buffers and record.
    run_quick is oddersnow_run_quick
}

// SAFETY: declared as in include/oddersnow.h.
unsafe extern "C" {
    fn oddersnow_sweep(
        start: u32,
        mem: *const u8,
        mem_len: usize,
        tags: *mut u8,
        tags_len: usize,
        window_start: u32,
        window_size: u32,
        revoked: *const u8,
        revoked_len: usize,
        granule: u32,
    ) -> u64;
}

/// One granule swept, by its number. The answer is number * 2^48 + last * 2^32 + next: the number of the
/// granule to visit next, or 0 with last 1 after the last granule.
#[inline]
pub fn sweep(board: Board, mem: &[u8], tags: &mut [u8], revoked: &[u8], granule: u32) -> u64 {
    // SAFETY: as for the machine; memory is read and not written.
    unsafe {
        oddersnow_sweep(
            board.start,
            mem.as_ptr(),
            mem.len(),
            tags.as_mut_ptr(),
            tags.len(),
            board.window.start,
            board.window.size,
            revoked.as_ptr(),
            revoked.len(),
            granule,
        )
    }
}

/// A search of a state, which is lent to be read.
macro_rules! search_function {
    ($(#[$doc:meta])* $name:ident is $declared:ident) => {
        // SAFETY: declared as in include/oddersnow.h.
        unsafe extern "C" {
            fn $declared(
                regs: *const u32,
                regs_len: usize,
                start: u32,
                mem: *const u8,
                mem_len: usize,
                tags: *const u8,
                tags_len: usize,
                low: u32,
                length: u32,
                rights: u32,
                from: u32,
            ) -> u64;
        }

        $(#[$doc])*
        #[inline]
        pub fn $name(
            regs: &[u32], start: u32, mem: &[u8], tags: &[u8], query: Query, from: u32,
        ) -> u64 {
            // SAFETY: as for the machine; nothing is written.
            unsafe {
                $declared(
                    regs.as_ptr(),
                    regs.len(),
                    start,
                    mem.as_ptr(),
                    mem.len(),
                    tags.as_ptr(),
                    tags.len(),
                    query.low,
                    query.length,
                    query.rights,
                    from,
                )
            }
        }
    };
}

search_function! {
    /// The first place from one on that holds a tagged capability with the rights of the query and a byte in
    /// common with its range: 0 to 20 the capability registers, 21 + g granule g. The answer is number * 2^48 +
    /// place + 1, or + 0 where there is none.
    reach is oddersnow_reach
}

search_function! {
    /// The same search from outside: granules that lie in the range are passed over. 22 is its refusal of a range
    /// that does not begin and end between granules.
    reach_outside is oddersnow_reach_outside
}

// SAFETY: declared as in include/oddersnow.h.
unsafe extern "C" {
    fn oddersnow_calls(
        address: u32,
        metadata: u32,
        tag: u32,
        kinds: *const u32,
        kinds_len: usize,
        values: *const u32,
        values_len: usize,
        out: *mut u32,
        out_len: usize,
    ) -> u32;
}

/// A list of calls on the capability of three words: address, metadata and tag. `out` takes those of
/// each call. The answer is 0, or with nothing changed the refusal's number: 4 for a tag above 1, 11
/// for a wrong size, 12 for an unknown kind.
#[inline]
pub fn calls(start: [u32; 3], kinds: &[u32], values: &[u32], out: &mut [u32]) -> u32 {
    let [address, metadata, tag] = start;
    // SAFETY: as for the machine.
    unsafe {
        oddersnow_calls(
            address,
            metadata,
            tag,
            kinds.as_ptr(),
            kinds.len(),
            values.as_ptr(),
            values.len(),
            out.as_mut_ptr(),
            out.len(),
        )
    }
}

/// A function from lent bytes to lent bytes, with its answer: number * 2^48 + rest.
macro_rules! text_function {
    ($(#[$doc:meta])* $name:ident is $declared:ident) => {
        // SAFETY: declared as in include/oddersnow.h.
        unsafe extern "C" {
            fn $declared(given: *const u8, given_len: usize, out: *mut u8, out_len: usize) -> u64;
        }

        $(#[$doc])*
        #[inline]
        pub fn $name(given: &[u8], out: &mut [u8]) -> u64 {
            // SAFETY: as for the machine.
            unsafe { $declared(given.as_ptr(), given.len(), out.as_mut_ptr(), out.len()) }
        }
    };
}

text_function! {
    /// The listing of code. 0 and the bytes written; 15 and the byte offset of the word that is cut off; 10
    /// for an output that is too short.
    list_into is oddersnow_list
}

text_function! {
    /// The code of a listing. 0 and the bytes written; 13 and the number, from 1, of the first line that is
    /// no word's listing; 10 for an output that is too short.
    assemble_into is oddersnow_assemble
}

// SAFETY: declared as in include/oddersnow.h.
unsafe extern "C" {
    fn oddersnow_sheet_read(
        sheet: *const u8,
        sheet_len: usize,
        records: *mut u32,
        records_len: usize,
    ) -> u64;
    fn oddersnow_sheet_write(
        records: *const u32,
        records_len: usize,
        out: *mut u8,
        out_len: usize,
    ) -> u64;
    fn oddersnow_sheet_compare(
        first: *const u8,
        first_len: usize,
        second: *const u8,
        second_len: usize,
        out: *mut u8,
        out_len: usize,
    ) -> u64;
    fn oddersnow_fit(
        board: *const u8,
        board_len: usize,
        first: *const u8,
        first_len: usize,
        second: *const u8,
        second_len: usize,
    ) -> u64;
}

/// Reads a map sheet into records of seven words: four with the name's letters, low bytes first and
/// zeros after them, then start, length and rights (r 1, w 2, x 4). The answer is how many there are,
/// or with nothing changed number * 2^48 + rest: 13 and the first bad line, or 10 for too few words.
#[inline]
pub fn sheet_read(sheet: &[u8], records: &mut [u32]) -> u64 {
    let (to, room) = (records.as_mut_ptr(), records.len());
    // SAFETY: as for the machine; a lent sheet is read and not written.
    unsafe { oddersnow_sheet_read(sheet.as_ptr(), sheet.len(), to, room) }
}

/// Writes the sheet of such records. The answer is how many bytes it has, or with nothing changed 13
/// and the first bad line, or 10 for too few bytes.
#[inline]
pub fn sheet_write(records: &[u32], out: &mut [u8]) -> u64 {
    let (to, room) = (out.as_mut_ptr(), out.len());
    // SAFETY: as above.
    unsafe { oddersnow_sheet_write(records.as_ptr(), records.len(), to, room) }
}

/// Writes the names in which two sheets differ, a line each. The answer is how many bytes that is, or
/// with nothing changed 13 or 14 and the first bad line of the first or the second sheet, or 10.
#[inline]
pub fn sheet_compare(first: &[u8], second: &[u8], out: &mut [u8]) -> u64 {
    // SAFETY: as above; the two sheets may be one, since neither is written.
    unsafe {
        oddersnow_sheet_compare(
            first.as_ptr(),
            first.len(),
            second.as_ptr(),
            second.len(),
            out.as_mut_ptr(),
            out.len(),
        )
    }
}

/// Which of two images, each a map sheet, an empty line and a payload, fits a board's sheet. The answer
/// is image * 2^40 + the payload's place in it, with image 1 or 2; or number * 2^48 + rest: 16 where
/// neither fits, or 17, 18 or 19 and the first bad line of the board's sheet, the first image's or the
/// second's.
#[inline]
pub fn fit(board: &[u8], first: &[u8], second: &[u8]) -> u64 {
    // SAFETY: as above; the images may be one, since neither is written.
    unsafe {
        oddersnow_fit(
            board.as_ptr(),
            board.len(),
            first.as_ptr(),
            first.len(),
            second.as_ptr(),
            second.len(),
        )
    }
}
