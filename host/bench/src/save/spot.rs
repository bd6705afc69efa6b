//! Which file a name leads to, whether it is there or not, and whether two names lead to one.

use crate::visible::INPUT;
use std::ffi::OsString;
use std::fs::{self, File, Metadata};
use std::io::{self, Error};
use std::os::fd::AsFd;
use std::os::unix::fs::MetadataExt;
use std::path::{Path, PathBuf};

/// The most links that are followed, as many as the system itself follows.
const MOST_LINKS: usize = 40;

/// The file that a name leads to by its links, or why none can be there.
pub fn led_to(path: &Path) -> Result<PathBuf, &'static str> {
    let mut path = path.to_path_buf();
    for _ in 0..=MOST_LINKS {
        if path.as_os_str().as_encoded_bytes().ends_with(b"/") {
            return Err("it is a folder, and a file is asked for");
        }
        let Ok(target) = fs::read_link(&path) else {
            return Ok(path);
        };
        path = folder_of(&path).join(target);
    }
    Err("its links lead in a circle")
}

/// The folder of a file.
pub fn folder_of(path: &Path) -> &Path {
    match path.parent() {
        Some(folder) if !folder.as_os_str().is_empty() => folder,
        _ => Path::new("."),
    }
}

/// Whether a name leads to the file that is read by another, of which - is standard input.
pub fn is_read(path: &Path, read: &Path) -> bool {
    match read == Path::new(INPUT) {
        true => {
            number(path).is_some_and(|file| input().is_ok_and(|input| numbered(&input) == file))
        }
        false => is_same(path, read),
    }
}

fn input() -> Result<Metadata, Error> {
    File::from(io::stdin().as_fd().try_clone_to_owned()?).metadata()
}

/// Whether two names lead to the same file, or would if it were there.
pub fn is_same(one: &Path, other: &Path) -> bool {
    let files = (number(one), number(other));
    match files {
        (Some(one), Some(other)) => one == other,
        (None, None) => spot(one).is_some_and(|one| Some(one) == spot(other)),
        _ => false,
    }
}

/// The system's own number of what a name leads to.
fn number(path: &Path) -> Option<(u64, u64)> {
    Some(numbered(&fs::metadata(path).ok()?))
}

fn numbered(there: &Metadata) -> (u64, u64) {
    (there.dev(), there.ino())
}

/// A file's folder and its name there.
fn spot(path: &Path) -> Option<((u64, u64), OsString)> {
    let path = led_to(path).ok()?;
    Some((number(folder_of(&path))?, path.file_name()?.into()))
}
