//! Files as they are read: whole, and no larger than what a bench has a use for. The name - is standard input.

use crate::visible;
use std::fs::File;
use std::io::{Error, ErrorKind, Read};
use std::path::Path;
use std::sync::OnceLock;

/// The most bytes of a file. Memory has 65,536; the rest is room for an ELF file's other sections.
pub const MOST: u64 = 1 << 28;

/// The bytes of a file, or what is wrong with it, by its name.
pub fn read(path: &Path) -> Result<Vec<u8>, String> {
    let read = match path == Path::new(visible::INPUT) {
        true => input(),
        false => File::open(path).map_err(|error| why(&error)).and_then(all),
    };
    read.map_err(|reason| format!("{}: {reason}", visible::name(path)))
}

/// The bytes of standard input, which are read once, however often it is named.
fn input() -> Result<Vec<u8>, String> {
    static INPUT: OnceLock<Result<Vec<u8>, String>> = OnceLock::new();
    INPUT.get_or_init(|| all(std::io::stdin())).clone()
}

/// All that is left to read.
pub fn all(from: impl Read) -> Result<Vec<u8>, String> {
    let mut bytes = Vec::new();
    let read = from.take(MOST + 1).read_to_end(&mut bytes);
    read.map_err(|error| why(&error))?;
    match bytes.len() as u64 > MOST {
        true => Err(too_long()),
        false => Ok(bytes),
    }
}

/// What is said of a file with more than the most bytes.
pub fn too_long() -> String {
    format!("the file has more than {MOST} bytes")
}

/// What the system has against a file, a folder or a port, in words.
pub fn why(error: &Error) -> String {
    let words = match error.kind() {
        ErrorKind::NotFound => "there is no such file or folder",
        ErrorKind::IsADirectory => "it is a folder, and a file is asked for",
        ErrorKind::NotADirectory => "it is a file, and a folder is asked for",
        ErrorKind::AlreadyExists => "it is a file, and a folder is asked for",
        ErrorKind::InvalidFilename => "the name is too long",
        ErrorKind::PermissionDenied => "the system does not permit it",
        ErrorKind::StorageFull | ErrorKind::QuotaExceeded => "no room is left there",
        ErrorKind::FileTooLarge => "no larger file is possible there",
        ErrorKind::ReadOnlyFilesystem => "nothing can be written there",
        ErrorKind::AddrInUse => "something listens there already; --port 0 takes a free one",
        _ => return error.to_string(),
    };
    words.into()
}

/// The text of a file's bytes, or its first line that is none.
pub fn text(bytes: &[u8]) -> Result<&str, String> {
    std::str::from_utf8(bytes).map_err(|error| {
        let before = &bytes[..error.valid_up_to()];
        let line = 1 + before.iter().filter(|byte| **byte == b'\n').count();
        format!("line {line} is not text")
    })
}

#[cfg(test)]
mod tests {
    use super::*;

    #[test]
    fn the_system_is_put_into_words() {
        let nowhere = File::open("/no/such/file").unwrap_err();
        assert_eq!(why(&nowhere), "there is no such file or folder");
        let other = Error::from(ErrorKind::TimedOut);
        assert_eq!(why(&other), other.to_string());
    }

    #[test]
    fn the_line_that_is_not_text_is_named() {
        assert_eq!(text(b"one\ntwo\n"), Ok("one\ntwo\n"));
        assert_eq!(text(b"\xFF"), Err("line 1 is not text".into()));
        assert_eq!(text(b"one\ntwo\nt\x80"), Err("line 3 is not text".into()));
    }
}
