//! A folder of images on one board: each is judged by its label and run, several at a time. What comes of an image
//! depends on its bytes, the board, the steps and the program alone, so that the answer is the same for any number of
//! jobs, and a result that was kept can stand for it.

mod judge;
pub mod own;
mod results;
pub mod row;
pub mod table;
mod work;

pub use results::Results;
pub use work::{work, Done};

use crate::arguments::{Setting, Terms};
use crate::command::fit::Board;
use crate::file;
use crate::page::digest;
use crate::proved::engine::Engine;
use crate::reach::Never;
use crate::save::Place;
use crate::visible;
use std::ffi::{OsStr, OsString};
use std::fs;
use std::path::{Path, PathBuf};

/// What every image of a shelf meets.
pub struct Shelf {
    pub folder: PathBuf,
    pub board_name: PathBuf,
    pub board: Board,
    /// The board's own files, with their bytes.
    pub with: Vec<(PathBuf, Vec<u8>)>,
    /// What each image starts with, and by what its run is judged.
    pub setting: Setting,
    pub terms: Terms,
    /// From where on every run is judged, and what none of them may do.
    pub handover: Option<String>,
    pub nevers: Vec<Never>,
    /// Where pages go.
    pub pages: Option<PathBuf>,
}

impl Shelf {
    /// The names of the images: the folder's regular files, but for those that belong to the board, by the order of
    /// their bytes.
    pub fn names(&self) -> Result<Vec<OsString>, String> {
        let told = |error| format!("{}: {}", visible::name(&self.folder), file::why(&error));
        let own = self.with.iter().map(|(path, _)| path);
        let own = own.chain([&self.board_name]);
        let own: Vec<PathBuf> = own.filter_map(|path| path.canonicalize().ok()).collect();
        let mut names = Vec::new();
        for entry in fs::read_dir(&self.folder).map_err(told)? {
            let entry = entry.map_err(told)?;
            let path = entry.path();
            let is_file = fs::metadata(&path).is_ok_and(|there| there.is_file());
            let is_own = path.canonicalize().is_ok_and(|path| own.contains(&path));
            // What cannot be looked at is an image that cannot be read, unless it is seen to be something else.
            let is_broken = fs::metadata(&path).is_err();
            if (is_file && !is_own) || is_broken {
                names.push(entry.file_name());
            }
        }
        names.sort();
        Ok(names)
    }

    /// A sum of all that decides a result but for the image itself, the program among it.
    pub fn key(&self) -> Result<String, String> {
        let program = std::env::current_exe().and_then(fs::read);
        let program = program.map_err(|error| format!("the program's own file: {error}"))?;
        // The engines give the same answers.
        let setting = Setting {
            engine: Engine::default(),
            ..self.setting.clone()
        };
        let mut parts = vec![digest(&program), format!("{setting:?} {:?}", self.terms)];
        parts.push(format!(
            "{:?} {}",
            self.board_name,
            digest(&self.board.bytes)
        ));
        parts.push(format!("{:?} {:?}", self.handover, self.nevers));
        for (path, bytes) in &self.with {
            parts.push(format!("{path:?} {}", digest(bytes)));
        }
        Ok(digest(parts.join("\n").as_bytes()))
    }

    /// Where an image's page lies.
    fn page(&self, name: &OsStr) -> Option<PathBuf> {
        let folder = self.pages.as_ref()?;
        Some(folder.join(page_name(name)))
    }
}

/// The sum of a file's name by its bytes: two names can have one text.
fn name_sum(name: &OsStr) -> String {
    digest(name.as_encoded_bytes())
}

/// A file's name as text; one that is none, with its odd bytes written out.
fn name_text(name: &OsStr) -> String {
    match name.to_str() {
        Some(text) => text.into(),
        None => name.as_encoded_bytes().escape_ascii().to_string(),
    }
}

/// The most letters of an image's name in that of its page.
const MOST_LETTERS: usize = 60;

/// The name of an image's page, of letters that mean nothing to a link or a file system, told apart by a sum.
pub fn page_name(file: &OsStr) -> String {
    let plain = |letter: char| match letter {
        letter if letter.is_ascii_alphanumeric() || matches!(letter, '.' | '-' | '_') => letter,
        _ => '_',
    };
    let text = name_text(file);
    let letters: String = text.chars().take(MOST_LETTERS).map(plain).collect();
    let letters = letters.trim_start_matches('.');
    format!("{letters}-{}.html", &name_sum(file)[..12])
}

/// Writes an image's page.
fn write_page(path: &Path, page: &str) -> Result<(), String> {
    let place = Place::of_page(path, own::is_page)?.passing();
    place.write(page.as_bytes())
}

#[cfg(test)]
mod tests {
    use super::*;

    #[test]
    fn names_that_are_no_text_are_written_out_and_told_apart() {
        use std::os::unix::ffi::OsStrExt;
        let text = |bytes| name_text(OsStr::from_bytes(bytes));
        assert_eq!(text(b"a b\xc3\xa9"), "a b\u{e9}");
        assert_eq!([text(b"a\xff"), text(b"a\xfe\n")], ["a\\xff", "a\\xfe\\n"]);
        assert_eq!(text(b"a\\xff"), text(b"a\xff"));
        let page = |bytes| page_name(OsStr::from_bytes(bytes));
        assert_ne!(page(b"a\\xff"), page(b"a\xff"));
    }

    #[test]
    fn a_page_has_a_plain_name_of_its_own() {
        let names = [
            "a.img",
            "a b.img",
            "a\u{202e}b.img",
            "../x",
            "..",
            &"y".repeat(300),
        ]
        .map(|name| page_name(OsStr::new(name)));
        assert!(names[0].starts_with("a.img-") && names[0].ends_with(".html"));
        for name in &names {
            assert!(!name.starts_with('.') && name.len() < 90, "{name}");
            let plain = |letter: char| letter.is_ascii_alphanumeric() || "._-".contains(letter);
            assert!(name.chars().all(plain), "{name}");
        }
        assert_ne!(names[1], names[2]);
    }
}
