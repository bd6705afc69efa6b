//! The results of a shelf as they are kept: a line an image, each with a sum over itself and all that decides it, so
//! that a line that was damaged, or made from another board, other steps or by another program, is none.

use super::name_sum;
use super::row::Row;
use crate::file;
use crate::page::digest;
use crate::save::Place;
use crate::visible;
use std::collections::HashMap;
use std::ffi::{OsStr, OsString};
use std::io::Write;
use std::path::Path;
use std::time::{Duration, Instant};

/// The first line of the file.
const HEAD: &str = "oddersnow shelf 1";
/// The digits of a line's sum.
const SUM: usize = 16;
/// Stands for the sum of a page where none was written.
const NO_PAGE: &str = "-";
/// How long results stay unsaved.
const UNSAVED: Duration = Duration::from_secs(1);

/// A result that was kept: the sums of its page and of the image's name, and its row.
pub struct Kept {
    page: String,
    name: String,
    pub row: Row,
}

impl Kept {
    /// Whether this is the page that was written with it.
    pub fn has_page(&self, bytes: &[u8]) -> bool {
        self.page == digest(bytes)
    }
}

/// A line for each image in the order of their names; none where nothing is known.
pub struct Results {
    key: String,
    names: Vec<OsString>,
    lines: Vec<Option<String>>,
    /// Whether a line is known to be of the image as it is now.
    stands: Vec<bool>,
    place: Option<Place>,
    saved: Instant,
}

impl Results {
    /// The results of these images that a file keeps, and nothing where there is no such file yet. It is not the page of
    /// all, which is written too.
    pub fn of(
        key: String,
        names: &[OsString],
        path: Option<&Path>,
        index: Option<&Path>,
    ) -> Result<Results, String> {
        let mut results = Results {
            key,
            names: names.to_vec(),
            lines: vec![None; names.len()],
            stands: vec![false; names.len()],
            place: None,
            saved: Instant::now(),
        };
        let Some(path) = path else {
            return Ok(results);
        };
        if path.exists() {
            let mut known = results.known(path)?;
            let line = |name: &OsString| known.remove(&name_sum(name));
            results.lines = names.iter().map(line).collect();
        }
        results.place = Some(Place::apart(path, &[], index.as_slice())?);
        Ok(results)
    }

    /// The lines of a file that stand, by the sum of the image's name.
    fn known(&self, path: &Path) -> Result<HashMap<String, String>, String> {
        let bytes = file::read(path)?;
        let mut lines = bytes.split(|byte| *byte == b'\n');
        if lines.next() != Some(HEAD.as_bytes()) {
            let name = visible::name(path);
            return Err(format!(
                "{name}: it holds no results of a shelf, and is not written over"
            ));
        }
        let lines = lines.filter_map(|line| std::str::from_utf8(line).ok());
        let known = lines.filter_map(|line| Some((self.read(line)?.name, line.to_string())));
        Ok(known.collect())
    }

    fn sum(&self, result: &str) -> String {
        digest(format!("{}\n{result}", self.key).as_bytes())[..SUM].into()
    }

    /// The result of a line, if its sum is right.
    fn read(&self, line: &str) -> Option<Kept> {
        let (sum, result) = line.split_once(' ')?;
        let result = (sum == self.sum(result)).then_some(result)?;
        let (page, rest) = result.split_once(' ')?;
        let (name, row) = rest.split_once(' ')?;
        Some(Kept {
            page: page.into(),
            name: name.into(),
            row: serde_json::from_str(row).ok()?,
        })
    }

    /// What is known of an image.
    pub fn kept(&self, place: usize) -> Option<Kept> {
        self.read(self.lines.get(place)?.as_ref()?)
    }

    /// Takes up that what is known of an image is what it is now.
    pub fn stand(&mut self, place: usize) {
        self.stands[place] = true;
    }

    /// Takes up a result, and saves all of them where the last time is some while ago.
    pub fn take(&mut self, place: usize, row: &Row, page: Option<&str>) -> Result<(), String> {
        let text = serde_json::to_string(row).map_err(|error| error.to_string())?;
        let page = page.map_or(NO_PAGE.into(), |page| digest(page.as_bytes()));
        let result = format!("{page} {} {text}", name_sum(&self.names[place]));
        self.lines[place] = Some(format!("{} {result}", self.sum(&result)));
        self.stand(place);
        match self.saved.elapsed() > UNSAVED {
            true => self.save(),
            false => Ok(()),
        }
    }

    /// Writes all that is known, whole.
    pub fn save(&mut self) -> Result<(), String> {
        let Some(place) = &self.place else {
            return Ok(());
        };
        let lines = self.lines.iter().flatten();
        place.write_by(|file| {
            writeln!(file, "{HEAD}")?;
            lines
                .into_iter()
                .try_for_each(|line| writeln!(file, "{line}"))
        })?;
        self.saved = Instant::now();
        Ok(())
    }

    /// The rows in order, of the images that were come to.
    pub fn rows(&self) -> impl Iterator<Item = Row> + '_ {
        self.named().map(|(_, row)| row)
    }

    /// The same with the images' names.
    pub fn named(&self) -> impl Iterator<Item = (&OsStr, Row)> + '_ {
        let stands = self.names.iter().enumerate();
        let stands = stands.filter(|(place, _)| self.stands[*place]);
        stands.filter_map(|(place, name)| Some((name.as_os_str(), self.kept(place)?.row)))
    }

    /// How many images were not come to.
    pub fn left(&self) -> u64 {
        self.stands.iter().filter(|stands| !**stands).count() as u64
    }
}

#[cfg(test)]
mod tests {
    use super::*;

    fn results(key: &str) -> Results {
        Results::of(key.into(), &["a".into(), "b".into()], None, None).unwrap()
    }

    #[test]
    fn a_line_stands_for_its_own_key_page_and_row_alone() {
        let mut results = results("one");
        let row = Row::new("b".into(), 3, "sum".into());
        results.take(1, &row, Some("page")).unwrap();
        let kept = results.kept(1).unwrap();
        assert_eq!(kept.row, row);
        assert!(kept.has_page(b"page") && !kept.has_page(b"other"));
        assert!(results.kept(0).is_none());
        let line = results.lines[1].clone().unwrap();
        let other = self::results("two");
        assert!(results.read(&line).is_some() && other.read(&line).is_none());
        for at in 0..line.len() {
            let mut bytes = line.clone().into_bytes();
            bytes[at] ^= 1;
            let damaged = String::from_utf8(bytes).unwrap();
            assert!(results.read(&damaged).is_none(), "{damaged}");
        }
        assert_eq!((results.rows().count(), results.left()), (1, 1));
    }
}
