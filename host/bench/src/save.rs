//! Saving a file whole or not at all: it is written under a fresh name in its folder and then moved to its place, so that
//! nothing that lies there is touched, and what was at the place stays until all of the new file is there.

mod making;
mod spot;

pub use making::clear;

use crate::{file, visible};
use making::Making;
use spot::{is_read, is_same, led_to};
use std::fs::{self, File, OpenOptions};
use std::io::{BufWriter, Error, ErrorKind, Write};
use std::path::{Path, PathBuf};

/// What the command says goes to these.
const OWN: [&str; 2] = ["/dev/stdout", "/dev/stderr"];

/// A place that a file can be saved to.
pub struct Place {
    /// The name as messages have it.
    name: String,
    /// The file that it leads to: a link stays, and that file is replaced.
    path: PathBuf,
    /// Whether the file is on the disk once it is saved, or may be lost with the power.
    lasting: bool,
}

impl Place {
    /// The place of a name, but of no file that is read, nor of one that is written otherwise.
    pub fn apart(path: &Path, read: &[&Path], written: &[&Path]) -> Result<Place, String> {
        let name = visible::output(path);
        if read.iter().any(|other| is_read(path, other)) {
            return Err(format!("{name}: it is read, and not written over"));
        }
        if written.iter().any(|other| is_same(path, other)) {
            return Err(format!("{name}: another output is saved there"));
        }
        Place::of(path)?.tried()
    }

    /// The place of a shelf's page: what is there already, if something is, is one too by its bytes.
    pub fn of_page(path: &Path, is_page: impl Fn(&[u8]) -> bool) -> Result<Place, String> {
        let place = Place::of(path)?;
        match fs::read(&place.path) {
            Ok(bytes) if !is_page(&bytes) => Err(format!(
                "{}: it is no page of a shelf, and is not written over",
                place.name
            )),
            Err(error) if error.kind() != ErrorKind::NotFound => Err(place.told(error)),
            _ => Ok(place),
        }
    }

    /// The same place, tried out: a file can be made beside it.
    pub fn tried(self) -> Result<Place, String> {
        Making::beside(&self.path).map_err(|error| self.told(error))?;
        Ok(self)
    }

    /// The same place for what can be made again, and need not last.
    pub fn passing(self) -> Place {
        Place {
            lasting: false,
            ..self
        }
    }

    /// The place of a name, if what it replaces is a file that may be written.
    fn of(path: &Path) -> Result<Place, String> {
        let name = visible::output(path);
        let place = Place {
            path: led_to(path).map_err(|why| format!("{name}: {why}"))?,
            name,
            lasting: true,
        };
        let name = &place.name;
        match fs::metadata(path) {
            Ok(there) if !there.is_file() => {
                return Err(format!("{name}: what is there is no regular file"));
            }
            Ok(_) if OWN.iter().any(|own| is_same(path, Path::new(own))) => {
                return Err(format!("{name}: what the command says goes there"));
            }
            Ok(_) => {
                // A file that is only for reading is kept, though it could be replaced.
                let opened = OpenOptions::new().write(true).open(&place.path);
                opened.map_err(|error| place.told(error))?;
            }
            Err(error) if error.kind() != ErrorKind::NotFound => return Err(place.told(error)),
            Err(_) => {}
        }
        Ok(place)
    }

    /// Puts bytes there. If that fails, what was there stays, and nothing lies beside it.
    pub fn write(&self, bytes: &[u8]) -> Result<(), String> {
        self.write_by(|file| file.write_all(bytes))
    }

    /// Puts there what is written piece by piece, in the same way.
    pub fn write_by(
        &self,
        write: impl FnOnce(&mut BufWriter<&File>) -> Result<(), Error>,
    ) -> Result<(), String> {
        let made = Making::beside(&self.path).and_then(|making| {
            let mut file = BufWriter::new(making.file());
            write(&mut file)?;
            file.flush()?;
            drop(file);
            if self.lasting {
                making.file().sync_all()?;
            }
            making.move_to(&self.path)
        });
        made.map_err(|error| self.told(error))
    }

    fn told(&self, error: Error) -> String {
        let why = match error.kind() {
            ErrorKind::NotFound => "the folder that it is to be in is not there".into(),
            _ => file::why(&error),
        };
        format!("{}: {why}", self.name)
    }
}
