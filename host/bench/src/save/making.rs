//! A file that is being made beside its place: under a name that nothing had, and gone again unless it is moved, by a
//! signal too.

use super::spot::folder_of;
use crate::{process, stop};
use std::collections::BTreeSet;
use std::fs::{self, File, Permissions};
use std::io::Error;
use std::os::unix::fs::{fchown, MetadataExt, PermissionsExt};
use std::path::{Path, PathBuf};
use std::sync::{Mutex, MutexGuard, OnceLock, PoisonError};
use tempfile::{Builder, TempPath};

/// The first letters of the name. The rest is drawn, so that it is no longer for a long name.
const PREFIX: &str = ".bench-";
/// What a new file permits before the process's own mask.
const NEW_FILE: u32 = 0o666;
/// The mask where the system does not tell it.
const STRICT: u32 = 0o077;
/// The bits of a file's mode that are permissions.
const PERMISSIONS: u32 = 0o7777;

/// The files that are being made.
static MADE: Mutex<BTreeSet<PathBuf>> = Mutex::new(BTreeSet::new());

fn made() -> MutexGuard<'static, BTreeSet<PathBuf>> {
    MADE.lock().unwrap_or_else(PoisonError::into_inner)
}

/// Takes away all that is being made, and lets nothing more be made or moved: the command ends.
pub fn clear() {
    let made = made();
    made.iter().for_each(|path| {
        let _ = fs::remove_file(path);
    });
    std::mem::forget(made);
}

/// The name of one of them, as long as it is one.
struct Named(PathBuf);

impl Drop for Named {
    fn drop(&mut self) {
        made().remove(&self.0);
    }
}

pub struct Making {
    file: File,
    /// Takes the file away unless it is moved.
    path: TempPath,
    _named: Named,
}

impl Making {
    /// A fresh file in the folder of a place, which permits what the one at the place does.
    pub fn beside(place: &Path) -> Result<Making, Error> {
        stop::listen();
        let mut made = made();
        let file = Builder::new()
            .prefix(PREFIX)
            .tempfile_in(folder_of(place))?;
        made.insert(file.path().to_path_buf());
        drop(made);
        let (file, path) = file.into_parts();
        let making = Making {
            file,
            _named: Named(path.to_path_buf()),
            path,
        };
        permit(&making.file, place)?;
        Ok(making)
    }

    pub fn file(&self) -> &File {
        &self.file
    }

    /// Moves it to its place.
    pub fn move_to(self, place: &Path) -> Result<(), Error> {
        let moved = {
            let _whole = made();
            self.path.persist(place)
        };
        moved.map_err(|failed| failed.error)
    }
}

/// Lets a file permit what the one at its place does, and belong to whom that belongs as far as the system lets it. A new
/// one permits what any new file does.
fn permit(file: &File, place: &Path) -> Result<(), Error> {
    let mode = match fs::metadata(place) {
        Ok(there) => {
            let _ = fchown(file, Some(there.uid()), Some(there.gid()));
            there.mode() & PERMISSIONS
        }
        Err(_) => NEW_FILE & !mask(),
    };
    file.set_permissions(Permissions::from_mode(mode))
}

/// What the process keeps from new files, as Linux tells it.
fn mask() -> u32 {
    static MASK: OnceLock<u32> = OnceLock::new();
    *MASK.get_or_init(|| {
        let mask = process::number("Umask:", 8);
        mask.and_then(|mask| mask.try_into().ok()).unwrap_or(STRICT)
    })
}
