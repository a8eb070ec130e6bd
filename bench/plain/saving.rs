//! Saves a volume, so that a failure leaves the old file.

use crate::volume::Volume;
use crate::Outcome;
use std::fs::{self, File, Metadata, OpenOptions};
use std::io::{self, ErrorKind, Write};
use std::os::unix::fs::{chown, MetadataExt, OpenOptionsExt};
use std::path::{Path, PathBuf};

/// The number of names that are tried for the new file.
const TRIES: u32 = 1000;

/// Saves a volume in a new file, which then replaces the old one, and has its permissions and owner.
pub fn save(volume: &Volume, path: &str) -> Outcome<()> {
    let (place, old) = match fs::canonicalize(path) {
        Ok(place) => {
            let old = fs::metadata(&place)?;
            (place, Some(old))
        }
        Err(error) if error.kind() == ErrorKind::NotFound => (PathBuf::from(path), None),
        Err(error) => return Err(error.into()),
    };
    let (file, beside) = new_file(&place, old.is_some())?;
    let result =
        fill(file, &beside, old.as_ref(), &volume.bytes).and_then(|()| fs::rename(&beside, &place));
    if result.is_err() {
        let _ = fs::remove_file(&beside);
    }
    Ok(result?)
}

/// Makes an empty file in the folder of `place`, with an unused name.
fn new_file(place: &Path, is_private: bool) -> io::Result<(File, PathBuf)> {
    let mut options = OpenOptions::new();
    options.write(true).create_new(true);
    if is_private {
        options.mode(0o600);
    }
    for number in 0..TRIES {
        let beside = place.with_file_name(format!(".plain-{number}"));
        match options.open(&beside) {
            Ok(file) => return Ok((file, beside)),
            Err(error) if error.kind() == ErrorKind::AlreadyExists => {}
            Err(error) => return Err(error),
        }
    }
    Err(ErrorKind::AlreadyExists.into())
}

/// Fills the new file, and synchronises it.
fn fill(mut file: File, beside: &Path, old: Option<&Metadata>, bytes: &[u8]) -> io::Result<()> {
    file.write_all(bytes)?;
    if let Some(old) = old {
        // Only the super-user can give a file to another user; others remain its owner.
        let _ = chown(beside, Some(old.uid()), Some(old.gid()));
        file.set_permissions(old.permissions())?;
    }
    file.sync_all()
}
