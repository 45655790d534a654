//! Writing a file so that the one that stood there before stays until the new one is whole.

use std::fs::{File, Metadata, OpenOptions};
use std::io::{Error, ErrorKind, Result, Write};
use std::os::unix::fs::{fchown, MetadataExt, OpenOptionsExt};
use std::path::{Path, PathBuf};

/// Writes to what is there, a device or a pipe.
pub fn straight(path: &Path, bytes: &[u8]) -> Result<()> {
    let mut file = OpenOptions::new().write(true).truncate(true).open(path)?;
    file.write_all(bytes)
}

/// Writes a file beside its place, and puts it there when it is whole. A file that is not whole is removed.
pub fn beside(path: &Path, old: Option<&Metadata>, bytes: &[u8]) -> Result<()> {
    let (temporary, file) = temporary(path, old)?;
    let written = fill(file, old, bytes).and_then(|()| std::fs::rename(&temporary, path));
    if written.is_err() {
        let _ = std::fs::remove_file(&temporary);
    }
    written
}

/// A new file in the folder of another. While it takes the place of an old one, it is open to its owner alone.
fn temporary(path: &Path, old: Option<&Metadata>) -> Result<(PathBuf, File)> {
    let mode = if old.is_some() { 0o600 } else { 0o666 };
    let mut options = OpenOptions::new();
    options.write(true).create_new(true).mode(mode);
    for number in 0..1000 {
        let name = format!(".planner-{}-{number}", std::process::id());
        let temporary = path.with_file_name(name);
        match options.open(&temporary) {
            Err(error) if error.kind() == ErrorKind::AlreadyExists => {}
            opened => return opened.map(|file| (temporary, file)),
        }
    }
    Err(Error::other(
        "no name is free for a temporary file beside it",
    ))
}

/// Writes all bytes and waits until they are on the disk. The new file has the mode of the old one, and its owner where the
/// system lets it.
fn fill(mut file: File, old: Option<&Metadata>, bytes: &[u8]) -> Result<()> {
    file.write_all(bytes)?;
    if let Some(old) = old {
        let _ = fchown(&file, Some(old.uid()), Some(old.gid()));
        file.set_permissions(old.permissions())?;
    }
    file.sync_all()
}
