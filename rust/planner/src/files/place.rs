//! Which file a name leads to, so that the file that is read is never written over.

use std::fs::Metadata;
use std::os::unix::fs::{FileTypeExt, MetadataExt};

/// The device and the number of a file that keeps what is written to it.
#[derive(Clone, Copy, Debug, PartialEq, Eq)]
pub struct Place {
    device: u64,
    number: u64,
}

impl Place {
    /// The place of a file; none for a terminal, a pipe and other ways that keep nothing.
    pub fn of(file: &Metadata) -> Option<Place> {
        let keeps = file.is_file() || file.file_type().is_block_device();
        keeps.then(|| Place {
            device: file.dev(),
            number: file.ino(),
        })
    }
}
