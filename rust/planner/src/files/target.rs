//! A file that is written: what may stand there before, and where links lead.

use std::ffi::OsStr;
use std::fs::{File, Metadata, OpenOptions};
use std::io::{Error, ErrorKind, Read};
use std::path::{Path, PathBuf};

use super::kind::{PLAN_MARK, SHEET_MARK};
use super::place::Place;
use super::source::Source;
use super::write::{beside, straight};
use crate::failure::Failure;
use crate::terminal::shown;

/// What is written: its name, and the marks with which such files start.
pub struct Form {
    name: &'static str,
    marks: &'static [&'static [u8]],
}

pub const PLAN: Form = Form {
    name: "a plan file",
    marks: &[PLAN_MARK],
};

pub const SHEET: Form = Form {
    name: "an equipment sheet",
    marks: &[SHEET_MARK],
};

pub const PICTURE: Form = Form {
    name: "a picture",
    marks: &[b"<svg", b"<?xml"],
};

/// A file that may be written.
pub struct Target<'a> {
    path: &'a Path,
    form: &'static Form,
    /// Whether a file of another kind may be written over.
    force: bool,
    /// Where the file stands that was read.
    source: Option<Place>,
}

/// How a file is written.
enum Way {
    /// At once: it keeps nothing.
    Straight,
    /// Beside this file, which is then replaced; with what is known of an old one.
    Beside(PathBuf, Option<Metadata>),
}

impl<'a> Target<'a> {
    /// A file for what is made of a source, if it may be written.
    pub fn of(
        word: &'a OsStr,
        form: &'static Form,
        force: bool,
        source: &Source,
    ) -> Result<Target<'a>, Failure> {
        if word == "-" {
            return Err(Failure::file(
                "-",
                "expected a file to write; found standard input",
            ));
        }
        let target = Target {
            path: Path::new(word),
            form,
            force,
            source: source.place,
        };
        target.way().map_err(|error| target.not_written(error))?;
        Ok(target)
    }

    /// Writes the file. Where it is not written, what stood there stays.
    pub fn write(&self, bytes: &[u8]) -> Result<(), Failure> {
        let written = self.way().and_then(|way| match way {
            Way::Straight => straight(self.path, bytes),
            Way::Beside(path, old) => beside(&path, old.as_ref(), bytes),
        });
        written.map_err(|error| self.not_written(error))
    }

    fn not_written(&self, error: Error) -> Failure {
        Failure::file(&shown(self.path.as_os_str()), error)
    }

    /// How the file is written, or why it is not.
    fn way(&self) -> std::io::Result<Way> {
        let old = match std::fs::metadata(self.path) {
            Ok(old) => old,
            Err(error) if error.kind() == ErrorKind::NotFound => {
                return Ok(Way::Beside(linked(self.path), None));
            }
            Err(error) => return Err(error),
        };
        if self.source.is_some() && Place::of(&old) == self.source {
            return Err(Error::other(
                "this is the file that is read; it is not written over",
            ));
        }
        if old.is_dir() {
            return Err(ErrorKind::IsADirectory.into());
        }
        if !old.is_file() {
            return Ok(Way::Straight);
        }
        self.may_be_replaced()?;
        let path = linked(self.path);
        match std::fs::symlink_metadata(&path) {
            Ok(found) if Place::of(&found) == Place::of(&old) => Ok(Way::Beside(path, Some(old))),
            _ => Ok(Way::Straight),
        }
    }

    /// Whether an old file is open to writing, and is empty or of the kind that is written, where no other kind is forced.
    fn may_be_replaced(&self) -> std::io::Result<()> {
        OpenOptions::new().append(true).open(self.path)?;
        if self.force {
            return Ok(());
        }
        let mut start = Vec::new();
        File::open(self.path)?.take(8).read_to_end(&mut start)?;
        let Form { name, marks } = self.form;
        match start.is_empty() || marks.iter().any(|mark| start.starts_with(mark)) {
            true => Ok(()),
            false => Err(Error::other(format!(
                "this file is neither empty nor {name}; --force writes over it"
            ))),
        }
    }
}

/// The file that links lead to, whether it is there or not. As many links are followed as a kernel follows.
fn linked(path: &Path) -> PathBuf {
    let mut path = path.to_path_buf();
    for _ in 0..40 {
        match std::fs::read_link(&path) {
            Ok(next) => path = path.parent().unwrap_or(Path::new("")).join(next),
            Err(_) => break,
        }
    }
    path
}
