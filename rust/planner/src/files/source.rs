//! A file that is read.

use std::ffi::OsStr;
use std::fmt::Display;
use std::fs::File;
use std::io::Read;
use std::os::fd::AsFd;

use super::kind::Contents;
use super::place::Place;
use crate::failure::Failure;
use crate::terminal::shown;

/// The most bytes that are read, 16 MiB. The longest plan file has 50,068.
const MOST: u64 = 16 << 20;

/// What was read, its name as it is shown, and where it stands.
pub struct Source {
    pub name: String,
    pub contents: Contents,
    pub place: Option<Place>,
}

impl Source {
    /// What stands in a file; `-` is standard input.
    pub fn read(word: &OsStr) -> Result<Source, Failure> {
        let name = match word == "-" {
            true => "standard input".to_string(),
            false => shown(word),
        };
        let (bytes, place) = bytes_of(word).map_err(|error| Failure::file(&name, error))?;
        if bytes.len() as u64 > MOST {
            let wrong = format!("{name}: expected at most {MOST} bytes; found more");
            return Err(Failure::refused(wrong));
        }
        Ok(Source {
            name,
            contents: Contents::of(bytes),
            place,
        })
    }

    /// What stands in the file is refused.
    pub fn refused(&self, why: impl Display) -> Failure {
        Failure::refused(format!("{}: {why}", self.name))
    }
}

/// The bytes of a file, at most one more than are read, and where it stands.
fn bytes_of(word: &OsStr) -> std::io::Result<(Vec<u8>, Option<Place>)> {
    let file = match word == "-" {
        true => File::from(std::io::stdin().as_fd().try_clone_to_owned()?),
        false => File::open(word)?,
    };
    let place = Place::of(&file.metadata()?);
    let mut bytes = Vec::new();
    file.take(MOST + 1).read_to_end(&mut bytes)?;
    Ok((bytes, place))
}
