//! How a command ends: its exit status, and what it prints or tells.

use std::fmt::Display;

/// The exit status of what is refused, and of a warning.
pub const REFUSED: u8 = 1;

/// The exit status of wrong words, and of a file that is not read or not written.
const NOT_DONE: u8 = 2;

/// What a command prints, and its exit status.
pub struct Done {
    pub text: String,
    pub status: u8,
}

impl From<String> for Done {
    fn from(text: String) -> Done {
        Done { text, status: 0 }
    }
}

impl Done {
    /// An answer with a warning in it.
    pub fn with_warnings(text: String) -> Done {
        Done {
            text,
            status: REFUSED,
        }
    }
}

/// The line that is told on standard error in place of an answer, and the exit status.
pub struct Failure {
    pub status: u8,
    pub message: String,
}

impl Failure {
    /// What a file says, or what is asked of it, is refused.
    pub fn refused(message: impl Into<String>) -> Failure {
        Failure {
            status: REFUSED,
            message: message.into(),
        }
    }

    /// A file is not read or not written.
    pub fn file(name: &str, why: impl Display) -> Failure {
        Failure {
            status: NOT_DONE,
            message: format!("{name}: {why}"),
        }
    }

    /// The words of a call are wrong. The help that is named says what is right.
    pub fn usage(wrong: impl Display, help: &str) -> Failure {
        Failure {
            status: NOT_DONE,
            message: format!("{wrong}; see {help}"),
        }
    }
}
