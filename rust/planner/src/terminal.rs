//! What goes to standard output and to standard error.

use std::ffi::OsStr;
use std::io::{ErrorKind, Write};

use crate::failure::Failure;

/// Prints a text. A reader that stops early, as `head` does, is no fault.
pub fn print(text: &str) -> Result<(), Failure> {
    let mut out = std::io::stdout().lock();
    let written = out.write_all(text.as_bytes()).and_then(|()| out.flush());
    match written {
        Err(error) if error.kind() != ErrorKind::BrokenPipe => {
            Err(Failure::file("standard output", error))
        }
        _ => Ok(()),
    }
}

/// Tells one line on standard error. Where standard error takes nothing, there is nowhere left to tell that.
pub fn tell(message: &str) {
    let line = format!("planner: {}\n", plain(message));
    let _ = std::io::stderr().write_all(line.as_bytes());
}

/// A text whose control characters are shown as `\n`, `\u{1b}` and so on.
fn plain(text: &str) -> String {
    let shown = |character: char| match character.is_control() {
        true => character.escape_default().to_string(),
        false => character.to_string(),
    };
    text.chars().map(shown).collect()
}

/// A word of the command line without control characters; bytes that are not UTF-8 are shown as `\xff` and so on.
pub fn shown(word: &OsStr) -> String {
    let chunks = word.as_encoded_bytes().utf8_chunks();
    chunks
        .map(|chunk| plain(chunk.valid()) + &chunk.invalid().escape_ascii().to_string())
        .collect()
}

#[cfg(test)]
mod tests {
    use std::ffi::OsStr;
    use std::os::unix::ffi::OsStrExt;

    use super::shown;

    #[test]
    fn words_are_shown_without_control_characters() {
        for (bytes, expected) in [
            (&b"plans/S\xc3\xbcd.txt"[..], "plans/Süd.txt"),
            (b"a b\\n", "a b\\n"),
            (
                b"a\nb\tc\x1b[31m\x7f\0",
                "a\\nb\\tc\\u{1b}[31m\\u{7f}\\u{0}",
            ),
            (b"\xc2\x9b0m", "\\u{9b}0m"),
            (b"\xff.txt\xc3", "\\xff.txt\\xc3"),
        ] {
            assert_eq!(shown(OsStr::from_bytes(bytes)), expected);
        }
    }
}
