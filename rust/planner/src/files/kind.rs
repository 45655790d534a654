//! Kinds of files, which are told by their first bytes, not by their names.

/// The mark at the start of a plan file.
pub const PLAN_MARK: &[u8] = b"RSG";

/// The mark at the start of an equipment sheet.
pub const SHEET_MARK: &[u8] = b"EQS";

#[derive(Clone, Copy, Debug, PartialEq, Eq)]
pub enum Kind {
    Plan,
    Sheet,
    Text,
}

impl Kind {
    pub fn shown(self) -> &'static str {
        match self {
            Kind::Plan => "a plan file",
            Kind::Sheet => "an equipment sheet",
            Kind::Text => "a text",
        }
    }
}

/// What a file holds, by kind.
#[derive(Debug, PartialEq, Eq)]
pub enum Contents {
    Plan(Vec<u8>),
    Sheet(Vec<u8>),
    Text(String),
    /// None of these: why it is no text.
    Neither(String),
}

impl Contents {
    /// A file with a mark is of its kind, one of UTF-8 without control characters is a text.
    pub fn of(bytes: Vec<u8>) -> Contents {
        if bytes.starts_with(PLAN_MARK) {
            return Contents::Plan(bytes);
        }
        if bytes.starts_with(SHEET_MARK) {
            return Contents::Sheet(bytes);
        }
        let text = match String::from_utf8(bytes) {
            Ok(text) => text,
            Err(error) => {
                let valid = error.utf8_error().valid_up_to();
                let line = line_at(&error.as_bytes()[..valid]);
                let wrong = format!("line {line} has bytes that are not UTF-8");
                return Contents::Neither(wrong);
            }
        };
        match text
            .char_indices()
            .find(|&(_, character)| is_control(character))
        {
            None => Contents::Text(text),
            Some((at, character)) => {
                let line = line_at(&text.as_bytes()[..at]);
                let shown = character.escape_default();
                Contents::Neither(format!("line {line} has the control character {shown}"))
            }
        }
    }
}

/// Whether a character controls a terminal and has no place in a text.
fn is_control(character: char) -> bool {
    character.is_control() && !matches!(character, '\t' | '\n' | '\r')
}

/// The number of the line that comes after these bytes or goes on there, counted from 1.
fn line_at(before: &[u8]) -> usize {
    1 + before.iter().filter(|&&byte| byte == b'\n').count()
}

#[cfg(test)]
mod tests {
    use super::Contents;

    #[test]
    fn a_mark_tells_the_kind() {
        for bytes in [&b"RSG"[..], b"RSG\x01\0\xff", b"RSG is no text"] {
            let plan = Contents::Plan(bytes.to_vec());
            assert_eq!(Contents::of(bytes.to_vec()), plan);
        }
        for bytes in [&b"EQS"[..], b"EQS\x01\0\xff"] {
            let sheet = Contents::Sheet(bytes.to_vec());
            assert_eq!(Contents::of(bytes.to_vec()), sheet);
        }
    }

    #[test]
    fn texts() {
        for text in [
            "",
            "RS",
            "rsg",
            " RSG",
            "\u{feff}node Süd\r\n\tcap 1\n",
            "\u{a0}",
        ] {
            let contents = Contents::of(text.as_bytes().to_vec());
            assert_eq!(contents, Contents::Text(text.to_string()));
        }
    }

    #[test]
    fn neither() {
        for (bytes, wrong) in [
            (&b"\xffRSG"[..], "line 1 has bytes that are not UTF-8"),
            (
                b"cap 1\n\nnode S\xfcd\n",
                "line 3 has bytes that are not UTF-8",
            ),
            (b"a\nb\0", "line 2 has the control character \\u{0}"),
            (b"\x1b[2J", "line 1 has the control character \\u{1b}"),
            (b"\n\n\x7f", "line 3 has the control character \\u{7f}"),
            (b"\xc2\x9b", "line 1 has the control character \\u{9b}"),
        ] {
            let expected = Contents::Neither(wrong.to_string());
            assert_eq!(Contents::of(bytes.to_vec()), expected);
        }
    }
}
