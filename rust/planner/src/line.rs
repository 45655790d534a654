//! One line of the text form: its words, and what is wrong with it.

use std::fmt;

/// What was expected at a line, and what stands there.
#[derive(Clone, Debug, PartialEq, Eq)]
pub struct Fault {
    pub line: usize,
    pub expected: String,
    pub found: String,
}

impl fmt::Display for Fault {
    fn fmt(&self, out: &mut fmt::Formatter) -> fmt::Result {
        let Fault {
            line,
            expected,
            found,
        } = self;
        write!(out, "line {line}: expected {expected}; found {found}")
    }
}

/// A whole number below 2^64, in digits; `_` may stand between them.
pub fn whole_number(word: &str) -> Option<u64> {
    let digits = word.replace('_', "");
    let only_digits = digits.bytes().all(|byte| byte.is_ascii_digit());
    digits.parse().ok().filter(|_| only_digits)
}

/// A line that says something: its number, counted from 1, its keyword and the words after it.
#[derive(Clone)]
pub struct Line<'a> {
    pub number: usize,
    pub keyword: &'a str,
    pub words: Vec<&'a str>,
}

impl Line<'_> {
    /// The words of a line up to its comment, which a word starts that starts with `#`; none for a line that says nothing.
    pub fn of(number: usize, text: &str) -> Option<Line<'_>> {
        let words = text.split_whitespace();
        let mut words = words.take_while(|word| !word.starts_with('#'));
        let keyword = words.next()?;
        Some(Line {
            number,
            keyword,
            words: words.collect(),
        })
    }

    /// That no word has a `#` inside: it is no part of a name, and starts no comment there.
    pub fn plain_words(&self) -> Result<(), Fault> {
        let mut words = std::iter::once(&self.keyword).chain(&self.words);
        match words.find(|word| word.contains('#')) {
            None => Ok(()),
            Some(word) => Err(self.fault(
                "a word without `#`, or a blank before `#`, which starts a comment",
                format!("`{word}`"),
            )),
        }
    }

    /// A fault at this line.
    pub fn fault(&self, expected: impl Into<String>, found: impl Into<String>) -> Fault {
        Fault {
            line: self.number,
            expected: expected.into(),
            found: found.into(),
        }
    }

    /// The fault of a line whose number of words is wrong.
    pub fn wrong_words(&self, form: &str) -> Fault {
        let found = match self.words.len() {
            0 => "nothing".to_string(),
            1 => "1 word".to_string(),
            count => format!("{count} words"),
        };
        self.fault(
            format!("`{form}`"),
            format!("{found} after `{}`", self.keyword),
        )
    }

    /// A whole number within limits.
    pub fn number_within(
        &self,
        word: &str,
        what: &str,
        least: u64,
        most: u64,
    ) -> Result<u64, Fault> {
        let within = whole_number(word).filter(|number| (least..=most).contains(number));
        let expected = || format!("{what} as a whole number from {least} to {most}");
        within.ok_or_else(|| self.fault(expected(), format!("`{word}`")))
    }
}

#[cfg(test)]
mod tests {
    use super::Line;

    #[test]
    fn comments_and_blanks_say_nothing() {
        for text in ["", "   ", "# node A", "#node A", "\t# x", "##"] {
            assert!(Line::of(1, text).is_none());
        }
        for comment in ["# the short way", "#the short way", "# way#2", "#"] {
            let text = format!("  link\tAB A  B {comment}");
            let line = Line::of(7, &text).expect("it says something");
            assert_eq!((line.number, line.keyword), (7, "link"));
            assert_eq!(line.words, ["AB", "A", "B"]);
            assert_eq!(line.plain_words(), Ok(()));
        }
    }

    #[test]
    fn a_comment_does_not_start_inside_a_word() {
        for (text, word) in [
            ("node Birch#2", "Birch#2"),
            ("node Birch#", "Birch#"),
            ("node# Birch", "node#"),
            ("link AB A B# the short way", "B#"),
            ("link A#B A B#2 # both", "A#B"),
        ] {
            let line = Line::of(7, text).expect("it says something");
            let expected =
                "line 7: expected a word without `#`, or a blank before `#`, which starts a comment";
            let fault = line.plain_words().expect_err("it has a `#` inside");
            assert_eq!(fault.to_string(), format!("{expected}; found `{word}`"));
        }
    }

    #[test]
    fn numbers() {
        let line = Line::of(1, "cap").expect("it says something");
        let read = |word| line.number_within(word, "the cap", 1, 1_000_000);
        assert_eq!(read("1_000"), Ok(1_000));
        assert_eq!(read("0001"), Ok(1));
        for word in [
            "0",
            "1000001",
            "-1",
            "+1",
            "_",
            "1.5",
            "1e3",
            "99999999999999999999999",
        ] {
            let fault = read(word).expect_err("it is no such number");
            let expected = "the cap as a whole number from 1 to 1000000";
            let found = format!("`{word}`");
            assert_eq!((fault.expected.as_str(), fault.found), (expected, found));
        }
    }
}
