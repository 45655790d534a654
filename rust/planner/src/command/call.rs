//! The words of a call: operands, and options with the words after them.

use std::ffi::{OsStr, OsString};
use std::fmt::Display;

use planner::form_of;

use super::listed;
use super::table::{Choice, Command};
use crate::failure::Failure;
use crate::terminal::shown;

/// A command with its operands, and each option that is given with the words after it.
pub struct Call {
    pub command: &'static Command,
    pub operands: Vec<OsString>,
    options: Vec<(&'static str, Vec<OsString>)>,
}

impl Call {
    /// The words after a command. What starts with two dashes is an option; after a word of two dashes alone nothing is.
    pub fn of(command: &'static Command, words: &[OsString]) -> Result<Call, Failure> {
        let mut call = Call {
            command,
            operands: Vec::new(),
            options: Vec::new(),
        };
        let mut rest = words;
        while let [word, after @ ..] = rest {
            rest = after;
            match word.as_encoded_bytes() {
                b"--" => {
                    call.operands.extend_from_slice(after);
                    break;
                }
                [b'-', b'-', ..] => rest = call.take_option(word, after)?,
                _ => call.operands.push(word.clone()),
            }
        }
        Ok(call)
    }

    /// Keeps an option with the words that belong to it, and gives the words after those.
    fn take_option<'a>(
        &mut self,
        word: &OsStr,
        after: &'a [OsString],
    ) -> Result<&'a [OsString], Failure> {
        let choice = self.choice(word)?;
        let name = choice.name;
        if self.has(name) {
            return Err(self.usage(format!("{name}: expected once; found twice")));
        }
        let wanted = choice.wanted(after.first());
        let words = after.iter().take(wanted);
        let words = words.take_while(|word| self.choice(word).is_err());
        let (given, rest) = after.split_at(words.count());
        if given.len() < wanted {
            let (expected, found) = (choice.expected, too_few(given, rest));
            return Err(self.usage(format!("{name}: expected {expected}; found {found}")));
        }
        self.options.push((name, given.to_vec()));
        Ok(rest)
    }

    /// The option of the command that a word names.
    fn choice(&self, word: &OsStr) -> Result<&'static Choice, Failure> {
        let options = self.command.options;
        let found = options.iter().find(|choice| word == choice.name);
        found.ok_or_else(|| {
            let names = options.iter().map(|choice| choice.name);
            let expected = listed(names.chain(["--help"]), "or");
            self.usage(format!("expected {expected}; found `{}`", shown(word)))
        })
    }

    pub fn name(&self) -> &'static str {
        self.command.name
    }

    /// Whether an option is given.
    pub fn has(&self, option: &str) -> bool {
        self.words(option).is_some()
    }

    /// The words after an option, if it is given.
    pub fn words(&self, option: &str) -> Option<&[OsString]> {
        let given = self.options.iter().find(|(name, _)| *name == option);
        given.map(|(_, words)| words.as_slice())
    }

    /// Words as strings, which names of nodes, numbers and times are.
    pub fn strings<'a>(&self, words: &'a [OsString]) -> Result<Vec<&'a str>, Failure> {
        let string = |word: &'a OsString| {
            let wrong = || format!("expected words in UTF-8; found `{}`", shown(word));
            word.to_str().ok_or_else(|| self.usage(wrong()))
        };
        words.iter().map(string).collect()
    }

    /// The words of the call are wrong.
    pub fn usage(&self, wrong: impl Display) -> Failure {
        Failure::usage(wrong, &format!("planner {} --help", self.name()))
    }

    /// There are too few operands or too many.
    pub fn wrong_operands(&self) -> Failure {
        let found = match self.operands.len() {
            0 => "nothing".to_string(),
            1 => "1 word".to_string(),
            count => format!("{count} words"),
        };
        let (name, form) = (self.name(), form_of(self.name()));
        self.usage(format!("expected `{form}`; found {found} after `{name}`"))
    }
}

/// What is found where words are missing after an option.
fn too_few(given: &[OsString], rest: &[OsString]) -> String {
    match (given, rest) {
        ([], []) => "nothing".to_string(),
        ([], [next, ..]) => format!("`{}`", shown(next)),
        ([word, ..], _) => format!("`{}` alone", shown(word)),
    }
}
