//! The commands, the kinds of files that each reads, and its options.

use std::ffi::OsString;

use crate::files::Kind;

pub struct Command {
    pub name: &'static str,
    pub takes: &'static [Kind],
    pub options: &'static [Choice],
}

/// An option: how many words stand after it, and what they are.
pub struct Choice {
    pub name: &'static str,
    words: usize,
    pub expected: &'static str,
}

const FORCE: Choice = choice("--force", 0, "");
const AT: Choice = choice("--at", 2, "a day and a time, as in 'Tue 14:30'");
const WITNESS: Choice = choice("--witness", 0, "");
const NO_WITNESS: Choice = choice("--no-witness", 0, "");
const SVG: Choice = choice("--svg", 1, "a file for the picture");
const PAIR: Choice = choice("--pair", 2, "two different nodes");

const TEXT: &[Kind] = &[Kind::Text];
const TEXT_OR_PLAN: &[Kind] = &[Kind::Text, Kind::Plan];

/// The commands in the order of the help.
pub const COMMANDS: &[Command] = &[
    command("file", TEXT, &[FORCE]),
    command("text", &[Kind::Plan], &[]),
    command("check", TEXT_OR_PLAN, &[]),
    command("listing", TEXT_OR_PLAN, &[AT, WITNESS, NO_WITNESS]),
    command("bounds", TEXT_OR_PLAN, &[]),
    command("thresholds", TEXT_OR_PLAN, &[SVG, PAIR, FORCE]),
    command("credit", TEXT_OR_PLAN, &[]),
    command("sheet", TEXT, &[FORCE]),
    command("events", &[Kind::Sheet], &[]),
];

const fn choice(name: &'static str, words: usize, expected: &'static str) -> Choice {
    Choice {
        name,
        words,
        expected,
    }
}

const fn command(
    name: &'static str,
    takes: &'static [Kind],
    options: &'static [Choice],
) -> Command {
    Command {
        name,
        takes,
        options,
    }
}

impl Choice {
    /// How many words belong to the option, by the first word after it: a day and a time may be one word.
    pub fn wanted(&self, first: Option<&OsString>) -> usize {
        let blank = |word: &OsString| word.as_encoded_bytes().contains(&b' ') || word.is_empty();
        match self.name == AT.name && first.is_some_and(blank) {
            true => 1,
            false => self.words,
        }
    }
}
