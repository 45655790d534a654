//! The command line: which command its words call, on what, and with which options.

mod call;
mod table;
mod takes;

use std::ffi::{OsStr, OsString};

use planner::{help_of, HELP, VERSION};

use crate::failure::Failure;
use crate::terminal::shown;
pub use call::Call;
use table::{Command, COMMANDS};

/// What the words of a call ask for.
pub enum Asked {
    /// A text that stands ready.
    Help(String),
    Run(Call),
}

/// What the words after `planner` ask for, or what is wrong with them.
pub fn asked(words: &[OsString]) -> Result<Asked, Failure> {
    let strings: Vec<Option<&str>> = words.iter().map(|word| word.to_str()).collect();
    let help = match strings[..] {
        [] => return Err(no_command("nothing")),
        [Some("--help" | "-h" | "help")] => HELP.to_string(),
        [Some("--help" | "-h" | "help"), Some(name)] => help_of(named(name.as_ref())?.name),
        [Some(name), Some("-h")] => help_of(named(name.as_ref())?.name),
        [Some("--version" | "-V")] => format!("planner {VERSION}"),
        _ => return of_command(named(&words[0])?, &words[1..]),
    };
    Ok(Asked::Help(help))
}

/// What the words after a command ask for. `--help` among its options asks for nothing else.
fn of_command(command: &'static Command, words: &[OsString]) -> Result<Asked, Failure> {
    let mut options = words.iter().take_while(|word| *word != "--");
    match options.any(|word| word == "--help") {
        true => Ok(Asked::Help(help_of(command.name))),
        false => Call::of(command, words).map(Asked::Run),
    }
}

/// The command of a name.
fn named(word: &OsStr) -> Result<&'static Command, Failure> {
    let found = COMMANDS.iter().find(|command| word == command.name);
    found.ok_or_else(|| no_command(&format!("`{}`", shown(word))))
}

fn no_command(found: &str) -> Failure {
    let names = COMMANDS.iter().map(|command| command.name);
    let expected = listed(names, "or");
    let wrong = format!("expected a command, {expected}; found {found}");
    Failure::usage(wrong, "planner --help")
}

/// Words in a row, with commas between them and another word before the last.
fn listed<'a>(words: impl Iterator<Item = &'a str>, joint: &str) -> String {
    let words: Vec<&str> = words.collect();
    match words[..] {
        [] | [_] => words.concat(),
        [ref first @ .., last] => format!("{} {joint} {last}", first.join(", ")),
    }
}
