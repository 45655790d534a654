//! Files of another kind than a command takes.

use planner::{plan_reason, sheet_reason};

use super::table::COMMANDS;
use super::{listed, Call};
use crate::failure::Failure;
use crate::files::{Contents, Kind, Source};

impl Call {
    /// The command does not take this file: what it is, and which commands take it.
    pub fn wrong_kind(&self, source: &Source) -> Failure {
        let found = match &source.contents {
            Contents::Plan(_) => taken(Kind::Plan),
            Contents::Sheet(_) => taken(Kind::Sheet),
            Contents::Text(text) if text.is_empty() => "an empty file".to_string(),
            Contents::Text(_) => taken(Kind::Text),
            Contents::Neither(why) => match no_mark(&source.name) {
                Some(reason) => return source.refused(format!("refused 2, {reason}")),
                None => format!("neither a plan file, an equipment sheet nor a text: {why}"),
            },
        };
        let takes = self.command.takes.iter().map(|kind| kind.shown());
        source.refused(format!("expected {}; found {found}", listed(takes, "or")))
    }
}

/// A kind of files, and the commands that take it.
fn taken(kind: Kind) -> String {
    let takes = COMMANDS
        .iter()
        .filter(|command| command.takes.contains(&kind));
    let names: Vec<&str> = takes.map(|command| command.name).collect();
    let take = if names.len() == 1 { "takes" } else { "take" };
    let names = listed(names.into_iter(), "and");
    format!("{}, which planner {names} {take}", kind.shown())
}

/// What is told of a file without a mark whose name is that of a kind.
fn no_mark(name: &str) -> Option<&'static str> {
    match name.rsplit_once('.') {
        Some((_, "plan")) => Some(plan_reason(2)),
        Some((_, "sheet")) => Some(sheet_reason(2)),
        _ => None,
    }
}
