//! Windows of planned work by name, and their lines in a text.

use account::topology::Out;
use account::windows::Window;

use crate::line::{Fault, Line};
use crate::text::Draft;
use crate::week;

/// A window of planned work by name, in minutes of the week.
#[derive(Clone, Debug, PartialEq, Eq)]
pub struct NamedWindow {
    pub name: String,
    pub window: Window,
}

impl NamedWindow {
    /// Its name and its time.
    pub fn shown(&self) -> String {
        let Window { start, end, .. } = self.window;
        let (start, end) = (week::shown(start), week::shown_end(end));
        format!("{} ({start} to {end})", self.name)
    }
}

/// The windows of a text, counted in words, up to the verb; nothing for a text without.
pub fn windows_are(windows: &[NamedWindow]) -> Option<String> {
    match windows.len() {
        0 => None,
        1 => Some("1 window of planned work is".to_string()),
        count => Some(format!("{count} windows of planned work are")),
    }
}

/// What is expected of the two times of a window.
const IN_ORDER: &str =
    "an end after the start, and two windows for work over the end of the week: \
                        one up to Sun 24:00 and one from Mon 00:00";

impl Draft {
    pub fn take_window(&mut self, line: &Line) -> Result<(), Fault> {
        let [name, start_day, start_time, end_day, end_time, ref members @ ..] = line.words[..]
        else {
            return Err(line.wrong_words("window NAME DAY TIME DAY TIME MEMBER.."));
        };
        self.names.give_window(line, name)?;
        let wrong = |wrong: week::Wrong| line.fault(wrong.expected, wrong.found);
        let start = week::minute(start_day, start_time).map_err(wrong)?;
        let end = week::end(end_day, end_time).map_err(wrong)?;
        if start >= end {
            let found = format!("`{start_day} {start_time} {end_day} {end_time}`");
            return Err(line.fault(IN_ORDER, found));
        }
        let (nodes, links) = self.names.members(line, members)?;
        let out = Out { nodes, links };
        self.named.windows.push(NamedWindow {
            name: name.to_string(),
            window: Window { start, end, out },
        });
        Ok(())
    }
}
