//! The reader of the text form.
//!
//! A line says one thing, in words with blanks between them; a word that starts with `#` starts a comment. What a line names
//! stands above it.
//!
//! ```text
//! threshold T             units of 10^-18
//! cap C                   ends of the walk
//! node NAME
//! link NAME NODE NODE
//! event NAME Q MEMBER..   q in 10^-9, then the nodes and links that fail together
//! equipment NAME FIT HOURS LENGTH MEMBER..   an event with q = FIT * HOURS * LENGTH
//! window NAME DAY TIME DAY TIME MEMBER..     planned work, which takes nodes and links out from a start to an end
//! ```
//!
//! Nodes and links get the numbers of the plan file in the order of their lines, and so do the events of a text without
//! equipment. Where a text has equipment, all its events go through one sheet: they stand in any order, and are
//! numbered by falling q, equal ones in the order of their lines. Windows are no part of a plan; they stand beside it.

use account::sheet::Sheet;
use account::{Header, Plan};
use account::{LARGEST_CAP, MOST_LINKS, MOST_NODES, WHOLE};
use conformance::proved::read_sheet;

use crate::equipment::{by_sheet, sheet_of, Entry};
use crate::line::{Fault, Line};
use crate::named::Named;
use crate::names::{Element, Names};

/// The plan as far as the lines have said it, with the lines of its threshold and its cap, and an entry of a sheet for
/// each of its events.
pub struct Draft {
    pub named: Named,
    pub names: Names,
    threshold: Option<usize>,
    cap: Option<usize>,
    pub entries: Vec<Entry>,
    /// Whether some line of the text is of equipment.
    pub has_equipment: bool,
}

/// The plan that a text says, with its names, or the first fault. A byte order mark at its start says nothing.
pub fn parse(text: &str) -> Result<Named, Fault> {
    let draft = Draft::of(text)?;
    match draft.has_equipment {
        true => by_sheet(draft.named, &draft.entries, read_sheet),
        false => Ok(draft.named),
    }
}

/// The equipment sheet that a text says: its events in the order of the text, an `event` line with FIT q, 1 hour and
/// length 1.
pub fn parse_sheet(text: &str) -> Result<Sheet, Fault> {
    let draft = Draft::of(text)?;
    Ok(sheet_of(&draft.named, &draft.entries))
}

impl Draft {
    /// What all the lines of a text say.
    fn of(text: &str) -> Result<Draft, Fault> {
        let text = text.trim_start_matches('\u{feff}');
        let lines = text.lines().enumerate();
        let lines: Vec<Line> = lines
            .filter_map(|(i, line)| Line::of(i + 1, line))
            .collect();
        let mut draft = Draft::new(lines.iter().any(|line| line.keyword == "equipment"));
        for line in &lines {
            draft.take(line)?;
        }
        draft.whole(text.lines().count())
    }

    fn new(has_equipment: bool) -> Draft {
        let nothing = Plan::empty(&Header {
            nodes: 0,
            links: 0,
            events: 0,
            threshold: 0,
            cap: 0,
        });
        Draft {
            named: Named::by_number(nothing),
            names: Names::default(),
            threshold: None,
            cap: None,
            entries: Vec::new(),
            has_equipment,
        }
    }

    /// One line more.
    fn take(&mut self, line: &Line) -> Result<(), Fault> {
        line.plain_words()?;
        match line.keyword {
            "threshold" => self.take_threshold(line),
            "cap" => self.take_cap(line),
            "node" => self.take_node(line),
            "link" => self.take_link(line),
            "event" => self.take_event(line),
            "equipment" => self.take_equipment(line),
            "window" => self.take_window(line),
            other => {
                let known = "threshold, cap, node, link, event, equipment or window";
                Err(line.fault(known, format!("`{other}`")))
            }
        }
    }

    fn take_threshold(&mut self, line: &Line) -> Result<(), Fault> {
        let word = only_number(line, "threshold T", self.threshold)?;
        self.named.plan.threshold = line.number_within(word, "the threshold", 1, WHOLE)?;
        self.threshold = Some(line.number);
        Ok(())
    }

    fn take_cap(&mut self, line: &Line) -> Result<(), Fault> {
        let word = only_number(line, "cap C", self.cap)?;
        self.named.plan.cap = line.number_within(word, "the cap", 1, LARGEST_CAP)?;
        self.cap = Some(line.number);
        Ok(())
    }

    fn take_node(&mut self, line: &Line) -> Result<(), Fault> {
        let [name] = line.words[..] else {
            return Err(line.wrong_words("node NAME"));
        };
        let number = room(line, self.named.nodes.len(), MOST_NODES, "nodes")?;
        self.names.give(line, name, Element::Node(number))?;
        self.named.nodes.push(name.to_string());
        self.named.plan.nodes += 1;
        Ok(())
    }

    fn take_link(&mut self, line: &Line) -> Result<(), Fault> {
        let [name, first, second] = line.words[..] else {
            return Err(line.wrong_words("link NAME NODE NODE"));
        };
        let number = room(line, self.named.links.len(), MOST_LINKS, "links")?;
        let a = self.names.node(line, first)?;
        let b = self.names.node(line, second)?;
        if a == b {
            return Err(line.fault("two different nodes", format!("`{first}` twice")));
        }
        self.names.give(line, name, Element::Link(number))?;
        self.named.links.push(name.to_string());
        self.named.plan.links.push((a.min(b), a.max(b)));
        Ok(())
    }

    /// The draft after the last line, if nothing is missing. A text without lines ends in its first.
    fn whole(self, last: usize) -> Result<Draft, Fault> {
        let missing = [
            (self.threshold.is_none(), "a line `threshold T`"),
            (self.cap.is_none(), "a line `cap C`"),
            (self.named.nodes.is_empty(), "a line `node NAME`"),
        ];
        match missing.iter().find(|(missing, _)| *missing) {
            None => Ok(self),
            Some((_, expected)) => Err(Fault {
                line: last.max(1),
                expected: expected.to_string(),
                found: "the end of the text".to_string(),
            }),
        }
    }
}

/// The word after a keyword that stands once.
fn only_number<'a>(line: &Line<'a>, form: &str, before: Option<usize>) -> Result<&'a str, Fault> {
    if let Some(before) = before {
        let expected = format!("one line `{form}`");
        return Err(line.fault(expected, format!("another one after line {before}")));
    }
    match line.words[..] {
        [word] => Ok(word),
        _ => Err(line.wrong_words(form)),
    }
}

/// The number of the next one, where a plan has room for it.
pub fn room(line: &Line, count: usize, most: u64, what: &str) -> Result<usize, Fault> {
    if (count as u64) < most {
        return Ok(count);
    }
    Err(line.fault(format!("at most {most} {what}"), "one more"))
}
