//! The names that a text has given so far, each with the line that gave it.

use std::collections::HashMap;

use crate::line::{Fault, Line};

/// A node or a link, by number.
#[derive(Clone, Copy)]
pub enum Element {
    Node(usize),
    Link(usize),
}

/// Names of elements, of events and of windows. Nodes and links share one set of names, events and equipment have another,
/// and windows a third.
#[derive(Default)]
pub struct Names {
    elements: HashMap<String, (Element, usize)>,
    events: HashMap<String, (&'static str, usize)>,
    windows: HashMap<String, usize>,
}

/// The fault of a name that is in use.
fn taken(line: &Line, name: &str, kind: &str, before: usize) -> Fault {
    let found = format!("`{name}`, {kind} since line {before}");
    line.fault("a name that is free", found)
}

impl Names {
    /// Gives a name to an element; it must be free.
    pub fn give(&mut self, line: &Line, name: &str, element: Element) -> Result<(), Fault> {
        let given = (element, line.number);
        match self.elements.insert(name.to_string(), given) {
            Some((Element::Node(_), before)) => Err(taken(line, name, "a node", before)),
            Some((Element::Link(_), before)) => Err(taken(line, name, "a link", before)),
            None => Ok(()),
        }
    }

    /// Gives a name to an event or to equipment; it must be free.
    pub fn give_event(&mut self, line: &Line, name: &str) -> Result<(), Fault> {
        let kind = match line.keyword {
            "equipment" => "equipment",
            _ => "an event",
        };
        match self.events.insert(name.to_string(), (kind, line.number)) {
            Some((kind, before)) => Err(taken(line, name, kind, before)),
            None => Ok(()),
        }
    }

    /// Gives a name to a window; it must be free.
    pub fn give_window(&mut self, line: &Line, name: &str) -> Result<(), Fault> {
        match self.windows.insert(name.to_string(), line.number) {
            Some(before) => Err(taken(line, name, "a window", before)),
            None => Ok(()),
        }
    }

    /// The number of a node that stands above.
    pub fn node(&self, line: &Line, name: &str) -> Result<usize, Fault> {
        match self.elements.get(name) {
            Some((Element::Node(number), _)) => Ok(*number),
            _ => Err(line.fault("a node that stands above", format!("`{name}`"))),
        }
    }

    /// The sets of nodes and of links that are named as members, each once.
    pub fn members(&self, line: &Line, members: &[&str]) -> Result<(u64, u128), Fault> {
        let (mut nodes, mut links) = (0, 0);
        for &member in members {
            let before = (nodes, links);
            match self.elements.get(member) {
                Some((Element::Node(number), _)) => nodes |= 1 << number,
                Some((Element::Link(number), _)) => links |= 1 << number,
                None => {
                    let expected = "nodes and links that stand above";
                    return Err(line.fault(expected, format!("`{member}`")));
                }
            }
            if (nodes, links) == before {
                return Err(line.fault("each member once", format!("`{member}` twice")));
            }
        }
        Ok((nodes, links))
    }
}
