//! A plan with a name for each of its nodes, links and events, and the windows of planned work beside it.

use account::topology::Out;
use account::Plan;

use crate::windows::NamedWindow;

/// A plan and its names, by number. Nodes and links share their names: none is used twice among them. Only a text has
/// windows, in the order of their lines.
#[derive(Clone, Debug, PartialEq, Eq)]
pub struct Named {
    pub plan: Plan,
    pub nodes: Vec<String>,
    pub links: Vec<String>,
    pub events: Vec<String>,
    pub windows: Vec<NamedWindow>,
}

/// n0, n1 and so on for the letter n.
pub fn numbered(letter: char, count: usize) -> Vec<String> {
    (0..count).map(|i| format!("{letter}{i}")).collect()
}

impl Named {
    /// A plan that came without names, as from a plan file: n0, l0, e0 and so on.
    pub fn by_number(plan: Plan) -> Named {
        Named {
            nodes: numbered('n', plan.nodes),
            links: numbered('l', plan.links.len()),
            events: numbered('e', plan.events.len()),
            windows: Vec::new(),
            plan,
        }
    }

    /// The number of a node, or what is wrong with its name.
    pub fn node(&self, name: &str) -> Result<usize, String> {
        let place = self.nodes.iter().position(|node| node == name);
        let nodes = || self.nodes.join(", ");
        place.ok_or_else(|| format!("the plan has no node `{name}`; its nodes are {}", nodes()))
    }

    /// The names of a set of events. Event i is bit i.
    pub fn events_in(&self, set: u128) -> Vec<&str> {
        let names = self.events.iter().enumerate();
        let inside = names.filter(|(i, _)| set >> i & 1 == 1);
        inside.map(|(_, name)| name.as_str()).collect()
    }

    /// The names of what is out.
    pub fn out(&self, out: Out) -> Vec<&str> {
        members((out.nodes, out.links), &self.nodes, &self.links)
    }
}

/// The names of the elements of a set of nodes and one of links, nodes before links, each by number. Element i is bit i.
pub fn members<'a>(sets: (u64, u128), nodes: &'a [String], links: &'a [String]) -> Vec<&'a str> {
    let nodes = nodes.iter().enumerate();
    let nodes = nodes.filter(|(i, _)| sets.0 >> i & 1 == 1);
    let links = links.iter().enumerate();
    let links = links.filter(|(i, _)| sets.1 >> i & 1 == 1);
    nodes.chain(links).map(|(_, name)| name.as_str()).collect()
}
