//! Effective topologies, and connectivity by union-find.

use crate::plan::Plan;

/// The working nodes and the working links. Element i is bit i.
#[derive(Clone, Copy, Debug, PartialEq, Eq, Hash)]
pub struct Topology {
    pub nodes: u64,
    pub links: u128,
}

/// The nodes and links that are down before the first event, in every scenario. Element i is bit i.
#[derive(Clone, Copy, Debug, PartialEq, Eq)]
pub struct Out {
    pub nodes: u64,
    pub links: u128,
}

impl Out {
    /// What every call takes but a run with windows.
    pub const NOTHING: Out = Out { nodes: 0, links: 0 };

    /// The union of both.
    pub fn with(self, more: Out) -> Out {
        Out {
            nodes: self.nodes | more.nodes,
            links: self.links | more.links,
        }
    }
}

/// What works where these nodes and links have failed: a node that has not, and a link that has not and whose two end
/// nodes work. Bits at or past the plan's counts are not used.
pub fn working(plan: &Plan, failed_nodes: u64, failed_links: u128) -> Topology {
    let node_works = |node: usize| failed_nodes >> node & 1 == 0;
    let mut topology = Topology { nodes: 0, links: 0 };
    for node in 0..plan.nodes {
        topology.nodes |= u64::from(node_works(node)) << node;
    }
    for (link, &(first, second)) in plan.links.iter().enumerate() {
        let failed = failed_links >> link & 1 == 1;
        let works = !failed && node_works(first) && node_works(second);
        topology.links |= u128::from(works) << link;
    }
    topology
}

/// The effective topology of a set of failing events: what works where all that is out before the first event and all that
/// they name has failed.
pub fn effective(plan: &Plan, out: Out, failing: u128) -> Topology {
    let mut down = out;
    for (i, event) in plan.events.iter().enumerate() {
        if failing >> i & 1 == 1 {
            down.nodes |= event.nodes;
            down.links |= event.links;
        }
    }
    working(plan, down.nodes, down.links)
}

/// The component of each node, named by one of its nodes; none for a node that is down.
pub struct Components {
    names: Vec<Option<usize>>,
}

impl Components {
    /// The components of a topology.
    pub fn of(plan: &Plan, topology: &Topology) -> Components {
        let mut parents: Vec<usize> = (0..plan.nodes).collect();
        for (link, &(first, second)) in plan.links.iter().enumerate() {
            if topology.links >> link & 1 == 1 {
                let (a, b) = (find(&mut parents, first), find(&mut parents, second));
                parents[a] = b;
            }
        }
        let works = |node: usize| topology.nodes >> node & 1 == 1;
        let names = (0..plan.nodes).map(|node| works(node).then(|| find(&mut parents, node)));
        Components {
            names: names.collect(),
        }
    }

    /// Whether either node is down or no path of working links joins them.
    pub fn disconnects(&self, v: usize, w: usize) -> bool {
        match (self.names[v], self.names[w]) {
            (Some(a), Some(b)) => a != b,
            _ => true,
        }
    }
}

/// The root of a node's tree; the path to it is halved on the way.
fn find(parents: &mut [usize], node: usize) -> usize {
    let mut at = node;
    while parents[at] != at {
        parents[at] = parents[parents[at]];
        at = parents[at];
    }
    at
}

/// The components under what is out and a set of failing events.
pub fn components(plan: &Plan, out: Out, failing: u128) -> Components {
    Components::of(plan, &effective(plan, out, failing))
}
