//! The reach of a node by rounds: request U3 of document 02.

use crate::plan::{Header, Lent, Plan};
use crate::refusal::{demand, Refusal};
use crate::topology::{working, Topology};

/// The counts, the links as lent bytes, and what has failed. Element i is bit i. Bytes past the count of links and bits
/// at or past a count change nothing.
#[derive(Clone, Debug, PartialEq, Eq)]
pub struct Network {
    pub nodes: u64,
    pub links_count: u64,
    pub links: Vec<u8>,
    pub failed_nodes: u64,
    pub failed_links: u128,
}

/// The nodes that a node reaches, itself among them, or none where it is down; and the number of the first round that
/// adds no node, counted from 1.
#[derive(Clone, Copy, Debug, PartialEq, Eq)]
pub struct Reach {
    pub nodes: u64,
    pub rounds: u64,
}

impl Network {
    /// The plan of these nodes and links, without events: 4, 12 for the list of links, each link 7.
    pub fn plan(&self) -> Result<Plan, Refusal> {
        let header = Header {
            nodes: self.nodes,
            links: self.links_count,
            events: 0,
            threshold: 1,
            cap: 1,
        };
        let links = &self.links;
        Lent {
            header,
            links,
            events: &[],
        }
        .plan()
    }
}

/// One round: the nodes reached before, and all their neighbours by working links.
fn round(plan: &Plan, topology: &Topology, before: u64) -> u64 {
    let mut after = before;
    for (link, &(first, second)) in plan.links.iter().enumerate() {
        if topology.links >> link & 1 == 1 {
            after |= (before >> first & 1) << second;
            after |= (before >> second & 1) << first;
        }
    }
    after
}

/// The rounds from a node, to the first one that adds no node.
fn rounds_from(plan: &Plan, topology: &Topology, v: usize) -> Reach {
    let mut nodes = topology.nodes & 1 << v;
    let mut rounds = 1;
    loop {
        let after = round(plan, topology, nodes);
        if after == nodes {
            return Reach { nodes, rounds };
        }
        nodes = after;
        rounds += 1;
    }
}

/// The reach of node v: the tests of the counts and links, then 13 where v is not below the count of nodes.
pub fn reach(network: &Network, v: u64) -> Result<Reach, Refusal> {
    let plan = network.plan()?;
    demand(v < network.nodes, Refusal::Pair)?;
    let topology = working(&plan, network.failed_nodes, network.failed_links);
    Ok(rounds_from(&plan, &topology, v as usize))
}
