//! Networks for the reach of a node, written down here, with answers that were worked out by hand.

mod large;
pub mod refusals;
mod small;

use account::rounds::Network;

use crate::networks::network_of;

/// A network, and of some of its nodes: the node, the set that it reaches, the number of rounds.
pub struct ByHand {
    pub name: &'static str,
    pub network: Network,
    pub answers: Vec<[u64; 3]>,
}

/// The networks of `small` and `large`.
pub fn by_hand() -> Vec<ByHand> {
    let mut all = small::networks();
    all.extend(large::networks());
    all
}

fn answers(name: &'static str, network: Network, answers: &[[u64; 3]]) -> ByHand {
    ByHand {
        name,
        network,
        answers: answers.to_vec(),
    }
}

/// The network with these elements failed.
fn failed(network: Network, failed_nodes: u64, failed_links: u128) -> Network {
    Network {
        failed_nodes,
        failed_links,
        ..network
    }
}

/// Nodes in a row: link i joins nodes i and i + 1.
pub fn row(nodes: usize) -> Network {
    let links: Vec<_> = (1..nodes).map(|node| (node - 1, node)).collect();
    network_of(nodes, &links)
}

/// The same network with every bit past the counts in its sets of failed elements, and with bytes past its links.
pub fn with_spare(mut network: Network) -> Network {
    let past = |count: u64| u128::MAX.checked_shl(count as u32).unwrap_or(0);
    network.failed_nodes |= past(network.nodes) as u64;
    network.failed_links |= past(network.links_count);
    network.links.extend([0, 1, 255]);
    network
}
