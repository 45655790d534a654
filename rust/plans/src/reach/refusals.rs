//! Questions for the reach of a node at and past the limits: the network, the node, and the number of the first test
//! that fails, or 0. The tests are 4 for the counts, 12 for the list of links, 7 for each link, 13 for the node.

use account::rounds::Network;

use super::{failed, row};
use crate::networks::network_of;

/// A question and the number of its answer.
pub type Asked = (Network, u64, u32);

/// All of them.
pub fn all() -> Vec<Asked> {
    let groups = [
        node_counts(),
        link_counts(),
        list_lengths(),
        link_ends(),
        past_the_count(),
        nodes_asked(),
        first_of_several(),
    ];
    groups.into_iter().flatten().collect()
}

/// The row of three, whose count of links is 2, with this count of nodes and list of links.
fn three(nodes: u64, links: &[u8]) -> Network {
    Network {
        nodes,
        links: links.to_vec(),
        ..row(3)
    }
}

/// Counts of nodes; 1 to 64 are accepted.
fn node_counts() -> Vec<Asked> {
    let with = |nodes| three(nodes, &[0, 1, 1, 2]);
    vec![
        (network_of(0, &[]), 0, 4),
        (network_of(1, &[]), 0, 0),
        (with(0), 0, 4),
        (with(3), 0, 0),
        (with(64), 0, 0),
        (with(65), 0, 4),
        // The first of these is 3 in eight bits, the second in 32.
        (with(259), 0, 4),
        (with((1 << 32) + 3), 0, 4),
        (with(u64::MAX), 0, 4),
    ]
}

/// Counts of links; 0 to 128 are accepted.
fn link_counts() -> Vec<Asked> {
    let with = |links_count| Network {
        links_count,
        ..row(3)
    };
    vec![
        (network_of(2, &[(0, 1); 128]), 0, 0),
        (network_of(2, &[(0, 1); 129]), 0, 4),
        (with(0), 0, 0),
        (with(1), 0, 0),
        (with(129), 0, 4),
        // The first two of these are 2 in eight bits and in 32; twice the last two is 0 and 4 in 64 bits.
        (with(258), 0, 4),
        (with((1 << 32) + 2), 0, 4),
        (with(1 << 63), 0, 4),
        (with((1 << 63) + 2), 0, 4),
        (with(u64::MAX), 0, 4),
    ]
}

/// Lists of links; each link takes two bytes.
fn list_lengths() -> Vec<Asked> {
    let mut longest = network_of(2, &[(0, 1); 128]);
    longest.links.pop();
    vec![
        (network_of(3, &[]), 0, 0),
        (three(3, &[]), 0, 12),
        (three(3, &[0, 1]), 0, 12),
        (three(3, &[0, 1, 1]), 0, 12),
        (three(3, &[0, 1, 1, 2]), 0, 0),
        (longest, 0, 12),
    ]
}

/// One link in a network of three nodes, of 64 and of one, then a last link; the first end must be smaller than the
/// second, and both below the count of nodes.
fn link_ends() -> Vec<Asked> {
    let link = |nodes, first, second| network_of(nodes, &[(first, second)]);
    let ends = [
        (0, 1, 0),
        (0, 2, 0),
        (1, 2, 0),
        (0, 3, 7),
        (2, 3, 7),
        (3, 4, 7),
        (0, 255, 7),
        (255, 0, 7),
        (0, 0, 7),
        (1, 1, 7),
        (2, 2, 7),
        (3, 3, 7),
        (1, 0, 7),
        (2, 1, 7),
    ];
    let asked = |(first, second, number)| (link(3, first, second), 0, number);
    let mut all: Vec<Asked> = ends.into_iter().map(asked).collect();
    let mut last = [(0, 1); 128];
    last[127] = (1, 1);
    all.extend([
        (link(64, 62, 63), 0, 0),
        (link(64, 0, 64), 0, 7),
        (link(64, 63, 63), 0, 7),
        (link(1, 0, 0), 0, 7),
        (link(1, 0, 1), 0, 7),
        (three(3, &[0, 1, 2, 1]), 0, 7),
        (network_of(2, &last), 0, 7),
    ]);
    all
}

/// Bytes past the count of links that make no link.
fn past_the_count() -> Vec<Asked> {
    let no_link = Network {
        links: vec![9, 9],
        ..network_of(3, &[])
    };
    vec![
        (no_link, 0, 0),
        (three(3, &[0, 1, 1, 2, 1]), 0, 0),
        (three(3, &[0, 1, 1, 2, 1, 1]), 0, 0),
        (three(3, &[0, 1, 1, 2, 0, 3, 255]), 0, 0),
    ]
}

/// Nodes that are asked for; those below the count are accepted.
fn nodes_asked() -> Vec<Asked> {
    vec![
        (row(1), 0, 0),
        (row(1), 1, 13),
        (row(3), 2, 0),
        (row(3), 3, 13),
        (row(3), 63, 13),
        (row(3), 64, 13),
        // These are 0 in eight bits and in 32.
        (row(3), 256, 13),
        (row(3), 1 << 32, 13),
        (row(3), u64::MAX, 13),
        (row(64), 63, 0),
        (row(64), 64, 13),
        // A node that is down may be asked for.
        (failed(row(3), u64::MAX, u128::MAX), 2, 0),
        (failed(row(3), u64::MAX, u128::MAX), 3, 13),
    ]
}

/// More than one test fails in all but the last. Three bytes are too few for two links, 1-1 is no link, and neither 3 of
/// three nodes nor 65 of 65 is a node.
fn first_of_several() -> Vec<Asked> {
    let no_count = Network {
        links_count: 129,
        ..three(3, &[1, 1])
    };
    vec![
        (three(65, &[1, 1, 1]), 65, 4),
        (three(0, &[1, 1, 1]), 0, 4),
        (three(0, &[1, 1, 1, 1]), 0, 4),
        (three(65, &[0, 1, 1]), 0, 4),
        (three(65, &[1, 1, 1, 2]), 0, 4),
        (three(65, &[0, 1, 1, 2]), 65, 4),
        (no_count, 3, 4),
        (three(3, &[1, 1, 1]), 3, 12),
        (three(3, &[1, 1, 1]), 0, 12),
        (three(3, &[0, 1, 1]), 3, 12),
        (three(3, &[1, 1, 1, 2]), 3, 7),
        (three(3, &[0, 1, 1, 1]), 3, 7),
        (three(3, &[0, 1, 1, 2]), 3, 13),
    ]
}
