//! Networks with failed elements for the reach of a node: random ones, valid and damaged.

use account::rounds::Network;

use crate::damage::{count, damage_end};
use crate::rng::Rng;
use crate::valid::links_between;

/// A network of these links, nothing failed, its list as long as its count.
pub fn network_of(nodes: usize, links: &[(usize, usize)]) -> Network {
    Network {
        nodes: nodes as u64,
        links_count: links.len() as u64,
        links: links
            .iter()
            .flat_map(|&(first, second)| [first as u8, second as u8])
            .collect(),
        failed_nodes: 0,
        failed_links: 0,
    }
}

/// A random network that meets no refusal; half of them have up to eight bytes past the count of links.
pub fn random_network(rng: &mut Rng) -> Network {
    let nodes = random_node_count(rng);
    let mut links = random_links(rng, nodes);
    if rng.one_in(2) {
        renumber(rng, nodes, &mut links);
    }
    let mut network = network_of(nodes, &links);
    network.failed_nodes = random_failed(rng) as u64;
    network.failed_links = random_failed(rng);
    if rng.one_in(2) {
        let spare = rng.between(1, 8) as usize;
        network.links.extend(rng.bytes(spare));
    }
    network
}

fn random_node_count(rng: &mut Rng) -> usize {
    let (least, most) = rng.pick(&[(63, 64), (1, 64), (1, 64), (1, 4), (1, 12), (1, 12)]);
    rng.between(least, most) as usize
}

/// Links of any number; about as many as nodes, or up to twice as many, more often. One node has none.
fn random_links(rng: &mut Rng, nodes: usize) -> Vec<(usize, usize)> {
    if nodes == 1 {
        return Vec::new();
    }
    let counts = [
        (127, 128),
        (0, 128),
        (nodes - 1, nodes + 1),
        (nodes - 1, nodes + 1),
        (0, 2 * nodes),
    ];
    let (least, most) = rng.pick(&counts);
    let count = least + rng.below(most - least + 1);
    links_between(rng, nodes, count)
}

/// Gives the nodes other numbers and puts the links in another order, both at random.
fn renumber(rng: &mut Rng, nodes: usize, links: &mut [(usize, usize)]) {
    let mut numbers: Vec<usize> = (0..nodes).collect();
    shuffle(rng, &mut numbers);
    for link in links.iter_mut() {
        let (first, second) = (numbers[link.0], numbers[link.1]);
        *link = (first.min(second), first.max(second));
    }
    shuffle(rng, links);
}

fn shuffle<T>(rng: &mut Rng, list: &mut [T]) {
    for last in (1..list.len()).rev() {
        list.swap(last, rng.below(last + 1));
    }
}

/// A set of failed elements: none, a few, half of them or all. It has bits past the counts too.
fn random_failed(rng: &mut Rng) -> u128 {
    match rng.below(20) {
        0 => u128::MAX,
        1..=8 => 0,
        _ => {
            let times = rng.pick(&[100, 30, 8, 2]);
            rng.sparse_set(times)
        }
    }
}

/// A network with one to three damages; some leave it a network that meets no refusal.
pub fn damaged_network(rng: &mut Rng, mut network: Network) -> Network {
    for _ in 0..rng.between(1, 3) {
        let Network { nodes, links, .. } = &mut network;
        match rng.below(5) {
            0 => *nodes = count(rng),
            1 => network.links_count = count(rng),
            2 => links.truncate(rng.below(links.len() + 1)),
            _ => damage_end(rng, *nodes, links),
        }
    }
    network
}

/// A node of so many, most often; else a number at the limits, which may be none of them.
pub fn random_node(rng: &mut Rng, nodes: u64) -> u64 {
    if rng.one_in(6) || !(1..=64).contains(&nodes) {
        let (before, after) = (nodes.wrapping_sub(1), nodes.wrapping_add(1));
        return rng.pick(&[0, before, nodes, after, 63, 64, u64::MAX]);
    }
    rng.between(0, nodes - 1)
}
