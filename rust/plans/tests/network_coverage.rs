//! The random networks meet the corners that the tests are meant to reach.

use account::rounds::{reach, Network, Reach};
use plans::networks::random_network;
use plans::Rng;

/// A corner: its name, and whether a network and the reach of a node are in it.
type Corner = (&'static str, fn(&Network, u64, &Reach) -> bool);

fn number_of(set: u64) -> u64 {
    u64::from(set.count_ones())
}

/// The nodes that work.
fn working_nodes(network: &Network) -> u64 {
    u64::MAX >> (64 - network.nodes) & !network.failed_nodes
}

/// The reach of the node with other sets of failed elements.
fn with_failed(network: &Network, v: u64, failed_nodes: u64, failed_links: u128) -> Reach {
    let other = Network {
        failed_nodes,
        failed_links,
        ..network.clone()
    };
    reach(&other, v).expect("a network that meets no refusal")
}

const CORNERS: [Corner; 21] = [
    ("one node", |network, _, _| network.nodes == 1),
    ("no link", |network, _, _| {
        network.nodes > 1 && network.links_count == 0
    }),
    ("64 nodes, 128 links", |network, _, _| {
        (network.nodes, network.links_count) == (64, 128)
    }),
    ("bytes past the links", |network, _, _| {
        network.links.len() as u64 > 2 * network.links_count
    }),
    ("a node past the count failed", |network, _, _| {
        network.nodes < 64 && network.failed_nodes >> network.nodes != 0
    }),
    ("a link past the count failed", |network, _, _| {
        network.links_count < 128 && network.failed_links >> network.links_count != 0
    }),
    ("all nodes failed", |network, _, _| {
        working_nodes(network) == 0
    }),
    ("the node down", |network, v, _| {
        network.failed_nodes >> v & 1 == 1
    }),
    ("the node alone", |_, v, reach| reach.nodes == 1 << v),
    ("all 64 nodes reached", |_, _, reach| {
        reach.nodes == u64::MAX
    }),
    (
        "two nodes or more in two components",
        |network, _, reach| {
            let others = working_nodes(network) & !reach.nodes;
            number_of(reach.nodes) > 1 && number_of(others) > 1
        },
    ),
    ("2 rounds", |_, _, reach| reach.rounds == 2),
    ("3 rounds", |_, _, reach| reach.rounds == 3),
    ("4 to 9 rounds", |_, _, reach| {
        (4..10).contains(&reach.rounds)
    }),
    ("10 to 39 rounds", |_, _, reach| {
        (10..40).contains(&reach.rounds)
    }),
    ("40 rounds or more", |_, _, reach| reach.rounds >= 40),
    ("fewer rounds than nodes reached", |_, _, reach| {
        reach.rounds > 3 && reach.rounds < number_of(reach.nodes)
    }),
    ("a failed node that matters", |network, v, reach| {
        let own = network.failed_nodes & 1 << v;
        with_failed(network, v, own, network.failed_links) != *reach
    }),
    (
        "a failed link below 64 that matters",
        |network, v, reach| {
            let high = network.failed_links >> 64 << 64;
            with_failed(network, v, network.failed_nodes, high) != *reach
        },
    ),
    ("a failed link past 63 that matters", |network, v, reach| {
        let low = u128::from(network.failed_links as u64);
        with_failed(network, v, network.failed_nodes, low) != *reach
    }),
    (
        "failed links, more rounds, the same set",
        |network, v, reach| {
            let other = with_failed(network, v, network.failed_nodes, 0);
            other.nodes == reach.nodes && other.rounds < reach.rounds
        },
    ),
];

#[test]
fn every_corner_is_met() {
    let mut rng = Rng::for_stream(204);
    let mut met = [0u32; CORNERS.len()];
    for _ in 0..5_000 {
        let network = random_network(&mut rng);
        let v = rng.between(0, network.nodes - 1);
        let reach = reach(&network, v).expect("a network that meets no refusal");
        for (count, (_, holds)) in met.iter_mut().zip(&CORNERS) {
            *count += u32::from(holds(&network, v, &reach));
        }
    }
    for (count, (name, _)) in met.iter().zip(&CORNERS) {
        println!("{name}: {count}");
    }
    for (count, (name, _)) in met.iter().zip(&CORNERS) {
        assert!(*count > 0, "no network with: {name}");
    }
}
