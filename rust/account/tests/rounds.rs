//! The reach of a node by rounds, request U3, by the account alone: networks whose answers were worked out by hand, and
//! random ones beside the components.

use account::number;
use account::rounds::{reach, Network, Reach};
use account::topology::{working, Components};
use plans::networks::random_network;
use plans::reach::{by_hand, refusals, with_spare};
use plans::Rng;

#[test]
fn answers_by_hand() {
    for case in by_hand() {
        for [v, nodes, rounds] in case.answers {
            let answer = reach(&case.network, v);
            assert_eq!(answer, Ok(Reach { nodes, rounds }), "{}, {v}", case.name);
        }
    }
}

#[test]
fn numbers_by_hand() {
    for (network, v, expected) in refusals::all() {
        assert_eq!(number(&reach(&network, v)), expected, "{v} of {network:?}");
    }
}

#[test]
fn what_is_past_the_counts_changes_nothing() {
    for case in by_hand() {
        let network = with_spare(case.network);
        for [v, nodes, rounds] in case.answers {
            let answer = reach(&network, v);
            assert_eq!(answer, Ok(Reach { nodes, rounds }), "{}, {v}", case.name);
        }
    }
}

/// The set of the nodes in the component of a node; none where it is down.
fn component(network: &Network, v: usize) -> u64 {
    let plan = network.plan().expect("a network that meets no refusal");
    let topology = working(&plan, network.failed_nodes, network.failed_links);
    let components = Components::of(&plan, &topology);
    let joined = (0..plan.nodes).filter(|&w| !components.disconnects(v, w));
    joined.fold(0, |set, w| set | 1 << w)
}

#[test]
fn the_set_is_the_component() {
    let mut rng = Rng::for_stream(301);
    for _ in 0..5_000 {
        let network = random_network(&mut rng);
        let v = rng.between(0, network.nodes - 1);
        let answer = reach(&network, v).expect("a network that meets no refusal");
        let expected = component(&network, v as usize);
        assert_eq!(answer.nodes, expected, "{v} of {network:?}");
    }
}
