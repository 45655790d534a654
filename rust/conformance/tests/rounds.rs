//! The reach of a node by rounds, request U3: networks whose answers were worked out by hand, the account on random
//! networks, valid and damaged, and distances that are found without rounds.

use account::rounds::{reach as own_reach, Network};
use conformance::distances::Distances;
use conformance::rounds::reach;
use conformance::{compare, Tally};
use plans::networks::{damaged_network, random_network, random_node};
use plans::reach::{by_hand, refusals, row, with_spare};
use plans::Rng;

const NETWORKS: usize = 40_000;

/// What the proved code returns and lays down in two words that hold another value before.
fn answer(network: &Network, v: u64) -> (u32, [u64; 2]) {
    let mut result = [0xdead_beef_dead_beef; 2];
    let refusal = reach(network, v, &mut result);
    (refusal, result)
}

#[test]
fn answers_by_hand() {
    let mut rng = Rng::for_stream(101);
    for case in by_hand() {
        for [v, nodes, rounds] in case.answers {
            let expected = (0, [nodes, rounds]);
            assert_eq!(answer(&case.network, v), expected, "{}, {v}", case.name);
            compare::reach(&mut rng, &case.network, v);
        }
    }
}

#[test]
fn numbers_by_hand() {
    let mut rng = Rng::for_stream(102);
    for (network, v, number) in refusals::all() {
        let (refusal, words) = answer(&network, v);
        assert_eq!(refusal, number, "{v} of {network:?}");
        if number != 0 {
            assert_eq!(words, [0; 2], "{v} of {network:?}");
        }
        compare::reach(&mut rng, &network, v);
    }
}

#[test]
fn what_is_past_the_counts_changes_nothing() {
    for case in by_hand() {
        let network = with_spare(case.network);
        for [v, nodes, rounds] in case.answers {
            let expected = (0, [nodes, rounds]);
            assert_eq!(answer(&network, v), expected, "{}, {v}", case.name);
        }
    }
}

/// From the first of three nodes in a row: 1 | 2 | none, so all three nodes and 3 rounds. Node 3 is refused with 13.
#[test]
fn words_are_laid_down_as_far_as_there_is_room() {
    let network = row(3);
    let lists: [(&[u64], &[u64]); 4] = [
        (&[], &[]),
        (&[0b111], &[0]),
        (&[0b111, 3], &[0, 0]),
        (&[0b111, 3, 9, 9, 9], &[0, 0, 9, 9, 9]),
    ];
    for (accepted, refused) in lists {
        let mut result = vec![9; accepted.len()];
        assert_eq!(reach(&network, 0, &mut result), 0);
        assert_eq!(result, accepted);
        let mut result = vec![9; refused.len()];
        assert_eq!(reach(&network, 3, &mut result), 13);
        assert_eq!(result, refused);
    }
}

#[test]
fn the_account_agrees_on_many_networks() {
    let mut rng = Rng::for_stream(103);
    let mut tally = Tally::default();
    for _ in 0..NETWORKS {
        let mut network = random_network(&mut rng);
        if rng.one_in(2) {
            network = damaged_network(&mut rng, network);
        }
        let v = random_node(&mut rng, network.nodes);
        tally.add(compare::reach(&mut rng, &network, v));
    }
    tally.expect_each(&[0, 4, 7, 12, 13], 1_000);
}

/// Every node of a network beside the distances: what the proved code gives, and what the account gives.
fn compare_distances(network: &Network) -> u64 {
    let distances = Distances::of(network);
    for v in 0..network.nodes {
        let expected = distances.reach(v as usize);
        assert_eq!(answer(network, v), (0, expected), "{v} of {network:?}");
        let own = own_reach(network, v).map(|own| [own.nodes, own.rounds]);
        assert_eq!(own, Ok(expected), "{v} of {network:?}");
    }
    network.nodes
}

#[test]
fn the_number_is_one_more_than_the_greatest_distance() {
    let mut rng = Rng::for_stream(104);
    let compared: u64 = (0..5_000)
        .map(|_| compare_distances(&random_network(&mut rng)))
        .sum();
    assert!(compared >= 50_000, "{compared} nodes");
}

#[test]
fn distances_give_the_answers_by_hand() {
    for case in by_hand() {
        let distances = Distances::of(&case.network);
        for [v, nodes, rounds] in case.answers {
            let found = distances.reach(v as usize);
            assert_eq!(found, [nodes, rounds], "{}, {v}", case.name);
        }
    }
}
