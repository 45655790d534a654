//! Networks of up to six nodes. A comment names the nodes that each round adds, with a bar after each round, or tells how
//! many links away the farthest node is: a node that is d links away is added in round d, so the number is one more than
//! the greatest distance. A node without a working link is alone: it reaches itself, and round 1 adds none. A node that is
//! down reaches none, and round 1 adds none.

use super::{answers, failed, row, ByHand};
use crate::networks::network_of;

/// All of them.
pub fn networks() -> Vec<ByHand> {
    let groups = [
        one_or_two_nodes(),
        rows_of_three(),
        small_networks(),
        rings_of_six(),
    ];
    groups.into_iter().flatten().collect()
}

fn one_or_two_nodes() -> Vec<ByHand> {
    let apart = network_of(2, &[]);
    vec![
        answers("one node", row(1), &[[0, 1, 1]]),
        answers("one node, down", failed(row(1), 1, 0), &[[0, 0, 1]]),
        answers("no link", apart, &[[0, 0b01, 1], [1, 0b10, 1]]),
        // From 0: 1 | none. From 1: 0 | none.
        answers("one link", row(2), &[[0, 0b11, 2], [1, 0b11, 2]]),
        answers(
            "the link failed",
            failed(row(2), 0, 1),
            &[[0, 0b01, 1], [1, 0b10, 1]],
        ),
        answers(
            "node 1 down",
            failed(row(2), 0b10, 0),
            &[[0, 0b01, 1], [1, 0, 1]],
        ),
    ]
}

fn rows_of_three() -> Vec<ByHand> {
    let with = |nodes, links| failed(row(3), nodes, links);
    vec![
        // From 0: 1 | 2 | none. From 1: 0 and 2 | none. From 2: 1 | 0 | none.
        answers(
            "row of three",
            row(3),
            &[[0, 0b111, 3], [1, 0b111, 2], [2, 0b111, 3]],
        ),
        // 0 and 2 are alone.
        answers(
            "its middle down",
            with(0b010, 0),
            &[[0, 0b001, 1], [1, 0, 1], [2, 0b100, 1]],
        ),
        // 1-2 is left. From 1: 2 | none. From 2: 1 | none.
        answers(
            "its first node down",
            with(0b001, 0),
            &[[0, 0, 1], [1, 0b110, 2], [2, 0b110, 2]],
        ),
        // 0 is alone, and 1-2 as before.
        answers(
            "its link 0-1 failed",
            with(0, 0b01),
            &[[0, 0b001, 1], [1, 0b110, 2], [2, 0b110, 2]],
        ),
        // From 0: 1 | none. From 1: 0 | none. 2 is alone.
        answers(
            "its link 1-2 failed",
            with(0, 0b10),
            &[[0, 0b011, 2], [1, 0b011, 2], [2, 0b100, 1]],
        ),
    ]
}

fn small_networks() -> Vec<ByHand> {
    let middle_last = [[0, 0b111, 3], [1, 0b111, 3], [2, 0b111, 2]];
    let tree = || network_of(6, &[(0, 1), (0, 2), (1, 3), (2, 4), (4, 5)]);
    vec![
        // From 0: 2 | 1 | none. From 1: 2 | 0 | none. From 2: 0 and 1 | none.
        answers("0-2-1", network_of(3, &[(0, 2), (1, 2)]), &middle_last),
        answers("1-2-0", network_of(3, &[(1, 2), (0, 2)]), &middle_last),
        // From 3: 0 | 2 | 1 | none. From 0: 2 and 3 | 1 | none.
        answers(
            "3-0-2-1",
            network_of(4, &[(0, 2), (0, 3), (1, 2)]),
            &[[3, 0b1111, 4], [0, 0b1111, 3]],
        ),
        // From 0: 1 | none. From 1: 0 | none. From 3: 2 | none.
        answers(
            "0-1 and 2-3",
            network_of(4, &[(0, 1), (2, 3)]),
            &[[0, 0b0011, 2], [1, 0b0011, 2], [3, 0b1100, 2]],
        ),
        // From 0: 1 and 2 | 3 and 4 | 5 | none. From 2: 0 and 4 | 1 and 5 | 3 | none. From 3: 1 | 0 | 2 | 4 | 5 | none.
        answers(
            "tree",
            tree(),
            &[[0, 0b111111, 4], [2, 0b111111, 4], [3, 0b111111, 6]],
        ),
        // 3-1-0 and 4-5 are left. From 0: 1 | 3 | none. From 1: 0 and 3 | none. From 5: 4 | none.
        answers(
            "tree, node 2 down",
            failed(tree(), 0b000100, 0),
            &[
                [0, 0b001011, 3],
                [1, 0b001011, 2],
                [2, 0, 1],
                [5, 0b110000, 2],
            ],
        ),
    ]
}

fn rings_of_six() -> Vec<ByHand> {
    let ring = || network_of(6, &[(0, 1), (1, 2), (2, 3), (3, 4), (4, 5), (0, 5)]);
    let all = 0b111111;
    vec![
        // The node across the ring is 3 links away.
        answers(
            "ring of six",
            ring(),
            &[[0, all, 4], [3, all, 4], [5, all, 4]],
        ),
        // A row from 0 to 5: 5 is 5 links from 0, and 3 links from 2.
        answers(
            "its link 0-5 failed",
            failed(ring(), 0, 1 << 5),
            &[[0, all, 6], [2, all, 4], [5, all, 6]],
        ),
        // The row 4-5-0-1-2: 2 links from 0 to each end, 4 from end to end.
        answers(
            "its node 3 down",
            failed(ring(), 1 << 3, 0),
            &[
                [0, 0b110111, 3],
                [2, 0b110111, 5],
                [3, 0, 1],
                [4, 0b110111, 5],
            ],
        ),
    ]
}
