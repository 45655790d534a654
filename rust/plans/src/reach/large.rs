//! Networks up to the largest, with two words of links. The comments are as in `small`.

use account::plan::pairs;
use account::rounds::Network;

use super::{answers, failed, row, ByHand};
use crate::networks::network_of;

const ALL: u64 = u64::MAX;

/// All of them.
pub fn networks() -> Vec<ByHand> {
    let groups = [
        rows_of_64(),
        parted_rows_of_64(),
        doubled_rows(),
        meshes(),
        mesh_words(),
        stars(),
        parallel_links(),
    ];
    groups.into_iter().flatten().collect()
}

fn rows_of_64() -> Vec<ByHand> {
    let falling: Vec<_> = (1..64).rev().map(|node| (node - 1, node)).collect();
    // From node i the farthest node is 0 or 63, and the larger of i and 63 - i links away.
    let whole = [
        [0, ALL, 64],
        [1, ALL, 63],
        [31, ALL, 33],
        [32, ALL, 33],
        [62, ALL, 63],
        [63, ALL, 64],
    ];
    vec![
        answers("row of 64", row(64), &whole),
        answers("its links last first", network_of(64, &falling), &whole),
    ]
}

fn parted_rows_of_64() -> Vec<ByHand> {
    let with = |nodes, links| failed(row(64), nodes, links);
    vec![
        // 0 to 31 are left, 31 links from one end to the other, and 33 to 63, 30 links.
        answers(
            "row of 64, node 32 down",
            with(1 << 32, 0),
            &[
                [0, ALL >> 32, 32],
                [31, ALL >> 32, 32],
                [32, 0, 1],
                [33, ALL << 33, 31],
                [63, ALL << 33, 31],
            ],
        ),
        // 0 to 31 and 32 to 63 are left, 31 links each; 16 is 16 links from 0 and 15 from 31.
        answers(
            "row of 64, link 31-32 failed",
            with(0, 1 << 31),
            &[[0, ALL >> 32, 32], [16, ALL >> 32, 17], [63, ALL << 32, 32]],
        ),
        // 63 is alone.
        answers(
            "row of 64, all but node 63 down",
            with(ALL >> 1, 0),
            &[[0, 0, 1], [62, 0, 1], [63, 1 << 63, 1]],
        ),
    ]
}

/// The row of 64 with each link twice: link i and link 63 + i join nodes i and i + 1, so link 63 is a second 0-1, link
/// 64 a second 1-2 and link 125 a second 62-63.
fn doubled_rows() -> Vec<ByHand> {
    const FIRST_63: u128 = (1 << 63) - 1;
    let links: Vec<_> = (0..126).map(|i| (i % 63, i % 63 + 1)).collect();
    let with = |links_failed| failed(network_of(64, &links), 0, links_failed);
    vec![
        // The first three have the distances of the row.
        answers("doubled row", with(0), &[[0, ALL, 64], [32, ALL, 33]]),
        answers("links 0 to 62 failed", with(FIRST_63), &[[0, ALL, 64]]),
        answers("links from 63 on failed", with(!FIRST_63), &[[63, ALL, 64]]),
        // 0 is alone; 1 to 63 are left, 62 links.
        answers(
            "links 0 to 63 failed",
            with(FIRST_63 | 1 << 63),
            &[[0, 1, 1], [1, ALL << 1, 63], [63, ALL << 1, 63]],
        ),
        // 0-1 is left: from 0: 1 | none. And 2 to 63, 61 links.
        answers(
            "links 0 to 62 and 64 failed",
            with(FIRST_63 | 1 << 64),
            &[[0, 0b11, 2], [2, ALL << 2, 62], [63, ALL << 2, 62]],
        ),
        // 63 is alone; 62 is 62 links from 0.
        answers(
            "links 0 to 62 and 125 failed",
            with(FIRST_63 | 1 << 125),
            &[[63, 1 << 63, 1], [62, ALL >> 1, 63]],
        ),
    ]
}

/// Each two of 16 nodes joined, by first end, then second: 120 links.
fn mesh() -> Network {
    network_of(16, &pairs(16))
}

fn meshes() -> Vec<ByHand> {
    let with = |nodes, links| failed(mesh(), nodes, links);
    vec![
        // All others | none.
        answers(
            "mesh",
            mesh(),
            &[[0, 0xffff, 2], [7, 0xffff, 2], [15, 0xffff, 2]],
        ),
        // From 0 and from 15: all others but 5 | none. 0xffff without bit 5, 0x20, is 0xffdf.
        answers(
            "its node 5 down",
            with(1 << 5, 0),
            &[[5, 0, 1], [0, 0xffdf, 2], [15, 0xffdf, 2]],
        ),
        answers("all nodes down", with(0xffff, 0), &[[0, 0, 1], [15, 0, 1]]),
        answers(
            "all links failed",
            with(0, u128::MAX),
            &[[0, 1, 1], [15, 1 << 15, 1]],
        ),
        // Link 0 is 0-1. From 0: 1 | none. From 1: 0 | none. 2 is alone.
        answers(
            "all links but 0 failed",
            with(0, u128::MAX << 1),
            &[[0, 0b11, 2], [1, 0b11, 2], [2, 0b100, 1]],
        ),
        // Link 119, the last, is 14-15: bits 0x4000 and 0x8000. From 14: 15 | none. From 15: 14 | none. 0 is alone.
        answers(
            "all links but 119 failed",
            with(0, !(1 << 119)),
            &[[14, 0xc000, 2], [15, 0xc000, 2], [0, 1, 1]],
        ),
    ]
}

/// The links of the mesh with first end 0 are 0 to 14, with 1 15 to 28, with 2 29 to 41, with 3 42 to 53, with 4 54 to
/// 64: 4-5 is link 54, 4-14 link 63 and 4-15 link 64. Links 65 to 119 join 5 to 15.
fn mesh_words() -> Vec<ByHand> {
    let (low, high) = (u128::from(u64::MAX), u128::from(u64::MAX) << 64);
    let (all, last) = (0xffff, 0xfff0);
    vec![
        // 0 to 3 have links to all; 4 has them to 0 to 3 and 5 to 14; 5 to 14 to 0 to 4; 15 to 0 to 3.
        // From 0: all others | none. From 4: all but 15 | 15 | none. From 5: 0 to 4 | 6 to 15 | none. From 15: 0 to 3 | 4 to 14 | none.
        answers(
            "mesh, links 64 to 127 failed",
            failed(mesh(), 0, high),
            &[[0, all, 2], [4, all, 3], [5, all, 3], [15, all, 3]],
        ),
        // 0 to 3 are alone. From 4: 15 | 5 to 14 | none. From 5: 6 to 15 | 4 | none. From 15: 4 to 14 | none.
        answers(
            "mesh, links 0 to 63 failed",
            failed(mesh(), 0, low),
            &[[0, 1, 1], [4, last, 3], [5, last, 3], [15, last, 2]],
        ),
    ]
}

/// Node 0 joined with each of 63 others: link i joins it with i + 1.
fn stars() -> Vec<ByHand> {
    let links: Vec<_> = (1..64).map(|node| (0, node)).collect();
    let with = |nodes, links_failed| failed(network_of(64, &links), nodes, links_failed);
    vec![
        // From 0: all others | none. From another: 0 | all others | none.
        answers(
            "star",
            with(0, 0),
            &[[0, ALL, 2], [1, ALL, 3], [63, ALL, 3]],
        ),
        // All others are alone.
        answers(
            "its centre down",
            with(1, 0),
            &[[0, 0, 1], [1, 0b10, 1], [63, 1 << 63, 1]],
        ),
        // 63 is alone; the others as before.
        answers(
            "its link 0-63 failed",
            with(0, 1 << 62),
            &[[0, ALL >> 1, 2], [1, ALL >> 1, 3], [63, 1 << 63, 1]],
        ),
        // 0-1 is left. From 0: 1 | none. From 1: 0 | none.
        answers(
            "its nodes 2 to 63 down",
            with(ALL << 2, 0),
            &[[0, 0b11, 2], [1, 0b11, 2], [2, 0, 1]],
        ),
    ]
}

/// Two nodes joined by 128 links. With one that works, from 0: 1 | none, and from 1: 0 | none.
fn parallel_links() -> Vec<ByHand> {
    let with = |links_failed| failed(network_of(2, &[(0, 1); 128]), 0, links_failed);
    let joined = [[0, 0b11, 2], [1, 0b11, 2]];
    vec![
        answers("parallel links", with(0), &joined),
        answers("all but 0 failed", with(!1), &joined),
        answers("all but 63 failed", with(!(1 << 63)), &joined),
        answers("all but 64 failed", with(!(1 << 64)), &joined),
        answers("all but 127 failed", with(!(1 << 127)), &joined),
        answers("all failed", with(u128::MAX), &[[0, 0b01, 1], [1, 0b10, 1]]),
    ]
}
