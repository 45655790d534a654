//! What each threshold gives, for plans of up to three nodes.

use account::{Plan, WHOLE};

use super::{falling_by_one, on, ByHand, Given};
use crate::examples::triangle;
use crate::walks::{in_thousandths, link, row, still, MILLI};

/// All of them.
pub fn calls() -> Vec<ByHand> {
    let groups = [stills(), links(), rows(), triangles()];
    groups.into_iter().flatten().collect()
}

/// Without an event the only end is the scenario in which nothing fails, with all the mass: every threshold and every cap lets
/// it in. One node has no pair.
fn stills() -> Vec<ByHand> {
    let sixteen: [u64; 16] = falling_by_one(WHOLE);
    let ends: &[u64] = &[WHOLE, 1];
    let alone = Plan {
        nodes: 1,
        cap: 1,
        ..still()
    };
    let cut = ([1, 1, WHOLE], [[WHOLE, WHOLE]]);
    vec![
        on("no link", still(), &[(ends, cut)]),
        on("no link, sixteen", still(), &[(&sixteen, cut)]),
        on("one node", alone.clone(), &[(ends, ([1, 1, WHOLE], []))]),
        on(
            "one node, sixteen",
            alone,
            &[(&sixteen, ([1, 1, WHOLE], []))],
        ),
    ]
}

/// A link that fails with 0.1. Its ends are "works" with 0.9 and "fails" with 0.1; at a threshold above a mass that end is
/// dropped.
fn links() -> Vec<ByHand> {
    let (most, tenth) = (900 * MILLI, 100 * MILLI);
    let none: &[u64] = &[WHOLE, most + 1];
    let works: &[u64] = &[most, most - 1, WHOLE / 2, tenth + 1];
    let both: &[u64] = &[tenth, tenth - 1, 1];
    let near: [u64; 16] = falling_by_one(tenth + 8);
    let given = in_thousandths::<1>;
    let plan = |cap| link(100_000_000, 1, cap);
    let complete = [
        (none, given([0, 1, 0], [0])),
        (works, given([1, 1, 900], [0])),
        (both, given([2, 1, 1_000], [100])),
    ];
    let first_end = [
        (none, given([0, 0, 0], [0])),
        (works, given([1, 0, 900], [0])),
        (both, given([1, 0, 900], [0])),
    ];
    let sixteen = [
        (&near[..8], given([1, 1, 900], [0])),
        (&near[8..], given([2, 1, 1_000], [100])),
    ];
    vec![
        on("a link", plan(100), &complete),
        on("a link, cap 2", plan(2), &complete),
        on("a link, cap 1", plan(1), &first_end),
        on("a link, sixteen near 0.1", plan(2), &sixteen),
    ]
}

/// The row whose links fail with 0.5 and 0.25: the first event leaves 0.5 on each side, the second 0.375 (works) and 0.125
/// (fails) of each. Above 0.5 there are two ends, else four. What is above 0.375 is dropped everywhere; above 0.125 the second
/// and the last end are.
fn rows() -> Vec<ByHand> {
    let (half, more, less) = (500 * MILLI, 375 * MILLI, 125 * MILLI);
    let lists: [&[u64]; 4] = [
        &[WHOLE, half + 1],
        &[half, more + 1],
        &[more, less + 1],
        &[less, 1],
    ];
    let given = in_thousandths::<3>;
    let none = |complete| given([0, complete, 0], [0; 3]);
    let first = given([1, 0, 375], [0; 3]);
    let first_two = given([2, 0, 500], [0, 125, 125]);
    let first_three = given([3, 0, 875], [375, 500, 125]);
    let first_and_third = |complete| given([2, complete, 750], [375, 375, 0]);
    let all = given([4, 1, 1_000], [500, 625, 250]);
    let caps = [
        (4, [none(1), none(1), first_and_third(1), all]),
        (3, [none(1), none(0), first_and_third(0), first_three]),
        (2, [none(1), none(0), first, first_two]),
        (1, [none(0), none(0), first, first]),
    ];
    let of = |(cap, given): (u64, [_; 4])| {
        let groups: [_; 4] = std::array::from_fn(|i| (lists[i], given[i]));
        on("a row", row(1, cap), &groups)
    };
    caps.map(of).into()
}

/// The triangle of document 01, whose ends stand in `walks`. The masses by the count of examined scenarios; no one of them
/// cuts a pair.
pub fn triangle_block(count: usize, complete: u64) -> Given<3> {
    let masses = [
        0,
        999_999_997_000_000_002,
        999_999_998_000_000_000,
        999_999_998_999_999_998,
        999_999_999_999_999_996,
    ];
    let mass = masses[count];
    ([count as u64, complete, mass], [[0, WHOLE - mass]; 3])
}

/// At 10^18 both sides of event 0 are dropped: 2 ends. Down to 10^9 + 1 every "fails" is: 4 ends. At 10^9 "0 fails" goes on to
/// event 1: 5 ends. At 999,999,999 "1 fails", and "0 fails, 1 works", go on to event 2: 7 ends. One below, both and "2 fails" are
/// examined. At 1 "0 and 1 fail" goes on to event 2 with 1 unit: 8 ends.
fn triangles() -> Vec<ByHand> {
    let first = 999_999_997_000_000_002;
    let lists: [&[u64]; 7] = [
        &[WHOLE],
        &[first + 1],
        &[first, 1_000_000_001],
        &[1_000_000_000],
        &[999_999_999],
        &[999_999_998, 2],
        &[1],
    ];
    let caps: [(u64, [(usize, u64); 7]); 9] = [
        (9, [(0, 1), (0, 1), (1, 1), (1, 1), (1, 1), (4, 1), (4, 1)]),
        (8, [(0, 1), (0, 1), (1, 1), (1, 1), (1, 1), (4, 1), (4, 1)]),
        (7, [(0, 1), (0, 1), (1, 1), (1, 1), (1, 1), (4, 1), (4, 0)]),
        (6, [(0, 1), (0, 1), (1, 1), (1, 1), (1, 0), (4, 0), (4, 0)]),
        (5, [(0, 1), (0, 1), (1, 1), (1, 1), (1, 0), (4, 0), (4, 0)]),
        (4, [(0, 1), (0, 1), (1, 1), (1, 0), (1, 0), (3, 0), (3, 0)]),
        (3, [(0, 1), (0, 0), (1, 0), (1, 0), (1, 0), (3, 0), (3, 0)]),
        (2, [(0, 1), (0, 0), (1, 0), (1, 0), (1, 0), (2, 0), (2, 0)]),
        (1, [(0, 0), (0, 0), (1, 0), (1, 0), (1, 0), (1, 0), (1, 0)]),
    ];
    let of = |(cap, given): (u64, [(usize, u64); 7])| {
        let block = |i: usize| triangle_block(given[i].0, given[i].1);
        let groups: [_; 7] = std::array::from_fn(|i| (lists[i], block(i)));
        on("the triangle", Plan { cap, ..triangle() }, &groups)
    };
    caps.map(of).into()
}
