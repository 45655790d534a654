//! Runs of plans of two and three nodes.

use account::{Event, Plan, WHOLE};

use super::{exactly_on, link_0, on, parallel, ByHand, Words};
use crate::walks::{row, MILLI};

/// All of them.
pub fn runs() -> Vec<ByHand> {
    let groups = [
        minutes(),
        elements(),
        several(),
        rows(),
        parts_of_a_row(),
        one_link(),
    ];
    groups.into_iter().flatten().collect()
}

/// An event on link 0.
fn on_the_link(probability: u64) -> Event {
    Event {
        probability,
        nodes: 0,
        links: 1,
    }
}

/// Two nodes and a link that no event names: windows, the minutes that they hold, and some that they do not.
fn minutes() -> Vec<ByHand> {
    let (hour, next, later) = (link_0(600, 660), link_0(660, 720), link_0(661, 720));
    let (first, last) = (link_0(0, 1), link_0(10_079, 10_080));
    let cases: [(&[Words], &[u64], &[u64]); 12] = [
        (&[link_0(0, 10_080)], &[0, 1, 5_000, 10_078, 10_079], &[]),
        (&[first], &[0], &[1, 2, 10_079]),
        (&[last], &[10_079], &[0, 10_078]),
        (&[first, last], &[0, 10_079], &[1, 10_078]),
        (&[link_0(600, 601)], &[600], &[599, 601]),
        (&[hour], &[600, 659], &[0, 599, 660, 10_079]),
        (&[hour, next], &[600, 659, 660, 719], &[599, 720]),
        (&[next, hour], &[600, 659, 660, 719], &[599, 720]),
        (&[hour, later], &[659, 661], &[660]),
        (&[hour, hour], &[600, 659], &[599, 660]),
        (&[[0, 10_080, 0, 0, 0]], &[], &[0, 600, 10_079]),
        (&[], &[], &[0, 600, 10_079]),
    ];
    let mut all = Vec::new();
    for (windows, held, free) in cases {
        let down = held.iter().map(|&minute| (windows, minute, [1_000]));
        let up = free.iter().map(|&minute| (windows, minute, [0]));
        let cases: Vec<_> = down.chain(up).collect();
        all.extend(exactly_on("a link", &parallel(2, 1), &cases));
    }
    all
}

/// Three nodes, link 0 between 0 and 1, link 1 between 0 and 2, link 2 between 1 and 2. Link 0 fails with one tenth. The pairs
/// are 0 1, 0 2 and 1 2; with nothing out there is always a way.
fn triangle() -> Plan {
    Plan {
        nodes: 3,
        links: vec![(0, 1), (0, 2), (1, 2)],
        events: vec![on_the_link(100_000_000)],
        threshold: 1,
        cap: 100,
    }
}

/// Each set of nodes and links of the triangle by itself, in one window for the whole week. A node that is out takes its
/// links with it: without node 2, link 0 alone joins 0 and 1.
fn elements() -> Vec<ByHand> {
    let cases = [
        (0b000, 0b000, [0, 0, 0]),
        (0b001, 0b000, [1_000, 1_000, 0]),
        (0b010, 0b000, [1_000, 0, 1_000]),
        (0b100, 0b000, [100, 1_000, 1_000]),
        (0b011, 0b000, [1_000, 1_000, 1_000]),
        (0b111, 0b000, [1_000, 1_000, 1_000]),
        (0b000, 0b001, [0, 0, 0]),
        (0b000, 0b010, [100, 100, 0]),
        (0b000, 0b100, [100, 0, 100]),
        (0b000, 0b110, [100, 1_000, 1_000]),
        (0b000, 0b011, [1_000, 1_000, 0]),
        (0b000, 0b101, [1_000, 0, 1_000]),
        (0b000, 0b111, [1_000, 1_000, 1_000]),
        (0b100, 0b001, [1_000, 1_000, 1_000]),
        (0b001, 0b100, [1_000, 1_000, 1_000]),
    ];
    let of = |(nodes, links, shares)| {
        let window = [0, 10_080, nodes, links, 0];
        exactly_on("a triangle", &triangle(), &[(&[window], 10_079, shares)])
    };
    cases.into_iter().flat_map(of).collect()
}

/// Several windows on the triangle: what is out is the union of all that hold the minute, in whatever order they stand.
fn several() -> Vec<ByHand> {
    let (one, two) = ([100, 300, 0, 0b010, 0], [200, 400, 0, 0b100, 0]);
    let (none, link_1) = ([0, 0, 0], [100, 100, 0]);
    let (link_2, links_1_2) = ([100, 0, 100], [100, 1_000, 1_000]);
    let overlapping: &[Words] = &[one, two];
    let touching: &[Words] = &[[100, 200, 0, 0b010, 0], two];
    let inside: &[Words] = &[[0, 10_080, 0b100, 0, 0], link_0(500, 501)];
    let twice: &[Words] = &[one, [200, 400, 0, 0b010, 0]];
    let three: &[Words] = &[[0, 10, 0, 0b010, 0], [5, 15, 0, 0b100, 0], link_0(9, 20)];
    let kinds: &[Words] = &[[100, 300, 0b100, 0, 0], link_0(200, 400)];
    let cases = [
        (overlapping, 99, none),
        (overlapping, 100, link_1),
        (overlapping, 199, link_1),
        (overlapping, 200, links_1_2),
        (overlapping, 299, links_1_2),
        (overlapping, 300, link_2),
        (overlapping, 399, link_2),
        (overlapping, 400, none),
        (&[two, one], 200, links_1_2),
        (&[two, one], 100, link_1),
        (&[two, one], 300, link_2),
        (touching, 199, link_1),
        (touching, 200, link_2),
        (inside, 499, [100, 1_000, 1_000]),
        (inside, 500, [1_000, 1_000, 1_000]),
        (inside, 501, [100, 1_000, 1_000]),
        (twice, 250, link_1),
        (three, 4, link_1),
        (three, 5, links_1_2),
        (three, 9, [1_000, 1_000, 1_000]),
        (three, 10, [1_000, 0, 1_000]),
        (three, 15, none),
        (kinds, 199, [100, 1_000, 1_000]),
        (kinds, 200, [1_000, 1_000, 1_000]),
        (kinds, 300, none),
    ];
    exactly_on("windows on a triangle", &triangle(), &cases)
}

/// The row of three nodes, whose link 0-1 fails with 0.5 and link 1-2 with 0.25: one of them at least with 0.625.
fn rows() -> Vec<ByHand> {
    let cases = [
        ([0, 0], [500, 625, 250]),
        ([0b001, 0], [1_000, 1_000, 250]),
        ([0b010, 0], [1_000, 1_000, 1_000]),
        ([0b100, 0], [500, 1_000, 1_000]),
        ([0, 0b01], [1_000, 1_000, 250]),
        ([0, 0b10], [500, 1_000, 1_000]),
        ([0, 0b11], [1_000, 1_000, 1_000]),
    ];
    let of = |([nodes, links], shares): ([u64; 2], [u64; 3])| {
        let window = [7, 8, nodes, links, 0];
        exactly_on("a row", &row(1, 100), &[(&[window], 7, shares)])
    };
    cases.into_iter().flat_map(of).collect()
}

/// The row again. At t = 0.2 "nothing fails" and "0-1 fails" are examined, 0.375 each; with cap 1 the first of them alone. A
/// pair that is cut off for certain has E for its lower bound.
fn parts_of_a_row() -> Vec<ByHand> {
    let (first, second) = ([7, 8, 0, 0b01, 0], [7, 8, 0, 0b10, 0]);
    let first_cut = [1_000, 1_000, 250];
    let second_cut = [500, 1_000, 1_000];
    let threshold = [
        (&[] as &[Words], 7, [375, 375, 0], [500, 625, 250]),
        (&[first], 8, [375, 375, 0], [500, 625, 250]),
        (&[first], 7, [750, 750, 0], first_cut),
        (&[second], 7, [375, 750, 750], second_cut),
        (&[first, second], 7, [750; 3], [1_000; 3]),
        (&[[7, 8, 0b010, 0, 0]], 7, [750; 3], [1_000; 3]),
    ];
    let cap = [
        (&[] as &[Words], 7, [0; 3], [500, 625, 250]),
        (&[first], 7, [375, 375, 0], first_cut),
        (&[second], 7, [0, 375, 375], second_cut),
    ];
    let (dropping, short) = (row(200 * MILLI, 100), row(1, 1));
    let mut all = on("a row, t = 0.2", &dropping, [2, 1, 750], &threshold);
    all.extend(on("a row, cap 1", &short, [1, 0, 375], &cap));
    all
}

/// Marked plans 3, 4 and 9: the failing of the link is dropped, or past the cap, or nothing at all is examined.
fn one_link() -> Vec<ByHand> {
    let plan = |probability, threshold, cap| Plan {
        events: vec![on_the_link(probability)],
        threshold,
        cap,
        ..parallel(2, 1)
    };
    let out: &[Words] = &[link_0(0, 10_080)];
    let node: &[Words] = &[[0, 10_080, 0b10, 0, 0]];
    let tenth = [
        (&[] as &[Words], 0, [0], [100]),
        (out, 0, [900], [1_000]),
        (node, 0, [900], [1_000]),
    ];
    let half = [
        (&[] as &[Words], 0, [0], [500]),
        (out, 0, [0], [1_000]),
        (node, 0, [0], [1_000]),
    ];
    let dropped = plan(100_000_000, 100 * MILLI + 1, 100);
    let capped = plan(100_000_000, 1, 1);
    let nothing = plan(500_000_000, WHOLE, 100);
    let mut all = on("failing dropped", &dropped, [1, 1, 900], &tenth);
    all.extend(on("failing past the cap", &capped, [1, 0, 900], &tenth));
    all.extend(on("nothing examined", &nothing, [0, 1, 0], &half));
    all
}
