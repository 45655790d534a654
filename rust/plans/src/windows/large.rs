//! Runs of plans with many links or nodes, and with one node; and with many windows.

use account::{Plan, WHOLE};

use super::{exactly_on, parallel, ByHand, Words, MOST};

/// All of them.
pub fn runs() -> Vec<ByHand> {
    let groups = [
        many_links(),
        past_64_links(),
        many_nodes(),
        one_node(),
        many_windows(),
    ];
    groups.into_iter().flatten().collect()
}

/// Three nodes in a row, so many links between the first two, then so many between the last two.
fn doubled(first: usize, second: usize) -> Plan {
    let mut links = vec![(0, 1); first];
    links.resize(first + second, (1, 2));
    Plan {
        links,
        ..parallel(3, 0)
    }
}

/// Of 128 links, 0 to 63 join 0 and 1, and 64 to 127 join 1 and 2. A pair is cut off where every link of a word is out.
fn many_links() -> Vec<ByHand> {
    let at = |low, high| [60, 70, 0, low, high];
    let (none, first) = ([0, 0, 0], [1_000, 1_000, 0]);
    let (second, both) = ([0, 1_000, 1_000], [1_000, 1_000, 1_000]);
    let cases: [(&[Words], u64, [u64; 3]); 12] = [
        (&[at(MOST, 0)], 60, first),
        (&[at(0, MOST)], 60, second),
        (&[at(MOST, MOST)], 60, both),
        (&[at(MOST, MOST)], 70, none),
        (&[at(MOST - 1, MOST - 1)], 60, none),
        (&[at(MOST >> 1, MOST >> 1)], 60, none),
        (&[at(MOST, MOST >> 1)], 60, first),
        (&[at(MOST, MOST - 1)], 60, first),
        (&[at(MOST >> 1, MOST)], 60, second),
        (&[at(MOST - 1, MOST)], 60, second),
        (&[at(MOST >> 1, 0), at(1 << 63, 0)], 60, first),
        (&[at(0, MOST >> 1), at(0, 1 << 63)], 60, second),
    ];
    exactly_on("128 links", &doubled(64, 64), &cases)
}

/// Of 66 links, the last two join 1 and 2.
fn past_64_links() -> Vec<ByHand> {
    let high = |start, end, word| [start, end, 0, 0, word];
    let cases: [(&[Words], u64, [u64; 3]); 4] = [
        (&[high(0, 9, 0b01)], 8, [0, 0, 0]),
        (&[high(0, 9, 0b10)], 8, [0, 0, 0]),
        (&[high(0, 9, 0b11)], 8, [0, 1_000, 1_000]),
        (&[high(0, 9, 1), high(8, 9, 2)], 8, [0, 1_000, 1_000]),
    ];
    exactly_on("66 links", &doubled(64, 2), &cases)
}

/// A row of 64 nodes, of which one is out: cut off are the pairs with a node on each side of it, or with the node itself. With
/// all nodes out every pair is.
fn many_nodes() -> Vec<ByHand> {
    let plan = Plan {
        links: (1..64).map(|node| (node - 1, node)).collect(),
        ..parallel(64, 0)
    };
    let mut all = Vec::new();
    for (nodes, least, most) in [
        (1, 0, 0),
        (1 << 31, 31, 31),
        (1 << 32, 32, 32),
        (1 << 63, 63, 63),
        (MOST, 0, 63),
    ] {
        let cut = |(v, w): (usize, usize)| v <= most && least <= w;
        let shares = plan.pairs().into_iter().map(|pair| u64::from(cut(pair)));
        let exact: Vec<u64> = shares.collect();
        all.push(ByHand {
            name: "a row of 64 nodes",
            plan: plan.clone(),
            windows: vec![10_079, 10_080, nodes, 0, 0],
            minute: 10_079,
            totals: [1, 1, WHOLE],
            bounds: exact.iter().map(|share| [share * WHOLE; 2]).collect(),
            exact,
        });
    }
    all
}

/// One node has no pair, in or out.
fn one_node() -> Vec<ByHand> {
    let out: &[Words] = &[[0, 10_080, 1, 0, 0]];
    exactly_on("one node", &parallel(1, 0), &[(out, 0, []), (&[], 0, [])])
}

/// A window for each minute of the week; link 0 is out in the odd ones.
fn many_windows() -> Vec<ByHand> {
    let window = |minute| [minute, minute + 1, 0, minute % 2, 0];
    let windows: Vec<Words> = (0..10_080).map(window).collect();
    let at = |minute, share| (&windows[..], minute, [share]);
    let cases = [
        at(0, 0),
        at(1, 1_000),
        at(5_000, 0),
        at(5_001, 1_000),
        at(10_078, 0),
        at(10_079, 1_000),
    ];
    exactly_on("a window each minute", &parallel(2, 1), &cases)
}
