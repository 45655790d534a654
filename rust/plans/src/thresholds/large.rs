//! What each of sixteen thresholds gives, for plans with longer walks and with many nodes.

use account::{Event, Plan, CERTAIN, WHOLE};

use super::small::triangle_block;
use super::{falling_by_one, on, Block, ByHand};
use crate::examples::{halves, triangle};
use crate::walks::still;

/// All of them.
pub fn calls() -> Vec<ByHand> {
    let mut all = long();
    all.push(many());
    all
}

/// Sixteen thresholds: powers of ten on the triangle, with a cap of 6 ends; and one whole halved again and again on 128 events of
/// one half, of which nothing is examined. At one whole halved d times there are 2^(d + 1) ends, so the cap lets nine walks end.
fn long() -> Vec<ByHand> {
    let tens: [u64; 16] = std::array::from_fn(|i| WHOLE / 10u64.pow(i as u32));
    let halved: [u64; 16] = std::array::from_fn(|i| WHOLE >> i);
    let tens = [
        (&tens[..1], triangle_block(0, 1)),
        (&tens[1..10], triangle_block(1, 1)),
        (&tens[10..], triangle_block(4, 0)),
    ];
    let nothing = |complete| ([0, complete, 0], [[0, WHOLE]; 15]);
    let halved = [(&halved[..9], nothing(1)), (&halved[9..], nothing(0))];
    let capped = |cap, plan| Plan { cap, ..plan };
    vec![
        on("powers of ten", capped(6, triangle()), &tens),
        on("halved", capped(1_000, halves()), &halved),
        on("halved, cap 512", capped(512, halves()), &halved),
        on("halved, cap 1,023", capped(1_023, halves()), &halved),
    ]
}

/// A row of 64 nodes whose middle link fails with one half, and sixteen thresholds near it: above one half nothing is examined;
/// else the pairs with a node on each side are cut with one half. The two lists have 16 × 2,016 entries.
fn many() -> ByHand {
    let half = WHOLE / 2;
    let event = Event {
        probability: CERTAIN / 2,
        nodes: 0,
        links: 1 << 31,
    };
    let plan = Plan {
        nodes: 64,
        links: (1..64).map(|node| (node - 1, node)).collect(),
        events: vec![event],
        ..still()
    };
    let pairs = plan.pairs();
    let cut = |&(v, w): &(usize, usize)| [if v < 32 && 32 <= w { half } else { 0 }; 2];
    let block = |threshold: u64| match threshold > half {
        true => Block {
            threshold,
            totals: [0, 1, 0],
            bounds: vec![[0, WHOLE]; pairs.len()],
        },
        false => Block {
            threshold,
            totals: [2, 1, WHOLE],
            bounds: pairs.iter().map(cut).collect(),
        },
    };
    let thresholds: [u64; 16] = falling_by_one(half + 6);
    ByHand {
        name: "a row of 64 nodes",
        blocks: thresholds.map(block).into(),
        plan,
    }
}
