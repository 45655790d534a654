//! Random plans that meet every rule.

use account::walk::{final_mass, walk};
use account::{Event, Plan, CERTAIN, LARGEST_CAP, WHOLE};

use crate::rng::Rng;

/// The ranges of the three counts.
#[derive(Clone, Copy)]
pub struct Size {
    pub nodes: (u64, u64),
    pub links: (u64, u64),
    pub events: (u64, u64),
}

const fn size(nodes: (u64, u64), links: (u64, u64), events: (u64, u64)) -> Size {
    Size {
        nodes,
        links,
        events,
    }
}

pub const TINY: Size = size((1, 4), (0, 5), (0, 5));
pub const SMALL: Size = size((2, 10), (0, 20), (0, 12));
pub const MIDDLE: Size = size((10, 64), (0, 80), (0, 60));
pub const FULL: Size = size((63, 64), (127, 128), (127, 128));

/// A random plan of any size, the small ones most often.
pub fn random_plan(rng: &mut Rng) -> Plan {
    let sizes = [
        TINY, TINY, TINY, TINY, SMALL, SMALL, SMALL, MIDDLE, MIDDLE, FULL,
    ];
    let size = rng.pick(&sizes);
    plan_of_size(rng, size)
}

/// A random plan within a size, whose walk is short enough for a test.
pub fn plan_of_size(rng: &mut Rng, size: Size) -> Plan {
    let nodes = rng.between(size.nodes.0, size.nodes.1) as usize;
    let links = random_links(rng, nodes, size);
    let count = rng.between(size.events.0, size.events.1) as usize;
    let events = random_events(rng, nodes, links.len(), count);
    let mut plan = Plan {
        nodes,
        links,
        events,
        threshold: 1,
        cap: 1,
    };
    plan.threshold = random_threshold(rng, &plan);
    plan.cap = random_cap(rng, &plan);
    plan
}

/// Links of a plan; one node has none.
fn random_links(rng: &mut Rng, nodes: usize, size: Size) -> Vec<(usize, usize)> {
    if nodes == 1 {
        return Vec::new();
    }
    let count = rng.between(size.links.0, size.links.1) as usize;
    links_between(rng, nodes, count)
}

/// Links between any of two nodes or more, between neighbours in a row, or parallel ones between the last two nodes.
pub fn links_between(rng: &mut Rng, nodes: usize, count: usize) -> Vec<(usize, usize)> {
    let kind = rng.below(8);
    let mut link = |i: usize| match kind {
        0 => (nodes - 2, nodes - 1),
        1..=3 if i + 1 < nodes => (i, i + 1),
        _ => {
            let second = 1 + rng.below(nodes - 1);
            (rng.below(second), second)
        }
    };
    (0..count).map(&mut link).collect()
}

/// Probabilities that never rise.
fn random_probabilities(rng: &mut Rng, count: usize) -> Vec<u64> {
    let equal = rng.between(0, CERTAIN);
    let small = rng.pick(&[10, 1_000, 100_000, 10_000_000]);
    let kind = rng.below(8);
    let mut one = |_| match kind {
        0 => equal,
        1 => rng.pick(&[0, CERTAIN]),
        2 => CERTAIN / 2,
        3 => rng.pick(&[0, 1, 2, CERTAIN / 2, CERTAIN - 1, CERTAIN]),
        4 | 5 => rng.between(0, small),
        _ => rng.between(0, CERTAIN),
    };
    let mut probabilities: Vec<u64> = (0..count).map(&mut one).collect();
    probabilities.sort_by(|a, b| b.cmp(a));
    probabilities
}

/// The lowest bits of a set, as many as there are elements.
fn first_bits(set: u128, count: usize) -> u128 {
    match count {
        128 => set,
        _ => set & ((1 << count) - 1),
    }
}

/// The elements of an event: none, one, the last ones, a few, half of them, or all.
pub(crate) fn random_members(rng: &mut Rng, nodes: usize, links: usize) -> (u64, u128) {
    let (node_set, link_set) = match rng.below(8) {
        0 => (0, 0),
        1 => (1 << rng.below(nodes), 0),
        2 | 3 if links > 0 => (0, 1 << rng.below(links)),
        4 if links > 0 => (1 << (nodes - 1), 1 << (links - 1)),
        5 => (rng.sparse_set(2), rng.sparse_set(2)),
        6 if rng.one_in(4) => (u128::MAX, u128::MAX),
        _ => (rng.sparse_set(40), rng.sparse_set(20)),
    };
    let nodes = first_bits(node_set, nodes) as u64;
    (nodes, first_bits(link_set, links))
}

fn random_events(rng: &mut Rng, nodes: usize, links: usize, count: usize) -> Vec<Event> {
    let probabilities = random_probabilities(rng, count);
    let mut event = |probability| {
        let (nodes, links) = random_members(rng, nodes, links);
        Event {
            probability,
            nodes,
            links,
        }
    };
    probabilities.into_iter().map(&mut event).collect()
}

/// A threshold at its limits, of any magnitude, or at the mass of some scenario or one above it.
pub(crate) fn random_threshold(rng: &mut Rng, plan: &Plan) -> u64 {
    let magnitude = 10u64.pow(rng.between(0, 18) as u32);
    match rng.below(8) {
        0 => 1,
        1 => rng.pick(&[WHOLE, WHOLE - 1, WHOLE / 2]),
        2 => rng.between(1, WHOLE),
        3 | 4 => magnitude,
        _ => {
            let failing = first_bits(rng.sparse_set(12), plan.events.len());
            let mass = final_mass(plan, failing);
            (mass + rng.between(0, 1)).clamp(1, WHOLE)
        }
    }
}

/// How many ends a test affords for a plan: fewer where there are many pairs.
pub(crate) fn affordable_ends(rng: &mut Rng, plan: &Plan) -> u64 {
    let work = plan.nodes * plan.nodes + 4 * plan.links.len() + 4 * plan.events.len() + 20;
    let effort = if rng.one_in(50) { 2_000_000 } else { 200_000 };
    effort / work as u64 + 1
}

/// A cap around the number of ends where the walk is short, else a small one.
fn random_cap(rng: &mut Rng, plan: &Plan) -> u64 {
    let most = affordable_ends(rng, plan);
    let trial = walk(&Plan {
        cap: most,
        ..plan.clone()
    });
    if !trial.complete {
        return rng.between(1, most);
    }
    let ends = trial.ends;
    match rng.below(6) {
        0 => ends,
        1 => (ends - 1).max(1),
        2 => ends + 1,
        3 => rng.between(1, ends),
        _ => LARGEST_CAP,
    }
}
