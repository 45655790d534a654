//! The walk over the ends, with an explicit stack.

use crate::pairs::{Failed, Network, Sums};
use crate::{Lists, Outcome, CERTAIN, WHOLE};

/// A pending branch: the events decided, its mass, and what has failed.
#[derive(Clone, Copy)]
struct Branch {
    depth: usize,
    mass: u64,
    failed: Failed,
}

/// The branch above event 0.
const ROOT: Branch = Branch {
    depth: 0,
    mass: WHOLE,
    failed: Failed {
        nodes: 0,
        links_low: 0,
        links_high: 0,
    },
};

/// The events of the walk, in an array of fixed length.
struct Events {
    count: usize,
    words: [[u64; 4]; 128],
}

impl Events {
    fn new(words: &[u64]) -> Events {
        let mut events = Events {
            count: words.len() / 4,
            words: [[0; 4]; 128],
        };
        for (event, words) in events.words.iter_mut().zip(words.chunks_exact(4)) {
            event.copy_from_slice(words);
        }
        events
    }
}

/// The run over all pairs of lists that meet every rule.
pub fn run(lists: &Lists, lower: &mut [u64], upper: &mut [u64]) -> Outcome {
    let network = Network::new(lists.nodes, lists.links);
    let events = Events::new(lists.events);
    let mut sums = [0; 2048];
    let outcome = walk(lists, &events, &network, &mut sums);
    let pairs = lists.nodes * (lists.nodes - 1) / 2;
    lower[..pairs].copy_from_slice(&sums[..pairs]);
    for (upper, sum) in upper[..pairs].iter_mut().zip(&sums) {
        *upper = WHOLE - outcome.mass + sum;
    }
    outcome
}

/// The parts "fails" and "works" of a mass.
#[inline(always)]
fn split(mass: u64, probability: u64) -> (u64, u64) {
    let (high, low) = (mass / CERTAIN, mass % CERTAIN);
    let rest = CERTAIN - probability;
    (
        high * probability + low * probability / CERTAIN,
        high * rest + low * rest / CERTAIN,
    )
}

/// The ends up to the cap; each examined mass goes to the pairs that its topology disconnects.
fn walk(lists: &Lists, events: &Events, network: &Network, sums: &mut Sums) -> Outcome {
    let mut stack = [ROOT; 129];
    let mut top = 1;
    let mut ends = 0;
    let (mut count, mut mass) = (0, 0);
    while top > 0 && ends < lists.cap {
        top -= 1;
        ends += 1;
        let mut branch = stack[top];
        while branch.mass >= lists.threshold {
            if branch.depth == events.count {
                count += 1;
                mass += branch.mass;
                network.add_disconnected(&branch.failed, branch.mass, sums);
                break;
            }
            let event = &events.words[branch.depth];
            let (fails, works) = split(branch.mass, event[0]);
            branch.depth += 1;
            stack[top] = Branch {
                depth: branch.depth,
                mass: fails,
                failed: Failed {
                    nodes: branch.failed.nodes | event[1],
                    links_low: branch.failed.links_low | event[2],
                    links_high: branch.failed.links_high | event[3],
                },
            };
            top += 1;
            branch.mass = works;
        }
    }
    Outcome {
        count,
        complete: u64::from(top == 0),
        mass,
    }
}
