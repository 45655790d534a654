//! Plans with several thresholds, request U8, written down here with answers that were worked out by hand; and lists of
//! thresholds with the number that a call with them returns.

mod large;
mod refusals;
mod small;

use account::Plan;

pub use refusals::{numbered, RIGHT, WRONG};

/// A plan and what each of several thresholds gives for it. The plan's own threshold is not used.
pub struct ByHand {
    pub name: &'static str,
    pub plan: Plan,
    pub blocks: Vec<Block>,
}

/// What one threshold gives.
#[derive(Clone)]
pub struct Block {
    pub threshold: u64,
    /// Count, complete and E.
    pub totals: [u64; 3],
    /// Lower and upper of each pair.
    pub bounds: Vec<[u64; 2]>,
}

/// A list of thresholds for a plan of three nodes, the room of the two lists of bounds, and the number that a call with them
/// returns.
pub struct Numbered {
    pub name: &'static str,
    pub plan: Plan,
    pub thresholds: Vec<u64>,
    pub room: [usize; 2],
    pub number: u32,
}

/// What a call with some of the blocks' thresholds gives.
pub struct Expected {
    pub thresholds: Vec<u64>,
    /// Count, complete and E for each of the sixteen places.
    pub totals: [u64; 48],
    /// The entries of the two lists, block after block.
    pub bounds: [Vec<u64>; 2],
}

impl Expected {
    /// Of these blocks, in this order.
    pub fn of(blocks: &[Block]) -> Expected {
        let mut totals = [0; 48];
        for (place, block) in totals.chunks_exact_mut(3).zip(blocks) {
            place.copy_from_slice(&block.totals);
        }
        let list = |which: usize| {
            let bounds = blocks.iter().flat_map(|block| &block.bounds);
            bounds.map(|bounds| bounds[which]).collect()
        };
        Expected {
            thresholds: blocks.iter().map(|block| block.threshold).collect(),
            totals,
            bounds: [list(0), list(1)],
        }
    }

    /// The two lists after the call, where each has three entries more than there are bounds and held this in all of them.
    pub fn after(&self, before: u64) -> [Vec<u64>; 2] {
        let spare = [before; 3];
        self.bounds
            .each_ref()
            .map(|list| [list, &spare[..]].concat())
    }
}

impl ByHand {
    /// What the call with all thresholds gives.
    pub fn all(&self) -> Expected {
        Expected::of(&self.blocks)
    }

    /// What the call with each choice of some of the thresholds gives; where there are more than nine, only for each threshold
    /// alone and for each list without one of them.
    pub fn parts(&self) -> Vec<Expected> {
        let count = self.blocks.len();
        let choices: Vec<u32> = match count {
            0..=9 => (1..1 << count).collect(),
            _ => (0..count)
                .flat_map(|i| [1 << i, ((1 << count) - 1) ^ 1 << i])
                .collect(),
        };
        let chosen = |choice: u32| {
            let places = (0..count).filter(|i| choice >> i & 1 == 1);
            let blocks: Vec<Block> = places.map(|i| self.blocks[i].clone()).collect();
            Expected::of(&blocks)
        };
        choices.into_iter().map(chosen).collect()
    }
}

/// The calls of `small` and `large`.
pub fn by_hand() -> Vec<ByHand> {
    let mut all = small::calls();
    all.extend(large::calls());
    all
}

/// Count, complete and E, then lower and upper of each pair.
type Given<const N: usize> = ([u64; 3], [[u64; 2]; N]);

/// A plan with thresholds, by groups that give the same.
fn on<const N: usize>(name: &'static str, plan: Plan, groups: &[(&[u64], Given<N>)]) -> ByHand {
    let mut blocks = Vec::new();
    for &(thresholds, (totals, bounds)) in groups {
        blocks.extend(thresholds.iter().map(|&threshold| Block {
            threshold,
            totals,
            bounds: bounds.to_vec(),
        }));
    }
    ByHand { name, plan, blocks }
}

/// So many thresholds, each one below the one before.
fn falling_by_one<const N: usize>(first: u64) -> [u64; N] {
    std::array::from_fn(|i| first - i as u64)
}
