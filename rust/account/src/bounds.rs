//! The bounds of every pair.

use crate::plan::Plan;
use crate::topology::{components, Out};
use crate::walk::{walk, Scenario, Walk};
use crate::WHOLE;

/// The bounds of one pair.
#[derive(Clone, Copy, Debug, PartialEq, Eq)]
pub struct Bounds {
    pub lower: u64,
    pub upper: u64,
}

/// What a run answers beside its lists.
#[derive(Clone, Copy, Debug, Default, PartialEq, Eq)]
pub struct Outcome {
    pub count: u64,
    pub complete: u64,
    pub mass: u64,
}

impl Outcome {
    /// The outcome of three words: count, complete and E.
    pub fn of_words([count, complete, mass]: [u64; 3]) -> Outcome {
        Outcome {
            count,
            complete,
            mass,
        }
    }

    /// The three words of an outcome.
    pub fn words(self) -> [u64; 3] {
        [self.count, self.complete, self.mass]
    }
}

/// The outcome of a walk.
pub fn outcome(walk: &Walk) -> Outcome {
    Outcome {
        count: walk.examined.len() as u64,
        complete: u64::from(walk.complete),
        mass: walk.mass(),
    }
}

/// The bounds of the given pairs over examined scenarios, with this out in each of them. Lower adds the masses that
/// disconnect the pair; upper is one whole less the masses that do not.
pub fn bounds_over(
    plan: &Plan,
    out: Out,
    examined: &[Scenario],
    pairs: &[(usize, usize)],
) -> Vec<Bounds> {
    let free = Bounds {
        lower: 0,
        upper: WHOLE,
    };
    let mut bounds = vec![free; pairs.len()];
    for scenario in examined {
        let components = components(plan, out, scenario.failing);
        for (bound, &(v, w)) in bounds.iter_mut().zip(pairs) {
            if components.disconnects(v, w) {
                bound.lower += scenario.mass;
            } else {
                bound.upper -= scenario.mass;
            }
        }
    }
    bounds
}

/// The run over all pairs of a plan, with this out in every scenario. The walk knows nothing of it.
pub fn run(plan: &Plan, out: Out) -> (Outcome, Vec<Bounds>) {
    let walk = walk(plan);
    let bounds = bounds_over(plan, out, &walk.examined, &plan.pairs());
    (outcome(&walk), bounds)
}

/// The bounds of one pair of a plan.
pub fn pair(plan: &Plan, v: usize, w: usize) -> Bounds {
    bounds_over(plan, Out::NOTHING, &walk(plan).examined, &[(v, w)])[0]
}
