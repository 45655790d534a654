//! Scenarios: the split of mass, and the walk over its ends.

use crate::plan::Plan;
use crate::refusal::{demand, Refusal};
use crate::{CERTAIN, WHOLE};

/// The two parts of a mass split at an event.
#[derive(Clone, Copy, Debug, PartialEq, Eq)]
pub struct Parts {
    pub fails: u64,
    pub works: u64,
}

/// floor(mass × probability ÷ 10^9), over 128 bits.
fn share(mass: u64, probability: u64) -> u64 {
    (u128::from(mass) * u128::from(probability) / u128::from(CERTAIN)) as u64
}

/// The split: 16, then 8.
pub fn split(mass: u64, probability: u64) -> Result<Parts, Refusal> {
    demand(mass <= WHOLE, Refusal::Mass)?;
    demand(probability <= CERTAIN, Refusal::Probability)?;
    Ok(Parts {
        fails: share(mass, probability),
        works: share(mass, CERTAIN - probability),
    })
}

/// An examined scenario: its failing events (event i is bit i) and its final mass.
#[derive(Clone, Copy, Debug, PartialEq, Eq)]
pub struct Scenario {
    pub failing: u128,
    pub mass: u64,
}

/// What the walk gives: the examined scenarios in its order, the ends reached, and whether there are no more.
#[derive(Clone, Debug, PartialEq, Eq)]
pub struct Walk {
    pub examined: Vec<Scenario>,
    pub ends: u64,
    pub complete: bool,
}

impl Walk {
    /// E, the sum of the examined masses.
    pub fn mass(&self) -> u64 {
        self.examined.iter().map(|scenario| scenario.mass).sum()
    }

    /// One more end, or the finding that there are more of them than the cap.
    fn end(&mut self, cap: u64, relevant: Option<Scenario>) {
        if self.ends == cap {
            self.complete = false;
            return;
        }
        self.ends += 1;
        self.examined.extend(relevant);
    }

    /// The ends below one branch, at which the first `depth` events are decided.
    fn branch(&mut self, plan: &Plan, depth: usize, scenario: Scenario) {
        if !self.complete {
            return;
        }
        if scenario.mass < plan.threshold {
            return self.end(plan.cap, None);
        }
        let Some(event) = plan.events.get(depth) else {
            return self.end(plan.cap, Some(scenario));
        };
        let works = Scenario {
            failing: scenario.failing,
            mass: share(scenario.mass, CERTAIN - event.probability),
        };
        let fails = Scenario {
            failing: scenario.failing | 1 << depth,
            mass: share(scenario.mass, event.probability),
        };
        self.branch(plan, depth + 1, works);
        self.branch(plan, depth + 1, fails);
    }
}

/// The walk of a plan up to its cap.
pub fn walk(plan: &Plan) -> Walk {
    let mut walk = Walk {
        examined: Vec::new(),
        ends: 0,
        complete: true,
    };
    let root = Scenario {
        failing: 0,
        mass: WHOLE,
    };
    walk.branch(plan, 0, root);
    walk
}

/// The final mass of a set of failing events, split at every event.
pub fn final_mass(plan: &Plan, failing: u128) -> u64 {
    let mut mass = WHOLE;
    for (i, event) in plan.events.iter().enumerate() {
        let fails = failing >> i & 1 == 1;
        let probability = if fails {
            event.probability
        } else {
            CERTAIN - event.probability
        };
        mass = share(mass, probability);
    }
    mass
}
