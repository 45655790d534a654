//! Demand 3: the exact sums over all 2^n sets of events, and the three inequalities; the exact downtime of a pair, and the
//! credit for it.

use std::collections::HashSet;

use crate::bounds::Bounds;
use crate::credit::{Contract, MINUTE_SECONDS};
use crate::plan::Plan;
use crate::readings::YEAR_SECONDS;
use crate::topology::{components, Out};
use crate::walk::walk;
use crate::wide::Wide;
use crate::{CERTAIN, WHOLE};

/// The sums of document 01 under "Bounds of a pair", in units of 10^-9n.
pub struct ExactSums {
    /// The number of events, n.
    pub events: usize,
    /// The number of examined scenarios.
    pub count: u64,
    /// D of each pair: all sets whose effective topology disconnects it.
    pub disconnected: Vec<Wide>,
    /// R: all sets whose scenario is not examined.
    pub not_examined: Wide,
    /// All sets together, 10^(9n).
    pub total: Wide,
}

/// The exact probability of a set of events.
pub fn probability(plan: &Plan, failing: u128) -> Wide {
    let factor = |(i, event): (usize, &crate::Event)| match failing >> i & 1 {
        1 => event.probability,
        _ => CERTAIN - event.probability,
    };
    let factors = plan.events.iter().enumerate().map(factor);
    factors.fold(Wide::from(1), Wide::times)
}

/// The exact sums of a plan with few events, D over the network without what is out.
pub fn exact_sums(plan: &Plan, out: Out) -> ExactSums {
    let examined: HashSet<u128> = walk(plan).examined.iter().map(|s| s.failing).collect();
    let pairs = plan.pairs();
    let mut sums = ExactSums {
        events: plan.events.len(),
        count: examined.len() as u64,
        disconnected: vec![Wide::default(); pairs.len()],
        not_examined: Wide::default(),
        total: Wide::default(),
    };
    for failing in 0..1u128 << plan.events.len() {
        let probability = probability(plan, failing);
        let components = components(plan, out, failing);
        for (sum, &(v, w)) in sums.disconnected.iter_mut().zip(&pairs) {
            if components.disconnects(v, w) {
                *sum = *sum + probability;
            }
        }
        if !examined.contains(&failing) {
            sums.not_examined = sums.not_examined + probability;
        }
        sums.total = sums.total + probability;
    }
    sums
}

impl ExactSums {
    /// A mass, or seconds, times 10^(9n).
    fn scaled(&self, number: u64) -> Wide {
        Wide::from(number).times_power(CERTAIN, self.events)
    }

    /// lower × 10^(9n) ≤ D × 10^18.
    pub fn lower_holds(&self, pair: usize, bounds: Bounds) -> bool {
        self.scaled(bounds.lower) <= self.disconnected[pair].times(WHOLE)
    }

    /// D × 10^18 ≤ upper × 10^(9n).
    pub fn upper_holds(&self, pair: usize, bounds: Bounds) -> bool {
        self.disconnected[pair].times(WHOLE) <= self.scaled(bounds.upper)
    }

    /// (upper − lower) × 10^(9n) ≤ R × 10^18 + n × count × 10^(9n).
    pub fn gap_holds(&self, bounds: Bounds) -> bool {
        let lost = self.scaled(self.count).times(self.events as u64);
        let gap = bounds.upper.checked_sub(bounds.lower);
        gap.is_some_and(|gap| self.scaled(gap) <= self.not_examined.times(WHOLE) + lost)
    }

    /// lower seconds × 10^(9n) ≤ D × 31,536,000 ≤ upper seconds × 10^(9n): the exact downtime of the pair lies between the two.
    pub fn downtime_holds(&self, pair: usize, lower: u64, upper: u64) -> bool {
        let exact = self.disconnected[pair].times(YEAR_SECONDS);
        self.scaled(lower) <= exact && exact <= self.scaled(upper)
    }

    /// The started minutes by which the exact downtime of the pair is above a limit of at most a year: the least whole
    /// number m with D × 31,536,000 ≤ (limit + 60 m) × 10^(9n). The minutes of a year are always enough.
    fn minutes_above(&self, pair: usize, limit: u64) -> u64 {
        let exact = self.disconnected[pair].times(YEAR_SECONDS);
        let enough = |minutes: u64| exact <= self.scaled(limit + MINUTE_SECONDS * minutes);
        let (mut least, mut most) = (0, YEAR_SECONDS / MINUTE_SECONDS);
        while least < most {
            let middle = (least + most) / 2;
            match enough(middle) {
                true => most = middle,
                false => least = middle + 1,
            }
        }
        least
    }

    /// The credit of a contract for the exact downtime of the pair.
    pub fn credit(&self, pair: usize, contract: &Contract) -> u64 {
        contract.for_minutes(self.minutes_above(pair, contract.limit))
    }

    /// The three inequalities of demand 3 for one pair.
    pub fn enclose(&self, pair: usize, bounds: Bounds) -> bool {
        self.lower_holds(pair, bounds) && self.upper_holds(pair, bounds) && self.gap_holds(bounds)
    }
}
