//! A run in parts: request U4 of document 02. One call begins a walk, another goes on with it for at most k ends.
//!
//! A walk is kept as its plan and the number of ends that it reached. What a look shows is taken anew each time, by a
//! run of the plan whose cap is that number.

use crate::bounds::{self, Bounds, Outcome};
use crate::calls::test_pair;
use crate::plan::{Lent, Plan};
use crate::refusal::{demand, Refusal};
use crate::topology::Out;
use crate::walk::walk;
use crate::WHOLE;

/// What is left of the ends that all go-on calls may reach.
#[derive(Clone, Copy, Debug, PartialEq, Eq)]
pub struct Quota {
    pub left: u64,
}

impl Quota {
    /// The quota at power-up: 10,000,000 ends.
    pub const FULL: Quota = Quota { left: 10_000_000 };
}

/// A walk that was begun: its plan, how many ends it has under the plan's cap, and how many of them it reached.
#[derive(Clone, Debug, PartialEq, Eq)]
pub struct Begun {
    plan: Plan,
    ends: u64,
    reached: u64,
}

/// Begins a walk: the tests of the lists.
pub fn begin(lent: &Lent) -> Result<Begun, Refusal> {
    let plan = lent.plan()?;
    let ends = walk(&plan).ends;
    Ok(Begun {
        plan,
        ends,
        reached: 0,
    })
}

impl Begun {
    /// Goes on for at most k ends and returns how many it reached. An ended walk, or k = 0: nothing changes. Then 19 where
    /// the quota is empty.
    pub fn go_on(&mut self, quota: &mut Quota, k: u64) -> Result<u64, Refusal> {
        if self.left() == 0 || k == 0 {
            return Ok(0);
        }
        demand(quota.left > 0, Refusal::Quota)?;
        let more = k.min(self.left()).min(quota.left);
        self.reached += more;
        quota.left -= more;
        Ok(more)
    }

    /// The ends that the walk still has under the plan's cap.
    pub fn left(&self) -> u64 {
        self.ends - self.reached
    }

    /// The ends reached so far.
    pub fn reached(&self) -> u64 {
        self.reached
    }

    /// The plan with the number of ends reached for its cap; none at 0 ends.
    fn so_far(&self) -> Option<Plan> {
        (self.reached > 0).then(|| Plan {
            cap: self.reached,
            ..self.plan.clone()
        })
    }

    /// Count, complete and E, and the bounds of every pair.
    pub fn look_all(&self) -> (Outcome, Vec<Bounds>) {
        match self.so_far() {
            Some(plan) => bounds::run(&plan, Out::NOTHING),
            None => (NOTHING, vec![UNKNOWN; self.plan.pairs().len()]),
        }
    }

    /// Count, complete and E.
    pub fn look(&self) -> Outcome {
        match self.so_far() {
            Some(plan) => bounds::outcome(&walk(&plan)),
            None => NOTHING,
        }
    }

    /// The bounds of one pair, or 13.
    pub fn look_pair(&self, v: u64, w: u64) -> Result<Bounds, Refusal> {
        let (v, w) = test_pair(self.plan.nodes, v, w)?;
        Ok(match self.so_far() {
            Some(plan) => bounds::pair(&plan, v, w),
            None => UNKNOWN,
        })
    }
}

/// Count, complete and E at 0 ends.
const NOTHING: Outcome = Outcome {
    count: 0,
    complete: 0,
    mass: 0,
};

/// The bounds of a pair at 0 ends.
const UNKNOWN: Bounds = Bounds {
    lower: 0,
    upper: WHOLE,
};
