//! Random plans with lists of thresholds, strictly falling, valid and damaged.

use std::collections::BTreeSet;

use account::walk::{final_mass, walk};
use account::{Plan, CERTAIN, LARGEST_CAP, WHOLE};

use crate::rng::Rng;
use crate::valid::{affordable_ends, random_threshold};

/// A plan with thresholds that meet no refusal, and with another cap: see `cap_for`. Its own threshold is not used.
pub fn with_thresholds(rng: &mut Rng, plan: Plan) -> (Plan, Vec<u64>) {
    let thresholds = random_thresholds(rng, &plan);
    let cap = cap_for(rng, &plan, &thresholds);
    (Plan { cap, ..plan }, thresholds)
}

/// One to sixteen thresholds: at both limits, one beside another, parts of the one before, at the mass of some scenario, and such
/// as random plans have.
fn random_thresholds(rng: &mut Rng, plan: &Plan) -> Vec<u64> {
    let count = rng.pick(&[1, 1, 2, 2, 2, 3, 4, 5, 8, 10, 15, 16, 16]);
    let part = rng.pick(&[2, 3, 10, 1_000]);
    let mut rising = BTreeSet::new();
    let mut before = likely_mass(rng, plan);
    while rising.len() < count {
        rising.insert(before);
        before = match rng.below(12) {
            0 => rng.pick(&[1, WHOLE]),
            1 => (before + 1).min(WHOLE),
            2 => (before - 1).max(1),
            3..=5 => (before / part).max(1),
            6 | 7 => random_threshold(rng, plan),
            _ => likely_mass(rng, plan),
        };
    }
    rising.into_iter().rev().collect()
}

/// The mass of a scenario in which few events do what is less likely, or one above it.
fn likely_mass(rng: &mut Rng, plan: &Plan) -> u64 {
    let mut failing = rng.sparse_set(8);
    for (i, event) in plan.events.iter().enumerate() {
        failing ^= u128::from(event.probability > CERTAIN / 2) << i;
    }
    let mass = final_mass(plan, failing);
    (mass + rng.between(0, 1)).clamp(1, WHOLE)
}

/// A cap at which walks at low thresholds stop and those at higher ones go on: most often the number of ends of the walk at one
/// of them, or one beside it; sometimes 1 or 2, or the largest where every walk is short.
fn cap_for(rng: &mut Rng, plan: &Plan, thresholds: &[u64]) -> u64 {
    let most = affordable_ends(rng, plan) / thresholds.len() as u64 + 2;
    let at = |threshold| {
        let mut trial = plan.clone();
        (trial.threshold, trial.cap) = (threshold, most);
        walk(&trial)
    };
    let ends = at(rng.pick(thresholds)).ends;
    let lowest = at(thresholds[thresholds.len() - 1]);
    match rng.below(16) {
        0 => 1,
        1 => 2,
        2 | 3 => (ends - 1).max(1),
        4 | 5 => ends + 1,
        6 | 7 => rng.between(1, lowest.ends),
        8 | 9 if lowest.complete => LARGEST_CAP,
        _ => ends,
    }
}

/// Thresholds with one or two damages, of which the last one holds: none, too many, one outside 1 to 10^18, one that does not
/// fall.
pub fn damaged_thresholds(rng: &mut Rng, mut thresholds: Vec<u64>) -> Vec<u64> {
    for _ in 0..rng.between(1, 2) {
        match rng.below(4) {
            0 => thresholds.clear(),
            1 => thresholds = too_many(rng),
            2 => put_outside(rng, &mut thresholds),
            _ => raise_one(rng, &mut thresholds),
        }
    }
    thresholds
}

/// More than sixteen thresholds that fall as they should.
fn too_many(rng: &mut Rng) -> Vec<u64> {
    let count = rng.pick(&[17, 17, 17, 18, 32, 40]);
    let step = rng.pick(&[1, 1_000, WHOLE / count]);
    (1..=count).rev().map(|i| i * step).collect()
}

/// One of the thresholds outside 1 to 10^18: the first above it or the last at 0, so that all still fall, or any.
fn put_outside(rng: &mut Rng, thresholds: &mut Vec<u64>) {
    let above = rng.pick(&[WHOLE + 1, WHOLE + 1, 1 << 63, u64::MAX]);
    if thresholds.is_empty() {
        thresholds.push(1);
    }
    let last = thresholds.len() - 1;
    match rng.below(4) {
        0 => thresholds[0] = above,
        1 | 2 => thresholds[last] = 0,
        _ => thresholds[rng.below(last + 1)] = rng.pick(&[0, above]),
    }
}

/// One of the thresholds at the one before or above it, or all of them in rising order. A list without a second one gets one.
fn raise_one(rng: &mut Rng, thresholds: &mut Vec<u64>) {
    while thresholds.len() < 2 {
        thresholds.push(1);
    }
    let at = 1 + rng.below(thresholds.len() - 1);
    let before = thresholds[at - 1];
    match rng.below(4) {
        0 => thresholds.sort_unstable(),
        1 => thresholds[at] = before.saturating_add(1),
        2 => thresholds[at] = before.max(WHOLE),
        _ => thresholds[at] = before,
    }
}
