//! Write, run and pair on lent lists, valid and damaged, against the account.

use conformance::{compare, Tally};
use plans::damage::damaged_lists;
use plans::valid::random_plan;
use plans::{Lists, Rng};

const PLANS: usize = 20_000;

/// Random lists: half of them valid, with and without entries past the counts.
fn random_lists(rng: &mut Rng) -> Lists {
    let plan = random_plan(rng);
    match rng.below(4) {
        0 => Lists::of(&plan),
        1 => Lists::of(&plan).with_spare(rng),
        _ => damaged_lists(rng, &plan),
    }
}

/// Holds one call to the account on many lists, and all its answers to those expected.
fn compare_many(stream: u64, call: fn(&mut Rng, &Lists) -> u32, answers: &[u32]) {
    let mut rng = Rng::for_stream(stream);
    let mut tally = Tally::default();
    for _ in 0..PLANS {
        let lists = random_lists(&mut rng);
        tally.add(call(&mut rng, &lists));
    }
    tally.expect(answers.iter().copied());
}

#[test]
fn write_agrees() {
    compare_many(11, compare::write, &[0, 4, 5, 6, 7, 8, 9, 10, 12]);
}

#[test]
fn run_agrees() {
    compare_many(12, compare::run, &[0, 4, 5, 6, 7, 8, 9, 10, 12]);
}

#[test]
fn pair_agrees() {
    compare_many(13, compare::pair, &[0, 4, 5, 6, 7, 8, 9, 10, 12, 13]);
}
