//! Each block of a call beside the run on the same plan with its threshold.

use account::bounds::Outcome;
use account::file::parse;
use account::{Plan, LARGEST_CAP, WHOLE};
use conformance::compare::words;
use conformance::thresholds::{outcomes_of, run_thresholds};
use conformance::{probe, Met};
use plans::examples::files_with;
use plans::falling::with_thresholds;
use plans::valid::random_plan;
use plans::{Lists, Rng};

/// The runs at each threshold on the same two lists, one after another: what they leave there, and their totals.
fn one_by_one(plan: &Plan, list: &[u64], lower: &mut [u64], upper: &mut [u64]) -> Vec<Outcome> {
    let pairs = plan.pairs().len();
    let mut outcomes = Vec::new();
    for (i, &threshold) in list.iter().enumerate() {
        let lists = Lists::of(&Plan {
            threshold,
            ..plan.clone()
        });
        let (low, high) = (&mut lower[i * pairs..], &mut upper[i * pairs..]);
        let (refusal, totals) = probe::run(&lists.lent(), low, high);
        assert_eq!(refusal, 0, "the run at {threshold} of {plan:?}");
        outcomes.push(Outcome::of_words(totals));
    }
    outcomes
}

/// The one call on lists of random words beside those runs on the same words: totals, blocks and what is past the last of them.
fn compare(rng: &mut Rng, plan: &Plan, list: &[u64]) -> Vec<Outcome> {
    let room = plan.pairs().len() * list.len() + rng.below(40);
    let (mut lower, mut upper) = (words(rng, room), words(rng, room));
    let (mut own_lower, mut own_upper) = (lower.clone(), upper.clone());
    let outcomes = one_by_one(plan, list, &mut own_lower, &mut own_upper);
    let lists = Lists::of(plan);
    let (refusal, totals) = run_thresholds(&lists.lent(), list, &mut lower, &mut upper);
    let told = || format!("{list:?} of {plan:?}");
    assert_eq!(refusal, 0, "{}", told());
    let mut places = outcomes.clone();
    places.resize(16, Outcome::default());
    assert_eq!(outcomes_of(&totals).to_vec(), places, "{}", told());
    assert_eq!((lower, upper), (own_lower, own_upper), "{}", told());
    outcomes
}

/// Counts what the thresholds of a call show, and two that differ by 1 and give other totals.
fn count_thresholds(met: &mut Met, plan: &Plan, list: &[u64], totals: &[Outcome]) {
    let beside = |i: &usize| list[i - 1] - list[*i] == 1;
    let moved = |i: usize| totals[i - 1] != totals[i];
    let mut near = (1..list.len()).filter(beside).peekable();
    met.count(&[
        ("one threshold", list.len() == 1),
        ("two", list.len() == 2),
        ("sixteen", list.len() == 16),
        ("at 10^18", list[0] == WHOLE),
        ("at 1", list[list.len() - 1] == 1),
        ("two that differ by 1", near.peek().is_some()),
        ("and give other totals", near.any(moved)),
        ("cap 1", plan.cap == 1),
        ("cap 2", plan.cap == 2),
    ]);
}

/// Counts which walks stopped at the cap: the totals of the lowest threshold whose walk is complete beside those of the lowest of
/// all.
fn count_stops(met: &mut Met, totals: &[Outcome]) {
    let lowest = totals[totals.len() - 1];
    let mut complete = totals.iter().filter(|one| one.complete == 1);
    let (some, all) = (complete.clone().count(), totals.len());
    let higher = complete.next_back().copied().unwrap_or_default();
    let mixed = 0 < some && some < all;
    met.count(&[
        ("all complete", some == all),
        ("all stopped", some == 0),
        ("a low one stopped, a higher one complete", mixed),
        (
            "and the higher one has scenarios",
            mixed && higher.count > 1,
        ),
        (
            "and the low one more mass",
            mixed && lowest.mass > higher.mass,
        ),
        (
            "and the low one less mass",
            mixed && lowest.mass < higher.mass,
        ),
    ]);
}

#[test]
fn each_block_is_a_run() {
    let mut rng = Rng::for_stream(142);
    let mut met = Met::default();
    for _ in 0..20_000 {
        let plan = random_plan(&mut rng);
        let (plan, list) = with_thresholds(&mut rng, plan);
        let totals = compare(&mut rng, &plan, &list);
        count_thresholds(&mut met, &plan, &list, &totals);
        count_stops(&mut met, &totals);
    }
    met.expect_each(200);
}

/// The example files with sixteen thresholds, from 10^18 down to 10^3: walks of up to a million ends, fewer where there are many
/// pairs. The mesh of 28 nodes has 54,810 ends at 10^9.
#[test]
fn each_block_of_the_example_files_is_a_run() {
    let list: [u64; 16] = std::array::from_fn(|i| WHOLE / 10u64.pow(i as u32));
    let mut rng = Rng::for_stream(144);
    let mut met = Met::default();
    for path in files_with("plan") {
        let bytes = std::fs::read(path).expect("an example file");
        let Ok(plan) = parse(&bytes) else { continue };
        let most = if plan.nodes > 30 {
            100_000
        } else {
            LARGEST_CAP
        };
        for cap in [1, 2, 1_000, 54_810, most] {
            let plan = Plan {
                cap,
                ..plan.clone()
            };
            count_stops(&mut met, &compare(&mut rng, &plan, &list));
        }
    }
    met.expect_each(1);
}
