//! A run in parts, request U4, by the account alone: answers that were worked out by hand, and lists of calls beside runs.

use account::bounds::{self, Bounds, Outcome};
use account::panel::{begin, Begun, Quota};
use account::topology::Out;
use account::{number, Plan};
use plans::valid::{plan_of_size, TINY};
use plans::walks::{by_hand, lists_of_calls, row, still};
use plans::{Lists, Rng};

fn begun(plan: &Plan) -> Begun {
    begin(&Lists::of(plan).lent()).expect("a plan that meets no refusal")
}

/// What a look shows, as numbers; each pair is looked at by itself too.
fn shown(walk: &Begun, plan: &Plan) -> ([u64; 3], Vec<[u64; 2]>) {
    let (outcome, bounds) = walk.look_all();
    assert_eq!(walk.look(), outcome);
    for ((v, w), &bound) in plan.pairs().into_iter().zip(&bounds) {
        assert_eq!(walk.look_pair(v as u64, w as u64), Ok(bound));
    }
    let Outcome {
        count,
        complete,
        mass,
    } = outcome;
    let words = |bound: &Bounds| [bound.lower, bound.upper];
    ([count, complete, mass], bounds.iter().map(words).collect())
}

#[test]
fn looks_by_hand() {
    for case in by_hand() {
        let mut walk = begun(&case.plan);
        let mut quota = Quota::FULL;
        assert_eq!(walk.left() + 1, case.shown.len() as u64, "{}", case.name);
        for (ends, expected) in case.shown.iter().enumerate() {
            assert_eq!(walk.reached(), ends as u64);
            let (totals, bounds) = shown(&walk, &case.plan);
            assert_eq!(totals, expected.totals, "{}, {ends}", case.name);
            assert_eq!(bounds, expected.bounds, "{}, {ends}", case.name);
            let more = u64::from(walk.left() > 0);
            assert_eq!(walk.go_on(&mut quota, 1), Ok(more), "{}", case.name);
        }
        assert_eq!(quota.left, 10_000_001 - case.shown.len() as u64);
    }
}

#[test]
fn lists_of_calls_by_hand() {
    for list in lists_of_calls() {
        let mut walks: Vec<Begun> = list.plans.iter().map(begun).collect();
        let mut quota = Quota { left: list.quota };
        for (i, call) in list.calls.iter().enumerate() {
            let before = walks.clone();
            let answer = walks[call.walk].go_on(&mut quota, call.k);
            assert_eq!(number(&answer), call.number, "{}, call {i}", list.name);
            let reached = answer.unwrap_or(0);
            assert_eq!(reached, call.reached, "{}, call {i}", list.name);
            assert_eq!(quota.left, call.left, "{}, call {i}", list.name);
            if reached == 0 {
                assert_eq!(walks, before, "{}, call {i}", list.name);
            }
        }
    }
}

#[test]
fn refusals_of_a_begin_and_of_a_pair() {
    let mut lists = Lists::of(&row(1, 100));
    lists.header.cap = 0;
    assert_eq!(number(&begin(&lists.lent())), 6);
    lists.header.threshold = 0;
    assert_eq!(number(&begin(&lists.lent())), 5);
    let walk = begun(&row(1, 100));
    for (v, w, expected) in [(0, 2, 0), (1, 2, 0), (0, 3, 13), (1, 1, 13), (2, 1, 13)] {
        assert_eq!(number(&walk.look_pair(v, w)), expected, "{v} {w}");
    }
    let far = u64::MAX;
    assert_eq!(number(&begun(&still()).look_pair(far, far)), 13);
}

/// One go-on with the plan's cap is the run.
#[test]
fn all_at_once_is_the_run() {
    let mut rng = Rng::for_stream(311);
    for _ in 0..500 {
        let plan = plan_of_size(&mut rng, TINY);
        let mut walk = begun(&plan);
        let mut quota = Quota::FULL;
        let reached = walk.go_on(&mut quota, plan.cap).expect("a full quota");
        assert_eq!(quota.left, 10_000_000 - reached);
        assert_eq!(walk.left(), 0, "{plan:?}");
        let run = bounds::run(&plan, Out::NOTHING);
        assert_eq!(walk.look_all(), run, "{plan:?}");
    }
}
