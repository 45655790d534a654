//! Demand 3 for every block, by the exact sums over all 2^n sets.

use account::exact::exact_sums;
use account::topology::Out;
use account::Plan;
use conformance::{proved, Met};
use plans::falling::with_thresholds;
use plans::valid::{plan_of_size, Size};
use plans::{Lists, Rng};

/// D is the same in every block of a call, R and the count are those of its threshold. Where the gap of a block is too wide for
/// the R of a lower threshold, a block in the wrong place would be found.
#[test]
fn exact_sums_lie_between_in_every_block() {
    let size = Size {
        nodes: (2, 6),
        links: (0, 10),
        events: (0, 7),
    };
    let mut rng = Rng::for_stream(143);
    let mut met = Met::default();
    for _ in 0..5_000 {
        let plan = plan_of_size(&mut rng, size);
        let (plan, list) = with_thresholds(&mut rng, plan);
        let runs = proved::run_thresholds(&Lists::of(&plan), &list);
        let runs = runs.unwrap_or_else(|number| panic!("{number} for {list:?} of {plan:?}"));
        assert_eq!(runs.len(), list.len());
        let at = |threshold| {
            let plan = Plan {
                threshold,
                ..plan.clone()
            };
            exact_sums(&plan, Out::NOTHING)
        };
        let lowest = at(list[list.len() - 1]);
        for (&threshold, (outcome, bounds)) in list.iter().zip(runs) {
            let sums = at(threshold);
            assert_eq!(outcome.count, sums.count, "{threshold} of {plan:?}");
            for (pair, bound) in bounds.into_iter().enumerate() {
                let told = || format!("{bound:?} at {threshold} of {list:?} of {plan:?}");
                assert!(sums.enclose(pair, bound), "{}", told());
                met.count(&[
                    ("lower below upper", bound.lower < bound.upper),
                    ("lower above 0", bound.lower > 0),
                    ("a gap too wide for the lowest", !lowest.gap_holds(bound)),
                ]);
            }
        }
    }
    met.expect_each(1_000);
}
