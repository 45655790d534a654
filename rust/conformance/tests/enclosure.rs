//! Demand 3 on the bounds that the run returned, and the downtimes of these bounds, against the sums over all 2^n sets.

use account::bounds::Bounds;
use account::exact::exact_sums;
use account::topology::Out;
use account::Plan;
use conformance::{probe, readings};
use plans::valid::{plan_of_size, Size};
use plans::{Lists, Rng};

/// The three inequalities for every pair of a plan, and that its exact downtime lies between the two in seconds.
fn expect_enclosed(plan: &Plan) {
    let pairs = plan.pairs().len();
    let (mut lower, mut upper) = (vec![0; pairs], vec![0; pairs]);
    let (refusal, result) = probe::run(&Lists::of(plan).lent(), &mut lower, &mut upper);
    assert_eq!(refusal, 0);
    let sums = exact_sums(plan, Out::NOTHING);
    assert_eq!(result[0], sums.count, "count of {plan:?}");
    for (pair, (&lower, &upper)) in lower.iter().zip(&upper).enumerate() {
        let bounds = Bounds { lower, upper };
        assert!(sums.lower_holds(pair, bounds), "{bounds:?} of {plan:?}");
        assert!(sums.upper_holds(pair, bounds), "{bounds:?} of {plan:?}");
        assert!(sums.gap_holds(bounds), "{bounds:?} of {plan:?}");
        let (refusal, [low, high]) = readings::downtime(lower, upper);
        let enclosed = refusal == 0 && sums.downtime_holds(pair, low, high);
        assert!(enclosed, "{low} and {high} s for {bounds:?} of {plan:?}");
    }
}

fn enclose_many(stream: u64, count: usize, size: Size) {
    let mut rng = Rng::for_stream(stream);
    for _ in 0..count {
        let plan = plan_of_size(&mut rng, size);
        expect_enclosed(&plan);
    }
}

#[test]
fn few_events() {
    let size = Size {
        nodes: (2, 8),
        links: (0, 14),
        events: (0, 7),
    };
    enclose_many(21, 10_000, size);
}

#[test]
fn up_to_twelve_events() {
    let size = Size {
        nodes: (2, 6),
        links: (1, 12),
        events: (8, 12),
    };
    enclose_many(22, 1_000, size);
}

#[test]
fn many_nodes() {
    let size = Size {
        nodes: (50, 64),
        links: (50, 128),
        events: (4, 9),
    };
    enclose_many(23, 100, size);
}
