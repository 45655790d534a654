//! Every split of a small plan's walk into two and into three parts, beside one go-on for all of it.

use account::topology::Out;
use account::walk::walk;
use account::{bounds, Event, Plan, LARGEST_CAP};
use plans::valid::{plan_of_size, SMALL};
use plans::Rng;

use crate::both::{Both, Quotas};
use crate::same;

/// Four nodes in a ring with a chord. The four events fail with 0.3, 0.2, 0.1 and 0.05. Of 16 scenarios 9 have 0.01 or more:
/// 0.4788, 0.0252, 0.0532, 0.1197, 0.0133, 0.2052, 0.0108, 0.0228, 0.0513. Where the first three fail, 0.006 is left before
/// the last is decided, so there are 15 ends.
fn ring() -> Plan {
    let event = |probability, nodes, links| Event {
        probability,
        nodes,
        links,
    };
    Plan {
        nodes: 4,
        links: vec![(0, 1), (1, 2), (2, 3), (0, 3), (0, 2)],
        events: vec![
            event(300_000_000, 0, 0b00011),
            event(200_000_000, 0, 0b01100),
            event(100_000_000, 0b0010, 0),
            event(50_000_000, 0, 0b10000),
        ],
        threshold: 10_000_000_000_000_000,
        cap: LARGEST_CAP,
    }
}

/// The walk of a plan gone on with in these parts, each beside the account.
fn in_parts(plan: &Plan, parts: &[u64]) -> Both {
    let mut both = Both::begin(plan);
    let mut quotas = Quotas::of(parts.iter().sum());
    for &k in parts {
        assert_eq!(both.go_on(&mut quotas, k), 0);
    }
    assert_eq!(quotas.words[0], 0, "{parts:?} of {plan:?}");
    both
}

/// Goes on with all that is left: the figures are those of the run.
fn expect_the_run(plan: &Plan, mut both: Both) {
    let mut quotas = Quotas::of(10_000_000);
    both.go_on(&mut quotas, plan.cap);
    assert_eq!(both.own.look_all(), bounds::run(plan, Out::NOTHING));
}

/// Every split of a walk into two parts and into three. A part may be 0, and the last end need not be reached.
fn split(plan: &Plan) {
    let ends = walk(plan).ends;
    for sum in 0..=ends {
        let whole = in_parts(plan, &[sum]);
        for first in 0..=sum {
            let two = in_parts(plan, &[first, sum - first]);
            assert!(same(&two.state, &whole.state), "{first} of {sum}: {plan:?}");
            expect_the_run(plan, two);
        }
    }
    let whole = in_parts(plan, &[ends]);
    for first in 0..=ends {
        for second in 0..=ends - first {
            let parts = [first, second, ends - first - second];
            let three = in_parts(plan, &parts);
            assert!(same(&three.state, &whole.state), "{parts:?} of {plan:?}");
            expect_the_run(plan, three);
        }
    }
}

/// A plan whose walk is complete, and the same with its cap at, below and above the number of its ends.
fn split_at_caps(plan: &Plan) {
    let all = walk(plan);
    assert!(all.complete && (10..=20).contains(&all.ends), "{plan:?}");
    for cap in [LARGEST_CAP, all.ends + 1, all.ends, all.ends - 1, 7] {
        let plan = Plan {
            cap,
            ..plan.clone()
        };
        split(&plan);
    }
}

#[test]
fn every_split_of_a_ring() {
    let all = walk(&ring());
    assert_eq!((all.ends, all.examined.len()), (15, 9));
    split_at_caps(&ring());
}

#[test]
fn every_split_of_random_plans() {
    let mut rng = Rng::for_stream(115);
    let mut found = 0;
    while found < 8 {
        let plan = Plan {
            cap: 21,
            ..plan_of_size(&mut rng, SMALL)
        };
        let all = walk(&plan);
        if all.complete && (10..=20).contains(&all.ends) && all.examined.len() > 3 {
            split_at_caps(&plan);
            found += 1;
        }
    }
}
