//! The twelve marked plans of document 01, and its listing.

use account::bounds::{run, Bounds, Outcome};
use account::readings::figure;
use account::topology::Out;
use account::walk::{split, Parts};
use account::{file, listing, Event, Lent, Plan, WHOLE};

const TENTH: u64 = 100_000_000;

/// N = 2 and one link 0-1, t = 1, cap = 100.
fn base() -> Plan {
    Plan {
        nodes: 2,
        links: vec![(0, 1)],
        events: vec![],
        threshold: 1,
        cap: 100,
    }
}

fn link_event(probability: u64, links: u128) -> Event {
    Event {
        probability,
        nodes: 0,
        links,
    }
}

/// The base plan with an event on the link.
fn base_with_event(probability: u64, threshold: u64) -> Plan {
    Plan {
        events: vec![link_event(probability, 1)],
        threshold,
        ..base()
    }
}

fn triangle() -> Plan {
    Plan {
        nodes: 3,
        links: vec![(0, 1), (0, 2), (1, 2)],
        events: (0..3).map(|link| link_event(1, 1 << link)).collect(),
        threshold: 1,
        cap: 100,
    }
}

/// Holds a plan of one pair to its count, complete and bounds.
#[track_caller]
fn expect(plan: &Plan, count: u64, complete: u64, lower: u64, upper: u64) {
    let (outcome, bounds) = run(plan, Out::NOTHING);
    assert_eq!((outcome.count, outcome.complete), (count, complete));
    assert_eq!(bounds, [Bounds { lower, upper }]);
    assert_eq!(upper - lower, WHOLE - outcome.mass);
}

#[test]
fn plan_1_no_link_no_event() {
    let plan = Plan {
        links: vec![],
        threshold: WHOLE,
        ..base()
    };
    expect(&plan, 1, 1, WHOLE, WHOLE);
}

#[test]
fn plans_2_and_3_the_threshold() {
    let tenth = WHOLE / 10;
    expect(&base_with_event(TENTH, tenth), 2, 1, tenth, tenth);
    expect(&base_with_event(TENTH, tenth + 1), 1, 1, 0, tenth);
}

#[test]
fn plan_4_the_cap() {
    let plan = Plan {
        cap: 1,
        ..base_with_event(TENTH, 1)
    };
    expect(&plan, 1, 0, 0, WHOLE / 10);
}

#[test]
fn plans_5_and_6_parallel_links() {
    let twin = Plan {
        links: vec![(0, 1), (0, 1)],
        ..base()
    };
    let together = Plan {
        events: vec![link_event(TENTH, 3)],
        ..twin.clone()
    };
    expect(&together, 2, 1, WHOLE / 10, WHOLE / 10);
    let apart = Plan {
        events: vec![link_event(TENTH, 1), link_event(TENTH, 2)],
        ..twin
    };
    expect(&apart, 4, 1, WHOLE / 100, WHOLE / 100);
}

#[test]
fn plan_7_an_event_without_members() {
    let plan = Plan {
        events: vec![link_event(TENTH, 0)],
        ..base()
    };
    expect(&plan, 2, 1, 0, 0);
}

#[test]
fn plan_8_a_node_that_surely_fails() {
    let event = Event {
        probability: account::CERTAIN,
        nodes: 1,
        links: 0,
    };
    let plan = Plan {
        events: vec![event],
        threshold: WHOLE,
        ..base()
    };
    expect(&plan, 1, 1, WHOLE, WHOLE);
}

#[test]
fn plan_9_nothing_examined() {
    let plan = base_with_event(5 * TENTH, WHOLE);
    expect(&plan, 0, 1, 0, WHOLE);
    let (links, events) = (plan.link_bytes(), plan.event_words());
    let lent = Lent {
        header: plan.header(),
        links: &links,
        events: &events,
    };
    assert_eq!(figure(&lent, 0, 1), Ok(None));
}

#[test]
fn plan_10_no_pairs() {
    let plan = Plan {
        nodes: 1,
        links: vec![],
        ..base()
    };
    let one = Outcome {
        count: 1,
        complete: 1,
        mass: WHOLE,
    };
    assert_eq!(run(&plan, Out::NOTHING), (one, vec![]));
}

#[test]
fn plan_11_a_split_of_one_unit() {
    assert_eq!(split(1, 1), Ok(Parts { fails: 0, works: 0 }));
}

#[test]
fn plan_12_the_triangle() {
    let text = "3 3 3 4 1 999999999999999996\n0 1 0 4\n0 2 0 4\n1 2 0 4\n";
    assert_eq!(listing::listing(&file::layout(&triangle())), text);
}

#[test]
fn halves_to_128_events_examine_nothing_at_every_cap() {
    for cap in [1, 1_000, 1_000_000] {
        let plan = Plan {
            events: vec![link_event(5 * TENTH, 1); 128],
            cap,
            ..base()
        };
        expect(&plan, 0, 0, 0, WHOLE);
    }
}
