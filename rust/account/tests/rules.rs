//! Rules of document 01 that the marked plans leave out.

use account::exact::exact_sums;
use account::readings::{downtime, float_of, topologies, witness};
use account::topology::Out;
use account::walk::{final_mass, split, walk};
use account::{bounds, calls, file, number, Event, Lent, Plan, Refusal, CERTAIN, WHOLE};

/// Three nodes in a row, each link and the middle node with an event.
fn row() -> Plan {
    let event = |probability, nodes, links| Event {
        probability,
        nodes,
        links,
    };
    Plan {
        nodes: 3,
        links: vec![(0, 1), (1, 2)],
        events: vec![
            event(300_000_000, 0, 1),
            event(200_000_000, 0, 2),
            event(1, 2, 0),
        ],
        threshold: 1,
        cap: 1_000,
    }
}

fn with_lists<T>(plan: &Plan, call: impl Fn(&Lent) -> T) -> T {
    let (links, events) = (plan.link_bytes(), plan.event_words());
    call(&Lent {
        header: plan.header(),
        links: &links,
        events: &events,
    })
}

#[test]
fn the_longest_plan_has_50068_bytes() {
    let event = Event {
        probability: 5,
        nodes: u64::MAX,
        links: u128::MAX,
    };
    let plan = Plan {
        nodes: 64,
        links: vec![(62, 63); 128],
        events: vec![event; 128],
        ..row()
    };
    let mut bytes = file::layout(&plan);
    assert_eq!(bytes.len(), 50_068);
    assert_eq!(file::parse(&bytes), Ok(plan));
    let last_count = bytes.len() - 2 * 192 - 1;
    bytes[last_count] = 255;
    for (more, refusal) in [(0, 1), (1, 1), (2, 10), (1_000, 10)] {
        let mut longer = bytes.clone();
        longer.resize(bytes.len() + more, 0);
        assert_eq!(calls::check(&longer), refusal);
    }
}

#[test]
fn a_link_is_down_with_its_end_node() {
    let plan = Plan {
        threshold: WHOLE,
        events: vec![Event {
            probability: CERTAIN,
            nodes: 2,
            links: 0,
        }],
        ..row()
    };
    with_lists(&plan, |lent| {
        let mut list = [9; 7];
        assert_eq!(topologies(lent, &mut list), Ok(1));
        assert_eq!(list, [0b101, 0, 0, WHOLE, 9, 9, 9]);
        assert_eq!(witness(lent, 0, 2), Ok(1));
    });
}

#[test]
fn a_full_topology_list_holds_what_came_before() {
    with_lists(&row(), |lent| {
        let mut list = [7; 6];
        assert_eq!(topologies(lent, &mut list), Err(Refusal::ListFull));
        let first = walk(&row()).examined[0].mass;
        assert_eq!(list, [0b111, 0b11, 0, first, 7, 7]);
        assert_eq!(topologies(lent, &mut [0; 3]), Err(Refusal::ListFull));
    });
}

#[test]
fn the_walk_hands_out_final_masses() {
    let plan = row();
    let walk = walk(&plan);
    assert_eq!(walk.examined.len(), 8);
    for scenario in &walk.examined {
        assert_eq!(scenario.mass, final_mass(&plan, scenario.failing));
    }
    let order: Vec<u128> = walk.examined.iter().map(|s| s.failing).collect();
    assert_eq!(order, [0, 4, 2, 6, 1, 5, 3, 7]);
}

/// In the order of the walk, 0, 4, 2, 6, 1, .., the first set that cuts is event 2 alone, the least likely one; where the
/// threshold drops it, the first that is left.
#[test]
fn the_witness_is_the_first_of_the_walk() {
    with_lists(&row(), |lent| {
        assert_eq!(witness(lent, 0, 2), Ok(4));
        assert_eq!(witness(lent, 0, 1), Ok(4));
    });
    let above = Plan {
        threshold: 560_000_001,
        ..row()
    };
    with_lists(&above, |lent| {
        assert_eq!(witness(lent, 0, 2), Ok(2));
        assert_eq!(witness(lent, 0, 1), Ok(1));
    });
    let short = Plan { cap: 1, ..row() };
    with_lists(&short, |lent| {
        assert_eq!(witness(lent, 0, 2), Err(Refusal::NoWitness));
    });
}

#[test]
fn exact_sums_enclose_the_bounds_and_only_those() {
    let plan = row();
    let sums = exact_sums(&plan, Out::NOTHING);
    assert_eq!(
        sums.total,
        account::wide::Wide::from(1).times_power(CERTAIN, 3)
    );
    for (pair, bound) in bounds::run(&plan, Out::NOTHING).1.into_iter().enumerate() {
        assert!(sums.enclose(pair, bound));
        let lower = bound.upper + 1;
        assert!(!sums.lower_holds(pair, bounds::Bounds { lower, ..bound }));
        let upper = bound.lower - 1;
        assert!(!sums.upper_holds(pair, bounds::Bounds { upper, ..bound }));
        let free = bounds::Bounds {
            lower: 0,
            upper: WHOLE,
        };
        assert!(!sums.gap_holds(free));
        let (lower, upper) = downtime(bound.lower, bound.upper).expect("bounds");
        assert!(sums.downtime_holds(pair, lower, upper));
        assert!(!sums.downtime_holds(pair, upper + 1, upper + 1));
        assert!(!sums.downtime_holds(pair, lower - 1, lower - 1));
    }
}

#[test]
fn a_float_of_mass_rounds_once() {
    for mass in [0, 1, CERTAIN - 1, WHOLE - 1, WHOLE, 123_456_789_987_654_321] {
        assert_eq!(float_of(mass), mass as f64);
    }
}

/// A second is 10^18 ÷ 31,536,000 = 31,709,791,983.76.. units, and 1,971 seconds are 62,500,000,000,000.
#[test]
fn a_downtime_is_rounded_down_and_up() {
    let cases = [
        (0, (0, 0)),
        (1, (0, 1)),
        (4, (0, 1)),
        (31_709_791_983, (0, 1)),
        (31_709_791_984, (1, 2)),
        (62_500_000_000_000, (1_971, 1_971)),
        (WHOLE - 1, (31_535_999, 31_536_000)),
        (WHOLE, (31_536_000, 31_536_000)),
    ];
    for (mass, seconds) in cases {
        assert_eq!(downtime(mass, mass), Ok(seconds));
    }
}

#[test]
fn refusals_of_numbers() {
    assert_eq!(number(&split(WHOLE + 1, CERTAIN + 1)), 16);
    assert_eq!(number(&split(WHOLE, CERTAIN + 1)), 8);
    assert_eq!(number(&downtime(WHOLE + 1, 0)), 16);
    assert_eq!(number(&downtime(0, WHOLE + 1)), 16);
    with_lists(&row(), |lent| {
        assert_eq!(number(&calls::pair(lent, 1, 1)), 13);
        assert_eq!(number(&calls::pair(lent, 0, 3)), 13);
    });
    let still = Plan {
        events: vec![],
        ..row()
    };
    with_lists(&still, |lent| {
        assert_eq!(number(&witness(lent, 0, 1)), 14);
    });
}
