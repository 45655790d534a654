//! The first witness: vectors worked out by hand, and every pair of small plans, where the first scenario is found without a walk.

use account::topology::{components, Out};
use account::walk::final_mass;
use account::{Event, Plan};
use conformance::readings;
use plans::valid::{plan_of_size, SMALL};
use plans::{Lists, Rng};

const HALF: u64 = 500_000_000;

const TENTH: u64 = 100_000_000;

/// One twentieth of one whole.
const TWENTIETH: u64 = 50_000_000_000_000_000;

fn event(probability: u64, nodes: u64, links: u128) -> Event {
    Event {
        probability,
        nodes,
        links,
    }
}

/// Two nodes and these links between them, with these events.
fn two_nodes(links: usize, events: Vec<Event>, threshold: u64, cap: u64) -> Plan {
    Plan {
        nodes: 2,
        links: vec![(0, 1); links],
        events,
        threshold,
        cap,
    }
}

/// The answer for the pair (0, 1).
fn witness(plan: &Plan) -> (u32, [u64; 2]) {
    readings::witness(&Lists::of(plan).lent(), 0, 1)
}

/// Two events on the only link. The four ends of the walk: nothing fails, 9/20; event 1 alone, 1/20; event 0 alone, 9/20;
/// both, 1/20. The first that cuts is event 1 alone, neither the likeliest nor the last.
#[test]
fn the_first_is_neither_the_likeliest_nor_the_last() {
    let on_link = |threshold, cap| {
        let events = vec![event(HALF, 0, 1), event(TENTH, 0, 1)];
        witness(&two_nodes(1, events, threshold, cap))
    };
    assert_eq!(on_link(1, 100), (0, [2, 0]));
    assert_eq!(on_link(1, 2), (0, [2, 0]));
    assert_eq!(on_link(1, 1), (14, [0, 0]));
    assert_eq!(on_link(TWENTIETH, 100), (0, [2, 0]));
    // Event 1 alone is dropped: it is the second end all the same, and event 0 alone the third.
    assert_eq!(on_link(TWENTIETH + 1, 100), (0, [1, 0]));
    assert_eq!(on_link(TWENTIETH + 1, 3), (0, [1, 0]));
    assert_eq!(on_link(TWENTIETH + 1, 2), (14, [0, 0]));
}

/// Nothing joins the two nodes, so every scenario cuts, and the first end is the witness.
#[test]
fn the_first_end_may_be_the_witness() {
    let events = vec![event(HALF, 0, 0), event(TENTH, 0, 0)];
    assert_eq!(witness(&two_nodes(0, events, 1, 100)), (0, [0, 0]));
}

/// Events 0 and 64 are on the link. Event 64 alone is the second end; as a number, event 0 alone is the smaller set.
#[test]
fn the_order_is_the_walks_and_not_that_of_numbers() {
    let mut events = vec![event(TENTH, 0, 0); 65];
    events[0].links = 1;
    events[64].links = 1;
    assert_eq!(witness(&two_nodes(1, events, 1, 100)), (0, [0, 1]));
}

/// Two links in parallel: events 0 and 2 on the first, event 1 on the second. Of the sets that cut, 3, 6 and 7, the walk
/// comes to 6 first (0, 4, 2, 6, 1, 5, 3, 7).
#[test]
fn both_links_have_to_fail() {
    let events = vec![event(HALF, 0, 1), event(HALF, 0, 2), event(TENTH, 0, 1)];
    assert_eq!(witness(&two_nodes(2, events, 1, 100)), (0, [6, 0]));
}

/// The place of a set in the walk: the first event decides first, and "works" comes before "fails".
fn place(set: u128) -> u128 {
    set.reverse_bits()
}

/// What the random pairs have to meet.
#[derive(Default, Debug)]
struct Met {
    none: u32,
    only_one: u32,
    several: u32,
    not_the_likeliest: u32,
    not_the_least_number: u32,
}

impl Met {
    /// Counts the sets that cut a pair, in any order, and the first of them.
    fn count(&mut self, plan: &Plan, cutting: &[u128], first: Option<u128>) {
        let mass = |set: u128| final_mass(plan, set);
        match (first, cutting.len()) {
            (None, _) => self.none += 1,
            (Some(_), 1) => self.only_one += 1,
            (Some(first), _) => {
                self.several += 1;
                let most = cutting.iter().map(|&set| mass(set)).max();
                self.not_the_likeliest += u32::from(Some(mass(first)) < most);
                self.not_the_least_number += u32::from(cutting.iter().any(|&set| set < first));
            }
        }
    }
}

/// A walk that the cap does not cut short examines the sets whose final mass is at least the threshold: of these, among
/// all 2^n, those that cut the pair, and of those the first by its place.
#[test]
fn the_first_of_all_sets() {
    let mut rng = Rng::for_stream(46);
    let mut met = Met::default();
    for _ in 0..1_500 {
        let mut plan = plan_of_size(&mut rng, SMALL);
        plan.cap = 1_000_000;
        let lists = Lists::of(&plan);
        let sets =
            (0..1u128 << plan.events.len()).filter(|&s| final_mass(&plan, s) >= plan.threshold);
        let topology = |set| (set, components(&plan, Out::NOTHING, set));
        let topologies: Vec<_> = sets.map(topology).collect();
        for (v, w) in plan.pairs() {
            let cuts = topologies
                .iter()
                .filter(|(_, topology)| topology.disconnects(v, w));
            let cutting: Vec<u128> = cuts.map(|&(set, _)| set).collect();
            let first = cutting.iter().copied().min_by_key(|&set| place(set));
            let expected = match first {
                Some(set) => (0, [set as u64, (set >> 64) as u64]),
                None => (14, [0; 2]),
            };
            let answer = readings::witness(&lists.lent(), v as u64, w as u64);
            assert_eq!(answer, expected, "{v} {w} of {plan:?}");
            met.count(&plan, &cutting, first);
        }
    }
    let counts = [
        met.none,
        met.only_one,
        met.several,
        met.not_the_likeliest,
        met.not_the_least_number,
    ];
    assert!(counts.iter().all(|&count| count >= 100), "{met:?}");
}
