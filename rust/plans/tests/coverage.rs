//! The random plans meet the corners that the tests are meant to reach.

use account::topology::{effective, Out, Topology};
use account::walk::{walk, Walk};
use account::{Plan, CERTAIN, LARGEST_CAP, WHOLE};
use plans::valid::random_plan;
use plans::Rng;

/// A corner: its name, and whether a plan and its walk are in it.
type Corner = (&'static str, fn(&Plan, &Walk) -> bool);

fn some_event(plan: &Plan, test: impl Fn(u64) -> bool) -> bool {
    plan.events.iter().any(|event| test(event.probability))
}

fn parallel(plan: &Plan) -> bool {
    let mut links = plan.links.clone();
    links.sort_unstable();
    links.windows(2).any(|two| two[0] == two[1])
}

fn some_scenario(walk: &Walk, test: impl Fn(u128) -> bool) -> bool {
    walk.examined.iter().any(|scenario| test(scenario.failing))
}

fn at_the_threshold(plan: &Plan, walk: &Walk) -> bool {
    walk.examined.iter().any(|s| s.mass == plan.threshold)
}

const CORNERS: [Corner; 20] = [
    ("one node", |plan, _| plan.nodes == 1),
    ("no link", |plan, _| plan.links.is_empty() && plan.nodes > 1),
    ("no event", |plan, _| plan.events.is_empty()),
    ("parallel links", |plan, _| parallel(plan)),
    ("64 nodes, 128 links, 128 events", |plan, _| {
        (plan.nodes, plan.links.len(), plan.events.len()) == (64, 128, 128)
    }),
    ("q = 0", |plan, _| some_event(plan, |q| q == 0)),
    ("q = 10^9", |plan, _| some_event(plan, |q| q == CERTAIN)),
    ("equal q", |plan, _| {
        plan.events
            .windows(2)
            .any(|two| two[0].probability == two[1].probability)
    }),
    ("no member", |plan, _| {
        plan.events
            .iter()
            .any(|event| event.nodes == 0 && event.links == 0)
    }),
    ("t = 1", |plan, _| plan.threshold == 1),
    ("t = 10^18", |plan, _| plan.threshold == WHOLE),
    ("a mass equal to t", at_the_threshold),
    ("cap 1", |plan, _| plan.cap == 1),
    ("cap 1,000,000", |plan, _| plan.cap == LARGEST_CAP),
    ("as many ends as the cap", |plan, walk| {
        walk.ends == plan.cap && walk.complete
    }),
    ("more ends than the cap", |_, walk| !walk.complete),
    ("nothing examined", |_, walk| walk.examined.is_empty()),
    ("event 127 fails", |_, walk| {
        some_scenario(walk, |failing| failing >> 127 == 1)
    }),
    ("node 63 down", |plan, walk| {
        plan.nodes == 64 && some_scenario(walk, |failing| topology(plan, failing).nodes >> 63 == 0)
    }),
    ("link 127 down, its ends up", |plan, walk| {
        plan.links.len() == 128 && some_scenario(walk, |failing| lone_link_down(plan, failing))
    }),
];

/// The effective topology of a scenario with nothing out before the first event.
fn topology(plan: &Plan, failing: u128) -> Topology {
    effective(plan, Out::NOTHING, failing)
}

fn lone_link_down(plan: &Plan, failing: u128) -> bool {
    let topology = topology(plan, failing);
    let (first, second) = plan.links[127];
    let ends_up = topology.nodes >> first & topology.nodes >> second & 1 == 1;
    ends_up && topology.links >> 127 == 0
}

#[test]
fn every_corner_is_met() {
    let mut rng = Rng::for_stream(200);
    let mut met = [0u32; CORNERS.len()];
    for _ in 0..5_000 {
        let plan = random_plan(&mut rng);
        let walk = walk(&plan);
        for (count, (_, holds)) in met.iter_mut().zip(&CORNERS) {
            *count += u32::from(holds(&plan, &walk));
        }
    }
    for (count, (name, _)) in met.iter().zip(&CORNERS) {
        println!("{name}: {count}");
    }
    for (count, (name, _)) in met.iter().zip(&CORNERS) {
        assert!(*count > 0, "no plan with: {name}");
    }
}
