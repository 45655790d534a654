//! Damage that leaves no state of a walk: a go-on then answers number 0 and 0 ends, and nothing changes.

use account::{Event, Plan, CERTAIN, LARGEST_CAP, WHOLE};

use crate::place::{
    AT, CAP, COUNT, EVENTS, EVENTS_COUNT, LINKS, LINKS_COUNT, MASS, NODES, REACHED, STACK, SUMS,
    THRESHOLD,
};
use crate::{all_bounds, go_on, look, look_pair, walked};

/// Five nodes in a row, an event for each link and one for a node, none dropped: 32 ends.
fn row() -> Plan {
    let event = |probability, nodes, links| Event {
        probability,
        nodes,
        links,
    };
    Plan {
        nodes: 5,
        links: vec![(0, 1), (1, 2), (2, 3), (3, 4)],
        events: vec![
            event(400_000_000, 0, 1),
            event(300_000_000, 0, 2),
            event(300_000_000, 0, 4),
            event(200_000_000, 0, 8),
            event(100_000_000, 4, 0),
        ],
        threshold: 1_000,
        cap: 30,
    }
}

/// The words of the row's walk after 11 ends; its stack is not empty.
fn half_way() -> Vec<u64> {
    let state = walked(&row(), 11);
    assert!(state[AT] < 512);
    state
}

/// The words with some of them replaced.
fn with(changes: &[(usize, u64)]) -> Vec<u64> {
    let mut state = half_way();
    for &(at, word) in changes {
        state[at] = word;
    }
    state
}

/// Damages by their names.
type Damages = Vec<(&'static str, Vec<u64>)>;

/// Numbers and lists that a begin would refuse.
fn of_the_plan() -> Damages {
    vec![
        ("no node", with(&[(NODES, 0)])),
        ("65 nodes", with(&[(NODES, 65)])),
        ("5 nodes in 32 bits", with(&[(NODES, 1 << 32 | 5)])),
        ("fewer nodes than ends of links", with(&[(NODES, 4)])),
        ("129 links", with(&[(LINKS_COUNT, 129)])),
        ("2^64 - 1 links", with(&[(LINKS_COUNT, u64::MAX)])),
        ("129 events", with(&[(EVENTS_COUNT, 129)])),
        ("2^63 events", with(&[(EVENTS_COUNT, 1 << 63)])),
        ("threshold 0", with(&[(THRESHOLD, 0)])),
        ("threshold above one whole", with(&[(THRESHOLD, WHOLE + 1)])),
        ("cap 0", with(&[(CAP, 0)])),
        ("cap above 1,000,000", with(&[(CAP, LARGEST_CAP + 1)])),
        ("a link end past the nodes", with(&[(LINKS + 7, 5)])),
        ("a link of one node", with(&[(LINKS, 1)])),
        (
            "a link with its ends exchanged",
            with(&[(LINKS, 1), (LINKS + 1, 0)]),
        ),
        ("a probability above 10^9", with(&[(EVENTS, CERTAIN + 1)])),
        (
            "a probability that rises",
            with(&[(EVENTS + 4, 400_000_001)]),
        ),
        ("a node past the nodes", with(&[(EVENTS + 1, 1 << 5)])),
        ("a link past the links", with(&[(EVENTS + 2, 1 << 4)])),
        ("a link past 63", with(&[(EVENTS + 19, 1)])),
    ]
}

/// Numbers of the walk that do not go together.
fn of_the_walk() -> Damages {
    let state = half_way();
    let last_pair = SUMS + 9;
    vec![
        ("at = 3", with(&[(AT, 3)])),
        ("at = 510", with(&[(AT, 510)])),
        ("at = 511", with(&[(AT, 511)])),
        ("at = 513", with(&[(AT, 513)])),
        ("at = 516", with(&[(AT, 516)])),
        ("at = 2^63", with(&[(AT, 1 << 63)])),
        ("at = 2^64 - 4", with(&[(AT, u64::MAX - 3)])),
        ("one end more than the cap", with(&[(REACHED, 31)])),
        ("2^64 - 1 ends", with(&[(REACHED, u64::MAX)])),
        ("more scenarios than ends", with(&[(COUNT, 12)])),
        ("2^64 - 1 scenarios", with(&[(COUNT, u64::MAX)])),
        ("a mass above one whole", with(&[(MASS, WHOLE + 1)])),
        ("a mass of 2^64 - 1", with(&[(MASS, u64::MAX)])),
        ("one whole, and branches pending", with(&[(MASS, WHOLE)])),
        ("a sum above the mass", with(&[(SUMS, state[MASS] + 1)])),
        (
            "the last sum above the mass",
            with(&[(last_pair, state[MASS] + 1)]),
        ),
        ("a sum of 2^64 - 1", with(&[(SUMS + 4, u64::MAX)])),
    ]
}

/// Entries of the stack that no walk has.
fn of_the_stack() -> Damages {
    let state = half_way();
    let next = STACK + state[AT] as usize;
    let depth = state[next];
    assert!((1..=5).contains(&depth), "a branch is next on the stack");
    vec![
        ("a depth above the number of events", with(&[(next, 6)])),
        ("a depth of 128", with(&[(next, 128)])),
        ("a mass above one whole", with(&[(next + 1, WHOLE + 1)])),
        ("a mass of 2^64 - 1", with(&[(next + 1, u64::MAX)])),
        ("an event past the depth", with(&[(next + 2, 1 << depth)])),
        ("an event past 63", with(&[(next + 3, 1)])),
        ("no dropped end", with(&[(next, 129), (next + 1, 0)])),
        ("the last entry too deep", with(&[(STACK + 508, 6)])),
    ]
}

#[test]
fn the_walk_goes_on_where_it_is_not_damaged() {
    let mut quota = [100];
    assert_eq!(go_on(&mut half_way(), &mut quota, 5), (0, 5));
    assert_eq!(quota, [95]);
    assert_eq!(go_on(&mut half_way(), &mut [0], 5), (19, 0));
    assert_eq!(go_on(&mut half_way(), &mut [100], 100), (0, 19));
}

#[test]
fn no_state_no_end() {
    let damages = [of_the_plan(), of_the_walk(), of_the_stack()];
    for (name, state) in damages.into_iter().flatten() {
        for (k, left) in [(5, 100), (1, 1), (u64::MAX, 100), (5, 0), (0, 100)] {
            let (mut after, mut quota) = (state.clone(), [left]);
            let answer = go_on(&mut after, &mut quota, k);
            assert_eq!((answer, quota), ((0, 0), [left]), "{name}, {k} of {left}");
            assert!(after == state, "{name}: words changed");
        }
    }
}

/// A look goes by what it shows: damage to links, events and stack changes nothing in it.
#[test]
fn a_look_does_not_see_the_rest() {
    let right = half_way();
    let (totals, bounds) = (look(&right), all_bounds(&right, 5));
    let of_lists = of_the_plan()
        .into_iter()
        .filter(|(_, state)| state[..9] == right[..9]);
    let mut seen = 0;
    for (name, state) in of_lists.chain(of_the_stack()) {
        assert_eq!(look(&state), totals, "{name}");
        assert_eq!(all_bounds(&state, 5), bounds, "{name}");
        seen += 1;
    }
    assert!(seen >= 12, "{seen} damages");
}

/// Nothing is known of a pair where the node count, the mass or its own sum is not sound; of the others all is as before.
#[test]
fn bounds_that_are_not_known() {
    let unknown = (0, [0, WHOLE]);
    let right = half_way();
    let bounds = all_bounds(&right, 5);
    let mut state = with(&[(SUMS, right[MASS] + 1)]);
    assert_eq!(look_pair(&state, 0, 1), unknown);
    assert_eq!(look_pair(&state, 0, 2), (0, bounds[1]));
    state[SUMS + 9] = u64::MAX;
    assert_eq!(look_pair(&state, 3, 4), unknown);
    assert_eq!(look_pair(&state, 2, 4), (0, bounds[8]));
    for mass in [WHOLE + 1, 1 << 63, u64::MAX] {
        let state = with(&[(MASS, mass)]);
        assert_eq!(all_bounds(&state, 5), vec![[0, WHOLE]; 10], "{mass}");
    }
    for nodes in [65, 1 << 32 | 5, u64::MAX] {
        let state = with(&[(NODES, nodes)]);
        assert_eq!(all_bounds(&state, 5), vec![[0, WHOLE]; 10], "{nodes}");
        assert_eq!(look_pair(&state, 63, 64), unknown, "{nodes}");
        assert_eq!(look_pair(&state, nodes - 2, nodes - 1), unknown, "{nodes}");
        assert_eq!(look_pair(&state, nodes - 1, nodes), (13, [0, 0]));
        assert_eq!(look_pair(&state, 1, 1), (13, [0, 0]));
    }
    let none = with(&[(NODES, 0)]);
    assert_eq!(look_pair(&none, 0, 1), (13, [0, 0]));
}
