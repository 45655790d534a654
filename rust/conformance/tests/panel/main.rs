//! A run in parts, request U4: walks that are begun, gone on with and looked at, beside the account and beside answers that
//! were worked out by hand; and from damaged states.

mod begin;
mod both;
mod by_hand;
mod damage;
mod lists_of_k;
mod no_state;
mod place;
mod run;
mod short;
mod splits;

use account::Plan;
use conformance::panel;
use plans::Lists;

/// What a returned number holds before a call.
const UNSET: u64 = 0xdead_beef_dead_beef;

/// The words of a walk that was begun.
fn begun(plan: &Plan) -> Vec<u64> {
    let mut state = vec![UNSET; panel::walk_words()];
    let number = panel::begin(&Lists::of(plan).lent(), &mut state);
    assert_eq!(number, 0, "begin of {plan:?}");
    state
}

/// The words of a walk after a number of ends that it has.
fn walked(plan: &Plan, ends: u64) -> Vec<u64> {
    let mut state = begun(plan);
    assert_eq!(go_on(&mut state, &mut [ends], ends), (0, ends), "{plan:?}");
    state
}

/// Whether two walks hold the same but for the words of the stack, which may lie in other ways for the same ends to come.
fn same(one: &[u64], other: &[u64]) -> bool {
    let stack = place::STACK..place::SUMS;
    let differ = |&at: &usize| at != place::AT && !stack.contains(&at) && one[at] != other[at];
    one.len() == other.len() && !(0..one.len()).any(|at| differ(&at))
}

/// Goes on: the number, and the ends reached.
fn go_on(state: &mut [u64], quota: &mut [u64], k: u64) -> (u32, u64) {
    let mut reached = [UNSET];
    let number = panel::go_on(state, quota, k, &mut reached);
    (number, reached[0])
}

/// The number, then count, complete and E.
fn look(state: &[u64]) -> (u32, [u64; 3]) {
    let mut result = [UNSET; 3];
    let number = panel::look(state, &mut result);
    (number, result)
}

/// The number, then lower and upper.
fn look_pair(state: &[u64], v: u64, w: u64) -> (u32, [u64; 2]) {
    let mut result = [UNSET; 2];
    let number = panel::look_pair(state, v, w, &mut result);
    (number, result)
}

/// Lower and upper of every pair of so many nodes, as a look gives them.
fn all_bounds(state: &[u64], nodes: usize) -> Vec<[u64; 2]> {
    let pairs = account::plan::pairs(nodes).into_iter();
    let bounds = |(v, w)| match look_pair(state, v as u64, w as u64) {
        (0, bounds) => bounds,
        (number, _) => panic!("the pair {v}, {w} of {nodes} nodes: {number}"),
    };
    pairs.map(bounds).collect()
}
