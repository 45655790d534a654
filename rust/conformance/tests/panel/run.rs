//! A begin and one go-on are the run; and a walk is all in its words.

use account::panel::begin as own_begin;
use conformance::compare::words;
use conformance::panel::walk_words;
use conformance::{panel, proved};
use plans::valid::random_plan;
use plans::{Lists, Rng};

use crate::both::{Both, Quotas};
use crate::{all_bounds, begun, go_on, look, UNSET};

/// Entries past the counts of half of the lists change nothing.
#[test]
fn a_begin_and_one_go_on_are_the_run() {
    let mut rng = Rng::for_stream(116);
    for _ in 0..6_000 {
        let plan = random_plan(&mut rng);
        let mut lists = Lists::of(&plan);
        if rng.one_in(2) {
            lists = lists.with_spare(&mut rng);
        }
        let mut state = vec![UNSET; walk_words()];
        assert_eq!(panel::begin(&lists.lent(), &mut state), 0);
        let mut quota = [10_000_000];
        let ends = own_begin(&lists.lent()).expect("a plan").left();
        let answer = go_on(&mut state, &mut quota, plan.cap);
        assert_eq!((answer, quota), ((0, ends), [10_000_000 - ends]));
        let (outcome, bounds) = proved::run(&lists);
        let totals = [outcome.count, outcome.complete, outcome.mass];
        assert_eq!(look(&state), (0, totals), "{plan:?}");
        let bounds: Vec<[u64; 2]> = bounds.iter().map(|b| [b.lower, b.upper]).collect();
        assert_eq!(all_bounds(&state, plan.nodes), bounds, "{plan:?}");
    }
}

/// The walk of `proved`, as the planner uses it, in steps of any size.
#[test]
fn a_walk_in_steps_gives_the_figures_of_the_run() {
    let mut rng = Rng::for_stream(117);
    for _ in 0..1_000 {
        let plan = random_plan(&mut rng);
        let lists = Lists::of(&plan);
        let step = rng.pick(&[1, 7, 100, 10_000]);
        let mut walk = proved::Walk::begin(&lists).expect("a plan");
        let mut quota = 10_000_000;
        while walk.go_on(&mut quota, step).expect("a full quota") > 0 {}
        assert_eq!((walk.look(), walk.bounds()), proved::run(&lists));
    }
}

/// After each go-on the words of the walk go to another place with other words behind them, and the old ones are lost.
#[test]
fn a_copied_walk_goes_on_alike() {
    let mut rng = Rng::for_stream(118);
    let needed = walk_words();
    for _ in 0..300 {
        let plan = random_plan(&mut rng);
        let mut both = Both::begin(&plan);
        let mut quotas = Quotas::of(10_000_000);
        for _ in 0..4 {
            let k = rng.between(0, both.own.left() / 2 + 1);
            both.go_on(&mut quotas, k);
            let longer = needed + rng.below(5);
            let mut copy = words(&mut rng, longer);
            copy[..needed].copy_from_slice(&both.state[..needed]);
            let behind = copy[needed..].to_vec();
            both.state.fill(u64::MAX);
            both.state = copy;
            both.go_on(&mut quotas, 1);
            assert_eq!(both.state[needed..], behind, "{plan:?}");
        }
        both.go_on(&mut quotas, u64::MAX);
    }
}

/// Two copies of a walk go on by themselves: neither knows of the other.
#[test]
fn copies_go_on_apart() {
    let mut rng = Rng::for_stream(119);
    for _ in 0..200 {
        let plan = random_plan(&mut rng);
        let mut one = begun(&plan);
        let k = rng.between(0, 50);
        go_on(&mut one, &mut [1_000], k);
        let mut other = one.clone();
        let first = go_on(&mut one, &mut [1_000], 9);
        let moved = one.clone();
        let second = go_on(&mut other, &mut [1_000], 9);
        assert_eq!(first, second, "{plan:?}");
        assert!(one == moved && one == other, "{plan:?}");
    }
}
