//! The example files and the plans that document 01 names.

use account::file::{layout, parse};
use account::{Plan, WHOLE};
use conformance::{compare, probe};
use plans::examples::{files_with, halves, longest, longest_with_last_count_255, triangle};
use plans::{Lists, Rng};

#[test]
fn the_example_files() {
    let mut rng = Rng::for_stream(31);
    for path in files_with("plan") {
        let bytes = std::fs::read(path).expect("an example file");
        compare::check(&bytes);
        compare::read(&mut rng, &bytes);
        if let Ok(plan) = parse(&bytes) {
            let lists = Lists::of(&plan);
            let (mut lower, mut upper) = (vec![0; 2016], vec![0; 2016]);
            let (mut own_lower, mut own_upper) = (lower.clone(), upper.clone());
            let run = probe::run(&lists.lent(), &mut lower, &mut upper);
            let own = account::calls::run(&lists.lent(), &mut own_lower, &mut own_upper);
            let own = own.expect("a valid plan");
            assert_eq!(run, (0, own.words()));
            assert_eq!((lower, upper), (own_lower, own_upper));
        }
    }
}

#[test]
fn the_triangle() {
    let (mut lower, mut upper) = ([9; 4], [9; 4]);
    let run = probe::run(&Lists::of(&triangle()).lent(), &mut lower, &mut upper);
    assert_eq!(run, (0, [4, 1, WHOLE - 4]));
    assert_eq!((lower, upper), ([0, 0, 0, 9], [4, 4, 4, 9]));
}

#[test]
fn halves_at_three_caps() {
    for cap in [1, 1_000, 1_000_000] {
        let plan = Plan { cap, ..halves() };
        let (mut lower, mut upper) = ([9; 15], [9; 15]);
        let run = probe::run(&Lists::of(&plan).lent(), &mut lower, &mut upper);
        assert_eq!(run, (0, [0, 0, 0]));
        assert_eq!((lower, upper), ([0; 15], [WHOLE; 15]));
    }
}

#[test]
fn the_longest_plan_and_its_last_count() {
    let bytes = layout(&longest());
    assert_eq!((bytes.len(), compare::check(&bytes)), (50_068, 0));
    for (more, refusal) in [(0, 1), (1, 1), (2, 10), (1_000, 10)] {
        let damaged = longest_with_last_count_255(more);
        assert_eq!(compare::check(&damaged), refusal);
    }
}

#[test]
fn every_call_takes_the_longest_plan() {
    let mut rng = Rng::for_stream(32);
    let bytes = layout(&longest());
    let lists = Lists::of(&longest());
    for _ in 0..20 {
        compare::read(&mut rng, &bytes);
        compare::write(&mut rng, &lists);
        compare::run(&mut rng, &lists);
        compare::pair(&mut rng, &lists);
    }
}

#[test]
fn files_of_any_length() {
    assert_eq!(compare::check(b""), 1);
    assert_eq!(compare::check(&[0; 1_000_000]), 2);
    let mut longer = layout(&triangle());
    longer.resize(1_000_000, 0);
    assert_eq!(compare::check(&longer), 11);
    let mut longer = layout(&longest());
    longer.resize(1_000_000, 0);
    assert_eq!(compare::check(&longer), 11);
}
