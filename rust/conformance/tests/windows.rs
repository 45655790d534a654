//! The run with windows of planned work: answers worked out by hand, many beside the account's, the exact sums of the reduced
//! network between its bounds, and its bounds beside those of other runs.

use account::exact::exact_sums;
use account::topology::Out;
use account::windows::{out_at, Window};
use account::Plan;
use conformance::compare::{self, mostly_valid_lists};
use conformance::proved::{self, Run};
use conformance::windows::{run_at, run_at_in};
use conformance::{Met, Tally};
use plans::faults::faulty_lists;
use plans::valid::{plan_of_size, random_plan, Size};
use plans::weeks::{damaged_week, windows_and_minute, with_certain_event, Week};
use plans::windows::{by_hand, numbered, IN_TURN};
use plans::{Lists, Rng};

/// What the lists of bounds hold before a call.
const BEFORE: u64 = 7;

/// Two lists of bounds with room for three entries more than a plan has pairs.
fn spare_lists(plan: &Plan) -> [Vec<u64>; 2] {
    let list = vec![BEFORE; plan.pairs().len() + 3];
    [list.clone(), list]
}

#[test]
fn runs_by_hand() {
    for case in by_hand() {
        let [mut lower, mut upper] = spare_lists(&case.plan);
        let lists = Lists::of(&case.plan);
        let (windows, minute) = (&case.windows, case.minute);
        let answer = run_at(&lists.lent(), windows, minute, &mut lower, &mut upper);
        let told = format!("{}: {windows:?} at {minute}", case.name);
        assert_eq!(answer, (0, case.totals), "{told}");
        let list = |which: usize| {
            let of_pairs = case.bounds.iter().map(|bounds| bounds[which]);
            of_pairs.chain([BEFORE; 3]).collect::<Vec<u64>>()
        };
        assert_eq!((lower, upper), (list(0), list(1)), "{told}");
    }
}

#[test]
fn numbers_by_hand() {
    let mut tally = Tally::default();
    for case in numbered() {
        let [mut lower, mut upper] = spare_lists(&case.plan);
        let lists = Lists::of(&case.plan);
        let (windows, minute) = (&case.windows, case.minute);
        let (refusal, totals) = run_at(&lists.lent(), windows, minute, &mut lower, &mut upper);
        let told = format!("{}: {windows:?} at {minute}", case.name);
        assert_eq!(refusal, case.number, "{told}");
        if refusal != 0 {
            assert_eq!(totals, [0; 3], "{told}");
            assert_eq!([lower, upper], spare_lists(&case.plan), "{told}");
        }
        tally.add(refusal);
    }
    tally.expect([0, 12, 21, 22]);
}

/// The lists of the plan are tested first, whatever the lists of bounds, the windows and the minute are.
#[test]
fn the_lists_are_tested_before_all_else() {
    for (lists, number) in faulty_lists() {
        for (windows, minute) in IN_TURN {
            for room in [0, 1] {
                let (mut lower, mut upper) = (vec![BEFORE; room], vec![BEFORE; room]);
                let answer = run_at(&lists.lent(), windows, minute, &mut lower, &mut upper);
                assert_eq!(answer, (number, [0; 3]), "{windows:?} of {lists:?}");
                assert_eq!((lower, upper), (vec![BEFORE; room], vec![BEFORE; room]));
            }
        }
    }
}

/// The first run by hand, and the first refused one: the list of the totals has room for none to all of them.
#[test]
fn a_list_gets_as_many_words_as_it_has_room_for() {
    let (run, refused) = (&by_hand()[0], numbered());
    let refused = refused.iter().find(|case| case.number == 22);
    let refused = refused.expect("a minute that is refused");
    let [count, complete, mass] = run.totals;
    let cases = [
        (
            &run.plan,
            &run.windows,
            run.minute,
            0,
            [count, complete, mass, 9],
        ),
        (
            &refused.plan,
            &refused.windows,
            refused.minute,
            22,
            [0, 0, 0, 9],
        ),
    ];
    for (plan, windows, minute, number, words) in cases {
        for room in 0..=4 {
            let [mut lower, mut upper] = spare_lists(plan);
            let mut result = [9; 4];
            let list = &mut result[..room];
            let lists = Lists::of(plan);
            let (low, high) = (&mut lower, &mut upper);
            let refusal = run_at_in(&lists.lent(), windows, minute, low, high, list);
            assert_eq!((refusal, &*list), (number, &words[..room]));
        }
    }
}

/// Windows and a minute for lists whose counts may be damaged; one in three of them is damaged too.
fn week_for(rng: &mut Rng, lists: &Lists) -> Week {
    let nodes = lists.header.nodes.clamp(1, 64) as usize;
    let links = lists.header.links.min(128) as usize;
    let (windows, minute) = windows_and_minute(rng, nodes, links);
    let week = Week::of(&windows, minute);
    match rng.one_in(3) {
        true => damaged_week(rng, week, nodes, links),
        false => week,
    }
}

#[test]
fn runs_agree() {
    let mut rng = Rng::for_stream(131);
    let mut tally = Tally::default();
    for _ in 0..20_000 {
        let lists = mostly_valid_lists(&mut rng);
        let week = week_for(&mut rng, &lists);
        tally.add(compare::run_at(&mut rng, &lists, &week));
    }
    tally.expect([0, 4, 5, 6, 7, 8, 9, 10, 12, 21, 22]);
}

/// Random windows and a minute for a plan.
fn random_week(rng: &mut Rng, plan: &Plan) -> (Vec<Window>, u64) {
    windows_and_minute(rng, plan.nodes, plan.links.len())
}

/// The run of a plan with these windows, none of which is refused, at a minute of the week.
fn run_with(plan: &Plan, windows: &[Window], minute: u64) -> Run {
    let list = Week::of(windows, minute).windows;
    let run = proved::run_at(&Lists::of(plan), &list, minute);
    run.unwrap_or_else(|number| panic!("{number} for {windows:?} at {minute} of {plan:?}"))
}

/// Demand 3 with D over the network without what is out. Where the D of the whole network is past a bound, a run that takes
/// nothing out, or sums that do, would be found.
#[test]
fn exact_sums_of_the_reduced_network_lie_between() {
    let size = Size {
        nodes: (2, 6),
        links: (0, 10),
        events: (0, 7),
    };
    let mut rng = Rng::for_stream(132);
    let (mut plans, mut pairs) = (Met::default(), Met::default());
    for _ in 0..3_000 {
        let plan = plan_of_size(&mut rng, size);
        let (windows, minute) = random_week(&mut rng, &plan);
        let out = out_at(&windows, minute);
        let (outcome, bounds) = run_with(&plan, &windows, minute);
        let (reduced, full) = (exact_sums(&plan, out), exact_sums(&plan, Out::NOTHING));
        assert_eq!(outcome.count, reduced.count, "count of {plan:?}");
        plans.count(&[
            ("plans with something out", out != Out::NOTHING),
            ("plans with nothing out", out == Out::NOTHING),
        ]);
        for (pair, &bound) in bounds.iter().enumerate() {
            let told = || format!("{bound:?}, {windows:?} at {minute} of {plan:?}");
            assert!(reduced.enclose(pair, bound), "{}", told());
            let (exact, whole) = (reduced.disconnected[pair], full.disconnected[pair]);
            assert!(whole <= exact, "{}", told());
            pairs.count(&[
                ("D moved", whole < exact),
                (
                    "D of the whole network below",
                    !full.lower_holds(pair, bound),
                ),
                ("D moved, not all", whole < exact && exact < reduced.total),
                ("lower below upper", bound.lower < bound.upper),
            ]);
        }
    }
    plans.expect_each(1_000);
    pairs.expect_each(100);
}

/// Windows that do not hold the minute, among them such that end at it or start one later.
#[test]
fn nothing_moves_where_no_window_holds_the_minute() {
    let mut rng = Rng::for_stream(133);
    let mut met = Met::default();
    for _ in 0..3_000 {
        let plan = random_plan(&mut rng);
        let (mut windows, minute) = random_week(&mut rng, &plan);
        windows.retain(|window| minute < window.start || window.end <= minute);
        let run = run_with(&plan, &windows, minute);
        let told = || format!("{windows:?} at {minute} of {plan:?}");
        assert_eq!(run, proved::run(&Lists::of(&plan)), "{}", told());
        let named = windows.iter().filter(|window| window.out != Out::NOTHING);
        let edges: Vec<(u64, u64)> = named.map(|window| (window.start, window.end)).collect();
        met.count(&[
            ("no window", windows.is_empty()),
            ("windows", edges.len() > 1),
            ("one that ends", edges.iter().any(|edge| edge.1 == minute)),
            (
                "one that starts",
                edges.iter().any(|edge| edge.0 == minute + 1),
            ),
        ]);
    }
    met.expect_each(100);
}

/// More windows beside those of a list: no bound is lower, and count, complete and E are those of the run without any.
#[test]
fn taking_more_out_never_lowers_a_bound() {
    let mut rng = Rng::for_stream(134);
    let mut met = Met::default();
    for _ in 0..3_000 {
        let plan = random_plan(&mut rng);
        let (some, minute) = random_week(&mut rng, &plan);
        let mut more = some.clone();
        more.extend(random_week(&mut rng, &plan).0);
        let none = proved::run(&Lists::of(&plan));
        let (some, all) = (
            run_with(&plan, &some, minute),
            run_with(&plan, &more, minute),
        );
        assert_eq!((none.0, none.0), (some.0, all.0), "{more:?} of {plan:?}");
        let bounds = none.1.iter().zip(&some.1).zip(&all.1);
        for ((none, some), all) in bounds {
            let told = || format!("{none:?} {some:?} {all:?}, {more:?} at {minute} of {plan:?}");
            for (less, more) in [(none, some), (some, all)] {
                let raised = less.lower <= more.lower && less.upper <= more.upper;
                assert!(raised, "{}", told());
                let by = (more.lower - less.lower, more.upper - less.upper);
                assert_eq!(by.0, by.1, "{}", told());
            }
            met.count(&[
                ("raised by some", none.lower < some.lower),
                ("raised by more", some.lower < all.lower),
                ("as before", none == all),
            ]);
        }
    }
    met.expect_each(100);
}

/// A run with windows is the run of a plan that has a certain event in front which fails what is out.
#[test]
fn what_is_out_is_as_a_certain_event_in_front() {
    let mut rng = Rng::for_stream(135);
    let mut met = Met::default();
    for _ in 0..4_000 {
        let mut plan = random_plan(&mut rng);
        plan.events.truncate(127);
        let (windows, minute) = random_week(&mut rng, &plan);
        let run = run_with(&plan, &windows, minute);
        let certain = with_certain_event(&plan, out_at(&windows, minute));
        let told = || format!("{windows:?} at {minute} of {plan:?}");
        assert_eq!(run, proved::run(&Lists::of(&certain)), "{}", told());
        let moved = run != proved::run(&Lists::of(&plan));
        met.count(&[
            ("moved", moved),
            ("moved, complete", moved && run.0.complete == 1),
            ("moved, at the cap", moved && run.0.complete == 0),
            ("not moved", !moved),
        ]);
    }
    met.expect_each(100);
}
