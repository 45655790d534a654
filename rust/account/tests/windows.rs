//! Planned work by the week, request U7, by the account alone: runs and numbers that were worked out by hand, the order of the
//! tests, and random windows beside runs without any.

use account::bounds::Outcome;
use account::exact::exact_sums;
use account::topology::{effective, Out, Topology};
use account::wide::Wide;
use account::windows::{out_at, run_at, windows_of};
use account::{calls, number, Event, Plan, Refusal, WHOLE};
use plans::faults::faulty_lists;
use plans::valid::random_plan;
use plans::weeks::{windows_and_minute, with_certain_event, Week};
use plans::windows::{by_hand, numbered, IN_TURN};
use plans::{Lists, Rng};

/// What the lists of bounds hold before a call.
const BEFORE: u64 = 7;

/// What a run answers: the number, count, complete and E, then the two lists of bounds, with room for three entries more
/// than there are pairs.
type Answer = (u32, [u64; 3], Vec<u64>, Vec<u64>);

/// The answer of a call with two such lists.
fn answer(
    plan: &Plan,
    call: impl Fn(&Lists, &mut [u64], &mut [u64]) -> Result<Outcome, Refusal>,
) -> Answer {
    let mut lower = vec![BEFORE; plan.pairs().len() + 3];
    let mut upper = lower.clone();
    let outcome = call(&Lists::of(plan), &mut lower, &mut upper);
    let totals = outcome.map_or([0; 3], Outcome::words);
    (number(&outcome), totals, lower, upper)
}

/// The run with windows.
fn at(plan: &Plan, windows: &[u64], minute: u64) -> Answer {
    answer(plan, |lists, lower, upper| {
        run_at(&lists.lent(), windows, minute, lower, upper)
    })
}

/// The run without.
fn without(plan: &Plan) -> Answer {
    answer(plan, |lists, lower, upper| {
        calls::run(&lists.lent(), lower, upper)
    })
}

#[test]
fn runs_are_those_by_hand() {
    for case in by_hand() {
        let list = |which: usize| {
            let of_pairs = case.bounds.iter().map(|bounds| bounds[which]);
            of_pairs.chain([BEFORE; 3]).collect()
        };
        let expected: Answer = (0, case.totals, list(0), list(1));
        let answer = at(&case.plan, &case.windows, case.minute);
        let (name, windows, minute) = (case.name, &case.windows, case.minute);
        assert_eq!(answer, expected, "{name}: {windows:?} at {minute}");
    }
}

#[test]
fn exact_sums_of_the_reduced_network_are_those_by_hand() {
    for case in by_hand() {
        let windows = windows_of(&case.windows).expect("whole windows");
        let sums = exact_sums(&case.plan, out_at(&windows, case.minute));
        let exact: Vec<Wide> = case.exact.iter().copied().map(Wide::from).collect();
        let (name, minute) = (case.name, case.minute);
        assert_eq!(sums.disconnected, exact, "{name}: {windows:?} at {minute}");
        assert_eq!(sums.count, case.totals[0], "{name}");
    }
}

#[test]
fn numbers_are_those_by_hand() {
    for case in numbered() {
        let answer = at(&case.plan, &case.windows, case.minute);
        let (name, windows, minute) = (case.name, &case.windows, case.minute);
        assert_eq!(answer.0, case.number, "{name}: {windows:?} at {minute}");
        if case.number != 0 {
            let untouched = vec![BEFORE; answer.2.len()];
            let refused = (case.number, [0; 3], untouched.clone(), untouched);
            assert_eq!(answer, refused, "{name}: {windows:?} at {minute}");
        }
    }
}

#[test]
fn the_lists_are_tested_before_windows_and_minute() {
    for (lists, expected) in faulty_lists() {
        for (windows, minute) in IN_TURN {
            let answer = run_at(&lists.lent(), windows, minute, &mut [], &mut []);
            assert_eq!(number(&answer), expected, "{windows:?} of {lists:?}");
        }
    }
}

/// Three nodes have three pairs.
#[test]
fn the_lists_of_bounds_are_tested_before_windows_and_minute() {
    let plan = Plan {
        nodes: 3,
        links: vec![(0, 1)],
        events: vec![],
        threshold: 1,
        cap: 1,
    };
    let lists = Lists::of(&plan);
    for (windows, minute) in IN_TURN {
        for (lower, upper) in [(2, 3), (3, 2), (0, 0), (2, 9)] {
            let (mut lower, mut upper) = (vec![BEFORE; lower], vec![BEFORE; upper]);
            let answer = run_at(&lists.lent(), windows, minute, &mut lower, &mut upper);
            assert_eq!(number(&answer), 12, "{windows:?} at {minute}");
            let mut all = lower.iter().chain(&upper);
            assert!(all.all(|&entry| entry == BEFORE), "{lower:?} {upper:?}");
        }
    }
    let numbers = IN_TURN.map(|(windows, minute)| {
        let lists = (&mut [BEFORE; 3], &mut [BEFORE; 3]);
        let answer = run_at(&Lists::of(&plan).lent(), windows, minute, lists.0, lists.1);
        number(&answer)
    });
    assert_eq!(numbers, [0, 12, 21, 22]);
}

/// A triangle with a fourth node at its end: 0-1, 0-2, 1-2, 2-3. Node 2 takes the last three links with it. The event fails
/// link 0.
#[test]
fn a_topology_starts_with_what_is_out() {
    let event = Event {
        probability: 1,
        nodes: 0,
        links: 0b0001,
    };
    let plan = Plan {
        nodes: 4,
        links: vec![(0, 1), (0, 2), (1, 2), (2, 3)],
        events: vec![event],
        threshold: 1,
        cap: 100,
    };
    let cases = [
        ((0b0000, 0b0000), 0, (0b1111, 0b1111)),
        ((0b0100, 0b0000), 0, (0b1011, 0b0001)),
        ((0b0100, 0b0000), 1, (0b1011, 0b0000)),
        ((0b0000, 0b0010), 0, (0b1111, 0b1101)),
        ((0b0000, 0b0010), 1, (0b1111, 0b1100)),
        ((0b1000, 0b0100), 0, (0b0111, 0b0011)),
        ((0b1111, 0b0000), 0, (0b0000, 0b0000)),
    ];
    for ((nodes, links), failing, expected) in cases {
        let out = Out { nodes, links };
        let Topology { nodes, links } = effective(&plan, out, failing);
        assert_eq!((nodes, links), expected, "{out:?}, {failing}");
    }
}

#[test]
fn what_is_out_is_as_a_certain_event_in_front() {
    let mut rng = Rng::for_stream(312);
    let mut moved = 0;
    for _ in 0..3_000 {
        let mut plan = random_plan(&mut rng);
        plan.events.truncate(127);
        let (windows, minute) = windows_and_minute(&mut rng, plan.nodes, plan.links.len());
        let mut out = Out::NOTHING;
        for window in &windows {
            if window.start <= minute && minute < window.end {
                out.nodes |= window.out.nodes;
                out.links |= window.out.links;
            }
        }
        let week = Week::of(&windows, minute);
        let answer = at(&plan, &week.windows, minute);
        let expected = without(&with_certain_event(&plan, out));
        assert_eq!(answer, expected, "{week:?} of {plan:?}");
        moved += u32::from(answer != without(&plan));
    }
    assert!(moved >= 500, "{moved} runs with windows that move a bound");
}

#[test]
fn nothing_moves_where_no_window_holds_the_minute() {
    let mut rng = Rng::for_stream(313);
    let mut some = 0;
    for _ in 0..2_000 {
        let plan = random_plan(&mut rng);
        let (mut windows, minute) = windows_and_minute(&mut rng, plan.nodes, plan.links.len());
        windows.retain(|window| minute < window.start || window.end <= minute);
        let week = Week::of(&windows, minute);
        let answer = at(&plan, &week.windows, minute);
        assert_eq!(answer, without(&plan), "{week:?} of {plan:?}");
        some += u32::from(!windows.is_empty());
    }
    assert!(some >= 500, "{some} lists with a window");
}

/// A pair with an end node out has both bounds at one whole where all the mass is examined, whatever fails.
#[test]
fn a_pair_with_an_end_node_out_is_cut_off_always() {
    let mut rng = Rng::for_stream(314);
    let mut whole = 0;
    for _ in 0..2_000 {
        let plan = random_plan(&mut rng);
        let node = rng.below(plan.nodes);
        let windows = [0, 10_080, 1 << node, 0, 0];
        let (number, [_, _, mass], lower, upper) = at(&plan, &windows, 600);
        assert_eq!(number, 0);
        for (i, (v, w)) in plan.pairs().into_iter().enumerate() {
            if v == node || w == node {
                let bounds = (lower[i], upper[i]);
                assert_eq!(bounds, (mass, WHOLE), "{v} {w} of {plan:?}");
                whole += u32::from(mass == WHOLE);
            }
        }
    }
    assert!(whole >= 200, "{whole} pairs of plans with all the mass");
}
