//! Several thresholds for one plan, request U8, by the account alone: blocks and numbers that were worked out by hand, the order of
//! the tests, and random lists beside the masses of all 2^n sets.

use account::bounds::Outcome;
use account::thresholds::{run_thresholds, test_thresholds};
use account::walk::final_mass;
use account::{number, Plan, WHOLE};
use plans::falling::{damaged_thresholds, with_thresholds};
use plans::faults::faulty_lists;
use plans::thresholds::{by_hand, numbered, Expected, RIGHT, WRONG};
use plans::valid::{plan_of_size, random_plan, SMALL};
use plans::{Lists, Rng};

/// What the lists of bounds hold before a call.
const BEFORE: u64 = 7;

/// What a call answers: the number, count, complete and E of each place, then the two lists of bounds.
type Answer = (u32, Vec<u64>, [Vec<u64>; 2]);

/// The answer on two lists of this room.
fn answer(lists: &Lists, list: &[u64], room: [usize; 2]) -> Answer {
    let [mut lower, mut upper] = room.map(|room| vec![BEFORE; room]);
    let outcomes = run_thresholds(&lists.lent(), list, &mut lower, &mut upper);
    let totals = outcomes.map_or([[0; 3]; 16], |all| all.map(Outcome::words));
    (number(&outcomes), totals.concat(), [lower, upper])
}

/// The answer of a call that is refused.
fn refused(number: u32, room: [usize; 2]) -> Answer {
    (number, vec![0; 48], room.map(|room| vec![BEFORE; room]))
}

/// The call with these thresholds gives this, on lists with room for three entries more than there are.
fn expect(name: &str, plan: &Plan, expected: &Expected) {
    let list = &expected.thresholds;
    let after = expected.after(BEFORE);
    let room = after.each_ref().map(Vec::len);
    let answer = answer(&Lists::of(plan), list, room);
    let expected = (0, expected.totals.to_vec(), after);
    assert_eq!(answer, expected, "{name}, cap {}: {list:?}", plan.cap);
}

#[test]
fn blocks_are_those_by_hand() {
    for case in by_hand() {
        expect(case.name, &case.plan, &case.all());
        for part in case.parts() {
            expect(case.name, &case.plan, &part);
        }
    }
}

#[test]
fn numbers_are_those_by_hand() {
    for case in numbered() {
        let (list, room) = (&case.thresholds, case.room);
        let answer = answer(&Lists::of(&case.plan), list, room);
        let told = format!("{}: {list:?}, room {room:?}", case.name);
        match case.number {
            0 => assert_eq!(answer.0, 0, "{told}"),
            number => assert_eq!(answer, refused(number, room), "{told}"),
        }
    }
}

/// But for 5: lists whose own threshold is wrong give what right ones give.
#[test]
fn the_lists_are_tested_before_all_else() {
    let rooms = [[0, 0], [0, 20], [20, 0], [20, 20]];
    for (lists, number) in faulty_lists() {
        for list in WRONG.into_iter().chain([RIGHT]) {
            for room in rooms {
                let answer = answer(&lists, list, room);
                let expected = match number {
                    5 if WRONG.contains(&list) => 23,
                    5 if room != [20, 20] => 12,
                    5 => 0,
                    _ => number,
                };
                let told = format!("{list:?}, room {room:?} of {lists:?}");
                match expected {
                    0 => assert_eq!(answer.0, 0, "{told}"),
                    _ => assert_eq!(answer, refused(expected, room), "{told}"),
                }
            }
        }
    }
}

#[test]
fn the_threshold_of_the_plan_is_not_taken() {
    let mut rng = Rng::for_stream(321);
    for _ in 0..500 {
        let plan = random_plan(&mut rng);
        let (plan, list) = with_thresholds(&mut rng, plan);
        let room = [plan.pairs().len() * list.len() + 3; 2];
        let with_own = |threshold| {
            let mut lists = Lists::of(&plan);
            lists.header.threshold = threshold;
            answer(&lists, &list, room)
        };
        let right = with_own(1);
        assert_eq!(right.0, 0, "{list:?} of {plan:?}");
        for threshold in [0, WHOLE, WHOLE + 1, u64::MAX] {
            assert_eq!(with_own(threshold), right, "{list:?} of {plan:?}");
        }
    }
}

/// The sets of events whose scenario has at least a mass: how many there are, and the sum of their masses.
fn sets_at_least(masses: &[u64], threshold: u64) -> (u64, u64) {
    let relevant = masses.iter().filter(|&&mass| mass >= threshold);
    (relevant.clone().count() as u64, relevant.sum())
}

/// Where all ends are reached, examined are all sets whose scenario has a mass of at least the threshold. A mass never grows on a
/// split, so none of them is dropped before its last event.
#[test]
fn complete_blocks_have_all_relevant_sets() {
    let mut rng = Rng::for_stream(322);
    let (mut complete, mut stopped) = (0, 0);
    for _ in 0..1_000 {
        let plan = plan_of_size(&mut rng, SMALL);
        let (plan, list) = with_thresholds(&mut rng, plan);
        let sets = 0..1u128 << plan.events.len();
        let masses: Vec<u64> = sets.map(|set| final_mass(&plan, set)).collect();
        let room = [plan.pairs().len() * list.len(); 2];
        let (_, totals, _) = answer(&Lists::of(&plan), &list, room);
        for (&threshold, totals) in list.iter().zip(totals.chunks(3)) {
            let (count, mass) = sets_at_least(&masses, threshold);
            let told = || format!("{totals:?} at {threshold} of {plan:?}");
            if totals[1] == 1 {
                assert_eq!([count, 1, mass], totals, "{}", told());
                complete += 1;
            } else {
                assert!(totals[0] <= count && totals[2] <= mass, "{}", told());
                stopped += 1;
            }
        }
    }
    assert!(complete >= 1_000 && stopped >= 500, "{complete} {stopped}");
}

/// Random lists are right ones, and damaged ones are not.
#[test]
fn damaged_thresholds_are_refused() {
    let mut rng = Rng::for_stream(323);
    for _ in 0..5_000 {
        let plan = random_plan(&mut rng);
        let (_, list) = with_thresholds(&mut rng, plan);
        assert_eq!(number(&test_thresholds(&list)), 0, "{list:?}");
        let damaged = damaged_thresholds(&mut rng, list);
        assert_eq!(number(&test_thresholds(&damaged)), 23, "{damaged:?}");
    }
}
