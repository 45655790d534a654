//! Blocks and numbers that were worked out by hand.

use account::Plan;
use conformance::thresholds::{run_thresholds, run_thresholds_in, TOTAL_WORDS};
use conformance::Tally;
use plans::faults::faulty_lists;
use plans::thresholds::{by_hand, numbered, Expected, RIGHT, WRONG};
use plans::Lists;

/// What the lists of bounds hold before a call.
const BEFORE: u64 = 7;

/// The call with these thresholds gives this, on lists with room for three entries more than there are.
fn expect(name: &str, plan: &Plan, expected: &Expected) {
    let list = &expected.thresholds;
    let told = format!("{name}, cap {}: {list:?}", plan.cap);
    let after = expected.after(BEFORE);
    let [mut lower, mut upper] = after.each_ref().map(|entries| vec![BEFORE; entries.len()]);
    let answer = run_thresholds(&Lists::of(plan).lent(), list, &mut lower, &mut upper);
    assert_eq!(answer, (0, expected.totals), "{told}");
    assert_eq!([lower, upper], after, "{told}");
}

#[test]
fn blocks_by_hand() {
    for case in by_hand() {
        expect(case.name, &case.plan, &case.all());
    }
}

/// A block does not depend on the other thresholds of a call.
#[test]
fn blocks_of_each_choice_by_hand() {
    for case in by_hand() {
        for expected in case.parts() {
            expect(case.name, &case.plan, &expected);
        }
    }
}

/// A call that is refused with this number, on lists of this room.
fn expect_refused(lists: &Lists, list: &[u64], room: [usize; 2], number: u32) {
    let before = room.map(|room| vec![BEFORE; room]);
    let [mut lower, mut upper] = before.clone();
    let answer = run_thresholds(&lists.lent(), list, &mut lower, &mut upper);
    let told = || format!("{list:?}, room {room:?} of {lists:?}");
    assert_eq!(answer, (number, [0; TOTAL_WORDS]), "{}", told());
    assert_eq!([lower, upper], before, "{}", told());
}

#[test]
fn numbers_by_hand() {
    let mut tally = Tally::default();
    for case in numbered() {
        let (lists, list) = (Lists::of(&case.plan), &case.thresholds);
        match case.number {
            0 => {
                let [mut lower, mut upper] = case.room.map(|room| vec![BEFORE; room]);
                let (number, _) = run_thresholds(&lists.lent(), list, &mut lower, &mut upper);
                assert_eq!(number, 0, "{}: {list:?}, room {:?}", case.name, case.room);
            }
            number => expect_refused(&lists, list, case.room, number),
        }
        tally.add(case.number);
    }
    tally.expect([0, 12, 23]);
}

/// The lists of the plan are tested first, whatever the thresholds and the lists of bounds are. There is no 5: the call does not
/// take the plan's own threshold.
#[test]
fn the_lists_are_tested_before_all_else() {
    let mut tally = Tally::default();
    for (lists, number) in faulty_lists() {
        if number == 5 {
            continue;
        }
        for list in WRONG.into_iter().chain([RIGHT]) {
            for room in [[0, 0], [0, 20], [20, 0], [20, 20]] {
                expect_refused(&lists, list, room, number);
            }
        }
        tally.add(number);
    }
    tally.expect([4, 6, 7, 8, 9, 10, 12]);
}

/// The longest call by hand, and one that is refused: the list of the totals has room for none to all of the words.
#[test]
fn a_list_gets_as_many_words_as_it_has_room_for() {
    let all = by_hand();
    let longest = all.iter().find(|case| case.blocks.len() == 16);
    let case = longest.expect("sixteen thresholds");
    let (lists, expected) = (Lists::of(&case.plan), case.all());
    for (list, number, totals) in [
        (&expected.thresholds[..], 0, expected.totals),
        (&[], 23, [0; TOTAL_WORDS]),
    ] {
        for room in 0..=TOTAL_WORDS + 2 {
            let [mut lower, mut upper] = expected.bounds.clone();
            let mut result = vec![9; room];
            let lent = lists.lent();
            let refusal = run_thresholds_in(&lent, list, &mut lower, &mut upper, &mut result);
            let words = totals.into_iter().chain([9; 2]).take(room);
            assert_eq!((refusal, result), (number, words.collect()));
        }
    }
}
