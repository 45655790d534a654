//! Calls with several thresholds beside the account's, valid and damaged.

use account::thresholds::plan_of;
use account::WHOLE;
use conformance::compare::{self, mostly_valid_lists_of, two_lengths};
use conformance::{Met, Tally};
use plans::falling::{damaged_thresholds, with_thresholds};
use plans::valid::random_plan;
use plans::{Lists, Rng};

/// The numbers that the lists of a plan give.
const OF_LISTS: [u32; 7] = [4, 6, 7, 8, 9, 10, 12];

/// Which of the four faults a list of thresholds has.
fn faults(list: &[u64]) -> [bool; 4] {
    [
        list.is_empty(),
        list.len() > 16,
        list.iter().any(|&t| t == 0 || t > WHOLE),
        (1..list.len()).any(|i| list[i] >= list[i - 1]),
    ]
}

/// How often each answer was met, and for which calls.
#[derive(Default)]
struct Answers {
    all: Tally,
    /// Of calls with thresholds that have a fault; 12 is for the lists of the plan.
    wrong: Tally,
    /// Of calls with right thresholds and too little room for the bounds.
    short: Tally,
    met: Met,
}

impl Answers {
    fn count(&mut self, lists: &Lists, list: &[u64], short: bool, number: u32) {
        let faults = faults(list);
        let wrong = faults.contains(&true);
        let alone = |i: usize| faults == std::array::from_fn(|j| i == j);
        self.all.add(number);
        match (wrong, short) {
            (true, _) => self.wrong.add(number),
            (false, true) => self.short.add(number),
            (false, false) => {}
        }
        let plan_right = plan_of(&lists.lent()).is_ok();
        let own = lists.header.threshold;
        let other_t = own == 0 || own > WHOLE;
        self.met.count(&[
            ("no threshold", number == 23 && alone(0)),
            ("more than 16", number == 23 && alone(1)),
            ("one outside 1 to 10^18", number == 23 && alone(2)),
            ("one that does not fall", number == 23 && alone(3)),
            ("23 before 12 for the bounds", number == 23 && short),
            ("12 for the lists before 23", number == 12 && wrong),
            ("12 for the bounds", number == 12 && plan_right),
            ("a t of the plan that a run refuses", number == 0 && other_t),
        ]);
    }
}

#[test]
fn calls_agree() {
    let mut rng = Rng::for_stream(141);
    let mut answers = Answers::default();
    for _ in 0..20_000 {
        let plan = random_plan(&mut rng);
        let (plan, mut list) = with_thresholds(&mut rng, plan);
        let lists = mostly_valid_lists_of(&mut rng, &plan);
        if rng.one_in(3) {
            list = damaged_thresholds(&mut rng, list);
        }
        let pairs = plan_of(&lists.lent()).map_or(2, |plan| plan.pairs().len());
        let needed = pairs * list.len();
        let lengths = two_lengths(&mut rng, needed);
        let short = lengths.iter().any(|&length| length < needed);
        let number = compare::run_thresholds(&mut rng, &lists, &list, lengths);
        answers.count(&lists, &list, short, number);
    }
    let with_23 = [&OF_LISTS[..], &[23]].concat();
    answers.all.expect([&[0], &with_23[..]].concat());
    answers.wrong.expect(with_23);
    answers.short.expect(OF_LISTS);
    answers.met.expect_each(20);
}
