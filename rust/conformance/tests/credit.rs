//! Credits of contracts: answers worked out by hand, many beside the account's, and beside the credit for the exact downtime
//! of every pair of small plans.

use account::credit::{credit as own_credit, Contract, Credits};
use account::exact::{exact_sums, ExactSums};
use account::number;
use account::readings::YEAR_SECONDS;
use account::topology::Out;
use conformance::compare::{laid_down, mostly_valid_lists, random_pair, words};
use conformance::{probe, readings, Met, Tally};
use plans::contracts::{damaged_contract, random_contract};
use plans::credits::{by_hand, cable, refused};
use plans::valid::{plan_of_size, Size};
use plans::{Lists, Rng};

/// The three words of an answer: the headroom, where it is negative, with 2^64 added.
fn words_of(credits: &Credits) -> [u64; 3] {
    let headroom = i128::from(credits.headroom).rem_euclid(1 << 64);
    [credits.lower, credits.upper, headroom as u64]
}

#[test]
fn credits_by_hand() {
    for case in by_hand() {
        let (name, contract) = (case.name, case.contract);
        let answer = readings::credit(&Lists::of(&case.plan).lent(), 0, 1, &contract);
        assert_eq!(answer, (0, words_of(&case.credits)), "{name}: {contract:?}");
    }
}

#[test]
fn a_pair_is_tested_before_the_terms() {
    let lists = Lists::of(&cable());
    for case in refused() {
        let (v, w) = case.pair;
        let answer = readings::credit(&lists.lent(), v, w, &case.contract);
        let expected = (case.number, [0; 3]);
        assert_eq!(answer, expected, "{v} {w}: {:?}", case.contract);
    }
}

/// The cable's 1,971 seconds are 61 above a limit of 1,910: two started minutes. 2^64 − 61 is the third word.
#[test]
fn a_list_gets_as_many_words_as_it_has_room_for() {
    let lists = Lists::of(&cable());
    let cases = [
        (1_910, 0, [500, 500, 18_446_744_073_709_551_555, 9]),
        (31_536_001, 20, [0, 0, 0, 9]),
    ];
    for (limit, number, words) in cases {
        let contract = Contract {
            fee: 900,
            limit,
            rate: 250,
        };
        for room in 0..=4 {
            let mut result = [9; 4];
            let list = &mut result[..room];
            let refusal = readings::credit_in(&lists.lent(), 0, 1, &contract, list);
            assert_eq!((refusal, &*list), (number, &words[..room]));
        }
    }
}

/// Counts what the credits of a contract show.
fn count_accepted(met: &mut Met, contract: &Contract, credits: &Credits) {
    let Credits {
        lower,
        upper,
        headroom,
    } = *credits;
    met.count(&[
        ("no credit", upper == 0),
        ("some of the fee", 0 < upper && upper < contract.fee),
        ("the whole fee", 0 < upper && upper == contract.fee),
        ("lower credit below upper", lower < upper),
        ("lower credit above 0", lower > 0),
        ("upper downtime below the limit", headroom > 0),
        ("upper downtime at the limit", headroom == 0),
        ("1 second above", headroom == -1),
        ("60 seconds above", headroom == -60),
        ("61 seconds above", headroom == -61),
        ("more than an hour above", headroom < -3_600),
    ]);
}

/// Seconds near which a contract is made: the lower or the upper downtime of a pair, or any number.
fn near(rng: &mut Rng, lists: &Lists, v: u64, w: u64) -> u64 {
    match probe::pair(&lists.lent(), v, w) {
        (0, [lower, upper]) => rng.pick(&readings::downtime(lower, upper).1),
        _ => rng.between(0, YEAR_SECONDS),
    }
}

/// One contract beside the account, on a list of any length up to four words. It returns the refusal's number.
fn compare(rng: &mut Rng, lists: &Lists, met: &mut Met) -> u32 {
    let (v, w) = random_pair(rng, lists.header.nodes);
    let seconds = near(rng, lists, v, w);
    let mut contract = random_contract(rng, seconds);
    let damaged = rng.one_in(6);
    if damaged {
        contract = damaged_contract(rng, contract);
    }
    let length = rng.pick(&[0, 1, 2, 3, 3, 3, 3, 4]);
    let mut result = words(rng, length);
    let expected = own_credit(&lists.lent(), v, w, &contract);
    let own_words = expected.map_or([0; 3], |credits| words_of(&credits));
    let own_result = laid_down(&result, &own_words);
    let refusal = readings::credit_in(&lists.lent(), v, w, &contract, &mut result);
    let answer = (refusal, result);
    assert_eq!(
        answer,
        (number(&expected), own_result),
        "{v} {w}, {contract:?} of {lists:?}"
    );
    match expected {
        Ok(credits) => count_accepted(met, &contract, &credits),
        Err(_) => met.count(&[
            ("13 before 20", refusal == 13 && damaged),
            ("a number of the lists before 20", refusal < 13 && damaged),
        ]),
    }
    refusal
}

#[test]
fn credits_agree() {
    let mut rng = Rng::for_stream(47);
    let (mut tally, mut met) = (Tally::default(), Met::default());
    for _ in 0..20_000 {
        let lists = mostly_valid_lists(&mut rng);
        tally.add(compare(&mut rng, &lists, &mut met));
    }
    tally.expect([0, 4, 5, 6, 7, 8, 9, 10, 12, 13, 20]);
    met.expect_each(100);
}

/// A pair of a plan with its exact sums, and its lower and upper downtime.
struct Enclosed<'a> {
    lists: &'a Lists,
    sums: &'a ExactSums,
    place: usize,
    pair: (u64, u64),
    seconds: [u64; 2],
}

impl<'a> Enclosed<'a> {
    /// The pair of this place in the order of pairs.
    fn of(lists: &'a Lists, sums: &'a ExactSums, place: usize, (v, w): (usize, usize)) -> Self {
        let pair = (v as u64, w as u64);
        let [lower, upper] = probe::pair(&lists.lent(), pair.0, pair.1).1;
        Enclosed {
            lists,
            sums,
            place,
            pair,
            seconds: readings::downtime(lower, upper).1,
        }
    }

    /// The credit for the exact downtime lies between the two of the answer, and none is above the fee. The headroom is the
    /// limit minus the upper downtime; where it is not negative, the exact downtime is within the limit.
    fn expect(&self, contract: &Contract, met: &mut Met) {
        let (v, w) = self.pair;
        let answer = readings::credit(&self.lists.lent(), v, w, contract);
        let told = || format!("{answer:?}, {v} {w}, {contract:?} of {:?}", self.lists);
        let (refusal, [lower, upper, headroom]) = answer;
        assert_eq!(refusal, 0, "{}", told());
        let exact = self.sums.credit(self.place, contract);
        let between = lower <= exact && exact <= upper && upper <= contract.fee;
        assert!(between, "{exact} for the exact downtime, {}", told());
        let (headroom, limit) = (headroom as i64, contract.limit);
        let left = limit as i64 - self.seconds[1] as i64;
        assert_eq!(headroom, left, "{}", told());
        let within = self.sums.downtime_holds(self.place, 0, limit);
        assert!(headroom < 0 || within, "above the limit, {}", told());
        met.count(&[
            ("no credit", exact == 0),
            ("some of the fee", 0 < exact && exact < contract.fee),
            ("the whole fee", 0 < exact && exact == contract.fee),
            ("lower below exact", lower < exact),
            ("exact below upper", exact < upper),
            ("exact apart from both", lower < exact && exact < upper),
            ("within the limit, headroom below 0", within && headroom < 0),
            ("headroom 0", headroom == 0),
            ("headroom above 0", headroom > 0),
        ]);
    }
}

#[test]
fn exact_credits_lie_between() {
    let size = Size {
        nodes: (2, 6),
        links: (0, 10),
        events: (0, 7),
    };
    let mut rng = Rng::for_stream(48);
    let mut met = Met::default();
    for _ in 0..2_000 {
        let plan = plan_of_size(&mut rng, size);
        let (lists, sums) = (Lists::of(&plan), exact_sums(&plan, Out::NOTHING));
        for (place, pair) in plan.pairs().into_iter().enumerate() {
            let enclosed = Enclosed::of(&lists, &sums, place, pair);
            let [lower, upper] = enclosed.seconds;
            for _ in 0..4 {
                let seconds = rng.between(lower, upper);
                let contract = random_contract(&mut rng, seconds);
                enclosed.expect(&contract, &mut met);
            }
        }
    }
    met.expect_each(100);
}
