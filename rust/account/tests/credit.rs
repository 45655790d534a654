//! Credits of contracts whose answers were worked out by hand, and their refusals.

use account::credit::{credit, Contract};
use account::exact::exact_sums;
use account::number;
use account::topology::Out;
use plans::credits::{by_hand, cable, refused};
use plans::faults::faulty_lists;
use plans::Lists;

#[test]
fn credits_and_headroom_are_those_by_hand() {
    for case in by_hand() {
        let (name, contract) = (case.name, case.contract);
        let answer = credit(&Lists::of(&case.plan).lent(), 0, 1, &contract);
        assert_eq!(answer, Ok(case.credits), "{name}: {contract:?}");
    }
}

#[test]
fn the_credit_of_the_exact_downtime_is_that_by_hand() {
    for case in by_hand() {
        let (name, contract) = (case.name, case.contract);
        let exact = exact_sums(&case.plan, Out::NOTHING).credit(0, &contract);
        assert_eq!(exact, case.exact, "{name}: {contract:?}");
    }
}

#[test]
fn a_pair_is_tested_before_the_terms() {
    let lists = Lists::of(&cable());
    for case in refused() {
        let (v, w) = case.pair;
        let answer = number(&credit(&lists.lent(), v, w, &case.contract));
        assert_eq!(answer, case.number, "{v} {w}: {:?}", case.contract);
    }
}

/// Terms that are refused, two numbers that are no pair, and something wrong in the lists: the number of the lists.
#[test]
fn the_lists_are_tested_before_pair_and_terms() {
    let past = Contract {
        fee: u64::MAX,
        limit: u64::MAX,
        rate: u64::MAX,
    };
    let refusal = |lists: &Lists| number(&credit(&lists.lent(), 1, 1, &past));
    assert_eq!(refusal(&Lists::of(&cable())), 13);
    for (lists, number) in faulty_lists() {
        assert_eq!(refusal(&lists), number, "{lists:?}");
    }
}
