//! Contracts on small plans, request U6, written down here with credits that were worked out by hand, and some that are
//! refused.

use account::credit::{Contract, Credits};
use account::{Event, Plan, WHOLE};

use crate::contracts::{MOST_CENTS, YEAR};

/// A contract on the pair (0, 1) of a plan, with the credits for its lower and upper downtime, the headroom, and the
/// credit for its exact downtime.
pub struct ByHand {
    pub name: &'static str,
    pub plan: Plan,
    pub contract: Contract,
    pub credits: Credits,
    pub exact: u64,
}

/// A contract for a pair of the cable that is refused with this number.
pub struct Refused {
    pub pair: (u64, u64),
    pub contract: Contract,
    pub number: u32,
}

/// The terms of a contract: fee, limit, rate.
type Terms = [u64; 3];

/// Terms, the credits for lower, exact and upper downtime, and the headroom.
type Case = (Terms, [u64; 3], i64);

fn contract([fee, limit, rate]: Terms) -> Contract {
    Contract { fee, limit, rate }
}

/// The cases of one plan.
fn on(name: &'static str, plan: Plan, cases: &[Case]) -> Vec<ByHand> {
    let by_hand = |&(terms, [lower, exact, upper], headroom): &Case| ByHand {
        name,
        plan: plan.clone(),
        contract: contract(terms),
        credits: Credits {
            lower,
            upper,
            headroom,
        },
        exact,
    };
    cases.iter().map(by_hand).collect()
}

/// All contracts.
pub fn by_hand() -> Vec<ByHand> {
    let groups = [
        limits(),
        fees(),
        parts_of_a_second(),
        whole_years(),
        never_down(),
        wide_bounds(),
    ];
    groups.into_iter().flatten().collect()
}

/// Two nodes and the links between them, without an event.
fn still(links: usize) -> Plan {
    Plan {
        nodes: 2,
        links: vec![(0, 1); links],
        events: vec![],
        threshold: 1,
        cap: 100,
    }
}

/// Two nodes and a link that fails with this probability.
fn link(probability: u64) -> Plan {
    let event = Event {
        probability,
        nodes: 0,
        links: 1,
    };
    Plan {
        events: vec![event],
        ..still(1)
    }
}

/// A link with q = 62,500. Both ends of the walk keep all their mass, so lower and upper are 62,500 × 10^9 units. A whole
/// year, 31,536,000 seconds, has 10^18 units: the downtime is 62,500 × 0.031536 = 1,971 seconds.
pub fn cable() -> Plan {
    link(62_500)
}

/// 1,971 seconds, a fee that is never reached, 250 cents a minute. From a limit of 0, 1,971 = 32 × 60 + 51 seconds are 33
/// started minutes.
fn limits() -> Vec<ByHand> {
    let at = |limit, credit, headroom| ([100_000, limit, 250], [credit; 3], headroom);
    let cases = [
        at(1_972, 0, 1),
        at(1_971, 0, 0),
        at(1_970, 250, -1),
        at(1_912, 250, -59),
        at(1_911, 250, -60),
        at(1_910, 500, -61),
        at(1_851, 500, -120),
        at(1_850, 750, -121),
        at(0, 8_250, -1_971),
        at(YEAR, 0, 31_534_029),
    ];
    on("a cable", cable(), &cases)
}

/// 1,971 seconds, 61 above the limit: two started minutes.
fn fees() -> Vec<ByHand> {
    let with = |fee, rate, credit| ([fee, 1_910, rate], [credit; 3], -61);
    let cases = [
        with(501, 250, 500),
        with(500, 250, 500),
        with(499, 250, 499),
        with(1, 250, 1),
        with(0, 250, 0),
        with(0, 0, 0),
        with(100, 0, 0),
        with(7, MOST_CENTS, 7),
        with(MOST_CENTS, MOST_CENTS, MOST_CENTS),
        with(MOST_CENTS, 500_000_000_000, MOST_CENTS),
        with(999_999_999_999, 500_000_000_000, 999_999_999_999),
        with(MOST_CENTS, 499_999_999_999, 999_999_999_998),
        with(0, MOST_CENTS, 0),
    ];
    on("a cable, 61 seconds above the limit", cable(), &cases)
}

/// With q = 62,501 nothing is lost either: 62,501 × 0.031536 = 1,971.031536 seconds, 1,971 rounded down and 1,972 rounded
/// up. With q = 1 they are 0.031536 seconds, 0 and 1.
fn parts_of_a_second() -> Vec<ByHand> {
    let more = [
        ([900, 1_972, 250], [0, 0, 0], 0),
        ([900, 1_971, 250], [0, 250, 250], -1),
        ([900, 1_912, 250], [250, 250, 250], -60),
        ([900, 1_911, 250], [250, 500, 500], -61),
        ([300, 1_911, 250], [250, 300, 300], -61),
        ([250, 1_911, 250], [250, 250, 250], -61),
    ];
    let least = [
        ([900, 0, 250], [0, 250, 250], -1),
        ([900, 1, 250], [0, 0, 0], 0),
    ];
    let mut all = on("a cable and a part of a second", link(62_501), &more);
    all.extend(on("a part of a second", link(1), &least));
    all
}

/// Nothing joins the nodes: the downtime is the whole year, 525,600 minutes. 10^12 ÷ 525,600 lies between 1,902,587 and
/// 1,902,588; 1,902,587 × 525,600 = 999,999,727,200.
fn whole_years() -> Vec<ByHand> {
    let year = -31_536_000;
    let cases = [
        ([MOST_CENTS, 0, MOST_CENTS], [MOST_CENTS; 3], year),
        ([MOST_CENTS, 0, 1], [525_600; 3], year),
        ([525_599, 0, 1], [525_599; 3], year),
        ([MOST_CENTS, 0, 1_902_587], [999_999_727_200; 3], year),
        ([MOST_CENTS, 0, 1_902_588], [MOST_CENTS; 3], year),
        ([MOST_CENTS, 1, 1], [525_600; 3], -31_535_999),
        ([MOST_CENTS, 60, 1], [525_599; 3], -31_535_940),
        ([MOST_CENTS, 31_535_999, 3], [3; 3], -1),
        ([MOST_CENTS, YEAR, MOST_CENTS], [0; 3], 0),
    ];
    on("no link", still(0), &cases)
}

/// A link that nothing fails: no downtime.
fn never_down() -> Vec<ByHand> {
    let cases = [
        ([MOST_CENTS, YEAR, MOST_CENTS], [0; 3], 31_536_000),
        ([MOST_CENTS, 1, MOST_CENTS], [0; 3], 1),
        ([MOST_CENTS, 0, MOST_CENTS], [0; 3], 0),
    ];
    on("no event", still(1), &cases)
}

/// Marked plan 9: q is one half, and the threshold of one whole leaves out both ends. Lower is 0, upper the whole year,
/// and the exact downtime half of it: 15,768,000 seconds, 262,800 minutes.
fn wide_bounds() -> Vec<ByHand> {
    let plan = Plan {
        threshold: WHOLE,
        ..link(500_000_000)
    };
    let cases = [
        ([MOST_CENTS, 0, 1], [0, 262_800, 525_600], -31_536_000),
        ([300_000, 0, 1], [0, 262_800, 300_000], -31_536_000),
        ([200_000, 0, 1], [0, 200_000, 200_000], -31_536_000),
        ([MOST_CENTS, 15_768_000, 1], [0, 0, 262_800], -15_768_000),
        ([MOST_CENTS, 15_767_999, 1], [0, 1, 262_801], -15_768_001),
        ([MOST_CENTS, 31_535_999, 1], [0, 0, 1], -1),
        ([MOST_CENTS, YEAR, 1], [0, 0, 0], 0),
    ];
    on("nothing examined", plan, &cases)
}

/// Terms of which each is refused: one of the three, or all, past its limit, by one or by far.
fn past_limits() -> [Terms; 9] {
    let cents = MOST_CENTS + 1;
    [
        [cents, 0, 0],
        [0, YEAR + 1, 0],
        [0, 0, cents],
        [u64::MAX, 0, 0],
        [0, u64::MAX, 0],
        [0, 0, u64::MAX],
        [cents, YEAR, MOST_CENTS],
        [MOST_CENTS, YEAR, cents],
        [cents, YEAR + 1, cents],
    ]
}

/// Contracts for pairs of the cable that are refused: 13 for two numbers that are no pair, whatever the terms, then 20.
pub fn refused() -> Vec<Refused> {
    let no_pairs = [(0, 0), (1, 0), (0, 2), (2, 3), (0, u64::MAX)];
    let most = [MOST_CENTS, YEAR, MOST_CENTS];
    let refused = |pair, terms, number| Refused {
        pair,
        contract: contract(terms),
        number,
    };
    let mut all = Vec::new();
    for terms in past_limits() {
        all.push(refused((0, 1), terms, 20));
        all.extend(no_pairs.map(|pair| refused(pair, terms, 13)));
    }
    all.extend(no_pairs.map(|pair| refused(pair, most, 13)));
    all
}
