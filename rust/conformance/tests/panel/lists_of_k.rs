//! Lists of go-on calls beside the account: on one walk, and on several walks that draw on one quota.

use account::panel::Quota;
use account::walk::walk;
use account::{Plan, LARGEST_CAP};
use conformance::Tally;
use plans::examples::halves;
use plans::valid::{plan_of_size, random_plan, Size, SMALL, TINY};
use plans::Rng;

use crate::both::{Both, Quotas};
use crate::{begun, go_on, look};

/// A list of k by a name: the next k, from how many calls were made and how many ends the walk still has.
type Kind = (&'static str, fn(usize, u64) -> u64);

const PRIMES: [u64; 16] = [2, 3, 5, 7, 11, 13, 17, 19, 23, 29, 31, 37, 41, 43, 47, 53];

const KINDS: [Kind; 6] = [
    ("1s", |_, _| 1),
    ("primes", |calls, _| PRIMES[calls % PRIMES.len()]),
    ("0s between", |calls, _| match calls % 3 {
        2 => PRIMES[calls / 3 % PRIMES.len()],
        _ => 0,
    }),
    (
        "all but one, then past the end",
        |calls, left| match calls {
            0 => left - 1,
            _ => left + 1,
        },
    ),
    ("exactly what is left", |_, left| left),
    ("2^64 - 1", |_, _| u64::MAX),
];

/// Goes on by one kind of list until the walk has ended, then three times more; returns the number of calls.
fn follow(plan: &Plan, (name, next): Kind) -> usize {
    let mut both = Both::begin(plan);
    let mut quotas = Quotas::of(Quota::FULL.left);
    let mut calls = 0;
    while both.own.left() > 0 {
        let k = next(calls, both.own.left());
        assert_eq!(both.go_on(&mut quotas, k), 0, "{name}");
        calls += 1;
    }
    for k in [1, 0, u64::MAX] {
        assert_eq!(both.go_on(&mut quotas, k), 0, "{name}");
    }
    let reached = both.own.reached();
    assert_eq!(quotas.own.left, 10_000_000 - reached, "{name}");
    calls
}

/// A plan whose walk has at most so many ends under its cap.
fn short_plan(rng: &mut Rng, size: Size, most: u64) -> Plan {
    let mut plan = plan_of_size(rng, size);
    if walk(&plan).ends > most {
        plan.cap = rng.between(1, most);
    }
    plan
}

#[test]
fn every_kind_of_list_on_small_plans() {
    let mut rng = Rng::for_stream(112);
    let mut calls = 0;
    for _ in 0..400 {
        let size = rng.pick(&[TINY, SMALL]);
        let plan = short_plan(&mut rng, size, 60);
        calls += KINDS.map(|kind| follow(&plan, kind)).iter().sum::<usize>();
    }
    assert!(calls > 5_000, "{calls} calls");
}

#[test]
fn longer_walks_and_larger_plans() {
    let mut rng = Rng::for_stream(113);
    for _ in 0..400 {
        let plan = random_plan(&mut rng);
        for kind in [KINDS[1], KINDS[3], KINDS[5]] {
            follow(&plan, kind);
        }
    }
}

/// A k for a walk: none, a few, about what is left, or far more.
fn random_k(rng: &mut Rng, left: u64) -> u64 {
    match rng.below(8) {
        0 | 1 => 0,
        2 => 1,
        3 => rng.pick(&PRIMES),
        4 => left,
        5 => left + 1,
        6 => rng.pick(&[1 << 32, 1 << 63, u64::MAX]),
        _ => rng.between(0, left),
    }
}

/// How often calls on an empty quota were of each kind.
#[derive(Default)]
struct Dry {
    no_k: u32,
    ended: u32,
    between: u32,
    inside: u32,
}

impl Dry {
    fn count(&mut self, both: &Both, k: u64) {
        let (left, reached) = (both.own.left(), both.own.reached());
        let counter = match (left, k, reached) {
            (0, _, _) => &mut self.ended,
            (_, 0, _) => &mut self.no_k,
            (_, _, 0) => &mut self.between,
            _ => &mut self.inside,
        };
        *counter += 1;
    }
}

/// Walks of small plans in turns, on a quota from 0 to a quarter more than all their ends.
fn take_turns(rng: &mut Rng, tally: &mut Tally, dry: &mut Dry) {
    let mut walks: Vec<Both> = (0..rng.between(2, 4))
        .map(|_| Both::begin(&short_plan(rng, TINY, 40)))
        .collect();
    let ends: u64 = walks.iter().map(|walk| walk.own.left()).sum();
    let start = rng.between(0, ends + ends / 4);
    let mut quotas = Quotas::of(start);
    for _ in 0..16 {
        let turn = rng.below(walks.len());
        let k = random_k(rng, walks[turn].own.left());
        if quotas.own.left == 0 {
            dry.count(&walks[turn], k);
        }
        tally.add(walks[turn].go_on(&mut quotas, k));
    }
    walks.iter().for_each(Both::expect_looks);
    let reached: u64 = walks.iter().map(|walk| walk.own.reached()).sum();
    assert_eq!(quotas.words[0], start - reached);
}

#[test]
fn several_walks_in_turns_on_one_quota() {
    let mut rng = Rng::for_stream(114);
    let (mut tally, mut dry) = (Tally::default(), Dry::default());
    for _ in 0..1_000 {
        take_turns(&mut rng, &mut tally, &mut dry);
    }
    tally.expect_each(&[0, 19], 1_000);
    let Dry {
        no_k,
        ended,
        between,
        inside,
    } = dry;
    for (name, count) in [
        ("k = 0", no_k),
        ("an ended walk", ended),
        ("a walk of 0 ends", between),
        ("the middle of a walk", inside),
    ] {
        assert!(count >= 100, "{name} with an empty quota: {count}");
    }
}

/// 128 events of one half: no walk of a million ends examines anything. Ten of them take the whole quota.
#[test]
fn the_quota_is_ten_million_ends() {
    let mut quota = [10_000_000];
    for _ in 0..10 {
        let mut state = begun(&halves());
        assert_eq!(go_on(&mut state, &mut quota, u64::MAX), (0, LARGEST_CAP));
        assert_eq!(look(&state), (0, [0; 3]));
    }
    assert_eq!(quota, [0]);
    let mut state = begun(&halves());
    assert_eq!(go_on(&mut state, &mut quota, 1), (19, 0));
    assert!(state == begun(&halves()));
}
