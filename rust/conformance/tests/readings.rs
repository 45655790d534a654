//! The further readings against the account: topology list, conditional figure, witness, downtime.

use account::readings as own;
use account::{number, WHOLE};
use conformance::compare::{mostly_valid_lists, random_pair, words};
use conformance::{probe, readings, Tally};
use plans::valid::random_plan;
use plans::{Lists, Rng};

const PLANS: usize = 10_000;

fn topologies(rng: &mut Rng, lists: &Lists) -> u32 {
    let length = rng.pick(&[0, 3, 4, 7, 9, 30, 200, 40_000]);
    let mut list = words(rng, length);
    let mut own_list = list.clone();
    let expected = own::topologies(&lists.lent(), &mut own_list);
    let (refusal, entries) = readings::topologies(&lists.lent(), &mut list);
    assert_eq!(refusal, number(&expected), "topologies of {lists:?}");
    assert_eq!(entries, expected.unwrap_or(0), "topologies of {lists:?}");
    assert_eq!(list, own_list, "topologies of {lists:?}");
    refusal
}

fn figure(rng: &mut Rng, lists: &Lists) -> u32 {
    let (v, w) = random_pair(rng, lists.header.nodes);
    let expected = own::figure(&lists.lent(), v, w);
    let (refusal, bits) = readings::figure(&lists.lent(), v, w);
    assert_eq!(refusal, number(&expected), "figure {v} {w} of {lists:?}");
    let own_bits = match expected {
        Ok(Some(figure)) => [1, figure.disconnected.to_bits(), figure.examined.to_bits()],
        _ => [0; 3],
    };
    assert_eq!(bits, own_bits, "figure {v} {w} of {lists:?}");
    refusal
}

fn witness(rng: &mut Rng, lists: &Lists) -> u32 {
    let (v, w) = random_pair(rng, lists.header.nodes);
    let expected = own::witness(&lists.lent(), v, w);
    let words = expected.map_or([0; 2], |set| [set as u64, (set >> 64) as u64]);
    let answer = readings::witness(&lists.lent(), v, w);
    assert_eq!(
        answer,
        (number(&expected), words),
        "witness {v} {w} of {lists:?}"
    );
    answer.0
}

fn compare_many(stream: u64, call: fn(&mut Rng, &Lists) -> u32, more: &[u32]) {
    let mut rng = Rng::for_stream(stream);
    let mut tally = Tally::default();
    for _ in 0..PLANS {
        let lists = mostly_valid_lists(&mut rng);
        tally.add(call(&mut rng, &lists));
    }
    let lists_answers = [0, 4, 5, 6, 7, 8, 9, 10, 12];
    tally.expect(lists_answers.iter().chain(more).copied());
}

#[test]
fn topologies_agree() {
    compare_many(41, topologies, &[15]);
}

#[test]
fn figures_agree() {
    compare_many(42, figure, &[13]);
}

#[test]
fn witnesses_agree() {
    compare_many(43, witness, &[13, 14]);
}

#[test]
fn downtimes_agree() {
    let mut rng = Rng::for_stream(44);
    let mut tally = Tally::default();
    let fixed = [
        0,
        1,
        4,
        31_709_791_983,
        31_709_791_984,
        WHOLE - 1,
        WHOLE,
        WHOLE + 1,
        u64::MAX,
    ];
    for _ in 0..20_000 {
        let random = [rng.between(0, WHOLE), rng.bits(), rng.pick(&fixed)];
        let (lower, upper) = (rng.pick(&random), rng.pick(&random));
        let expected = own::downtime(lower, upper);
        let seconds = expected.map_or([0; 2], |(lower, upper)| [lower, upper]);
        let answer = readings::downtime(lower, upper);
        assert_eq!(answer, (number(&expected), seconds), "{lower} {upper}");
        tally.add(answer.0);
    }
    tally.expect([0, 16]);
}

#[test]
fn the_masses_of_the_list_sum_to_those_of_the_run() {
    let mut rng = Rng::for_stream(45);
    for _ in 0..2_000 {
        let plan = random_plan(&mut rng);
        let lists = Lists::of(&plan);
        let mut list = vec![0; 40_000];
        let (refusal, entries) = readings::topologies(&lists.lent(), &mut list);
        if refusal != 0 {
            continue;
        }
        let (mut lower, mut upper) = (vec![0; 2016], vec![0; 2016]);
        let (_, run) = probe::run(&lists.lent(), &mut lower, &mut upper);
        let masses = list.chunks_exact(4).take(entries as usize).map(|e| e[3]);
        assert_eq!(masses.sum::<u64>(), run[2], "list of {lists:?}");
    }
}
