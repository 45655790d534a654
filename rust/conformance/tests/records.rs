//! The calls that go by way of records, on plan files, valid and damaged: against the account, and against the calls
//! on words.

use account::file::{layout, parse};
use account::{calls, number};
use conformance::compare::{lent_length, words};
use conformance::{probe, proved, Tally};
use plans::damage::random_file;
use plans::valid::{plan_of_size, FULL};
use plans::{Lists, Rng};

const FILES: usize = 10_000;

/// A random file; one in fifty has all the links and events that a plan may have.
fn random_bytes(rng: &mut Rng) -> Vec<u8> {
    if rng.one_in(50) {
        return layout(&plan_of_size(rng, FULL));
    }
    random_file(rng)
}

/// The run on a file beside the account's, and beside the reader and the run on words.
fn run_plan(rng: &mut Rng, bytes: &[u8]) -> u32 {
    let plan = parse(bytes);
    let needed = plan.as_ref().map_or(10, |plan| plan.pairs().len());
    let lengths = [lent_length(rng, needed), lent_length(rng, needed)];
    let (lower, upper) = (words(rng, lengths[0]), words(rng, lengths[1]));
    let (mut low, mut high) = (lower.clone(), upper.clone());
    let (refusal, result) = probe::run_plan(bytes, &mut low, &mut high);

    let (mut own_low, mut own_high) = (lower.clone(), upper.clone());
    let expected = plan
        .and_then(|plan| calls::run(&Lists::of(&plan).lent(), &mut own_low, &mut own_high))
        .map(|run| [run.count, run.complete, run.mass]);
    assert_eq!(refusal, number(&expected), "run of {bytes:?}");
    assert_eq!(result, expected.unwrap_or([0; 3]), "run of {bytes:?}");
    assert_eq!((&low, &high), (&own_low, &own_high), "run of {bytes:?}");

    let (mut words_low, mut words_high) = (lower, upper);
    let answer = match proved::read(bytes) {
        Ok(lists) => probe::run(&lists.lent(), &mut words_low, &mut words_high),
        Err(refusal) => (refusal, [0; 3]),
    };
    assert_eq!((refusal, result), answer, "run of {bytes:?}");
    assert_eq!((low, high), (words_low, words_high), "run of {bytes:?}");
    refusal
}

/// The copy of a file: its own bytes where it is accepted, and then 12 where the output is too short.
fn copy_plan(rng: &mut Rng, bytes: &[u8]) -> u32 {
    let length = lent_length(rng, bytes.len());
    let mut out = rng.bytes(length);
    let mut own_out = out.clone();
    let expected =
        parse(bytes).and_then(|plan| calls::write(&Lists::of(&plan).lent(), &mut own_out));
    let (refusal, size) = probe::copy_plan(bytes, &mut out);
    assert_eq!(refusal, number(&expected), "copy of {bytes:?}");
    assert_eq!(size, expected.map_or(0, |n| n as u64), "copy of {bytes:?}");
    assert_eq!(out, own_out, "copy of {bytes:?}");
    if refusal == 0 {
        assert_eq!(&out[..bytes.len()], bytes);
    }
    refusal
}

/// Holds one call to the account on many files, where every refusal up to 12 is met.
fn compare_many(stream: u64, call: fn(&mut Rng, &[u8]) -> u32) {
    let mut rng = Rng::for_stream(stream);
    let mut tally = Tally::default();
    for _ in 0..FILES {
        let bytes = random_bytes(&mut rng);
        tally.add(call(&mut rng, &bytes));
    }
    tally.expect(0..=12);
}

#[test]
fn run_plan_agrees() {
    compare_many(81, run_plan);
}

#[test]
fn copy_plan_agrees() {
    compare_many(82, copy_plan);
}
