//! Each call of `probe` beside the account's, on the same input and on lent memory with the same pattern. Each
//! function returns the refusal's number and panics where anything differs.

use std::fmt::Debug;

use account::bounds::Outcome;
use account::rounds::{reach as own_reach, Network};
use account::thresholds::run_thresholds as own_run_thresholds;
use account::windows::run_at as own_run_at;
use account::{calls, number, Header, Lent, Plan, Refusal};
use plans::damage::damaged_lists;
use plans::valid::random_plan;
use plans::weeks::Week;
use plans::{Lists, Rng};

use crate::{probe, rounds, thresholds, windows};

/// A length for a lent list: most often enough, sometimes too short.
pub fn lent_length(rng: &mut Rng, needed: usize) -> usize {
    match rng.below(12) {
        0 => needed.saturating_sub(1),
        1 => rng.below(needed + 1),
        2..=6 => needed,
        _ => needed + rng.below(9),
    }
}

/// Random lists, three in four of them valid.
pub fn mostly_valid_lists(rng: &mut Rng) -> Lists {
    let plan = random_plan(rng);
    mostly_valid_lists_of(rng, &plan)
}

/// The lists of a plan, three times in four valid.
pub fn mostly_valid_lists_of(rng: &mut Rng, plan: &Plan) -> Lists {
    match rng.below(4) {
        0 => damaged_lists(rng, plan),
        1 => Lists::of(plan).with_spare(rng),
        _ => Lists::of(plan),
    }
}

/// Lent words with a random pattern.
pub fn words(rng: &mut Rng, length: usize) -> Vec<u64> {
    (0..length).map(|_| rng.bits()).collect()
}

/// A lent list after words are laid down in it, as far as it has room; other entries as before.
pub fn laid_down(lent: &[u64], words: &[u64]) -> Vec<u64> {
    let mut after = lent.to_vec();
    for (entry, &word) in after.iter_mut().zip(words) {
        *entry = word;
    }
    after
}

fn numbers_of(header: Header) -> [u64; 5] {
    [
        header.nodes,
        header.links,
        header.events,
        header.threshold,
        header.cap,
    ]
}

/// The check of a file.
pub fn check(bytes: &[u8]) -> u32 {
    let refusal = probe::check(bytes);
    assert_eq!(refusal, calls::check(bytes), "check of {bytes:?}");
    refusal
}

/// The reader.
pub fn read(rng: &mut Rng, bytes: &[u8]) -> u32 {
    let count = |at: usize| usize::from(bytes.get(at).copied().unwrap_or(0));
    let length = lent_length(rng, 2 * count(6));
    let mut links = rng.bytes(length);
    let length = lent_length(rng, 4 * count(7));
    let mut events = words(rng, length);
    let (mut own_links, mut own_events) = (links.clone(), events.clone());
    let expected = calls::read(bytes, &mut own_links, &mut own_events);
    let (refusal, numbers) = probe::read(bytes, &mut links, &mut events);
    assert_eq!(refusal, number(&expected), "read of {bytes:?}");
    assert_eq!(
        numbers,
        expected.map_or([0; 5], numbers_of),
        "read of {bytes:?}"
    );
    assert_eq!(
        (links, events),
        (own_links, own_events),
        "read of {bytes:?}"
    );
    refusal
}

/// The writer.
pub fn write(rng: &mut Rng, lists: &Lists) -> u32 {
    let lent = lists.lent();
    let needed = lent
        .plan()
        .map_or(40, |plan| account::file::layout(&plan).len());
    let length = lent_length(rng, needed);
    let mut out = rng.bytes(length);
    let mut own_out = out.clone();
    let expected = calls::write(&lent, &mut own_out);
    let (refusal, size) = probe::write(&lent, &mut out);
    assert_eq!(refusal, number(&expected), "write of {lists:?}");
    assert_eq!(size, expected.map_or(0, |n| n as u64), "write of {lists:?}");
    assert_eq!(out, own_out, "write of {lists:?}");
    refusal
}

/// A call that fills two lists of bounds of these lengths and gives count, complete and E, or several of them, beside the
/// account's.
fn compare_runs<const N: usize>(
    rng: &mut Rng,
    lists: &Lists,
    told: &dyn Debug,
    lengths: [usize; 2],
    own: impl FnOnce(&Lent, &mut [u64], &mut [u64]) -> Result<[u64; N], Refusal>,
    call: impl FnOnce(&Lent, &mut [u64], &mut [u64]) -> (u32, [u64; N]),
) -> u32 {
    let lent = lists.lent();
    let [mut lower, mut upper] = lengths.map(|length| words(rng, length));
    let (mut own_lower, mut own_upper) = (lower.clone(), upper.clone());
    let expected = own(&lent, &mut own_lower, &mut own_upper);
    let (refusal, result) = call(&lent, &mut lower, &mut upper);
    assert_eq!(refusal, number(&expected), "{told:?} of {lists:?}");
    assert_eq!(result, expected.unwrap_or([0; N]), "{told:?} of {lists:?}");
    assert_eq!(
        (lower, upper),
        (own_lower, own_upper),
        "{told:?} of {lists:?}"
    );
    refusal
}

/// Lengths for two lists of bounds: most often enough for so many entries, sometimes too short.
pub fn two_lengths(rng: &mut Rng, needed: usize) -> [usize; 2] {
    [lent_length(rng, needed), lent_length(rng, needed)]
}

/// Lengths for the two lists of one run.
fn run_lengths(rng: &mut Rng, lists: &Lists) -> [usize; 2] {
    let plan = lists.lent().plan();
    two_lengths(rng, plan.map_or(10, |plan| plan.pairs().len()))
}

/// The run.
pub fn run(rng: &mut Rng, lists: &Lists) -> u32 {
    let lengths = run_lengths(rng, lists);
    let own = |lent: &Lent, lower: &mut [u64], upper: &mut [u64]| {
        calls::run(lent, lower, upper).map(Outcome::words)
    };
    compare_runs(rng, lists, &"run", lengths, own, probe::run)
}

/// The run with windows.
pub fn run_at(rng: &mut Rng, lists: &Lists, week: &Week) -> u32 {
    let (list, minute) = (&week.windows, week.minute);
    let lengths = run_lengths(rng, lists);
    compare_runs(
        rng,
        lists,
        week,
        lengths,
        |lent, lower, upper| own_run_at(lent, list, minute, lower, upper).map(Outcome::words),
        |lent, lower, upper| windows::run_at(lent, list, minute, lower, upper),
    )
}

/// The runs at several thresholds, with lists of bounds of these lengths.
pub fn run_thresholds(rng: &mut Rng, lists: &Lists, list: &[u64], lengths: [usize; 2]) -> u32 {
    compare_runs(
        rng,
        lists,
        &list,
        lengths,
        |lent, lower, upper| own_run_thresholds(lent, list, lower, upper).map(thresholds::words_of),
        |lent, lower, upper| thresholds::run_thresholds(lent, list, lower, upper),
    )
}

/// Two numbers for a pair: most often a pair of the plan, sometimes none.
pub fn random_pair(rng: &mut Rng, nodes: u64) -> (u64, u64) {
    let past = [
        0,
        nodes.wrapping_sub(1),
        nodes,
        nodes.wrapping_add(1),
        63,
        64,
        u64::MAX,
    ];
    if rng.one_in(4) || !(2..=64).contains(&nodes) {
        return (rng.pick(&past), rng.pick(&past));
    }
    let w = rng.between(1, nodes - 1);
    (rng.between(0, w - 1), w)
}

/// The bounds of one pair.
pub fn pair(rng: &mut Rng, lists: &Lists) -> u32 {
    let (v, w) = random_pair(rng, lists.header.nodes);
    let expected = calls::pair(&lists.lent(), v, w);
    let (refusal, result) = probe::pair(&lists.lent(), v, w);
    assert_eq!(refusal, number(&expected), "pair {v} {w} of {lists:?}");
    let own_result = expected.map_or([0; 2], |bounds| [bounds.lower, bounds.upper]);
    assert_eq!(result, own_result, "pair {v} {w} of {lists:?}");
    refusal
}

/// The reach of a node, on a list of any length up to four words.
pub fn reach(rng: &mut Rng, network: &Network, v: u64) -> u32 {
    let length = rng.pick(&[0, 1, 2, 2, 2, 3, 4]);
    let mut result = words(rng, length);
    let expected = own_reach(network, v);
    let own_words = expected.map_or([0; 2], |reach| [reach.nodes, reach.rounds]);
    let own_result = laid_down(&result, &own_words);
    let refusal = rounds::reach(network, v, &mut result);
    assert_eq!(refusal, number(&expected), "reach of {v} in {network:?}");
    assert_eq!(result, own_result, "reach of {v} in {network:?}");
    refusal
}
