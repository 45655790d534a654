//! Random equipment sheets that meet every rule, or every rule but the number of lines.

use account::sheet::{Line, Sheet};
use account::CERTAIN;

use crate::rng::Rng;
use crate::valid::random_members;

/// How the three numbers of a line are chosen.
#[derive(Clone, Copy)]
enum Kind {
    /// One product, and each time other factors.
    Equal(u64),
    /// A few products, so that many lines are equal.
    Few,
    /// A factor of 0 beside any others.
    Zero,
    /// 10^9, and products next below it.
    Limit,
    /// FIT, hours and kilometres as planners have them.
    Figures,
    /// Factors of at most 3.
    Small,
}

/// A random sheet that meets every rule.
pub fn random_sheet(rng: &mut Rng) -> Sheet {
    let lines = match rng.below(16) {
        0 => 0,
        1 => 128,
        2 => rng.between(100, 127),
        3..=5 => rng.between(9, 60),
        _ => rng.between(1, 8),
    };
    sheet_of(rng, lines as usize)
}

/// A random sheet of so many lines, each of which meets every rule.
pub fn sheet_of(rng: &mut Rng, lines: usize) -> Sheet {
    let (nodes, links) = random_counts(rng);
    let equal = rng.between(1, CERTAIN);
    let kinds = [
        Kind::Equal(equal),
        Kind::Few,
        Kind::Zero,
        Kind::Limit,
        Kind::Figures,
        Kind::Small,
    ];
    let mixed = rng.one_in(3);
    let one = rng.pick(&kinds);
    let mut line = |_| {
        let kind = if mixed { rng.pick(&kinds) } else { one };
        random_line(rng, kind, nodes, links)
    };
    Sheet {
        nodes,
        links,
        lines: (0..lines).map(&mut line).collect(),
    }
}

/// Counts of nodes and links: at their limits, and a few. A sheet may have links without two nodes.
fn random_counts(rng: &mut Rng) -> (usize, usize) {
    let (nodes, links) = match rng.below(6) {
        0 => (rng.between(63, 64), rng.between(127, 128)),
        1 => (rng.between(1, 64), rng.between(0, 128)),
        2 => (1, rng.between(0, 128)),
        _ => (rng.between(1, 10), rng.between(0, 20)),
    };
    (nodes as usize, links as usize)
}

fn random_line(rng: &mut Rng, kind: Kind, nodes: usize, links: usize) -> Line {
    let [fit, hours, length] = random_factors(rng, kind);
    let (nodes, links) = random_members(rng, nodes, links);
    Line {
        fit,
        hours,
        length,
        nodes,
        links,
    }
}

fn random_factors(rng: &mut Rng, kind: Kind) -> [u32; 3] {
    match kind {
        Kind::Equal(product) => factors_of(rng, product),
        Kind::Few => {
            let product = rng.pick(&[1, 6, 90_000, 90_000, 13_680, CERTAIN]);
            factors_of(rng, product)
        }
        Kind::Zero => {
            let any = [0, 1, 24, u32::MAX, rng.bits() as u32];
            let zero = rng.below(3);
            [0, 1, 2].map(|place| match place == zero {
                true => 0,
                false => rng.pick(&any),
            })
        }
        Kind::Limit if rng.one_in(2) => factors_of(rng, CERTAIN),
        Kind::Limit => next_to_limit(rng, 0),
        Kind::Figures => [20_000, 48, 800].map(|most| rng.between(1, most) as u32),
        Kind::Small => [3; 3].map(|most| rng.between(0, most) as u32),
    }
}

/// Three factors of a product that is not 0.
fn factors_of(rng: &mut Rng, product: u64) -> [u32; 3] {
    let mut factors = [1; 3];
    let mut rest = product;
    for prime in [2, 3, 5, 7, 11, 13] {
        while rest.is_multiple_of(prime) {
            rest /= prime;
            factors[rng.below(3)] *= prime;
        }
    }
    factors[rng.below(3)] *= rest;
    factors.map(|factor| factor as u32)
}

/// Two factors, and the largest third one with a product of at most 10^9, or one that is larger by so much.
pub(crate) fn next_to_limit(rng: &mut Rng, above: u64) -> [u32; 3] {
    let (one, other) = (rng.between(1, 1_000), rng.between(1, 1_000));
    let third = CERTAIN / (one * other) + above;
    let mut factors = [one, other, third].map(|factor| factor as u32);
    factors.swap(2, rng.below(3));
    factors
}
