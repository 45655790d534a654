//! Random contracts near the downtime of a pair, valid and damaged.

use account::credit::Contract;

use crate::rng::Rng;

/// The largest fee and the largest rate, in cents.
pub(crate) const MOST_CENTS: u64 = 1_000_000_000_000;

/// The largest limit, in seconds.
pub(crate) const YEAR: u64 = 31_536_000;

/// Cents within their limit: at both ends of it, or of any magnitude up to a power of ten.
fn random_cents(rng: &mut Rng, power: u64) -> u64 {
    let magnitude = 10u64.pow(rng.between(0, power) as u32);
    match rng.below(8) {
        0 => rng.pick(&[0, 1, MOST_CENTS - 1, MOST_CENTS]),
        _ => rng.between(0, magnitude),
    }
}

/// A limit: most often at a downtime, or up to two minutes or an hour below it, sometimes above it or anywhere.
fn random_limit(rng: &mut Rng, seconds: u64) -> u64 {
    let apart = rng.pick(&[0, 1, 59, 60, 61, 120, 121, 3_600]);
    let limit = match rng.below(10) {
        0 => rng.pick(&[0, 1, YEAR - 1, YEAR]),
        1 => rng.between(0, YEAR),
        2 => seconds + apart,
        3 | 4 => rng.between(0, seconds),
        _ => seconds.saturating_sub(apart),
    };
    limit.min(YEAR)
}

/// A fee: at the rate times the minutes, one cent beside it, up to twice as much, or any.
fn random_fee(rng: &mut Rng, product: u64) -> u64 {
    let fee = match rng.below(8) {
        0 => product,
        1 => product.saturating_sub(1),
        2 => product + 1,
        3..=5 => product + rng.between(0, product),
        _ => random_cents(rng, 12),
    };
    fee.min(MOST_CENTS)
}

/// A contract within its limits, near a downtime of so many seconds.
pub fn random_contract(rng: &mut Rng, seconds: u64) -> Contract {
    let dearest = Contract {
        fee: MOST_CENTS,
        limit: random_limit(rng, seconds),
        rate: random_cents(rng, 8),
    };
    let fee = random_fee(rng, dearest.for_seconds(seconds));
    Contract { fee, ..dearest }
}

/// A contract with one to three of its terms past their limits.
pub fn damaged_contract(rng: &mut Rng, mut contract: Contract) -> Contract {
    for _ in 0..rng.between(1, 3) {
        let (term, most) = match rng.below(3) {
            0 => (&mut contract.fee, MOST_CENTS),
            1 => (&mut contract.limit, YEAR),
            _ => (&mut contract.rate, MOST_CENTS),
        };
        *term = rng.pick(&[most + 1, 1 << 40, 1 << 63, u64::MAX]);
    }
    contract
}
