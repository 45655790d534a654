//! Witness, downtime and credits, by the proved code.

use account::bounds::Bounds;
use account::credit::Contract;
use account::plan::pairs;
use account::WHOLE;
use conformance::{probe, readings};
use plans::Lists;

use crate::progress::Progress;

/// The seconds in a year that two masses stand for: the lower one's, rounded down, then the upper one's, rounded up.
pub fn downtime(lower: u64, upper: u64) -> [u64; 2] {
    assert!(lower <= WHOLE && upper <= WHOLE, "the bounds of a pair");
    readings::downtime(lower, upper).1
}

/// What a contract brings for a pair: its lower and upper downtime in seconds, the credit for each in cents, and the
/// headroom in seconds.
pub struct Due {
    pub seconds: [u64; 2],
    pub credits: [u64; 2],
    pub headroom: i64,
}

/// What a contract brings for two nodes of a plan, or the refusal's number.
pub fn due(lists: &Lists, (v, w): (usize, usize), contract: &Contract) -> Result<Due, u32> {
    let (v, w) = (v as u64, w as u64);
    let (refusal, [lower, upper, headroom]) = readings::credit(&lists.lent(), v, w, contract);
    if refusal != 0 {
        return Err(refusal);
    }
    let (refusal, bounds) = probe::pair(&lists.lent(), v, w);
    assert_eq!(refusal, 0, "the bounds of a pair that has credits");
    Ok(Due {
        seconds: downtime(bounds[0], bounds[1]),
        credits: [lower, upper],
        headroom: headroom as i64,
    })
}

/// For each pair, in the order of pairs, the failing events of the first examined scenario that disconnects it. An
/// examined scenario has a mass of at least 1, so nothing is looked for where the lower bound is 0.
pub fn witnesses(lists: &Lists, bounds: &[Bounds], progress: &mut Progress) -> Vec<Option<u128>> {
    let pairs = pairs(lists.header.nodes as usize);
    let mut witness = |(i, bounds): (usize, &Bounds)| {
        if bounds.lower == 0 {
            return None;
        }
        progress.pair(i + 1, pairs.len());
        let (v, w) = pairs[i];
        match readings::witness(&lists.lent(), v as u64, w as u64) {
            (0, [low, high]) => Some(u128::from(high) << 64 | u128::from(low)),
            _ => None,
        }
    };
    bounds.iter().enumerate().map(&mut witness).collect()
}

#[cfg(test)]
mod tests {
    use account::readings::witness;
    use conformance::proved;
    use plans::valid::{plan_of_size, SMALL};
    use plans::{Lists, Rng};

    use super::{downtime, witnesses, Progress};

    #[test]
    fn a_witness_is_the_first_scenario_that_disconnects() {
        let mut rng = Rng::for_stream(74);
        let (mut found, mut none) = (0, 0);
        for _ in 0..300 {
            let plan = plan_of_size(&mut rng, SMALL);
            let lists = Lists::of(&plan);
            let bounds = proved::run(&lists).1;
            let witnesses = witnesses(&lists, &bounds, &mut Progress::unseen());
            for ((v, w), shown) in plan.pairs().into_iter().zip(witnesses) {
                let first = witness(&lists.lent(), v as u64, w as u64).ok();
                assert_eq!(shown, first, "{v} {w} of {plan:?}");
                found += u32::from(shown.is_some());
                none += u32::from(shown.is_none());
            }
        }
        assert!(
            found > 100 && none > 100,
            "{found} with a witness, {none} without"
        );
    }

    #[test]
    fn seconds_of_a_year() {
        let tenth = account::WHOLE / 10;
        assert_eq!(downtime(tenth, account::WHOLE), [3_153_600, 31_536_000]);
        assert_eq!(downtime(0, 4), [0, 1]);
    }
}
