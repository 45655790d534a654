//! Several thresholds for one plan, request U8: a run at each of them, and the blocks of bounds one after another.

use crate::bounds::Outcome;
use crate::calls::{run_into, test_room};
use crate::plan::{Header, Lent, Plan};
use crate::refusal::{demand, Refusal};
use crate::topology::Out;
use crate::WHOLE;

/// The most thresholds of one call.
pub const MOST_THRESHOLDS: usize = 16;

/// The plan of lent lists whose own threshold is not taken: the tests of the lists but 5. The thresholds of the call stand in
/// its place.
pub fn plan_of(lent: &Lent) -> Result<Plan, Refusal> {
    let header = Header {
        threshold: WHOLE,
        ..lent.header
    };
    Lent { header, ..*lent }.plan()
}

/// The test of the thresholds: 23 where there is none, where there are more than 16, where one is outside 1 to 10^18, and
/// where one is not below the one before.
pub fn test_thresholds(thresholds: &[u64]) -> Result<(), Refusal> {
    let number = (1..=MOST_THRESHOLDS).contains(&thresholds.len());
    let range = thresholds.iter().all(|t| (1..=WHOLE).contains(t));
    let falling = thresholds.windows(2).all(|two| two[1] < two[0]);
    demand(number && range && falling, Refusal::Thresholds)
}

/// The run at each threshold: the tests of the lists but 5, then 23, then 12 for the two lists of bounds. Block i of each list
/// is that of threshold i. The outcomes past the last threshold are all 0.
pub fn run_thresholds(
    lent: &Lent,
    thresholds: &[u64],
    lower: &mut [u64],
    upper: &mut [u64],
) -> Result<[Outcome; MOST_THRESHOLDS], Refusal> {
    let mut plan = plan_of(lent)?;
    test_thresholds(thresholds)?;
    test_room(&plan, thresholds.len(), lower, upper)?;
    let pairs = plan.pairs().len();
    let mut outcomes = [Outcome::default(); MOST_THRESHOLDS];
    for (i, &threshold) in thresholds.iter().enumerate() {
        plan.threshold = threshold;
        let block = i * pairs..(i + 1) * pairs;
        let (lower, upper) = (&mut lower[block.clone()], &mut upper[block]);
        outcomes[i] = run_into(&plan, Out::NOTHING, lower, upper);
    }
    Ok(outcomes)
}
