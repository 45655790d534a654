//! Service credits of a contract, request U6: in cents, for the lower and the upper downtime of a pair, and the headroom.

use crate::bounds;
use crate::calls::test_pair;
use crate::plan::Lent;
use crate::readings::{downtime, YEAR_SECONDS};
use crate::refusal::{demand, Refusal};

/// The most cents of a fee and of a rate.
pub const MOST_CENTS: u64 = 1_000_000_000_000;

/// The seconds of a minute.
pub const MINUTE_SECONDS: u64 = 60;

/// A contract: a yearly fee in cents, a limit in seconds of downtime a year, and a rate in cents for each started minute
/// above the limit. Any number may be given; the test is below.
#[derive(Clone, Copy, Debug, PartialEq, Eq)]
pub struct Contract {
    pub fee: u64,
    pub limit: u64,
    pub rate: u64,
}

/// The credits for the lower and for the upper downtime in cents, and limit minus upper downtime in seconds.
#[derive(Clone, Copy, Debug, PartialEq, Eq)]
pub struct Credits {
    pub lower: u64,
    pub upper: u64,
    pub headroom: i64,
}

impl Contract {
    /// The test of the terms: 20.
    pub fn test(&self) -> Result<(), Refusal> {
        let within =
            self.fee <= MOST_CENTS && self.rate <= MOST_CENTS && self.limit <= YEAR_SECONDS;
        demand(within, Refusal::Terms)
    }

    /// The credit for so many started minutes above the limit: the rate times these minutes, or the fee if less.
    pub fn for_minutes(&self, minutes: u64) -> u64 {
        let product = u128::from(self.rate) * u128::from(minutes);
        product.min(u128::from(self.fee)) as u64
    }

    /// The credit for a downtime in whole seconds.
    pub fn for_seconds(&self, seconds: u64) -> u64 {
        let above = seconds.saturating_sub(self.limit);
        self.for_minutes(above.div_ceil(MINUTE_SECONDS))
    }

    /// The headroom: limit minus upper downtime.
    pub fn headroom(&self, upper: u64) -> i64 {
        let difference = i128::from(self.limit) - i128::from(upper);
        i64::try_from(difference).expect("two numbers of seconds in a year")
    }
}

/// The credits of a contract for a pair: the tests of the lists, 13, then 20.
pub fn credit(lent: &Lent, v: u64, w: u64, contract: &Contract) -> Result<Credits, Refusal> {
    let plan = lent.plan()?;
    let (v, w) = test_pair(plan.nodes, v, w)?;
    contract.test()?;
    let bounds = bounds::pair(&plan, v, w);
    let (lower, upper) = downtime(bounds.lower, bounds.upper)?;
    Ok(Credits {
        lower: contract.for_seconds(lower),
        upper: contract.for_seconds(upper),
        headroom: contract.headroom(upper),
    })
}
