//! Further readings of a plan: topology list, conditional figure, witness, downtime.

use crate::bounds::bounds_over;
use crate::calls::test_pair;
use crate::plan::Lent;
use crate::refusal::{demand, Refusal};
use crate::topology::{components, effective, Out, Topology};
use crate::walk::{walk, Scenario};
use crate::{CERTAIN, WHOLE};

/// The words of one entry of the topology list: nodes, links 0 to 63, links 64 to 127, mass.
pub const ENTRY_WORDS: usize = 4;

/// The seconds of 365 days.
pub const YEAR_SECONDS: u64 = 31_536_000;

/// The three words of a topology in the list.
fn topology_words(topology: &Topology) -> [u64; 3] {
    [
        topology.nodes,
        topology.links as u64,
        (topology.links >> 64) as u64,
    ]
}

/// The topology list: an entry for each different effective topology, by first appearance, equal ones added up.
/// At 15 the list holds what the scenarios before the unplaced one gave.
pub fn topologies(lent: &Lent, list: &mut [u64]) -> Result<u64, Refusal> {
    let plan = lent.plan()?;
    let room = list.len() / ENTRY_WORDS;
    let mut used = 0;
    for scenario in walk(&plan).examined {
        let words = topology_words(&effective(&plan, Out::NOTHING, scenario.failing));
        let known = (0..used).find(|i| list[i * ENTRY_WORDS..][..3] == words);
        if let Some(i) = known {
            list[i * ENTRY_WORDS + 3] += scenario.mass;
            continue;
        }
        demand(used < room, Refusal::ListFull)?;
        list[used * ENTRY_WORDS..][..3].copy_from_slice(&words);
        list[used * ENTRY_WORDS + 3] = scenario.mass;
        used += 1;
    }
    Ok(used as u64)
}

/// The two floats of the conditional figure.
#[derive(Clone, Copy, Debug, PartialEq)]
pub struct Figure {
    pub disconnected: f64,
    pub examined: f64,
}

/// F(m): m div 10^9 as a float, times 10^9, plus m mod 10^9 as a float.
pub fn float_of(mass: u64) -> f64 {
    (mass / CERTAIN) as f64 * CERTAIN as f64 + (mass % CERTAIN) as f64
}

/// The conditional figure of a pair; none where E is 0.
pub fn figure(lent: &Lent, v: u64, w: u64) -> Result<Option<Figure>, Refusal> {
    let plan = lent.plan()?;
    let pair = test_pair(plan.nodes, v, w)?;
    let walk = walk(&plan);
    let mass = walk.mass();
    if mass == 0 {
        return Ok(None);
    }
    let lower = bounds_over(&plan, Out::NOTHING, &walk.examined, &[pair])[0].lower;
    Ok(Some(Figure {
        disconnected: float_of(lower) / float_of(mass),
        examined: float_of(mass) / WHOLE as f64,
    }))
}

/// The witness: the first examined scenario, in walk order, that disconnects the pair, as the set of its failing events.
/// The tests of the lists, 13, then 14 where there is none.
pub fn witness(lent: &Lent, v: u64, w: u64) -> Result<u128, Refusal> {
    let plan = lent.plan()?;
    let (v, w) = test_pair(plan.nodes, v, w)?;
    let cuts = |scenario: &Scenario| {
        let components = components(&plan, Out::NOTHING, scenario.failing);
        components.disconnects(v, w)
    };
    let first = walk(&plan).examined.into_iter().find(cuts);
    let set = first.map(|scenario| scenario.failing);
    set.ok_or(Refusal::NoWitness)
}

/// The downtime of a lower and an upper mass in seconds of a year, the lower one rounded down and the upper one up, or 16.
pub fn downtime(lower: u64, upper: u64) -> Result<(u64, u64), Refusal> {
    demand(lower <= WHOLE && upper <= WHOLE, Refusal::Mass)?;
    let year = |mass: u64| u128::from(mass) * u128::from(YEAR_SECONDS);
    let whole = u128::from(WHOLE);
    let (down, up) = (year(lower) / whole, year(upper).div_ceil(whole));
    Ok((down as u64, up as u64))
}
