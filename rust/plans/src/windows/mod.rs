//! Runs with windows of planned work, request U7, written down here with answers that were worked out by hand; and windows
//! with the number that a run with them returns.

mod large;
mod refusals;
mod small;

use account::Plan;

use crate::walks::in_thousandths;

pub use refusals::{numbered, IN_TURN};

/// A run of a plan at a minute of the week.
pub struct ByHand {
    pub name: &'static str,
    pub plan: Plan,
    /// Five words for each window.
    pub windows: Vec<u64>,
    pub minute: u64,
    /// Count, complete and E.
    pub totals: [u64; 3],
    /// Lower and upper of each pair.
    pub bounds: Vec<[u64; 2]>,
    /// D of each pair over the reduced network, in units of 10^-9n; no plan here has more than two events.
    pub exact: Vec<u64>,
}

/// A run of a plan at a minute of the week, and the number that it returns.
pub struct Numbered {
    pub name: &'static str,
    pub plan: Plan,
    pub windows: Vec<u64>,
    pub minute: u64,
    pub number: u32,
}

/// The words of a window: start, end, nodes, links 0 to 63, links 64 to 127.
type Words = [u64; 5];

/// Windows, a minute, and for each pair the lower bound and the exact share, in thousandths of one whole.
type Case<'a, const N: usize> = (&'a [Words], u64, [u64; N], [u64; N]);

/// The last number of all.
const MOST: u64 = u64::MAX;

/// The runs of `small` and `large`.
pub fn by_hand() -> Vec<ByHand> {
    let mut all = small::runs();
    all.extend(large::runs());
    all
}

/// The cases of one plan. Count and complete, and E in thousandths, are the same for all of them, since what is out moves
/// none of the three.
fn on<const N: usize>(
    name: &'static str,
    plan: &Plan,
    totals: [u64; 3],
    cases: &[Case<N>],
) -> Vec<ByHand> {
    let all_sets = 1_000_000_000u128.pow(plan.events.len() as u32);
    let exactly = |share: u64| (u128::from(share) * all_sets / 1_000) as u64;
    let by_hand = |&(windows, minute, lower, exact): &Case<N>| {
        let (totals, bounds) = in_thousandths(totals, lower);
        ByHand {
            name,
            plan: plan.clone(),
            windows: windows.concat(),
            minute,
            totals,
            bounds: bounds.to_vec(),
            exact: exact.map(exactly).to_vec(),
        }
    };
    cases.iter().map(by_hand).collect()
}

/// The cases of a plan of which everything is examined and nothing is lost: each share is exact.
fn exactly_on<const N: usize>(
    name: &'static str,
    plan: &Plan,
    cases: &[(&[Words], u64, [u64; N])],
) -> Vec<ByHand> {
    let case = |&(windows, minute, shares): &(_, _, [u64; N])| (windows, minute, shares, shares);
    let cases: Vec<Case<N>> = cases.iter().map(case).collect();
    let scenarios = 1 << plan.events.len();
    on(name, plan, [scenarios, 1, 1_000], &cases)
}

/// So many nodes, and so many links between the first two, without an event.
fn parallel(nodes: usize, links: usize) -> Plan {
    Plan {
        nodes,
        links: vec![(0, 1); links],
        events: vec![],
        threshold: 1,
        cap: 100,
    }
}

/// A window with link 0.
fn link_0(start: u64, end: u64) -> Words {
    [start, end, 0, 1, 0]
}
