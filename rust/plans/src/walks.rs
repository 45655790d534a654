//! Walks that are begun and gone on with, request U4, written down here with answers that were worked out by hand.

use account::{Event, Plan, WHOLE};

use crate::examples::triangle;

/// What a look shows: count, complete and E, then lower and upper of every pair.
pub struct Shown {
    pub totals: [u64; 3],
    pub bounds: Vec<[u64; 2]>,
}

/// A plan, and what a look at its walk shows after 0, 1, 2 and more ends, up to the last one under the plan's cap.
pub struct ByHand {
    pub name: &'static str,
    pub plan: Plan,
    pub shown: Vec<Shown>,
}

/// A thousandth of one whole.
pub(crate) const MILLI: u64 = WHOLE / 1_000;

/// Totals and bounds, of which E and the lower bounds are given in thousandths. Upper is lower and what is left of one whole
/// without E.
pub(crate) fn in_thousandths<const N: usize>(
    [count, complete, mass]: [u64; 3],
    lower: [u64; N],
) -> ([u64; 3], [[u64; 2]; N]) {
    let bounds = lower.map(|lower| [lower * MILLI, (lower + 1_000 - mass) * MILLI]);
    ([count, complete, mass * MILLI], bounds)
}

/// What is shown at 0 ends.
fn nothing(pairs: usize) -> Shown {
    Shown {
        totals: [0; 3],
        bounds: vec![[0, WHOLE]; pairs],
    }
}

/// A plan with what is shown after 1, 2 and more ends.
fn by_ends<const N: usize>(
    name: &'static str,
    plan: Plan,
    shown: &[([u64; 3], [[u64; 2]; N])],
) -> ByHand {
    let after = |&(totals, bounds): &([u64; 3], [[u64; 2]; N])| Shown {
        totals,
        bounds: bounds.to_vec(),
    };
    let mut all = vec![nothing(N)];
    all.extend(shown.iter().map(after));
    ByHand {
        name,
        plan,
        shown: all,
    }
}

/// All plans.
pub fn by_hand() -> Vec<ByHand> {
    let groups = [stills(), links(), rows(), triangles()];
    groups.into_iter().flatten().collect()
}

/// Two nodes without a link and without an event.
pub fn still() -> Plan {
    Plan {
        nodes: 2,
        links: vec![],
        events: vec![],
        threshold: WHOLE,
        cap: 100,
    }
}

/// The only end is the scenario in which nothing fails; it has all the mass.
fn stills() -> Vec<ByHand> {
    let alone = Plan {
        nodes: 1,
        cap: 1,
        ..still()
    };
    vec![
        by_ends("no link", still(), &[([1, 1, WHOLE], [[WHOLE, WHOLE]])]),
        by_ends("one node", alone, &[([1, 1, WHOLE], [])]),
    ]
}

/// Two nodes and a link that fails with this probability.
pub(crate) fn link(probability: u64, threshold: u64, cap: u64) -> Plan {
    Plan {
        links: vec![(0, 1)],
        events: vec![Event {
            probability,
            nodes: 0,
            links: 1,
        }],
        threshold,
        cap,
        ..still()
    }
}

/// With q = 10^8 the ends are "works" with 0.9 and "fails" with 0.1; with q = 5 × 10^8 and t = 10^18 both are dropped.
fn links() -> Vec<ByHand> {
    let (q, tenth) = (100_000_000, 100 * MILLI);
    let works = |complete| ([1, complete, 900 * MILLI], [[0, tenth]]);
    let both = ([2, 1, WHOLE], [[tenth, tenth]]);
    let dropped = |complete| ([0, complete, 0], [[0, WHOLE]]);
    vec![
        by_ends("a link", link(q, tenth, 100), &[works(0), both]),
        by_ends("a link, cap 2", link(q, tenth, 2), &[works(0), both]),
        by_ends("a link, cap 1", link(q, tenth, 1), &[works(0)]),
        by_ends(
            "a link whose failing is dropped",
            link(q, tenth + 1, 100),
            &[works(0), works(1)],
        ),
        by_ends(
            "a link, all dropped",
            link(500_000_000, WHOLE, 100),
            &[dropped(0), dropped(1)],
        ),
    ]
}

/// Three nodes in a row; link 0-1 fails with 0.5, link 1-2 with 0.25.
pub fn row(threshold: u64, cap: u64) -> Plan {
    let event = |probability, links| Event {
        probability,
        nodes: 0,
        links,
    };
    Plan {
        nodes: 3,
        links: vec![(0, 1), (1, 2)],
        events: vec![event(500_000_000, 0b01), event(250_000_000, 0b10)],
        threshold,
        cap,
    }
}

/// The ends have 0.375 (nothing fails), 0.125 (1-2 fails), 0.375 (0-1 fails) and 0.125 (both). The pairs are 0 1, 0 2 and
/// 1 2. At t = 0.2 the second and the last end are dropped.
fn rows() -> Vec<ByHand> {
    let all = [
        in_thousandths([1, 0, 375], [0, 0, 0]),
        in_thousandths([2, 0, 500], [0, 125, 125]),
        in_thousandths([3, 0, 875], [375, 500, 125]),
        in_thousandths([4, 1, 1_000], [500, 625, 250]),
    ];
    let some = [
        in_thousandths([1, 0, 375], [0, 0, 0]),
        in_thousandths([1, 0, 375], [0, 0, 0]),
        in_thousandths([2, 0, 750], [375, 375, 0]),
        in_thousandths([2, 1, 750], [375, 375, 0]),
    ];
    vec![
        by_ends("a row", row(1, 100), &all),
        by_ends("a row, cap 4", row(1, 4), &all),
        by_ends("a row, cap 3", row(1, 3), &all[..3]),
        by_ends("a row, t = 0.2", row(200 * MILLI, 100), &some),
        by_ends("a row, t = 0.2, cap 2", row(200 * MILLI, 2), &some[..2]),
    ]
}

/// The triangle of document 01; its events are numbered from 0. The ends: nothing fails, with 999,999,997,000,000,002; 2
/// fails, with 999,999,998; 1 fails, with the same; 1 and 2 fail, dropped; 0 fails, with 999,999,998; 0 and 2 fail,
/// dropped; 0 and 1 fail with 1 unit, of which neither side keeps any: two dropped ones. No examined one cuts a pair.
fn triangles() -> Vec<ByHand> {
    let shown = |count, complete, mass, upper| ([count, complete, mass], [[0, upper]; 3]);
    let all = [
        shown(1, 0, 999_999_997_000_000_002, 2_999_999_998),
        shown(2, 0, 999_999_998_000_000_000, 2_000_000_000),
        shown(3, 0, 999_999_998_999_999_998, 1_000_000_002),
        shown(3, 0, 999_999_998_999_999_998, 1_000_000_002),
        shown(4, 0, 999_999_999_999_999_996, 4),
        shown(4, 0, 999_999_999_999_999_996, 4),
        shown(4, 0, 999_999_999_999_999_996, 4),
        shown(4, 1, 999_999_999_999_999_996, 4),
    ];
    let capped = |cap| Plan { cap, ..triangle() };
    vec![
        by_ends("the triangle", triangle(), &all),
        by_ends("the triangle, cap 8", capped(8), &all),
        by_ends("the triangle, cap 7", capped(7), &all[..7]),
    ]
}

/// One call of a list: which walk goes on, k, and what is answered: the number, the ends reached, what the quota then
/// holds.
pub struct Call {
    pub walk: usize,
    pub k: u64,
    pub number: u32,
    pub reached: u64,
    pub left: u64,
}

/// Calls on several walks and one quota.
pub struct CallList {
    pub name: &'static str,
    pub plans: Vec<Plan>,
    pub quota: u64,
    pub calls: Vec<Call>,
}

fn list(
    name: &'static str,
    plans: Vec<Plan>,
    quota: u64,
    calls: &[(usize, u64, u32, u64, u64)],
) -> CallList {
    let call = |&(walk, k, number, reached, left): &(usize, u64, u32, u64, u64)| Call {
        walk,
        k,
        number,
        reached,
        left,
    };
    CallList {
        name,
        plans,
        quota,
        calls: calls.iter().map(call).collect(),
    }
}

/// Lists of calls. The triangle has 8 ends, the row 4, the plan without a link one.
pub fn lists_of_calls() -> Vec<CallList> {
    let most = u64::MAX;
    vec![
        list(
            "past the end",
            vec![triangle()],
            10_000_000,
            &[
                (0, 0, 0, 0, 10_000_000),
                (0, 3, 0, 3, 9_999_997),
                (0, 0, 0, 0, 9_999_997),
                (0, 4, 0, 4, 9_999_993),
                (0, 4, 0, 1, 9_999_992),
                (0, 4, 0, 0, 9_999_992),
                (0, most, 0, 0, 9_999_992),
            ],
        ),
        list(
            "all at once",
            vec![row(1, 100), row(1, 3), row(1, 4)],
            10_000_000,
            &[
                (0, most, 0, 4, 9_999_996),
                (1, most, 0, 3, 9_999_993),
                (2, 1 << 63, 0, 4, 9_999_989),
                (1, 1, 0, 0, 9_999_989),
            ],
        ),
        // The quota runs dry inside the triangle's walk: 8 - 3 - 2 = 3 ends are left of it, and 2 of the row's.
        list(
            "dry in the middle of a walk",
            vec![triangle(), row(1, 100), still()],
            8,
            &[
                (2, 5, 0, 1, 7),
                (0, 3, 0, 3, 4),
                (1, 2, 0, 2, 2),
                (0, 0, 0, 0, 2),
                (0, 9, 0, 2, 0),
                (0, 1, 19, 0, 0),
                (0, 0, 0, 0, 0),
                (1, most, 19, 0, 0),
                (1, 0, 0, 0, 0),
                (2, 1, 0, 0, 0),
                (2, 0, 0, 0, 0),
            ],
        ),
        list(
            "dry between two walks",
            vec![triangle(), row(1, 4)],
            8,
            &[
                (0, 7, 0, 7, 1),
                (0, 1, 0, 1, 0),
                (0, 1, 0, 0, 0),
                (1, 1, 19, 0, 0),
                (1, 0, 0, 0, 0),
                (1, 1, 19, 0, 0),
                (0, most, 0, 0, 0),
            ],
        ),
        list(
            "a quota of one end",
            vec![still(), row(1, 1)],
            1,
            &[(1, 2, 0, 1, 0), (1, 2, 0, 0, 0), (0, 1, 19, 0, 0)],
        ),
        list(
            "no quota",
            vec![still()],
            0,
            &[(0, 1, 19, 0, 0), (0, 0, 0, 0, 0), (0, most, 19, 0, 0)],
        ),
    ]
}
