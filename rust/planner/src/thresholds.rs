//! Several thresholds for one plan, by one proved call: a row for each.

use account::bounds::{Bounds, Outcome};
use account::WHOLE;
use conformance::proved;
use plans::Lists;

use crate::listing::sizes;
use crate::named::Named;
use crate::refused::plan_reason;
use crate::table::{columns, fields, share, worst_first};

/// What the run of a plan gives at one threshold.
pub struct AtThreshold {
    pub threshold: u64,
    pub outcome: Outcome,
    pub bounds: Vec<Bounds>,
}

impl AtThreshold {
    /// The place of the worst pair: the first with the largest upper bound. A plan with one node has none.
    pub fn worst(&self) -> Option<usize> {
        worst_first(&self.bounds).first().copied()
    }
}

/// The runs of a plan at thresholds, by the proved code, or what was asked for and why it is refused. The plan's cap counts,
/// its own threshold does not.
pub fn at_thresholds(named: &Named, thresholds: &[u64]) -> Result<Vec<AtThreshold>, String> {
    let runs = proved::run_thresholds(&Lists::of(&named.plan), thresholds)
        .map_err(|number| refused(thresholds, number))?;
    let at = |(&threshold, (outcome, bounds))| AtThreshold {
        threshold,
        outcome,
        bounds,
    };
    Ok(thresholds.iter().zip(runs).map(at).collect())
}

fn refused(thresholds: &[u64], number: u32) -> String {
    let shown: Vec<String> = thresholds.iter().map(u64::to_string).collect();
    let count = match shown.len() {
        1 => "1 threshold".to_string(),
        count => format!("{count} thresholds"),
    };
    let reason = plan_reason(number);
    format!("{count}, {}: refused {number}, {reason}", shown.join(" "))
}

/// The table of thresholds: a head, then a row for each.
pub fn thresholds_table(named: &Named, all: &[AtThreshold]) -> String {
    let plan = &named.plan;
    let rows = all.iter().map(|at| row(named, at));
    let lines = columns(HEADER, rows.collect(), NAMES);
    format!(
        "{}, cap {}; the plan's own threshold, {}, is not used\n{READING}\n{}\n",
        sizes(plan),
        plan.cap,
        plan.threshold,
        lines.join("\n")
    )
}

/// How the rows are read.
const READING: &str = "\
At each threshold the share of time that a pair is cut off lies between its lower and its upper bound, which for every pair are
the gap, 1 less E, apart. Complete is 1 where the cap left nothing out and 0 where the walk stopped at the cap. The worst pair is
the one with the largest upper bound, of equal ones the first; lower and upper are its bounds.
";

const HEADER: [&str; 8] = [
    "threshold",
    "examined",
    "complete",
    "E",
    "gap",
    "worst pair",
    "lower",
    "upper",
];

/// The column of names.
const NAMES: usize = 5;

fn row(named: &Named, at: &AtThreshold) -> [String; 8] {
    let Outcome {
        count,
        complete,
        mass,
    } = at.outcome;
    let of_pair = |i: usize| fields(named, named.plan.pairs()[i], at.bounds[i]);
    let no_pair = || ["-"; 5].map(str::to_string);
    let [pair, lower, upper, ..] = at.worst().map_or_else(no_pair, of_pair);
    [
        grouped(at.threshold),
        count.to_string(),
        complete.to_string(),
        share(mass),
        share(WHOLE - mass),
        pair,
        lower,
        upper,
    ]
}

/// A number in groups of three digits, in the form in which a text and the command take it.
pub fn grouped(number: u64) -> String {
    let digits = number.to_string();
    let groups = digits.as_bytes().rchunks(3).rev();
    let groups: Vec<_> = groups.map(String::from_utf8_lossy).collect();
    groups.join("_")
}
