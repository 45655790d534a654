//! The table of a listing: a line for each pair, in columns.

use account::bounds::Bounds;
use account::WHOLE;

use crate::named::Named;
use crate::readings::downtime;

/// A mass as a share of one, exactly.
pub fn share(mass: u64) -> String {
    format!("{}.{:018}", mass / WHOLE, mass % WHOLE)
}

/// The places of pairs, the largest upper bound first, equal ones in the order of pairs.
pub fn worst_first(bounds: &[Bounds]) -> Vec<usize> {
    let mut places: Vec<usize> = (0..bounds.len()).collect();
    places.sort_by_key(|&i| WHOLE - bounds[i].upper);
    places
}

/// What the fields of a pair are.
pub const FIELDS: [&str; 5] = ["pair", "lower", "upper", "lower s", "upper s"];

/// A pair by name, its bounds as shares, and their seconds.
pub fn fields(named: &Named, (v, w): (usize, usize), bounds: Bounds) -> [String; 5] {
    let Bounds { lower, upper } = bounds;
    let [lower_seconds, upper_seconds] = downtime(lower, upper).map(|s| s.to_string());
    [
        format!("{} {}", named.nodes[v], named.nodes[w]),
        share(lower),
        share(upper),
        lower_seconds,
        upper_seconds,
    ]
}

/// A header and rows as lines, without line ends, in columns as wide as the longest field: the column of names to the left,
/// the others, numbers, to the right.
pub fn columns<const N: usize>(
    header: [&str; N],
    rows: Vec<[String; N]>,
    names: usize,
) -> Vec<String> {
    let mut lines = vec![header.map(str::to_string)];
    lines.extend(rows);
    let width = |i: usize| lines.iter().map(|fields| fields[i].chars().count()).max();
    let widths: Vec<usize> = (0..N).map(|i| width(i).unwrap_or(0)).collect();
    let placed = |(i, field): (usize, &String)| match i == names {
        true => format!("{field:<0$}", widths[i]),
        false => format!("{field:>0$}", widths[i]),
    };
    let line = |fields: &[String; N]| fields.iter().enumerate().map(placed).collect::<Vec<_>>();
    lines.iter().map(|fields| line(fields).join("  ")).collect()
}
