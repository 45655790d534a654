//! The numbers of docs/ANSWER.md: the table of its worked example, from the proved run and the exact sums.

use account::exact::{exact_sums, ExactSums};
use account::topology::Out;
use account::wide::Wide;
use account::{Plan, CERTAIN, LARGEST_CAP, WHOLE};
use conformance::{proved, readings};
use plans::examples::folder;
use plans::Lists;

/// Control and Dale, the pair 0 3, has this place in the order of pairs.
const PAIR: usize = 2;

/// The truth of the pair in units of 10^-18, rounded down.
const TRUTH: u64 = 10_652_960_059_944;

fn answer() -> String {
    std::fs::read_to_string(folder().join("../docs/ANSWER.md")).expect("docs/ANSWER.md")
}

fn ring() -> Plan {
    let bytes = std::fs::read(folder().join("ring-shared-duct.plan"));
    account::file::parse(&bytes.expect("the plan file of the ring")).expect("a plan")
}

/// A number with commas, as people write it.
fn grouped(number: u64) -> String {
    let digits = number.to_string();
    let groups = digits.as_bytes().rchunks(3).rev();
    let groups: Vec<_> = groups.map(String::from_utf8_lossy).collect();
    groups.join(",")
}

/// Whether an exact sum is so many units of 10^-18, rounded down.
fn is_units(sums: &ExactSums, exact: Wide, units: u64) -> bool {
    let scaled = |units: u64| Wide::from(units).times_power(CERTAIN, sums.events);
    scaled(units) <= exact.times(WHOLE) && exact.times(WHOLE) < scaled(units + 1)
}

/// The row of the table for a threshold and a cap, with what was left out in units, rounded down.
fn row(threshold: (u64, &str), cap: u64, left_out: u64) -> String {
    let plan = Plan {
        threshold: threshold.0,
        cap,
        ..ring()
    };
    let (outcome, bounds) = proved::run(&Lists::of(&plan));
    let sums = exact_sums(&plan, Out::NOTHING);
    let bounds = bounds[PAIR];
    assert!(sums.enclose(PAIR, bounds));
    assert!(is_units(&sums, sums.disconnected[PAIR], TRUTH));
    assert!(is_units(&sums, sums.not_examined, left_out));
    let gap = bounds.upper - bounds.lower;
    let most = sums.events as u64 * outcome.count;
    let words = [
        threshold.1.to_string(),
        grouped(cap),
        grouped(outcome.count),
        outcome.complete.to_string(),
        grouped(bounds.lower),
        grouped(bounds.upper),
        grouped(gap),
        grouped(left_out),
        grouped(gap - left_out),
        format!("{} × {} = {}", sums.events, outcome.count, grouped(most)),
    ];
    format!("| {} |", words.join(" | "))
}

#[test]
fn the_table() {
    let rows = [
        row((100_000_000, "10^8"), LARGEST_CAP, 1_218_006_934),
        row((1, "1"), LARGEST_CAP, 145),
        row(
            (10_000_000_000_000, "10^13"),
            LARGEST_CAP,
            14_711_500_953_524,
        ),
        row((100_000_000, "10^8"), 200, 102_771_981_339_025),
    ];
    let answer = answer();
    for row in rows {
        assert!(answer.contains(&row), "docs/ANSWER.md has no row {row}");
    }
}

#[test]
fn the_lines_and_the_truth() {
    let answer = answer();
    assert!(answer.contains(&grouped(TRUTH)));
    let listing = proved::plan_listing(&Lists::of(&ring()));
    for line in [0, 1 + PAIR] {
        let line = listing.lines().nth(line).expect("a line of the listing");
        assert!(answer.contains(&format!("    {line}\n")), "{line}");
    }
}

#[test]
fn the_seconds() {
    let bounds = proved::run(&Lists::of(&ring())).1[PAIR];
    let (refusal, [lower, upper]) = readings::downtime(bounds.lower, bounds.upper);
    assert_eq!(refusal, 0);
    let sentence = format!("between {lower} and {upper} seconds a year");
    assert!(answer().contains(&sentence), "{sentence}");
    let sums = exact_sums(&ring(), Out::NOTHING);
    assert!(sums.downtime_holds(PAIR, lower, upper));
}

#[test]
fn the_conditional_figure_is_below_the_truth() {
    let lists = Lists::of(&ring());
    let figure = account::readings::figure(&lists.lent(), 0, 3);
    let figure = figure.expect("a pair").expect("a figure").disconnected;
    assert!(answer().contains(&format!("{figure:.20}")[..18]));
    assert!(figure < TRUTH as f64 / WHOLE as f64);
}
