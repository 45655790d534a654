//! The GEANT core at ten thresholds: what the README shows, rows and picture, beside runs of the account.

use std::path::Path;
use std::process::Command;

use account::bounds::{run, Bounds, Outcome};
use account::topology::Out;
use account::{Plan, WHOLE};
use plans::examples::folder;

/// The commands as the README has them, run at the root of the repository.
const ROWS: &str = "thresholds examples/geant-core.txt";
const LOWER: &str = "thresholds examples/geant-core.txt 1_000_000 100_000";
const PICTURE: &str = "thresholds examples/geant-core.txt --svg target/geant-core.svg";

/// What a command prints.
fn printed(words: &[&str]) -> String {
    let output = Command::new(env!("CARGO_BIN_EXE_planner"))
        .args(words)
        .current_dir(folder().join(".."))
        .output()
        .expect("the program runs");
    assert!(output.status.success());
    String::from_utf8(output.stdout).expect("a text")
}

fn rows_printed(command: &str) -> String {
    let words: Vec<&str> = command.split(' ').collect();
    printed(&words)
}

fn read(name: &str) -> String {
    std::fs::read_to_string(folder().join(name)).unwrap_or_else(|error| panic!("{name}: {error}"))
}

/// A run of the account on the plan file of the GEANT core, with this threshold in place of its own.
fn account_run(threshold: u64) -> (Outcome, Vec<Bounds>) {
    let bytes = std::fs::read(folder().join("geant-core.plan"));
    let plan = account::file::parse(&bytes.expect("the plan file")).expect("a plan");
    run(&Plan { threshold, ..plan }, Out::NOTHING)
}

/// 10^15 down to 10^6.
fn ten() -> impl Iterator<Item = u64> {
    (6..16).rev().map(|decade| 10_u64.pow(decade))
}

/// A mass as a share of one.
fn share(mass: u64) -> String {
    format!("{}.{:018}", mass / WHOLE, mass % WHOLE)
}

/// The words of the row of a threshold, by the account. Node i of the document has number i - 1.
fn row(threshold: u64) -> Vec<String> {
    let (outcome, bounds) = account_run(threshold);
    let pairs = account::plan::pairs(34).into_iter().zip(bounds);
    let larger =
        |(pair, bounds): ((usize, usize), Bounds), next: ((usize, usize), Bounds)| match next
            .1
            .upper
            > bounds.upper
        {
            true => next,
            false => (pair, bounds),
        };
    let ((v, w), Bounds { lower, upper }) = pairs.reduce(larger).expect("a pair");
    vec![
        threshold.to_string(),
        outcome.count.to_string(),
        outcome.complete.to_string(),
        share(outcome.mass),
        share(WHOLE - outcome.mass),
        format!("node-{}", v + 1),
        format!("node-{}", w + 1),
        share(lower),
        share(upper),
    ]
}

/// Holds the rows that a command prints to the account's, at these thresholds.
#[track_caller]
fn expect_rows(command: &str, thresholds: impl Iterator<Item = u64>) {
    let out = rows_printed(command);
    let (_, table) = out.split_once("\n\n").expect("a head and a table");
    let rows = table.lines().skip(1);
    let words = |line: &str| -> Vec<String> {
        let words = line.split_whitespace();
        words.map(|word| word.replace('_', "")).collect()
    };
    let rows: Vec<Vec<String>> = rows.map(words).collect();
    assert_eq!(rows, thresholds.map(row).collect::<Vec<_>>());
}

#[test]
fn the_rows_are_the_accounts() {
    expect_rows(ROWS, ten());
    expect_rows(LOWER, [1_000_000, 100_000].into_iter());
}

/// Nodes 4 and 24 of the document, the pair 3 23, are the worst at 10^6. The ten thresholds stand 80 apart; down, 10^-2 stands
/// at 80, and each of two decades and the one for 0 has a third of 400.
#[test]
fn the_picture_has_the_accounts_bounds() {
    let picture = read("geant-core.svg");
    let place = account::plan::pairs(34)
        .iter()
        .position(|&pair| pair == (3, 23));
    let place = place.expect("the pair");
    for (i, threshold) in ten().enumerate() {
        let (outcome, bounds) = account_run(threshold);
        let Bounds { lower, upper } = bounds[place];
        let down = |bound: u64| match bound {
            0 => 480.0,
            _ => 80.0 + (16.0 - (bound as f64).log10()) * 400.0 / 3.0,
        };
        let (x, complete) = (100.0 + 80.0 * i as f64, outcome.complete);
        let [lower_y, upper_y] = [lower, upper].map(down);
        let (lower, upper) = (share(lower), share(upper));
        for mark in [
            format!("<title>threshold {threshold}: lower {lower}, upper {upper}, complete {complete}</title>"),
            format!("<rect x=\"{:.1}\" y=\"{:.1}\" ", x - 5.5, lower_y - 5.5),
            format!("<circle cx=\"{x:.1}\" cy=\"{upper_y:.1}\" "),
        ] {
            assert!(picture.contains(&mark), "{mark}");
        }
    }
}

#[test]
fn the_picture_is_what_the_command_draws() {
    let path = Path::new(env!("CARGO_TARGET_TMPDIR")).join("geant-core.svg");
    let file = path.to_str().expect("a path in UTF-8");
    let rows = printed(&["thresholds", "examples/geant-core.txt", "--svg", file]);
    assert_eq!(rows, rows_printed(ROWS));
    let drawn = std::fs::read_to_string(&path).expect("the picture");
    assert!(drawn == read("geant-core.svg"), "examples/geant-core.svg");
}

#[test]
fn the_readme_shows_the_rows_and_the_picture() {
    let readme = read("../README.md");
    for command in [ROWS, LOWER, PICTURE] {
        let line = format!("    rust/target/release/planner {command}\n");
        assert!(readme.contains(&line), "{line}");
    }
    let indented = |line: &str| match line {
        "" => String::new(),
        _ => format!("    {line}"),
    };
    let rows = rows_printed(ROWS);
    let shown: Vec<String> = rows.lines().map(indented).collect();
    assert!(readme.contains(&shown.join("\n")), "{rows}");
    assert!(readme.contains("](examples/geant-core.svg)"), "the picture");
}
