//! The ring with a duct that is opened: its listing on Tuesday at 14:30, beside figures that the program has no part in.

use std::process::Command;

use account::bounds::{run, Bounds, Outcome};
use account::plan::pairs;
use account::readings::downtime;
use account::topology::Out;
use account::windows::Window;
use account::{Plan, WHOLE};
use planner::parse;
use plans::examples::folder;
use plans::weeks::with_certain_event;

const STATIONS: [&str; 6] = ["Control", "Birch", "Cedar", "Dale", "Elm", "Ford"];

/// The number of the link Birch-Cedar.
const OPENED: usize = 1;

fn read(name: &str) -> String {
    std::fs::read_to_string(folder().join(name)).unwrap_or_else(|error| panic!("{name}: {error}"))
}

/// The command as the README has it, run at the root of the repository.
const COMMAND: &str = "listing examples/ring-duct-opened.txt --at 'Tue 14:30'";

fn listing() -> String {
    let output = Command::new(env!("CARGO_BIN_EXE_planner"))
        .args(["listing", "examples/ring-duct-opened.txt"])
        .args(["--at", "Tue 14:30"])
        .current_dir(folder().join(".."))
        .output()
        .expect("the program runs");
    assert!(output.status.success());
    String::from_utf8(output.stdout).expect("a text")
}

/// The plan of the ring with the shared duct, from its plan file, by the account.
fn ring() -> Plan {
    let bytes = std::fs::read(folder().join("ring-shared-duct.plan"));
    account::file::parse(&bytes.expect("the plan file of the ring")).expect("a plan")
}

/// The account's run of the ring.
fn run_with_the_link() -> (Outcome, Vec<Bounds>) {
    run(&ring(), Out::NOTHING)
}

/// The account's run of the ring without Birch-Cedar, and with no window: the plan has one event more, in front, that is
/// certain and has the link. Its "works" has no mass and is dropped at once, and its "fails" keeps all of it, so every
/// scenario has the mass that it has in the ring.
fn run_without_the_link() -> (Outcome, Vec<Bounds>) {
    let link = Out {
        nodes: 0,
        links: 1 << OPENED,
    };
    run(&with_certain_event(&ring(), link), Out::NOTHING)
}

/// A mass as a share of one.
fn share(mass: u64) -> String {
    format!("{}.{:018}", mass / WHOLE, mass % WHOLE)
}

/// The rows of the table as words, by the account: lower, upper and their seconds with the link out, then upper and its
/// seconds in the whole ring.
fn rows() -> Vec<Vec<String>> {
    let (opened, whole) = (run_without_the_link().1, run_with_the_link().1);
    let mut order: Vec<usize> = (0..opened.len()).collect();
    order.sort_by_key(|&i| WHOLE - opened[i].upper);
    let pairs = ring().pairs();
    let row = |i: usize| {
        let (v, w) = pairs[i];
        let Bounds { lower, upper } = opened[i];
        let seconds = downtime(lower, upper).expect("bounds");
        let whole_seconds = downtime(0, whole[i].upper).expect("bounds").1;
        vec![
            STATIONS[v].to_string(),
            STATIONS[w].to_string(),
            share(lower),
            share(upper),
            seconds.0.to_string(),
            seconds.1.to_string(),
            share(whole[i].upper),
            whole_seconds.to_string(),
        ]
    };
    order.into_iter().map(row).collect()
}

/// The words of each row of a listing.
fn words(listing: &str) -> Vec<Vec<&str>> {
    let (_, table) = listing.split_once("\n\n").expect("a head and a table");
    let rows = table.lines().skip(1);
    rows.map(|row| row.split_whitespace().collect()).collect()
}

#[test]
fn the_listing_has_the_figures_of_the_account() {
    let head = listing();
    assert_eq!(words(&head), rows());
    let outcome = run_without_the_link().0;
    assert_eq!(outcome, run_with_the_link().0, "work moves no scenario");
    let examined = format!(
        "\n{} scenarios examined, complete 1: the cap left nothing out; their share, E, is {}\n",
        outcome.count,
        share(outcome.mass)
    );
    assert!(head.contains(&examined), "{head}");
    let work = "1 of 1, open-Birch-Cedar (Tue 08:00 to Tue 16:00).\nOut: Birch-Cedar.\n";
    assert!(head.contains(work), "{head}");
}

/// The stations in a row, as they hang together without Birch-Cedar, by number; and q of each link between two of them.
const ROW: [usize; 6] = [2, 3, 4, 5, 0, 1];
const CUTS: [u128; 5] = [102_740, 102_740, 102_740, 94_178, 94_178];

/// One, in units of 10^-27.
const ONE: u128 = 1_000_000_000_000_000_000_000_000_000;

/// The share of time that the stations at two places of the row are cut off, in units of 10^-27, rounded down and up. One
/// way joins them, so it is one less the product of 1 - q over all events on that way: its stations, its links, and the
/// dig at Control where it leads through the duct, which holds the last two links.
fn by_hand(first: usize, last: usize) -> [u128; 2] {
    let stations = vec![1_000; last - first + 1];
    let dig = vec![8_562; usize::from(last > 3)];
    let events = [&CUTS[first..last], &stations, &dig].concat();
    let works = |q: u128| 1_000_000_000 - q;
    let up = |share: u128, q: &u128| (share * works(*q)).div_ceil(1_000_000_000);
    let down = |share: u128, q: &u128| share * works(*q) / 1_000_000_000;
    [
        ONE - events.iter().fold(ONE, up),
        ONE - events.iter().fold(ONE, down),
    ]
}

/// The figures of a row: lower and upper in units of 10^-18, and their seconds.
fn figures(row: &[&str]) -> [u128; 4] {
    let number = |word: &str| word.replace('.', "").parse().expect("a number");
    [row[2], row[3], row[4], row[5]].map(number)
}

#[test]
fn the_figures_by_hand_lie_between_the_bounds() {
    let listing = listing();
    let rows = words(&listing);
    for (first, last) in pairs(6) {
        let (v, w) = (ROW[first].min(ROW[last]), ROW[first].max(ROW[last]));
        let pair = [STATIONS[v], STATIONS[w]];
        let row = rows.iter().find(|row| row[..2] == pair);
        let row = row.expect("the pair");
        let [lower, upper, lower_s, upper_s] = figures(row);
        let [down, up] = by_hand(first, last);
        let unit = 1_000_000_000;
        assert!(lower * unit <= down && up <= upper * unit, "{row:?}");
        let year = 31_536_000;
        assert!(lower_s * ONE <= down * year, "{row:?}");
        assert!(up * year <= upper_s * ONE, "{row:?}");
    }
}

/// The text is that of the ring with the shared duct, and one window: Tuesday is day 1 of 1,440 minutes.
#[test]
fn the_text_is_the_ring_with_a_window() {
    let [opened, shared] = ["ring-duct-opened", "ring-shared-duct"]
        .map(|name| parse(&read(&format!("{name}.txt"))).expect("a plan"));
    let windows: Vec<_> = opened.windows.iter().map(|named| named.window).collect();
    let out = Out {
        nodes: 0,
        links: 1 << OPENED,
    };
    let (start, end) = (1_440 + 8 * 60, 1_440 + 16 * 60);
    assert_eq!(windows, [Window { start, end, out }]);
    assert_eq!(opened.nodes, STATIONS);
    assert_eq!(opened.links[OPENED], "Birch-Cedar");
    assert_eq!(opened.plan, shared.plan);
    assert_eq!(opened.plan, ring());
}

/// Pair 0 3 is Control and Dale.
#[test]
fn the_page_of_the_examples_has_the_bounds_and_the_seconds() {
    let Bounds { lower, upper } = run_without_the_link().1[2];
    let seconds = downtime(lower, upper).expect("bounds").1;
    let row = format!("| `ring-duct-opened` at Tue 14:30 | {lower} | {upper} | {seconds} |");
    assert!(read("README.md").replace(',', "").contains(&row), "{row}");
}

#[test]
fn the_readme_shows_the_window_and_the_listing() {
    let readme = read("../README.md");
    let window = read("ring-duct-opened.txt");
    let window = window.lines().last().expect("the line of the window");
    assert!(readme.contains(&format!("\n    {window}\n")), "{window}");
    let listing = listing();
    let lines = listing.lines().map(|line| match line {
        "" => String::new(),
        _ => format!("    {line}"),
    });
    let shown: Vec<String> = lines.collect();
    assert!(readme.contains(COMMAND), "{COMMAND}");
    assert!(readme.contains(&shown.join("\n")), "{listing}");
}
