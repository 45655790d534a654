//! The GEANT core: the text holds the rows of document 003's table and the cable-cut formula of document 001.

use account::{Event, Plan, LARGEST_CAP};
use planner::parse;
use plans::examples::folder;

/// The rows with both ends at most 34: source, destination, length in km. The table has three blocks of columns; its
/// rows stand here from the first block to the third, each from top to bottom.
const ROWS: [(usize, usize, u64); 52] = [
    (5, 8, 77),
    (16, 11, 728),
    (19, 17, 23),
    (20, 18, 51),
    (16, 24, 77),
    (4, 5, 58),
    (17, 22, 28),
    (20, 22, 263),
    (25, 26, 51),
    (10, 2, 11),
    (27, 19, 36),
    (26, 27, 51),
    (18, 21, 86),
    (28, 29, 836),
    (29, 31, 15),
    (28, 31, 17),
    (16, 14, 46),
    (11, 14, 58),
    (14, 25, 29),
    (14, 32, 8),
    (12, 10, 17),
    (17, 12, 751),
    (19, 12, 623),
    (12, 20, 23),
    (12, 34, 8),
    (32, 12, 8),
    (12, 14, 636),
    (5, 6, 77),
    (10, 6, 28),
    (6, 2, 712),
    (3, 14, 11),
    (12, 9, 23),
    (9, 6, 51),
    (30, 20, 10),
    (29, 30, 23),
    (1, 5, 16),
    (2, 1, 623),
    (23, 22, 686),
    (21, 23, 51),
    (23, 29, 19),
    (23, 28, 19),
    (30, 33, 26),
    (13, 15, 39),
    (10, 13, 36),
    (13, 20, 17),
    (2, 13, 9),
    (13, 30, 23),
    (13, 33, 12),
    (15, 7, 121),
    (8, 7, 86),
    (7, 14, 539),
    (7, 12, 723),
];

/// 12 h to repair, one cut a year on 800 km, in units of 10^-9 to the nearest.
fn cut_probability(km: u64) -> u64 {
    let (hours, year) = (km * 12 * 1_000_000_000, 800 * 365 * 24);
    (2 * hours + year) / (2 * year)
}

fn geant_core() -> Plan {
    let link = |(a, b, _): (usize, usize, u64)| (a.min(b) - 1, a.max(b) - 1);
    let cut = |(i, (_, _, km)): (usize, (usize, usize, u64))| Event {
        probability: cut_probability(km),
        nodes: 0,
        links: 1 << i,
    };
    let down = |node: usize| Event {
        probability: 1_000,
        nodes: 1 << node,
        links: 0,
    };
    let cuts = ROWS.into_iter().enumerate().map(cut);
    let mut events: Vec<Event> = cuts.chain((0..34).map(down)).collect();
    events.sort_by_key(|event| std::cmp::Reverse(event.probability));
    Plan {
        nodes: 34,
        links: ROWS.into_iter().map(link).collect(),
        events,
        threshold: 100_000_000,
        cap: LARGEST_CAP,
    }
}

#[test]
fn the_formula_gives_the_papers_example() {
    // 100 km: 1.71 × 10^-4.
    assert_eq!(cut_probability(100), 171_233);
}

#[test]
fn the_text_is_the_table() {
    let text = std::fs::read_to_string(folder().join("geant-core.txt"))
        .expect("the text of the GEANT core");
    let named = parse(&text).expect("a text that says a plan");
    assert_eq!(named.plan, geant_core());
    for (i, name) in named.nodes.iter().enumerate() {
        assert_eq!(*name, format!("node-{}", i + 1));
    }
    for (name, (a, b, _)) in named.links.iter().zip(ROWS) {
        assert_eq!(*name, format!("{a}-{b}"));
    }
}
