//! A walk that stopped at its cap: what the head of a listing says of thresholds at which it does not.

use crate::{planner, printed, scratch_with};

/// The start of a plan in which events name both nodes and their link, the first of them with 0.4 and three with 10^-6 each.
///
/// At 10^12 a failure of one of the three is dropped, with 0.6 × 10^-6 or less. So each of the two branches of the first event has
/// 4 ends, one of them a scenario: 599998200001799999 and 399998800001199999 units, E of 999997000002999998, and a gap of
/// 2999997000002. At 10^11 one failure is kept, and there are 14 ends. At 1, the first event's branch "works" has the first 8 ends,
/// of which the last has no mass: 7 scenarios with 599999999999999996 units.
pub fn rare_failures(name: &str, threshold: u64, cap: u64) -> String {
    let text = format!(
        "threshold {threshold}\ncap {cap}\nnode A\nnode B\nlink AB A B\nevent cut 400_000_000 AB\n\
         event dig 1_000 AB\nevent dark-A 1_000 A\nevent dark-B 1_000 B\n"
    );
    scratch_with(name, text.as_bytes())
}

/// What is said of the threshold at which the walk of that plan is complete with a cap of 8.
pub const COMPLETE: &str = "1_000_000_000_000 is the lowest of ten thresholds, 10^15 down to 10^6, at which the walk is complete: \
                            lower and upper would be 0.000002999997000002 apart";

fn head_of(words: &[&str]) -> String {
    let listing = printed(words);
    let (head, _) = listing.split_once("\n\n").expect("a head and a table");
    head.to_string()
}

#[test]
fn the_head_says_where_the_walk_is_complete() {
    let path = rare_failures("stopped.txt", 1, 8);
    let expected = format!(
        "2 nodes, 1 links, 4 events, threshold 1, cap 8\n\
         7 scenarios examined, complete 0: the walk stopped at the cap; their share, E, is 0.599999999999999996\n\
         {COMPLETE}, less than here.\n\
         The share of time that a pair is cut off lies between lower and upper, 0.400000000000000004 apart.\n\
         Seconds are of a year of 365 days: lower s is rounded down, upper s up."
    );
    assert_eq!(head_of(&["listing", &path]), expected);
    let at_a_minute = head_of(&["listing", &path, "--at", "Tue 14:30"]);
    let told = format!("\n{COMPLETE}, less than here.\nThe plan has no windows");
    assert!(at_a_minute.contains(&told), "{at_a_minute}");
    let rows = printed(&["thresholds", &path, "1_000_000_000_000", "100_000_000_000"]);
    let [last, row] = [0, 1].map(|i| rows.lines().nth_back(i).expect("a row"));
    let row: Vec<&str> = row.split_whitespace().take(5).collect();
    let complete = ["1_000_000_000_000", "2", "1", "0.999997000002999998"];
    assert_eq!(row[..4], complete);
    assert_eq!(row[4], "0.000002999997000002");
    let last: Vec<&str> = last.split_whitespace().take(3).collect();
    assert_eq!((last[0], last[2]), ("100_000_000_000", "0"));
}

/// With 12 ends, at 1, only the last 4 of the branch "fails" are left out, in which the second event fails too: 0.4 × 10^-6.
#[test]
fn a_gap_that_is_not_less() {
    let path = rare_failures("not-less.txt", 1, 12);
    let head = head_of(&["listing", &path]);
    assert!(
        head.contains(&format!("\n{COMPLETE}, not less than here.\n")),
        "{head}"
    );
}

/// With a cap of 7 no usual threshold has a complete walk: the two branches of the first event have 4 ends each.
#[test]
fn no_threshold_is_complete() {
    let path = rare_failures("none.txt", 1, 7);
    let head = head_of(&["listing", &path]);
    let told = "\n10^15 down to 10^6 are ten thresholds at none of which the walk is complete within this cap: \
                a higher cap reaches more.\n";
    assert!(head.contains(told), "{head}");
}

/// With 16 ends, or at 10^12 with 8, nothing is said.
#[test]
fn a_complete_walk_needs_no_help() {
    for (threshold, cap) in [(1, 16), (1_000_000_000_000, 8)] {
        let path = rare_failures("complete.txt", threshold, cap);
        let head = head_of(&["listing", &path]);
        assert!(
            head.contains("complete 1") && !head.contains("lowest"),
            "{head}"
        );
        assert_eq!(head.lines().count(), 4, "{head}");
        assert_eq!(planner(&["listing", &path]).err, "");
    }
}

/// What the pages say of many lines of equipment. A cable of 80 km has q = 570 × 24 × 80 = 1,094,400. Of 100 of them, at 10^10, two
/// at a time are kept, with 10^-6, and three are dropped, with 10^-9: some C(100, 3) = 161,700 ends. At 10^8 four are dropped,
/// which are some C(100, 4) = 3,921,225 ends: the cap of 1,000,000 leaves likely scenarios out.
#[test]
fn many_lines_of_equipment() {
    let cables = (0..100).map(|i| format!("equipment cable-{i} 570 24 80 AB\n"));
    let text = "threshold 100_000_000\ncap 1_000_000\nnode A\nnode B\nlink AB A B\n".to_string();
    let path = scratch_with(
        "cables.txt",
        (text + &cables.collect::<String>()).as_bytes(),
    );
    let rows = printed(&["thresholds", &path, "10_000_000_000", "100_000_000"]);
    let row = |i| -> Vec<&str> {
        let row = rows.lines().nth_back(i).expect("a row");
        row.split_whitespace().skip(2).take(3).collect()
    };
    let (lower, higher) = (row(0), row(1));
    assert_eq!((higher[0], lower[0]), ("1", "0"), "complete");
    assert!(higher[2] < lower[2], "{rows}");
    let head = head_of(&["listing", &path]);
    let told = format!(
        "\n10_000_000_000 is the lowest of ten thresholds, 10^15 down to 10^6, at which the walk is complete: \
         lower and upper would be {} apart, less than here.\n",
        higher[2]
    );
    assert!(head.contains(&told), "{head}");
}
