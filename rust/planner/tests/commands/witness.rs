//! The column of scenarios: its title, and when it is left out.

use crate::{expect_usage, planner, printed, scratch_with};

const TITLE: &str = "first in the walk's order, not the likeliest";

/// Two events cut the link. In the order of the walk the rarer one alone comes first, then the likelier one alone.
const LINK: &[u8] = b"threshold 1\ncap 100\nnode A\nnode B\nlink AB A B\n\
event often 500000000 AB\nevent rarely 100000000 AB\n";

/// The head of a listing, the title of its table and the first row.
fn parts(listing: &str) -> (&str, &str, &str) {
    let (head, table) = listing.split_once("\n\n").expect("a head and a table");
    let mut lines = table.lines();
    let mut next = || lines.next().expect("a line of the table");
    (head, next(), next())
}

#[test]
fn the_title_says_that_it_is_no_cause() {
    let listing = printed(&["listing", &scratch_with("first.txt", LINK)]);
    let (_, title, row) = parts(&listing);
    assert!(title.ends_with(&format!("  upper s  {TITLE}")), "{title}");
    assert!(row.ends_with("  17344800  17344800  rarely"), "{row}");
    let help = planner(&["--help"]).out;
    assert!(help.contains(TITLE));
}

/// Nothing but the column differs, and nothing is said of it: it was asked for.
#[test]
fn the_column_is_left_out() {
    let path = scratch_with("left-out.txt", LINK);
    let [with, shown, without] = [&[][..], &["--witness"], &["--no-witness"]]
        .map(|words: &[&str]| printed(&[&["listing", &path], words].concat()));
    assert_eq!(shown, with);
    let short = with
        .replace(&format!("  {TITLE}"), "")
        .replace("  rarely", "");
    assert_ne!(short, with);
    assert_eq!(without, short);
}

/// A ring of stations of which n0 fails with one half and nothing else ever does.
fn ring(name: &str, nodes: usize) -> String {
    let mut text = "threshold 1\ncap 100\n".to_string();
    text.extend((0..nodes).map(|i| format!("node n{i}\n")));
    text.extend((0..nodes).map(|i| format!("link l{i} n{i} n{}\n", (i + 1) % nodes)));
    let members: Vec<String> = (1..nodes).map(|i| format!("n{i}")).collect();
    let links: Vec<String> = (0..nodes).map(|i| format!("l{i}")).collect();
    text += "event first 500_000_000 n0\n";
    text += &format!("event storm 0 {} {}\n", members.join(" "), links.join(" "));
    scratch_with(name, text.as_bytes())
}

/// 32 nodes have 496 pairs, 33 have 528.
#[test]
fn more_than_500_pairs() {
    let few = printed(&["listing", &ring("ring-32.txt", 32)]);
    let (head, title, row) = parts(&few);
    assert!(
        !head.contains("left out") && title.ends_with(TITLE),
        "{few}"
    );
    assert!(row.starts_with("n0 n1 ") && row.ends_with("  15768000  15768000  first"));
    let path = ring("ring-33.txt", 33);
    let many = printed(&["listing", &path]);
    let said = "528 pairs are more than 500: the column of scenarios is left out, since the search for them takes long; \
                --witness shows it.";
    let (head, title, row) = parts(&many);
    assert_eq!(head.lines().last(), Some(said));
    assert!(title.ends_with("  upper s") && row.ends_with("  15768000  15768000"));
    let shown = printed(&["listing", &path, "--witness"]);
    let (head, title, row) = parts(&shown);
    assert!(!head.contains(said) && title.ends_with(TITLE), "{head}");
    assert!(row.ends_with("  first"), "{row}");
    let without = printed(&["listing", &path, "--no-witness"]);
    assert_eq!(without, many.replace(&format!("{said}\n"), ""));
}

/// A listing at a minute has no such column and says nothing of it.
#[test]
fn planned_work() {
    let path = ring("ring-at.txt", 33);
    let at = ["listing", &path, "--at", "Tue 14:30"];
    let listing = printed(&at);
    assert!(!listing.contains("--witness"), "{listing}");
    let both = [&at[..], &["--no-witness"]].concat();
    assert_eq!(printed(&both), listing);
}

#[test]
fn options_that_do_not_go_together() {
    let path = scratch_with("both.txt", LINK);
    let both = "expected --witness or --no-witness; found both";
    expect_usage(&["listing", &path, "--witness", "--no-witness"], both);
    let windows =
        "expected --witness or --at; found both: the search for a scenario takes no windows";
    let words = ["listing", &path, "--at", "Tue 14:30", "--witness"];
    expect_usage(&words, windows);
    let twice = "--witness: expected once; found twice";
    expect_usage(&["listing", &path, "--witness", "--witness"], twice);
}

#[test]
fn the_help_tells_of_the_options() {
    let help = planner(&["--help"]).out;
    for told in [
        "planner listing PLAN.txt|IN.plan [--witness|--no-witness]\n",
        "--no-witness leaves it out",
        "a listing of more than 500\n",
    ] {
        assert!(help.contains(told), "{told}");
    }
}
