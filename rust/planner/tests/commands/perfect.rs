//! What a plan leaves perfect: each command that gives figures or writes a plan tells it on standard error, a listing in its head.

use crate::{planner, scratch, scratch_with};

/// A plan with some of each kind: six nodes without an event, a link, an event and a window without members, and an event that
/// never happens.
const PLAN: &str = "threshold 1\ncap 100\nnode A\nnode B\nnode C\nnode D\nnode E\nnode F\nnode G\n\
link AB A B\nlink BC B C\nevent storm 1_000 G BC\nevent audit 5\nevent never 0 BC\nwindow visit Thu 09:00 Thu 10:00\n";

const SAID: [&str; 5] = [
    "6 nodes are named by no event, so they never fail: A, B, C, D, E and 1 more",
    "1 link is named by no event, so it never fails: AB",
    "1 event has no members, so nothing fails with it: audit",
    "1 event has a probability of 0, so it never happens: never",
    "1 window of planned work has no members, so it takes nothing out: visit",
];

/// The lines on standard error that are warnings, without what stands before.
#[track_caller]
fn warnings(words: &[&str]) -> Vec<String> {
    let call = planner(words);
    assert_eq!(call.status, 0, "{words:?}: {}", call.err);
    let start = format!("planner: {}: warning: ", words[1]);
    let lines = call.err.lines();
    let said = lines.filter_map(|line| line.strip_prefix(&start));
    said.map(str::to_string).collect()
}

#[test]
fn every_command_tells_it() {
    let path = scratch_with("perfect.txt", PLAN.as_bytes());
    let [plan, sheet, svg] = ["perfect.plan", "perfect.sheet", "perfect.svg"].map(scratch);
    let [plan, sheet, svg] = [&plan, &sheet, &svg].map(|path| path.to_str().expect("UTF-8"));
    for words in [
        &["listing", &path][..],
        &["listing", &path, "--at", "Tue 14:30"],
        &["bounds", &path],
        &["thresholds", &path],
        &["thresholds", &path, "--svg", svg],
        &["credit", &path, "A", "B", "1", "2", "3"],
        &["file", &path, plan],
        &["sheet", &path, sheet],
    ] {
        assert_eq!(warnings(words), SAID, "{words:?}");
    }
    let by_number = [
        "6 nodes are named by no event, so they never fail: n0, n1, n2, n3, n4 and 1 more",
        "1 link is named by no event, so it never fails: l0",
        "1 event has no members, so nothing fails with it: e1",
        "1 event has a probability of 0, so it never happens: e2",
    ];
    for words in [
        &["listing", plan][..],
        &["bounds", plan],
        &["thresholds", plan],
    ] {
        assert_eq!(warnings(words), by_number, "{words:?}");
    }
    for words in [&["text", plan][..], &["events", sheet]] {
        assert_eq!(planner(words).err, "", "{words:?}");
    }
}

#[test]
fn the_head_of_a_listing_tells_it() {
    let path = scratch_with("perfect-head.txt", PLAN.as_bytes());
    let lines = SAID.map(|said| format!("Warning: {said}.\n")).concat();
    let listing = planner(&["listing", &path]).out;
    let told = format!("\nSeconds are of a year of 365 days: lower s is rounded down, upper s up.\n{lines}1 window");
    assert!(listing.contains(&told), "{listing}");
    let at_a_minute = planner(&["listing", &path, "--at", "Thu 09:00"]).out;
    assert!(
        at_a_minute.contains(&format!("\n{lines}\npair ")),
        "{at_a_minute}"
    );
}

/// The examples but the triangle, whose nodes have no event, leave nothing perfect: nothing is told.
#[test]
fn a_plan_that_leaves_nothing_perfect() {
    let nodes = "3 nodes are named by no event, so they never fail: A, B, C";
    assert_eq!(warnings(&["bounds", "triangle.txt"]), [nodes]);
    for plan in [
        "ring-shared-duct.txt",
        "ring-separate.plan",
        "geant-core.txt",
        "equipment-ring.txt",
    ] {
        assert_eq!(planner(&["bounds", plan]).err, "", "{plan}");
    }
    let listing = planner(&["listing", "ring-shared-duct.txt"]);
    assert_eq!(listing.err, "");
    assert!(!listing.out.contains("Warning"), "{}", listing.out);
}

/// A call that fails tells why, and nothing else.
#[test]
fn a_call_that_fails_tells_no_warning() {
    let path = scratch_with("perfect-fails.txt", PLAN.as_bytes());
    let call = planner(&["credit", &path, "A", "X", "1", "2", "3"]);
    assert!(!call.err.contains("warning"), "{}", call.err);
    assert!(
        call.err.contains("the plan has no node `X`"),
        "{}",
        call.err
    );
}
