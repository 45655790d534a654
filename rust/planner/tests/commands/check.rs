//! `planner check`: its lines, and how it ends.

use plans::examples::folder;

use crate::complete::{rare_failures, COMPLETE};
use crate::{expect_end, planner, scratch_with};

/// A check that prints these lines, tells nothing on standard error and ends with this status.
#[track_caller]
fn expect(plan: &str, lines: &[&str], status: i32) {
    let call = planner(&["check", plan]);
    let printed: Vec<&str> = call.out.lines().collect();
    assert_eq!(printed, lines, "{plan}: {}", call.err);
    assert_eq!((call.status, call.err.as_str()), (status, ""), "{plan}");
}

/// The ring with the shared duct has an event for each station and each link; its walk is that of its listing.
#[test]
fn a_clean_plan() {
    let walk = "59 scenarios examined, complete 1: the cap left nothing out; their share, E, is 0.999999998781992897; \
                the bounds of every pair are 0.000000001218007103 apart";
    expect("ring-shared-duct.txt", &[walk], 0);
    expect("ring-shared-duct.plan", &[walk], 0);
}

/// Every name is told, and all kinds. Of the four scenarios the two in which `idle` happens have no mass.
#[test]
fn warnings() {
    let nodes: String = (0..8).map(|i| format!("node n{i}\n")).collect();
    let text = format!(
        "threshold 1\ncap 100\nnode A\n{nodes}link one A n0\nlink two A n1\nevent half 500_000_000 A two\nevent idle 0\n\
         window visit Thu 09:00 Thu 10:00\n"
    );
    let path = scratch_with("check.txt", text.as_bytes());
    let lines = [
        "warning: 8 nodes are named by no event, so they never fail: n0, n1, n2, n3, n4, n5, n6, n7",
        "warning: 1 link is named by no event, so it never fails: one",
        "warning: 1 event has no members, so nothing fails with it: idle",
        "warning: 1 event has a probability of 0, so it never happens: idle",
        "warning: 1 window of planned work has no members, so it takes nothing out: visit",
        "2 scenarios examined, complete 1: the cap left nothing out; their share, E, is 1.000000000000000000; \
         the bounds of every pair are 0.000000000000000000 apart",
    ];
    expect(&path, &lines, 1);
}

#[test]
fn a_walk_that_stopped_at_the_cap() {
    let path = rare_failures("check-cap.txt", 1, 8);
    let walk = "warning: 7 scenarios examined, complete 0: the walk stopped at the cap; their share, E, is 0.599999999999999996; \
                the bounds of every pair are 0.400000000000000004 apart";
    let help = format!("warning: {COMPLETE}, less than here");
    expect(&path, &[walk, &help], 1);
}

#[test]
fn refused_plans() {
    let rising = "refused 9, a probability is above that of the event before";
    expect("refused-rising-probability.plan", &[rising], 1);
    let short = scratch_with("check-short.plan", b"RSG");
    let ends = "refused 1, the bytes end inside header, link, event or member";
    expect(&short, &[ends], 1);
    let bad = scratch_with("check-bad.txt", b"threshold 1\ncap 1\nnode A\nlink x A B\n");
    let fault = "refused: line 4: expected a node that stands above; found `B`";
    expect(&bad, &[fault], 1);
}

#[test]
fn a_file_of_another_kind() {
    let sheet = "refused: expected a text or a plan file; found an equipment sheet, which planner events takes";
    expect("equipment-ring.sheet", &[sheet], 1);
    let none = scratch_with("check-none.plan", b"\0");
    expect(&none, &["refused 2, the mark is not RSG"], 1);
}

#[test]
fn a_file_that_is_not_read() {
    let told = "absent.txt: No such file or directory (os error 2)";
    expect_end(&["check", "absent.txt"], 2, told);
}

#[test]
fn the_help_tells_of_the_check() {
    let help = planner(&["--help"]).out;
    for told in [
        "planner check PLAN.txt|IN.plan ",
        "the exit status is 1 where there is such a line, else 0",
        "told on standard error by every command",
    ] {
        assert!(help.contains(told), "{told}");
    }
}

/// The README shows the check of the triangle: its four scenarios have 999999999999999996 units.
#[test]
fn the_readme_shows_the_check() {
    let nodes = "warning: 3 nodes are named by no event, so they never fail: A, B, C";
    let walk = "4 scenarios examined, complete 1: the cap left nothing out; their share, E, is 0.999999999999999996; \
                the bounds of every pair are 0.000000000000000004 apart";
    expect("triangle.txt", &[nodes, walk], 1);
    let readme = std::fs::read_to_string(folder().join("../README.md")).expect("the README");
    let command = "    rust/target/release/planner check examples/triangle.txt\n";
    assert!(readme.contains(command), "{command}");
    let shown = format!("\n    {nodes}\n    {walk}\n");
    assert!(readme.contains(&shown), "{shown}");
}
