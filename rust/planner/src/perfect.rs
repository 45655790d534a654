//! What a plan leaves perfect: nodes and links that never fail, and events and windows that do nothing.

use account::topology::Out;
use account::Event;

use crate::named::{members, Named};
use crate::windows::NamedWindow;

/// The most names of a warning, but for those of `planner check`, which has all of them.
const SHOWN: usize = 5;

/// One kind of what a plan leaves perfect: what is said of one and of several, and their names.
struct Perfect<'a> {
    one: &'static str,
    several: &'static str,
    names: Vec<&'a str>,
}

impl Perfect<'_> {
    /// How many there are and what becomes of them, with at most so many names.
    fn said(&self, most: usize) -> String {
        let count = self.names.len();
        let what = if count == 1 { self.one } else { self.several };
        let shown = self.names[..count.min(most)].join(", ");
        match count.saturating_sub(most) {
            0 => format!("{count} {what}: {shown}"),
            more => format!("{count} {what}: {shown} and {more} more"),
        }
    }
}

/// What a plan leaves perfect, a warning for each kind of which it has some, with the first five names and how many more there
/// are.
pub fn warnings(named: &Named) -> Vec<String> {
    said(named, SHOWN)
}

/// The same warnings with every name.
pub fn full_warnings(named: &Named) -> Vec<String> {
    said(named, usize::MAX)
}

/// The same warnings as lines in the head of a listing.
pub fn in_head(named: &Named) -> String {
    let lines = warnings(named).into_iter();
    lines.map(|said| format!("Warning: {said}.\n")).collect()
}

fn said(named: &Named, most: usize) -> Vec<String> {
    let kinds = kinds(named).into_iter();
    let some = kinds.filter(|kind| !kind.names.is_empty());
    some.map(|kind| kind.said(most)).collect()
}

fn kinds(named: &Named) -> [Perfect<'_>; 5] {
    let (nodes, links) = unnamed(named);
    let elements = |sets| members(sets, &named.nodes, &named.links);
    [
        Perfect {
            one: "node is named by no event, so it never fails",
            several: "nodes are named by no event, so they never fail",
            names: elements((nodes, 0)),
        },
        Perfect {
            one: "link is named by no event, so it never fails",
            several: "links are named by no event, so they never fail",
            names: elements((0, links)),
        },
        Perfect {
            one: "event has no members, so nothing fails with it",
            several: "events have no members, so nothing fails with them",
            names: events_where(named, |event| event.nodes == 0 && event.links == 0),
        },
        Perfect {
            one: "event has a probability of 0, so it never happens",
            several: "events have a probability of 0, so they never happen",
            names: events_where(named, |event| event.probability == 0),
        },
        Perfect {
            one: "window of planned work has no members, so it takes nothing out",
            several: "windows of planned work have no members, so they take nothing out",
            names: empty_windows(&named.windows),
        },
    ]
}

/// The set of nodes and that of links that no event names; numbers that no element has are in them too.
fn unnamed(named: &Named) -> (u64, u128) {
    let events = named.plan.events.iter();
    events.fold((!0, !0), |(nodes, links), event| {
        (nodes & !event.nodes, links & !event.links)
    })
}

/// The names of the events of which a test holds.
fn events_where(named: &Named, test: fn(&Event) -> bool) -> Vec<&str> {
    let events = named.events.iter().zip(&named.plan.events);
    let found = events.filter(|(_, event)| test(event));
    found.map(|(name, _)| name.as_str()).collect()
}

fn empty_windows(windows: &[NamedWindow]) -> Vec<&str> {
    let windows = windows.iter();
    let empty = windows.filter(|named| named.window.out == Out::NOTHING);
    empty.map(|named| named.name.as_str()).collect()
}

#[cfg(test)]
mod tests {
    use super::{full_warnings, in_head, warnings};
    use crate::parse;

    const START: &str = "threshold 1\ncap 100\nnode A\nnode B\nlink AB A B\n";

    /// The warnings of the two nodes and the link with these lines after them.
    #[track_caller]
    fn expect(lines: &str, expected: &[&str]) {
        let named = parse(&format!("{START}{lines}")).expect("it says a plan");
        assert_eq!(warnings(&named), expected, "{lines}");
        assert_eq!(full_warnings(&named), expected, "{lines}");
        let head: Vec<String> = expected
            .iter()
            .map(|s| format!("Warning: {s}.\n"))
            .collect();
        assert_eq!(in_head(&named), head.concat(), "{lines}");
    }

    #[test]
    fn a_plan_that_leaves_nothing_perfect() {
        expect("event storm 1 A B AB\n", &[]);
        expect("event dig 1 AB\nevent storm 1 A\nevent dark 1 B\n", &[]);
        let window = "window dig Mon 00:00 Mon 00:01 AB\n";
        expect(&format!("event storm 1 A B AB\n{window}"), &[]);
    }

    /// Each kind alone, of one and of several.
    #[test]
    fn nodes_and_links() {
        for (lines, said) in [
            (
                "event dig 1 A AB",
                "1 node is named by no event, so it never fails: B",
            ),
            (
                "event dig 1 AB",
                "2 nodes are named by no event, so they never fail: A, B",
            ),
            (
                "event dark 1 A B",
                "1 link is named by no event, so it never fails: AB",
            ),
            (
                "link two A B\nevent dark 1 B A",
                "2 links are named by no event, so they never fail: AB, two",
            ),
        ] {
            expect(&format!("{lines}\n"), &[said]);
        }
    }

    /// An event that names all, with these lines beside it.
    #[test]
    fn events_and_windows() {
        for (lines, said) in [
            (
                "event audit 1",
                "1 event has no members, so nothing fails with it: audit",
            ),
            (
                "event audit 1\nevent visit 1",
                "2 events have no members, so nothing fails with them: audit, visit",
            ),
            (
                "event x 0 A",
                "1 event has a probability of 0, so it never happens: x",
            ),
            (
                "equipment x 5 0 1 A\nequipment y 0 5 1 B",
                "2 events have a probability of 0, so they never happen: x, y",
            ),
            (
                "window w Mon 00:00 Mon 00:01",
                "1 window of planned work has no members, so it takes nothing out: w",
            ),
            (
                "window w Mon 00:00 Mon 00:01\nwindow v Tue 00:00 Tue 00:01",
                "2 windows of planned work have no members, so they take nothing out: w, v",
            ),
        ] {
            expect(&format!("event storm 1 A B AB\n{lines}\n"), &[said]);
        }
    }

    /// An event may be of two kinds; a node of an event with probability 0 is named all the same.
    #[test]
    fn all_kinds_at_once() {
        let lines = "event idle 0\nevent never 0 A\nwindow w Mon 00:00 Mon 00:01\n";
        let expected = [
            "1 node is named by no event, so it never fails: B",
            "1 link is named by no event, so it never fails: AB",
            "1 event has no members, so nothing fails with it: idle",
            "2 events have a probability of 0, so they never happen: idle, never",
            "1 window of planned work has no members, so it takes nothing out: w",
        ];
        expect(lines, &expected);
    }

    /// The last node and the last link of the largest plan are seen too.
    #[test]
    fn the_first_five_names_or_all() {
        for (count, shown) in [
            (5, "n0, n1, n2, n3, n4"),
            (6, "n0, n1, n2, n3, n4 and 1 more"),
        ] {
            let nodes: String = (0..count).map(|i| format!("node n{i}\n")).collect();
            let text = format!("{START}{nodes}event storm 1 A B AB\n");
            let named = parse(&text).expect("it says a plan");
            let said = format!("{count} nodes are named by no event, so they never fail: ");
            assert_eq!(warnings(&named), [format!("{said}{shown}")]);
            let names: Vec<&String> = named.nodes[2..].iter().collect();
            let names: Vec<&str> = names.into_iter().map(String::as_str).collect();
            assert_eq!(full_warnings(&named), [said + &names.join(", ")]);
        }
        let nodes: String = (0..62).map(|i| format!("node n{i}\n")).collect();
        let links: String = (0..127).map(|i| format!("link l{i} A B\n")).collect();
        let text = format!("{START}{nodes}{links}event storm 1 A B AB\n");
        let full = full_warnings(&parse(&text).expect("it says a plan"));
        assert!(full[0].starts_with("62 nodes ") && full[0].ends_with(", n61"));
        assert!(full[1].starts_with("127 links ") && full[1].ends_with(", l126"));
    }
}
