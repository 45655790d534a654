//! Texts with one thing wrong: the fault names the line, what was expected and what stands there.

mod equipment;
mod windows;

use planner::parse;

/// A text that says a plan, in ten lines.
const RIGHT: [&str; 10] = [
    "# two stations",
    "threshold 1",
    "cap 100",
    "node A",
    "node B",
    "link AB A B",
    "",
    "event dig 1_000 AB A",
    "event storm 1_000 A B",
    "event audit 0",
];

/// The fault of a text, as a person reads it.
fn fault_of(text: &str) -> String {
    parse(text).expect_err("the text has a fault").to_string()
}

/// The fault of the right text with one line changed; lines are counted from 1.
#[track_caller]
fn expect(number: usize, line: &str, fault: &str) {
    let mut lines = RIGHT;
    lines[number - 1] = line;
    assert_eq!(
        fault_of(&lines.join("\n")),
        format!("line {number}: expected {fault}")
    );
}

#[test]
fn the_right_text_has_no_fault() {
    let named = parse(&RIGHT.join("\n")).expect("it says a plan");
    assert_eq!(named.nodes, ["A", "B"]);
    assert_eq!(named.links, ["AB"]);
    assert_eq!(named.events, ["dig", "storm", "audit"]);
    let sets: Vec<_> = named
        .plan
        .events
        .iter()
        .map(|e| (e.nodes, e.links))
        .collect();
    assert_eq!(sets, [(1, 1), (3, 0), (0, 0)]);
}

#[test]
fn keywords() {
    let known = "threshold, cap, node, link, event, equipment or window";
    expect(4, "nod A", &format!("{known}; found `nod`"));
    expect(4, "NODE A", &format!("{known}; found `NODE`"));
    expect(1, "RSG", &format!("{known}; found `RSG`"));
}

#[test]
fn threshold_and_cap() {
    let threshold = "the threshold as a whole number from 1 to 1000000000000000000";
    expect(2, "threshold 0", &format!("{threshold}; found `0`"));
    expect(2, "threshold 1e8", &format!("{threshold}; found `1e8`"));
    let above = "1_000_000_000_000_000_001";
    expect(
        2,
        &format!("threshold {above}"),
        &format!("{threshold}; found `{above}`"),
    );
    let cap = "the cap as a whole number from 1 to 1000000";
    expect(3, "cap 0", &format!("{cap}; found `0`"));
    expect(3, "cap 1000001", &format!("{cap}; found `1000001`"));
    expect(3, "cap", "`cap C`; found nothing after `cap`");
    expect(3, "cap 1 2", "`cap C`; found 2 words after `cap`");
    expect(
        7,
        "cap 5",
        "one line `cap C`; found another one after line 3",
    );
    expect(
        7,
        "threshold 5",
        "one line `threshold T`; found another one after line 2",
    );
}

#[test]
fn names() {
    let free = "a name that is free";
    expect(
        5,
        "node A",
        &format!("{free}; found `A`, a node since line 4"),
    );
    expect(
        6,
        "link A A B",
        &format!("{free}; found `A`, a node since line 4"),
    );
    expect(
        7,
        "link AB A B",
        &format!("{free}; found `AB`, a link since line 6"),
    );
    expect(
        7,
        "node AB",
        &format!("{free}; found `AB`, a link since line 6"),
    );
    expect(
        9,
        "event dig 1",
        &format!("{free}; found `dig`, an event since line 8"),
    );
    expect(4, "node", "`node NAME`; found nothing after `node`");
    expect(4, "node A B", "`node NAME`; found 2 words after `node`");
}

#[test]
fn links() {
    let form = "`link NAME NODE NODE`";
    expect(
        6,
        "link AB A",
        &format!("{form}; found 2 words after `link`"),
    );
    expect(6, "link", &format!("{form}; found nothing after `link`"));
    expect(
        6,
        "link AB A B C",
        &format!("{form}; found 4 words after `link`"),
    );
    expect(6, "link AB A C", "a node that stands above; found `C`");
    expect(7, "link two A AB", "a node that stands above; found `AB`");
    expect(6, "link AB A A", "two different nodes; found `A` twice");
    expect(3, "link AB A B", "a node that stands above; found `A`");
}

#[test]
fn events() {
    let form = "`event NAME Q MEMBER..`";
    expect(
        8,
        "event dig",
        &format!("{form}; found 1 word after `event`"),
    );
    let q = "q in units of 10^-9 as a whole number from 0 to 1000000000";
    expect(8, "event dig AB", &format!("{q}; found `AB`"));
    expect(8, "event dig 0.001 AB", &format!("{q}; found `0.001`"));
    expect(
        8,
        "event dig 1000000001 AB",
        &format!("{q}; found `1000000001`"),
    );
    let rise = "q of at most 1000, that of `dig`: q never rises";
    expect(9, "event storm 1001 A", &format!("{rise}; found `1001`"));
    expect(
        8,
        "event dig 1000 BC",
        "nodes and links that stand above; found `BC`",
    );
    expect(
        9,
        "event storm 5 dig",
        "nodes and links that stand above; found `dig`",
    );
    expect(
        8,
        "event dig 1000 AB A AB",
        "each member once; found `AB` twice",
    );
}

/// A `#` inside a word is told in the order of the lines, before anything else that is wrong in its line.
#[test]
fn a_comment_inside_a_word() {
    let told = "a word without `#`, or a blank before `#`, which starts a comment; found";
    for (number, line, word) in [
        (2, "threshold 1#2", "1#2"),
        (3, "cap# 100", "cap#"),
        (4, "node Birch#2", "Birch#2"),
        (6, "link AB A B# the short way", "B#"),
        (7, "window dig#1 Tue 08:00 Tue 16:00 AB", "dig#1"),
        (7, "equipment oxc 1 1 1 A#B", "A#B"),
        (8, "event dig 1_000 BC#2 A", "BC#2"),
        (8, "even dig# 1_000", "dig#"),
    ] {
        expect(number, line, &format!("{told} `{word}`"));
    }
    let mut lines = RIGHT;
    (lines[3], lines[8]) = ("node A#1", "event storm 2_000");
    let fault = format!("line 4: expected {told} `A#1`");
    assert_eq!(fault_of(&lines.join("\n")), fault);
    (lines[3], lines[8]) = ("node", "event storm#1 1_000");
    let fault = "line 4: expected `node NAME`; found nothing after `node`";
    assert_eq!(fault_of(&lines.join("\n")), fault);
    (lines[3], lines[8]) = ("node A #1", "event storm 1_000 A B #2#3");
    assert_eq!(parse(&lines.join("\n")), parse(&RIGHT.join("\n")));
}

/// A text without lines ends in line 1.
#[test]
fn an_empty_text() {
    let fault = "line 1: expected a line `threshold T`; found the end of the text";
    for text in ["", "\u{feff}", "\n", "# nothing"] {
        assert_eq!(fault_of(text), fault, "{text:?}");
    }
}

#[test]
fn what_is_missing() {
    let without = |keyword: &str| {
        let kept = RIGHT.iter().filter(|line| !line.starts_with(keyword));
        kept.copied().collect::<Vec<_>>().join("\n")
    };
    let end = "found the end of the text";
    assert_eq!(
        fault_of(&without("threshold")),
        format!("line 9: expected a line `threshold T`; {end}")
    );
    assert_eq!(
        fault_of(&without("cap")),
        format!("line 9: expected a line `cap C`; {end}")
    );
    assert_eq!(
        fault_of("threshold 1\ncap 1\n"),
        format!("line 2: expected a line `node NAME`; {end}")
    );
}

#[test]
fn more_than_a_plan_holds() {
    let many = |form: &dyn Fn(usize) -> String, count: usize| {
        let lines: Vec<String> = (0..count).map(form).collect();
        format!("threshold 1\ncap 1\nnode A\nnode B\n{}\n", lines.join("\n"))
    };
    let node = |i: usize| format!("node n{i}");
    let link = |i: usize| format!("link l{i} B A");
    let event = |i: usize| format!("event e{i} 7");
    assert!(parse(&many(&node, 62)).is_ok());
    let fault = "line 67: expected at most 64 nodes; found one more";
    assert_eq!(fault_of(&many(&node, 63)), fault);
    let fault = "line 133: expected at most 128 links; found one more";
    assert_eq!(fault_of(&many(&link, 129)), fault);
    let fault = "line 133: expected at most 128 events; found one more";
    assert_eq!(fault_of(&many(&event, 129)), fault);
    let mixed = |i: usize| match i % 2 {
        0 => event(i),
        _ => format!("equipment e{i} 1 1 {i} A"),
    };
    assert!(parse(&many(&mixed, 128)).is_ok());
    assert_eq!(fault_of(&many(&mixed, 129)), fault);
}
