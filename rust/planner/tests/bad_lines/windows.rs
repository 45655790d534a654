//! Lines of windows.

use account::topology::Out;
use planner::parse;

use crate::{expect, fault_of, RIGHT};

/// The right text with two lines more at its end, lines 11 and 12.
fn with(lines: [&str; 2]) -> String {
    [&RIGHT[..], &lines].concat().join("\n")
}

/// The start and the end of each window of the right text with two lines more, and what it takes out.
fn windows(lines: [&str; 2]) -> Vec<(u64, u64, Out)> {
    let named = parse(&with(lines)).expect("it says a plan");
    let windows = named.windows.iter().map(|named| named.window);
    windows.map(|w| (w.start, w.end, w.out)).collect()
}

/// 1,440 minutes a day: Tue 08:00 is minute 1,920 and Tue 16:00 minute 2,400. Node A is bit 0 of the nodes, B bit 1.
#[test]
fn right_windows() {
    let both = [
        "window dig Tue 08:00 Tue 16:00 AB A",
        "window A Mon 00:00 Sun 24:00",
    ];
    let dig = Out { nodes: 1, links: 1 };
    assert_eq!(
        windows(both),
        [(1_920, 2_400, dig), (0, 10_080, Out::NOTHING)]
    );
    let named = parse(&with(both)).expect("it says a plan");
    let names: Vec<&str> = named.windows.iter().map(|w| w.name.as_str()).collect();
    assert_eq!(names, ["dig", "A"]);
    let ends = [
        "window late Sun 23:59 Sun 24:00 B A",
        "window early Mon 00:00 Mon 24:00 B",
    ];
    let [late, early] = [3, 2].map(|nodes| Out { nodes, links: 0 });
    assert_eq!(windows(ends), [(10_079, 10_080, late), (0, 1_440, early)]);
}

#[test]
fn words() {
    let form = "`window NAME DAY TIME DAY TIME MEMBER..`";
    for (line, words) in [
        ("window", "nothing"),
        ("window work", "1 word"),
        ("window work Tue 08:00", "3 words"),
        ("window work Tue 08:00 Tue", "4 words"),
        ("window work Tue 08:00 16:00", "4 words"),
    ] {
        expect(7, line, &format!("{form}; found {words} after `window`"));
    }
}

#[test]
fn days_and_times() {
    let day = "a day: Mon, Tue, Wed, Thu, Fri, Sat or Sun";
    let start = "a time HH:MM from 00:00 to 23:59";
    let end = "a time HH:MM from 00:00 to 24:00";
    for (times, expected, found) in [
        ("tue 08:00 Tue 16:00", day, "tue"),
        ("Tuesday 08:00 Tue 16:00", day, "Tuesday"),
        ("Tue 08:00 16:00 AB", day, "16:00"),
        ("08:00 Tue 16:00 Tue", day, "08:00"),
        ("Tue 8:00 Tue 16:00", start, "8:00"),
        ("Tue 08:60 Tue 16:00", start, "08:60"),
        ("Mon 24:00 Tue 16:00", start, "24:00"),
        ("Tue 0800 Tue 16:00", start, "0800"),
        ("Tue 08:00 Tue 4pm", end, "4pm"),
        ("Tue 08:00 Tue 24:01", end, "24:01"),
        ("Sat 08:00 Sun 25:00", end, "25:00"),
    ] {
        let line = format!("window work {times} AB");
        expect(7, &line, &format!("{expected}; found `{found}`"));
    }
}

/// Of an end that is not after its start: the same minute, one minute before, and work over the end of the week.
#[test]
fn an_end_that_is_not_after_the_start() {
    let expected = "an end after the start, and two windows for work over the end of the week: \
                    one up to Sun 24:00 and one from Mon 00:00";
    for times in [
        "Tue 08:00 Tue 08:00",
        "Tue 08:00 Tue 07:59",
        "Tue 00:00 Mon 24:00",
        "Mon 00:00 Mon 00:00",
        "Sun 22:00 Mon 00:00",
        "Sun 22:00 Mon 06:00",
    ] {
        let line = format!("window work {times} AB");
        expect(7, &line, &format!("{expected}; found `{times}`"));
    }
    let minute = [
        "window one Tue 08:00 Tue 08:01 AB",
        "window last Sun 22:00 Sun 24:00 AB",
    ];
    assert!(parse(&with(minute)).is_ok());
}

#[test]
fn members() {
    let unknown = "nodes and links that stand above; found";
    let work = |members: &str| format!("window work Tue 08:00 Tue 16:00 {members}");
    expect(7, &work("AB BC"), &format!("{unknown} `BC`"));
    expect(10, &work("dig"), &format!("{unknown} `dig`"));
    expect(3, &work("A"), &format!("{unknown} `A`"));
    let twice = "each member once; found `AB` twice";
    expect(7, &work("AB A AB"), twice);
}

/// Windows have names of their own: only another window's is taken.
#[test]
fn names() {
    let line = |name: &str| format!("window {name} Tue 08:00 Tue 16:00 AB");
    let lines = [line("dig"), line("AB")];
    let named = parse(&with([&lines[0], &lines[1]])).expect("it says a plan");
    assert_eq!(named.windows.len(), 2);
    let fault = "line 12: expected a name that is free; found `dig`, a window since line 11";
    assert_eq!(fault_of(&with([&lines[0], &lines[0]])), fault);
}
