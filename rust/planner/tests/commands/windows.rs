//! Planned work: the listing at a minute of the week, and the commands that take no windows.

use crate::{expect_failure, expect_usage, planner, printed, scratch, scratch_with};

/// A triangle. Of its links AB fails with 1/2, AC with 1/4 and BC never, and no mass is lost in the four scenarios.
const TRIANGLE: &str = "threshold 1\ncap 100\nnode A\nnode B\nnode C\n\
link AB A B\nlink BC B C\nlink AC A C\nevent cut-AB 500_000_000 AB\nevent cut-AC 250_000_000 AC\n";

/// Two windows that touch at noon.
const WINDOWS: &str = "window morning Tue 08:00 Tue 12:00 BC\nwindow noon Tue 12:00 Tue 16:00 C\n";

/// A file with the triangle and these windows.
fn triangle_with(name: &str, windows: &str) -> String {
    scratch_with(name, format!("{TRIANGLE}{windows}").as_bytes())
}

/// The head of a listing, after the line of its examined scenarios, and the words of each row of its table.
fn head_and_rows(listing: &str) -> (String, Vec<Vec<&str>>) {
    let (head, table) = listing.split_once("\n\n").expect("a head and a table");
    let head: Vec<&str> = head.lines().skip(2).collect();
    let rows = table.lines().skip(1);
    let rows = rows.map(|row| row.split_whitespace().collect());
    (head.join("\n"), rows.collect())
}

/// A pair and its shares of time: with the work, where lower and upper are the same, and without.
type Cut<'a> = (&'a str, f64, f64);

/// Holds the rows of a listing to shares: none of them has a part below 10^-18 or below a second a year.
#[track_caller]
fn expect_rows(listing: &str, cuts: &[Cut]) {
    let expected: Vec<Vec<String>> = cuts.iter().map(row).collect();
    assert_eq!(head_and_rows(listing).1, expected, "{listing}");
}

fn row(&(pair, with, without): &Cut) -> Vec<String> {
    let share = |share: f64| format!("{share:.18}");
    let seconds = |share: f64| (share * 31_536_000.0).to_string();
    let with = [share(with), share(with), seconds(with), seconds(with)];
    let mut words: Vec<String> = pair.split(' ').map(str::to_string).collect();
    words.extend(with);
    words.extend([share(without), seconds(without)]);
    words
}

/// Without work, A is off where AB and AC both are: 1/2 × 1/4. B and C always have BC.
const NOTHING_OUT: [Cut; 3] = [
    ("A B", 0.125, 0.125),
    ("A C", 0.125, 0.125),
    ("B C", 0.0, 0.0),
];

/// Without BC each pair has one way: B and C that over A, 1 - 1/2 × 3/4.
const WITHOUT_BC: [Cut; 3] = [
    ("B C", 0.625, 0.0),
    ("A B", 0.5, 0.125),
    ("A C", 0.25, 0.125),
];

/// Without C, A and B have AB alone.
const WITHOUT_C: [Cut; 3] = [("A C", 1.0, 0.125), ("B C", 1.0, 0.0), ("A B", 0.5, 0.125)];

#[test]
fn the_listing_at_a_minute() {
    let path = triangle_with("minute.txt", WINDOWS);
    let expected = "\
3 nodes, 3 links, 2 events, threshold 1, cap 100
4 scenarios examined, complete 1: the cap left nothing out; their share, E, is 1.000000000000000000
Windows of planned work that hold Tue 11:59: 1 of 2, morning (Tue 08:00 to Tue 12:00).
Out: BC.
While the work lasts, the share of time that a pair is cut off lies between lower and upper, 0.000000000000000000 apart.
Seconds are of a year of 365 days in which the work never ends: lower s is rounded down, upper s up.
The last two columns are upper and upper s without the work: the difference shows what it costs while it lasts.
Warning: 3 nodes are named by no event, so they never fail: A, B, C.
Warning: 1 link is named by no event, so it never fails: BC.

pair                 lower                 upper   lower s   upper s    upper without work  upper s without work
B C   0.625000000000000000  0.625000000000000000  19710000  19710000  0.000000000000000000                     0
A B   0.500000000000000000  0.500000000000000000  15768000  15768000  0.125000000000000000               3942000
A C   0.250000000000000000  0.250000000000000000   7884000   7884000  0.125000000000000000               3942000
";
    assert_eq!(printed(&["listing", &path, "--at", "Tue 11:59"]), expected);
    assert_eq!(
        printed(&["listing", &path, "--at", "Tue", "11:59"]),
        expected
    );
}

/// The start of a window is in it and its end is not, also where another window starts there.
#[test]
fn windows_that_touch() {
    let path = triangle_with("touch.txt", WINDOWS);
    let morning = "morning (Tue 08:00 to Tue 12:00).\nOut: BC.\n";
    let noon = "noon (Tue 12:00 to Tue 16:00).\nOut: C.\n";
    for (time, work, cuts) in [
        ("Tue 07:59", None, NOTHING_OUT),
        ("Tue 08:00", Some(morning), WITHOUT_BC),
        ("Tue 11:59", Some(morning), WITHOUT_BC),
        ("Tue 12:00", Some(noon), WITHOUT_C),
        ("Tue 15:59", Some(noon), WITHOUT_C),
        ("Tue 16:00", None, NOTHING_OUT),
        ("Wed 12:00", None, NOTHING_OUT),
    ] {
        let listing = printed(&["listing", &path, "--at", time]);
        expect_rows(&listing, &cuts);
        let told = match work {
            None => "none of 2.\nOut: nothing.\n".to_string(),
            Some(work) => format!("1 of 2, {work}While the work lasts, "),
        };
        let told = format!("\nWindows of planned work that hold {time}: {told}");
        assert!(listing.contains(&told), "{listing}");
        let columns = "\nThe last two columns are upper and upper s without the work.\nWarning: ";
        for line in ["\nThe share of time that a pair is cut off lies", columns] {
            assert_eq!(listing.contains(line), work.is_none(), "{listing}");
        }
    }
}

/// At the last minute of the week two windows hold: without AB and BC, A and C have AC alone and B has nothing. At the first
/// one AB is back: B has A, and C over AB and AC.
#[test]
fn windows_that_overlap_and_the_ends_of_the_week() {
    let windows = "window week Mon 00:00 Sun 24:00 BC\nwindow night Sun 23:59 Sun 24:00 AB BC\n";
    let path = triangle_with("overlap.txt", windows);
    let last = printed(&["listing", &path, "--at", "Sun 23:59"]);
    let both =
        "2 of 2, week (Mon 00:00 to Sun 24:00), night (Sun 23:59 to Sun 24:00).\nOut: AB, BC.\n";
    assert!(last.contains(both), "{last}");
    let cuts = [("A B", 1.0, 0.125), ("B C", 1.0, 0.0), ("A C", 0.25, 0.125)];
    expect_rows(&last, &cuts);
    for time in ["Mon 00:00", "Sun 23:58"] {
        let listing = printed(&["listing", &path, "--at", time]);
        let one = "1 of 2, week (Mon 00:00 to Sun 24:00).\nOut: BC.\n";
        assert!(listing.contains(one), "{listing}");
        expect_rows(&listing, &WITHOUT_BC);
    }
}

#[test]
fn a_window_that_takes_nothing_out() {
    let path = triangle_with("nothing.txt", "window visit Thu 09:00 Thu 10:00\n");
    let listing = printed(&["listing", &path, "--at", "Thu 09:30"]);
    let told = ": 1 of 1, visit (Thu 09:00 to Thu 10:00).\nOut: nothing.\nWhile the work lasts";
    assert!(listing.contains(told), "{listing}");
    expect_rows(&listing, &NOTHING_OUT);
}

/// Links 0 to 63 join A and B, link 64 joins B and C. Of the 64 one may go, and node 0, with the same bit as link 64, stays.
#[test]
fn a_link_past_the_first_word() {
    let mut text = "threshold 1\ncap 100\nnode A\nnode B\nnode C\n".to_string();
    for i in 0..64 {
        text += &format!("link AB{i} A B\n");
    }
    text += "link BC B C\nwindow dig Mon 00:00 Mon 00:01 BC AB0\n";
    let path = scratch_with("past.txt", text.as_bytes());
    let listing = printed(&["listing", &path, "--at", "Mon 00:00"]);
    assert!(listing.contains("\nOut: AB0, BC.\n"), "{listing}");
    let cuts = [("A C", 1.0, 0.0), ("B C", 1.0, 0.0), ("A B", 0.0, 0.0)];
    expect_rows(&listing, &cuts);
}

#[test]
fn a_plan_without_windows() {
    let text = triangle_with("windowless.txt", "");
    let plan = scratch("windowless.plan");
    let plan = plan.to_str().expect("a path in UTF-8");
    assert_eq!(printed(&["file", &text, plan]), "");
    let told = "The plan has no windows of planned work: nothing is out at Tue 14:30. \
                A text may have them, a plan file has none.\nThe share of time ";
    let cuts = NOTHING_OUT;
    let listing = printed(&["listing", &text, "--at", "Tue 14:30"]);
    assert!(listing.contains(told), "{listing}");
    expect_rows(&listing, &cuts);
    let listing = printed(&["listing", plan, "--at", "Tue 14:30"]);
    assert!(listing.contains(told), "{listing}");
    let by_number = [
        ("n0 n1", 0.125, 0.125),
        ("n0 n2", 0.125, 0.125),
        ("n1 n2", 0.0, 0.0),
    ];
    expect_rows(&listing, &by_number);
}

/// One line more in the head, and nothing else, tells that windows are not counted.
#[test]
fn the_listing_without_a_minute() {
    let without = printed(&["listing", &triangle_with("listing-0.txt", "")]);
    let (head, table) = without.split_once("\n\n").expect("a head and a table");
    let one = "window dark Mon 00:00 Sun 24:00 A B C\n";
    for (windows, told) in [
        (one, "1 window of planned work is"),
        (WINDOWS, "2 windows of planned work are"),
    ] {
        let listing = printed(&["listing", &triangle_with("listing-n.txt", windows)]);
        let line = format!(
            "{told} not counted; --at 'Tue 14:30' lists with what is out at that minute of the week."
        );
        assert_eq!(listing, format!("{head}\n{line}\n\n{table}"));
    }
}

/// What every command tells of the triangle.
const PERFECT: [&str; 2] = [
    "warning: 3 nodes are named by no event, so they never fail: A, B, C",
    "warning: 1 link is named by no event, so it never fails: BC",
];

/// What a command prints, tells and writes for the triangle with windows is that of the triangle without, but for one line on
/// standard error.
#[track_caller]
fn same_but_for(told: &str, command: &str, words: &[&str], to: Option<&str>) {
    let mut found = Vec::new();
    for (windows, said) in [
        ("", ""),
        (WINDOWS, "2 windows of planned work are "),
        (
            "window one Mon 00:00 Sun 24:00 A AB\n",
            "1 window of planned work is ",
        ),
    ] {
        let path = triangle_with(&format!("same-{command}.txt"), windows);
        let _ = to.map(std::fs::remove_file);
        let call = planner(&[&[command, &path], words].concat());
        let first = match windows {
            "" => None,
            _ => Some(format!("{said}{told}")),
        };
        let lines = first.into_iter().chain(PERFECT.map(str::to_string));
        let lines: String = lines
            .map(|line| format!("planner: {path}: {line}\n"))
            .collect();
        assert_eq!((call.status, call.err), (0, lines), "{command}");
        let written = to.map(|to| std::fs::read(to).expect("the file that was written"));
        found.push((call.out, written));
    }
    assert_eq!(found[0], found[1], "{command}");
    assert_eq!(found[0], found[2], "{command}");
}

#[test]
fn the_commands_without_windows() {
    let [plan, sheet] = ["same.plan", "same.sheet"].map(scratch);
    let (plan, sheet) = (plan.to_str(), sheet.to_str());
    let (plan, sheet) = (plan.expect("UTF-8"), sheet.expect("UTF-8"));
    let left_out = "left out: a plan file has no windows";
    same_but_for(left_out, "file", &[plan], Some(plan));
    let left_out = "left out: a sheet has no windows";
    same_but_for(left_out, "sheet", &[sheet], Some(sheet));
    let not_counted = "not counted: only listing --at takes windows";
    same_but_for(not_counted, "bounds", &[], None);
    same_but_for(not_counted, "thresholds", &["1000", "1"], None);
    let contract = ["A", "B", "120000", "3600", "5000"];
    same_but_for(not_counted, "credit", &contract, None);
}

#[test]
fn a_text_with_equipment_has_windows_too() {
    let text = "threshold 1\ncap 100\nnode A\nnode B\nlink one A B\nlink two A B\n\
                equipment cable 1_000 25 10_000 one\nwindow dig Fri 06:00 Fri 18:00 two\n\
                equipment spare 1_000 25 20_000 two\n";
    let path = scratch_with("equipment-window.txt", text.as_bytes());
    let listing = printed(&["listing", &path, "--at", "Fri 17:59"]);
    assert!(listing.contains("dig (Fri 06:00 to Fri 18:00).\nOut: two.\n"));
    expect_rows(&listing, &[("A B", 0.25, 0.125)]);
}

#[test]
fn times_that_are_none() {
    let path = triangle_with("times.txt", WINDOWS);
    let two = "a day and a time, as in 'Tue 14:30'";
    let day = "a day: Mon, Tue, Wed, Thu, Fri, Sat or Sun";
    let time = "a time HH:MM from 00:00 to 23:59";
    for (word, expected, found) in [
        ("", two, "nothing"),
        ("Tue", two, "`Tue` alone"),
        ("14:30", two, "`14:30` alone"),
        ("Tue 14:30 Wed", two, "`Tue 14:30 Wed`"),
        ("tue 14:30", day, "`tue`"),
        ("Tues 14:30", day, "`Tues`"),
        ("Tue 24:00", time, "`24:00`"),
        ("Sun 24:00", time, "`24:00`"),
        ("Tue 14:60", time, "`14:60`"),
        ("Tue 2:30", time, "`2:30`"),
        ("Tue 1430", time, "`1430`"),
    ] {
        let told = format!("--at: expected {expected}; found {found}");
        expect_usage(&["listing", &path, "--at", word], &told);
    }
    let told = format!("--at: expected {two}; found nothing");
    expect_usage(&["listing", &path, "--at"], &told);
    let refused = "refused-rising-probability.plan";
    let reason = "refused 9, a probability is above that of the event before";
    let told = format!("{refused}: {reason}");
    expect_failure(&["listing", refused, "--at", "Tue 14:30"], &told);
}

#[test]
fn a_bad_window_is_told_by_every_command() {
    let windows = "window night Sun 22:00 Mon 06:00 AB\n";
    let path = triangle_with("night.txt", windows);
    let told = format!(
        "{path}: line 11: expected an end after the start, and two windows for work over the end of the week: \
         one up to Sun 24:00 and one from Mon 00:00; found `Sun 22:00 Mon 06:00`"
    );
    let out = scratch("night.out");
    let out = out.to_str().expect("UTF-8");
    for words in [
        &["listing", &path][..],
        &["listing", &path, "--at", "Sun 23:00"],
        &["bounds", &path],
        &["thresholds", &path, "--svg", out],
        &["credit", &path, "A", "B", "1", "2", "3"],
        &["file", &path, out],
        &["sheet", &path, out],
    ] {
        expect_failure(words, &told);
    }
    assert!(!std::path::Path::new(out).exists());
}

#[test]
fn the_help_tells_of_windows() {
    let call = ["listing", "triangle.txt", "--when", "Tue 14:30"];
    expect_usage(
        &call,
        "expected --at, --witness, --no-witness or --help; found `--when`",
    );
    let help = planner(&["--help"]).out;
    for told in [
        "planner listing PLAN.txt|IN.plan --at 'Tue 14:30'",
        "seconds are of a year in which it never ends",
        "since only a run takes",
        "window NAME START END MEMBER..",
        "one up to Sun 24:00 and one from Mon 00:00",
        "file and sheet leave\nthem out. bounds, thresholds and credit are without them",
        "The bounds, with planned work and without",
    ] {
        assert!(help.contains(told), "{told}");
    }
}
