//! Several thresholds: rows worked out by hand, the usual ten, and what is wrong.

use crate::{expect_failure, expect_usage, planner, printed, scratch, scratch_with};

/// Three stations in a row. AB fails with 1/10 and BC with 1/100, so the four scenarios have, in the order of the walk, 0.891
/// (nothing fails), 0.009 (BC), 0.099 (AB) and 0.001 (both); no mass is lost.
pub fn row_of_three(name: &str, cap: u64) -> String {
    let text = format!(
        "threshold 12_345\ncap {cap}\nnode A\nnode B\nnode C\nlink AB A B\nlink BC B C\n\
         event cut-AB 100_000_000 AB\nevent cut-BC 10_000_000 BC\n"
    );
    scratch_with(name, text.as_bytes())
}

const READING: &str = "\
At each threshold the share of time that a pair is cut off lies between its lower and its upper bound, which for every pair are
the gap, 1 less E, apart. Complete is 1 where the cap left nothing out and 0 where the walk stopped at the cap. The worst pair is
the one with the largest upper bound, of equal ones the first; lower and upper are its bounds.

";

/// From 10^17 on, 0.099 is examined below it, 0.009 from 9 × 10^15 on and 0.001 in the end. Where AB alone is known to fail, A
/// and B are cut off as often as A and C; where BC is too, A and C are cut off more often.
#[test]
fn the_rows_of_a_small_plan() {
    let path = row_of_three("rows.txt", 100);
    let thresholds = [
        "100_000_000_000_000_000",
        "90000000000000000",
        "9000000000000001",
        "9_000_000_000_000_000",
        "1",
    ];
    let head =
        "3 nodes, 2 links, 2 events, cap 100; the plan's own threshold, 12345, is not used\n";
    let rows = "              \
              threshold  examined  complete                     E                   gap  worst pair                 lower                 upper
100_000_000_000_000_000         1         1  0.891000000000000000  0.109000000000000000  A B         0.000000000000000000  0.109000000000000000
 90_000_000_000_000_000         2         1  0.990000000000000000  0.010000000000000000  A B         0.099000000000000000  0.109000000000000000
  9_000_000_000_000_001         2         1  0.990000000000000000  0.010000000000000000  A B         0.099000000000000000  0.109000000000000000
  9_000_000_000_000_000         3         1  0.999000000000000000  0.001000000000000000  A C         0.108000000000000000  0.109000000000000000
                      1         4         1  1.000000000000000000  0.000000000000000000  A C         0.109000000000000000  0.109000000000000000
";
    let call = [&["thresholds", &path], &thresholds[..]].concat();
    assert_eq!(printed(&call), format!("{head}{READING}{rows}"));
}

/// The rows of a call, each as its words.
#[track_caller]
fn rows(words: &[&str]) -> Vec<Vec<String>> {
    let out = printed(words);
    let (_, table) = out.split_once("\n\n").expect("a head and a table");
    let rows = table.lines().skip(1);
    let words = |row: &str| row.split_whitespace().map(str::to_string).collect();
    rows.map(words).collect()
}

/// A row: its threshold, examined, complete, E and gap, two nodes, lower and upper.
type Row<'a> = (&'a str, [u64; 2], [&'a str; 2], [&'a str; 2], [&'a str; 2]);

/// Holds the rows of a call to these, whose shares are without zeros at the end.
#[track_caller]
fn expect(words: &[&str], expected: &[Row]) {
    let share = |short: &str| format!("{short:0<20}");
    let row = |&(threshold, numbers, masses, nodes, bounds): &Row| {
        let mut row = vec![threshold.to_string()];
        row.extend(numbers.map(|number| number.to_string()));
        row.extend(masses.map(share));
        row.extend(nodes.map(str::to_string));
        row.extend(bounds.map(share));
        row
    };
    let expected: Vec<Vec<String>> = expected.iter().map(row).collect();
    assert_eq!(rows(words), expected, "{words:?}");
}

/// With a cap of 3 ends. At 2 × 10^17 the failure of AB is dropped at once, and the walk has 3 ends. Below, AB and BC are both
/// decided in all scenarios, which are 4 ends, the last of them past the cap.
#[test]
fn the_cap_counts() {
    let path = row_of_three("cap.txt", 3);
    let call = [
        "thresholds",
        &path,
        "200_000_000_000_000_000",
        "100_000_000_000_000_000",
        "90_000_000_000_000_000",
        "1",
    ];
    let (ab, ac) = (["A", "B"], ["A", "C"]);
    let one = ["0.891", "0.109"];
    let none_cut = ["0.", "0.109"];
    let expected = [
        ("200_000_000_000_000_000", [1, 1], one, ab, none_cut),
        ("100_000_000_000_000_000", [1, 0], one, ab, none_cut),
        (
            "90_000_000_000_000_000",
            [2, 0],
            ["0.99", "0.01"],
            ab,
            ["0.099", "0.109"],
        ),
        ("1", [3, 0], ["0.999", "0.001"], ac, ["0.108", "0.109"]),
    ];
    expect(&call, &expected);
}

/// The triangle of document 01, by file and by text: each of its links fails with 10^-9. Down to 10^9 only the scenario without
/// a failure is examined, with 999999997000000002 units; from 10^8 on, those with one failure are too, with 999999998 units each.
#[test]
fn the_usual_ten() {
    for (path, nodes) in [
        ("triangle.plan", ["n0", "n1"]),
        ("triangle.txt", ["A", "B"]),
    ] {
        let first = ["0.999999997000000002", "0.000000002999999998"];
        let all = ["0.999999999999999996", "0.000000000000000004"];
        let expected = [
            "1_000_000_000_000_000",
            "100_000_000_000_000",
            "10_000_000_000_000",
            "1_000_000_000_000",
            "100_000_000_000",
            "10_000_000_000",
            "1_000_000_000",
            "100_000_000",
            "10_000_000",
            "1_000_000",
        ];
        let row = |(i, threshold)| match i {
            0..=6 => (threshold, [1, 1], first, nodes, ["0.", first[1]]),
            _ => (threshold, [4, 1], all, nodes, ["0.", all[1]]),
        };
        let expected: Vec<Row> = expected.into_iter().enumerate().map(row).collect();
        expect(&["thresholds", path], &expected);
    }
}

/// At 10^18 nothing of the triangle is examined, at 1 all that has any mass left.
#[test]
fn the_ends_of_the_range_and_sixteen_thresholds() {
    let nodes = ["A", "B"];
    let all = ["0.999999999999999996", "0.000000000000000004"];
    let whole = "1_000_000_000_000_000_000";
    let expected = [
        (whole, [0, 1], ["0.", "1."], nodes, ["0.", "1."]),
        ("1", [4, 1], all, nodes, ["0.", all[1]]),
    ];
    expect(&["thresholds", "triangle.txt", whole, "1"], &expected);
    let sixteen: Vec<String> = (1..=16).rev().map(|t| t.to_string()).collect();
    let mut call = vec!["thresholds", "triangle.txt"];
    call.extend(sixteen.iter().map(String::as_str));
    let rows = rows(&call);
    let first: Vec<&String> = rows.iter().map(|row| &row[0]).collect();
    assert_eq!(first, sixteen.iter().collect::<Vec<_>>());
}

#[test]
fn a_plan_without_a_pair() {
    let alone = scratch_with("alone.txt", b"threshold 1\ncap 1\nnode A\n");
    let expected = "7 1 1 1.000000000000000000 0.000000000000000000 - - -";
    let expected: Vec<&str> = expected.split(' ').collect();
    assert_eq!(rows(&["thresholds", &alone, "7"]), [expected]);
}

/// The words of a call.
fn call<'a>(plan: &'a str, words: &'a str) -> Vec<&'a str> {
    let mut call = vec!["thresholds", plan];
    call.extend(words.split(' ').filter(|word| !word.is_empty()));
    call
}

/// Thresholds of a plan that are refused, which is told.
#[track_caller]
fn expect_wrong(plan: &str, words: &str, told: &str) {
    expect_failure(&call(plan, words), told);
}

#[test]
fn what_the_proved_code_refuses() {
    let reason =
        "refused 23, thresholds are 1 to 16 numbers from 1 to 10^18, each below the one before";
    let seventeen: Vec<String> = (1..=17).rev().map(|t| t.to_string()).collect();
    let seventeen = seventeen.join(" ");
    for (words, count) in [
        ("5 7", "2 thresholds"),
        ("7 7", "2 thresholds"),
        ("9 8 8 7", "4 thresholds"),
        ("0", "1 threshold"),
        ("1 0", "2 thresholds"),
        ("1000000000000000001", "1 threshold"),
        ("18446744073709551615 1", "2 thresholds"),
        (&seventeen, "17 thresholds"),
    ] {
        let told = format!("{count}, {words}: {reason}");
        expect_wrong("triangle.txt", words, &told);
    }
    let told = format!("2 thresholds, 1000 2000: {reason}");
    expect_wrong("triangle.plan", "1_000 2_000", &told);
    let rising = "refused-rising-probability.plan";
    let reason = "refused 9, a probability is above that of the event before";
    expect_wrong(rising, "", &format!("{rising}: {reason}"));
}

#[test]
fn words_that_are_none() {
    for word in [
        "12.5",
        "-1",
        "1e15",
        "10^15",
        "_",
        "18446744073709551616",
        "A",
    ] {
        let told = format!(
            "expected a threshold, a whole number from 1 to 1000000000000000000 in units of 10^-18, \
             --svg FILE or --pair NODE NODE; found `{word}`"
        );
        expect_usage(&call("triangle.txt", word), &told);
        expect_usage(&call("triangle.txt", &format!("5 {word} 4")), &told);
    }
}

#[test]
fn options_that_are_none() {
    let path = scratch("options.svg");
    let file = path.to_str().expect("a path in UTF-8");
    let svg = "--svg: expected a file for the picture; found";
    let pair = "--pair: expected two different nodes; found";
    for (words, told) in [
        ("--svg", format!("{svg} nothing")),
        ("7 --svg --pair A B", format!("{svg} `--pair`")),
        (
            "--svg ? --svg ?",
            "--svg: expected once; found twice".into(),
        ),
        ("--svg ? --pair", format!("{pair} nothing")),
        ("--svg ? --pair A", format!("{pair} `A` alone")),
        ("--svg ? --pair A A", format!("{pair} `A` twice")),
        (
            "--svg ? --pair A B --pair B C",
            "--pair: expected once; found twice".into(),
        ),
        (
            "--pair A B 7 6",
            "--pair: expected --svg FILE beside it; found none".into(),
        ),
        (
            "7 --force",
            "--force: expected --svg FILE beside it; found none".into(),
        ),
        (
            "7 --at Tue",
            "expected --svg, --pair, --force or --help; found `--at`".into(),
        ),
    ] {
        expect_usage(&call("triangle.txt", &words.replace('?', file)), &told);
    }
    assert!(!path.exists(), "a call that fails draws nothing");
}

#[test]
fn pictures_that_cannot_be_drawn() {
    let path = scratch("none.svg");
    let file = path.to_str().expect("a path in UTF-8");
    let told = "the plan has no node `D`; its nodes are A, B, C";
    expect_wrong("triangle.txt", &format!("--pair A D --svg {file}"), told);
    let told = "2 thresholds, 5 7: refused 23, thresholds are 1 to 16 numbers from 1 to 10^18, \
                each below the one before";
    expect_wrong("triangle.txt", &format!("--svg {file} 5 7"), told);
    let alone = scratch_with("one.txt", b"threshold 1\ncap 1\nnode A\n");
    let told = "--svg: expected a plan with two nodes to draw; found one";
    expect_wrong(&alone, &format!("--svg {file}"), told);
    assert!(!path.exists(), "a call that fails draws nothing");
    let call = planner(&[
        "thresholds",
        "triangle.txt",
        "--svg",
        "no-such-folder/x.svg",
    ]);
    assert_eq!((call.status, call.out.as_str()), (2, ""));
    let told = "planner: no-such-folder/x.svg: ";
    assert!(call.err.starts_with(told), "{}", call.err);
}

#[test]
fn the_help_tells_of_thresholds() {
    let form =
        "planner thresholds PLAN.txt|IN.plan [T..] [--svg FILE [--pair NODE NODE] [--force]]";
    let told = format!("expected `{form}`; found nothing after `thresholds`");
    expect_usage(&["thresholds"], &told);
    let help = planner(&["--help"]).out;
    for told in [
        form,
        "they are ten, from 10^15 down to 10^6; the plan's cap counts, its\n",
        "own threshold does not",
        "the worst at the threshold with the smallest gap\n",
    ] {
        assert!(help.contains(told), "{told}");
    }
}
