//! The picture of a pair over thresholds: places worked out by hand, and a file that is well formed.

use crate::thresholds::row_of_three;
use crate::xml::{attribute, elements, well_formed};
use crate::{printed, scratch, scratch_with};

/// The picture that a call draws, with these words after the plan, and what the call prints.
#[track_caller]
fn drawn_and_printed(name: &str, plan: &str, words: &str) -> [String; 2] {
    let path = scratch(name);
    let file = path.to_str().expect("a path in UTF-8");
    let mut call = vec!["thresholds", plan, "--svg", file];
    call.extend(words.split(' '));
    let rows = printed(&call);
    let picture = std::fs::read_to_string(&path).expect("the picture");
    well_formed(&picture);
    [picture, rows]
}

#[track_caller]
fn drawn(name: &str, plan: &str, words: &str) -> String {
    let [picture, _] = drawn_and_printed(name, plan, words);
    picture
}

/// A mark of a picture: its place, and whether it is filled.
type Mark = (f64, f64, bool);

/// The marks of the upper bound, which are circles, and of the lower one, which are squares with sides of 11; those of the
/// legend, below the plot, are left out.
fn marks(picture: &str) -> [Vec<Mark>; 2] {
    let circles = elements(picture, "circle");
    let squares = elements(picture, "rect").filter(|tag| attribute(tag, "x").is_some());
    let in_plot = |mark: &Mark| mark.1 <= 480.0;
    [
        circles
            .map(|tag| mark(tag, ["cx", "cy"], 0.0))
            .filter(in_plot)
            .collect(),
        squares
            .map(|tag| mark(tag, ["x", "y"], 5.5))
            .filter(in_plot)
            .collect(),
    ]
}

/// The mark of an element, whose place is so far from its middle.
fn mark(tag: &str, place: [&str; 2], half: f64) -> Mark {
    let [x, y] = place.map(|name| {
        let value = attribute(tag, name).expect(name);
        value.parse::<f64>().expect("a number") + half
    });
    (x, y, attribute(tag, "fill") != Some("white"))
}

/// One link that fails with 1/10. At 10^18 nothing is examined, and the bounds are 0 and 1. At 5 × 10^17 the scenario without
/// the failure is, and they are 0 and 0.1. At 10^17 both are, and they are 0.1 and 0.1.
const LINK: &[u8] =
    b"threshold 1\ncap 100\nnode A\nnode B\nlink AB A B\nevent cut 100_000_000 AB\n";

/// Thresholds have 720 from 100 on, between margins of 20, and bounds have 400 from 80 on. Across there is one decade, from
/// 10^18 to 10^17: 5 × 10^17 stands after log 2 = 0.30103 of it, at 100 + 216.74. Down there are two: 1 stands at 80, 0.1 in the
/// middle and 0 at the lower edge.
#[test]
fn the_places_of_the_marks() {
    let path = scratch_with("link.txt", LINK);
    let words = "1_000_000_000_000_000_000 500_000_000_000_000_000 100_000_000_000_000_000";
    let picture = drawn("link.svg", &path, words);
    let upper = vec![
        (100.0, 80.0, true),
        (316.7, 280.0, true),
        (820.0, 280.0, true),
    ];
    let lower = vec![
        (100.0, 480.0, true),
        (316.7, 480.0, true),
        (820.0, 280.0, true),
    ];
    assert_eq!(marks(&picture), [upper, lower]);
    for line in [
        r#"<polyline points="100.0,80.0 316.7,280.0 820.0,280.0" "#,
        r#"<polyline points="100.0,480.0 316.7,480.0 820.0,280.0" "#,
        r#"<text x="100.0" y="471.0">0</text>"#,
        r#"<text x="316.7" y="471.0">0</text>"#,
        r#"<text x="70.0" y="84.0">1</text>"#,
        r#"<text x="70.0" y="284.0">10<tspan dy="-5" font-size="9">−1</tspan></text>"#,
        r#"<text x="70.0" y="484.0">0</text>"#,
        r#"<line x1="80.0" y1="480.0" x2="840.0" y2="480.0"/>"#,
        r#"<text x="850.0" y="284.0">3153600 s</text>"#,
        r#"<text x="820.0" y="502.0">10<tspan dy="-5" font-size="9">17</tspan></text>"#,
        "<title>threshold 500000000000000000: lower 0.000000000000000000, upper 0.100000000000000000, complete 1</title>",
    ] {
        assert!(picture.contains(line), "{line}\n{picture}");
    }
    let marked = picture.matches(">0</text>").count();
    assert_eq!(marked, 3, "two bounds of 0 and the edge");
}

/// Without a bound of 0 the lower edge is a decade.
#[test]
fn no_bound_of_0() {
    let path = scratch_with("live.txt", LINK);
    let picture = drawn("live.svg", &path, "100_000_000_000_000_000 1");
    assert!(!picture.contains(">0</text>"), "{picture}");
    let both = vec![(100.0, 280.0, true), (820.0, 280.0, true)];
    assert_eq!(marks(&picture), [both.clone(), both]);
}

/// Two thresholds above 10^17 that differ by 1 have their marks at one place, and one 0 above them; the other 0 is that of the
/// edge.
#[test]
fn marks_at_one_place_share_their_0() {
    let path = scratch_with("near.txt", LINK);
    let words = "100_000_000_000_000_002 100_000_000_000_000_001 100_000_000_000_000_000";
    let picture = drawn("near.svg", &path, words);
    assert_eq!(picture.matches(">0</text>").count(), 2, "{picture}");
    let [_, lower] = marks(&picture);
    let below = vec![(820.0, 480.0, true), (820.0, 480.0, true)];
    assert_eq!(lower[..2], below);
}

/// A cap of 3 ends is enough at 2 × 10^17, and at 10^17 it is not.
#[test]
fn hollow_marks_where_the_walk_stopped_at_the_cap() {
    let path = row_of_three("hollow.txt", 3);
    let words = "200_000_000_000_000_000 100_000_000_000_000_000 1";
    let picture = drawn("hollow.svg", &path, words);
    let told = "hollow: complete 0, the walk stopped at the cap";
    assert!(picture.contains(told), "{picture}");
    for marks in marks(&picture) {
        let filled: Vec<bool> = marks.iter().map(|mark| mark.2).collect();
        assert_eq!(filled, [true, false, false]);
    }
    let path = row_of_three("filled.txt", 4);
    let picture = drawn("filled.svg", &path, words);
    assert!(!picture.contains("hollow"), "{picture}");
    assert!(marks(&picture).concat().iter().all(|mark| mark.2));
}

/// Four stations in a row with a cap of 4 ends. AB fails with 0.4, BC and CD with 0.01 each. At 10^16 one failure of BC or CD is
/// dropped, and the scenario without a failure and that of AB alone are among the first 4 ends: E is 0.9801, and A and B, A and
/// C, and A and D are cut off for at most 0.41194 each. At 1 the first 4 ends are those in which AB works: E is 0.6, and D is cut
/// off from A for at most 0.41194, the same, and from B too, where A and B are for 0.4 and A and C for 0.406.
#[test]
fn the_worst_pair_at_the_smallest_gap_and_not_at_the_lowest_threshold() {
    let text = "threshold 1\ncap 4\nnode A\nnode B\nnode C\nnode D\nlink AB A B\nlink BC B C\nlink CD C D\n\
                event cut-AB 400_000_000 AB\nevent cut-BC 10_000_000 BC\nevent cut-CD 10_000_000 CD\n";
    let path = scratch_with("gap.txt", text.as_bytes());
    let words = "10_000_000_000_000_000 1";
    let [picture, rows] = drawn_and_printed("gap.svg", &path, words);
    let rows: Vec<&str> = rows.lines().rev().take(2).collect();
    for (row, [gap, pair]) in rows.iter().zip([
        ["0.400000000000000000", "A D"],
        ["0.019900000000000000", "A B"],
    ]) {
        assert!(row.contains(&format!("  {gap}  {pair}  ")), "{row}");
    }
    assert!(picture.contains(">A and B</text>"), "{picture}");
    let picture = drawn("gap.svg", &path, "1");
    assert!(picture.contains(">A and D</text>"), "{picture}");
}

/// At 10^17 the worst pair is A and B, at 1 it is A and C.
#[test]
fn the_worst_pair_or_the_one_that_is_named() {
    let path = row_of_three("worst.txt", 100);
    let both = "100_000_000_000_000_000 1";
    for (words, pair) in [
        (both.to_string(), "A and C"),
        ("100_000_000_000_000_000".to_string(), "A and B"),
        (format!("--pair C B {both}"), "B and C"),
        (format!("{both} --pair B C"), "B and C"),
    ] {
        let [picture, rows] = drawn_and_printed("worst.svg", &path, &words);
        let title = format!("<title>{pair} in {path}</title>");
        assert!(picture.contains(&title), "{title}\n{picture}");
        assert!(picture.contains(&format!(">{pair}</text>")), "{picture}");
        let lowest = rows.lines().last().expect("a row");
        let expected = if words.contains(both) { "A C" } else { "A B" };
        assert!(lowest.contains(expected), "{rows}");
    }
}

/// The node names of this plan are marks of XML, one is long, and one is a character that XML does not allow.
#[test]
fn names_are_escaped() {
    let long = "x".repeat(40) + "&" + &"y".repeat(40);
    let text =
        format!("threshold 1\ncap 100\nnode <A>\nnode \"B\"&'amp;'\nnode {long}\nnode \u{ffff}\n");
    let path = scratch_with("a&b<c>.txt", text.as_bytes());
    let picture = drawn("names.svg", &path, "--pair <A> \"B\"&'amp;' 1");
    let pair = "&lt;A&gt; and \"B\"&amp;'amp;'";
    assert!(picture.contains(&format!(">{pair}</text>")), "{picture}");
    assert!(
        picture.contains("a&amp;b&lt;c&gt;.txt</title>"),
        "{picture}"
    );
    let words = format!("--pair {long} \u{ffff} 1");
    let picture = drawn("names.svg", &path, &words);
    let pair = format!(">{}…{} and \u{fffd}<", "x".repeat(11), "y".repeat(12));
    assert!(picture.contains(&pair), "{picture}");
}

#[test]
fn a_file_that_is_there_is_written_over() {
    let old = format!("<?xml {}", "x".repeat(100_000));
    scratch_with("over.svg", old.as_bytes());
    let picture = drawn("over.svg", "triangle.txt", "1");
    assert!(
        picture.contains(">triangle.txt, cap 100</text>"),
        "{picture}"
    );
    assert!(picture.starts_with("<svg ") && picture.ends_with("</svg>\n"));
}
