//! The progress of a listing: what is written while it is made, and that the listing is the same without it.

use account::topology::Out;
use account::windows::Window;
use account::{Event, Plan, CERTAIN};
use planner::{listing, listing_at, plan_reason, Named, NamedWindow, Progress, Witness};

/// Two nodes, a link, and events of one half, of which the last alone names the link: with n events there are 2^n
/// scenarios of equal mass.
fn plan(events: usize, cap: u64) -> Named {
    let half = |links| Event {
        probability: CERTAIN / 2,
        nodes: 0,
        links,
    };
    let mut all = vec![half(0); events];
    all[events - 1].links = 1;
    Named::by_number(Plan {
        nodes: 2,
        links: vec![(0, 1)],
        events: all,
        threshold: 1,
        cap,
    })
}

/// The listing of a plan, and what its progress writes.
fn made(named: &Named) -> (String, String) {
    let mut line = Vec::new();
    let text = listing(named, Witness::Usual, &mut Progress::on(&mut line)).expect("a listing");
    let unseen = listing(named, Witness::Usual, &mut Progress::unseen());
    assert_eq!(unseen.as_ref(), Ok(&text));
    (text, String::from_utf8(line).expect("a text"))
}

/// 2^15 = 32,768 scenarios in four steps of at most 10,000 ends.
#[test]
fn a_long_listing_shows_its_progress() {
    let (text, line) = made(&plan(15, 1_000_000));
    assert!(text.contains("\n32768 scenarios examined, complete 1"));
    let half = "0.500000000000000000";
    assert!(text.contains(&format!("n0 n1  {half}  {half}  15768000")));
    let shown: Vec<&str> = line.split('\r').collect();
    let ends = |ends| format!("{ends} ends reached of at most 1000000");
    let pair = format!("{:37}", "a scenario for pair 1 of 1");
    let blank = " ".repeat(26);
    let expected = [
        "",
        &ends(20_000),
        &ends(30_000),
        &ends(32_768),
        &pair,
        &blank,
        "",
    ];
    assert_eq!(shown, expected);
}

/// With a window the walk without it comes first, in steps, and then the run with it.
#[test]
fn a_long_listing_at_a_minute_shows_its_progress() {
    let mut named = plan(15, 1_000_000);
    let out = Out { nodes: 0, links: 1 };
    let (start, end) = (0, 1);
    named.windows.push(NamedWindow {
        name: "dig".to_string(),
        window: Window { start, end, out },
    });
    let mut line = Vec::new();
    let text = listing_at(&named, 0, &mut Progress::on(&mut line)).expect("a listing");
    let (whole, half) = ("1.000000000000000000", "0.500000000000000000");
    let row = format!("n0 n1  {whole}  {whole}  31536000  31536000  {half} ");
    assert!(text.contains(&row), "{text}");
    assert_eq!(listing_at(&named, 0, &mut Progress::unseen()), Ok(text));
    let line = String::from_utf8(line).expect("a text");
    let run = format!("{:37}", "the run with planned work");
    let last: Vec<&str> = line.rsplit('\r').collect();
    assert_eq!(last[..3], ["", &" ".repeat(25), &run]);
    assert_eq!(last[3], "32768 ends reached of at most 1000000");
}

/// The cap ends the walk in its second step. At 10^15 every branch is dropped after ten events, 2^-10 being below 10^-3, which
/// are 1,024 ends and no scenario; at 10^14 after fourteen, which are 16,384 ends and more than the cap.
#[test]
fn a_walk_that_stops_at_its_cap() {
    let (text, line) = made(&plan(15, 10_001));
    assert!(text.contains("\n10001 scenarios examined, complete 0"));
    let complete = "\n1_000_000_000_000_000 is the lowest of ten thresholds, 10^15 down to 10^6, at which the walk is complete: \
                    lower and upper would be 1.000000000000000000 apart, not less than here.\n";
    assert!(text.contains(complete), "{text}");
    assert!(line.starts_with("\r10001 ends reached of at most 10001\r"));
    assert!(line.contains("\rthe runs at ten thresholds\r"), "{line:?}");
    assert!(line.ends_with(" \r"), "{line:?}");
}

#[test]
fn a_short_listing_shows_none() {
    for (events, cap) in [(1, 1), (13, 1_000_000), (15, 10_000)] {
        assert_eq!(made(&plan(events, cap)).1, "", "{events} events, cap {cap}");
    }
}

#[test]
fn an_empty_quota_has_words() {
    assert_eq!(plan_reason(19), "the quota of 10000000 ends is used up");
}
