//! Credits: each wording on plans whose downtimes were worked out by hand, and each refusal.

use crate::{expect_failure, expect_usage, planner, scratch, scratch_with};

/// The link CB has q = 62,500. Both ends of the walk keep all their mass, so Control and Birch, and Control and Depot, are
/// apart for 62,500 × 10^9 of 10^18 units of a year: 62,500 × 0.031536 = 1,971 seconds. Birch and Depot never are, and no
/// link leads to Elm.
const CABLE: &[u8] = b"threshold 1\ncap 100\nnode Control\nnode Birch\nnode Depot\nnode Elm\n\
link CB Control Birch\nlink BD Birch Depot\nevent cut 62_500 CB\n";

/// A link with q = 62,501: 62,501 × 0.031536 = 1,971.031536 seconds, so 1,971 and 1,972.
const PART: &[u8] = b"threshold 1\ncap 100\nnode A\nnode B\nlink AB A B\nevent cut 62501 AB\n";

/// A link with q = 1/2 and a threshold that leaves out both ends: 0 and 31,536,000 seconds.
const OPEN: &[u8] = b"threshold 1_000_000_000_000_000_000\ncap 100\nnode A\nnode B\nlink AB A B\n\
event cut 500_000_000 AB\n";

const NOTE: &str = "\
Amounts are in units of 100 cents. The downtime is the mean over years, as the plan's bounds give it;
the credit is that of this downtime, not the mean of the credits of single years.
";

/// Two nodes, FEE, LIMIT and RATE, and what is printed for them: the contract, the downtime, the credit, the headroom in
/// seconds and the words after it.
type Case<'a> = (&'a str, [&'a str; 5]);

#[track_caller]
fn expect(plan: &str, cases: &[Case]) {
    for (words, [contract, downtime, credit, headroom, beside]) in cases {
        let mut call = vec!["credit", plan];
        call.extend(words.split(' '));
        let call = planner(&call);
        let told = format!(
            "{contract} for each started minute above it.\n\
             Downtime: {downtime} a year of 365 days.\nCredit: {credit}.\n\
             Headroom, limit less upper downtime: {headroom}. {beside}.\n{NOTE}"
        );
        assert_eq!((call.status, call.told().as_str()), (0, ""), "{words}");
        assert_eq!(call.out, told, "{words}");
    }
}

/// 1,971 seconds are 61 above 1,910, two started minutes of 50.00, and 1 above 1,970, one started minute.
#[test]
fn a_downtime_that_is_known_exactly() {
    let downtime = "exactly 1971 seconds";
    let path = scratch_with("cable.txt", CABLE);
    let cases = [
        (
            "Control Birch 120_000 1_910 5000",
            [
                "Control and Birch: fee 1200.00 a year, limit 1910 seconds a year, 50.00",
                downtime,
                "exactly 100.00",
                "-61 seconds",
                "The downtime is above the limit, by exactly 61 seconds",
            ],
        ),
        (
            "Depot Control 120000 1970 5000",
            [
                "Depot and Control: fee 1200.00 a year, limit 1970 seconds a year, 50.00",
                downtime,
                "exactly 50.00",
                "-1 second",
                "The downtime is above the limit, by exactly 1 second",
            ],
        ),
        (
            "Control Birch 120000 1971 5000",
            [
                "Control and Birch: fee 1200.00 a year, limit 1971 seconds a year, 50.00",
                downtime,
                "none is due",
                "0 seconds",
                "The downtime is exactly at the limit and not above it",
            ],
        ),
        (
            "Control Birch 120000 3600 5000",
            [
                "Control and Birch: fee 1200.00 a year, limit 3600 seconds a year, 50.00",
                downtime,
                "none is due",
                "1629 seconds",
                "The downtime is 1629 seconds below the limit",
            ],
        ),
        (
            "Birch Depot 120000 1 5000",
            [
                "Birch and Depot: fee 1200.00 a year, limit 1 second a year, 50.00",
                "exactly 0 seconds",
                "none is due",
                "1 second",
                "The downtime is 1 second below the limit",
            ],
        ),
    ];
    expect(&path, &cases);
}

/// A whole year has 525,600 minutes; at 50.00 they are far above a fee of 1200.00. Two minutes at 0.05 are above 0.07.
#[test]
fn the_whole_fee_and_amounts_of_0() {
    let downtime = "exactly 1971 seconds";
    let above = "The downtime is above the limit, by exactly 61 seconds";
    let path = scratch_with("fees.txt", CABLE);
    let cases = [
        (
            "Elm Control 120000 0 5000",
            [
                "Elm and Control: fee 1200.00 a year, limit 0 seconds a year, 50.00",
                "exactly 31536000 seconds",
                "exactly 1200.00, the whole fee",
                "-31536000 seconds",
                "The downtime is above the limit, by exactly 31536000 seconds",
            ],
        ),
        (
            "Control Birch 7 1910 5",
            [
                "Control and Birch: fee 0.07 a year, limit 1910 seconds a year, 0.05",
                downtime,
                "exactly 0.07, the whole fee",
                "-61 seconds",
                above,
            ],
        ),
        (
            "Control Birch 0 1910 5",
            [
                "Control and Birch: fee 0.00 a year, limit 1910 seconds a year, 0.05",
                downtime,
                "none is due, since the fee is 0.00",
                "-61 seconds",
                above,
            ],
        ),
        (
            "Control Birch 7 1910 0",
            [
                "Control and Birch: fee 0.07 a year, limit 1910 seconds a year, 0.00",
                downtime,
                "none is due, since the rate is 0.00",
                "-61 seconds",
                above,
            ],
        ),
    ];
    expect(&path, &cases);
}

/// 1,971 seconds are 60 above 1,911, one started minute, and 1,972 are 61 above it, two.
#[test]
fn a_downtime_between_two_numbers() {
    let downtime = "at least 1971 seconds and at most 1972 seconds";
    let above = "The downtime is above the limit, by at least 60 seconds and at most 61 seconds";
    let path = scratch_with("part.txt", PART);
    let cases = [
        (
            "A B 90000 1911 250",
            [
                "A and B: fee 900.00 a year, limit 1911 seconds a year, 2.50",
                downtime,
                "at least 2.50 and at most 5.00",
                "-61 seconds",
                above,
            ],
        ),
        (
            "A B 300 1911 250",
            [
                "A and B: fee 3.00 a year, limit 1911 seconds a year, 2.50",
                downtime,
                "at least 2.50 and at most 3.00, the whole fee",
                "-61 seconds",
                above,
            ],
        ),
        (
            "A B 200 1911 250",
            [
                "A and B: fee 2.00 a year, limit 1911 seconds a year, 2.50",
                downtime,
                "exactly 2.00, the whole fee",
                "-61 seconds",
                above,
            ],
        ),
        (
            "A B 90000 1971 250",
            [
                "A and B: fee 900.00 a year, limit 1971 seconds a year, 2.50",
                downtime,
                "at least 0.00 and at most 2.50",
                "-1 second",
                "The downtime may be above the limit, by at most 1 second; the lower downtime is not above it",
            ],
        ),
        (
            "A B 90000 1972 250",
            [
                "A and B: fee 900.00 a year, limit 1972 seconds a year, 2.50",
                downtime,
                "none is due",
                "0 seconds",
                "Even the upper downtime is exactly at the limit and not above it",
            ],
        ),
        (
            "A B 90000 2000 250",
            [
                "A and B: fee 900.00 a year, limit 2000 seconds a year, 2.50",
                downtime,
                "none is due",
                "28 seconds",
                "Even the upper downtime is 28 seconds below the limit",
            ],
        ),
    ];
    expect(&path, &cases);
}

/// 525,600 minutes at one cent.
#[test]
fn bounds_that_say_nothing() {
    let path = scratch_with("open.txt", OPEN);
    let case = (
        "B A 1_000_000_000_000 0 1",
        [
            "B and A: fee 10000000000.00 a year, limit 0 seconds a year, 0.01",
            "at least 0 seconds and at most 31536000 seconds",
            "at least 0.00 and at most 5256.00",
            "-31536000 seconds",
            "The downtime may be above the limit, by at most 31536000 seconds; the lower downtime is not above it",
        ],
    );
    expect(&path, &[case]);
}

#[test]
fn the_nodes_of_a_plan_file_go_by_their_numbers() {
    let text = scratch_with("numbers.txt", CABLE);
    let plan = scratch("numbers.plan");
    let plan = plan.to_str().expect("a path in UTF-8");
    assert_eq!(planner(&["file", &text, plan]).status, 0);
    let case = (
        "n2 n0 1 1911 1",
        [
            "n2 and n0: fee 0.01 a year, limit 1911 seconds a year, 0.01",
            "exactly 1971 seconds",
            "exactly 0.01, the whole fee",
            "-60 seconds",
            "The downtime is above the limit, by exactly 60 seconds",
        ],
    );
    expect(plan, &[case]);
}

/// The words of a call.
fn call<'a>(plan: &'a str, words: &'a str) -> Vec<&'a str> {
    let mut call = vec!["credit", plan];
    call.extend(words.split(' '));
    call
}

/// A credit that is refused, which is told.
#[track_caller]
fn expect_wrong(plan: &str, words: &str, told: &str) {
    expect_failure(&call(plan, words), told);
}

#[test]
fn what_the_proved_code_refuses() {
    let path = scratch_with("refused.txt", CABLE);
    let pair = "refused 13, a pair is two different nodes of the plan";
    let terms = "refused 20, FEE or RATE is above 10^12 cents, or LIMIT is above 31536000 seconds";
    let cases = [
        (
            "Birch Birch 1 2 3",
            "Birch and Birch, FEE 1, LIMIT 2, RATE 3",
            pair,
        ),
        (
            "Elm Elm 1 31536001 3",
            "Elm and Elm, FEE 1, LIMIT 31536001, RATE 3",
            pair,
        ),
        (
            "Elm Birch 1_000_000_000_001 2 3",
            "Elm and Birch, FEE 1000000000001, LIMIT 2, RATE 3",
            terms,
        ),
        (
            "Elm Birch 1 31536001 3",
            "Elm and Birch, FEE 1, LIMIT 31536001, RATE 3",
            terms,
        ),
        (
            "Elm Birch 1 2 1000000000001",
            "Elm and Birch, FEE 1, LIMIT 2, RATE 1000000000001",
            terms,
        ),
        (
            "Elm Birch 18446744073709551615 2 3",
            "Elm and Birch, FEE 18446744073709551615, LIMIT 2, RATE 3",
            terms,
        ),
    ];
    for (words, asked, reason) in cases {
        expect_wrong(&path, words, &format!("{asked}: {reason}"));
    }
    let rising = "refused-rising-probability.plan";
    let reason = "refused 9, a probability is above that of the event before";
    expect_wrong(rising, "n0 n1 1 2 3", &format!("{rising}: {reason}"));
}

#[test]
fn names_and_numbers_that_are_none() {
    let path = scratch_with("none.txt", CABLE);
    let nodes = "its nodes are Control, Birch, Depot, Elm";
    for (words, name) in [("Brich Elm 1 2 3", "Brich"), ("Elm CB 1 2 3", "CB")] {
        let told = format!("the plan has no node `{name}`; {nodes}");
        expect_wrong(&path, words, &told);
    }
    let fee = "expected FEE in cents as a whole number from 0 to 1000000000000";
    let limit = "expected LIMIT in seconds as a whole number from 0 to 31536000";
    let rate = "expected RATE in cents as a whole number from 0 to 1000000000000";
    for word in ["12.50", "-1", "1e3", "_", "18446744073709551616"] {
        let at = |words: &str, expected: &str| {
            let words = words.replace('?', word);
            let told = format!("{expected}; found `{word}`");
            expect_usage(&call(&path, &words), &told);
        };
        at("Elm Birch ? 2 3", fee);
        at("Elm Birch 1 ? 3", limit);
        at("Elm Birch 1 2 ?", rate);
    }
}

#[test]
fn the_help_tells_of_credits() {
    let form = "planner credit PLAN.txt|IN.plan NODE NODE FEE LIMIT RATE";
    let told = format!("expected `{form}`; found 5 words after `credit`");
    expect_usage(&call("triangle.txt", "A B 1 2"), &told);
    let help = planner(&["--help"]).out;
    assert!(help.contains("a mean over years, not the mean of the credits of single years"));
    assert!(help.contains("credits and headroom"));
}
