//! Lines of equipment.

use planner::parse;

use crate::{expect, fault_of, RIGHT};

#[test]
fn words_and_numbers() {
    let form = "`equipment NAME FIT HOURS LENGTH MEMBER..`";
    for (line, words) in [
        ("equipment", "nothing"),
        ("equipment oxc", "1 word"),
        ("equipment oxc 10_000 9", "3 words"),
    ] {
        expect(7, line, &format!("{form}; found {words} after `equipment`"));
    }
    for (what, words, found) in [
        ("FIT", "1.5 9 1", "1.5"),
        ("FIT", "1e4 9 1", "1e4"),
        ("FIT", "4294967296 9 1", "4294967296"),
        ("the hours to repair", "10 9h 1", "9h"),
        ("the hours to repair", "10 4_294_967_296 0", "4_294_967_296"),
        ("the length", "10 9 -1", "-1"),
        ("the length", "10 9 AB", "AB"),
    ] {
        let range = "as a whole number from 0 to 4294967295";
        let fault = format!("{what} {range}; found `{found}`");
        expect(7, &format!("equipment cable {words} AB"), &fault);
    }
}

#[test]
fn products_above_one() {
    let above =
        "FIT * hours * length of at most 1000000000, with failures in 10^9 hours and cable in km";
    for (words, found) in [
        ("1_000_000_001 1 1", "1000000001 * 1 * 1 = 1000000001"),
        ("570 24 80_000", "570 * 24 * 80000 = 1094400000"),
        (
            "4294967295 4294967295 4294967295",
            "4294967295 * 4294967295 * 4294967295 = 79228162458924105385300197375",
        ),
    ] {
        let line = format!("equipment cable {words} AB");
        expect(7, &line, &format!("{above}; found {found}"));
    }
    let mut lines = RIGHT;
    for line in [
        "equipment cable 1_000_000_000 1 1 AB",
        "equipment cable 4294967295 0 4294967295 AB",
    ] {
        lines[6] = line;
        assert!(parse(&lines.join("\n")).is_ok(), "{line}");
    }
}

#[test]
fn members_and_names() {
    let unknown = "nodes and links that stand above; found `BC`";
    expect(7, "equipment cable 570 24 80 BC", unknown);
    let twice = "each member once; found `AB` twice";
    expect(7, "equipment cable 570 24 80 AB A AB", twice);
    let free = "a name that is free; found";
    let taken = format!("{free} `dig`, an event since line 8");
    expect(9, "equipment dig 1 1 1", &taken);
    let mut lines = RIGHT;
    lines[6] = "equipment dig 1 1 1";
    let taken = format!("line 8: expected {free} `dig`, equipment since line 7");
    assert_eq!(fault_of(&lines.join("\n")), taken);
}

/// Only a line of equipment lets q rise, not the word in a comment or as a name.
#[test]
fn events_alone_still_fall() {
    let mut lines = RIGHT;
    lines[8] = "event storm 1001 A";
    let rise = "line 9: expected q of at most 1000, that of `dig`: q never rises; found `1001`";
    for line in ["", "# equipment oxc 10_000 9 1 A", "node equipment"] {
        lines[6] = line;
        assert_eq!(fault_of(&lines.join("\n")), rise, "{line}");
    }
    lines[6] = "equipment oxc 0 9 1 A";
    let named = parse(&lines.join("\n")).expect("it says a plan");
    assert_eq!(named.events, ["storm", "dig", "oxc", "audit"]);
}
