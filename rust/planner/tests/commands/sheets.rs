//! Equipment: the sheet of a text, the events of a sheet, and the other commands on a text with equipment.

use crate::{expect_usage, planner, printed, scratch, scratch_with};

/// Three stations in a row; the lines of events do not fall.
const TEXT: &[u8] = b"threshold 1\ncap 100\nnode A\nnode B\nnode C\nlink AB A B\nlink BC B C\n\
event dark 5 B\nequipment cable 100 24 50 AB\nequipment oxc 5 1 1 C A\nequipment duct 100 24 60 AB BC\n";

/// The events of the text by falling q, with the names of a file.
const EVENTS: [&str; 4] = [
    "event e0 144000 l0 l1",
    "event e1 120000 l0",
    "event e2 5 n1",
    "event e3 5 n0 n2",
];

/// A call that prints nothing and succeeds.
#[track_caller]
fn quietly(words: &[&str]) {
    let call = planner(words);
    assert_eq!((call.status, call.out + &call.err), (0, String::new()));
}

/// The path of a file of this test that a command writes.
fn out_path(name: &str) -> String {
    let path = scratch(name);
    path.to_str().expect("a path in UTF-8").to_string()
}

/// The lines of events that a command prints.
fn events_of(words: &[&str]) -> Vec<String> {
    let call = planner(words);
    assert_eq!((call.status, call.err.as_str()), (0, ""));
    let lines = call.out.lines().filter(|line| line.starts_with("event "));
    lines.map(str::to_string).collect()
}

#[test]
fn a_text_with_equipment_becomes_a_sheet_and_a_plan() {
    let text = scratch_with("row.txt", TEXT);
    let (sheet, plan) = (out_path("row.sheet"), out_path("row.plan"));
    quietly(&["sheet", &text, &sheet]);
    let bytes = std::fs::read(&sheet).expect("the sheet");
    let first = [5, 0, 0, 0, 1, 0, 0, 0, 1, 0, 0, 0, 1, 0, 1];
    assert_eq!(bytes[8..23], first, "the first line of events in the text");
    assert_eq!(events_of(&["events", &sheet]), EVENTS);
    quietly(&["file", &text, &plan]);
    assert_eq!(events_of(&["text", &plan]), EVENTS);
    let counts = planner(&["events", &sheet]).out;
    assert!(counts.starts_with(&format!("# From {sheet}: 3 nodes, 2 links, 4 events")));
    let bounds = planner(&["bounds", &text]);
    assert_eq!(
        (bounds.status, &bounds.out),
        (0, &planner(&["bounds", &plan]).out)
    );
    assert!(bounds.out.starts_with("3 2 4 "), "{}", bounds.out);
}

#[test]
fn the_listing_has_the_names_of_the_equipment() {
    let text = scratch_with("named.txt", TEXT);
    let call = planner(&["listing", &text]);
    assert_eq!((call.status, call.err.as_str()), (0, ""));
    let pair = call.out.lines().find(|line| line.starts_with("B C "));
    // By falling q: duct, cable, dark, oxc. The walk's second end, oxc alone, takes C out.
    let witness: Vec<&str> = pair.expect("the pair").split_whitespace().skip(6).collect();
    assert_eq!(witness, ["oxc"]);
}

#[test]
fn a_text_of_events_has_a_sheet_too() {
    let sheet = out_path("triangle.sheet");
    assert_eq!(printed(&["sheet", "triangle.txt", &sheet]), "");
    let line = |link: u8| [1, 0, 0, 0, 1, 0, 0, 0, 1, 0, 0, 0, 1, 1, link];
    let bytes = [&b"EQS\x01\0\x03\x03\x03"[..], &line(0), &line(1), &line(2)].concat();
    assert_eq!(std::fs::read(&sheet).expect("the sheet"), bytes);
    let events = ["event e0 1 l0", "event e1 1 l1", "event e2 1 l2"];
    assert_eq!(events_of(&["events", &sheet]), events);
}

/// A sheet of one node and one line of so many FIT, with some bytes put at a place.
fn changed(fit: u8, at: usize, bytes: &[u8]) -> Vec<u8> {
    let mut sheet = b"EQS\x01\0\x01\0\x01".to_vec();
    sheet.extend([fit, 0, 0, 0, 1, 0, 0, 0, 1, 0, 0, 0, 1, 0, 0]);
    sheet[at..at + bytes.len()].copy_from_slice(bytes);
    sheet
}

#[test]
fn refused_sheets_are_told_with_their_number() {
    let right = changed(7, 0, b"E");
    let lines = vec![0; 13 * 129];
    let cases: [(Vec<u8>, &str); 8] = [
        (
            right[..22].to_vec(),
            "refused 1, the bytes end inside header, line or member",
        ),
        (changed(7, 0, b"EQs"), "refused 2, the mark is not EQS"),
        (changed(7, 3, &[2]), "refused 3, the version is not 1"),
        (changed(7, 5, &[65]), "refused 4, a count is out of range"),
        (
            changed(7, 22, &[1]),
            "refused 10, a member has a wrong kind or number, or does not rise",
        ),
        (
            [&right[..], &[0]].concat(),
            "refused 11, bytes are left after the last line",
        ),
        (
            changed(7, 12, &[255; 4]),
            "refused 17, FIT * hours * length of a line is above 10^9",
        ),
        (
            [&b"EQS\x01\0\x01\0\x81"[..], &lines].concat(),
            "refused 18, there are more than 128 lines",
        ),
    ];
    for (bytes, message) in cases {
        let path = scratch_with("refused.sheet", &bytes);
        let call = planner(&["events", &path]);
        let told = format!("planner: {path}: {message}\n");
        assert_eq!((call.status, call.out, call.err), (1, String::new(), told));
    }
    let path = scratch_with("right.sheet", &right);
    assert_eq!(events_of(&["events", &path]), ["event e0 7 n0"]);
}

#[test]
fn what_is_wrong_leaves_no_sheet() {
    let text = scratch_with(
        "wrong.txt",
        b"threshold 1\ncap 1\nnode A\nequipment oxc 1 2\n",
    );
    let sheet = out_path("wrong.sheet");
    let _ = std::fs::remove_file(&sheet);
    let call = planner(&["sheet", &text, &sheet]);
    let told = "line 4: expected `equipment NAME FIT HOURS LENGTH MEMBER..`; found 3 words after `equipment`\n";
    assert_eq!((call.status, call.out.as_str()), (1, ""));
    assert!(call.err.ends_with(told), "{}", call.err);
    assert!(!std::path::Path::new(&sheet).exists());
    let form = "expected `planner sheet PLAN.txt OUT.sheet [--force]`";
    expect_usage(
        &["sheet", "triangle.txt"],
        &format!("{form}; found 1 word after `sheet`"),
    );
    let form = "expected `planner events IN.sheet`";
    expect_usage(
        &["events"],
        &format!("{form}; found nothing after `events`"),
    );
}
