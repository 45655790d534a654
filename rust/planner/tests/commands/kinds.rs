//! Kinds of files: told by what they start with, from a file or from standard input, and without a control character on a terminal.

use std::ffi::OsString;
use std::os::unix::ffi::OsStringExt;

use plans::examples::folder;

use crate::{expect_end, expect_failure, planner, printed, scratch, scratch_with, shell};

fn example(name: &str) -> Vec<u8> {
    std::fs::read(folder().join(name)).expect("an example")
}

/// The bounds of the triangle as the program listing prints them.
const BOUNDS: &str = "3 3 3 4 1 999999999999999996\n0 1 0 4\n0 2 0 4\n1 2 0 4\n";

#[test]
fn names_tell_nothing() {
    let plan = scratch_with("mark-plan.txt", &example("triangle.plan"));
    let text = scratch_with("mark-text.plan", &example("triangle.txt"));
    let sheet = scratch_with("mark-sheet.plan", &example("equipment-ring.sheet"));
    assert_eq!(printed(&["bounds", &plan]), BOUNDS);
    assert_eq!(printed(&["bounds", &text]), BOUNDS);
    let shown = |words: &[&str]| {
        let (_, rest) = printed(words)
            .split_once('\n')
            .map(|(a, b)| (a.to_string(), b.to_string()))
            .expect("a first line");
        rest
    };
    assert_eq!(shown(&["text", &plan]), shown(&["text", "triangle.plan"]));
    assert_eq!(
        shown(&["events", &sheet]),
        shown(&["events", "equipment-ring.sheet"])
    );
}

/// The words of a call of each command on a file.
fn calls(file: &str) -> [Vec<&str>; 8] {
    let out = "no-such-folder/out";
    [
        vec!["file", file, out],
        vec!["text", file],
        vec!["listing", file],
        vec!["bounds", file],
        vec!["thresholds", file],
        vec!["credit", file, "A", "B", "1", "2", "3"],
        vec!["sheet", file, out],
        vec!["events", file],
    ]
}

/// What each command expects of a file, in the order of the calls.
const EXPECTED: [&str; 8] = [
    "a text",
    "a plan file",
    "a text or a plan file",
    "a text or a plan file",
    "a text or a plan file",
    "a text or a plan file",
    "a text",
    "an equipment sheet",
];

/// Holds the calls on a file that are refused for its kind to what they tell of it.
#[track_caller]
fn expect_kind(file: &str, refused: &[usize], found: &str) {
    let calls = calls(file);
    for &i in refused {
        let told = format!("{file}: expected {}; found {found}", EXPECTED[i]);
        expect_failure(&calls[i], &told);
    }
}

#[test]
fn a_file_of_another_kind_is_told_with_the_commands_that_take_it() {
    let plan =
        "a plan file, which planner text, check, listing, bounds, thresholds and credit take";
    expect_kind("triangle.plan", &[0, 6, 7], plan);
    let text =
        "a text, which planner file, check, listing, bounds, thresholds, credit and sheet take";
    expect_kind("triangle.txt", &[1, 7], text);
    let sheet = "an equipment sheet, which planner events takes";
    expect_kind("equipment-ring.sheet", &[0, 1, 2, 3, 4, 5, 6], sheet);
    let empty = scratch_with("empty", b"");
    expect_kind(&empty, &[1, 7], "an empty file");
}

#[test]
fn a_file_of_no_kind() {
    let all = [0, 1, 2, 3, 4, 5, 6, 7];
    let none = "neither a plan file, an equipment sheet nor a text";
    for (name, bytes, why) in [
        (
            "latin",
            &b"# one\nnode S\xfcd\n"[..],
            "line 2 has bytes that are not UTF-8",
        ),
        (
            "escape.txt",
            b"node \x1b[2J\n",
            "line 1 has the control character \\u{1b}",
        ),
        ("nul", b"\0\0\0", "line 1 has the control character \\u{0}"),
        (
            "c1",
            b"\n\nnode \xc2\x9b31m\n",
            "line 3 has the control character \\u{9b}",
        ),
    ] {
        let file = scratch_with(&format!("none-{name}"), bytes);
        expect_kind(&file, &all, &format!("{none}: {why}"));
    }
    for (name, reason) in [
        ("none.plan", "refused 2, the mark is not RSG"),
        ("none.sheet", "refused 2, the mark is not EQS"),
    ] {
        let file = scratch_with(name, b"RsG\x01\0");
        for call in calls(&file) {
            expect_failure(&call, &format!("{file}: {reason}"));
        }
    }
}

#[test]
fn standard_input() {
    for (script, out) in [
        ("planner bounds - <triangle.txt", BOUNDS),
        ("planner bounds - <triangle.plan", BOUNDS),
        ("cat triangle.plan | planner bounds -", BOUNDS),
        ("cat triangle.txt | planner file - /dev/stdout | planner bounds -", BOUNDS),
        ("planner text - <triangle.plan | head -n 1", "# From standard input. A plan file holds no names: node, link and event i are n, l and e with i.\n"),
    ] {
        let call = shell(script, &[]);
        assert_eq!((call.status, call.told().as_str()), (0, ""), "{script}");
        assert_eq!(call.out, out, "{script}");
    }
    let call = shell("planner events - <triangle.plan", &[]);
    let told = "planner: standard input: expected an equipment sheet; found a plan file, \
                which planner text, check, listing, bounds, thresholds and credit take\n";
    assert_eq!((call.status, call.err.as_str()), (1, told));
}

/// Inputs that never end are read up to a size.
#[test]
fn input_without_end() {
    let told = "expected at most 16777216 bytes; found more";
    for file in ["/dev/zero", "/dev/urandom"] {
        expect_failure(&["listing", file], &format!("{file}: {told}"));
    }
    let call = shell("yes 'node A' | planner file - no-such-folder/out", &[]);
    let told = format!("planner: standard input: {told}\n");
    assert_eq!((call.status, call.err), (1, told));
    let mut text = example("triangle.txt");
    text.resize(16 << 20, b'\n');
    let most = scratch_with("most.txt", &text);
    assert_eq!(printed(&["bounds", &most]), BOUNDS);
    text.push(b'\n');
    let more = scratch_with("more.txt", &text);
    assert_eq!(planner(&["bounds", &more]).status, 1);
    for path in [most, more] {
        std::fs::remove_file(path).expect("a file of the test");
    }
}

/// A file whose name has a line end, colours and a byte that is not UTF-8.
#[test]
fn names_with_control_characters() {
    let name = OsString::from_vec(b"odd\n\x1b[31mnode X\xff".to_vec());
    let path = scratch("").join(name);
    std::fs::write(&path, example("triangle.plan")).expect("a file of the test");
    let svg = path.with_extension("svg");
    let shown = scratch("").join("odd\\n\\u{1b}[31mnode X\\xff");
    let shown = shown.to_str().expect("a path in UTF-8");
    let call = planner(&["text".as_ref(), path.as_os_str()]);
    let first = format!("# From {shown}. A plan file holds no names");
    assert_eq!((call.status, call.err.as_str()), (0, ""));
    assert!(call.out.starts_with(&first), "{}", call.out);
    let words = ["thresholds".as_ref(), path.as_os_str(), "7".as_ref()];
    let call = planner(&[&words[..], &["--svg".as_ref(), svg.as_os_str()]].concat());
    let nodes = "warning: 3 nodes are named by no event, so they never fail: n0, n1, n2";
    let told = format!("planner: {shown}: {nodes}\n");
    assert_eq!((call.status, call.err), (0, told));
    let picture = std::fs::read_to_string(&svg).expect("the picture");
    assert!(
        picture.contains(&format!("<title>n0 and n1 in {shown}</title>")),
        "{picture}"
    );
    let call = planner(&["events".as_ref(), path.as_os_str()]);
    let told = format!("planner: {shown}: expected an equipment sheet; found a plan file, ");
    assert_eq!(call.status, 1);
    assert!(call.err.starts_with(&told), "{}", call.err);
}

#[test]
fn no_control_character_is_told() {
    let text = scratch_with("fault.txt", b"node \x1b[2J\n");
    let cases: [&[&str]; 7] = [
        &["listing", &text],
        &["listing", "\x1b[31m\n"],
        &["\x1b[31m\r"],
        &["listing", "triangle.txt", "--\x1b[31m"],
        &["listing", "triangle.txt", "--at", "Tue \x1b[31m"],
        &["thresholds", "triangle.txt", "\u{9b}31m"],
        &["credit", "triangle.txt", "\x07", "B", "1", "2", "3"],
    ];
    for words in cases {
        let call = planner(words);
        assert!(call.status > 0 && call.out.is_empty(), "{words:?}");
        let line = call.err.strip_suffix('\n').expect("a line");
        assert!(!line.chars().any(char::is_control), "{line:?}");
    }
    let told = "the plan has no node `\\u{7}`; its nodes are A, B, C";
    expect_end(cases[6], 1, told);
}
