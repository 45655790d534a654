//! The command line: what it prints, and how it ends.

mod check;
mod complete;
mod credit;
mod kinds;
mod no_file_lost;
mod perfect;
mod picture;
mod sheets;
mod streams;
mod thresholds;
mod usage;
mod windows;
mod witness;
mod xml;

use std::ffi::OsStr;
use std::path::{Path, PathBuf};
use std::process::{Command, Output};

use plans::examples::folder;

/// What a call of `planner` prints to its two outputs, and its exit status.
struct Call {
    out: String,
    err: String,
    status: i32,
}

fn planner<W: AsRef<OsStr>>(words: &[W]) -> Call {
    let mut planner = Command::new(env!("CARGO_BIN_EXE_planner"));
    let planner = planner.args(words).current_dir(folder());
    Call::of(planner.output().expect("the program runs"))
}

impl Call {
    fn of(output: Output) -> Call {
        let text = |bytes: Vec<u8>| String::from_utf8(bytes).expect("a text");
        Call {
            out: text(output.stdout),
            err: text(output.stderr),
            status: output.status.code().expect("an exit status"),
        }
    }

    /// What it tells on standard error, but for what its plan leaves perfect.
    fn told(&self) -> String {
        let lines = self.err.split_inclusive('\n');
        let other = lines.filter(|line| !line.contains(": warning: "));
        other.collect()
    }
}

/// What a script of the shell does, with `planner` at hand and these words as `$1`, `$2` and so on.
fn shell(script: &str, words: &[&str]) -> Call {
    let mut sh = Command::new("sh");
    let script = format!("planner() {{ \"$0\" \"$@\"; }}\n{script}");
    let sh = sh.args(["-c", &script, env!("CARGO_BIN_EXE_planner")]);
    let sh = sh.args(words).current_dir(folder());
    Call::of(sh.output().expect("the shell runs"))
}

/// What a call prints that succeeds and tells nothing on standard error but what its plan leaves perfect.
#[track_caller]
fn printed(words: &[&str]) -> String {
    let call = planner(words);
    assert_eq!((call.status, call.told().as_str()), (0, ""), "{words:?}");
    call.out
}

/// A call that ends with a status, prints nothing and tells why.
#[track_caller]
fn expect_end(words: &[&str], status: i32, told: &str) {
    let call = planner(words);
    assert_eq!((call.status, call.out.as_str()), (status, ""), "{words:?}");
    assert_eq!(call.err, format!("planner: {told}\n"), "{words:?}");
}

/// A call that is refused.
#[track_caller]
fn expect_failure(words: &[&str], told: &str) {
    expect_end(words, 1, told);
}

/// A call of a command with wrong words.
#[track_caller]
fn expect_usage(words: &[&str], told: &str) {
    let told = format!("{told}; see planner {} --help", words[0]);
    expect_end(words, 2, &told);
}

/// A file of this test in the folder that cargo keeps for tests.
fn scratch(name: &str) -> PathBuf {
    Path::new(env!("CARGO_TARGET_TMPDIR")).join(name)
}

fn scratch_with(name: &str, bytes: &[u8]) -> String {
    let path = scratch(name);
    std::fs::write(&path, bytes).expect("a file of the test");
    path.to_str().expect("a path in UTF-8").to_string()
}

#[test]
fn the_help_says_that_it_is_outside_the_proof() {
    let call = planner(&["--help"]);
    assert_eq!((call.status, call.err.as_str()), (0, ""));
    assert!(call.out.contains("a convenience outside the proof"));
    let call = planner(&["file", "triangle.txt"]);
    assert_eq!((call.status, call.out.as_str()), (2, ""));
    assert!(call.err.contains("planner file PLAN.txt OUT.plan"));
}

#[test]
fn a_text_becomes_a_file_and_a_text_again() {
    let path = scratch("triangle.plan");
    let path = path.to_str().expect("a path in UTF-8");
    assert_eq!(printed(&["file", "triangle.txt", path]), "");
    let call = planner(&["text", path]);
    assert_eq!(call.status, 0);
    let lines: Vec<&str> = call
        .out
        .lines()
        .skip(1)
        .filter(|line| !line.is_empty())
        .collect();
    let expected = [
        "threshold 1",
        "cap 100",
        "node n0",
        "node n1",
        "node n2",
        "link l0 n0 n1",
        "link l1 n0 n2",
        "link l2 n1 n2",
        "event e0 1 l0",
        "event e1 1 l1",
        "event e2 1 l2",
    ];
    assert_eq!(lines, expected);
}

#[test]
fn the_listing_names_pairs_and_events() {
    let call = planner(&["listing", "ring-shared-duct.txt"]);
    assert_eq!(call.status, 0);
    let lines: Vec<&str> = call.out.lines().collect();
    assert!(lines[1].starts_with("59 scenarios examined, complete 1"));
    let worst: Vec<&str> = lines[6].split_whitespace().collect();
    let expected = [
        "Control",
        "Dale",
        "0.000010652122676083",
        "0.000010653340683186",
        "335",
        "336",
    ];
    assert_eq!(worst[..6], expected);
    assert!(worst[6..]
        .iter()
        .all(|word| *word == "+" || word.contains('-')));
    let uppers: Vec<&str> = lines[6..]
        .iter()
        .map(|line| line.split_whitespace().nth(3).expect("an upper bound"))
        .collect();
    assert_eq!(uppers.len(), 15);
    assert!(
        uppers.windows(2).all(|two| two[0] >= two[1]),
        "the largest upper bound first"
    );
    let from_file = planner(&["listing", "ring-shared-duct.plan"]);
    assert!(from_file
        .out
        .contains("\nn0 n3  0.000010652122676083  0.000010653340683186"));
}

/// 2^14 = 16,384 ends, more than one step; standard error is no terminal here.
#[test]
fn a_long_listing_shows_no_progress_where_no_terminal_is() {
    let mut text = "threshold 1\ncap 1000000\nnode A\nnode B\nlink AB A B\n".to_string();
    for i in 0..14 {
        text += &format!("event e{i} 500000000 AB\n");
    }
    let path = scratch_with("long.txt", text.as_bytes());
    let listing = printed(&["listing", &path]);
    assert!(listing.contains("\n16384 scenarios examined, complete 1"));
    let help = planner(&["--help"]).out;
    assert!(help.contains("a long listing shows its progress"));
}

#[test]
fn a_pair_that_nothing_cuts_and_one_that_was_never_joined() {
    let listing = printed(&["listing", "triangle.txt"]);
    let (_, table) = listing.split_once("\n\n").expect("a head and a table");
    let mut rows = table.lines().skip(1);
    assert!(rows.all(|line| line.ends_with("0        1  -")));
    let apart = scratch_with("apart.txt", b"threshold 1\ncap 1\nnode A\nnode B\n");
    let call = planner(&["listing", &apart]);
    let expected = "A B   1.000000000000000000  1.000000000000000000  31536000  31536000  no event: no path joins them";
    assert_eq!(call.out.lines().last(), Some(expected));
}

#[test]
fn the_bounds_are_the_lines_of_the_listing() {
    let listing = "3 3 3 4 1 999999999999999996\n0 1 0 4\n0 2 0 4\n1 2 0 4\n";
    assert_eq!(planner(&["bounds", "triangle.txt"]).out, listing);
    assert_eq!(planner(&["bounds", "triangle.plan"]).out, listing);
}

#[test]
fn what_is_wrong_ends_with_a_failure() {
    let bad = scratch_with("bad.txt", b"threshold 1\ncap 1\nnode A\nlink x A B\n");
    let odd = scratch_with("odd.txt", b"threshold 1\n\xff\n");
    let short = scratch_with("short.plan", b"RSG");
    let nowhere = "no-such-folder/out.plan";
    let cases: [(i32, &[&str], &str); 7] = [
        (1, &["listing", &bad], "bad.txt: line 4: expected a node that stands above; found `B`\n"),
        (1, &["file", &bad, nowhere], "bad.txt: line 4: expected a node that stands above; found `B`\n"),
        (1, &["bounds", &odd], "odd.txt: expected a text or a plan file; found neither a plan file, \
            an equipment sheet nor a text: line 2 has bytes that are not UTF-8\n"),
        (1, &["text", &short], "short.plan: refused 1, the bytes end inside header, link, event or member\n"),
        (
            1,
            &["listing", "refused-rising-probability.plan"],
            "refused-rising-probability.plan: refused 9, a probability is above that of the event before\n",
        ),
        (2, &["listing", "absent.txt"], "planner: absent.txt: "),
        (2, &["file", "triangle.txt", nowhere], "planner: no-such-folder/out.plan: "),
    ];
    for (status, words, message) in cases {
        let call = planner(words);
        assert_eq!((call.status, call.out.as_str()), (status, ""), "{words:?}");
        assert!(call.err.contains(message), "{words:?}: {}", call.err);
    }
}
