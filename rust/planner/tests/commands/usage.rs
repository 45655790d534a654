//! Wrong words: one line that says what was wrong, what was expected, and which help says more; and the helps and the version.

use std::ffi::OsString;
use std::os::unix::ffi::OsStringExt;

use plans::examples::folder;

use crate::{expect_end, expect_usage, planner, printed, scratch};

const COMMANDS: [&str; 9] = [
    "file",
    "text",
    "check",
    "listing",
    "bounds",
    "thresholds",
    "credit",
    "sheet",
    "events",
];

#[test]
fn no_such_command() {
    let expected =
        "expected a command, file, text, check, listing, bounds, thresholds, credit, sheet or events";
    for (words, found) in [
        (&[][..], "nothing"),
        (&["lsiting"], "`lsiting`"),
        (&["Listing", "triangle.txt"], "`Listing`"),
        (&["triangle.txt"], "`triangle.txt`"),
        (&["--verbose"], "`--verbose`"),
        (&["--version", "x"], "`--version`"),
        (&["--help", "lsiting"], "`lsiting`"),
        (&[""], "``"),
    ] {
        let told = format!("{expected}; found {found}; see planner --help");
        expect_end(words, 2, &told);
    }
}

/// How a listing is called.
const LISTING: &str = "PLAN.txt|IN.plan [--witness|--no-witness]";

#[test]
fn too_few_operands_or_too_many() {
    for (words, form, found) in [
        ("file", "PLAN.txt OUT.plan [--force]", "nothing"),
        ("file a", "PLAN.txt OUT.plan [--force]", "1 word"),
        ("file a b c", "PLAN.txt OUT.plan [--force]", "3 words"),
        ("text", "IN.plan", "nothing"),
        ("text a b", "IN.plan", "2 words"),
        ("check", "PLAN.txt|IN.plan", "nothing"),
        ("check a b", "PLAN.txt|IN.plan", "2 words"),
        ("listing", LISTING, "nothing"),
        ("listing a b", LISTING, "2 words"),
        ("listing --at Tue 14:30", LISTING, "nothing"),
        ("bounds", "PLAN.txt|IN.plan", "nothing"),
        ("bounds -- --a --b", "PLAN.txt|IN.plan", "2 words"),
        (
            "credit a A B 1 2 3 4",
            "PLAN.txt|IN.plan NODE NODE FEE LIMIT RATE",
            "7 words",
        ),
        ("sheet a --force", "PLAN.txt OUT.sheet [--force]", "1 word"),
        ("events a b", "IN.sheet", "2 words"),
    ] {
        let words: Vec<&str> = words.split(' ').collect();
        let command = words[0];
        let told = format!("expected `planner {command} {form}`; found {found} after `{command}`");
        expect_usage(&words, &told);
    }
}

#[test]
fn options_of_other_commands() {
    for (words, told) in [
        (
            "text triangle.plan --force",
            "expected --help; found `--force`",
        ),
        (
            "listing triangle.txt --svg x",
            "expected --at, --witness, --no-witness or --help; found `--svg`",
        ),
        (
            "file triangle.txt no-such-folder/x --at x",
            "expected --force or --help; found `--at`",
        ),
        (
            "file --force triangle.txt no-such-folder/x --force",
            "--force: expected once; found twice",
        ),
        (
            "thresholds x --svg=y",
            "expected --svg, --pair, --force or --help; found `--svg=y`",
        ),
        (
            "listing triangle.txt --at Mon 01:00 --at Mon 01:00",
            "--at: expected once; found twice",
        ),
    ] {
        let words: Vec<&str> = words.split(' ').collect();
        expect_usage(&words, told);
    }
}

/// Options stand before or after the operands, and after `--` there are none.
#[test]
fn the_order_of_words() {
    let listing = printed(&["listing", "ring-duct-opened.txt", "--at", "Tue 14:30"]);
    for words in [
        "listing ring-duct-opened.txt --at Tue 14:30",
        "listing --at Tue 14:30 ring-duct-opened.txt",
        "listing --at Tue 14:30 -- ring-duct-opened.txt",
    ] {
        let words: Vec<&str> = words.split(' ').collect();
        assert_eq!(printed(&words), listing, "{words:?}");
    }
    let words = ["listing", "--at", "Tue 14:30", "ring-duct-opened.txt"];
    assert_eq!(printed(&words), listing);
    let told = "--absent: No such file or directory (os error 2)";
    expect_end(&["listing", "--", "--absent"], 2, told);
}

#[test]
fn each_command_has_a_help() {
    let all = printed(&["--help"]);
    assert_eq!(
        (printed(&["-h"]), printed(&["help"])),
        (all.clone(), all.clone())
    );
    let status = "\nExit status: 0 done; 1 refused";
    assert!(all.contains(status), "{all}");
    for command in COMMANDS {
        let help = printed(&[command, "--help"]);
        let (about, rest) = help.split_once("\n\n").expect("what it does, and the rest");
        assert!(all.contains(about), "{about}");
        for line in about.lines().filter(|line| !line.starts_with(' ')) {
            assert!(line.starts_with(&format!("planner {command} ")), "{line}");
        }
        assert!(format!("\n{rest}").contains(status), "{rest}");
        for words in [["help", command], ["--help", command], [command, "-h"]] {
            assert_eq!(printed(&words), help);
        }
        assert_eq!(printed(&[command, "a", "b", "--help", "--absent"]), help);
    }
    let lines = all.lines().filter(|line| line.starts_with("planner "));
    let in_help = |line: &&str| {
        COMMANDS
            .iter()
            .any(|command| printed(&[command, "--help"]).contains(*line))
    };
    let others: Vec<&str> = lines.filter(|line| !in_help(line)).collect();
    assert_eq!(others.len(), 2, "{others:?}");
}

#[test]
fn the_version_is_that_of_the_repository() {
    let version = std::fs::read_to_string(folder().join("../VERSION")).expect("VERSION");
    assert_eq!(printed(&["--version"]), format!("planner {version}"));
    assert_eq!(version.lines().count(), 1);
    let numbers = version.trim_end().split('.').map(str::parse::<u32>);
    assert_eq!(numbers.filter(Result::is_ok).count(), 3, "{version}");
}

/// Words that are not UTF-8 are names of files, and nothing else.
#[test]
fn words_that_are_not_utf_8() {
    let odd = || OsString::from_vec(b"odd-\xff".to_vec());
    let text: OsString = "triangle.txt".into();
    let path = scratch("").join(odd());
    let call = planner(&["file".into(), text.clone(), path.clone().into_os_string()]);
    assert_eq!((call.status, call.told().as_str()), (0, ""));
    let plan = std::fs::read(folder().join("triangle.plan")).expect("the plan file");
    assert!(std::fs::read(&path).expect("the file") == plan);
    let words = |words: &[&str]| -> Vec<OsString> {
        let word = |word: &&str| match *word {
            "?" => odd(),
            word => word.into(),
        };
        words.iter().map(word).collect()
    };
    let wrong = "expected words in UTF-8; found `odd-\\xff`; see planner";
    for (call, told) in [
        (&["?"][..], "expected a command, "),
        (&["listing", "?"], "odd-\\xff: No such file or directory"),
        (&["thresholds", "triangle.txt", "?"], wrong),
        (&["credit", "triangle.txt", "?", "B", "1", "2", "3"], wrong),
        (&["credit", "triangle.txt", "A", "B", "1", "?", "3"], wrong),
        (&["listing", "triangle.txt", "--at", "Tue", "?"], wrong),
        (
            &[
                "thresholds",
                "triangle.txt",
                "--svg",
                "no-such-folder/x",
                "--pair",
                "?",
                "A",
            ],
            wrong,
        ),
    ] {
        let call = planner(&words(call));
        assert_eq!((call.status, call.out.as_str()), (2, ""));
        assert!(
            call.err.starts_with(&format!("planner: {told}")),
            "{}",
            call.err
        );
        assert_eq!(call.err.lines().count(), 1);
    }
}
