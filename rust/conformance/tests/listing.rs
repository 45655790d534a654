//! The listing program against the account's text, to the byte; and an output that it cannot write.

use std::process::Command;

use account::file::layout;
use conformance::listing::{listing, program};
use conformance::Tally;
use plans::damage::damaged_file;
use plans::examples::{files_with, folder, longest, longest_with_last_count_255, triangle};
use plans::valid::{plan_of_size, random_plan, FULL};
use plans::Rng;

/// Holds the program to the account on one input, and gives the refusal's number.
#[track_caller]
fn expect(input: &[u8]) -> u32 {
    let text = listing(input).expect("the program crates/listing/out/listing runs");
    assert_eq!(text, account::listing::listing(input));
    account::calls::check(input)
}

#[test]
fn the_triangle() {
    let text = listing(&layout(&triangle())).expect("the program crates/listing/out/listing runs");
    let expected = "3 3 3 4 1 999999999999999996\n0 1 0 4\n0 2 0 4\n1 2 0 4\n";
    assert_eq!(text, expected);
}

#[test]
fn the_example_files() {
    for path in files_with("plan") {
        expect(&std::fs::read(path).expect("an example file"));
    }
}

#[test]
fn random_files() {
    let mut rng = Rng::for_stream(61);
    let mut tally = Tally::default();
    for i in 0..1_500 {
        let plan = match i % 15 {
            0 => plan_of_size(&mut rng, FULL),
            _ => random_plan(&mut rng),
        };
        let bytes = match rng.one_in(2) {
            true => layout(&plan),
            false => damaged_file(&mut rng, &plan),
        };
        tally.add(expect(&bytes));
    }
    tally.expect(0..=11);
}

#[test]
fn inputs_of_any_length() {
    assert_eq!(expect(b""), 1);
    expect(&[0; 1_000_000]);
    let mut rng = Rng::for_stream(62);
    expect(&rng.bytes(1_000_000));
    let mut triangle_and_more = layout(&triangle());
    triangle_and_more.resize(1_000_000, 0);
    assert_eq!(expect(&triangle_and_more), 11);
}

#[test]
fn the_longest_plan_and_its_last_count() {
    let bytes = layout(&longest());
    assert_eq!(bytes.len(), 50_068);
    expect(&bytes);
    for (more, refusal) in [(0, 1), (1, 1), (2, 10), (1_000, 10)] {
        let text = listing(&longest_with_last_count_255(more));
        let text = text.expect("the program crates/listing/out/listing runs");
        assert_eq!(text, format!("refused {refusal}\n"));
    }
}

/// What a script of the shell prints and tells that runs the program, `$0`, on the plan of the GEANT core, `$1`. The program ends with status 0
/// where it tells nothing, and else with status 1.
fn run(script: &str) -> [String; 2] {
    let mut sh = Command::new("sh");
    let sh = sh.args(["-c", script]).arg(program());
    let output = sh.arg(folder().join("geant-core.plan")).output();
    let output = output.expect("the shell runs");
    let expected = i32::from(!output.stderr.is_empty());
    assert_eq!(output.status.code(), Some(expected), "{script}");
    [output.stdout, output.stderr].map(|bytes| String::from_utf8(bytes).expect("a text"))
}

/// Holds what was told to its two lines: what was not written, and the error that the program ends with.
#[track_caller]
fn expect_told(told: &str) {
    let error = told.strip_prefix("listing: standard output was not written whole\n");
    let error = error.expect(told);
    assert!(
        error.starts_with("Error: ") && error.lines().count() == 1,
        "{told}"
    );
}

/// What is not written is told on standard error.
#[test]
fn an_output_that_takes_nothing_is_told() {
    for output in [">/dev/full", ">&-"] {
        let [_, told] = run(&format!("\"$0\" <\"$1\" {output}"));
        expect_told(&told);
    }
    let [whole, told] = run("\"$0\" <\"$1\"");
    assert_eq!(
        (whole.lines().count(), told.as_str()),
        (1 + 34 * 33 / 2, "")
    );
    let last = whole.lines().last().expect("a line");
    assert!(last.starts_with("32 33 "), "{last}");
}

/// A limit on the size of files lets some of the listing through, 512 or 1,024 bytes of it.
#[test]
fn an_output_that_takes_some_is_told() {
    let file = concat!(env!("CARGO_TARGET_TMPDIR"), "/cut.listing");
    let script = format!("trap '' XFSZ; ulimit -f 1; \"$0\" <\"$1\" >\"{file}\"");
    let [_, told] = run(&script);
    expect_told(&told);
    let [whole, _] = run("\"$0\" <\"$1\"");
    let cut = std::fs::read_to_string(file).expect("what was written");
    assert!(!cut.is_empty() && whole.len() > cut.len() && whole.starts_with(&cut));
}
