//! Every call on a thread with three quarters of the stack that the header for C names, so that the size is at least a third
//! above what a call takes. A call that takes more ends the program, with the name of the call.

use account::credit::Contract;
use account::file::layout;
use conformance::{panel, probe, readings, rounds, sheets, thresholds, windows};
use plans::examples::{files_with, ring_of_six};
use plans::{reach, Lists};
use std::thread::Builder;

/// The size that the header for C names, in bytes.
fn stack() -> usize {
    let header = concat!(env!("CARGO_MANIFEST_DIR"), "/../../include/wellember.h");
    let text = std::fs::read_to_string(header).expect("the header for C");
    let mut lines = text.lines();
    let size = lines.find_map(|line| line.strip_prefix("#define WELLEMBER_STACK "));
    let size = size.and_then(|size| size.parse().ok());
    size.expect("a line #define WELLEMBER_STACK with a number")
}

/// Makes a call, which is to be accepted, on a thread of its own.
fn accepted(call: &str, make: impl FnOnce() -> u32 + Send) {
    std::thread::scope(|scope| {
        let thread = Builder::new().name(call.to_owned());
        let thread = thread.stack_size(stack() / 4 * 3).spawn_scoped(scope, make);
        let answer = thread.expect("a thread").join();
        assert_eq!(answer.expect("an answer"), 0, "{call}");
    });
}

#[test]
fn calls_on_files() {
    let (mut links, mut events) = ([0; 256], [0; 512]);
    let (mut lower, mut upper) = ([0; 2016], [0; 2016]);
    let (plan, mut out, mut counts) = (layout(&ring_of_six()), vec![0; 50_068], [0; 3]);
    accepted("check", || probe::check(&plan));
    accepted("read", || probe::read(&plan, &mut links, &mut events).0);
    accepted("run_plan", || {
        probe::run_plan(&plan, &mut lower, &mut upper).0
    });
    accepted("copy_plan", || probe::copy_plan(&plan, &mut out).0);
    let path = files_with("sheet").pop().expect("an example sheet");
    let sheet = std::fs::read(path).expect("the example sheet");
    accepted("check_sheet", || sheets::check(&sheet));
    accepted("sheet", || sheets::read(&sheet, &mut events, &mut counts));
    accepted("sheet_records", || {
        sheets::read_records(&sheet, &mut events, &mut counts)
    });
}

#[test]
fn calls_on_lists() {
    let lists = Lists::of(&ring_of_six());
    let lent = lists.lent();
    let (mut lower, mut upper) = (vec![0; 2016], vec![0; 2016]);
    let (mut out, mut list) = (vec![0; 50_068], vec![0; 40_000]);
    accepted("write", || probe::write(&lent, &mut out).0);
    accepted("run", || probe::run(&lent, &mut lower, &mut upper).0);
    accepted("pair", || probe::pair(&lent, 0, 3).0);
    accepted("topologies", || readings::topologies(&lent, &mut list).0);
    accepted("run_at", || {
        windows::run_at(&lent, &[0, 10_080, 1, 0, 0], 7, &mut lower, &mut upper).0
    });
    accepted("thresholds", || {
        thresholds::run_thresholds(&lent, &[1_000_000_000, 1], &mut lower, &mut upper).0
    });
    let mut numbers = [0; 2];
    accepted("reach", || rounds::reach(&reach::row(64), 0, &mut numbers));
}

#[test]
fn readings_of_a_pair() {
    let lists = Lists::of(&ring_of_six());
    let lent = lists.lent();
    let contract = Contract {
        fee: 1_000,
        limit: 0,
        rate: 1,
    };
    accepted("figure", || readings::figure(&lent, 0, 3).0);
    accepted("witness", || readings::witness(&lent, 0, 3).0);
    accepted("downtime", || readings::downtime(1, 4).0);
    accepted("credit", || readings::credit(&lent, 0, 3, &contract).0);
}

#[test]
fn a_walk_in_steps() {
    let lists = Lists::of(&ring_of_six());
    let lent = lists.lent();
    let mut state = vec![0; panel::walk_words()];
    let (mut quota, mut reached, mut numbers) = ([10_000_000], [0], [0; 3]);
    accepted("begin", || panel::begin(&lent, &mut state));
    accepted("go_on", || {
        panel::go_on(&mut state, &mut quota, 100, &mut reached)
    });
    assert_eq!(reached, [100]);
    accepted("look", || panel::look(&state, &mut numbers));
    accepted("look_pair", || panel::look_pair(&state, 0, 3, &mut numbers));
}
