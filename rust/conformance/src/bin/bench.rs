//! The benchmark: the proved run beside the tuned Rust program, on three plans of `examples/` and on the GEANT core with a
//! lower threshold; then the proved witness beside the proved run, the proved walk that is gone on with in parts, and the proved
//! call with ten thresholds beside the proved runs at them.
//!
//! Each plan is run once by both to compare their answers, then five times by each in turn, or as often as an
//! argument says. The best time of each counts: processor time of this thread, so that other work on the machine
//! counts little.

use account::panel::Quota;
use account::Lent;
use conformance::proved::{Walk, MOST_PAIRS};
use conformance::thresholds::run_thresholds;
use conformance::{probe, proved, readings};
use plans::examples::{folder, BENCHMARK};
use plans::Lists;

/// The lists of bounds; they are cleared before each run.
type Bounds = [u64; MOST_PAIRS];

/// Seconds and nanoseconds, as the C library gives them.
#[repr(C)]
struct Timespec {
    seconds: i64,
    nanoseconds: i64,
}

extern "C" {
    fn clock_gettime(clock: i32, time: *mut Timespec) -> i32;
}

/// The processor time of this thread, on Linux, in milliseconds.
fn processor_time() -> f64 {
    const CLOCK_THREAD_CPUTIME_ID: i32 = 3;
    let mut time = Timespec {
        seconds: 0,
        nanoseconds: 0,
    };
    // Safety: the pointer is to a timespec of the C library's layout.
    let answer = unsafe { clock_gettime(CLOCK_THREAD_CPUTIME_ID, &mut time) };
    assert_eq!(
        answer, 0,
        "there is no clock of the thread's processor time"
    );
    time.seconds as f64 * 1e3 + time.nanoseconds as f64 / 1e6
}

/// The lists of an example file, by the proved reader.
fn lists_of(name: &str) -> Lists {
    let bytes = std::fs::read(folder().join(name)).expect("an example file");
    proved::read(&bytes).expect("a plan that meets no refusal")
}

fn run_proved(lent: &Lent, lower: &mut Bounds, upper: &mut Bounds) -> [u64; 3] {
    let (refusal, result) = probe::run(lent, lower, upper);
    assert_eq!(refusal, 0);
    result
}

fn run_tuned(lent: &Lent, lower: &mut Bounds, upper: &mut Bounds) -> [u64; 3] {
    let lists = tuned::Lists {
        nodes: lent.header.nodes as usize,
        links: lent.links,
        events: lent.events,
        threshold: lent.header.threshold,
        cap: lent.header.cap,
    };
    let outcome = tuned::run(&lists, lower, upper);
    [outcome.count, outcome.complete, outcome.mass]
}

/// One of the two programs.
type Program = fn(&Lent, &mut Bounds, &mut Bounds) -> [u64; 3];

/// The answer of one run and its time in milliseconds.
fn timed(program: Program, lent: &Lent) -> ([u64; 3], Bounds, Bounds, f64) {
    let (mut lower, mut upper) = ([0; MOST_PAIRS], [0; MOST_PAIRS]);
    let start = processor_time();
    let result = program(lent, &mut lower, &mut upper);
    let time = processor_time() - start;
    (result, lower, upper, time)
}

/// How often each program is run.
fn rounds() -> usize {
    let argument = std::env::args().nth(1);
    argument.map_or(5, |text| text.parse().expect("the number of rounds"))
}

/// Compares the answers of the two programs on a plan, and prints the best time of each.
fn compare(name: &str, lists: &Lists, rounds: usize) {
    let lent = lists.lent();
    let (proved, tuned) = (timed(run_proved, &lent), timed(run_tuned, &lent));
    let same = (proved.0, proved.1, proved.2) == (tuned.0, tuned.1, tuned.2);
    assert!(same, "{name}: the two programs differ");
    let (mut proved_best, mut tuned_best) = (f64::MAX, f64::MAX);
    for _ in 0..rounds {
        proved_best = proved_best.min(timed(run_proved, &lent).3);
        tuned_best = tuned_best.min(timed(run_tuned, &lent).3);
    }
    let ratio = proved_best / tuned_best;
    println!("{name}: proved {proved_best:.2}, Rust {tuned_best:.2}, ratio {ratio:.2}");
}

/// A witness that is not found takes the whole walk: its best time beside that of the run.
fn compare_witness(name: &str, lists: &Lists, v: u64, w: u64, rounds: usize) {
    let lent = lists.lent();
    let (mut run_best, mut witness_best) = (f64::MAX, f64::MAX);
    for _ in 0..rounds {
        run_best = run_best.min(timed(run_proved, &lent).3);
        let start = processor_time();
        let (refusal, _) = readings::witness(&lent, v, w);
        witness_best = witness_best.min(processor_time() - start);
        assert_eq!(
            refusal, 14,
            "{name}: a set of events cuts the pair {v}, {w}"
        );
    }
    let ratio = witness_best / run_best;
    println!("{name}, no witness for {v}, {w}: {witness_best:.2}, the run {run_best:.2}, ratio {ratio:.2}");
}

/// The walk of a plan, begun.
fn begun(lists: &Lists) -> Walk {
    Walk::begin(lists).expect("a plan that meets no refusal")
}

/// The time of a go-on of one end, in the middle of a walk of so many ends: of 1,000 in turn, the best of all rounds.
fn time_one_end(name: &str, lists: &Lists, ends: u64, rounds: usize) {
    const CALLS: u64 = 1_000;
    let mut half_way = begun(lists);
    let mut quota = Quota::FULL.left;
    assert_eq!(half_way.go_on(&mut quota, ends / 2), Ok(ends / 2));
    let mut best = f64::MAX;
    for _ in 0..rounds {
        let mut walk = half_way.clone();
        let mut quota = Quota::FULL.left;
        let start = processor_time();
        for _ in 0..CALLS {
            assert_eq!(walk.go_on(&mut quota, 1), Ok(1));
        }
        best = best.min((processor_time() - start) / CALLS as f64);
    }
    let microseconds = best * 1e3;
    println!("{name}, a go-on of 1 end: {microseconds:.2} microseconds");
}

/// Goes on with a walk by 1,000 ends at a time until it has ended; returns the number of go-ons that reached some.
fn by_thousands(walk: &mut Walk) -> u64 {
    let (mut quota, mut calls) = (Quota::FULL.left, 0);
    while walk.go_on(&mut quota, 1_000).expect("a full quota") > 0 {
        calls += 1;
    }
    calls
}

/// A walk that is begun and gone on with by 1,000 ends at a time beside the run: the best time of each.
fn compare_go_ons(name: &str, lists: &Lists, rounds: usize) {
    let lent = lists.lent();
    let mut walk = begun(lists);
    let calls = by_thousands(&mut walk);
    let same = (walk.look(), walk.bounds()) == proved::run(lists);
    assert!(same, "{name}: the walk and the run differ");
    let (mut run_best, mut walk_best) = (f64::MAX, f64::MAX);
    for _ in 0..rounds {
        run_best = run_best.min(timed(run_proved, &lent).3);
        let start = processor_time();
        by_thousands(&mut begun(lists));
        walk_best = walk_best.min(processor_time() - start);
    }
    let ratio = walk_best / run_best;
    println!("{name}, {calls} go-ons of 1,000 ends: {walk_best:.2}, the run {run_best:.2}, ratio {ratio:.2}");
}

/// Ten thresholds, from 10^15 down to 10^6, each a tenth of the one before.
fn ten_thresholds() -> [u64; 10] {
    std::array::from_fn(|i| 10u64.pow(15 - i as u32))
}

/// The time of the one call with these thresholds, in milliseconds.
fn time_at_once(lists: &Lists, thresholds: &[u64]) -> f64 {
    let room = thresholds.len() * MOST_PAIRS;
    let (mut lower, mut upper) = (vec![0; room], vec![0; room]);
    let start = processor_time();
    let (refusal, _) = run_thresholds(&lists.lent(), thresholds, &mut lower, &mut upper);
    let time = processor_time() - start;
    assert_eq!(refusal, 0);
    time
}

/// The lists of a plan with another threshold.
fn at_threshold(lists: &Lists, threshold: u64) -> Lists {
    let mut other = lists.clone();
    other.header.threshold = threshold;
    other
}

/// The one call with ten thresholds beside the run at the lowest of them and beside the ten runs: the best time of each.
fn compare_thresholds(name: &str, lists: &Lists, rounds: usize) {
    let thresholds = ten_thresholds();
    let each = thresholds.map(|threshold| at_threshold(lists, threshold));
    let at_once = proved::run_thresholds(lists, &thresholds).expect("ten falling thresholds");
    let same = at_once.into_iter().eq(each.iter().map(proved::run));
    assert!(same, "{name}: a block and its run differ");
    let (mut at_once_best, mut each_best) = (f64::MAX, [f64::MAX; 10]);
    for _ in 0..rounds {
        at_once_best = at_once_best.min(time_at_once(lists, &thresholds));
        for (best, lists) in each_best.iter_mut().zip(&each) {
            *best = best.min(timed(run_proved, &lists.lent()).3);
        }
    }
    let (lowest, sum) = (each_best[9], each_best.iter().sum::<f64>());
    let (of_lowest, of_sum) = (at_once_best / lowest, at_once_best / sum);
    println!("{name}, 10 thresholds at once: {at_once_best:.2}, the run at the lowest {lowest:.2}, ratio {of_lowest:.2} (at most 1.8 is asked for)");
    println!("{name}, 10 thresholds at once: {at_once_best:.2}, the ten runs {sum:.2}, ratio {of_sum:.2} (at most 0.75 is asked for)");
}

fn main() {
    let rounds = rounds();
    println!("best of {rounds} alternating runs, milliseconds of processor time");
    for name in BENCHMARK {
        compare(name, &lists_of(name), rounds);
    }
    let mut geant = lists_of("geant-core.plan");
    geant.header.threshold = 1_000_000;
    geant.header.cap = 1_000_000;
    compare("geant-core.plan at t = 10^6", &geant, rounds);
    let mesh = lists_of(BENCHMARK[1]);
    compare_witness(BENCHMARK[1], &mesh, 2, 3, rounds);
    time_one_end(BENCHMARK[1], &mesh, 524_288, rounds);
    compare_go_ons(BENCHMARK[1], &mesh, rounds);
    let mut mesh_28 = lists_of(BENCHMARK[0]);
    mesh_28.header.cap = 1_000_000;
    compare_thresholds(BENCHMARK[0], &mesh_28, rounds);
}
