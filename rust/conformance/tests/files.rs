//! Check and read of plan files, valid and damaged, against the account.

use account::file::layout;
use conformance::{compare, probe, proved, Tally};
use plans::damage::random_file;
use plans::valid::{plan_of_size, random_plan, FULL};
use plans::Rng;

const FILES: usize = 30_000;

#[test]
fn check_and_read_agree_on_many_files() {
    let mut rng = Rng::for_stream(1);
    let (mut checks, mut reads) = (Tally::default(), Tally::default());
    for _ in 0..FILES {
        let bytes = random_file(&mut rng);
        checks.add(compare::check(&bytes));
        reads.add(compare::read(&mut rng, &bytes));
    }
    checks.expect(0..=11);
    reads.expect(0..=12);
}

#[test]
fn every_shorter_file_is_refused_alike() {
    let mut rng = Rng::for_stream(2);
    for _ in 0..60 {
        let bytes = layout(&random_plan(&mut rng));
        let step = 1 + bytes.len() / 300;
        for length in (0..bytes.len()).step_by(step) {
            assert_eq!(compare::check(&bytes[..length]), 1);
            compare::read(&mut rng, &bytes[..length]);
        }
    }
}

#[test]
fn what_was_read_is_written_again() {
    let mut rng = Rng::for_stream(3);
    for i in 0..2_000 {
        let plan = match i % 10 {
            0 => plan_of_size(&mut rng, FULL),
            _ => random_plan(&mut rng),
        };
        let bytes = layout(&plan);
        let lists = proved::read(&bytes).expect("a valid plan");
        let mut out = vec![0; bytes.len()];
        assert_eq!(
            probe::write(&lists.lent(), &mut out),
            (0, bytes.len() as u64)
        );
        assert_eq!(out, bytes);
    }
}
