//! The C archive against the account.

mod archive;

use account::file::layout;
use account::{calls, number};
use conformance::compare::random_pair;
use conformance::Tally;
use plans::damage::damaged_file;
use plans::examples::{longest, longest_with_last_count_255, triangle};
use plans::valid::random_plan;
use plans::Rng;

const PLANS: usize = 20_000;

/// Both calls on one file, and the buffer after them.
fn compare(rng: &mut Rng, bytes: &[u8], nodes: usize) -> u32 {
    assert_eq!(
        archive::check(bytes),
        calls::check(bytes),
        "check of {bytes:?}"
    );
    let (v, w) = random_pair(rng, nodes as u64);
    let (v, w) = (v as u32, w as u32);
    let length = rng.pick(&[0, 8, 15, 16, 16, 16, 17, 40]);
    let mut out = rng.bytes(length);
    let mut own_out = out.clone();
    let expected = number(&calls::host_pair(bytes, v, w, &mut own_out));
    let refusal = archive::pair(bytes, v, w, &mut out);
    assert_eq!(refusal, expected, "pair {v} {w} of {bytes:?}");
    assert_eq!(out, own_out, "pair {v} {w} of {bytes:?}");
    refusal
}

#[test]
fn the_archive_takes_files_of_any_length() {
    let mut rng = Rng::for_stream(52);
    let mut longer = layout(&triangle());
    longer.resize(1_000_000, 0);
    let mut files = vec![Vec::new(), vec![0; 1_000_000], longer, layout(&longest())];
    files.extend([0, 1, 2, 1_000].map(longest_with_last_count_255));
    for bytes in files {
        for _ in 0..20 {
            compare(&mut rng, &bytes, 64);
        }
    }
}

#[test]
fn the_archive_gives_twelve_before_thirteen() {
    let mut out = [9; 17];
    let bytes = layout(&triangle());
    assert_eq!(archive::pair(&bytes, 1, 1, &mut out[..15]), 12);
    assert_eq!(archive::pair(&bytes, 1, 1, &mut out), 13);
    assert_eq!(out, [9; 17]);
    assert_eq!(archive::pair(&bytes, 0, 2, &mut out), 0);
    assert_eq!(out, [0, 0, 0, 0, 0, 0, 0, 0, 4, 0, 0, 0, 0, 0, 0, 0, 9]);
}

#[test]
fn the_archive_agrees_on_many_files() {
    let mut rng = Rng::for_stream(51);
    let mut tally = Tally::default();
    for _ in 0..PLANS {
        let plan = random_plan(&mut rng);
        let bytes = match rng.one_in(2) {
            true => layout(&plan),
            false => damaged_file(&mut rng, &plan),
        };
        tally.add(compare(&mut rng, &bytes, plan.nodes));
    }
    tally.expect(0..=13);
}
