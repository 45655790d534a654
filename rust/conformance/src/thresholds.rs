//! The runs at several thresholds of libprobe.a, declared and wrapped as in `probe`. The call does not take the threshold of the
//! plan.

use account::bounds::Outcome;
use account::thresholds::MOST_THRESHOLDS;
use account::Lent;

use crate::probe::{with_numbers, UNSET};

/// The words of the totals: count, complete and E for each place of the list of thresholds.
pub const TOTAL_WORDS: usize = 3 * MOST_THRESHOLDS;

mod raw {
    extern "C" {
        pub fn probe_thresholds(
            nodes: u64,
            links_count: u64,
            events_count: u64,
            cap: u64,
            links: *const u8,
            links_len: usize,
            events: *const u64,
            events_len: usize,
            thresholds: *const u64,
            thresholds_len: usize,
            lower: *mut u64,
            lower_len: usize,
            upper: *mut u64,
            upper_len: usize,
            result: *mut u64,
            result_len: usize,
        ) -> u32;
    }
}

/// The runs at several thresholds; the list gets the examined count, complete and E of each place, as far as it has room.
pub fn run_thresholds_in(
    lent: &Lent,
    thresholds: &[u64],
    lower: &mut [u64],
    upper: &mut [u64],
    result: &mut [u64],
) -> u32 {
    with_numbers!(
        [cap],
        raw::probe_thresholds,
        lent,
        thresholds.as_ptr(),
        thresholds.len(),
        lower.as_mut_ptr(),
        lower.len(),
        upper.as_mut_ptr(),
        upper.len(),
        result.as_mut_ptr(),
        result.len(),
    )
}

/// The runs at several thresholds; the numbers are the examined count, complete and E of each place.
pub fn run_thresholds(
    lent: &Lent,
    thresholds: &[u64],
    lower: &mut [u64],
    upper: &mut [u64],
) -> (u32, [u64; TOTAL_WORDS]) {
    let mut result = [UNSET; TOTAL_WORDS];
    let refusal = run_thresholds_in(lent, thresholds, lower, upper, &mut result);
    (refusal, result)
}

/// The totals of sixteen places as words.
pub fn words_of(outcomes: [Outcome; MOST_THRESHOLDS]) -> [u64; TOTAL_WORDS] {
    let words = outcomes.map(Outcome::words);
    std::array::from_fn(|at| words[at / 3][at % 3])
}

/// The totals of sixteen places by words.
pub fn outcomes_of(words: &[u64; TOTAL_WORDS]) -> [Outcome; MOST_THRESHOLDS] {
    std::array::from_fn(|i| Outcome::of_words([words[3 * i], words[3 * i + 1], words[3 * i + 2]]))
}
