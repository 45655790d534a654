//! The run with windows of libprobe.a, declared and wrapped as in `probe`.

use account::Lent;

use crate::probe::{with_lists, UNSET};

mod raw {
    extern "C" {
        pub fn probe_run_at(
            nodes: u64,
            links_count: u64,
            events_count: u64,
            threshold: u64,
            cap: u64,
            links: *const u8,
            links_len: usize,
            events: *const u64,
            events_len: usize,
            windows: *const u64,
            windows_len: usize,
            minute: u64,
            lower: *mut u64,
            lower_len: usize,
            upper: *mut u64,
            upper_len: usize,
            result: *mut u64,
            result_len: usize,
        ) -> u32;
    }
}

/// The run with windows, five words for each, at a minute of the week; the list gets the examined count, complete and E, as far
/// as it has room.
pub fn run_at_in(
    lent: &Lent,
    windows: &[u64],
    minute: u64,
    lower: &mut [u64],
    upper: &mut [u64],
    result: &mut [u64],
) -> u32 {
    with_lists!(
        raw::probe_run_at,
        lent,
        windows.as_ptr(),
        windows.len(),
        minute,
        lower.as_mut_ptr(),
        lower.len(),
        upper.as_mut_ptr(),
        upper.len(),
        result.as_mut_ptr(),
        result.len(),
    )
}

/// The run with windows, five words for each, at a minute of the week; the numbers are the examined count, complete and E.
pub fn run_at(
    lent: &Lent,
    windows: &[u64],
    minute: u64,
    lower: &mut [u64],
    upper: &mut [u64],
) -> (u32, [u64; 3]) {
    let mut result = [UNSET; 3];
    let refusal = run_at_in(lent, windows, minute, lower, upper, &mut result);
    (refusal, result)
}
