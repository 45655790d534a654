//! The walks of libprobe.a that are begun and gone on with, declared as in `probe`. A walk is a list of words, which the
//! caller keeps between the calls; words past it stay as they were.

use account::Lent;

use crate::probe::with_lists;

mod raw {
    extern "C" {
        pub fn probe_walk_words() -> u64;

        pub fn probe_begin(
            nodes: u64,
            links_count: u64,
            events_count: u64,
            threshold: u64,
            cap: u64,
            links: *const u8,
            links_len: usize,
            events: *const u64,
            events_len: usize,
            state: *mut u64,
            state_len: usize,
        ) -> u32;

        pub fn probe_go_on(
            state: *mut u64,
            state_len: usize,
            quota: *mut u64,
            quota_len: usize,
            k: u64,
            reached: *mut u64,
            reached_len: usize,
        ) -> u32;

        pub fn probe_look(
            state: *const u64,
            state_len: usize,
            result: *mut u64,
            result_len: usize,
        ) -> u32;

        pub fn probe_look_pair(
            state: *const u64,
            state_len: usize,
            v: u64,
            w: u64,
            result: *mut u64,
            result_len: usize,
        ) -> u32;
    }
}

/// How many words a walk takes.
pub fn walk_words() -> usize {
    // Safety: the call takes nothing.
    let words = unsafe { raw::probe_walk_words() };
    words as usize
}

/// Begins a walk in lent words.
pub fn begin(lent: &Lent, state: &mut [u64]) -> u32 {
    with_lists!(raw::probe_begin, lent, state.as_mut_ptr(), state.len())
}

/// Goes on for at most k ends. The quota's first word is what is left of it; the list `reached` gets the ends reached,
/// where it has room.
pub fn go_on(state: &mut [u64], quota: &mut [u64], k: u64, reached: &mut [u64]) -> u32 {
    // Safety: every pointer comes with the length of its slice, and no two slices overlap.
    unsafe {
        raw::probe_go_on(
            state.as_mut_ptr(),
            state.len(),
            quota.as_mut_ptr(),
            quota.len(),
            k,
            reached.as_mut_ptr(),
            reached.len(),
        )
    }
}

/// Count, complete and E of a walk, as far as the list has room.
pub fn look(state: &[u64], result: &mut [u64]) -> u32 {
    let (to, room) = (result.as_mut_ptr(), result.len());
    // Safety: every pointer comes with the length of its slice, and the two slices do not overlap.
    unsafe { raw::probe_look(state.as_ptr(), state.len(), to, room) }
}

/// Lower and upper bound of a pair, as far as the list has room.
pub fn look_pair(state: &[u64], v: u64, w: u64, result: &mut [u64]) -> u32 {
    let (to, room) = (result.as_mut_ptr(), result.len());
    // Safety: every pointer comes with the length of its slice, and the two slices do not overlap.
    unsafe { raw::probe_look_pair(state.as_ptr(), state.len(), v, w, to, room) }
}
