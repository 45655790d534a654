//! The readings of libprobe.a, declared and wrapped as in `probe`.

use account::credit::Contract;
use account::Lent;

use crate::probe::with_lists;

/// What the returned numbers hold before a call.
const UNSET: u64 = 0xdead_beef_dead_beef;

mod raw {
    extern "C" {
        pub fn probe_topologies(
            nodes: u64,
            links_count: u64,
            events_count: u64,
            threshold: u64,
            cap: u64,
            links: *const u8,
            links_len: usize,
            events: *const u64,
            events_len: usize,
            list: *mut u64,
            list_len: usize,
            result: *mut u64,
            result_len: usize,
        ) -> u32;

        pub fn probe_figure(
            nodes: u64,
            links_count: u64,
            events_count: u64,
            threshold: u64,
            cap: u64,
            links: *const u8,
            links_len: usize,
            events: *const u64,
            events_len: usize,
            v: u64,
            w: u64,
            bits: *mut u64,
            bits_len: usize,
        ) -> u32;

        pub fn probe_witness(
            nodes: u64,
            links_count: u64,
            events_count: u64,
            threshold: u64,
            cap: u64,
            links: *const u8,
            links_len: usize,
            events: *const u64,
            events_len: usize,
            v: u64,
            w: u64,
            result: *mut u64,
            result_len: usize,
        ) -> u32;

        pub fn probe_downtime(lower: u64, upper: u64, result: *mut u64, result_len: usize) -> u32;

        pub fn probe_credit(
            nodes: u64,
            links_count: u64,
            events_count: u64,
            threshold: u64,
            cap: u64,
            links: *const u8,
            links_len: usize,
            events: *const u64,
            events_len: usize,
            v: u64,
            w: u64,
            fee: u64,
            limit: u64,
            rate: u64,
            result: *mut u64,
            result_len: usize,
        ) -> u32;
    }
}

/// The topology list; the number is that of its entries.
pub fn topologies(lent: &Lent, list: &mut [u64]) -> (u32, u64) {
    let mut result = [UNSET];
    let refusal = with_lists!(
        raw::probe_topologies,
        lent,
        list.as_mut_ptr(),
        list.len(),
        result.as_mut_ptr(),
        result.len(),
    );
    (refusal, result[0])
}

/// The conditional figure: 1 if there is one, then the bits of its two floats.
pub fn figure(lent: &Lent, v: u64, w: u64) -> (u32, [u64; 3]) {
    let mut bits = [UNSET; 3];
    let refusal = with_lists!(raw::probe_figure, lent, v, w, bits.as_mut_ptr(), bits.len());
    (refusal, bits)
}

/// The witness: the set of its failing events, the lower 64 first.
pub fn witness(lent: &Lent, v: u64, w: u64) -> (u32, [u64; 2]) {
    let mut result = [UNSET; 2];
    let refusal = with_lists!(
        raw::probe_witness,
        lent,
        v,
        w,
        result.as_mut_ptr(),
        result.len(),
    );
    (refusal, result)
}

/// The downtime of two masses, in seconds: the lower one rounded down, the upper one up.
pub fn downtime(lower: u64, upper: u64) -> (u32, [u64; 2]) {
    let mut result = [UNSET; 2];
    // Safety: the pointer comes with the length of its slice.
    let refusal = unsafe { raw::probe_downtime(lower, upper, result.as_mut_ptr(), result.len()) };
    (refusal, result)
}

/// The credits of a contract for a pair. The list gets the lower and the upper credit in cents and the headroom in seconds,
/// with 2^64 added where it is negative, as far as it has room.
pub fn credit_in(lent: &Lent, v: u64, w: u64, contract: &Contract, result: &mut [u64]) -> u32 {
    with_lists!(
        raw::probe_credit,
        lent,
        v,
        w,
        contract.fee,
        contract.limit,
        contract.rate,
        result.as_mut_ptr(),
        result.len(),
    )
}

/// The credits of a contract for a pair, and the headroom, as `credit_in` lays them down.
pub fn credit(lent: &Lent, v: u64, w: u64, contract: &Contract) -> (u32, [u64; 3]) {
    let mut result = [UNSET; 3];
    let refusal = credit_in(lent, v, w, contract, &mut result);
    (refusal, result)
}
