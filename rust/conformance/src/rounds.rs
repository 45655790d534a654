//! The reach of a node of libprobe.a, declared as in `probe`.

use account::rounds::Network;

mod raw {
    extern "C" {
        pub fn probe_reach(
            nodes: u64,
            links_count: u64,
            links: *const u8,
            links_len: usize,
            failed_nodes: u64,
            failed_low: u64,
            failed_high: u64,
            v: u64,
            result: *mut u64,
            result_len: usize,
        ) -> u32;
    }
}

/// The reach of a node; the list gets its set and the number of rounds, as far as it has room.
pub fn reach(network: &Network, v: u64, result: &mut [u64]) -> u32 {
    // Safety: every pointer comes with the length of its slice, and no two slices overlap.
    unsafe {
        raw::probe_reach(
            network.nodes,
            network.links_count,
            network.links.as_ptr(),
            network.links.len(),
            network.failed_nodes,
            network.failed_links as u64,
            (network.failed_links >> 64) as u64,
            v,
            result.as_mut_ptr(),
            result.len(),
        )
    }
}
