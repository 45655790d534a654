//! The two functions of the C archive, libwellember.a.

mod raw {
    extern "C" {
        pub fn wellember_check(plan: *const u8, plan_len: usize) -> u32;

        pub fn wellember_pair(
            plan: *const u8,
            plan_len: usize,
            v: u32,
            w: u32,
            out: *mut u8,
            out_len: usize,
        ) -> u32;
    }
}

/// The check of a file.
pub fn check(plan: &[u8]) -> u32 {
    // Safety: the pointer comes with the length of its slice.
    unsafe { raw::wellember_check(plan.as_ptr(), plan.len()) }
}

/// The bounds of one pair in the first sixteen bytes of the buffer.
pub fn pair(plan: &[u8], v: u32, w: u32, out: &mut [u8]) -> u32 {
    // Safety: both pointers come with the lengths of their slices, which do not overlap.
    unsafe { raw::wellember_pair(plan.as_ptr(), plan.len(), v, w, out.as_mut_ptr(), out.len()) }
}
