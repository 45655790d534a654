//! The functions of libprobe.a: numbers pass as themselves, a slice as its pointer and its length in elements.
//!
//! Each call returns the refusal's number, or 0. The other numbers are set before a call to a value that no right
//! answer has, so that one left as it was is seen.

use account::Lent;

/// What the returned numbers hold before a call.
pub(crate) const UNSET: u64 = 0xdead_beef_dead_beef;

mod raw {
    extern "C" {
        pub fn probe_check(plan: *const u8, plan_len: usize) -> u32;

        pub fn probe_read(
            plan: *const u8,
            plan_len: usize,
            numbers: *mut u64,
            numbers_len: usize,
            links: *mut u8,
            links_len: usize,
            events: *mut u64,
            events_len: usize,
        ) -> u32;

        pub fn probe_write(
            nodes: u64,
            links_count: u64,
            events_count: u64,
            threshold: u64,
            cap: u64,
            links: *const u8,
            links_len: usize,
            events: *const u64,
            events_len: usize,
            out: *mut u8,
            out_len: usize,
            size: *mut u64,
            size_len: usize,
        ) -> u32;

        pub fn probe_run(
            nodes: u64,
            links_count: u64,
            events_count: u64,
            threshold: u64,
            cap: u64,
            links: *const u8,
            links_len: usize,
            events: *const u64,
            events_len: usize,
            lower: *mut u64,
            lower_len: usize,
            upper: *mut u64,
            upper_len: usize,
            result: *mut u64,
            result_len: usize,
        ) -> u32;

        pub fn probe_pair(
            nodes: u64,
            links_count: u64,
            events_count: u64,
            threshold: u64,
            cap: u64,
            links: *const u8,
            links_len: usize,
            events: *const u64,
            events_len: usize,
            v: u64,
            w: u64,
            result: *mut u64,
            result_len: usize,
        ) -> u32;

        pub fn probe_run_plan(
            plan: *const u8,
            plan_len: usize,
            lower: *mut u64,
            lower_len: usize,
            upper: *mut u64,
            upper_len: usize,
            result: *mut u64,
            result_len: usize,
        ) -> u32;

        pub fn probe_copy_plan(
            plan: *const u8,
            plan_len: usize,
            out: *mut u8,
            out_len: usize,
            size: *mut u64,
            size_len: usize,
        ) -> u32;
    }
}

/// Calls a function with a plan's counts first, then these of its other numbers, its lists and what follows.
macro_rules! with_numbers {
    ([$($number:ident),*], $call:expr, $lent:expr $(, $more:expr)* $(,)?) => {{
        let lent = $lent;
        let header = lent.header;
        // Safety: every pointer comes with the length of its slice, and no two slices overlap.
        unsafe {
            $call(
                header.nodes,
                header.links,
                header.events,
                $(header.$number,)*
                lent.links.as_ptr(),
                lent.links.len(),
                lent.events.as_ptr(),
                lent.events.len(),
                $($more),*
            )
        }
    }};
}
pub(crate) use with_numbers;

/// Calls a function with a plan's five numbers and its lists first, then what follows.
macro_rules! with_lists {
    ($($argument:tt)*) => {
        $crate::probe::with_numbers!([threshold, cap], $($argument)*)
    };
}
pub(crate) use with_lists;

/// The check of a file.
pub fn check(plan: &[u8]) -> u32 {
    // Safety: the pointer comes with the length of its slice.
    unsafe { raw::probe_check(plan.as_ptr(), plan.len()) }
}

/// The reader; the numbers are nodes, links, events, threshold, cap.
pub fn read(plan: &[u8], links: &mut [u8], events: &mut [u64]) -> (u32, [u64; 5]) {
    let mut numbers = [UNSET; 5];
    // Safety: every pointer comes with the length of its slice, and no two slices overlap.
    let refusal = unsafe {
        raw::probe_read(
            plan.as_ptr(),
            plan.len(),
            numbers.as_mut_ptr(),
            numbers.len(),
            links.as_mut_ptr(),
            links.len(),
            events.as_mut_ptr(),
            events.len(),
        )
    };
    (refusal, numbers)
}

/// The writer; the number is the size of what it laid down.
pub fn write(lent: &Lent, out: &mut [u8]) -> (u32, u64) {
    let mut size = [UNSET];
    let refusal = with_lists!(
        raw::probe_write,
        lent,
        out.as_mut_ptr(),
        out.len(),
        size.as_mut_ptr(),
        size.len(),
    );
    (refusal, size[0])
}

/// The run; the numbers are the examined count, complete and E.
pub fn run(lent: &Lent, lower: &mut [u64], upper: &mut [u64]) -> (u32, [u64; 3]) {
    let mut result = [UNSET; 3];
    let refusal = with_lists!(
        raw::probe_run,
        lent,
        lower.as_mut_ptr(),
        lower.len(),
        upper.as_mut_ptr(),
        upper.len(),
        result.as_mut_ptr(),
        result.len(),
    );
    (refusal, result)
}

/// The bounds of one pair; the numbers are lower and upper.
pub fn pair(lent: &Lent, v: u64, w: u64) -> (u32, [u64; 2]) {
    let mut result = [UNSET; 2];
    let refusal = with_lists!(
        raw::probe_pair,
        lent,
        v,
        w,
        result.as_mut_ptr(),
        result.len(),
    );
    (refusal, result)
}

/// The run on a plan file by way of records; the numbers are the examined count, complete and E.
pub fn run_plan(plan: &[u8], lower: &mut [u64], upper: &mut [u64]) -> (u32, [u64; 3]) {
    let mut result = [UNSET; 3];
    // Safety: every pointer comes with the length of its slice, and no two slices overlap.
    let refusal = unsafe {
        raw::probe_run_plan(
            plan.as_ptr(),
            plan.len(),
            lower.as_mut_ptr(),
            lower.len(),
            upper.as_mut_ptr(),
            upper.len(),
            result.as_mut_ptr(),
            result.len(),
        )
    };
    (refusal, result)
}

/// The copy of a plan file by way of records; the number is the size of what it laid down.
pub fn copy_plan(plan: &[u8], out: &mut [u8]) -> (u32, u64) {
    let mut size = [UNSET];
    // Safety: every pointer comes with the length of its slice, and no two slices overlap.
    let refusal = unsafe {
        raw::probe_copy_plan(
            plan.as_ptr(),
            plan.len(),
            out.as_mut_ptr(),
            out.len(),
            size.as_mut_ptr(),
            size.len(),
        )
    };
    (refusal, size[0])
}
