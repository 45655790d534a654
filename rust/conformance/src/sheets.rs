//! The calls of libprobe.a on equipment sheets, declared as in `probe`. The counts are those of nodes, links and lines.

mod raw {
    extern "C" {
        pub fn probe_check_sheet(sheet: *const u8, sheet_len: usize) -> u32;

        pub fn probe_sheet(
            sheet: *const u8,
            sheet_len: usize,
            events: *mut u64,
            events_len: usize,
            counts: *mut u64,
            counts_len: usize,
        ) -> u32;

        pub fn probe_sheet_records(
            sheet: *const u8,
            sheet_len: usize,
            events: *mut u64,
            events_len: usize,
            counts: *mut u64,
            counts_len: usize,
        ) -> u32;
    }
}

/// The check of a sheet.
pub fn check(sheet: &[u8]) -> u32 {
    // Safety: the pointer comes with the length of its slice.
    unsafe { raw::probe_check_sheet(sheet.as_ptr(), sheet.len()) }
}

type Reader = unsafe extern "C" fn(*const u8, usize, *mut u64, usize, *mut u64, usize) -> u32;

fn read_by(reader: Reader, sheet: &[u8], events: &mut [u64], counts: &mut [u64]) -> u32 {
    let (to, room) = (events.as_mut_ptr(), events.len());
    let (numbers, most) = (counts.as_mut_ptr(), counts.len());
    // Safety: every pointer comes with the length of its slice, and no two slices overlap.
    unsafe { reader(sheet.as_ptr(), sheet.len(), to, room, numbers, most) }
}

/// The reader of a sheet; it gives the counts as far as their list has room.
pub fn read(sheet: &[u8], events: &mut [u64], counts: &mut [u64]) -> u32 {
    read_by(raw::probe_sheet, sheet, events, counts)
}

/// The reader of a sheet by way of a list of records.
pub fn read_records(sheet: &[u8], events: &mut [u64], counts: &mut [u64]) -> u32 {
    read_by(raw::probe_sheet_records, sheet, events, counts)
}
