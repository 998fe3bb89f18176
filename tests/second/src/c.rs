//! The judge, burst list and schedule writer in C next door. Their answers are packed
//! numbers.

extern "C" {
    fn c_judge(capture: *const u8, len: usize) -> u64;
    fn c_cells(capture: *const u8, len: usize, out: *mut u32, out_len: usize) -> u64;
    fn c_schedule(
        settings: *const u32,
        settings_len: usize,
        requests: *const u32,
        requests_len: usize,
        policy: u32,
        out: *mut u8,
        out_len: usize,
    ) -> u64;
}

// The pointers and lengths below are always those of one slice, which is all that the
// functions ask for.

pub fn judge(capture: &[u8]) -> u64 {
    unsafe { c_judge(capture.as_ptr(), capture.len()) }
}

pub fn cells(capture: &[u8], out: &mut [u32]) -> u64 {
    unsafe { c_cells(capture.as_ptr(), capture.len(), out.as_mut_ptr(), out.len()) }
}

pub fn schedule(settings: &[u32], requests: &[u32], policy: u32, out: &mut [u8]) -> u64 {
    unsafe {
        c_schedule(
            settings.as_ptr(),
            settings.len(),
            requests.as_ptr(),
            requests.len(),
            policy,
            out.as_mut_ptr(),
            out.len(),
        )
    }
}
