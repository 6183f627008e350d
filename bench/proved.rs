//! The proved machine, behind the one function of the crate `foreign_c`.

unsafe extern "C" {
    /// A slice passes as its pointer and its length.
    fn jelpuma_run_object(
        object: *const u8,
        object_len: usize,
        words: *const i32,
        words_len: usize,
        data: *mut i32,
        data_len: usize,
        heap: *mut i32,
        heap_len: usize,
        call: *mut i32,
        call_len: usize,
        operand: *mut i32,
        operand_len: usize,
        out: *mut u8,
        out_len: usize,
        budget: u64,
        report: *mut u64,
        report_len: usize,
    ) -> u32;
}

/// run_object does what `plain::run_object` does, by the proved machine.
#[allow(clippy::too_many_arguments)]
pub fn run_object(
    object: &[u8],
    words: &[i32],
    data: &mut [i32],
    heap: &mut [i32],
    call: &mut [i32],
    operand: &mut [i32],
    out: &mut [u8],
    budget: u64,
    report: &mut [u64; 5],
) -> u32 {
    // SAFETY: each pointer and length is of one slice, and the mutable slices are disjoint.
    unsafe {
        jelpuma_run_object(
            object.as_ptr(),
            object.len(),
            words.as_ptr(),
            words.len(),
            data.as_mut_ptr(),
            data.len(),
            heap.as_mut_ptr(),
            heap.len(),
            call.as_mut_ptr(),
            call.len(),
            operand.as_mut_ptr(),
            operand.len(),
            out.as_mut_ptr(),
            out.len(),
            budget,
            report.as_mut_ptr(),
            report.len(),
        )
    }
}
