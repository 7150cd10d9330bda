//! The exported functions, one by one, with a slice where C has an address and a length.
//!
//! Each operation returns the refusal number, or 0, and leaves number, line and fields in
//! `results` as far as that reaches. Of Score and Place these have one more behind drift, the filled
//! steps, if [the job's text says so](crate::has_filled_steps).

/// What the archive exports. A slice's address is never null, its length counts elements, and
/// slices that are lent for writing overlap nothing: that is all the functions ask.
mod exported {
    extern "C" {
        pub fn refiner_read(
            job: *const u8,
            job_len: usize,
            results: *mut i32,
            results_len: usize,
        ) -> u32;

        pub fn refiner_score(
            job: *const u8,
            job_len: usize,
            placement: *const u8,
            placement_len: usize,
            results: *mut i32,
            results_len: usize,
        ) -> u32;

        pub fn refiner_fault(
            job: *const u8,
            job_len: usize,
            placement: *const u8,
            placement_len: usize,
            part: *mut u64,
            part_len: usize,
        ) -> u32;

        pub fn refiner_fault_line(
            job: *const u8,
            job_len: usize,
            placement: *const u8,
            placement_len: usize,
            output: *mut u8,
            output_len: usize,
            part: *mut u64,
            part_len: usize,
        ) -> u32;

        pub fn refiner_place(
            job: *const u8,
            job_len: usize,
            store: *mut u32,
            store_len: usize,
            output: *mut u8,
            output_len: usize,
            results: *mut i32,
            results_len: usize,
        ) -> u32;

        pub fn refiner_load(
            seed: u32,
            cells: u32,
            output: *mut u8,
            output_len: usize,
            results: *mut i32,
            results_len: usize,
        ) -> u32;

        pub fn refiner_reasons(
            job: *const u8,
            job_len: usize,
            placement: *const u8,
            placement_len: usize,
            output: *mut u8,
            output_len: usize,
            results: *mut i32,
            results_len: usize,
        ) -> u32;
    }
}

/// Read: number, line, cells.
pub fn read(job: &[u8], results: &mut [i32]) -> u32 {
    // SAFETY: each pair is the address and length of a live slice, and `results` is lent for
    // writing, so it overlaps nothing.
    unsafe { exported::refiner_read(job.as_ptr(), job.len(), results.as_mut_ptr(), results.len()) }
}

/// Score: number, line, rule, cell, steps, sites shifted, mirrored, changed, cost, drift, and of
/// some jobs filled steps.
pub fn score(job: &[u8], placement: &[u8], results: &mut [i32]) -> u32 {
    // SAFETY: as for `read`.
    unsafe {
        exported::refiner_score(
            job.as_ptr(),
            job.len(),
            placement.as_ptr(),
            placement.len(),
            results.as_mut_ptr(),
            results.len(),
        )
    }
}

/// Fault line: leaves in `part`, as far as it reaches, which text (0 the job, 1 the placement),
/// first byte and length. Returns Score's number.
pub fn fault(job: &[u8], placement: &[u8], part: &mut [u64]) -> u32 {
    // SAFETY: as for `read`; here `part` is lent for writing.
    unsafe {
        exported::refiner_fault(
            job.as_ptr(),
            job.len(),
            placement.as_ptr(),
            placement.len(),
            part.as_mut_ptr(),
            part.len(),
        )
    }
}

/// Fault line with the line itself: as `fault`, and its bytes go to the start of `output` as far as
/// that reaches.
pub fn fault_line(job: &[u8], placement: &[u8], output: &mut [u8], part: &mut [u64]) -> u32 {
    // SAFETY: as for `read`; here `output` and `part` are lent for writing.
    unsafe {
        exported::refiner_fault_line(
            job.as_ptr(),
            job.len(),
            placement.as_ptr(),
            placement.len(),
            output.as_mut_ptr(),
            output.len(),
            part.as_mut_ptr(),
            part.len(),
        )
    }
}

/// Place: number, line, steps, sites shifted, mirrored, changed, cost, drift, of some jobs filled
/// steps, and text length. The text goes to the start of `output`.
pub fn place(job: &[u8], store: &mut [u32], output: &mut [u8], results: &mut [i32]) -> u32 {
    // SAFETY: as for `read`; here `store` and `output` are lent for writing too.
    unsafe {
        exported::refiner_place(
            job.as_ptr(),
            job.len(),
            store.as_mut_ptr(),
            store.len(),
            output.as_mut_ptr(),
            output.len(),
            results.as_mut_ptr(),
            results.len(),
        )
    }
}

/// Load: number, line, text length. The text of the job goes to the start of `output`.
pub fn load(seed: u32, cells: u32, output: &mut [u8], results: &mut [i32]) -> u32 {
    // SAFETY: as for `read`; here `output` is lent for writing too.
    unsafe {
        exported::refiner_load(
            seed,
            cells,
            output.as_mut_ptr(),
            output.len(),
            results.as_mut_ptr(),
            results.len(),
        )
    }
}

/// Reasons: number, line, text length. The sentence goes to the start of `output`.
pub fn reasons(job: &[u8], placement: &[u8], output: &mut [u8], results: &mut [i32]) -> u32 {
    // SAFETY: as for `read`; here `output` is lent for writing too.
    unsafe {
        exported::refiner_reasons(
            job.as_ptr(),
            job.len(),
            placement.as_ptr(),
            placement.len(),
            output.as_mut_ptr(),
            output.len(),
            results.as_mut_ptr(),
            results.len(),
        )
    }
}
