//! The C calls, as crates/exports_c declares them. bench/ and compare/ read this file too.

// A slice is a pointer and a length, as bindings/c/ferruleslate.h has it.
extern "C" {
    pub fn ferruleslate_plan(job: *const u8, job_length: usize, out: *mut u8, out_length: usize) -> i64;
    pub fn ferruleslate_tree_bytes(
        job: *const u8,
        job_length: usize,
        out: *mut u8,
        out_length: usize,
    ) -> i64;
    pub fn ferruleslate_figures(
        job: *const u8,
        job_length: usize,
        allowed: *mut i32,
        farthest: *mut u32,
        total: *mut u32,
        worst: *mut u32,
    ) -> i64;
}
