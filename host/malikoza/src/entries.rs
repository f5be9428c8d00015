//! The C entries, as include/malikoza.h declares them.

use crate::walk::Walk;

// SAFETY: these are the archive's entries with their own types. The leaves take and return numbers only, and are total.
// Each other entry reads as many bytes behind a pointer as the length after it says, writes only behind pointers to mut,
// and is total besides.
#[link(name = "malikoza", kind = "static")]
unsafe extern "C" {
    pub safe fn malikoza_sqrt(x: u64) -> u64;
    pub safe fn malikoza_fma(x: u64, y: u64, z: u64) -> u64;
    pub safe fn malikoza_hypot(x: u64, y: u64) -> u64;
    pub safe fn malikoza_next_down(x: u64) -> u64;
    pub safe fn malikoza_minimum(x: u64, y: u64) -> u64;
    pub safe fn malikoza_maximum(x: u64, y: u64) -> u64;
    pub safe fn malikoza_absolute(x: u64) -> u64;
    pub safe fn malikoza_whole_part(x: u64) -> u64;
    pub unsafe fn malikoza_recover(
        a_prev: u64, prev_lower: u64, prev_upper: u64, prev_cap: u64, curr_lower: u64, curr_upper: u64, curr_cap: u64,
        feas_tol: u64, a_cmp_abs_tol: u64, a_cmp_rel_tol: u64, rows: *const u8, rows_len: usize, speed: *mut u64,
        worst_normalized: *mut u64, worst_raw: *mut u64, tried: *mut u64,
    ) -> u64;
    pub unsafe fn malikoza_walk_start(
        feas_tol: u64, a_cmp_abs_tol: u64, a_cmp_rel_tol: u64, start_speed: u64, lower: u64, upper: u64, cap: u64,
        walk: *mut Walk,
    );
    pub unsafe fn malikoza_walk_step(
        walk: *mut Walk, lower: u64, upper: u64, cap: u64, rows: *const u8, rows_len: usize, speed: *mut u64,
        worst_normalized: *mut u64, worst_raw: *mut u64, tried: *mut u64,
    ) -> u64;
    pub unsafe fn malikoza_a_to_b(
        s: *const u8, s_len: usize, a: *const u8, a_len: usize, out: *mut u8, out_len: usize,
    ) -> u64;
    pub unsafe fn malikoza_s_to_t(
        s: *const u8, s_len: usize, a: *const u8, a_len: usize, t0: u64, out: *mut u8, out_len: usize,
    ) -> u64;
    pub unsafe fn malikoza_t_to_s_list(
        s: *const u8, s_len: usize, a: *const u8, a_len: usize, t: *const u8, t_len: usize, samples: *const u8,
        samples_len: usize, out: *mut u8, out_len: usize, before: *mut u64, inside: *mut u64, past: *mut u64,
        written: *mut u64,
    ) -> u64;
    pub unsafe fn malikoza_t_to_s_grid(
        s: *const u8, s_len: usize, a: *const u8, a_len: usize, t: *const u8, t_len: usize, t0: u64, dt: u64,
        with_final: u8, out: *mut u8, out_len: usize, before: *mut u64, inside: *mut u64, past: *mut u64,
        written: *mut u64,
    ) -> u64;
    pub unsafe fn malikoza_cut_file_section(
        file: *const u8, file_len: usize, kind: u64, start: *mut u64, length: *mut u64,
    ) -> u64;
}

/// Doubles as the byte list that an entry takes. Where the low byte comes first, a slice of doubles is one already.
pub fn list(doubles: &[f64]) -> (*const u8, usize) {
    (doubles.as_ptr().cast(), size_of_val(doubles))
}

/// Doubles as the byte list that an entry writes; any bytes there are doubles.
pub fn list_mut(doubles: &mut [f64]) -> (*mut u8, usize) {
    (doubles.as_mut_ptr().cast(), size_of_val(doubles))
}
