//! The library's entries as they are measured: on lists of doubles, which on this machine are byte lists as they stand. Each call must be answered.

use crate::inputs::Given;

#[link(name = "malikoza", kind = "static")]
extern "C" {
    fn malikoza_sqrt(x: u64) -> u64;
    fn malikoza_fma(x: u64, y: u64, z: u64) -> u64;
    fn malikoza_hypot(x: u64, y: u64) -> u64;
    fn malikoza_recover(
        a_prev: u64, prev_lower: u64, prev_upper: u64, prev_cap: u64, curr_lower: u64, curr_upper: u64, curr_cap: u64,
        feas_tol: u64, a_cmp_abs_tol: u64, a_cmp_rel_tol: u64, rows: *const u8, rows_len: usize, speed: *mut u64,
        worst_normalized: *mut u64, worst_raw: *mut u64, tried: *mut u64,
    ) -> u64;
    fn malikoza_walk_start(
        feas_tol: u64, a_cmp_abs_tol: u64, a_cmp_rel_tol: u64, start_speed: u64, lower: u64, upper: u64, cap: u64,
        walk: *mut [u64; 8],
    );
    fn malikoza_walk_step(
        walk: *mut [u64; 8], lower: u64, upper: u64, cap: u64, rows: *const u8, rows_len: usize, speed: *mut u64,
        worst_normalized: *mut u64, worst_raw: *mut u64, tried: *mut u64,
    ) -> u64;
    fn malikoza_a_to_b(s: *const u8, s_len: usize, a: *const u8, a_len: usize, out: *mut u8, out_len: usize) -> u64;
    fn malikoza_s_to_t(
        s: *const u8, s_len: usize, a: *const u8, a_len: usize, t0: u64, out: *mut u8, out_len: usize,
    ) -> u64;
    fn malikoza_t_to_s_list(
        s: *const u8, s_len: usize, a: *const u8, a_len: usize, t: *const u8, t_len: usize, samples: *const u8,
        samples_len: usize, out: *mut u8, out_len: usize, before: *mut u64, inside: *mut u64, past: *mut u64,
        written: *mut u64,
    ) -> u64;
    fn malikoza_t_to_s_grid(
        s: *const u8, s_len: usize, a: *const u8, a_len: usize, t: *const u8, t_len: usize, t0: u64, dt: u64,
        with_final: u8, out: *mut u8, out_len: usize, before: *mut u64, inside: *mut u64, past: *mut u64,
        written: *mut u64,
    ) -> u64;
    fn malikoza_cut_file_section(file: *const u8, file_len: usize, kind: u64, start: *mut u64, length: *mut u64)
        -> u64;
}

fn bytes(list: &[f64]) -> (*const u8, usize) {
    (list.as_ptr().cast(), std::mem::size_of_val(list))
}

fn room(list: &mut [f64]) -> (*mut u8, usize) {
    (list.as_mut_ptr().cast(), std::mem::size_of_val(list))
}

pub fn a_to_b(g: &mut Given) {
    let ((s, s_len), (a, a_len), (out, out_len)) = (bytes(&g.s), bytes(&g.a), room(&mut g.out));
    // SAFETY: each pointer stands with the length in bytes of what is behind it, here and below.
    assert_eq!(unsafe { malikoza_a_to_b(s, s_len, a, a_len, out, out_len) }, 0);
}

pub fn s_to_t(g: &mut Given) {
    let ((s, s_len), (a, a_len), (out, out_len)) = (bytes(&g.s), bytes(&g.a), room(&mut g.out));
    // SAFETY: as above.
    assert_eq!(unsafe { malikoza_s_to_t(s, s_len, a, a_len, 0, out, out_len) }, 0);
}

pub fn list(g: &mut Given) {
    let ((s, s_len), (a, a_len), (t, t_len), (x, x_len)) = (bytes(&g.s), bytes(&g.a), bytes(&g.t), bytes(&g.samples));
    let ((out, out_len), mut c) = (room(&mut g.out), [0; 4]);
    let [before, inside, past, written] = &mut c;
    // SAFETY: as above.
    let number = unsafe {
        malikoza_t_to_s_list(s, s_len, a, a_len, t, t_len, x, x_len, out, out_len, before, inside, past, written)
    };
    assert_eq!((number, c[3]), (0, g.samples.len() as u64));
}

/// As many samples as the list has, and the final station.
pub fn grid(g: &mut Given) {
    let ((s, s_len), (a, a_len), (t, t_len)) = (bytes(&g.s), bytes(&g.a), bytes(&g.t));
    let ((out, out_len), mut c) = (room(&mut g.out), [0; 4]);
    let [before, inside, past, written] = &mut c;
    // SAFETY: as above.
    let number = unsafe {
        malikoza_t_to_s_grid(
            s,
            s_len,
            a,
            a_len,
            t,
            t_len,
            0,
            g.step.to_bits(),
            1,
            out,
            out_len,
            before,
            inside,
            past,
            written,
        )
    };
    assert_eq!((number, c[3]), (0, g.samples.len() as u64 + 1));
}

/// a_prev 1, previous [0, 4] cap 9, current [0, 4] cap 3, as document 01's cases have it. The answer is the number of candidates.
pub fn recover(rows: &[f64]) -> u64 {
    let [zero, one, three, four, nine] = [0.0, 1.0, 3.0, 4.0, 9.0].map(f64::to_bits);
    let ((list, len), mut c) = (bytes(rows), [0; 4]);
    let [speed, normalized, raw, tried] = &mut c;
    // SAFETY: as above.
    let number = unsafe {
        malikoza_recover(
            one, zero, four, nine, zero, four, three, zero, zero, zero, list, len, speed, normalized, raw, tried,
        )
    };
    assert_eq!(number, 0);
    c[3]
}

/// A walk of so many stations, each as that request's current one, with no rows.
pub fn walk(stations: usize) {
    let [zero, one, three, four, nine] = [0.0, 1.0, 3.0, 4.0, 9.0].map(f64::to_bits);
    let ((list, len), mut walk, mut c) = (bytes(&[]), [0; 8], [0; 4]);
    let [speed, normalized, raw, tried] = &mut c;
    // SAFETY: as above, and the walk is eight words.
    unsafe { malikoza_walk_start(zero, zero, zero, one, zero, four, nine, &raw mut walk) };
    for _ in 1..stations {
        // SAFETY: as above.
        let number =
            unsafe { malikoza_walk_step(&raw mut walk, zero, four, three, list, len, speed, normalized, raw, tried) };
        assert_eq!(number, 0);
    }
    assert_eq!(walk[7], stations as u64);
}

/// The length of the payload.
pub fn section(file: &[u8], kind: u64) -> u64 {
    let (mut start, mut length) = (0, 0);
    // SAFETY: as above.
    let number = unsafe { malikoza_cut_file_section(file.as_ptr(), file.len(), kind, &raw mut start, &raw mut length) };
    assert_eq!(number, 0);
    length
}

#[inline]
pub fn sqrt(x: f64) -> u64 {
    // SAFETY: the leaves take and return numbers only.
    unsafe { malikoza_sqrt(x.to_bits()) }
}

#[inline]
pub fn fma(x: f64, y: f64, z: f64) -> u64 {
    // SAFETY: as above.
    unsafe { malikoza_fma(x.to_bits(), y.to_bits(), z.to_bits()) }
}

#[inline]
pub fn hypot(x: f64, y: f64) -> u64 {
    // SAFETY: as above.
    unsafe { malikoza_hypot(x.to_bits(), y.to_bits()) }
}
