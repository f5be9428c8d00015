//! The library, called through its C entries.

use crate::case::{Answer, Case, Entry, LENT};
use crate::walk_rules::Walk;

#[link(name = "malikoza", kind = "static")]
extern "C" {
    fn malikoza_sqrt(x: u64) -> u64;
    fn malikoza_fma(x: u64, y: u64, z: u64) -> u64;
    fn malikoza_hypot(x: u64, y: u64) -> u64;
    fn malikoza_next_down(x: u64) -> u64;
    fn malikoza_minimum(x: u64, y: u64) -> u64;
    fn malikoza_maximum(x: u64, y: u64) -> u64;
    fn malikoza_absolute(x: u64) -> u64;
    fn malikoza_whole_part(x: u64) -> u64;
    fn malikoza_recover(
        a_prev: u64, prev_lower: u64, prev_upper: u64, prev_cap: u64, curr_lower: u64, curr_upper: u64, curr_cap: u64,
        feas_tol: u64, a_cmp_abs_tol: u64, a_cmp_rel_tol: u64, rows: *const u8, rows_len: usize, speed: *mut u64,
        worst_normalized: *mut u64, worst_raw: *mut u64, tried: *mut u64,
    ) -> u64;
    fn malikoza_a_to_b(s: *const u8, s_len: usize, a: *const u8, a_len: usize, out: *mut u8, out_len: usize) -> u64;
    fn malikoza_s_to_t(
        s: *const u8, s_len: usize, a: *const u8, a_len: usize, t0: u64, out: *mut u8, out_len: usize,
    ) -> u64;
    fn malikoza_t_to_s_list(
        s: *const u8, s_len: usize, a: *const u8, a_len: usize, t: *const u8, t_len: usize, samples: *const u8,
        samples_len: usize, out: *mut u8, out_len: usize, before: *mut u64, inside: *mut u64, past: *mut u64,
        written: *mut u64,
    ) -> u64;
    fn malikoza_t_to_s_grid(
        s: *const u8, s_len: usize, a: *const u8, a_len: usize, t: *const u8, t_len: usize, t0: u64, dt: u64,
        with_final: u8, out: *mut u8, out_len: usize, before: *mut u64, inside: *mut u64, past: *mut u64,
        written: *mut u64,
    ) -> u64;
    fn malikoza_walk_start(
        feas_tol: u64, a_cmp_abs_tol: u64, a_cmp_rel_tol: u64, start_speed: u64, lower: u64, upper: u64, cap: u64,
        walk: *mut u64,
    );
    fn malikoza_walk_step(
        walk: *mut u64, lower: u64, upper: u64, cap: u64, rows: *const u8, rows_len: usize, speed: *mut u64,
        worst_normalized: *mut u64, worst_raw: *mut u64, tried: *mut u64,
    ) -> u64;
    fn malikoza_cut_file_section(file: *const u8, file_len: usize, kind: u64, start: *mut u64, length: *mut u64)
        -> u64;
}

/// The answer of a leaf; it looks at as many of the patterns as it has arguments.
pub fn leaf(entry: Entry, [x, y, z]: [u64; 3]) -> u64 {
    // SAFETY: the leaves take and return numbers only.
    unsafe {
        match entry {
            Entry::Sqrt => malikoza_sqrt(x),
            Entry::Fma => malikoza_fma(x, y, z),
            Entry::Hypot => malikoza_hypot(x, y),
            Entry::NextDown => malikoza_next_down(x),
            Entry::Minimum => malikoza_minimum(x, y),
            Entry::Maximum => malikoza_maximum(x, y),
            Entry::Absolute => malikoza_absolute(x),
            Entry::WholePart => malikoza_whole_part(x),
            _ => unreachable!("{entry:?} is no leaf"),
        }
    }
}

/// Bytes with a rim on either side, at an address that is no multiple of eight: byte lists need no alignment, and nothing beside them may change.
struct Rimmed {
    all: Vec<u8>,
    len: usize,
}

impl Rimmed {
    const BEFORE: usize = 5;
    const AFTER: usize = 16;
    const RIM: u8 = 0xa5;

    fn new(bytes: &[u8]) -> Rimmed {
        let mut all = Vec::with_capacity(Rimmed::BEFORE + bytes.len() + Rimmed::AFTER);
        all.extend([Rimmed::RIM; Rimmed::BEFORE]);
        all.extend(bytes);
        all.extend([Rimmed::RIM; Rimmed::AFTER]);
        Rimmed { all, len: bytes.len() }
    }

    fn inner(&self) -> &[u8] {
        &self.all[Rimmed::BEFORE..Rimmed::BEFORE + self.len]
    }

    fn pointer(&mut self) -> *mut u8 {
        self.all[Rimmed::BEFORE..].as_mut_ptr()
    }

    fn rim_is_whole(&self) -> bool {
        self.all[..Rimmed::BEFORE].iter().chain(&self.all[Rimmed::BEFORE + self.len..]).all(|b| *b == Rimmed::RIM)
    }
}

/// A walk's eight words with one on either side, which may not change.
struct RimmedWalk([u64; 10]);

impl RimmedWalk {
    const RIM: u64 = 0xa5a5_a5a5_a5a5_a5a5;

    fn new(walk: &Walk) -> RimmedWalk {
        let mut all = [RimmedWalk::RIM; 10];
        all[1..9].copy_from_slice(&walk.0);
        RimmedWalk(all)
    }

    fn inner(&self) -> Walk {
        Walk(std::array::from_fn(|i| self.0[1 + i]))
    }

    fn pointer(&mut self) -> *mut u64 {
        self.0.as_mut_ptr().wrapping_add(1)
    }

    fn rim_is_whole(&self) -> bool {
        [self.0[0], self.0[9]] == [RimmedWalk::RIM; 2]
    }
}

/// The call of an entry that is no leaf, with everything it leaves behind.
pub fn call(case: &Case) -> Answer {
    if Entry::WALK.contains(&case.entry) {
        return call_of_walk(case);
    }
    let mut given: Vec<Rimmed> = case.lists.iter().map(|list| Rimmed::new(list)).collect();
    let mut out = Rimmed::new(&case.output_before());
    let mut lent = LENT;
    let number = enter(case, &mut given, &mut out, &mut lent);
    let kept = given.iter().zip(&case.lists).all(|(list, before)| list.rim_is_whole() && list.inner() == before);
    Answer { number, lent, strayed: !kept || !out.rim_is_whole(), out: out.inner().to_vec() }
}

fn enter(case: &Case, given: &mut [Rimmed], out: &mut Rimmed, lent: &mut [u64; 4]) -> u64 {
    let n = &case.numbers;
    let mut list = |i: usize| (given[i].pointer().cast_const(), given[i].len);
    let (to, room) = (out.pointer(), out.len);
    let [w, x, y, z] = lent;
    // SAFETY: each pointer stands with the length of the bytes behind it, and the four numbers are four different ones.
    unsafe {
        match case.entry {
            Entry::Recover => {
                let (rows, rows_len) = list(0);
                malikoza_recover(n[0], n[1], n[2], n[3], n[4], n[5], n[6], n[7], n[8], n[9], rows, rows_len, w, x, y, z)
            }
            Entry::AToB => {
                let ((s, s_len), (a, a_len)) = (list(0), list(1));
                malikoza_a_to_b(s, s_len, a, a_len, to, room)
            }
            Entry::SToT => {
                let ((s, s_len), (a, a_len)) = (list(0), list(1));
                malikoza_s_to_t(s, s_len, a, a_len, n[0], to, room)
            }
            Entry::TToSList => {
                let ((s, s_len), (a, a_len), (t, t_len), (samples, samples_len)) = (list(0), list(1), list(2), list(3));
                malikoza_t_to_s_list(s, s_len, a, a_len, t, t_len, samples, samples_len, to, room, w, x, y, z)
            }
            Entry::TToSGrid => {
                let ((s, s_len), (a, a_len), (t, t_len)) = (list(0), list(1), list(2));
                malikoza_t_to_s_grid(s, s_len, a, a_len, t, t_len, n[0], n[1], n[2] as u8, to, room, w, x, y, z)
            }
            Entry::CutFileSection => {
                let (file, file_len) = list(0);
                malikoza_cut_file_section(file, file_len, n[0], w, x)
            }
            other => unreachable!("{other:?} is a leaf or a walk's"),
        }
    }
}

/// The call of a walk's start or step; the eight words it leaves behind are its output.
fn call_of_walk(case: &Case) -> Answer {
    let mut walk = RimmedWalk::new(&Walk::read(&case.output_before()));
    let rows = case.lists.first().map_or(&[][..], Vec::as_slice);
    let mut given = Rimmed::new(rows);
    let mut lent = LENT;
    let number = enter_walk(case, walk.pointer(), &mut given, &mut lent);
    let kept = given.rim_is_whole() && given.inner() == rows && walk.rim_is_whole();
    Answer { number, lent, strayed: !kept, out: walk.inner().bytes() }
}

fn enter_walk(case: &Case, walk: *mut u64, rows: &mut Rimmed, lent: &mut [u64; 4]) -> u64 {
    let n = &case.numbers;
    let [speed, normalized, raw, tried] = lent;
    // SAFETY: behind `walk` are eight words and behind the rows' pointer the bytes of its length, and the four numbers are four different ones.
    unsafe {
        if case.entry == Entry::WalkStart {
            malikoza_walk_start(n[0], n[1], n[2], n[3], n[4], n[5], n[6], walk);
            return 0;
        }
        malikoza_walk_step(walk, n[0], n[1], n[2], rows.pointer(), rows.len, speed, normalized, raw, tried)
    }
}
