//! The operations that are measured, each by the original and by the library.

use crate::inputs::{self, Given, ROWS, SAMPLES, STATIONS};
use crate::library;
use crate::original::completed::{InterpolationMode, ReachSet2Options};
use crate::original::{interpolation, topp2_ra};
use std::cell::RefCell;
use std::hint::black_box;

#[derive(Clone, Copy)]
pub enum Side {
    Original,
    Library,
}

impl Side {
    pub fn name(self) -> &'static str {
        match self {
            Side::Original => "original",
            Side::Library => "library",
        }
    }

    pub fn named(name: &str) -> Side {
        match name {
            "original" => Side::Original,
            _ => Side::Library,
        }
    }
}

/// An operation, and what one unit of its work is.
pub struct Work {
    pub name: &'static str,
    pub unit: &'static str,
    size: u64,
    run: fn(Side, usize),
}

impl Work {
    pub const ALL: [Work; 10] = [
        Work { name: "a to b", unit: "station", size: STATIONS as u64, run: a_to_b },
        Work { name: "s to t", unit: "station", size: STATIONS as u64, run: s_to_t },
        Work { name: "list", unit: "sample", size: SAMPLES as u64, run: list },
        Work { name: "grid", unit: "sample", size: SAMPLES as u64, run: grid },
        Work { name: "recovery that searches", unit: "row and candidate", size: ROWS as u64, run: search },
        Work { name: "recovery whose cap passes", unit: "row", size: ROWS as u64, run: cap },
        Work { name: "walk without rows", unit: "station", size: STATIONS as u64, run: walk },
        Work { name: "sqrt", unit: "call", size: 4096, run: sqrt },
        Work { name: "fma", unit: "call", size: 4096, run: fma },
        Work { name: "hypot", unit: "call", size: 4096, run: hypot },
    ];

    /// The loop around a leaf's calls, with nothing in it.
    pub const LOOP: Work = Work { name: "nothing", unit: "turn of a loop", size: 4096, run: nothing };

    /// The units of work at this share of the whole size.
    pub fn units(&self, share: u64) -> u64 {
        let candidates = if self.unit == "row and candidate" { tried((self.size / share) as usize) } else { 1 };
        self.size / share * candidates
    }

    pub fn turn(&self, side: Side, share: u64) {
        (self.run)(side, (self.size / share) as usize);
    }
}

thread_local! {
    /// Made once, for the turns under the counter to be alike.
    static GIVEN: RefCell<Option<Given>> = const { RefCell::new(None) };
}

fn with_given(stations: usize, samples: usize, work: impl FnOnce(&mut Given)) {
    GIVEN.with(|given| {
        let mut given = given.borrow_mut();
        let fits = given.as_ref().is_some_and(|g| g.s.len() == stations && g.samples.len() == samples);
        if !fits {
            *given = Some(Given::new(stations, samples));
        }
        work(given.as_mut().expect("what was just made"));
    });
}

fn a_to_b(side: Side, n: usize) {
    with_given(n, 1, |g| match side {
        Side::Original => drop(black_box(interpolation::a_to_b_topp2(&g.s, &g.a))),
        Side::Library => library::a_to_b(g),
    });
}

fn s_to_t(side: Side, n: usize) {
    with_given(n, 1, |g| match side {
        Side::Original => drop(black_box(interpolation::s_to_t_topp2(&g.s, &g.a, 0.0))),
        Side::Library => library::s_to_t(g),
    });
}

fn list(side: Side, n: usize) {
    with_given(n * STATIONS / SAMPLES, n, |g| match side {
        Side::Original => drop(black_box(interpolation::t_to_s_topp2(
            &g.s,
            &g.a,
            &g.t,
            InterpolationMode::NonUniformTimeGrid(&g.samples),
        ))),
        Side::Library => library::list(g),
    });
}

fn grid(side: Side, n: usize) {
    with_given(n * STATIONS / SAMPLES, n, |g| match side {
        Side::Original => drop(black_box(interpolation::t_to_s_topp2(
            &g.s,
            &g.a,
            &g.t,
            InterpolationMode::UniformTimeGrid(0.0, g.step, true),
        ))),
        Side::Library => library::grid(g),
    });
}

const NO_TOLERANCE: ReachSet2Options = ReachSet2Options { lp_feas_tol: 0.0, a_cmp_abs_tol: 0.0, a_cmp_rel_tol: 0.0 };

/// The same request as the library's.
fn recover(side: Side, rows: &[(f64, f64, f64)], flat: &[f64]) {
    match side {
        Side::Original => {
            black_box(topp2_ra::way_in(rows, 1.0, (0.0, 4.0), (0.0, 4.0), 9.0, 3.0, &NO_TOLERANCE)).expect("a speed");
        }
        Side::Library => {
            library::recover(flat);
        }
    }
}

/// The candidates of a recovery that searches.
fn tried(rows: usize) -> u64 {
    library::recover(&inputs::flat(&inputs::searching(rows)))
}

/// The rows of a recovery, as a list of triples and flat.
type Rows = (Vec<(f64, f64, f64)>, Vec<f64>);

thread_local! {
    static SEARCHING: RefCell<Rows> = const { RefCell::new((Vec::new(), Vec::new())) };
    static PASSING: RefCell<Rows> = const { RefCell::new((Vec::new(), Vec::new())) };
}

fn with_rows(kept: &RefCell<Rows>, make: fn(usize) -> Vec<(f64, f64, f64)>, n: usize, side: Side) {
    let mut kept = kept.borrow_mut();
    if kept.0.len() != n {
        let rows = make(n);
        *kept = (rows.clone(), inputs::flat(&rows));
    }
    recover(side, &kept.0, &kept.1);
}

fn search(side: Side, n: usize) {
    SEARCHING.with(|kept| with_rows(kept, inputs::searching, n, side));
}

fn cap(side: Side, n: usize) {
    PASSING.with(|kept| with_rows(kept, inputs::passing, n, side));
}

/// What every step pays: the original is called stage by stage, with the speed that it answered last.
fn walk(side: Side, n: usize) {
    let step = |a: f64| topp2_ra::way_in(&[], a, (0.0, 4.0), (0.0, 4.0), 9.0, 3.0, &NO_TOLERANCE).expect("a speed").0;
    match side {
        Side::Original => drop(black_box((1..n).fold(1.0, |a, _| step(black_box(a))))),
        Side::Library => library::walk(n),
    }
}

fn nothing(_: Side, n: usize) {
    leaf(n, |x, _| x.to_bits());
}

/// So many calls of a leaf on common doubles.
fn leaf(n: usize, call: impl Fn(f64, f64) -> u64) {
    for k in 0..n {
        black_box(call(1.0 + k as f64 / 64.0, 3.0 - k as f64 / 4096.0));
    }
}

fn sqrt(side: Side, n: usize) {
    match side {
        Side::Original => leaf(n, |x, _| x.sqrt().to_bits()),
        Side::Library => leaf(n, |x, _| library::sqrt(x)),
    }
}

fn fma(side: Side, n: usize) {
    match side {
        Side::Original => leaf(n, |x, y| x.mul_add(y, x).to_bits()),
        Side::Library => leaf(n, |x, y| library::fma(x, y, x)),
    }
}

fn hypot(side: Side, n: usize) {
    match side {
        Side::Original => leaf(n, |x, y| x.hypot(y).to_bits()),
        Side::Library => leaf(n, |x, y| library::hypot(x, y)),
    }
}
