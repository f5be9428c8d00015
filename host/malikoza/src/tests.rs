//! Each refusal once, by its number; what a call leaves; and walks.

use crate::entries::{self, list, list_mut};
use crate::{owned, recover, CutFile, Grid, Refusal, Request, Station, Tolerances, Walk, MAX_FILE, MAX_STATIONS};

const S: [f64; 3] = [0.0, 1.0, 3.0];
const A: [f64; 3] = [0.0, 4.0, 4.0];
const T: [f64; 3] = [10.0, 11.0, 12.0];
const INF: f64 = f64::INFINITY;

const REQUEST: Request = Request {
    a_prev: 1.0,
    prev: Station { lower: 0.0, upper: 4.0, cap: 9.0 },
    curr: Station { lower: 0.0, upper: 4.0, cap: 3.0 },
    feas_tol: 0.0,
    a_cmp_abs_tol: 0.0,
    a_cmp_rel_tol: 0.0,
};

/// The tolerances of the request above.
const TOLERANCES: Tolerances = Tolerances { feas_tol: 0.0, a_cmp_abs_tol: 0.0, a_cmp_rel_tol: 0.0 };

fn rows(rows: &[[f64; 3]]) -> Option<Refusal> {
    recover(&REQUEST, rows).err()
}

fn request(change: fn(&mut Request)) -> Option<Refusal> {
    let mut changed = REQUEST;
    change(&mut changed);
    recover(&changed, &[]).err()
}

fn times(s: &[f64], a: &[f64], t0: f64) -> Option<Refusal> {
    owned::s_to_t(s, a, t0).err()
}

fn samples(t: &[f64], samples: &[f64]) -> Option<Refusal> {
    owned::t_to_s_list(&S, &A, t, samples).err()
}

fn grid(dt: f64) -> Option<Refusal> {
    owned::t_to_s_grid(&S, &A, &T, 10.0, dt, true).err()
}

/// Only a C caller can lend part of a double.
fn cut_list() -> Option<Refusal> {
    let ((s, s_len), (a, a_len)) = (list(&S), list(&A));
    let mut out = [0.0; 3];
    let (out, out_len) = list_mut(&mut out);
    // SAFETY: the first list is lent without its last byte; the rest is as it is.
    crate::refusal::none(unsafe { entries::malikoza_a_to_b(s, s_len - 1, a, a_len, out, out_len) }).err()
}

fn file(bytes: &[u8]) -> Option<Refusal> {
    CutFile::new(bytes).err()
}

/// Only a C caller is told of a kind that the file lacks.
fn asked(bytes: &[u8], kind: u64) -> Option<Refusal> {
    let (mut start, mut length) = (7, 7);
    // SAFETY: the pointer and the length are one slice's, and the two numbers are our own.
    let number = unsafe {
        entries::malikoza_cut_file_section(bytes.as_ptr(), bytes.len(), kind, &raw mut start, &raw mut length)
    };
    assert_eq!((start, length), (7, 7));
    crate::refusal::none(number).err()
}

/// A walk of as many stations as there may be.
fn full_walk() -> Walk {
    let mut walk = Walk::start(TOLERANCES, REQUEST.a_prev, REQUEST.prev);
    for count in 1..MAX_STATIONS {
        assert_eq!(walk.count(), count);
        assert_eq!(walk.step(REQUEST.curr, &[]).map(|found| found.speed), Ok(3.0));
    }
    walk
}

#[test]
fn each_refusal_has_its_number() {
    let refused = [
        rows(&[[0.0; 3]; 257]),
        request(|q| q.feas_tol = -1.0),
        request(|q| q.a_prev = 5.0),
        request(|q| (q.curr.lower, q.curr.cap) = (2.0, 1.5)),
        rows(&[[0.0, 0.0, -1.0], [INF, 0.0, 0.0]]),
        rows(&[[0.0, 0.0, -1.0]]),
        rows(&[[1e-10, 0.0, 1e300]]),
        rows(&[[-1.0, 0.0, -5.0]]),
        rows(&[[1.0, -2.0, 1.0], [-1.0, 2.0, -1.0]]),
        cut_list(),
        times(&[0.0], &[4.0], 10.0),
        times(&S, &[0.0, 4.0], 10.0),
        times(&[0.0, 1.0, INF], &A, 10.0),
        times(&S, &[0.0, 4.0, INF], 10.0),
        times(&[0.0, 1.0, 1.0], &A, 10.0),
        times(&S, &A, INF),
        times(&S, &[0.0, 4.0, -4.0], 10.0),
        times(&S, &[4.0, 0.0, -0.0], 10.0),
        times(&[0.0, f64::MAX], &[4.0, 4.0], f64::MAX),
        samples(&[10.0, 11.0], &T),
        samples(&[10.0, 11.0, INF], &T),
        samples(&[10.0, 11.0, 11.0], &T),
        grid(INF),
        grid(0.0),
        samples(&T, &[]),
        samples(&T, &[INF]),
        samples(&T, &[11.0, 11.0]),
        grid(1e-5),
        crate::s_to_t(&S, &A, 10.0, &mut [0.0; 2]).err(),
        file(&[0; MAX_FILE + 1]),
        file(&[1, 128, 0]),
        file(&[0]),
        file(&[1, 1, 0, 0]),
        file(&[1, 2, 0]),
        file(&[1, 0]),
        asked(&[1, 1, 0], 2),
        full_walk().step(REQUEST.curr, &[]).err(),
    ];
    let numbers: Vec<u64> = refused.iter().map(|refusal| refusal.map_or(0, Refusal::number)).collect();
    assert_eq!(numbers, (1..=29).chain(40..=46).chain([61]).collect::<Vec<_>>());
    assert_eq!(refused.map(Option::unwrap), Refusal::ALL);
}

#[test]
fn a_refusal_writes_nothing() {
    let mut out = [7.0; 2];
    assert_eq!(crate::s_to_t(&S, &A, 10.0, &mut out), Err(Refusal::OutputTooShort));
    assert_eq!(out, [7.0; 2]);
}

#[test]
fn an_answer_writes_the_front_only() {
    let mut out = [7.0; 5];
    assert_eq!(crate::s_to_t(&S, &A, 10.0, &mut out), Ok(()));
    assert_eq!(out, [10.0, 11.0, 12.0, 7.0, 7.0]);
}

#[test]
fn a_list_of_its_own_is_as_long_as_what_is_written() {
    let grid = |t0, dt, with_final| owned::t_to_s_grid(&S, &A, &T, t0, dt, with_final).unwrap().0;
    assert_eq!(grid(10.0, 0.5, true).capacity(), 5);
    assert_eq!(grid(10.0, 0.5, false).capacity(), 4);
    assert_eq!(grid(13.0, 1.0, false).capacity(), 0);
    assert_eq!(owned::t_to_s_grid(&[], &[], &[], 0.0, 1.0, true), Err(Refusal::StationCount));
    assert_eq!(owned::t_to_s_grid(&S, &A, &T, 10.0, f64::NAN, true), Err(Refusal::StepNotFinite));
}

#[test]
fn a_number_that_is_not_known_is_told() {
    let unknown = crate::refusal::none(999).unwrap_err();
    assert_eq!((unknown, unknown.number()), (Refusal::Unknown(999), 999));
    assert_eq!(unknown.to_string(), "refusal 999: a number that this version does not know");
}

#[test]
fn a_full_walk_is_refused_before_all_else() {
    let full = full_walk();
    let mut walk = full;
    let nowhere = Station { lower: f64::NAN, upper: f64::NAN, cap: f64::NAN };
    assert_eq!(walk.count(), MAX_STATIONS);
    assert_eq!(walk.step(REQUEST.curr, &[[0.0; 3]; 257]), Err(Refusal::WalkFull));
    assert_eq!(walk.step(nowhere, &[]), Err(Refusal::WalkFull));
    assert_eq!(walk, full);
}

#[test]
fn the_first_step_tests_the_start() {
    let refused = |tolerances, speed| Walk::start(tolerances, speed, REQUEST.prev).step(REQUEST.curr, &[]).err();
    assert_eq!(refused(TOLERANCES, 4.0), None);
    assert_eq!(refused(TOLERANCES, 5.0), Some(Refusal::PreviousStation));
    assert_eq!(refused(Tolerances { a_cmp_abs_tol: 1.0, ..TOLERANCES }, 5.0), None);
    assert_eq!(refused(Tolerances { a_cmp_abs_tol: 0.2, ..TOLERANCES }, 5.0), Some(Refusal::PreviousStation));
    assert_eq!(refused(Tolerances { a_cmp_rel_tol: 0.2, ..TOLERANCES }, 5.0), None);
    assert_eq!(refused(Tolerances { feas_tol: -1.0, ..TOLERANCES }, 4.0), Some(Refusal::RequestNumber));
}

#[test]
fn a_nan_at_the_start_is_kept_as_one_pattern() {
    let started = |nan| {
        let tolerances = Tolerances { feas_tol: nan, a_cmp_abs_tol: nan, a_cmp_rel_tol: nan };
        Walk::start(tolerances, nan, Station { lower: nan, upper: nan, cap: nan })
    };
    let walk = started(f64::from_bits(0xFFF0_0000_0000_0001));
    assert_eq!(walk, started(f64::from_bits(0x7FF8_0000_0000_0000)));
    assert_eq!((walk.speed().to_bits(), walk.count()), (0x7FF8_0000_0000_0000, 1));
}

/// A section of each kind, with as many doubles as the kind says.
#[test]
fn a_cut_file_hands_back_what_it_holds() {
    let doubles = |n: u8| (1..=n).map(|i| f64::from(i) / 8.0).collect::<Vec<_>>();
    let bytes = |doubles: &[f64]| doubles.iter().flat_map(|x| x.to_le_bytes()).collect::<Vec<_>>();
    let list = |kind: u8| [vec![kind, 8 * kind + 1, kind], bytes(&doubles(kind))].concat();
    let grid = [vec![4, 17], bytes(&[0.5, -0.0]), vec![0]].concat();
    let whole = [list(1), list(2), list(3), grid.clone(), list(5)].concat();
    let file = CutFile::new(&whole).unwrap();
    for (kind, found) in [(1, file.stations()), (2, file.speeds()), (3, file.times()), (5, file.samples())] {
        let found = found.unwrap();
        assert_eq!((found.to_vec(), found.len()), (doubles(kind), usize::from(kind)));
        assert_eq!((found.as_bytes(), found.is_empty()), (&bytes(&doubles(kind))[..], false));
    }
    let Grid { t0, dt, with_final } = file.grid().unwrap();
    assert_eq!((t0, dt.to_bits(), with_final), (0.5, 1 << 63, false));
    let file = CutFile::new(&grid).unwrap();
    assert!(file.grid().is_some() && [file.stations(), file.speeds(), file.times(), file.samples()] == [None; 4]);
    assert!(CutFile::new(&[]).is_ok_and(|file| file.grid().is_none()));
    assert!(CutFile::new(&[2, 1, 0]).unwrap().speeds().unwrap().is_empty());
}

/// Steps that the cap, halvings and the projected end answer, and a refused one before each but the first.
#[test]
fn a_step_answers_as_recovery_does() {
    let Request { a_prev, prev, feas_tol, a_cmp_abs_tol, a_cmp_rel_tol, .. } = REQUEST;
    let mut walk = Walk::start(TOLERANCES, a_prev, prev);
    assert_eq!((walk.speed(), walk.station(), walk.count()), (a_prev, prev, 1));
    let steps: [(f64, &[[f64; 3]], _); 5] = [
        (0.7, &[], Ok(1)),
        (3.0, &[[0.0, 0.0, -1.0]], Err(Refusal::RowImpossible)),
        (3.0, &[[4.0 / 7.0, 100.0, 71.0]], Ok(58)),
        (f64::NAN, &[], Err(Refusal::RequestNumber)),
        (3.0, &[[1.0, 0.0, 2.0]], Ok(2)),
    ];
    for (cap, rows, tried) in steps {
        let (before, a_prev, prev) = (walk, walk.speed(), walk.station());
        let curr = Station { lower: 0.25, upper: 4.0, cap };
        let answer = walk.step(curr, rows);
        assert_eq!(answer, recover(&Request { a_prev, prev, curr, feas_tol, a_cmp_abs_tol, a_cmp_rel_tol }, rows));
        assert_eq!(answer.map(|found| found.tried), tried);
        match answer {
            Ok(found) => {
                let after = (walk.speed(), walk.station(), walk.count());
                assert_eq!(after, (found.speed, curr, before.count() + 1));
            }
            Err(_) => assert_eq!(walk, before),
        }
    }
}
