//! What every run tries, whatever its seed: short inputs exhaustively, and the limits.

use crate::case::{Answer, Case, Entry};
use crate::file_edges;
use crate::files::asking;
use crate::profiles;
use crate::random;
use crate::requests;
use crate::walk_rules::{Walk, STATIONS};

const INF: f64 = f64::INFINITY;
const NAN: f64 = f64::NAN;
const LEAST: f64 = 5e-324;

/// A number read digit by digit, each with its own base: counting up runs through all choices.
pub struct Digits(u64);

impl Digits {
    fn one<T: Copy>(&mut self, of: &[T]) -> T {
        let base = of.len() as u64;
        let digit = self.0 % base;
        self.0 /= base;
        of[digit as usize]
    }

    fn list<T: Copy>(&mut self, of: &[T], n: usize) -> Vec<T> {
        (0..n).map(|_| self.one(of)).collect()
    }

    /// A list of one or two.
    fn one_or_two<T: Copy>(&mut self, of: &[T]) -> Vec<T> {
        let n = self.one(&[1, 2]);
        // a list of one leaves the second digit unread: it is read all the same, so that counting up ends
        let mut list = self.list(of, 2);
        list.truncate(n);
        list
    }
}

/// The ways to make short inputs. Each reads its choices from the digits.
pub const SHORT: [fn(&mut Digits) -> Case; 26] = [
    one_row,
    two_rows,
    three_rows,
    bounds_without_rows,
    tolerances,
    slopes_of_two,
    slopes_of_three,
    times_of_two,
    times_of_three,
    two_stations,
    three_stations,
    samples_of_three,
    grids_of_three,
    starts,
    steps_of_states,
    steps_with_one_row,
    steps_without_rows,
    steps_by_tolerances,
    files_of::<0>,
    files_of::<1>,
    files_of::<2>,
    files_of_few::<3>,
    files_of_few::<4>,
    files_of_few::<5>,
    files_of_six,
    files_of_nine,
];

/// Case i of one way, or none when all choices were had.
pub fn short(make: fn(&mut Digits) -> Case, i: u64) -> Option<Case> {
    let mut digits = Digits(i);
    let case = make(&mut digits);
    (digits.0 == 0).then_some(case)
}

/// Magnitudes for the leaves: zero, subnormals, powers of two at the ends of exponents and of their halves, 1 and its neighbours, whole numbers, the largest.
const MAGNITUDES: [u64; 24] = [
    0,
    1,
    2,
    3,
    (1 << 52) - 1,
    1 << 52,
    (1 << 52) + 1,
    2 << 52,
    (1023 - 537) << 52,
    (1023 - 512) << 52,
    (1023 - 54) << 52,
    (1023 << 52) - 1,
    1023 << 52,
    (1023 << 52) + 1,
    0x3ff6_a09e_667f_3bcd,
    0x4008_0000_0000_0000,
    (1023 + 53) << 52,
    (1023 + 64) << 52,
    (1023 + 511) << 52,
    (1023 + 512) << 52,
    random::INFINITY - 2,
    random::INFINITY - 1,
    random::INFINITY,
    random::NAN,
];

/// Choice i of a leaf's patterns, each a magnitude above with either sign; none when all were had.
pub fn short_leaf(leaf: Entry, i: u64) -> Option<[u64; 3]> {
    let mut digits = Digits(i);
    let mut patterns = [0; 3];
    for pattern in &mut patterns[..leaf.names().1.len()] {
        *pattern = digits.one(&MAGNITUDES) | digits.one(&[0, random::SIGN]);
    }
    (digits.0 == 0).then_some(patterns)
}

/// Document 01's own request: "a_prev 1, previous [0, 4] cap 9, current [0, 4] cap 3".
pub const REQUEST: [f64; 10] = [1.0, 0.0, 4.0, 9.0, 0.0, 4.0, 3.0, 0.0, 0.0, 0.0];

/// It, with a previous speed, a current interval and a feasibility tolerance to choose.
fn request(digits: &mut Digits) -> [f64; 10] {
    let mut numbers = REQUEST;
    numbers[0] = digits.one(&[1.0, 0.0]);
    (numbers[4], numbers[5]) = digits.one(&[(0.0, 4.0), (2.0, 2.0)]);
    numbers[7] = digits.one(&[0.0, 0.25, 1e-9]);
    numbers
}

fn rows(digits: &mut Digits, of: &[f64], n: usize) -> Vec<[f64; 3]> {
    (0..n).map(|_| std::array::from_fn(|_| digits.one(of))).collect()
}

fn one_row(digits: &mut Digits) -> Case {
    let rows = rows(digits, &[0.0, -0.0, 1.0, -1.0, 0.5, 3.0, LEAST, f64::MIN_POSITIVE, f64::MAX, 1e-200, INF, NAN], 1);
    requests::Draft { numbers: request(digits), rows }.case()
}

fn two_rows(digits: &mut Digits) -> Case {
    let rows = rows(digits, &[0.0, 1.0, -1.0, 2.5, INF], 2);
    requests::Draft { numbers: request(digits), rows }.case()
}

fn three_rows(digits: &mut Digits) -> Case {
    let rows = rows(digits, &[0.0, 1.0, -1.0], 3);
    requests::Draft { numbers: request(digits), rows }.case()
}

fn bounds_without_rows(digits: &mut Digits) -> Case {
    let mut numbers = REQUEST;
    for place in &mut numbers[..7] {
        *place = digits.one(&[1.0, 0.0, -1.0, 2.0, INF, NAN]);
    }
    requests::Draft { numbers, rows: vec![] }.case()
}

fn tolerances(digits: &mut Digits) -> Case {
    let mut numbers = REQUEST;
    for place in &mut numbers[7..] {
        *place = digits.one(&[0.0, -0.0, 0.25, -LEAST, LEAST, f64::MAX, INF, -INF, NAN]);
    }
    numbers[0] = digits.one(&[1.0, 5.0, -LEAST]);
    let rows = digits.one(&[[0.0, 0.0, 0.0], [1.0, 0.0, 2.0], [1.0, 1.0, f64::MAX]]);
    requests::Draft { numbers, rows: vec![rows] }.case()
}

/// One short, exact or one more.
fn spare(digits: &mut Digits) -> i64 {
    digits.one(&[0, -1, 1])
}

fn slopes_of_two(digits: &mut Digits) -> Case {
    let of = [0.0, -0.0, 1.0, -1.0, 1.0 + f64::EPSILON, LEAST, f64::MAX, INF, NAN];
    let (s, a) = (digits.list(&of, 2), digits.list(&of, 2));
    let mut draft = profiles::Draft::new(Entry::AToB, s, a, vec![]);
    draft.spare = spare(digits);
    draft.case()
}

fn slopes_of_three(digits: &mut Digits) -> Case {
    let of = [0.0, 1.0, 3.0, -1.0, NAN];
    let (s, a) = (digits.list(&of, 3), digits.list(&of, 3));
    let mut draft = profiles::Draft::new(Entry::AToB, s, a, vec![]);
    draft.spare = spare(digits);
    draft.case()
}

fn times_of_two(digits: &mut Digits) -> Case {
    let s = digits.list(&[0.0, -0.0, 1.0, 1.0 + f64::EPSILON, -f64::MAX, f64::MAX, INF, NAN], 2);
    let a = digits.list(&[0.0, -0.0, 1.0, 4.0, LEAST, -LEAST, f64::MAX, INF], 2);
    let mut draft = profiles::Draft::new(Entry::SToT, s, a, vec![]);
    draft.t0 = digits.one(&[0.0, 10.0, f64::MAX, NAN]);
    draft.spare = spare(digits);
    draft.case()
}

fn times_of_three(digits: &mut Digits) -> Case {
    let s = digits.list(&[0.0, 1.0, 3.0, f64::MAX], 3);
    let a = digits.list(&[0.0, 1.0, 4.0, LEAST, -1.0], 3);
    let mut draft = profiles::Draft::new(Entry::SToT, s, a, vec![]);
    draft.t0 = digits.one(&[0.0, 10.0, f64::MAX]);
    draft.spare = spare(digits);
    draft.case()
}

/// All lists of two over a small set, for both ways of sampling.
fn two_stations(digits: &mut Digits) -> Case {
    let (s, t) = (digits.list(&[0.0, 1.0, NAN], 2), digits.list(&[10.0, 12.0, INF], 2));
    let a = digits.list(&[0.0, 4.0, -1.0, NAN], 2);
    let mut draft = profiles::Draft::new(digits.one(&[Entry::TToSList, Entry::TToSGrid]), s, a, t);
    draft.samples = digits.one_or_two(&[10.0, 11.0, NAN]);
    draft.t0 = draft.samples[0];
    draft.dt = draft.samples.get(1).map_or(0.5, |x| x - 10.0);
    draft.with_final = digits.one(&[0, 1]);
    draft.spare = digits.one(&[0, -1]);
    draft.case()
}

/// All lists of three over a small set, for both ways of sampling.
fn three_stations(digits: &mut Digits) -> Case {
    let (s, a, t) =
        (digits.list(&[0.0, 1.0, 3.0], 3), digits.list(&[0.0, 4.0, 1.0], 3), digits.list(&[10.0, 11.0, 12.0], 3));
    let mut draft = profiles::Draft::new(digits.one(&[Entry::TToSList, Entry::TToSGrid]), s, a, t);
    draft.samples = vec![9.0, 10.0, 10.5, 11.0, 11.5, 12.0, 12.5];
    (draft.t0, draft.dt, draft.with_final) = (10.0, 0.75, 1);
    draft.case()
}

/// Three stations in order, their squared speeds and times.
fn three_in_order(digits: &mut Digits, entry: Entry) -> profiles::Draft {
    let s = digits.one(&[[0.0, 1.0, 3.0], [1.0, 1.0 + f64::EPSILON, 2.0]]);
    let t = digits.one(&[[10.0, 11.0, 12.0], [10.0, 10.0 + 8.0 * f64::EPSILON, 12.0], [10.0, 11.5, f64::MAX]]);
    profiles::Draft::new(entry, s.to_vec(), digits.list(&[0.0, 4.0, 1.0, LEAST, f64::MAX], 3), t.to_vec())
}

fn samples_of_three(digits: &mut Digits) -> Case {
    let mut draft = three_in_order(digits, Entry::TToSList);
    draft.samples = digits.one_or_two(&[9.0, 10.0, 10.0 + 8.0 * f64::EPSILON, 10.5, 11.0, 11.5, 12.0, 12.5]);
    draft.case()
}

fn grids_of_three(digits: &mut Digits) -> Case {
    let mut draft = three_in_order(digits, Entry::TToSGrid);
    draft.t0 = digits.one(&[8.0, 10.0, 10.75, 12.0, 13.0, -f64::MAX]);
    draft.dt = digits.one(&[0.5, 1.0, 3.0, 1e300, -1.0]);
    draft.with_final = digits.one(&[0, 1]);
    draft.case()
}

/// Two NaN that are not 7FF8000000000000: the least signaling one, and all bits set.
const ODD: [u64; 2] = [random::INFINITY + 1, !0];

fn starts(digits: &mut Digits) -> Case {
    let [odd, other] = ODD;
    let mut walk = Walk([0; 8]);
    for word in &mut walk.0[..7] {
        *word = digits.one(&[1f64.to_bits(), random::SIGN, random::SIGN | random::INFINITY, odd, other]);
    }
    walk.as_start()
}

/// Counts of stations at and beside the limit, and what no walk comes to.
const COUNTS: [u64; 7] = [1, 0, STATIONS - 2, STATIONS - 1, STATIONS, STATIONS + 1, u64::MAX];

/// Steps from odd states, which a refusal leaves as they are; of rows there are none, one, or bytes that make none.
fn steps_of_states(digits: &mut Digits) -> Case {
    let rows = digits.one(&[0, 24, 8, 7]);
    let mut request = requests::Draft { numbers: REQUEST, rows: vec![[0.0; 3]] }.case();
    request.lists[0].truncate(rows);
    let mut walk = Walk::up_to(&request, digits.one(&COUNTS));
    for place in 0..7 {
        walk.0[place] = digits.one(&[walk.0[place], ODD[0], ODD[1]]);
    }
    walk.step_to(&request)
}

/// A request as a step.
fn step(request: &Case, digits: &mut Digits) -> Case {
    Walk::up_to(request, digits.one(&[1, STATIONS - 1, STATIONS])).step_to(request)
}

fn steps_with_one_row(digits: &mut Digits) -> Case {
    step(&one_row(digits), digits)
}

fn steps_without_rows(digits: &mut Digits) -> Case {
    let request = bounds_without_rows(digits);
    Walk::up_to(&request, 1).step_to(&request)
}

fn steps_by_tolerances(digits: &mut Digits) -> Case {
    step(&tolerances(digits), digits)
}

/// All files of so many bytes.
fn files_of<const N: usize>(digits: &mut Digits) -> Case {
    let every: [u8; 256] = std::array::from_fn(|byte| byte as u8);
    asking(digits.one(&[1, 0, 5]), digits.list(&every, N))
}

/// All files of so many bytes over a few that mean something: kinds and numbers beside them, lengths of one pattern and of a grid, groups that go on.
fn files_of_few<const N: usize>(digits: &mut Digits) -> Case {
    asking(digits.one(&[1, 2]), digits.list(&[0, 1, 2, 3, 4, 5, 6, 9, 17, 0x80, 0x81, 0xff], N))
}

/// Two sections of three bytes among them.
fn files_of_six(digits: &mut Digits) -> Case {
    asking(digits.one(&[1, 2]), digits.list(&[0, 1, 2, 3, 5, 6, 0x80], 6))
}

/// Three sections of three bytes among them.
fn files_of_nine(digits: &mut Digits) -> Case {
    asking(2, digits.list(&[0, 1, 2, 3], 9))
}

pub fn start_of_the_longest_walk() -> Case {
    Walk::up_to(&requests::Draft { numbers: REQUEST, rows: vec![] }.case(), 1).as_start()
}

/// The next step after what the last call left behind: each is accepted until the walk is full, and then come those to be refused.
pub fn step_of_the_longest_walk(after: &Answer, once_full: &mut impl Iterator<Item = Case>) -> Option<Case> {
    let walk = Walk::read(&after.out);
    if walk.count() >= STATIONS {
        return Some(walk.step_to(&once_full.next()?));
    }
    assert_eq!(after.number, 0, "a step of the longest walk");
    let (i, mut numbers) = (walk.count() as f64, REQUEST);
    numbers[6] = 1.0 + 0.25 * (i % 9.0);
    // no faster than 1 and half of the speed before, and every fifth station without rows
    let rows = if i % 5.0 == 0.0 { vec![] } else { vec![[2.0, -1.0, 2.0], [0.0; 3]] };
    Some(walk.step_to(&requests::Draft { numbers, rows }.case()))
}

/// What a full walk refuses with 61, "before 1": a good request, 257 rows, ends that are NaN, and both; and one with 10.
pub fn once_full() -> Vec<Case> {
    let mut cases = Vec::new();
    for rows in [1, 257] {
        for lower in [0.0, NAN] {
            let mut numbers = REQUEST;
            numbers[4] = lower;
            cases.push(requests::Draft { numbers, rows: vec![[0.0; 3]; rows] }.case());
        }
    }
    let mut left_over = cases[0].clone();
    left_over.lists[0].pop();
    cases.push(left_over);
    cases
}

/// A profile of so many stations, at even times.
fn even(entry: Entry, stations: usize) -> profiles::Draft {
    let list: Vec<f64> = (0..stations).map(|i| i as f64).collect();
    let a = list.iter().map(|x| 1.0 + 0.25 * (x % 7.0)).collect();
    profiles::Draft::new(entry, list.clone(), a, list)
}

/// The limits: "2 to 4,096" stations, 65,536 samples, 256 rows, 4,096 stations of a walk, output exactly full and one short.
pub fn limits() -> Vec<Case> {
    let mut cases = Vec::new();
    for spare in [-1, 0, 1] {
        for entry in Entry::CONVERSIONS {
            for stations in [0, 1, 2, 3, 4095, 4096, 4097, 70_000] {
                let mut draft = even(entry, stations);
                draft.samples = vec![0.5, 1.0];
                draft.spare = spare;
                cases.push(draft.case());
            }
        }
        for samples in [65_535, 65_536, 65_537] {
            cases.extend(limits_of_sampling(samples, spare));
        }
    }
    for rows in [0, 1, 255, 256, 257, 258, 10_000] {
        let numbers = REQUEST;
        cases.push(requests::Draft { numbers, rows: vec![[0.0, 0.0, 0.0]; rows] }.case());
        cases.push(requests::Draft { numbers, rows: vec![[1.0, 0.0, 2.0]; rows] }.case());
    }
    let steps: Vec<Case> = cases.iter().filter(|case| case.entry == Entry::Recover).flat_map(limits_of_steps).collect();
    cases.extend(steps);
    let ragged: Vec<Case> = cases.iter().filter(|case| case.room < 1000).flat_map(ragged).collect();
    cases.extend(ragged);
    cases.extend(file_edges::edges());
    cases.extend(file_edges::limits());
    cases
}

/// A request as a step at and beside the limit of stations, to its own station and to one whose ends are NaN.
fn limits_of_steps(request: &Case) -> Vec<Case> {
    let mut nowhere = request.clone();
    nowhere.numbers[4..7].fill(random::NAN);
    let steps = |request: &Case| COUNTS.map(|count| Walk::up_to(request, count).step_to(request));
    [steps(request), steps(&nowhere)].concat()
}

/// So many samples, as a list over 2 and over 4,096 stations, and as a grid with and without the final.
fn limits_of_sampling(samples: usize, spare: i64) -> Vec<Case> {
    let mut cases = Vec::new();
    for stations in [2, 4096] {
        let mut list = even(Entry::TToSList, stations);
        let step = stations as f64 / samples as f64;
        list.samples = (0..samples).map(|i| i as f64 * step).collect();
        list.spare = spare;
        cases.push(list.case());
        for with_final in [0, 1] {
            let mut grid = even(Entry::TToSGrid, stations);
            // by steps of 1/16, so that the count is exact
            grid.dt = 0.0625;
            grid.t0 = (stations - 1) as f64 - samples as f64 * grid.dt;
            (grid.with_final, grid.spare) = (with_final, spare);
            cases.push(grid.case());
        }
    }
    cases
}

/// A call with one byte too many, and one with one too few, in each of its lists and in its output, if it has one. A walk is no list of bytes.
fn ragged(case: &Case) -> Vec<Case> {
    let mut cases = Vec::new();
    let has_rows = matches!(case.entry, Entry::Recover | Entry::WalkStep);
    for place in 0..if has_rows { 1 } else { case.lists.len() } {
        for len in [case.lists[place].len() + 1, case.lists[place].len().saturating_sub(1)] {
            let mut other = case.clone();
            other.lists[place].resize(len, 0);
            cases.push(other);
        }
    }
    if !has_rows {
        cases.extend([case.room + 1, case.room.saturating_sub(1)].map(|room| Case { room, ..case.clone() }));
    }
    cases
}
