//! Recovery requests: with structure, from any patterns, and good ones damaged in each way that a refusal names.

use crate::case::{bytes, Case, Entry};
use crate::random::{stepped, Random};
use crate::recovery_rules::{maximum, minimum, recovered, Request, Way};
use crate::slips::Slip;

/// A request and its rows before they are made bytes. The ten numbers stand in the order of the entry's arguments.
#[derive(Clone)]
pub struct Draft {
    pub numbers: [f64; 10],
    pub rows: Vec<[f64; 3]>,
}

const A_PREV: usize = 0;
const PREV_LOWER: usize = 1;
const PREV_UPPER: usize = 2;
const PREV_CAP: usize = 3;
const CURR_LOWER: usize = 4;
const CURR_UPPER: usize = 5;
const CURR_CAP: usize = 6;
const FEAS_TOL: usize = 7;
const TOLERANCES: [usize; 3] = [FEAS_TOL, 8, 9];

impl Draft {
    pub fn case(&self) -> Case {
        let numbers = self.numbers.iter().map(|x| x.to_bits()).collect();
        Case { entry: Entry::Recover, numbers, lists: vec![bytes(self.rows.as_flattened())], room: 0 }
    }

    fn upper(&self) -> f64 {
        minimum(self.numbers[CURR_UPPER], self.numbers[CURR_CAP])
    }
}

/// The next request to be tried.
pub fn case(random: &mut Random) -> Case {
    match random.below(16) {
        0 => any_patterns(random).case(),
        kind => varied(kind, structured(random), random),
    }
}

/// A structured request as it is, damaged, or with rows that are to be searched through.
fn varied(kind: u64, draft: Draft, random: &mut Random) -> Case {
    match kind {
        1..=4 => damaged(draft, random),
        5 | 6 => searching(draft, random).case(),
        7 => {
            let draft = searching(draft, random);
            with_its_answer_in_the_middle(draft, random).case()
        }
        _ => draft.case(),
    }
}

/// A request whose previous station, speed and tolerances are to start a walk: mostly good ones.
pub fn before_a_walk(random: &mut Random) -> Case {
    let mut draft = without_rows(random);
    if random.one_in(16) {
        damage(&mut draft, 2 + random.below(2), random);
    }
    draft.case()
}

/// Puts a current station of a size like the previous one's into a request.
pub fn follow(draft: &mut Draft, random: &mut Random) {
    let n = &mut draft.numbers;
    let last = minimum(n[PREV_UPPER], n[PREV_CAP]);
    let scale = if last > 0.0 && last.is_finite() { 0.25 * last } else { 1.0 };
    put_station(n, scale, (0.5 + random.unit()) * 4.0 * scale, random);
    // as an end of the previous interval it would be refused ever after
    if n[CURR_LOWER] == f64::NEG_INFINITY && !random.one_in(64) {
        n[CURR_LOWER] = -scale;
    }
    if random.one_in(32) {
        n[random.choose(&[CURR_LOWER, CURR_UPPER, CURR_CAP])] = random.edge();
    }
}

/// A request with rows, mostly such that it is answered.
pub fn with_rows(mut draft: Draft, random: &mut Random) -> Case {
    draft.rows = rows(&draft, random);
    varied(4 + random.below(12), draft, random)
}

fn any_patterns(random: &mut Random) -> Draft {
    let mut double = || f64::from_bits(random.pattern());
    let numbers = std::array::from_fn(|_| double());
    let rows = (0..3).map(|_| std::array::from_fn(|_| double())).collect();
    let mut draft = Draft { numbers, rows };
    draft.rows.truncate(random.place(4));
    // most patterns make no tolerance and no order: let half of them pass
    if random.one_in(2) {
        for place in TOLERANCES {
            draft.numbers[place] = tolerance(random);
        }
        let [low, high] = [PREV_LOWER, PREV_UPPER].map(|i| draft.numbers[i].abs());
        draft.numbers[PREV_LOWER] = minimum(low, high);
        draft.numbers[PREV_UPPER] = maximum(low, high);
        draft.numbers[PREV_CAP] = f64::INFINITY;
        draft.numbers[A_PREV] = draft.numbers[PREV_LOWER];
        draft.numbers[CURR_CAP] = draft.numbers[CURR_CAP].abs();
        draft.numbers[CURR_UPPER] = draft.numbers[CURR_UPPER].abs();
    }
    draft
}

fn tolerance(random: &mut Random) -> f64 {
    match random.below(8) {
        0 | 1 => 0.0,
        2 => 1e-9,
        3 => random.power(-1074, 1),
        _ => random.unit() * random.power(-50, -2),
    }
}

/// The size of speeds: about 1, any, near 2^-1021 where halves of odd doubles round, subnormal, or such that sums of two overflow.
fn scale(random: &mut Random) -> f64 {
    match random.below(16) {
        0 => random.power(-1074, 1000),
        1 => random.power(-1026, -1016),
        2 => random.power(-1074, -1060),
        3 => random.power(1018, 1022),
        _ => random.power(-4, 4),
    }
}

fn structured(random: &mut Random) -> Draft {
    let mut draft = without_rows(random);
    draft.rows = rows(&draft, random);
    draft
}

fn without_rows(random: &mut Random) -> Draft {
    let scale = scale(random);
    let cap = (0.5 + random.unit()) * 4.0 * scale;
    let mut numbers = [0.0; 10];
    numbers[A_PREV] = random.unit() * scale;
    numbers[PREV_UPPER] = 4.0 * scale;
    numbers[PREV_CAP] = random.choose(&[9.0 * scale, 4.0 * scale, f64::INFINITY, 3.0 * scale]);
    put_station(&mut numbers, scale, cap, random);
    for place in TOLERANCES {
        numbers[place] = tolerance(random);
    }
    let mut draft = Draft { numbers, rows: vec![] };
    if random.one_in(16) {
        draft.numbers[random.place(10)] = random.edge();
    }
    if random.one_in(16) {
        hair_outside(&mut draft, random);
    }
    draft
}

/// The current station: bounds of a size, and which of them is the cap.
fn put_station(numbers: &mut [f64; 10], scale: f64, cap: f64, random: &mut Random) {
    let within = random.unit() * cap;
    numbers[CURR_LOWER] =
        random.choose(&[0.0, 0.0, -0.0, -scale, f64::NEG_INFINITY, within, within, cap, stepped(cap, -3)]);
    (numbers[CURR_UPPER], numbers[CURR_CAP]) =
        random.choose(&[(cap, 9.0 * scale), (4.0 * cap, cap), (cap, f64::INFINITY), (cap, cap)]);
}

fn rows(draft: &Draft, random: &mut Random) -> Vec<[f64; 3]> {
    (0..row_count(random)).map(|_| row(draft, random)).collect()
}

/// Few rows, mostly.
fn row_count(random: &mut Random) -> u64 {
    match random.below(4000) {
        0 => 250 + random.below(7),
        1..=20 => random.below(40),
        _ => random.below(6),
    }
}

/// A request whose cap fails, and whose projected end may be off by many doubles: each row has a tiny coefficient of the current speed, so that one last place of
/// a residual is many of the speed.
fn searching(mut draft: Draft, random: &mut Random) -> Draft {
    draft.numbers[CURR_LOWER] = 0.0;
    let (a_prev, cap) = (draft.numbers[A_PREV], draft.upper());
    draft.rows = (0..1 + row_count(random))
        .map(|_| {
            let (c, p) = (random.unit() * random.power(-40, 0), random.signed());
            let near = cap * (0.5 + 0.5 * random.unit());
            [c, p, c * near + p * a_prev]
        })
        .collect();
    draft
}

/// The previous speed, or the current lower end, some steps outside its bounds: what a tolerance forgives and what it does not.
fn hair_outside(draft: &mut Draft, random: &mut Random) {
    let steps = random.below(9) as i64 - 4;
    let n = &mut draft.numbers;
    match random.below(3) {
        0 => n[A_PREV] = stepped(minimum(n[PREV_UPPER], n[PREV_CAP]), steps),
        1 => {
            n[PREV_LOWER] = random.unit() * n[PREV_UPPER];
            n[A_PREV] = stepped(n[PREV_LOWER], steps);
        }
        _ => n[CURR_LOWER] = stepped(minimum(n[CURR_UPPER], n[CURR_CAP]), steps),
    }
}

/// A row that cuts near the cap, one with a tiny coefficient of the current speed, one without any, a row of zeros, or one with an edge in it.
fn row(draft: &Draft, random: &mut Random) -> [f64; 3] {
    let (a_prev, cap) = (draft.numbers[A_PREV], draft.upper());
    let near = cap * (1.0 - random.unit() * random.power(-53, 0));
    let (mut c, mut p) = (random.signed(), random.signed());
    match random.below(20) {
        0..=3 => c *= random.power(-60, -1),
        4 => return [0.0, -0.0, if random.one_in(8) { -random.unit() } else { random.unit() }],
        5 if random.one_in(8) => return [c, random.edge(), p],
        6 if random.one_in(8) => return [c, p, f64::MAX * random.signed()],
        7 => p = 0.0,
        8 => return [0.0, p, p * a_prev + (random.signed() * 0.01 + 0.009) * cap],
        9 if random.one_in(4) => return [c * 1e-300, p * 1e-300, f64::MAX * random.signed()],
        10 => (c, p) = (c * random.power(-500, 500), p * random.power(-500, 500)),
        _ => {}
    }
    if c < 0.0 && !random.one_in(4) {
        c = -c;
    }
    let slack = if c < 0.0 { (0.5 + random.unit()) * cap * -c } else { 0.0 };
    [c, p, c * near + p * a_prev + slack]
}

/// The request with its lower end set so that the middle is the speed that halving found, or a double beside it: the next one up fails.
fn with_its_answer_in_the_middle(mut draft: Draft, random: &mut Random) -> Draft {
    if let Ok(found) = recovered(&Request::of(&draft.case()), draft.rows.as_flattened(), Slip::None) {
        if found.way == Way::Halvings {
            let middle = stepped(found.passing.x, random.below(4) as i64 - 1);
            draft.numbers[CURR_LOWER] = 2.0 * middle - found.end;
        }
    }
    draft
}

/// A request damaged in one to three of the ways that refusals 1 to 10 name, so that their order shows.
fn damaged(mut draft: Draft, random: &mut Random) -> Case {
    let mut case_damage = None;
    for _ in 0..random.choose(&[1, 1, 2, 3]) {
        match 1 + random.below(10) {
            number @ (1 | 10) => case_damage = Some(number),
            number => damage(&mut draft, number, random),
        }
    }
    let mut case = draft.case();
    let rows = &mut case.lists[0];
    match case_damage {
        // doubles short of or beyond whole rows, or too many rows
        Some(1) if random.one_in(8) => rows.resize(257 * 24, 0),
        Some(1) => rows.resize(rows.len() + 8 * (1 + random.place(2)), 0),
        Some(_) => rows.resize(rows.len() + 1 + random.place(7), 0),
        None => {}
    }
    case
}

/// Damages a request so that the refusal with this number is due, if no earlier one is.
fn damage(draft: &mut Draft, number: u64, random: &mut Random) {
    let n = &mut draft.numbers;
    let at = if draft.rows.is_empty() { 0 } else { random.place(draft.rows.len()) };
    match number {
        2 => match random.below(4) {
            0 => {
                n[random.choose(&TOLERANCES)] =
                    random.choose(&[-5e-324, -1.0, f64::NAN, f64::INFINITY, f64::NEG_INFINITY])
            }
            1 => n[random.choose(&[A_PREV, PREV_LOWER, PREV_UPPER])] = random.not_finite(),
            _ => n[random.choose(&[CURR_LOWER, CURR_UPPER, PREV_CAP, CURR_CAP])] = f64::NAN,
        },
        3 => match random.below(4) {
            0 => n[PREV_CAP] = f64::NEG_INFINITY,
            1 => n[A_PREV] = -1.0,
            2 => n[PREV_LOWER] = 2.0 * n[A_PREV].abs() + 1.0,
            _ => n[PREV_CAP] = 0.5 * n[A_PREV],
        },
        4 => match random.below(4) {
            0 => n[CURR_LOWER] = f64::INFINITY,
            1 => (n[CURR_UPPER], n[CURR_CAP]) = (f64::INFINITY, f64::INFINITY),
            2 => n[CURR_CAP] = random.choose(&[f64::NEG_INFINITY, -5e-324]),
            _ => n[CURR_LOWER] = stepped(minimum(n[CURR_UPPER], n[CURR_CAP]), 1 + random.below(3) as i64),
        },
        5 => {
            let unfit = match random.below(4) {
                0 => [1.0, random.not_finite(), 1.0],
                1 => [f64::MAX, f64::MAX, 1.0],
                2 => [5e-324, 0.0, 1.0],
                _ => {
                    n[FEAS_TOL] = maximum(n[FEAS_TOL], 4.0);
                    [1.0, 0.0, f64::MAX]
                }
            };
            draft.rows.insert(at, unfit);
        }
        6 => draft.rows.insert(at, [0.0, -0.0, random.choose(&[-1.0, -5e-324])]),
        7 => draft
            .rows
            .insert(at, random.choose(&[[1e-10, 0.0, f64::MAX], [1e-10, 0.0, -f64::MAX], [1e-200, 1e-200, 1e200]])),
        8 => {
            let cap = draft.upper();
            draft
                .rows
                .insert(at, random.choose(&[[0.0, 1.0, -1.0], [-1.0, 0.0, -2.0 * cap - 1.0], [1.0, 0.0, -cap - 1.0]]));
        }
        // two rows that leave one point, or a hair more, or less
        _ => {
            let point = draft.upper() * random.unit();
            let (c, d) = (random.unit(), random.unit());
            draft.rows = vec![[c, 0.0, c * point], [-d, 0.0, -d * stepped(point, random.below(9) as i64 - 4)]];
            draft.numbers[FEAS_TOL] = 0.0;
        }
    }
}
