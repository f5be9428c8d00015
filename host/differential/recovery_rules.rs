//! Recovery, straight from document 01's section of that name: number, figures, candidates tried, and the way the answer was found.

use crate::case::{pattern, Answer, Case, Entry};
#[allow(unused_imports)]
use crate::original::completed::NextDown;
use crate::original::hypot;
use crate::slips::Slip;
use crate::walk_rules::{self, Walk};

/// The way to an answer.
#[derive(Clone, Copy, PartialEq, Eq, Debug)]
pub enum Way {
    Cap,
    Neighbour(usize),
    Middle,
    Halvings,
}

/// A station's backward interval and path cap.
pub struct Station {
    pub lower: f64,
    pub upper: f64,
    pub cap: f64,
}

pub struct Request {
    pub a_prev: f64,
    pub prev: Station,
    pub curr: Station,
    pub feas_tol: f64,
    pub a_cmp_abs_tol: f64,
    pub a_cmp_rel_tol: f64,
}

impl Request {
    /// The request of a recovery, or of a step.
    pub fn of(case: &Case) -> Request {
        let n = match case.entry {
            Entry::WalkStep => Walk::read(&case.lists[1]).request(walk_rules::station(case)),
            _ => std::array::from_fn(|place| case.number(place)),
        };
        Request {
            a_prev: n[0],
            prev: Station { lower: n[1], upper: n[2], cap: n[3] },
            curr: Station { lower: n[4], upper: n[5], cap: n[6] },
            feas_tol: n[7],
            a_cmp_abs_tol: n[8],
            a_cmp_rel_tol: n[9],
        }
    }

    /// Whether refusal 2 is given for a comparison tolerance and for nothing else.
    pub fn refused_for_a_comparison_tolerance(&self) -> bool {
        !(is_tolerance(self.a_cmp_abs_tol) && is_tolerance(self.a_cmp_rel_tol)) && !self.others_are_refused()
    }

    /// Refusal 2 but for the comparison tolerances: "a tolerance not finite or negative; a_prev or a previous interval end not finite; a current end or path
    /// cap NaN".
    fn others_are_refused(&self) -> bool {
        !is_tolerance(self.feas_tol)
            || [self.a_prev, self.prev.lower, self.prev.upper].iter().any(|x| !x.is_finite())
            || [self.curr.lower, self.curr.upper, self.prev.cap, self.curr.cap].iter().any(|x| x.is_nan())
    }
}

fn is_tolerance(x: f64) -> bool {
    x.is_finite() && x >= 0.0
}

/// "a NaN yields the other operand; minus zero counts below plus zero"
pub fn minimum(x: f64, y: f64) -> f64 {
    if x.is_nan() || y < x || x == y && y.is_sign_negative() {
        y
    } else {
        x
    }
}

pub fn maximum(x: f64, y: f64) -> f64 {
    if x.is_nan() || y > x || x == y && y.is_sign_positive() {
        y
    } else {
        x
    }
}

/// "equal if x = y, or if |x - y| is at most the maximum of abs and rel × max(|x|, |y|), each operation rounded"
fn equal_within(q: &Request, x: f64, y: f64) -> bool {
    x == y || (x - y).abs() <= maximum(q.a_cmp_abs_tol, q.a_cmp_rel_tol * maximum(x.abs(), y.abs()))
}

fn less_within(q: &Request, x: f64, y: f64) -> bool {
    x < y && !equal_within(q, x, y)
}

/// "lower = max(current lower, +0); upper, the cap, = min(current upper, current path cap). For the previous station likewise"
fn bounds(station: &Station) -> (f64, f64) {
    (maximum(station.lower, 0.0), minimum(station.upper, station.cap))
}

/// A row with what depends on it alone.
struct Row {
    coef_curr: f64,
    coef_prev: f64,
    rhs: f64,
    norm: f64,
    inv: f64,
    raw_tol: f64,
}

impl Row {
    fn new(numbers: &[f64], feas_tol: f64, slip: Slip) -> Row {
        let (coef_curr, coef_prev, rhs) = (numbers[0], numbers[1], numbers[2]);
        let norm = match slip {
            Slip::PlainHypot => (coef_curr * coef_curr + coef_prev * coef_prev).sqrt(),
            _ => hypot(coef_curr, coef_prev),
        };
        Row { coef_curr, coef_prev, rhs, norm, inv: 1.0 / norm, raw_tol: feas_tol * maximum(rhs.abs(), 1.0) }
    }

    /// Refusal 5: "a number not finite; norm not finite; norm not zero and 1/norm or raw_tol not finite".
    fn is_unfit(&self) -> bool {
        let numbers = [self.coef_curr, self.coef_prev, self.rhs, self.norm];
        numbers.iter().any(|x| !x.is_finite())
            || self.norm != 0.0 && !(self.inv.is_finite() && self.raw_tol.is_finite())
    }

    /// Refusal 6: "norm zero and rhs < 0".
    fn is_false(&self) -> bool {
        self.norm == 0.0 && self.rhs < 0.0
    }

    /// "normalized = (coef_curr·inv)·x + (coef_prev·inv)·a_prev - rhs·inv; raw = coef_curr·x + coef_prev·a_prev - rhs; raw/norm"
    fn residuals(&self, x: f64, a_prev: f64) -> [f64; 3] {
        let normalized = (self.coef_curr * self.inv) * x + (self.coef_prev * self.inv) * a_prev - self.rhs * self.inv;
        let raw = self.coef_curr * x + self.coef_prev * a_prev - self.rhs;
        [normalized, raw, raw / self.norm]
    }

    /// "r = rhs·inv + min(feas_tol, raw_tol·inv) - (coef_prev·inv)·a_prev"
    fn r(&self, q: &Request) -> f64 {
        self.rhs * self.inv + minimum(q.feas_tol, self.raw_tol * self.inv) - (self.coef_prev * self.inv) * q.a_prev
    }
}

/// Refusal 5 before 6, whichever row is first.
fn row_refusal(rows: &[Row], slip: Slip) -> Result<(), u64> {
    if slip == Slip::RowOrder {
        return match rows.iter().find(|row| row.is_unfit() || row.is_false()) {
            Some(row) => Err(if row.is_unfit() { 5 } else { 6 }),
            None => Ok(()),
        };
    }
    if rows.iter().any(Row::is_unfit) {
        return Err(5);
    }
    if rows.iter().any(Row::is_false) {
        return Err(6);
    }
    Ok(())
}

struct Search<'a> {
    q: &'a Request,
    rows: &'a [Row],
    lower: f64,
    upper: f64,
    slip: Slip,
    tried: u64,
}

/// A passing candidate with the two worst figures.
#[derive(Clone, Copy)]
pub struct Passing {
    pub x: f64,
    pub normalized: f64,
    pub raw: f64,
}

impl Search<'_> {
    /// The certificate for x, and one more candidate tried.
    fn certified(&mut self, x: f64) -> Option<Passing> {
        self.tried += 1;
        if !(self.lower <= x && x <= self.upper) {
            return None;
        }
        let (mut worst_normalized, mut worst_raw) = (0.0, 0.0);
        for row in self.rows.iter().filter(|row| row.norm != 0.0) {
            let [normalized, raw, raw_by_norm] = row.residuals(x, self.q.a_prev);
            let [first, second, third] =
                [normalized <= self.q.feas_tol, raw <= row.raw_tol, raw_by_norm <= self.q.feas_tol];
            let fits =
                if self.slip == Slip::FirstResidual { first || second || third } else { first && second && third };
            if !fits || [normalized, raw, raw_by_norm].iter().any(|x| !x.is_finite()) {
                return None;
            }
            worst_normalized = maximum(worst_normalized, maximum(normalized, raw_by_norm));
            worst_raw = maximum(worst_raw, raw);
        }
        Some(Passing { x, normalized: worst_normalized, raw: worst_raw })
    }

    /// The projected ends, or refusal 7: "r of any row not finite", or 8: "a row with c zero and r < 0, or a projected end not finite, or low > high".
    fn projected(&self) -> Result<(f64, f64), u64> {
        let (mut low, mut high) = (self.lower, self.upper);
        let scaled: Vec<(f64, f64)> = self
            .rows
            .iter()
            .filter(|row| row.norm != 0.0)
            .map(|row| (row.coef_curr * row.inv, row.r(self.q)))
            .collect();
        if scaled.iter().any(|(_, r)| !r.is_finite()) {
            return Err(7);
        }
        for &(c, r) in &scaled {
            if c > 0.0 {
                high = minimum(high, r / c);
            } else if c < 0.0 {
                low = maximum(low, r / c);
            }
        }
        let stands_alone_and_fails = |&(c, r): &(f64, f64)| c == 0.0 && r < 0.0;
        if scaled.iter().any(stands_alone_and_fails) || !low.is_finite() || !high.is_finite() || low > high {
            return Err(8);
        }
        Ok((low, high))
    }

    /// "the middle, 0.5·low + 0.5·high"
    fn between(&self, low: f64, high: f64) -> f64 {
        if self.slip == Slip::AverageOfSum {
            0.5 * (low + high)
        } else {
            0.5 * low + 0.5 * high
        }
    }

    /// "the projected upper end and up to four next-down doubles are tried, stopping below the projected lower end"
    fn neighbour(&mut self, low: f64, high: f64) -> Option<(Passing, Way)> {
        let most = if self.slip == Slip::FewerNeighbours { 3 } else { 4 };
        let mut x = high;
        for steps in 0..=most {
            if x < low {
                return None;
            }
            if let Some(passing) = self.certified(x) {
                return Some((passing, Way::Neighbour(steps)));
            }
            x = x.next_down();
        }
        None
    }

    /// "at most 64 halvings between it and the rejected upper end, each midpoint .. replacing the end it agrees with; they stop when a midpoint, left untried,
    /// equals an end. The passing end is the speed."
    fn halved(&mut self, middle: Passing, high: f64) -> (Passing, Way) {
        let (mut passing, mut rejected, mut way) = (middle, high, Way::Middle);
        for _ in 0..64 {
            let midpoint = self.between(passing.x, rejected);
            if midpoint == passing.x || midpoint == rejected {
                break;
            }
            match self.certified(midpoint) {
                Some(found) => (passing, way) = (found, Way::Halvings),
                None => rejected = midpoint,
            }
        }
        (passing, way)
    }

    fn found(mut self) -> Result<Recovered, u64> {
        if let Some(passing) = self.certified(self.upper) {
            return Ok(Recovered { passing, way: Way::Cap, tried: self.tried, end: self.upper });
        }
        let (low, high) = self.projected()?;
        let (passing, way) = match self.neighbour(low, high) {
            Some(found) => found,
            None => {
                let middle = self.certified(self.between(low, high)).ok_or(9u64)?;
                self.halved(middle, high)
            }
        };
        Ok(Recovered { passing, way, tried: self.tried, end: high })
    }
}

/// An answer: its passing candidate, the way to it, the candidates tried, and the upper end of what was searched.
pub struct Recovered {
    pub passing: Passing,
    pub way: Way,
    pub tried: u64,
    pub end: f64,
}

/// The answer, or the number of the first refusal in document 01's order.
pub fn recovered(q: &Request, numbers: &[f64], slip: Slip) -> Result<Recovered, u64> {
    if numbers.len() % 3 != 0 || numbers.len() > 768 {
        return Err(1);
    }
    if !is_tolerance(q.a_cmp_abs_tol) || !is_tolerance(q.a_cmp_rel_tol) || q.others_are_refused() {
        return Err(2);
    }
    let (prev_lower, prev_upper) = bounds(&q.prev);
    if !prev_lower.is_finite()
        || !prev_upper.is_finite()
        || less_within(q, q.a_prev, prev_lower)
        || less_within(q, prev_upper, q.a_prev)
    {
        return Err(3);
    }
    let (lower, upper) = bounds(&q.curr);
    let crossed = if slip == Slip::TolerantBounds { less_within(q, upper, lower) } else { lower > upper };
    if !lower.is_finite() || !upper.is_finite() || crossed {
        return Err(4);
    }
    let rows: Vec<Row> = numbers.chunks_exact(3).map(|row| Row::new(row, q.feas_tol, slip)).collect();
    row_refusal(&rows, slip)?;
    Search { q, rows: &rows, lower, upper, slip, tried: 0 }.found()
}

/// What a recovery must leave behind, and the way to its answer; of a step, all but the walk.
pub fn recovery(case: &Case, slip: Slip) -> (Answer, Option<Way>) {
    match recovered(&Request::of(case), &case.doubles(0), slip) {
        Ok(Recovered { passing, way, tried, .. }) => {
            let lent = [pattern(passing.x), pattern(passing.normalized), pattern(passing.raw), tried];
            (Answer::wrote(lent, &[], case), Some(way))
        }
        Err(number) => (Answer::refused(number, case), None),
    }
}
