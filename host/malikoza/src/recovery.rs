//! Recovery of a speed.

use crate::entries::{self, list};
use crate::refusal::{self, Refusal};

/// What bounds the squared speed at a station. In C, `lower` of the previous station is `prev_lower`, and so on.
#[derive(Clone, Copy, Debug, PartialEq)]
pub struct Station {
    /// The least squared speed of its interval. Below zero it counts as zero.
    pub lower: f64,
    /// The greatest squared speed of its interval.
    pub upper: f64,
    /// Its cap: the greatest squared speed that the path itself allows there.
    pub cap: f64,
}

/// What a recovery is asked: everything but the rows. Speeds are squared.
#[derive(Clone, Copy, Debug, PartialEq)]
pub struct Request {
    /// The squared speed at the previous station.
    pub a_prev: f64,
    /// The previous station.
    pub prev: Station,
    /// The current station, whose speed is looked for.
    pub curr: Station,
    /// By how much a row may be exceeded.
    pub feas_tol: f64,
    /// By how much `a_prev` may lie outside the previous station's bounds.
    pub a_cmp_abs_tol: f64,
    /// The same as a part of the larger of the two that are compared; the larger allowance counts.
    pub a_cmp_rel_tol: f64,
}

/// A certified speed.
#[derive(Clone, Copy, Debug, PartialEq)]
pub struct Recovered {
    /// The squared speed at the current station.
    pub speed: f64,
    /// The worst normalized residual over the rows, +0 at least.
    pub worst_normalized: f64,
    /// The worst raw residual over the rows, +0 at least.
    pub worst_raw: f64,
    /// How many candidates were tried: 1 to 71.
    pub tried: u64,
}

/// The four numbers of an answer as an entry writes them.
#[derive(Default)]
pub(crate) struct Written {
    pub speed: u64,
    pub worst_normalized: u64,
    pub worst_raw: u64,
    pub tried: u64,
}

impl Written {
    pub(crate) fn recovered(&self) -> Recovered {
        Recovered {
            speed: f64::from_bits(self.speed),
            worst_normalized: f64::from_bits(self.worst_normalized),
            worst_raw: f64::from_bits(self.worst_raw),
            tried: self.tried,
        }
    }
}

/// The squared speed at the current station that its cap and its rows allow, certified.
///
/// A row is `coef_curr`, `coef_prev`, `rhs`: it admits the squared speed x if `coef_curr`·x + `coef_prev`·`a_prev` is
/// at most `rhs`, within `feas_tol`. The cap is tried first; where it fails, the rows give a projected upper end, and
/// a speed that passes is searched for from there down. Neither the order of the rows nor how often one is given
/// changes the answer. docs/RULES.md has every step, with figures.
///
/// ```
/// use malikoza::{recover, Recovered, Refusal, Request, Station};
///
/// let mut request = Request {
///     a_prev: 1.0,
///     prev: Station { lower: 0.0, upper: 4.0, cap: 9.0 },
///     curr: Station { lower: 0.0, upper: 4.0, cap: 3.0 },
///     feas_tol: 0.0,
///     a_cmp_abs_tol: 0.0,
///     a_cmp_rel_tol: 0.0,
/// };
/// let answer = |speed, worst_normalized, worst_raw, tried| {
///     Ok(Recovered { speed, worst_normalized, worst_raw, tried })
/// };
/// assert_eq!(recover(&request, &[]), answer(3.0, 0.0, 0.0, 1));
/// assert_eq!(recover(&request, &[[1.0, 0.0, 2.0]]), answer(2.0, 0.0, 0.0, 2));
/// assert_eq!(recover(&request, &[[0.0, 0.0, -1.0]]), Err(Refusal::RowImpossible));
/// assert_eq!(recover(&request, &[[-1.0, 0.0, -5.0]]), Err(Refusal::ProjectionEmpty));
/// request.feas_tol = 0.25;
/// assert_eq!(recover(&request, &[[2.0, 0.0, 4.0]]), answer(2.25, 0.25, 0.5, 2));
/// ```
///
/// # Errors
///
/// Refusals 1 to 9; of several that hold, the first in that order. Neither 8 nor 9 says that no double passes.
pub fn recover(request: &Request, rows: &[[f64; 3]]) -> Result<Recovered, Refusal> {
    let q = request;
    let (rows, rows_len) = list(rows.as_flattened());
    let mut written = Written::default();
    let Written { speed, worst_normalized, worst_raw, tried } = &mut written;
    // SAFETY: the rows' pointer and length are one slice's, and the numbers written are four of our own.
    refusal::none(unsafe {
        entries::malikoza_recover(
            q.a_prev.to_bits(),
            q.prev.lower.to_bits(),
            q.prev.upper.to_bits(),
            q.prev.cap.to_bits(),
            q.curr.lower.to_bits(),
            q.curr.upper.to_bits(),
            q.curr.cap.to_bits(),
            q.feas_tol.to_bits(),
            q.a_cmp_abs_tol.to_bits(),
            q.a_cmp_rel_tol.to_bits(),
            rows,
            rows_len,
            speed,
            worst_normalized,
            worst_raw,
            tried,
        )
    })?;
    Ok(written.recovered())
}
