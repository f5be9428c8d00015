// `recover_forward_intersection` of src/copp/copp2/dp2/topp2_ra.rs, TOPP-THU/copp at a5fd651b9a. Its text is unchanged but for three marked lines: hypot is the
// parent module's, twice, and each certificate asked is told to the parent module. What the file holds besides is left behind, as document 01 says.
//
// MIT License
//
// Copyright (c) 2026 Yunan Wang, Suqin He, Shize Lin, Chuxiong Hu, and Contributors
//
// Permission is hereby granted, free of charge, to any person obtaining a copy
// of this software and associated documentation files (the "Software"), to deal
// in the Software without restriction, including without limitation the rights
// to use, copy, modify, merge, publish, distribute, sublicense, and/or sell
// copies of the Software, and to permit persons to whom the Software is
// furnished to do so, subject to the following conditions:
//
// The above copyright notice and this permission notice shall be included in all
// copies or substantial portions of the Software.
//
// THE SOFTWARE IS PROVIDED "AS IS", WITHOUT WARRANTY OF ANY KIND, EXPRESS OR
// IMPLIED, INCLUDING BUT NOT LIMITED TO THE WARRANTIES OF MERCHANTABILITY,
// FITNESS FOR A PARTICULAR PURPOSE AND NONINFRINGEMENT. IN NO EVENT SHALL THE
// AUTHORS OR COPYRIGHT HOLDERS BE LIABLE FOR ANY CLAIM, DAMAGES OR OTHER
// LIABILITY, WHETHER IN AN ACTION OF CONTRACT, TORT OR OTHERWISE, ARISING FROM,
// OUT OF OR IN CONNECTION WITH THE SOFTWARE OR THE USE OR OTHER DEALINGS IN THE
// SOFTWARE.

// Changed: what these lines name stands in completed.rs, and in the module that includes this one.
#[allow(unused_imports)]
use super::completed::NextDown;
use super::completed::{ApproxOrdering, ReachSet2Options, approx_order};
use super::{asked, hypot};

/// Recover the largest state in the current backward interval whose edge from
/// `a_prev` satisfies every original TOPP2 row within the configured
/// unit-normal tolerance and an independent mixed physical-residual cap.
///
/// The ordinary forward reduction solves `row.0 * a_curr <= row.2 -
/// row.1 * a_prev`.  When `row.0` is the tiny remainder of a cancellation, a
/// last-bit residual in `a_prev` can become a macroscopic interval gap after
/// division.  This cold path avoids that ill-conditioned division as its first
/// decision: it certifies the backward upper endpoint directly.  If necessary,
/// it then intersects the tolerance-expanded half-spaces at fixed `a_prev` and
/// retries their largest point.
///
/// Returning a point is a certificate, not a best-effort fallback: the new
/// point is strictly inside its backward/path bounds, the already-committed
/// predecessor is inside its bounds under the configured state comparison
/// tolerance, and every finite row has been checked again in normalized 2D
/// coordinates.  A second mixed absolute/relative check bounds the
/// unnormalized physical residual even when the row normal is large.  Failure
/// leaves the caller's original infeasibility path unchanged.
#[cold]
#[inline(never)]
#[allow(clippy::too_many_arguments)]
fn recover_forward_intersection(
    rows: &[(f64, f64, f64)],
    a_prev: f64,
    prev_backward: (f64, f64),
    curr_backward: (f64, f64),
    prev_path_max: f64,
    curr_path_max: f64,
    options: &ReachSet2Options,
) -> Option<(f64, f64, f64)> {
    let feas_tol = options.lp_feas_tol;
    if !a_prev.is_finite()
        || !feas_tol.is_finite()
        || feas_tol < 0.0
        || !prev_backward.0.is_finite()
        || !prev_backward.1.is_finite()
        || curr_backward.0.is_nan()
        || curr_backward.1.is_nan()
        || prev_path_max.is_nan()
        || curr_path_max.is_nan()
    {
        return None;
    }

    let inside = |value: f64, lower: f64, upper: f64| {
        value.is_finite()
            && !matches!(
                approx_order(value, lower, options.a_cmp_abs_tol, options.a_cmp_rel_tol,),
                ApproxOrdering::Less
            )
            && !matches!(
                approx_order(value, upper, options.a_cmp_abs_tol, options.a_cmp_rel_tol,),
                ApproxOrdering::Greater
            )
    };
    let prev_lower = prev_backward.0.max(0.0);
    let prev_upper = prev_backward.1.min(prev_path_max);
    if !prev_lower.is_finite() || !prev_upper.is_finite() || !inside(a_prev, prev_lower, prev_upper)
    {
        return None;
    }

    // Use strict bounds for the point that will actually be committed.  The
    // mixed comparison tolerance above only certifies the already-selected
    // predecessor against its stored interval.
    let lower = curr_backward.0.max(0.0);
    let upper = curr_backward.1.min(curr_path_max);
    if !lower.is_finite() || !upper.is_finite() || lower > upper {
        return None;
    }

    let certify = |a_curr: f64| {
        asked(); // added: 01 counts "certificates asked"
        if !a_curr.is_finite() || a_curr < lower || a_curr > upper {
            return None;
        }
        let mut worst_normalized = 0.0_f64;
        let mut worst_raw = 0.0_f64;
        for &(coef_curr, coef_prev, rhs) in rows {
            if !coef_curr.is_finite() || !coef_prev.is_finite() || !rhs.is_finite() {
                return None;
            }
            let norm = hypot(coef_curr, coef_prev); // changed: was coef_curr.hypot(coef_prev)
            if norm == 0.0 {
                // A directionless physical row is feasible only when 0 <= rhs.
                if rhs < 0.0 {
                    return None;
                }
                continue;
            }
            if !norm.is_finite() {
                return None;
            }
            let norm_inv = 1.0 / norm;
            let raw_tol = feas_tol * rhs.abs().max(1.0);
            if !raw_tol.is_finite() {
                return None;
            }
            let normalized_residual =
                (coef_curr * norm_inv) * a_curr + (coef_prev * norm_inv) * a_prev - rhs * norm_inv;
            let raw_residual = coef_curr * a_curr + coef_prev * a_prev - rhs;
            let raw_normalized_residual = raw_residual / norm;
            if !normalized_residual.is_finite()
                || !raw_residual.is_finite()
                || !raw_normalized_residual.is_finite()
                || normalized_residual > feas_tol
                || raw_normalized_residual > feas_tol
                || raw_residual > raw_tol
            {
                return None;
            }
            worst_normalized = worst_normalized
                .max(normalized_residual)
                .max(raw_normalized_residual);
            worst_raw = worst_raw.max(raw_residual);
        }
        Some((a_curr, worst_normalized, worst_raw))
    };

    // This is both the cheapest and the strongest recovery: attaining the
    // backward cap preserves the greedy stage optimum exactly.
    if let Some(certified) = certify(upper) {
        return Some(certified);
    }

    // Search only after the cap itself failed its certificate.  At fixed
    // `a_prev`, each normalized 2D half-space cuts out a 1D interval.  Their
    // intersection with the backward interval therefore gives the complete
    // tolerance-feasible candidate set; its upper endpoint is the maximizer.
    let mut projected_lower = lower;
    let mut projected_upper = upper;
    for &(coef_curr, coef_prev, rhs) in rows {
        let norm = hypot(coef_curr, coef_prev); // changed: was coef_curr.hypot(coef_prev)
        if norm == 0.0 {
            if rhs < 0.0 {
                return None;
            }
            continue;
        }
        if !norm.is_finite() {
            return None;
        }
        let norm_inv = 1.0 / norm;
        let raw_tol = feas_tol * rhs.abs().max(1.0);
        if !raw_tol.is_finite() {
            return None;
        }
        let normalized_tol = feas_tol.min(raw_tol * norm_inv);
        let coef_curr = coef_curr * norm_inv;
        let coef_prev = coef_prev * norm_inv;
        let rhs = rhs * norm_inv + normalized_tol - coef_prev * a_prev;
        if !rhs.is_finite() {
            return None;
        }
        if coef_curr > 0.0 {
            projected_upper = projected_upper.min(rhs / coef_curr);
        } else if coef_curr < 0.0 {
            projected_lower = projected_lower.max(rhs / coef_curr);
        } else if rhs < 0.0 {
            return None;
        }
    }
    if !projected_lower.is_finite()
        || !projected_upper.is_finite()
        || projected_lower > projected_upper
    {
        return None;
    }

    // A division can put the endpoint outside the certificate by much more
    // than one x-ulp when its normalized coefficient is tiny: one residual ulp
    // is then many coordinate ulps.  Try the immediate neighbours first, then
    // establish an interior certified point and bisect back toward the upper
    // endpoint.  Every retained point has passed the complete row certificate.
    let mut candidate = projected_upper;
    for _ in 0..=4 {
        if candidate < projected_lower {
            break;
        }
        if let Some(certified) = certify(candidate) {
            return Some(certified);
        }
        candidate = candidate.next_down();
    }

    let mut certified_lower_x = 0.5 * projected_lower + 0.5 * projected_upper;
    let mut certified_lower = certify(certified_lower_x)?;
    let mut rejected_upper = projected_upper;
    for _ in 0..64 {
        let midpoint = 0.5 * certified_lower_x + 0.5 * rejected_upper;
        if midpoint == certified_lower_x || midpoint == rejected_upper {
            break;
        }
        if let Some(certified) = certify(midpoint) {
            certified_lower_x = midpoint;
            certified_lower = certified;
        } else {
            rejected_upper = midpoint;
        }
    }
    Some(certified_lower)
}

/// Added: the way in from outside this module, for the original is private.
pub fn way_in(
    rows: &[(f64, f64, f64)],
    a_prev: f64,
    prev_backward: (f64, f64),
    curr_backward: (f64, f64),
    prev_path_max: f64,
    curr_path_max: f64,
    options: &ReachSet2Options,
) -> Option<(f64, f64, f64)> {
    recover_forward_intersection(
        rows,
        a_prev,
        prev_backward,
        curr_backward,
        prev_path_max,
        curr_path_max,
        options,
    )
}
