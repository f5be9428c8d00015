// src/copp/copp2/interpolation.rs of TOPP-THU/copp at a5fd651b9a, whole and unchanged but for its `use` lines.
//
// MIT License
//
// Copyright (c) 2026 Yunan Wang, Suqin He, Shize Lin, Chuxiong Hu, and Contributors
//
// Permission is hereby granted, free of charge, to any person obtaining a copy
// of this software and associated documentation files (the "Software"), to deal
// in the Software without restriction, including without limitation the rights
// to use, copy, modify, merge, publish, distribute, sublicense, and/or sell
// copies of the Software, and to permit persons to whom the Software is
// furnished to do so, subject to the following conditions:
//
// The above copyright notice and this permission notice shall be included in all
// copies or substantial portions of the Software.
//
// THE SOFTWARE IS PROVIDED "AS IS", WITHOUT WARRANTY OF ANY KIND, EXPRESS OR
// IMPLIED, INCLUDING BUT NOT LIMITED TO THE WARRANTIES OF MERCHANTABILITY,
// FITNESS FOR A PARTICULAR PURPOSE AND NONINFRINGEMENT. IN NO EVENT SHALL THE
// AUTHORS OR COPYRIGHT HOLDERS BE LIABLE FOR ANY CLAIM, DAMAGES OR OTHER
// LIABILITY, WHETHER IN AN ACTION OF CONTRACT, TORT OR OTHERWISE, ARISING FROM,
// OUT OF OR IN CONNECTION WITH THE SOFTWARE OR THE USE OR OTHER DEALINGS IN THE
// SOFTWARE.

//! Interpolation and profile-conversion utilities for second-order path parameterization.
//!
//! # Method identity
//! This module serves both:
//! - **Time-Optimal Path Parameterization (TOPP2)** workflows,
//! - **Convex-Objective Path Parameterization (COPP2)** workflows.
//!
//! # Scope
//! This module provides deterministic conversions among:
//! - path-parameter profile `a(s) = \dot{s}^2`,
//! - derivative-like profile `b(s) = \frac{1}{2}\frac{da}{ds}` on segments,
//! - time mapping `t(s)` and inverse sampling `s(t)`.
//!
//! # Conventions
//! - Path grid uses station samples `s[0..=n]`.
//! - State profile `a` is node-based (`a.len() == s.len()`).
//! - Profile `b` is segment-based (`b.len() == s.len() - 1`).
//!
//! # Example
//! The example below converts a second-order profile from station samples to
//! cumulative time and then samples the inverse map `s(t)`.
//!
//! ```rust
//! # fn main() -> Result<(), copp::diag::CoppError> {
//! use copp::InterpolationMode;
//! use copp::solver::topp2_ra::{s_to_t_topp2, t_to_s_topp2};
//!
//! let s = [0.0, 0.5, 1.0];
//! let a = [1.0, 1.0, 1.0];
//!
//! let (_t_final, t_s) = s_to_t_topp2(&s, &a, 0.0)?;
//! let s_t = t_to_s_topp2(
//!     &s,
//!     &a,
//!     &t_s,
//!     InterpolationMode::UniformTimeGrid(0.0, 0.25, true),
//! )?;
//!
//! assert_eq!(s_t.first().copied(), Some(0.0));
//! assert_eq!(s_t.last().copied(), Some(1.0));
//! # Ok(())
//! # }
//! ```

// Changed: what these lines name stands in completed.rs.
use super::completed::{
    CoppError, InterpolationMode, check_input_len_at_least, check_input_len_equal,
    check_input_not_empty, check_input_not_nan_infinite, check_input_slice_non_negative,
    check_input_slice_not_nan_infinite, check_input_strictly_increasing, izip,
};

/// Compute segment profile `b` from node profile `a`.
///
/// # Definition
/// For each segment `[s_k, s_{k+1}]`, this function computes:
/// $b_k = \frac{1}{2}\frac{a_{k+1}-a_k}{s_{k+1}-s_k}$.
///
/// # Input contract
/// - valid when `s.len() >= 2` and `a.len() == s.len()`;
/// - `s` must be finite and strictly increasing;
/// - `a` must contain only finite values.
///
/// # Returns
/// Returns `b` with `b.len() == s.len() - 1`.
///
/// # Errors
/// Returns [`CoppError::InvalidInput`](crate::diag::CoppError::InvalidInput) when dimensions, monotonicity, or numeric
/// finiteness requirements are violated.
///
/// # Contract
/// - Output ordering is consistent with segment ordering on `s.windows(2)`.
/// - No allocation beyond returned vector and iterator temporaries.
pub fn a_to_b_topp2(s: &[f64], a: &[f64]) -> Result<Vec<f64>, CoppError> {
    check_topp2_sa("a_to_b_topp2", s, a)?;
    Ok(s.windows(2)
        .zip(a.windows(2))
        .map(|(s_pair, a_pair)| 0.5 * (a_pair[1] - a_pair[0]) / (s_pair[1] - s_pair[0]))
        .collect::<Vec<f64>>())
}

/// Compute cumulative time profile `t(s)` from `a(s)`.
///
/// # Semantics
/// - `t_s[i]` is the time at station `s[i]`.
/// - initial condition is `t_s[0] = t0`.
/// - returns `(t_final, t_s)` where `t_final == *t_s.last().unwrap()`.
///
/// # Input contract
/// - valid when `s.len() >= 2` and `a.len() == s.len()`;
/// - `s`, `a`, and `t0` must contain only finite values;
/// - `s` must be strictly increasing;
/// - each interval must have finite positive speed denominator.
///
/// # Returns
/// Returns `(t_final, t_s)` with `t_s.len() == s.len()` on valid input.
///
/// # Errors
/// Returns [`CoppError::InvalidInput`](crate::diag::CoppError::InvalidInput) when dimensions, monotonicity, positivity,
/// or numeric finiteness requirements are violated.
///
/// # Contract
/// - `t_s` is monotonically increasing when `a` is nonnegative and `s` is increasing.
/// - `t_s[0] == t0` always holds on valid input.
pub fn s_to_t_topp2(s: &[f64], a: &[f64], t0: f64) -> Result<(f64, Vec<f64>), CoppError> {
    check_topp2_sa("s_to_t_topp2", s, a)?;
    check_input_not_nan_infinite("s_to_t_topp2", "t0", t0)?;
    check_topp2_time_denominator("s_to_t_topp2", a)?;
    // Map s to t
    let mut t_s = Vec::<f64>::with_capacity(s.len()); // t_s[i] = t(s[i]), begin from t0
    let mut t_prev = t0;
    t_s.push(t_prev);
    for (s_pair, a_pair) in s.windows(2).zip(a.windows(2)) {
        t_prev += 2.0 * (s_pair[1] - s_pair[0]) / (a_pair[0].sqrt() + a_pair[1].sqrt());
        t_s.push(t_prev);
    }
    if !t_prev.is_finite() || t_s.iter().any(|value| !value.is_finite()) {
        return Err(CoppError::InvalidInput(
            "s_to_t_topp2".into(),
            "computed time profile contains NaN or infinity".into(),
        ));
    }
    Ok((t_prev, t_s))
}

/// Interpolate inverse mapping `s(t)` from `a(s)` and sampled `t(s)`.
///
/// # Modes
/// - [`UniformTimeGrid`](crate::InterpolationMode::UniformTimeGrid)`(t0, dt, include_final)`: generate uniform time samples;
/// - `NonUniformTimeGrid(t_sample)`: use caller-provided increasing samples.
///
/// # Input contract
/// - requires `s.len() >= 2`, `a.len() == s.len()`, `t_s.len() == s.len()`;
/// - requires `t_s` strictly increasing.
/// - all profile and time-grid values must be finite.
///
/// # Output semantics
/// - output length matches requested sample count in each mode;
/// - for out-of-range time samples, output entries are `NaN`.
///
/// # Returns
/// Returns sampled `s(t)` values according to `mode`.
///
/// # Errors
/// Returns [`CoppError::InvalidInput`](crate::diag::CoppError::InvalidInput) when dimensions, monotonicity, positivity,
/// or numeric finiteness requirements are violated.
///
/// # Contract
/// - preserves requested sample order;
/// - malformed input is reported as [`CoppError::InvalidInput`](crate::diag::CoppError::InvalidInput).
pub fn t_to_s_topp2(
    s: &[f64],
    a: &[f64],
    t_s: &[f64],
    mode: InterpolationMode<'_>,
) -> Result<Vec<f64>, CoppError> {
    check_topp2_sa("t_to_s_topp2", s, a)?;
    check_topp2_time_denominator("t_to_s_topp2", a)?;
    check_input_len_equal(
        "t_to_s_topp2",
        "`t_s.len()`",
        t_s.len(),
        "`s.len()`",
        s.len(),
    )?;
    check_input_slice_not_nan_infinite("t_to_s_topp2", "t_s", t_s)?;
    check_input_strictly_increasing("t_to_s_topp2", "t_s", t_s)?;
    match mode {
        InterpolationMode::UniformTimeGrid(t0, dt, include_final) => {
            check_input_not_nan_infinite("t_to_s_topp2", "t0", t0)?;
            check_input_not_nan_infinite("t_to_s_topp2", "dt", dt)?;
            if dt <= 0.0 {
                return Err(CoppError::InvalidInput(
                    "t_to_s_topp2".into(),
                    format!("`dt` = {dt} must be positive"),
                ));
            }
            // num_t * dt + t0 <= t_final
            let num_t = ((t_s.last().unwrap() - t0) / dt).floor() as usize;
            let mut s_t =
                t_to_s_topp2_core(s, a, t_s, (0..num_t).map(|i| t0 + i as f64 * dt), num_t);
            if include_final {
                let flag = if s_t.is_empty() {
                    t0 <= *t_s.last().unwrap()
                } else {
                    *s_t.last().unwrap() < *s.last().unwrap()
                };
                if flag {
                    s_t.push(*s.last().unwrap());
                }
            }
            Ok(s_t)
        }
        InterpolationMode::NonUniformTimeGrid(t_sample) => {
            check_input_not_empty("t_to_s_topp2", "`t_sample`", t_sample.len())?;
            check_input_slice_not_nan_infinite("t_to_s_topp2", "t_sample", t_sample)?;
            check_input_strictly_increasing("t_to_s_topp2", "t_sample", t_sample)?;
            Ok(t_to_s_topp2_core(
                s,
                a,
                t_s,
                t_sample.iter().cloned(),
                t_sample.len(),
            ))
        }
    }
}

/// Check the shared TOPP2 profile shape and station-ordering contract.
///
/// The second-order interpolation routines all require a node-based `a(s)`
/// profile sampled on the same strictly increasing station grid `s`.
fn check_topp2_sa(function_name: &str, s: &[f64], a: &[f64]) -> Result<(), CoppError> {
    check_input_len_at_least(function_name, "`s.len()`", s.len(), 2)?;
    check_input_len_equal(function_name, "`a.len()`", a.len(), "`s.len()`", s.len())?;
    check_input_slice_not_nan_infinite(function_name, "s", s)?;
    check_input_slice_not_nan_infinite(function_name, "a", a)?;
    check_input_strictly_increasing(function_name, "s", s)
}

/// Check the TOPP2 time-integration denominator.
///
/// The mapping from `s` to `t` divides by
/// `sqrt(a[i]) + sqrt(a[i + 1])`; this helper rejects negative `a` values and
/// zero-speed intervals before the integration loop.
fn check_topp2_time_denominator(function_name: &str, a: &[f64]) -> Result<(), CoppError> {
    check_input_slice_non_negative(function_name, "a", a)?;
    if let Some((index, _pair)) = a.windows(2).enumerate().find(|(_, pair)| {
        let denominator = pair[0].sqrt() + pair[1].sqrt();
        !denominator.is_finite() || denominator <= 0.0
    }) {
        return Err(CoppError::InvalidInput(
            function_name.into(),
            format!(
                "`sqrt(a[{index}]) + sqrt(a[{}])` must be finite and positive",
                index + 1
            ),
        ));
    }
    Ok(())
}

/// Core inverse interpolation kernel for [`t_to_s_topp2`](crate::solver::topp2_ra::t_to_s_topp2).
///
/// It consumes increasing `t_sample` values and emits corresponding `s(t)` by
/// segment-wise inversion with quadratic-in-`a` local model.
fn t_to_s_topp2_core(
    s: &[f64],
    a: &[f64],
    t_s: &[f64],
    mut t_sample: impl Iterator<Item = f64>,
    len_t_sample: usize,
) -> Vec<f64> {
    let &t_start = t_s.first().unwrap();
    // Map t to s
    let mut s_t = Vec::<f64>::with_capacity(len_t_sample + 1); // s_t[i] = s(t[i])
    let Some(mut t_curr) = t_sample.next() else {
        return vec![];
    };
    while t_curr < t_start {
        s_t.push(f64::NAN);
        let Some(t) = t_sample.next() else {
            return s_t;
        };
        t_curr = t;
    }

    for (s_pair, a_pair, t_pair) in izip!(s.windows(2), a.windows(2), t_s.windows(2)) {
        while t_curr <= t_pair[1] {
            s_t.push(
                s_pair[0]
                    + inverse_2order(
                        a_pair[0],
                        (a_pair[1] - a_pair[0]) / (s_pair[1] - s_pair[0]),
                        t_curr - t_pair[0],
                    ),
            );
            let Some(t) = t_sample.next() else {
                return s_t;
            };
            t_curr = t;
        }
    }

    s_t.push(f64::NAN);
    while t_sample.next().is_some() {
        s_t.push(f64::NAN);
    }
    s_t
}

/// Solve `x_right` from the integral equation
/// $dt = \int_{0}^{x_{right}} \frac{dx}{\sqrt{c_0 + c_1 x}}$.
#[inline(always)]
fn inverse_2order(c0: f64, c1: f64, dt: f64) -> f64 {
    dt * c1.mul_add(0.25 * dt, c0.sqrt())
}

