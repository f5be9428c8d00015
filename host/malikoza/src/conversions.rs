//! Stations, speeds and times, into lent slices.

use crate::entries::{self, list, list_mut};
use crate::refusal::{self, Refusal};

/// How many sample times fell where, and how many entries were written. A final station that was added is an entry but
/// no time.
#[derive(Clone, Copy, Debug, PartialEq, Eq)]
pub struct Counts {
    /// Times before the first station's; their entries are NaN.
    pub before: usize,
    /// Times inside the profile.
    pub inside: usize,
    /// Times past the last station's; their entries are NaN.
    pub past: usize,
    /// Entries written to the front of the output.
    pub written: usize,
}

/// The four counts as an entry writes them.
#[derive(Default)]
struct Lent {
    before: u64,
    inside: u64,
    past: u64,
    written: u64,
}

impl Lent {
    #[allow(clippy::cast_possible_truncation)] // none of them is above the most samples and a final
    fn counts(&self) -> Counts {
        Counts {
            before: self.before as usize,
            inside: self.inside as usize,
            past: self.past as usize,
            written: self.written as usize,
        }
    }
}

/// The acceleration along the path, 0.5·(a1 - a0)/(s1 - s0), between each pair of neighbouring stations.
///
/// Writes one entry fewer than there are stations.
///
/// ```
/// let mut b = [0.0; 2];
/// malikoza::a_to_b(&[0.0, 1.0, 3.0], &[0.0, 4.0, 4.0], &mut b)?;
/// assert_eq!(b, [2.0, 0.0]);
/// # Ok::<(), malikoza::Refusal>(())
/// ```
///
/// # Errors
///
/// Refusals 11 to 15, 29; of several that hold, the first in that order.
pub fn a_to_b(s: &[f64], a: &[f64], out: &mut [f64]) -> Result<(), Refusal> {
    let ((s, s_len), (a, a_len), (out, out_len)) = (list(s), list(a), list_mut(out));
    // SAFETY: each pointer stands with the length of its own slice, and nothing else is lent with `out`.
    refusal::none(unsafe { entries::malikoza_a_to_b(s, s_len, a, a_len, out, out_len) })
}

/// The time at each station: t0 at the first, then 2·(s1 - s0)/(root a0 + root a1) more for each pair.
///
/// Writes one entry for each station.
///
/// ```
/// let mut t = [0.0; 3];
/// malikoza::s_to_t(&[0.0, 1.0, 3.0], &[0.0, 4.0, 4.0], 10.0, &mut t)?;
/// assert_eq!(t, [10.0, 11.0, 12.0]);
/// # Ok::<(), malikoza::Refusal>(())
/// ```
///
/// # Errors
///
/// Refusals 11 to 18, 29, 19; of several that hold, the first in that order.
pub fn s_to_t(s: &[f64], a: &[f64], t0: f64, out: &mut [f64]) -> Result<(), Refusal> {
    let ((s, s_len), (a, a_len), (out, out_len)) = (list(s), list(a), list_mut(out));
    // SAFETY: each pointer stands with the length of its own slice, and nothing else is lent with `out`.
    refusal::none(unsafe { entries::malikoza_s_to_t(s, s_len, a, a_len, t0.to_bits(), out, out_len) })
}

/// Where the knife is at each time of a list; NaN before the first station's time and past the last's.
///
/// `t` holds the stations' times, as [`s_to_t`] gives them. Writes one entry for each sample.
///
/// ```
/// let samples = [9.0, 10.0, 10.5, 11.0, 11.5, 12.0, 12.5];
/// let mut out = [0.0; 7];
/// let counts = malikoza::t_to_s_list(&[0.0, 1.0, 3.0], &[0.0, 4.0, 4.0], &[10.0, 11.0, 12.0], &samples, &mut out)?;
/// assert_eq!(out[1..6], [0.0, 0.25, 1.0, 2.0, 3.0]);
/// assert!(out[0].is_nan() && out[6].is_nan());
/// assert_eq!(counts, malikoza::Counts { before: 1, inside: 5, past: 1, written: 7 });
/// # Ok::<(), malikoza::Refusal>(())
/// ```
///
/// # Errors
///
/// Refusals 11 to 15, 17, 18, 20 to 22, 25, 28, 26, 27, 29; of several that hold, the first in that order.
pub fn t_to_s_list(s: &[f64], a: &[f64], t: &[f64], samples: &[f64], out: &mut [f64]) -> Result<Counts, Refusal> {
    let ((s, s_len), (a, a_len), (t, t_len)) = (list(s), list(a), list(t));
    let ((samples, samples_len), (out, out_len)) = (list(samples), list_mut(out));
    let mut lent = Lent::default();
    let Lent { before, inside, past, written } = &mut lent;
    // SAFETY: each pointer stands with the length of its own slice; `out` and the counts are lent for this call alone.
    refusal::none(unsafe {
        entries::malikoza_t_to_s_list(
            s,
            s_len,
            a,
            a_len,
            t,
            t_len,
            samples,
            samples_len,
            out,
            out_len,
            before,
            inside,
            past,
            written,
        )
    })?;
    Ok(lent.counts())
}

/// Where the knife is at each time of an even grid; NaN before the first station's time and past the last's.
///
/// The grid's times are t0 + i·dt for i from 0 to n-1, n being the whole part of (last time - t0)/dt, 0 if that is
/// below 1. With the final asked for and t0 at or before the last time, the last station is added unless there is a last
/// entry that is at or past it; a NaN entry counts as not there.
///
/// Needs room for n entries, and for one more if the final is asked for, added or not.
///
/// ```
/// let (s, a, t) = ([0.0, 1.0, 3.0], [0.0, 4.0, 4.0], [10.0, 11.0, 12.0]);
/// let mut out = [0.0; 5];
/// let counts = malikoza::t_to_s_grid(&s, &a, &t, 10.0, 0.5, true, &mut out)?;
/// assert_eq!(out, [0.0, 0.25, 1.0, 2.0, 3.0]);
/// assert_eq!(counts, malikoza::Counts { before: 0, inside: 4, past: 0, written: 5 });
/// # Ok::<(), malikoza::Refusal>(())
/// ```
///
/// A coarse preview from before the start has its end all the same:
///
/// ```
/// let (s, a, t) = ([0.0, 1.0, 3.0], [0.0, 4.0, 4.0], [10.0, 11.0, 12.0]);
/// let mut out = [0.0; 2];
/// let counts = malikoza::t_to_s_grid(&s, &a, &t, 8.0, 3.0, true, &mut out)?;
/// assert!(out[0].is_nan() && out[1] == 3.0);
/// assert_eq!(counts, malikoza::Counts { before: 1, inside: 0, past: 0, written: 2 });
/// # Ok::<(), malikoza::Refusal>(())
/// ```
///
/// # Errors
///
/// Refusals 11 to 15, 17, 18, 20 to 22, 16, 23, 24, 28, 29; of several that hold, the first in that order.
pub fn t_to_s_grid(
    s: &[f64], a: &[f64], t: &[f64], t0: f64, dt: f64, with_final: bool, out: &mut [f64],
) -> Result<Counts, Refusal> {
    let ((s, s_len), (a, a_len), (t, t_len), (out, out_len)) = (list(s), list(a), list(t), list_mut(out));
    let mut lent = Lent::default();
    let Lent { before, inside, past, written } = &mut lent;
    // SAFETY: each pointer stands with the length of its own slice; `out` and the counts are lent for this call alone.
    refusal::none(unsafe {
        entries::malikoza_t_to_s_grid(
            s,
            s_len,
            a,
            a_len,
            t,
            t_len,
            t0.to_bits(),
            dt.to_bits(),
            with_final.into(),
            out,
            out_len,
            before,
            inside,
            past,
            written,
        )
    })?;
    Ok(lent.counts())
}
