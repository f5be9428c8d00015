//! The conversions with a list of their own, as long as what is written.

use crate::{whole_part, Counts, Refusal, MAX_SAMPLES};

/// [`a_to_b`](crate::a_to_b) into a new list.
///
/// ```
/// let b = malikoza::owned::a_to_b(&[0.0, 1.0, 3.0], &[0.0, 4.0, 4.0])?;
/// assert_eq!(b, [2.0, 0.0]);
/// # Ok::<(), malikoza::Refusal>(())
/// ```
///
/// # Errors
///
/// Those of [`a_to_b`](crate::a_to_b) but 29.
pub fn a_to_b(s: &[f64], a: &[f64]) -> Result<Vec<f64>, Refusal> {
    let mut out = vec![0.0; s.len().saturating_sub(1)];
    crate::a_to_b(s, a, &mut out)?;
    Ok(out)
}

/// [`s_to_t`](crate::s_to_t) into a new list.
///
/// ```
/// let t = malikoza::owned::s_to_t(&[0.0, 1.0, 3.0], &[0.0, 4.0, 4.0], 10.0)?;
/// assert_eq!(t, [10.0, 11.0, 12.0]);
/// # Ok::<(), malikoza::Refusal>(())
/// ```
///
/// # Errors
///
/// Those of [`s_to_t`](crate::s_to_t) but 29.
pub fn s_to_t(s: &[f64], a: &[f64], t0: f64) -> Result<Vec<f64>, Refusal> {
    let mut out = vec![0.0; s.len()];
    crate::s_to_t(s, a, t0, &mut out)?;
    Ok(out)
}

/// [`t_to_s_list`](crate::t_to_s_list) into a new list.
///
/// ```
/// let (s, a, t) = ([0.0, 1.0, 3.0], [0.0, 4.0, 4.0], [10.0, 11.0, 12.0]);
/// let (stations, counts) = malikoza::owned::t_to_s_list(&s, &a, &t, &[10.5, 11.5])?;
/// assert_eq!((stations, counts.inside), (vec![0.25, 2.0], 2));
/// # Ok::<(), malikoza::Refusal>(())
/// ```
///
/// # Errors
///
/// Those of [`t_to_s_list`](crate::t_to_s_list) but 29.
pub fn t_to_s_list(s: &[f64], a: &[f64], t: &[f64], samples: &[f64]) -> Result<(Vec<f64>, Counts), Refusal> {
    let mut out = vec![0.0; samples.len()];
    let counts = crate::t_to_s_list(s, a, t, samples, &mut out)?;
    Ok((out, counts))
}

/// The room that a grid needs: a place for each of its times, and one for the final. A grid of more than the most
/// times is refused, whatever room it is lent.
fn grid_room(t: &[f64], t0: f64, dt: f64, with_final: bool) -> usize {
    let last = t.last().copied().unwrap_or(t0);
    let times = usize::try_from(whole_part((last - t0) / dt)).unwrap_or(MAX_SAMPLES);
    times.min(MAX_SAMPLES) + usize::from(with_final)
}

/// [`t_to_s_grid`](crate::t_to_s_grid) into a new list.
///
/// ```
/// let (s, a, t) = ([0.0, 1.0, 3.0], [0.0, 4.0, 4.0], [10.0, 11.0, 12.0]);
/// let grid = |t0, dt| malikoza::owned::t_to_s_grid(&s, &a, &t, t0, dt, true).unwrap().0;
/// assert_eq!(grid(10.0, 0.5), [0.0, 0.25, 1.0, 2.0, 3.0]);
/// assert_eq!(grid(12.0, 1.0), [3.0]);
/// assert_eq!(grid(13.0, 1.0), []);
/// ```
///
/// # Errors
///
/// Those of [`t_to_s_grid`](crate::t_to_s_grid) but 29.
pub fn t_to_s_grid(
    s: &[f64], a: &[f64], t: &[f64], t0: f64, dt: f64, with_final: bool,
) -> Result<(Vec<f64>, Counts), Refusal> {
    let mut out = vec![0.0; grid_room(t, t0, dt, with_final)];
    let counts = crate::t_to_s_grid(s, a, t, t0, dt, with_final, &mut out)?;
    out.truncate(counts.written);
    Ok((out, counts))
}
