//! The number leaves. They refuse nothing.

use crate::entries;

/// The double nearest to the square root. Zeros and plus infinity give themselves; other negatives and NaN give NaN.
///
/// ```
/// assert_eq!(malikoza::sqrt(2.0).to_bits(), 0x3FF6A09E667F3BCD);
/// let least = f64::from_bits(1); // 2^-1074
/// assert_eq!(malikoza::sqrt(least), 2f64.powi(-537));
/// ```
#[must_use]
pub fn sqrt(x: f64) -> f64 {
    f64::from_bits(entries::malikoza_sqrt(x.to_bits()))
}

/// The double nearest to xy + z, rounded once; zeros, infinities and NaN as IEEE 754 has them.
///
/// ```
/// let e = 2f64.powi(-52);
/// assert_eq!(malikoza::fma(1.0 + e, 1.0 - e, -1.0), -2f64.powi(-104));
/// assert_eq!((1.0 + e) * (1.0 - e) - 1.0, 0.0); // rounded twice
/// ```
#[must_use]
pub fn fma(x: f64, y: f64, z: f64) -> f64 {
    f64::from_bits(entries::malikoza_fma(x.to_bits(), y.to_bits(), z.to_bits()))
}

/// The double nearest to the root of x² + y². An infinite part gives plus infinity; else a NaN part gives NaN.
///
/// ```
/// assert_eq!(malikoza::hypot(3.0, 4.0), 5.0);
/// let least = f64::from_bits(1); // 2^-1074
/// assert_eq!(malikoza::hypot(least, least), least);
/// assert_eq!(malikoza::hypot(f64::MAX, f64::MAX), f64::INFINITY);
/// ```
#[must_use]
pub fn hypot(x: f64, y: f64) -> f64 {
    f64::from_bits(entries::malikoza_hypot(x.to_bits(), y.to_bits()))
}

/// The next smaller double. Both zeros go to -2^-1074; minus infinity and NaN stay.
///
/// ```
/// let least = f64::from_bits(1); // 2^-1074
/// assert_eq!(malikoza::next_down(0.0), -least);
/// ```
#[must_use]
pub fn next_down(x: f64) -> f64 {
    f64::from_bits(entries::malikoza_next_down(x.to_bits()))
}

/// The lesser of two. A NaN yields the other operand; minus zero counts below plus zero.
///
/// ```
/// assert_eq!(malikoza::minimum(f64::NAN, 1.0), 1.0);
/// assert!(malikoza::minimum(0.0, -0.0).is_sign_negative());
/// ```
#[must_use]
pub fn minimum(x: f64, y: f64) -> f64 {
    f64::from_bits(entries::malikoza_minimum(x.to_bits(), y.to_bits()))
}

/// The greater of two. A NaN yields the other operand; minus zero counts below plus zero.
///
/// ```
/// assert_eq!(malikoza::maximum(f64::NAN, 1.0), 1.0);
/// assert!(malikoza::maximum(-0.0, 0.0).is_sign_positive());
/// ```
#[must_use]
pub fn maximum(x: f64, y: f64) -> f64 {
    f64::from_bits(entries::malikoza_maximum(x.to_bits(), y.to_bits()))
}

/// The double without its sign.
///
/// ```
/// assert_eq!(malikoza::absolute(-3.0), 3.0);
/// ```
#[must_use]
pub fn absolute(x: f64) -> f64 {
    f64::from_bits(entries::malikoza_absolute(x.to_bits()))
}

/// The whole part: 0 below 1 and for NaN, the largest `u64` from 2^64 up.
///
/// ```
/// assert_eq!(malikoza::whole_part(3.75), 3);
/// assert_eq!(malikoza::whole_part(-3.75), 0);
/// ```
#[must_use]
pub fn whole_part(x: f64) -> u64 {
    entries::malikoza_whole_part(x.to_bits())
}
