//! Hypot, correctly rounded by exact integers. Document 01: "Rust leaves its own precision open, so the oracle's is correctly rounded."

use std::cmp::Ordering;

const INFINITY: u64 = 0x7ff0_0000_0000_0000;

/// The whole m and the exponent e of a magnitude's pattern, which stands for m · 2^e. Infinity's reads as 2^1024, so that the point half way below it is the
/// limit of overflow, 2^1024 - 2^970.
fn parts(pattern: u64) -> (u64, u32) {
    let field = pattern >> 52;
    let fraction = pattern & ((1 << 52) - 1);
    if field == 0 { (fraction, 1) } else { (fraction | 1 << 52, field as u32) }
}

/// "An infinite part gives plus infinity; else a NaN part gives NaN; else nearest to the root of x² + y²."
pub fn hypot(x: f64, y: f64) -> f64 {
    if x.is_infinite() || y.is_infinite() {
        return f64::INFINITY;
    }
    if x.is_nan() || y.is_nan() {
        return f64::NAN;
    }
    let (large, small) = if x.abs() < y.abs() { (y.abs(), x.abs()) } else { (x.abs(), y.abs()) };
    let ((large_m, large_e), (small_m, small_e)) = (parts(large.to_bits()), parts(small.to_bits()));
    // The root exceeds the larger part by less than y²/2x < x · 2^(1 - 2 · 28), which is less than half its last place.
    if large_e >= small_e + 28 {
        return large;
    }
    // All below in units of the smaller part's last place; nothing reaches 2^127, as the root exceeds `wide` by at most narrow²/(2 · wide).
    let in_units = |pattern: u64| {
        let (m, e) = parts(pattern);
        i128::from(m) << (e - small_e)
    };
    let (wide, narrow) = (i128::from(large_m) << (large_e - small_e), i128::from(small_m));
    // Whether the root lies above the point half way from r to the next double, or on it with r odd: twice the root against the sum h of both,
    // 4·wide² + 4·narrow² against h².
    let rounds_above = |r: u64| {
        let h = in_units(r) + in_units(r + 1);
        match (4 * narrow * narrow).cmp(&((h - 2 * wide) * (h + 2 * wide))) {
            Ordering::Greater => true,
            Ordering::Equal => r % 2 == 1,
            Ordering::Less => false,
        }
    };
    // The answer is the least double, not below the larger part, that is not rounded above. The platform's hypot is only where the search starts.
    let least = large.to_bits();
    let mut r = large.hypot(small).to_bits().max(least);
    while r < INFINITY && rounds_above(r) {
        r += 1;
    }
    while r > least && !rounds_above(r - 1) {
        r -= 1;
    }
    f64::from_bits(r)
}
