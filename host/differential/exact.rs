//! "Nearest" itself, over whole numbers: "the closest double, ties to even; an exact size of 2^1024 - 2^970 or more gives infinity", squares compared with squares.

use crate::random::{INFINITY, NAN, SIGN};
use std::cmp::Ordering;

/// Whole numbers of any length, low word first: as much as the exact tests need.
struct Whole(Vec<u64>);

impl Whole {
    fn from(n: u64) -> Whole {
        Whole(vec![n]).trimmed()
    }

    fn trimmed(mut self) -> Whole {
        while self.0.last() == Some(&0) {
            self.0.pop();
        }
        self
    }

    fn plus(&self, other: &Whole) -> Whole {
        let (mut sum, mut carry) = (Vec::new(), 0u128);
        for i in 0..self.0.len().max(other.0.len()) {
            let word = carry + *self.0.get(i).unwrap_or(&0) as u128 + *other.0.get(i).unwrap_or(&0) as u128;
            sum.push(word as u64);
            carry = word >> 64;
        }
        sum.push(carry as u64);
        Whole(sum).trimmed()
    }

    /// The difference, for an `other` that is not larger.
    fn minus(&self, other: &Whole) -> Whole {
        let (mut left, mut borrow) = (Vec::new(), false);
        for i in 0..self.0.len() {
            let (a, under) = self.0[i].overflowing_sub(*other.0.get(i).unwrap_or(&0));
            let (b, again) = a.overflowing_sub(borrow as u64);
            left.push(b);
            borrow = under || again;
        }
        Whole(left).trimmed()
    }

    fn times(&self, other: &Whole) -> Whole {
        let mut product = vec![0u64; self.0.len() + other.0.len() + 1];
        for (i, a) in self.0.iter().enumerate() {
            let mut carry = 0u128;
            for (j, b) in other.0.iter().enumerate() {
                let word = product[i + j] as u128 + *a as u128 * *b as u128 + carry;
                product[i + j] = word as u64;
                carry = word >> 64;
            }
            product[i + other.0.len()] = carry as u64;
        }
        Whole(product).trimmed()
    }

    fn shifted(&self, by: usize) -> Whole {
        let mut words = vec![0u64; by / 64];
        let (bits, mut carry) = (by % 64, 0u64);
        for word in &self.0 {
            words.push(word << bits | carry);
            carry = if bits == 0 { 0 } else { word >> (64 - bits) };
        }
        words.push(carry);
        Whole(words).trimmed()
    }

    fn compared_with(&self, other: &Whole) -> Ordering {
        self.0.len().cmp(&other.0.len()).then_with(|| self.0.iter().rev().cmp(other.0.iter().rev()))
    }
}

/// The size of a finite magnitude's pattern in units of 2^-1074. Infinity's counts as 2^1024, so that the last point half way is the limit of overflow.
fn units(magnitude: u64) -> Whole {
    let (field, fraction) = (magnitude >> 52, magnitude & ((1 << 52) - 1));
    if field == 0 {
        Whole::from(fraction)
    } else {
        Whole::from(fraction | 1 << 52).shifted(field as usize - 1)
    }
}

/// Whether the magnitude's pattern r is the nearest to a size of which `twice(k)` tells how twice it compares with k units.
fn is_nearest(r: u64, twice: impl Fn(&Whole) -> Ordering) -> bool {
    let on_its_side = |neighbour: u64, side: Ordering| {
        let half_way = twice(&units(r).plus(&units(neighbour)));
        half_way == side || half_way == Ordering::Equal && r % 2 == 0
    };
    r <= INFINITY
        && (r == INFINITY || on_its_side(r + 1, Ordering::Less))
        && (r == 0 || on_its_side(r - 1, Ordering::Greater))
}

/// A finite magnitude as a whole number of less than 2^53, and how often it is doubled: units again.
fn digits(magnitude: u64) -> (u64, i32) {
    let (field, fraction) = (magnitude >> 52, magnitude & ((1 << 52) - 1));
    if field == 0 {
        (fraction, 0)
    } else {
        (fraction | 1 << 52, field as i32 - 1)
    }
}

/// "plus and minus zero and plus infinity give themselves; other negatives and NaN give NaN; else the nearest"
///
/// A root has 53 digits, s, and at most 110 digits tell all: x and the squares of the points half way to its neighbours, on a grid of quarters of its last digit.
/// None of them is a double's root, so that there is no tie.
pub fn is_root(x: u64, r: u64) -> bool {
    if x == 0 || x == SIGN || x == INFINITY {
        return r == x;
    }
    if x > INFINITY {
        return r == NAN;
    }
    if !(1 << 52..INFINITY).contains(&r) {
        return false;
    }
    let ((m, e), (s, f)) = (digits(x), digits(r));
    let up = e + 1074 - 2 * f + 4;
    if !(0..64 + m.leading_zeros() as i32).contains(&up) {
        return false;
    }
    let (m, s) = (u128::from(m) << up, u128::from(s));
    let lower = 4 * s - if s == 1 << 52 { 1 } else { 2 };
    let upper = 4 * s + 2;
    lower * lower < m && m < upper * upper
}

/// "an infinite part gives plus infinity; else a NaN part gives NaN; else nearest to the root of x² + y²"
pub fn is_hypot(x: u64, y: u64, r: u64) -> bool {
    let (x, y) = (x & !SIGN, y & !SIGN);
    if x == INFINITY || y == INFINITY {
        return r == INFINITY;
    }
    if x > INFINITY || y > INFINITY {
        return r == NAN;
    }
    let (x, y) = (units(x), units(y));
    let four_times = x.times(&x).plus(&y.times(&y)).shifted(2);
    is_nearest(r, |k| four_times.compared_with(&k.times(k)))
}

/// "nearest to xy + z, one rounding", for three finite numbers with a product that is not zero; IEEE 754 leaves nothing to round in the other cases.
pub fn is_fma(x: u64, y: u64, z: u64, r: u64) -> bool {
    let [a, b, c] = [x, y, z].map(|p| p & !SIGN);
    if a >= INFINITY || b >= INFINITY || c >= INFINITY || a == 0 || b == 0 {
        return true;
    }
    // product and addend on the grid of squared units
    let (product, addend) = (units(a).times(&units(b)), units(c).shifted(1074));
    let (product_sign, addend_sign) = ((x ^ y) & SIGN, z & SIGN);
    let (sign, size) = if product_sign == addend_sign {
        (product_sign, product.plus(&addend))
    } else {
        match product.compared_with(&addend) {
            Ordering::Greater => (product_sign, product.minus(&addend)),
            Ordering::Less => (addend_sign, addend.minus(&product)),
            Ordering::Equal => (0, Whole::from(0)),
        }
    };
    let twice = size.shifted(1);
    r & SIGN == sign && is_nearest(r & !SIGN, |k| twice.compared_with(&k.shifted(1074)))
}
