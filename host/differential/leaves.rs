//! The number leaves beside Rust's own functions, and the three that round beside "nearest" itself.

use crate::case::{alike, pattern, Case, Entry};
use crate::exact;
use crate::library;
#[allow(unused_imports)]
use crate::original::completed::NextDown;
use crate::original::hypot;
use crate::random::{Random, SIGN};
use crate::recovery_rules::{maximum, minimum};
use crate::slips::Slip;

/// What Rust says; of minimum, maximum and hypot, which Rust leaves open in part, what document 01 says. The whole part is the number itself, all others are
/// patterns.
pub fn expected(entry: Entry, patterns: [u64; 3], slip: Slip) -> u64 {
    let [x, y, z] = patterns.map(f64::from_bits);
    match entry {
        Entry::Sqrt => pattern(x.sqrt()),
        Entry::Fma if slip == Slip::PlainFma => pattern(x * y + z),
        Entry::Fma => pattern(x.mul_add(y, z)),
        Entry::Hypot if slip == Slip::PlainHypot => pattern((x * x + y * y).sqrt()),
        Entry::Hypot => pattern(hypot(x, y)),
        Entry::NextDown => pattern(x.next_down()),
        Entry::Minimum => pattern(minimum(x, y)),
        Entry::Maximum => pattern(maximum(x, y)),
        Entry::Absolute => pattern(x.abs()),
        Entry::WholePart => x.floor() as u64,
        other => unreachable!("{other:?} is no leaf"),
    }
}

/// What else must hold of an answer: it is the nearest where it is rounded, and Rust's own minimum or maximum but for the sign of a zero.
pub fn holds(entry: Entry, patterns: [u64; 3], answer: u64) -> bool {
    let [x, y, z] = patterns;
    match entry {
        Entry::Sqrt => exact::is_root(x, answer),
        Entry::Fma => exact::is_fma(x, y, z, answer),
        Entry::Hypot => exact::is_hypot(x, y, answer),
        Entry::Minimum => alike(answer, f64::from_bits(x).min(f64::from_bits(y))),
        Entry::Maximum => alike(answer, f64::from_bits(x).max(f64::from_bits(y))),
        _ => true,
    }
}

/// Whether the library's answer is the expected pattern, zeros told apart and every NaN 7FF8000000000000, and holds otherwise too.
pub fn is_right(entry: Entry, patterns: [u64; 3], slip: Slip) -> bool {
    let answer = library::leaf(entry, patterns);
    answer == expected(entry, patterns, slip) && holds(entry, patterns, answer)
}

pub fn case(entry: Entry, patterns: [u64; 3]) -> Case {
    let numbers = patterns[..entry.names().1.len()].to_vec();
    Case { entry, numbers, lists: vec![], room: 0 }
}

/// What both sides say, if they differ.
pub fn difference(case: &Case, slip: Slip) -> Option<String> {
    let mut patterns = [0; 3];
    patterns[..case.numbers.len()].copy_from_slice(&case.numbers);
    if is_right(case.entry, patterns, slip) {
        return None;
    }
    let answer = library::leaf(case.entry, patterns);
    let holds = if holds(case.entry, patterns, answer) { "" } else { ", which is not the nearest, or not Rust's" };
    Some(format!("  library: {answer:016x}{holds}\n  expected: {:016x}", expected(case.entry, patterns, slip)))
}

/// Patterns for one leaf, such that each of its cases comes often.
pub fn patterns(entry: Entry, random: &mut Random) -> [u64; 3] {
    let (x, y, z) = (random.pattern(), random.pattern(), random.pattern());
    let kind = random.below(4);
    match (entry, kind) {
        // squares of doubles, squares of short ones, and their neighbours: exact roots and points half way
        (Entry::Sqrt, 0) => [random.beside(square(y)), 0, 0],
        (Entry::Sqrt, 1) => [random.beside(square(y & !0x3ff_ffff)), 0, 0],
        // the product nearly cancelled
        (Entry::Fma, 0 | 1) => {
            let product = pattern(f64::from_bits(x) * f64::from_bits(y));
            [x, y, random.beside(product) ^ SIGN]
        }
        // few digits, and an addend up to 2^70 times the product or its part: sums at a double, half way between two, and beside both
        (Entry::Fma, 2) => {
            let (x, y) = (x & !0x3ff_ffff, y & (!0 << random.below(53)));
            let product = f64::from_bits(x) * f64::from_bits(y);
            let addend = pattern(product * random.power(-70, 71)) & (!0 << random.below(53));
            [x, y, random.beside(addend) ^ (random.next() & SIGN)]
        }
        // parts of like size
        (Entry::Hypot, 0) => [x, x.wrapping_add(random.next() >> random.below(64)), 0],
        // m² - k² and 2mk: their length m² + k² is exact, or half way between two doubles if it has 54 digits
        (Entry::Hypot, 1) => {
            let (m, k) = (random.below(94_906_265) as f64, random.below(94_906_265) as f64);
            let scale = random.power(-1074, 900);
            [pattern((m * m - k * k) * scale), pattern(2.0 * m * k * scale), 0]
        }
        (Entry::Minimum | Entry::Maximum, 0) => [x, x ^ SIGN, 0],
        (Entry::Minimum | Entry::Maximum, 1) => [x, random.beside(x), 0],
        // whole numbers of every size and their neighbours, 2^64 among them
        (Entry::WholePart, 0 | 1) => {
            let whole = (random.next() >> random.below(64)) as f64;
            [random.beside(whole.to_bits()), 0, 0]
        }
        _ => [x, y, z],
    }
}

fn square(x: u64) -> u64 {
    pattern(f64::from_bits(x) * f64::from_bits(x))
}

/// The pattern of a magnitude that has one of all 2^11 exponents, with all its digits or few.
fn of_any_exponent(random: &mut Random) -> u64 {
    let digits = random.next() >> 12;
    let short = !0 << random.below(53);
    random.below(2048) << 52 | if random.one_in(2) { digits } else { digits & short }
}

/// The double below the square of a point half way between two doubles, of any exponent that such a square has: its root is as near to that point as one can be.
fn square_of_half_way(random: &mut Random) -> u64 {
    let half_way = u128::from((random.next() >> 11 | 1 << 52) * 2 + 1);
    let square = half_way * half_way;
    let size = 128 - square.leading_zeros();
    let digits = (square >> (size - 53)) as u64;
    let exponent = 2 * random.below(1023) + u64::from(size - 106);
    exponent << 52 | digits & ((1 << 52) - 1)
}

/// Patterns for the root: squares of doubles and of points half way, their neighbours, subnormals, every exponent.
pub fn for_the_root(random: &mut Random) -> [u64; 3] {
    let x = match random.below(6) {
        0 => random.next() >> (12 + random.below(52)),
        1 => square_of_half_way(random),
        2 => {
            let half_way = square_of_half_way(random);
            random.beside(half_way)
        }
        3 => of_any_exponent(random),
        _ => return patterns(Entry::Sqrt, random),
    };
    [x, 0, 0]
}

/// Patterns for a length: every exponent, and parts as far apart as make a difference, or a little further.
pub fn for_a_length(random: &mut Random) -> [u64; 3] {
    if random.one_in(2) {
        return patterns(Entry::Hypot, random);
    }
    let (x, y) = (of_any_exponent(random), of_any_exponent(random));
    let apart = (x >> 52).saturating_sub(random.below(31)) << 52;
    [x, apart | y & ((1 << 52) - 1), 0]
}
