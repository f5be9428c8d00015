//! A seeded generator, and doubles with the edges over-represented.

pub const SIGN: u64 = 1 << 63;
pub const INFINITY: u64 = 0x7ff0_0000_0000_0000;
pub const NAN: u64 = 0x7ff8_0000_0000_0000;

/// The next number of xorshift64*, so that a run can be repeated.
pub struct Random(u64);

/// Scatters a number's bits (the last steps of splitmix64).
fn scattered(n: u64) -> u64 {
    let n = (n ^ n >> 30).wrapping_mul(0xbf58_476d_1ce4_e5b9);
    let n = (n ^ n >> 27).wrapping_mul(0x94d0_49bb_1331_11eb);
    n ^ n >> 31
}

impl Random {
    /// The generator of one block of cases. It depends on nothing else, so that the number of threads does not change what is tried.
    pub fn new(seed: u64, part: u64, block: u64) -> Random {
        Random(scattered(scattered(scattered(seed) ^ part) ^ block) | 1)
    }

    pub fn next(&mut self) -> u64 {
        self.0 ^= self.0 >> 12;
        self.0 ^= self.0 << 25;
        self.0 ^= self.0 >> 27;
        self.0.wrapping_mul(0x2545_f491_4f6c_dd1d)
    }

    pub fn below(&mut self, n: u64) -> u64 {
        (self.next() >> 8) % n
    }

    /// A place in a list of n.
    pub fn place(&mut self, n: usize) -> usize {
        self.below(n as u64) as usize
    }

    pub fn one_in(&mut self, n: u64) -> bool {
        self.below(n) == 0
    }

    pub fn choose<T: Copy>(&mut self, from: &[T]) -> T {
        from[self.place(from.len())]
    }

    pub fn unit(&mut self) -> f64 {
        (self.next() >> 11) as f64 / (1u64 << 53) as f64
    }

    pub fn signed(&mut self) -> f64 {
        2.0 * self.unit() - 1.0
    }

    /// A power of two, its exponent from `low` to below `high`.
    pub fn power(&mut self, low: i32, high: i32) -> f64 {
        2f64.powi(low + self.below((high - low) as u64) as i32)
    }

    /// A pattern: any, an edge, a subnormal, a short significand, or one near 1 or near the largest.
    pub fn pattern(&mut self) -> u64 {
        let sign = self.next() & SIGN;
        let edges =
            [0, 1, 2, (1 << 52) - 1, 1 << 52, (1 << 52) + 1, INFINITY - 1, INFINITY, NAN, INFINITY + 1, 1f64.to_bits()];
        sign ^ match self.below(8) {
            0 => self.choose(&edges),
            1 => self.next() >> (12 + self.below(52)),
            2 => (self.next() % INFINITY) & !((1 << self.below(52)) - 1),
            3 => (1023 - 30 + self.below(60)) << 52 | self.next() >> 12,
            4 => (1023 - 2 + self.below(4)) << 52 | self.next() >> 12 & !((1 << self.below(52)) - 1),
            5 => INFINITY - 1 - (self.next() >> (12 + self.below(50))),
            _ => self.next(),
        }
    }

    /// A pattern some steps from another one.
    pub fn beside(&mut self, x: u64) -> u64 {
        x.wrapping_add(self.below(7)).wrapping_sub(3)
    }

    pub fn finite(&mut self) -> f64 {
        let x = f64::from_bits(self.pattern());
        if x.is_finite() {
            x
        } else {
            self.signed()
        }
    }

    pub fn edge(&mut self) -> f64 {
        self.choose(&[
            0.0,
            -0.0,
            f64::NAN,
            f64::INFINITY,
            f64::NEG_INFINITY,
            f64::MAX,
            -f64::MAX,
            5e-324,
            -5e-324,
            -1.0,
            1e-310,
        ])
    }

    pub fn not_finite(&mut self) -> f64 {
        self.choose(&[f64::NAN, f64::INFINITY, f64::NEG_INFINITY])
    }
}

/// The place of a double in the order of all, both zeros at 0.
fn rank(x: f64) -> i64 {
    let magnitude = (x.to_bits() & !SIGN) as i64;
    if x.is_sign_negative() {
        -magnitude
    } else {
        magnitude
    }
}

/// The double so many steps above (below, for a negative number) a finite one, and no further than the largest.
pub fn stepped(x: f64, steps: i64) -> f64 {
    let most = rank(f64::MAX);
    let rank = (rank(x) + steps).clamp(-most, most);
    let magnitude = f64::from_bits(rank.unsigned_abs());
    if rank < 0 {
        -magnitude
    } else {
        magnitude
    }
}
