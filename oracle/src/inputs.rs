//! Inputs: random bit patterns and ranges, and the places where functions turn.

/// A 64-bit xorshift generator, so that every run has the same inputs.
pub struct Random(u64);

impl Random {
    pub fn new(seed: u64) -> Random {
        Random(seed ^ 0x9e37_79b9_7f4a_7c15)
    }

    pub fn word(&mut self) -> u64 {
        self.0 ^= self.0 >> 12;
        self.0 ^= self.0 << 25;
        self.0 ^= self.0 >> 27;
        self.0.wrapping_mul(0x2545_f491_4f6c_dd1d)
    }

    pub fn below(&mut self, n: u64) -> u64 {
        self.word() % n
    }

    /// From 0 up to 1.
    pub fn unit(&mut self) -> f64 {
        (self.word() >> 11) as f64 / (1u64 << 53) as f64
    }

    /// Any float: a bit pattern.
    pub fn pattern(&mut self) -> f64 {
        f64::from_bits(self.word())
    }

    pub fn subnormal(&mut self) -> f64 {
        f64::from_bits(self.word() & 0x800f_ffff_ffff_ffff)
    }

    /// A float with an exponent near 0.
    pub fn middling(&mut self) -> f64 {
        let sign = self.word() & 1 << 63;
        let field = 1023 - 70 + self.below(140);
        f64::from_bits(sign | field << 52 | self.word() >> 12)
    }

    /// A neighbour of x, at most two patterns off.
    pub fn near(&mut self, x: f64) -> f64 {
        let step = self.below(5) as i64 - 2;
        neighbour(x, step)
    }

    /// Any of these, in turn.
    pub fn float(&mut self) -> f64 {
        match self.below(8) {
            0 => self.pattern(),
            1 => self.subnormal(),
            2 => {
                let at = LIMITS[self.below(LIMITS.len() as u64) as usize];
                self.near(at)
            }
            3 => {
                let whole = self.below(2000) as f64 - 1000.0;
                self.near(whole / 2.0)
            }
            4 => self.unit() * 720.0 - 360.0,
            5 => (self.word() as i64 >> self.below(63)) as f64,
            _ => self.middling(),
        }
    }
}

/// The float so many patterns above x, or below.
pub fn neighbour(x: f64, step: i64) -> f64 {
    f64::from_bits(x.to_bits().wrapping_add_signed(step))
}

/// Where a function of the port turns.
pub const LIMITS: [f64; 40] = [
    0.0,
    -0.0,
    f64::INFINITY,
    f64::NEG_INFINITY,
    f64::NAN,
    f64::MAX,
    f64::MIN,
    f64::MIN_POSITIVE,
    1.0,
    -1.0,
    0.5,
    -0.5,
    2.0,
    4503599627370496.0,
    9007199254740992.0,
    -4503599627370496.0,
    3.273390607896142e150,
    -3.273390607896142e150,
    3.054936363499605e-151,
    1e9,
    1e9 + 0.5,
    2147483647.0,
    2147483647.5,
    -2147483648.0,
    -2147483648.5,
    18446744073709551616.0,
    9223372036854775808.0,
    1e-9,
    5e-10,
    1.5e-9,
    2.5e-9,
    360.0,
    -360.0,
    180.0,
    -180.0,
    720.0,
    90.0,
    1e-300,
    5124095576030431.0,
    0.9999999995,
];
