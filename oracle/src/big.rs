//! Natural numbers of any size, as far as the exact checks need them.

use std::cmp::Ordering;

/// Little-endian digits of 64 bits, with no zero at the top.
#[derive(Clone, PartialEq, Eq, Debug)]
pub struct Big(Vec<u64>);

impl From<u64> for Big {
    fn from(n: u64) -> Big {
        Big(vec![n]).trimmed()
    }
}

impl From<u128> for Big {
    fn from(n: u128) -> Big {
        Big(vec![n as u64, (n >> 64) as u64]).trimmed()
    }
}

impl Big {
    fn trimmed(mut self) -> Big {
        while self.0.last() == Some(&0) {
            self.0.pop();
        }
        self
    }

    /// The digit at a place, 0 above the top.
    fn digit(&self, place: usize) -> u64 {
        self.0.get(place).copied().unwrap_or(0)
    }

    pub fn shl(&self, bits: usize) -> Big {
        let (words, rest) = (bits / 64, bits % 64);
        let mut out = Vec::with_capacity(words + self.0.len() + 1);
        out.resize(words, 0);
        let mut carry = 0u64;
        for &d in &self.0 {
            let v = (u128::from(d) << rest) | u128::from(carry);
            out.push(v as u64);
            carry = (v >> 64) as u64;
        }
        out.push(carry);
        Big(out).trimmed()
    }

    pub fn add(&self, other: &Big) -> Big {
        let len = self.0.len().max(other.0.len());
        let mut out = Vec::with_capacity(len + 1);
        let mut carry = 0u128;
        for i in 0..len {
            let v = u128::from(self.digit(i)) + u128::from(other.digit(i)) + carry;
            out.push(v as u64);
            carry = v >> 64;
        }
        out.push(carry as u64);
        Big(out).trimmed()
    }

    /// The difference; `other` must not be the larger.
    pub fn sub(&self, other: &Big) -> Big {
        assert!(self >= other, "a difference below 0");
        let mut out = self.clone();
        let mut borrow = false;
        for (i, d) in out.0.iter_mut().enumerate() {
            let (v, under) = d.overflowing_sub(other.digit(i));
            let (v, again) = v.overflowing_sub(u64::from(borrow));
            *d = v;
            borrow = under | again;
        }
        out.trimmed()
    }

    /// The larger less the smaller.
    pub fn gap(&self, other: &Big) -> Big {
        if self < other {
            other.sub(self)
        } else {
            self.sub(other)
        }
    }

    /// The product; quickest if `self` is the shorter, or the one with more digits of 0.
    pub fn mul(&self, other: &Big) -> Big {
        let mut out = vec![0u64; self.0.len() + other.0.len()];
        for (i, &a) in self.0.iter().enumerate().filter(|(_, &a)| a != 0) {
            let mut carry = 0u64;
            for (d, &b) in out[i..].iter_mut().zip(&other.0) {
                let v = u128::from(a) * u128::from(b) + u128::from(*d) + u128::from(carry);
                *d = v as u64;
                carry = (v >> 64) as u64;
            }
            out[i + other.0.len()] = carry;
        }
        Big(out).trimmed()
    }

    /// About self / other, for reports: within 2^-50 of it, relatively, if it is from 2^-900 to 2^900.
    pub fn ratio(&self, other: &Big) -> f64 {
        let ((a, i), (b, j)) = (self.leading(), other.leading());
        a / b * 2f64.powi(64 * (i - j))
    }

    /// The two leading digits as a float, and the lower one's place.
    fn leading(&self) -> (f64, i32) {
        let place = self.0.len().saturating_sub(2);
        let wide = u128::from(self.digit(place + 1)) << 64 | u128::from(self.digit(place));
        (wide as f64, place as i32)
    }
}

impl PartialOrd for Big {
    fn partial_cmp(&self, other: &Big) -> Option<Ordering> {
        Some(self.cmp(other))
    }
}

impl Ord for Big {
    fn cmp(&self, other: &Big) -> Ordering {
        let (a, b) = (&self.0, &other.0);
        let by_length = a.len().cmp(&b.len());
        by_length.then_with(|| a.iter().rev().cmp(b.iter().rev()))
    }
}

/// The digits and the exponent of a finite float's size: digits * 2^exponent.
pub fn parts(x: f64) -> (u64, i32) {
    let bits = x.to_bits() & (u64::MAX >> 1);
    let (field, low) = ((bits >> 52) as i32, bits & ((1 << 52) - 1));
    if field == 0 {
        (low, -1074)
    } else {
        (low | 1 << 52, field - 1075)
    }
}

/// A finite float's size in units of 2^-1074.
pub fn units(x: f64) -> Big {
    let (digits, exponent) = parts(x);
    Big::from(digits).shl((exponent + 1074) as usize)
}
