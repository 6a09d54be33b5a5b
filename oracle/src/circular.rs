//! The sine and the cosine against their sums through power 21 and 20, in exact arithmetic.

use std::f64::consts::FRAC_PI_4;

use crate::big::{parts, units, Big};
use crate::inputs::{neighbour, Random};
use crate::math::to_radians;

/// Half pi is taken to be HALF_PI / SCALE.
pub const HALF_PI: u128 = 157_079_632_679_489_661_923;
pub const SCALE: u128 = 100_000_000_000_000_000_000;

/// The divisors of the sums: 1 - z / 6 * (1 - z / 20 * (...)), times the angle; 1 - z / 2 * (...).
const SINE: [u64; 10] = [6, 20, 42, 72, 110, 156, 210, 272, 342, 420];
const COSINE: [u64; 10] = [2, 12, 30, 56, 90, 132, 182, 240, 306, 380];

/// A sum: top / bottom, less than 0 if `minus`.
pub struct Exact {
    minus: bool,
    top: Big,
    bottom: Big,
}

/// |x| beside the nearest multiple of half pi: which multiple it is, whether |x| is below it, and
/// their distance n / d as n, d.
fn rest(x: f64) -> (u64, bool, Big, Big) {
    let size = x.to_bits() & (u64::MAX >> 1);
    assert!(size <= 16f64.to_bits(), "{x:e} is beyond 16");
    let (digits, exponent) = parts(x);
    // |x| = a / b. The exponent is at most -48 here, so b is whole.
    let common = digits.trailing_zeros().min(48) as i32;
    let a = Big::from(digits >> common);
    let b = Big::from(1u64).shl((-exponent - common) as usize);
    // All over b * SCALE from here on.
    let (angle, d) = (a.mul(&Big::from(SCALE)), b.mul(&Big::from(SCALE)));
    let half_pi = b.mul(&Big::from(HALF_PI));
    let reach = angle.shl(1).add(&half_pi);
    let multiple = |k: u64| Big::from(k).mul(&half_pi);
    let reached = |k: &u64| multiple(2 * k) <= reach;
    let k = (0..=10).rev().find(reached).unwrap_or(0);
    let nearest = multiple(k);
    (k, angle < nearest, angle.gap(&nearest), d)
}

/// 1 - z / c * (1 - z / c' * (...)) as a fraction, for z = zn / zd.
fn series(divisors: &[u64], zn: &Big, zd: &Big) -> (Big, Big) {
    let (mut num, mut den) = (Big::from(1u64), Big::from(1u64));
    for &c in divisors.iter().rev() {
        den = Big::from(c).mul(zd).mul(&den);
        num = den.sub(&zn.mul(&num));
    }
    (num, den)
}

/// The sum at |x|, `ahead` quarters of a turn further on: the cosine's series in odd quarters, the
/// sine's in even ones.
fn sum(x: f64, ahead: u64) -> Exact {
    let (k, below, n, d) = rest(x);
    let (zn, zd) = (n.mul(&n), d.mul(&d));
    let quarter = k + ahead;
    let minus = quarter % 4 >= 2;
    if quarter % 2 == 1 {
        let (top, bottom) = series(&COSINE, &zn, &zd);
        return Exact { minus, top, bottom };
    }
    let (num, den) = series(&SINE, &zn, &zd);
    let (minus, top, bottom) = (minus != below, n.mul(&num), d.mul(&den));
    Exact { minus, top, bottom }
}

/// The sine's sum at x, for x from -16 to 16.
pub fn sine_sum(x: f64) -> Exact {
    let mut exact = sum(x, 0);
    exact.minus ^= x < 0.0;
    exact
}

/// The cosine's sum at x, for x from -16 to 16.
pub fn cosine_sum(x: f64) -> Exact {
    sum(x, 1)
}

/// Whether y is within 2^-48 of the sum, exactly; and about how far off it is, in units of 2^-48.
pub fn error(y: f64, exact: &Exact) -> (bool, f64) {
    if !y.is_finite() {
        return (false, f64::INFINITY);
    }
    // All over bottom * 2^1074.
    let (a, b) = (units(y).mul(&exact.bottom), exact.top.shl(1074));
    let same = y.is_sign_negative() == exact.minus;
    let gap = if same { a.gap(&b) } else { a.add(&b) };
    let (gap, bound) = (gap.shl(48), exact.bottom.shl(1074));
    (gap <= bound, gap.ratio(&bound))
}

/// The fraction 1.
pub fn one() -> Exact {
    Exact { minus: false, top: Big::from(1u64), bottom: Big::from(1u64) }
}

/// Whether x * f is at most y * g, exactly; x and y must be finite.
pub fn at_most(x: f64, f: &Exact, y: f64, g: &Exact) -> bool {
    // Both sides times both bottoms and 2^1074.
    let (a, b) = (units(x).mul(&f.top).mul(&g.bottom), units(y).mul(&g.top).mul(&f.bottom));
    match (x.is_sign_negative() != f.minus, y.is_sign_negative() != g.minus) {
        (false, false) => a <= b,
        (true, true) => b <= a,
        (true, false) => true,
        (false, true) => a.add(&b) == Big::from(0u64),
    }
}

/// Multiples of 1/1024 degree in a turn.
const FINE: u64 = 360 * 1024;

/// Inputs from -16 to 16, the same in every run: the places where the functions turn, with 40
/// neighbours on either side, angles in degrees, and as many random ones as make `count`.
pub fn inputs(count: usize) -> Vec<f64> {
    let mut out = Vec::new();
    let small = [-6, -17, -29, -58].map(|e| 2f64.powi(e));
    let turns = (1..=20).map(|j| f64::from(j) * FRAC_PI_4);
    for x in turns.chain([0.0, f64::MIN_POSITIVE, 16.0]).chain(small) {
        for step in -40..=40 {
            let y = neighbour(x, step);
            if (0.0..=16.0).contains(&y) {
                out.extend([y, -y]);
            }
        }
    }
    out.extend((0..360).map(|degrees| to_radians(f64::from(degrees))));
    out.extend((0..FINE).step_by(37).map(|k| to_radians(k as f64 / 1024.0)));
    let mut random = Random::new(48);
    while out.len() < count {
        let x = match random.below(8) {
            // All exponents up to 16, and those from 2^-60 on.
            0 | 1 => f64::from_bits((random.below(1027) << 52) | random.word() >> 12),
            2 | 3 => f64::from_bits(((963 + random.below(64)) << 52) | random.word() >> 12),
            4 => random.subnormal(),
            5 => to_radians(random.below(FINE) as f64 / 1024.0),
            _ => random.unit() * 16.0,
        };
        out.push(if random.below(2) == 0 { x } else { -x });
    }
    out
}
