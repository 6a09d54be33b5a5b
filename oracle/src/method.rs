//! Sine, cosine, arcsine and arctangent by whole numbers, as docs/ELEMENTARY.md has the methods, in 128-bit arithmetic.

use crate::big::parts;

/// One, and half pi, in units of 2^-58.
const ONE: u128 = 1 << 58;
const HALF_PI: u128 = 157_079_632_679_489_661_923 * (1 << 38) / (100_000_000_000_000_000_000 >> 20);

/// 1 - z / c * (1 - z / c' * (...)) with coefficients ONE / 1, ONE / c, ONE / (c c'), ... cut to whole units.
fn horner(z: u128, product: u128, divisors: &[u128]) -> u128 {
    match divisors {
        [] => ONE / product,
        [c, rest @ ..] => ONE / product - z * horner(z, product * c, rest) / ONE,
    }
}

fn sine_of_rest(rest: u128) -> u128 {
    let divisors = [6, 20, 42, 72, 110, 156, 210, 272, 342, 420];
    rest * horner(rest * rest / ONE, 1, &divisors) / ONE
}

/// 2 f^2 times the versine, 1 - cosine, of rest / f.
fn versine_of_rest(rest: u128, f: u128) -> u128 {
    let divisors = [12, 30, 56, 90, 132, 182, 240, 306, 380];
    let z = rest * rest / ONE;
    z * horner(z / (f * f), 1, &divisors) / ONE
}

fn cosine_of_rest(rest: u128) -> u128 {
    ONE - versine_of_rest(rest, 1) / 2
}

/// How many half pis are nearest to an angle in units, by the exact fraction.
fn quarters(angle: u128) -> u128 {
    // Both sides of 2 * G * angle >= (2 k - 1) * H * ONE, over 2^20.
    let (scale, half_pi) = (100_000_000_000_000_000_000 >> 20, 157_079_632_679_489_661_923u128 << 38);
    (1..=10).take_while(|k| 2 * scale * angle >= (2 * k - 1) * half_pi).count() as u128
}

/// The sine of `more` half pis and |x|, which is at most 16.
fn turned(x: f64, more: u128) -> f64 {
    let angle = (x.abs() * ONE as f64) as u128;
    let k = quarters(angle);
    let (rest, below) = (angle.abs_diff(k * HALF_PI), angle < k * HALF_PI);
    let q = k + more;
    let (value, minus) = if q % 2 == 0 { (sine_of_rest(rest), (q % 4 >= 2) != below) } else { (cosine_of_rest(rest), q % 4 >= 2) };
    let size = ((value + 16) / 32) as f64 / 2f64.powi(53);
    if minus {
        -size
    } else {
        size
    }
}

pub fn sine(x: f64) -> f64 {
    if x.abs() < 2f64.powi(-17) {
        x
    } else if x.abs() <= 16.0 {
        turned(x, 0) * x.signum()
    } else {
        f64::NAN
    }
}

pub fn cosine(x: f64) -> f64 {
    if x.abs() <= 16.0 {
        turned(x, 1)
    } else {
        f64::NAN
    }
}

/// A quarter pi and half pi in steps of 2^-49, cut.
pub const LAST_STEP: u128 = 442_139_859_501_777;
pub const HALF_PI_STEPS: u128 = 884_279_719_003_555;

/// The units in a step.
const STEP: u128 = 512;

/// The greatest step, up to the last, that passes a test which fails from some step on; by halves.
fn greatest(test: impl Fn(u128) -> bool) -> u128 {
    (0..49).rev().fold(0, |low, bit| {
        let next = low + (1u128 << bit);
        if next <= LAST_STEP && test(next) {
            next
        } else {
            low
        }
    })
}

/// The arcsine of x units, in eighths of a step.
fn arcsine_eighths(x: u128) -> u128 {
    if x < sine_of_rest(LAST_STEP * STEP) {
        return 8 * greatest(|a| sine_of_rest(a * STEP) <= x);
    }
    let rest = ONE - x;
    if rest == 0 {
        return 8 * HALF_PI_STEPS;
    }
    // Next to one the angle that is left to half pi is sought f times as large.
    let mut f = 1;
    while rest * f * f < 1 << 54 {
        f *= 2;
    }
    8 * HALF_PI_STEPS - 8 * greatest(|b| versine_of_rest(b * STEP, f) <= 2 * rest * f * f) / f
}

pub fn arcsine(x: f64) -> f64 {
    if !(0.0..=1.0).contains(&x) {
        f64::NAN
    } else if x < 2f64.powi(-17) {
        x
    } else {
        arcsine_eighths((x * ONE as f64) as u128) as f64 / 2f64.powi(52)
    }
}

/// The arctangent of |v| / |u| in steps, |u| being the larger.
fn octant(u: f64, v: f64) -> u128 {
    let ((u, high), (v, low)) = (parts(u), parts(v));
    // u in 58 digits, and v cut to the same unit.
    let shift = u.leading_zeros() - 6;
    let w = (v << shift).checked_shr((high - low) as u32).unwrap_or(0);
    let (u, w) = (u128::from(u << shift), u128::from(w));
    greatest(|a| u * sine_of_rest(a * STEP) / ONE <= w * cosine_of_rest(a * STEP) / ONE)
}

pub fn arctangent(y: f64, x: f64) -> f64 {
    if !(y.is_finite() && x.is_finite()) {
        return f64::NAN;
    }
    let steep = y.abs() > x.abs();
    let (u, v) = if steep { (y, x) } else { (x, y) };
    // On an axis v is 0.
    let a = if v == 0.0 { 0 } else { octant(u, v) };
    let steps = match (steep, x < 0.0) {
        (false, false) => a,
        (true, false) => HALF_PI_STEPS - a,
        (false, true) => 2 * HALF_PI_STEPS - a,
        (true, true) => HALF_PI_STEPS + a + 1,
    };
    let size = steps as f64 / 2f64.powi(49);
    if y < 0.0 {
        -size
    } else {
        size
    }
}
