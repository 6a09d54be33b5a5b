//! The arcsine and the arctangent against the sums at two angles 2^-46 apart, in exact arithmetic.

use std::f64::consts::{FRAC_1_SQRT_2, FRAC_PI_2, PI};

use crate::circular::{at_most, cosine_sum, one, sine_sum, HALF_PI, SCALE};
use crate::inputs::{neighbour, Random, LIMITS};
use crate::method::{HALF_PI_STEPS, LAST_STEP};

/// The steps of the answers in a radian.
const STEPS: f64 = (1u64 << 49) as f64;

/// FRAC_PI_2 is the float next below the fraction for half pi, so that any larger float is above the fraction; PI is twice that.
const _: () = assert!(FRAC_PI_2 * STEPS == HALF_PI_STEPS as f64);
const _: () = assert!(8 * HALF_PI_STEPS * SCALE < HALF_PI << 52 && HALF_PI << 52 < (8 * HALF_PI_STEPS + 1) * SCALE);

/// Two angles 2^-46 apart with t between them. They are multiples of a step, so nothing is rounded.
fn around(t: f64) -> (f64, f64) {
    let below = (t * STEPS).floor() - 4.0;
    (below / STEPS, (below + 8.0) / STEPS)
}

/// Whether t is what document 01 asks of the arcsine, and from 0 to half pi.
pub fn arcsine_holds(x: f64, t: f64) -> bool {
    if !(0.0..=1.0).contains(&x) {
        return t.is_nan();
    }
    if !(0.0..=FRAC_PI_2).contains(&t) {
        return false;
    }
    let (lo, hi) = around(t);
    // Half pi, where the sine is 1, stands in for an angle above it.
    let high = hi > FRAC_PI_2 || at_most(x, &one(), 1.0, &sine_sum(hi));
    high && at_most(1.0, &sine_sum(lo), x, &one())
}

/// Whether t is what document 01 asks of the arctangent.
pub fn arctangent_holds(y: f64, x: f64, t: f64) -> bool {
    if !(y.is_finite() && x.is_finite()) {
        return t.is_nan();
    }
    if y == 0.0 {
        return t == if x < 0.0 { PI } else { 0.0 };
    }
    let size = t * y.signum();
    if x == 0.0 {
        return size == FRAC_PI_2;
    }
    let in_quadrant = if x < 0.0 { FRAC_PI_2 < size && size <= PI } else { (0.0..=FRAC_PI_2).contains(&size) };
    if !in_quadrant {
        return false;
    }
    let (lo, hi) = around(t);
    at_most(x, &sine_sum(lo), y, &cosine_sum(lo)) && at_most(y, &cosine_sum(hi), x, &sine_sum(hi))
}

/// 0, -1, 1, -2, 2, ...
fn to_and_fro(n: u64) -> i64 {
    let half = n.div_ceil(2) as i64;
    [half, -half][(n % 2) as usize]
}

/// An angle of less than `most` steps: any of them, or one of any size.
fn angle_in_steps(most: u128, random: &mut Random) -> f64 {
    (random.below(most as u64) >> (random.below(2) * random.below(49))) as f64 / STEPS
}

/// Inputs for the arcsine: limits, 500 neighbours of each place where the method turns, 2000 below one, places where the answer
/// steps, 1 - 2^-k, all exponents, subnormals, any float.
pub fn arcsine_input(i: u64, random: &mut Random) -> f64 {
    let limits = LIMITS.len() as u64;
    if i < limits {
        return LIMITS[i as usize];
    }
    let (i, turns) = (i - limits, [1.0, FRAC_1_SQRT_2, 0.5, 2f64.powi(-17)]);
    match i % 8 {
        0 | 4 => neighbour(turns[(i / 4 % 4) as usize], to_and_fro(i / 16 % 1001)),
        1 => neighbour(1.0, -((i / 8 % 2001) as i64)),
        2 => {
            let angle = angle_in_steps(HALF_PI_STEPS, random);
            let x = if random.below(2) == 0 { angle.sin() } else { angle.cos() };
            random.near(x)
        }
        3 => random.near(1.0 - 2f64.powi(-((i / 8 % 54) as i32))),
        5 => f64::from_bits(random.below(1023) << 52 | random.word() >> 12),
        6 => [random.subnormal(), random.float()][random.below(2) as usize],
        _ => random.unit(),
    }
}

/// Inputs for the arctangent, as y and x: pairs of limits, diagonals, places where the answer steps, ratios of all sizes,
/// subnormals, the largest floats, axes, any patterns, any points.
pub fn arctangent_input(i: u64, random: &mut Random) -> (f64, f64) {
    let limits = [0.0, -0.0, 1.0, -1.0, -5e-324, f64::MAX, f64::NAN, f64::NEG_INFINITY];
    if i < 64 {
        return (limits[(i / 8) as usize], limits[(i % 8) as usize]);
    }
    let x = random.middling();
    let (x, y) = match i % 9 {
        0 => (x, random.near(x)),
        1 | 2 => {
            let ratio = angle_in_steps(LAST_STEP, random).tan();
            (x, random.near(x * ratio))
        }
        3 => (x, x * 2f64.powi(random.below(2001) as i32 - 1000)),
        4 => (random.subnormal(), random.subnormal()),
        5 => (f64::MAX * random.unit(), f64::MAX * random.unit()),
        6 => (x, [0.0, random.subnormal()][random.below(2) as usize]),
        7 => (random.pattern(), random.pattern()),
        _ => (random.unit(), random.unit()),
    };
    // In any octant.
    let y = if random.below(2) == 0 { y } else { -y };
    let x = if random.below(2) == 0 { x } else { -x };
    if random.below(2) == 0 {
        (y, x)
    } else {
        (x, y)
    }
}
