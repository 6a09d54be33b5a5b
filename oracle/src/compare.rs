//! Comparisons: each ported function against its reference, on many inputs.

use std::time::Duration;

use crate::angle::{wrap180, wrap360};
use crate::avoidance;
use crate::big::{units, Big};
use crate::inputs::{Random, LIMITS};
use crate::{arcs, assessment, circular, math, method, motion, plots, port, ruling, sheet_compare};

/// Sheets among the comparisons of all parts: each takes a run of the program.
const MOST_SHEETS: u64 = 100_000;

/// The generator of a comparison's inputs.
pub fn generator(name: &str) -> Random {
    Random::new(name.bytes().map(u64::from).sum())
}

/// Runs a comparison `count` times and reports it; `case` answers the words of a difference.
pub fn run(name: &str, count: u64, mut case: impl FnMut(u64, &mut Random) -> Option<String>) -> bool {
    let mut random = generator(name);
    let mut different = 0u64;
    for i in 0..count {
        if let Some(words) = case(i, &mut random) {
            different += 1;
            if different <= 5 {
                println!("  {name}: {words}");
            }
        }
    }
    println!("{name}: {count} compared, {different} different");
    different == 0
}

/// The same number, any NaN being the same as any other. Zeros of either sign differ here.
pub fn same(a: f64, b: f64) -> bool {
    a.to_bits() == b.to_bits() || (a.is_nan() && b.is_nan())
}

fn floats(x: f64, got: f64, wanted: f64) -> Option<String> {
    (!same(got, wanted)).then(|| format!("{x:e} ({:016x}): {got:e}, wanted {wanted:e}", x.to_bits()))
}

fn equal<T: PartialEq + std::fmt::Debug>(x: f64, got: T, wanted: T) -> Option<String> {
    (got != wanted).then(|| format!("{x:e} ({:016x}): {got:?}, wanted {wanted:?}", x.to_bits()))
}

/// Inputs for the square root: every limit, patterns, subnormals, squares and their neighbours.
fn root_input(i: u64, random: &mut Random) -> f64 {
    if let Some(&x) = LIMITS.get(i as usize) {
        return x;
    }
    match i % 5 {
        0 => random.pattern(),
        1 => random.subnormal(),
        2 => {
            let root = (random.word() >> 37) as f64;
            random.near(root * root)
        }
        3 => {
            let half = (random.word() >> 11) as f64 + 0.5;
            random.near(half * half)
        }
        _ => random.middling(),
    }
}

/// Inputs for the hypotenuse: all sizes in the domain, nearly equal sides, tiny and zero ones, limits.
pub fn hypot_input(i: u64, random: &mut Random) -> (f64, f64) {
    let limits = LIMITS.len() as u64;
    if i < limits * limits {
        return (LIMITS[(i / limits) as usize], LIMITS[(i % limits) as usize]);
    }
    let sized = |random: &mut Random, low: i64, span: u64| {
        let field = (1023 + low + random.below(span) as i64) as u64;
        f64::from_bits((random.word() & 1 << 63) | field << 52 | random.word() >> 12)
    };
    match i % 6 {
        0 => (random.pattern(), random.pattern()),
        1 => (sized(random, -520, 1040), sized(random, -520, 1040)),
        2 => {
            let x = sized(random, -490, 980);
            let shift = random.below(60) as i32 - 30;
            (x, random.near(x * 2f64.powi(shift)))
        }
        3 => (random.subnormal(), sized(random, -505, 10)),
        4 => (sized(random, 490, 15), sized(random, 490, 15)),
        _ => (random.middling(), random.middling()),
    }
}

/// Whether r is what document 01 asks of the hypotenuse, in exact arithmetic.
pub fn hypotenuse_holds(x: f64, y: f64, r: f64) -> bool {
    let largest = 2f64.powi(500);
    if !(x.abs() <= largest && y.abs() <= largest) {
        return r.is_nan();
    }
    let larger = x.abs().max(y.abs());
    if x == 0.0 || y == 0.0 || larger < 2f64.powi(-500) {
        return r == larger && r.is_sign_positive();
    }
    if !(r.is_finite() && r > 0.0) {
        return false;
    }
    let square = |v: f64| units(v).mul(&units(v));
    let (sum, got) = (square(x).add(&square(y)), square(r));
    got.shl(50) <= sum.shl(50).add(&sum) && sum.shl(50) <= got.shl(50).add(&sum)
}

/// A time by the standard library: kind, seconds, nanoseconds.
pub fn time(seconds: f64) -> (u32, u64, u32) {
    match Duration::try_from_secs_f64(seconds) {
        Ok(d) => (0, d.as_secs(), d.subsec_nanos()),
        Err(_) if seconds >= 0.0 => (1, 0, 0),
        Err(_) => (2, 0, 0),
    }
}

/// Seconds near a half nanosecond, a whole number and the ends.
fn seconds_input(i: u64, random: &mut Random) -> f64 {
    if let Some(&x) = LIMITS.get(i as usize) {
        return x;
    }
    match i % 5 {
        0 => random.float(),
        1 => random.unit() * 100_000.0,
        2 => {
            let halves = random.below(4_000_000_000) as f64 + 0.5;
            random.near(halves / 1e9)
        }
        3 => random.below(1 << 53) as f64 / 2f64.powi(random.below(64) as i32),
        _ => 2f64.powi(random.below(70) as i32 - 35) * (1.0 + random.unit()),
    }
}

/// Angles: limits, any float, all of the domain, and the neighbours of the multiples of a quarter pi.
pub fn angle_input(i: u64, random: &mut Random) -> f64 {
    if let Some(&x) = LIMITS.get(i as usize) {
        return x;
    }
    match i % 4 {
        0 => random.float(),
        1 => {
            let turn = (random.below(43) as f64 - 21.0) * std::f64::consts::FRAC_PI_4;
            random.near(turn)
        }
        2 => math::to_radians(random.below(360 * 1024) as f64 / 1024.0),
        _ => random.unit() * 34.0 - 17.0,
    }
}

/// Checks exactly that answers are within 2^-48 of a sum, and reports the largest error.
fn bound(name: &str, angles: &[f64], ours: fn(f64) -> f64, sum: fn(f64) -> circular::Exact) -> bool {
    let (mut outside, mut largest, mut at) = (0, 0.0, 0.0);
    for &x in angles {
        let (within, error) = circular::error(ours(x), &sum(x));
        outside += u64::from(!within);
        if error > largest {
            (largest, at) = (error, x);
        }
    }
    println!("{name}: {} within 2^-48 of the sum, {outside} outside; the largest error is {largest:.4} of that, at {at:e}", angles.len());
    outside == 0
}

/// The arcsine or the arctangent: its inputs, the port's answers, the method's and the standard library's, and document 01's rule.
/// The arcsine makes no use of the second argument.
struct ArcFunction {
    name: &'static str,
    input: fn(u64, &mut Random) -> (f64, f64),
    ours: fn(f64, f64) -> f64,
    plain: fn(f64, f64) -> f64,
    library: fn(f64, f64) -> f64,
    holds: fn(f64, f64, f64) -> bool,
}

/// The port's zeros of either sign are equal: the standard library's arctangent gets 0 for both.
const ARC_FUNCTIONS: [ArcFunction; 2] = [
    ArcFunction {
        name: "asin",
        input: |i, random| (arcs::arcsine_input(i, random), 0.0),
        ours: |x, _| port::asin(x),
        plain: |x, _| method::arcsine(x),
        library: |x, _| x.asin(),
        holds: |x, _, t| arcs::arcsine_holds(x, t),
    },
    ArcFunction {
        name: "atan2",
        input: arcs::arctangent_input,
        ours: port::atan2,
        plain: method::arctangent,
        library: |y, x| (y + 0.0).atan2(x + 0.0),
        holds: arcs::arctangent_holds,
    },
];

/// Compares an arc function with the method, checks exactly that answers are enclosed, and reports the largest difference from
/// the standard library's.
fn arc_function(f: &ArcFunction, count: u64) -> bool {
    let (mut largest, mut at) = (0.0, (0.0, 0.0));
    let equal = run(f.name, count, |i, random| {
        let (a, b) = (f.input)(i, random);
        let (got, wanted) = ((f.ours)(a, b), (f.plain)(a, b));
        let gap = (got - (f.library)(a, b)).abs();
        if gap > largest {
            (largest, at) = (gap, (a, b));
        }
        (!same(got, wanted)).then(|| format!("{a:e} {b:e}: {got:e}, wanted {wanted:e}"))
    });
    println!("{}: the largest difference from the standard library's is {largest:e}, at {:e} {:e}", f.name, at.0, at.1);
    let enclosed = run(&format!("{}, enclosed", f.name), 100_000, |i, random| {
        let (a, b) = (f.input)(i, random);
        let t = (f.ours)(a, b);
        (!(f.holds)(a, b, t)).then(|| format!("{a:e} {b:e}: {t:e}"))
    });
    equal && enclosed
}

/// What is done for each part; among all parts, for no more than so many inputs.
type Part<T> = (&'static str, fn(u64) -> T, u64);

/// The parts that are asked for, with their counts.
fn chosen<T: Copy>(parts: &[Part<T>], count: u64, part: Option<&str>) -> Vec<T> {
    let named = parts.iter().filter(|(name, ..)| part.is_none_or(|part| part == *name));
    let done: Vec<T> = named.map(|(_, run, most)| run(if part.is_none() { count.min(*most) } else { count })).collect();
    if done.is_empty() {
        println!("there is no such part");
    }
    done
}

/// Compares every function that is ported so far and the program, or those of one part.
pub fn all(count: u64, part: Option<&str>) -> bool {
    let parts: &[Part<bool>] = &[
        ("elementary", elementary, u64::MAX),
        ("motion", motion::compare, u64::MAX),
        ("plots", plots::compare, u64::MAX),
        ("ruling", ruling::compare, u64::MAX),
        ("assessment", assessment::compare, u64::MAX),
        ("avoidance", avoidance::compare, u64::MAX),
        ("sheets", sheet_compare::compare, MOST_SHEETS),
    ];
    let good = chosen(parts, count, part);
    !good.is_empty() && good.into_iter().all(|good| good)
}

/// Counts what references answer on the inputs of the comparison.
pub fn outcomes(count: u64, part: Option<&str>) {
    chosen(&[("avoidance", avoidance::outcomes, u64::MAX), ("sheets", sheet_compare::outcomes, MOST_SHEETS)], count, part);
}

/// The elementary functions and what stands beside them.
fn elementary(count: u64) -> bool {
    let mut good = true;
    good &= run("sqrt", count, |i, random| {
        let x = root_input(i, random);
        floats(x, port::sqrt(x), x.sqrt())
    });
    good &= run("hypot", count, |i, random| {
        let (x, y) = hypot_input(i, random);
        let r = port::hypot(x, y);
        (!hypotenuse_holds(x, y, r)).then(|| format!("{x:e} {y:e}: {r:e}"))
    });
    for (name, ours, plain) in [("sin", port::sin as fn(f64) -> f64, method::sine as fn(f64) -> f64), ("cos", port::cos, method::cosine)] {
        good &= run(name, count, |i, random| {
            let x = angle_input(i, random);
            floats(x, ours(x), plain(x))
        });
    }
    let angles = circular::inputs(100_000);
    good &= bound("sin", &angles, port::sin, circular::sine_sum);
    good &= bound("cos", &angles, port::cos, circular::cosine_sum);
    for f in &ARC_FUNCTIONS {
        good &= arc_function(f, count);
    }
    let unary: [(&str, fn(f64) -> f64, fn(f64) -> f64); 7] = [
        ("trunc", port::trunc, math::trunc),
        ("round", port::round, math::round),
        ("ceil", port::ceil, math::ceil),
        ("to_radians", port::to_radians, math::to_radians),
        ("wrap360", port::wrap360, wrap360),
        ("wrap180", port::wrap180, wrap180),
        ("reciprocal", port::reciprocal, |x| wrap360(x + 180.0)),
    ];
    for (name, ours, theirs) in unary {
        good &= run(name, count, |i, random| {
            let x = LIMITS.get(i as usize).copied().unwrap_or_else(|| random.float());
            floats(x, ours(x), theirs(x))
        });
    }
    good &= run("is_effectively_zero", count, |_, random| {
        let scale = random.float();
        let value = if random.below(2) == 0 { random.float() } else { random.near(scale * 1e-12) };
        equal(value, port::is_effectively_zero(value, scale), math::is_effectively_zero(value, scale))
    });
    good &= run("round_to_i32", count, |i, random| {
        let x = LIMITS.get(i as usize).copied().unwrap_or_else(|| random.float());
        equal(x, port::round_to_i32(x), math::round_to_i32(x))
    });
    good &= run("to_usize", count, |i, random| {
        let x = LIMITS.get(i as usize).copied().unwrap_or_else(|| random.float());
        equal(x, port::to_usize(x), math::to_usize(x))
    });
    good &= run("seconds to time", count, |i, random| {
        let x = seconds_input(i, random);
        equal(x, (port::time_kind(x), port::time_secs(x), port::time_nanos(x)), time(x))
    });
    good &= run("hours to time", count, |i, random| {
        let x = seconds_input(i, random) / if i % 3 == 0 { 3600.0 } else { 1.0 };
        let (_, secs, nanos) = time(x * 3600.0);
        equal(x, (port::hours_secs(x), port::hours_nanos(x)), (secs, nanos))
    });
    good &= run("time to hours", count, |_, random| {
        let (secs, nanos) = (random.word() >> random.below(64), random.below(1_000_000_000) as u32);
        let wanted = (secs as f64 + f64::from(nanos) / 1e9) / 3600.0;
        floats(secs as f64, port::hours(secs, nanos), wanted)
    });
    good &= run("order of times", count, |_, random| {
        let mut one = || (random.below(3), random.below(3) as u32);
        let ((a, b), (c, d)) = (one(), one());
        equal(a as f64, port::is_before(a, b, c, d), Duration::new(a, b) < Duration::new(c, d))
    });
    good &= exact_multiplication();
    good
}

/// The exact arithmetic itself, on the products that it rests on.
fn exact_multiplication() -> bool {
    run("exact products", 1000, |_, random| {
        let (a, b) = (random.word() >> 1, random.word() >> 1);
        let wide = u128::from(a) * u128::from(b);
        let wanted = Big::from((wide >> 64) as u64).shl(64).add(&Big::from(wide as u64));
        (Big::from(a).mul(&Big::from(b)) != wanted).then(|| format!("{a} {b}"))
    })
}
