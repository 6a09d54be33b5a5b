//! Avoidance: the port's trial list, `avoid`, `search`, ruled search and slowing search against avoidance.rs on the port's elementary functions,
//! behind document 01's argument checks.

mod lists;
mod one;
mod ruled;
mod slowing;
mod trials;

pub use lists::{how_many, own, style, traffic};
pub use one::{answered, Avoid};
pub use ruled::RuledCase;
pub use slowing::SlowingCase;

use lists::Search;
use one::compare_stated;

use crate::angle::wrap360;
use crate::calls;
use crate::checks::Kind::{self, Direction, Distance, Speed};
use crate::checks::{first_bad, CONSTRAINTS, COUNT, MAX_CONTACTS};
use crate::compare::same;
use crate::compare::{generator, run};
use crate::inputs::{neighbour, Random};
use crate::math;
use crate::motion::{accepted, any, bad, collision_bearing, related, turning};
use crate::port;
use crate::ruling::drawn;
use crate::traffic_calls::{
    avoid, constraints, list, refused, ruled, search, AvoidWords, Limits, List, Ruled, Rulings, SearchWords, SIDES,
};
use crate::vectors::Module;

/// Adds records and answers of `avoid`, the searches and the trial list. An answer is the port's once it is known to
/// be the Rust's.
pub fn write(module: &mut Module) {
    write_cases::<Avoid>(module, 150, 9);
    write_cases::<Search>(module, 60, 6);
    write_cases::<RuledCase>(module, 100, 9);
    write_cases::<SlowingCase>(module, 100, 10);
    trials::write(module, 250);
}

/// So many cases that fit a record, with every part of their answers.
fn write_cases<C: Case>(module: &mut Module, count: u64, parts: u32) {
    let mut random = generator(C::NAME);
    let mut kept = 0;
    for i in 0.. {
        let case = C::case(i, 2 * count, &mut random);
        let call = case.asked();
        if call.words.len() <= 34 {
            assert_eq!(case.difference(i, &case.reference()), None);
            (0..parts).for_each(|part| module.push(&call, part));
            kept += 1;
        }
        if kept == count {
            return;
        }
    }
}

/// Cases of a function, with their reference and what is counted of them.
trait Case: Sized {
    const NAME: &'static str;
    type Answer;
    type Tally: Default + std::fmt::Debug;

    /// Case i of so many.
    fn case(i: u64, count: u64, random: &mut Random) -> Self;
    fn reference(&self) -> Self::Answer;
    fn count(&self, answer: &Self::Answer, tally: &mut Self::Tally);
    /// The call of the port.
    fn asked(&self) -> port::Call<Vec<u64>>;
    /// The words of a difference in a part of the answer; i chooses the parts where not all are looked at.
    fn difference(&self, i: u64, wanted: &Self::Answer) -> Option<String>;
}

/// Counts what the references answer.
fn look<C: Case>(count: u64) {
    let (mut random, mut tally) = (generator(C::NAME), C::Tally::default());
    for i in 0..count {
        let case = C::case(i, count, &mut random);
        case.count(&case.reference(), &mut tally);
    }
    println!("{}: {count} references: {tally:?}", C::NAME);
}

fn compare_cases<C: Case>(count: u64) -> bool {
    let mut tally = C::Tally::default();
    let good = run(C::NAME, count, |i, random| {
        let case = C::case(i, count, random);
        let wanted = case.reference();
        case.count(&wanted, &mut tally);
        case.difference(i, &wanted)
    });
    println!("{}: {tally:?}", C::NAME);
    good
}

/// The same word, where zeros of either sign are equal.
fn equal(a: u64, b: u64) -> bool {
    same(f64::from_bits(a) + 0.0, f64::from_bits(b) + 0.0)
}

/// The first part of an answer that differs.
fn differing(parts: impl Iterator<Item = u32>, wanted: &[u64], got: impl Fn(u32) -> u64) -> Option<String> {
    let mut parts = parts.map(|part| (part, got(part), wanted[part as usize]));
    let (part, got, wanted) = parts.find(|(_, got, wanted)| !equal(*got, *wanted))?;
    Some(format!("part {part}: {got:016x}, wanted {wanted:016x}"))
}

/// Accepted limits: usual ones, fractions, a single trial, and differences that are whole or next to it, so that the last trial is there
/// or not, or cut.
pub fn limits(random: &mut Random) -> (f64, f64) {
    let least = match random.below(4) {
        0 => 0.0,
        1 => random.below(90) as f64,
        2 => random.unit() * 60.0,
        _ => random.below(60 * 1024) as f64 / 1024.0,
    };
    let whole = random.below(121) as f64;
    match random.below(12) {
        0..=3 => (0.0, 180.0),
        4 => (30.0, 180.0),
        5 => (0.0, any(&[0.0, -0.0, 2.5, 5.0, 90.0, 179.99999999999997], random)),
        6 => (least, least),
        7 => (least, least + random.unit() * (180.0 - least)),
        8 => (least, (least + whole).min(180.0)),
        9 => (17.38770443707414, 97.38770443707413),
        10 => (any(&[-0.0, 5e-324, 1e-300, 1e-16, 180.0], random), 180.0),
        _ => {
            let most = neighbour(least + whole, random.below(5) as i64 - 2);
            (least, if (least..=180.0).contains(&most) { most } else { 180.0 })
        }
    }
}

/// A most alteration about that of an answer, which is then the last trial, a cut one, or no trial any more.
fn most_about(magnitude: f64, least: f64, random: &mut Random) -> f64 {
    if magnitude == 0.0 {
        return any(&[0.0, 0.5, 1.0], random);
    }
    let part = random.unit();
    let choices = [magnitude, neighbour(magnitude, -1), neighbour(magnitude, 1), magnitude + part, magnitude - part, magnitude - 1.0];
    let most = any(&choices, random);
    if (least..=180.0).contains(&most) {
        most
    } else {
        magnitude
    }
}

/// A desired distance about where a trial clears a contact: exactly 1e-9 above its CPA there, or next to that.
fn just_met((own_course, own_speed): (f64, f64), contact: [f64; 4], least: f64, random: &mut Random) -> Option<f64> {
    let turn = least + random.below(40) as f64;
    let altered = wrap360(own_course + any(&[1.0, -1.0], random) * turn);
    let [bearing, range, course, speed] = contact;
    let accepted = [Direction, Speed, Direction, Distance, Direction, Speed].into_iter();
    if first_bad(accepted.zip([altered, own_speed, bearing, range, course, speed])).is_some() {
        return None;
    }
    let [_, kind, distance, ..] = calls::cpa([altered, own_speed, bearing, range, course, speed, 0.0, 0.0].map(f64::to_bits));
    let desired = random.near(f64::from_bits(distance) + 1e-9);
    (kind == 0 && desired <= 10_000.0).then_some(desired)
}

/// Limits that are refused.
fn bad_limits(random: &mut Random) -> (f64, f64) {
    let no_angle = any(&[f64::NAN, f64::INFINITY, f64::NEG_INFINITY, -5e-324, -1.0, 180.00000000000003, 181.0], random);
    any(&[(no_angle, 180.0), (0.0, no_angle), (9.0, 8.0), (8.000000000000002, 8.0), (no_angle, no_angle), (180.0, 0.0)], random)
}

/// A rate of turn: a usual one of either sign, one about which the turn time becomes too long, the limits of what is accepted, and what
/// is not.
fn rate(random: &mut Random) -> f64 {
    let slow = 60.0 * (random.unit() * 180.0) / 18446744073709551616.0;
    match random.below(8) {
        0..=2 => random.unit() * 180.0,
        3 => -(random.below(60) as f64 + 1.0),
        4 => random.near(slow),
        5 => any(&[1e-300, 2.2250738585072014e-308, -2.2250738585072014e-308, f64::MAX, -f64::MAX, 1e-17, 1e300], random),
        6 => any(&[0.0, -0.0, 5e-324, 1e-310, 2.225073858507201e-308, f64::NAN, f64::INFINITY, f64::NEG_INFINITY], random),
        _ => random.middling(),
    }
}

/// How many cases of `avoid`, `search`, the ruled search and the slowing search there are for a count.
fn counts(count: u64) -> [u64; 4] {
    [count, count / 10, count / 5, count / 10]
}

/// Counts what the references answer on the cases that are compared.
pub fn outcomes(count: u64) {
    assert!(compare_stated() && slowing::compare_stated());
    let [avoid, search, ruled, slowing] = counts(count);
    look::<Avoid>(avoid);
    look::<Search>(search);
    look::<RuledCase>(ruled);
    look::<SlowingCase>(slowing);
}

/// Compares the trial list, `avoid` on `count` cases, `search` and the slowing search on a tenth as many and the ruled search on a fifth as many, and
/// counts what occurs.
pub fn compare(count: u64) -> bool {
    let [avoid, search, ruled, slowing] = counts(count);
    let mut good = compare_stated();
    good &= slowing::compare_stated() && trials::compare_stated();
    good &= trials::compare(count);
    good &= compare_cases::<Avoid>(avoid);
    good &= compare_cases::<Search>(search);
    good &= compare_cases::<RuledCase>(ruled);
    good &= compare_cases::<SlowingCase>(slowing);
    good
}
