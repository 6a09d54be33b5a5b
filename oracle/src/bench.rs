//! Times: the port beside the Rust, from one driver in one run.

use std::hint::black_box;
use std::time::Instant;

use crate::angle::{wrap180, wrap360};
use crate::avoidance::{self, Avoid, RuledCase, SlowingCase};
use crate::inputs::Random;
use crate::{assessment, calls, motion, plots, port, ruling, sheet, sheet_compare, traffic_calls};

const COUNT: usize = 4096;
const ROUNDS: usize = 400;

/// Calls of a function where instructions are counted.
const COUNTED: usize = 1000;

/// Calls the port's functions of a part, for a tool that counts instructions by symbol: each of `elementary` and `module` 1,000 times, on inputs as
/// above; the ruled search of `worst` once, of `typical` 16 times.
pub fn calls(part: &str) {
    match part {
        "elementary" => elementary_calls(),
        "module" => module_calls(),
        "worst" => each(vec![RuledCase::worst()], |case| case.port(1)),
        "typical" => each(RuledCase::usual(), |case| case.port(1)),
        _ => panic!("calls elementary | module | worst | typical"),
    }
}

fn each<T, R>(cases: Vec<T>, f: impl Fn(T) -> R) {
    for case in cases {
        black_box(f(black_box(case)));
    }
}

/// Nothing of the Rust's is called, which would call the same functions.
fn elementary_calls() {
    let mut random = Random::new(7);
    for _ in 0..COUNTED {
        let (x, y) = (random.unit() * 1000.0, random.unit() * 1000.0 - 500.0);
        black_box((port::sqrt(x), port::hypot(x, y), port::wrap360(y), port::wrap180(y), port::time_nanos(x)));
        let (angle, other, sine) = (random.unit() * 32.0 - 16.0, random.unit() * 32.0 - 16.0, random.unit());
        black_box((port::sin(angle), port::cos(other), port::asin(sine), port::atan2(x - 500.0, y)));
    }
}

fn module_calls() {
    for f in &motion::FUNCTIONS {
        each(f.answered(COUNTED), |words| (f.port)(words).part(f.parts - 1));
    }
    each(ruling::answered(COUNTED), |case| case.port(1));
    each(assessment::answered(COUNTED), |words| assessment::port(1, words));
    each(avoidance::answered(COUNTED), |case| case.port(1));
}

/// Nanoseconds a call, the best of three runs over the same inputs.
fn measure<T: Copy, R>(inputs: &[T], f: impl Fn(T) -> R) -> f64 {
    (0..3)
        .map(|_| {
            let start = Instant::now();
            for _ in 0..ROUNDS {
                for &input in inputs {
                    black_box(f(black_box(input)));
                }
            }
            start.elapsed().as_nanos() as f64 / (ROUNDS * inputs.len()) as f64
        })
        .fold(f64::INFINITY, f64::min)
}

fn report(name: &str, inputs: &[(f64, f64)], ours: impl Fn(f64, f64) -> f64, theirs: impl Fn(f64, f64) -> f64) {
    let (a, b) = (measure(inputs, |(x, y)| ours(x, y)), measure(inputs, |(x, y)| theirs(x, y)));
    println!("{name:<24} {a:7.1} ns {b:7.1} ns {:6.2}", a / b);
}

pub fn all() {
    let mut random = Random::new(7);
    let pairs: Vec<(f64, f64)> = (0..COUNT).map(|_| (random.unit() * 1000.0, random.unit() * 1000.0 - 500.0)).collect();
    let wide: Vec<(f64, f64)> = (0..COUNT).map(|_| (random.middling().abs(), random.middling())).collect();
    println!("function                    port       Rust   ratio");
    report("sqrt", &pairs, |x, _| port::sqrt(x), |x, _| x.sqrt());
    report("sqrt, all exponents", &wide, |x, _| port::sqrt(x), |x, _| x.sqrt());
    report("hypot", &pairs, port::hypot, f64::hypot);
    report("hypot, all exponents", &wide, port::hypot, f64::hypot);
    let angles: Vec<(f64, f64)> = (0..COUNT).map(|_| (random.unit() * 32.0 - 16.0, 0.0)).collect();
    report("sin", &angles, |x, _| port::sin(x), |x, _| x.sin());
    report("cos", &angles, |x, _| port::cos(x), |x, _| x.cos());
    for (name, low, high) in [("asin, 0 to 0.7", 0.0, 0.7), ("asin, 0.71 to 1", 0.71, 1.0), ("asin, 0 to 1", 0.0, 1.0)] {
        let sines: Vec<(f64, f64)> = (0..COUNT).map(|_| (low + random.unit() * (high - low), 0.0)).collect();
        report(name, &sines, |x, _| port::asin(x), |x, _| x.asin());
    }
    let points: Vec<(f64, f64)> = (0..COUNT).map(|_| (random.unit() - 0.5, random.unit() - 0.5)).collect();
    report("atan2", &points, port::atan2, f64::atan2);
    report("wrap360", &pairs, |_, y| port::wrap360(y), |_, y| wrap360(y));
    report("wrap180", &pairs, |_, y| port::wrap180(y), |_, y| wrap180(y));
    report("seconds to nanoseconds", &pairs, |x, _| f64::from(port::time_nanos(x)), |x, _| f64::from(crate::compare::time(x).2));
    relative_motion();
    rule_of_the_road();
    assess();
    avoid_and_search();
    slowing_search();
    motion_of_plots();
    reports();
    growth();
}

/// The functions of relative motion on accepted arguments that they don't refuse, beside the Rust on the port's elementary
/// functions and on the standard library's.
fn relative_motion() {
    println!("function                         port  Rust, port's six       Rust  ratio");
    for f in &motion::FUNCTIONS {
        let cases = f.answered(COUNT / 4);
        let (port, six, std) = (measure(&cases, |a| (f.port)(a).part(f.parts - 1)), measure(&cases, f.rust), measure(&cases, f.rust_std));
        row(f.name, port, six, std);
    }
}

fn row(name: &str, port: f64, six: f64, std: f64) {
    println!("{name:<26} {port:7.1} ns {six:14.1} ns {std:7.1} ns {:6.2}", port / std);
}

/// The ruling, likewise; the port answers the encounter alone.
fn rule_of_the_road() {
    let cases = ruling::answered(1000);
    let port = measure(&cases, |case| case.port(1));
    let six = measure(&cases, |case| calls::ruling(case.codes, case.words()));
    let std = measure(&cases, |case| kinavis_std::calls::ruling(case.codes, case.words()));
    row("rule_of_the_road", port, six, std);
}

/// A run of 8 plots and its fit, likewise; each window and each track is filled anew.
fn motion_of_plots() {
    let cases = plots::answered(COUNT / 4);
    let calls: Vec<_> = cases.iter().map(|plots| port::fit(plots)).collect();
    let port = measure(&calls.iter().collect::<Vec<_>>(), |call| call.part(1));
    let six = measure(&cases, |plots| crate::track_calls::run(&plots));
    let std = measure(&cases, |plots| kinavis_std::track_calls::run(&plots));
    row("8 plots and their fit", port, six, std);
}

/// The assessment, likewise.
fn assess() {
    let cases = assessment::answered(COUNT / 4);
    let port = measure(&cases, |words| assessment::port(1, words));
    row("assess", port, measure(&cases, traffic_calls::assess), measure(&cases, kinavis_std::traffic_calls::assess));
}

/// Times of the Rust of one crate: of `avoid`, and of `search` to either side, without rulings, on each set of pictures.
macro_rules! rust_times {
    ($name:ident, $calls:path) => {
        fn $name(avoids: &[Avoid], sets: &[Vec<RuledCase>]) -> Vec<f64> {
            use $calls as rust;
            let avoid = |case: Avoid| {
                let traffic_calls::Limits { least, most, rate } = case.limits;
                let made = rust::constraints(rust::SIDES[case.sides as usize], rust::Limits { least, most, rate });
                rust::avoid(&made.expect("accepted constraints"), case.encounter.map(f64::to_bits))
            };
            let limits = rust::Limits { least: 0.0, most: 180.0, rate: None };
            let searches = sets.iter().map(|set| {
                let lists = set.iter().map(|case| {
                    let (own_course, own_speed, desired, contacts) = case.picture();
                    rust::list(own_course, own_speed, desired, contacts.into_iter())
                });
                let lists: Vec<rust::List> = lists.collect();
                measure(&lists.iter().collect::<Vec<_>>(), |list| rust::search(rust::SIDES[0], limits, list))
            });
            std::iter::once(measure(avoids, avoid)).chain(searches).collect()
        }
    };
}

rust_times!(six_times, crate::traffic_calls);
rust_times!(std_times, kinavis_std::traffic_calls);

/// The whole report on accepted sheets, from the bytes to the text; on the Rust's side with the reading and printing of sheet.rs.
fn reports() {
    for contacts in [1, 8, 32] {
        let sheets = sheet_compare::accepted(8, contacts);
        let sheets: Vec<&[u8]> = sheets.iter().map(Vec::as_slice).collect();
        let port = measure(&sheets, |sheet| port::report(sheet, &mut [0; 8192]));
        row(&format!("report, {contacts} contacts"), port, measure(&sheets, sheet::printed), measure(&sheets, kinavis_std::sheet::printed));
    }
}

/// How the time of the port's ruled search grows where nothing clears: with the contacts, and with the trials.
fn growth() {
    let contacts = [1usize, 2, 4, 8, 16, 32].map(|count| (count, 180.0));
    let trials = [0.0, 22.0, 45.0, 90.0, 180.0].map(|most| (32usize, most));
    println!("ruled search, nothing clears        port");
    for (count, most) in contacts.into_iter().chain(trials) {
        let cases = RuledCase::worst_of(&[(count, most)]);
        let time = measure(&cases.iter().collect::<Vec<_>>(), |case| case.port(1));
        println!("{count:>2} contacts, {:>3} trials {:12.2} µs", 2.0 * (most + 1.0), time / 1000.0);
    }
}

/// `avoid`, likewise; and the ruled search beside the Rust's `search`.
fn avoid_and_search() {
    let (avoids, sets) = (avoidance::answered(COUNT / 4), [vec![RuledCase::worst()], RuledCase::usual()]);
    let (six, std) = (six_times(&avoids, &sets), std_times(&avoids, &sets));
    row("avoid", measure(&avoids, |case| case.port(1)), six[0], std[0]);
    for (i, name) in [(1, "ruled search, 32 contacts"), (2, "ruled search, 8 contacts")] {
        let cases: Vec<&RuledCase> = sets[i - 1].iter().collect();
        row(name, measure(&cases, |case| case.port(1)), six[i], std[i]);
    }
}

/// The slowing search where nothing clears, beside the port's ruled search and the Rust's `search` on the standard library's functions,
/// each with every trial speed as own speed; and on the usual pictures, beside the ruled search.
fn slowing_search() {
    let (worst, by_speed) = SlowingCase::worst();
    let time = measure(&[&worst], |case| case.port(1));
    let ruled = 8.0 * measure(&by_speed.iter().collect::<Vec<_>>(), |case| case.port(1));
    println!("slowing search, 32 contacts, nothing clears {:9.1} µs", time / 1000.0);
    beside("ruled searches at each of eight speeds", time, ruled);
    beside("the Rust's `search` at each of eight speeds", time, 8.0 * std_times(&[], &[by_speed])[1]);
    let (slowing, ruled) = (SlowingCase::usual(), RuledCase::usual());
    let time = measure(&slowing.iter().collect::<Vec<_>>(), |case| case.port(1));
    println!("slowing search, 8 contacts, usual {:19.1} µs", time / 1000.0);
    beside("ruled search", time, measure(&ruled.iter().collect::<Vec<_>>(), |case| case.port(1)));
}

/// Another time, and how much of it a time is.
fn beside(name: &str, time: f64, other: f64) {
    println!("  beside {name:<44} {:9.1} µs {:6.2}", other / 1000.0, time / other);
}
