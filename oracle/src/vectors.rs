//! The records and answers that `elementary_main` and `module_main` replay in the gate, and the sheets and lines of `sheet_main`.

use std::fs;
use std::iter::repeat;
use std::path::Path;

use crate::port::Call;
use crate::angle::{wrap180, wrap360};
use crate::arcs::{arcsine_input, arctangent_input};
use crate::avoidance;
use crate::compare::{angle_input, hypot_input, hypotenuse_holds, time};
use crate::inputs::{Random, LIMITS};
use crate::{assessment, math, method, motion, plots, port, ruling, sheet_compare};

/// The pattern that stands for every NaN.
const NAN: u64 = 0x7ff8_0000_0000_0000;

/// Records for each function.
const EACH: u64 = 120;

pub fn pattern(x: f64) -> u64 {
    if x.is_nan() {
        NAN
    } else {
        x.to_bits()
    }
}

/// A number, or refusal 1 in place of a NaN.
fn refusing(x: f64) -> u64 {
    if x.is_nan() {
        1
    } else {
        x.to_bits()
    }
}

/// The Rust's answer to a record.
fn answer(which: u64, a: u64, b: u64) -> u64 {
    let (x, y) = (f64::from_bits(a), f64::from_bits(b));
    let split = |seconds: f64, take_secs: bool| match time(seconds) {
        (0, secs, nanos) => {
            if take_secs {
                secs
            } else {
                u64::from(nanos)
            }
        }
        (1, _, _) => u64::MAX,
        _ => u64::MAX - 1,
    };
    let nanos = |b: u64| b % (1 << 32);
    match which {
        0 => pattern(x.sqrt()),
        1 => {
            // The hypotenuse is the port's own; its answer is checked exactly before it is kept.
            let r = port::hypot(x, y);
            assert!(hypotenuse_holds(x, y, r));
            pattern(r)
        }
        2 => pattern(math::abs(x)),
        3 => pattern(if y.is_nan() { math::abs(x) } else { math::copysign(x, y) }),
        4 => pattern(math::trunc(x)),
        5 => pattern(math::round(x)),
        6 => pattern(math::ceil(x)),
        7 => pattern(math::to_radians(x)),
        8 => pattern(math::to_degrees(x)),
        9 | 12 => pattern(wrap360(x)),
        10 => pattern(wrap180(x)),
        11 => pattern(wrap360(x + 180.0)),
        13 => pattern(method::sine(x)),
        14 => pattern(method::cosine(x)),
        15 => pattern(method::arcsine(x)),
        // Of the arctangent's words the first is y.
        16 => pattern(method::arctangent(x, y)),
        20 => u64::from(math::is_integral(x)),
        21 => u64::from(math::is_effectively_zero(x, y)),
        22 => pattern(f64::from(math::round_to_i32(x))),
        23 => math::to_usize(x) as u64,
        24 => pattern(math::count_to_f64(a as usize)),
        25 => u64::from((0.0..=y).contains(&x)),
        26 => refusing(port::hypot(x, y)),
        27 => split(x, true),
        28 => split(x, false),
        29 => split(x * 3600.0, true),
        30 => split(x * 3600.0, false),
        31 => pattern((a as f64 + nanos(b) as f64 / 1e9) / 3600.0),
        32 => u64::from((a, 1) < (b, 2)),
        33 => u64::from(nanos(b) < 1_000_000_000 && (a, nanos(b)) <= (1 << 53, 0)),
        34 => refusing(method::sine(x)),
        35 => refusing(method::cosine(x)),
        36 => refusing(method::arcsine(x)),
        37 => refusing(method::arctangent(x, y)),
        38 => u64::from(x.is_finite()),
        _ => unreachable!(),
    }
}

/// The arguments of record i of a function.
fn arguments(which: u64, i: u64, random: &mut Random) -> (u64, u64) {
    let limit = LIMITS.get(i as usize).copied();
    let x = limit.unwrap_or_else(|| random.float());
    match which {
        1 | 26 => {
            let (x, y) = hypot_input(if i < 60 { i * 27 } else { i + 100_000 }, random);
            (x.to_bits(), y.to_bits())
        }
        13 | 14 | 34 | 35 => (angle_input(i, random).to_bits(), 0),
        15 | 36 => (arcsine_input(i, random).to_bits(), 0),
        16 | 37 => {
            let (y, x) = arctangent_input(i, random);
            (y.to_bits(), x.to_bits())
        }
        21 => (random.near(x * 1e-12).to_bits(), x.to_bits()),
        24 => (random.word() >> random.below(64), 0),
        31 => (random.word() >> random.below(64), random.below(1_000_000_000)),
        32 => (random.below(3), random.below(3)),
        33 => ((1 << 53) - 1 + random.below(3), [0, 1, 999_999_999, 1_000_000_000][random.below(4) as usize]),
        _ => (x.to_bits(), random.float().to_bits()),
    }
}

/// Stores what a program of the port reads, and what it then has to print.
fn store(program: &str, stdin: &[u8], stdout: &str) {
    let folder = Path::new(env!("CARGO_MANIFEST_DIR")).join("../crates").join(program);
    fs::create_dir_all(&folder).unwrap();
    fs::write(folder.join("stdin"), stdin).unwrap();
    fs::write(folder.join("stdout"), stdout).unwrap();
}

/// Stores records of little-endian words, and their answers.
fn store_records(program: &str, records: &[u64], answers: &[u64]) {
    let bytes: Vec<u8> = records.iter().flat_map(|word| word.to_le_bytes()).collect();
    let lines: String = answers.iter().map(|answer| format!("{answer:016x}\n")).collect();
    store(program, &bytes, &lines);
}

/// What `module_main` replays: a function's number, a part of its answer and the arguments; and the answers.
#[derive(Default)]
pub struct Module {
    records: Vec<u64>,
    answers: Vec<u64>,
}

impl Module {
    /// Adds a record of 37 words, and the answer.
    pub fn push<W: AsRef<[u64]>>(&mut self, call: &Call<W>, part: u32) {
        let words = call.words.as_ref();
        let record = [call.which as u64, u64::from(part), words.len() as u64].into_iter().chain(words.iter().copied());
        self.records.extend(record.chain(repeat(0)).take(37));
        self.answers.push(call.part(part));
    }
}

pub fn write() {
    write_elementary();
    let mut module = Module::default();
    motion::write(&mut module);
    ruling::write(&mut module);
    assessment::write(&mut module);
    avoidance::write(&mut module);
    plots::write(&mut module);
    store_records("module_main", &module.records, &module.answers);
    let (sheets, lines) = sheet_compare::replayed();
    store("sheet_main", sheets.as_bytes(), &lines);
}

fn write_elementary() {
    let mut random = Random::new(11);
    let (mut records, mut answers) = (Vec::new(), Vec::new());
    for which in (0..=16).chain(20..=38) {
        for i in 0..EACH {
            let (a, b) = arguments(which, i, &mut random);
            records.extend([which, a, b]);
            answers.push(answer(which, a, b));
        }
    }
    store_records("elementary_main", &records, &answers);
}
