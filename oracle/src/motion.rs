//! Relative motion: the port's functions against relative_motion.rs on the port's elementary functions, behind document 01's
//! argument checks.

use crate::angle::wrap360;
use crate::calls::{self, Answer, Words};
use crate::checks::Kind::{self, Direction, Distance, Elapsed, Speed, Width};
use crate::checks::{is_accepted, LONGEST};
use crate::compare::{run, same};
use crate::inputs::{neighbour, Random};
use crate::vectors::Module;
use crate::{math, port};

/// A function: its arguments, how many parts its answer has, the port's call and the Rust on the port's
/// elementary functions and on the standard library's; and arguments from document 01's corners and examples.
pub struct Function {
    pub name: &'static str,
    kinds: &'static [Kind],
    pub parts: u32,
    pub port: fn(Words) -> port::Encounter,
    pub rust: fn(Words) -> Answer,
    pub rust_std: fn(Words) -> Answer,
    corners: &'static [&'static [f64]],
}

const ENCOUNTER: &[Kind] = &[Direction, Speed, Direction, Distance, Direction, Speed];

/// Own course and speed, and the contact's bearing, range, course and speed.
fn encounter(words: Words) -> ([f64; 2], [f64; 4]) {
    let [own_course, own_speed, bearing, range, course, speed, ..] = words.map(f64::from_bits);
    ([own_course, own_speed], [bearing, range, course, speed])
}

/// In the order of their numbers in the records.
pub const FUNCTIONS: [Function; 6] = [
    Function {
        name: "closest_point_of_approach",
        kinds: ENCOUNTER,
        parts: 6,
        port: |words| {
            let (own, contact) = encounter(words);
            port::cpa(own, contact)
        },
        rust: calls::cpa,
        rust_std: kinavis_std::calls::cpa,
        corners: APPROACHES,
    },
    Function {
        name: "approach_distance",
        kinds: ENCOUNTER,
        parts: 3,
        port: |words| {
            let (own, contact) = encounter(words);
            port::approach_distance(own, contact)
        },
        rust: calls::passing,
        rust_std: kinavis_std::calls::passing,
        corners: APPROACHES,
    },
    Function {
        name: "target_from_plot",
        kinds: &[Direction, Speed, Direction, Distance, Direction, Distance, Elapsed],
        parts: 6,
        port: |words| {
            let [own_course, own_speed, bearing, range, bearing2, range2, ..] = words.map(f64::from_bits);
            port::plot([own_course, own_speed], [bearing, range], [bearing2, range2], words[6], words[7] as u32)
        },
        rust: calls::plot,
        rust_std: kinavis_std::calls::plot,
        corners: &[
            &[0.0, 10.0, 90.0, 6.0, 90.0, 5.0, 360.0, 0.0],
            &[0.0, 10.0, 0.0, 20.0, 0.0, 10.0, 3600.0, 0.0],
            &[0.0, 0.0, 45.0, 4.0, 45.0, 4.0, 1.0, 0.0],
            &[0.0, 10.0, 90.0, 6.0, 90.0, 5.0, 0.0, 0.0],
            &[0.0, 10.0, 90.0, 6.0, 90.0, 5.0, 0.0, 1.0],
            &[0.0, 10.0, 90.0, 6.0, 90.0, 5.0, LONGEST as f64, 0.0],
            &[0.0, 10.0, 90.0, 6.0, 90.0, 5.0, LONGEST as f64, 1.0],
            &[0.0, 10.0, 90.0, 6.0, 90.0, 5.0, 1.0, 1e9],
            &[0.0, 10.0, 90.0, 6.0, 360.0, 5.0, 0.0, 0.0],
        ],
    },
    Function {
        name: "bow_crossing_range",
        kinds: ENCOUNTER,
        parts: 2,
        port: |words| {
            let (own, contact) = encounter(words);
            port::bow(own, contact)
        },
        rust: calls::bow,
        rust_std: kinavis_std::calls::bow,
        corners: &[
            &[0.0, 10.0, 45.0, 4.0, 270.0, 20.0],
            &[0.0, 10.0, 45.0, 4.0, 270.0, 10.0],
            &[0.0, 10.0, 90.0, 4.0, 0.0, 10.0],
            &[0.0, 0.0, 90.0, 4.0, 270.0, 1e-12],
            &[0.0, 0.0, 90.0, 4.0, 270.0, 9.999999999999998e-13],
            &[0.0, 10.0, 180.0, 4.0, 90.0, 10.0],
            &[0.0, 10.0, 0.0, 0.0, 270.0, 10.0],
            &[350.7561434912679, 1000.0, 90.0, 4.0, 170.75614349126795, 1000.0],
            &[5.0, 10.0, 5.0, 3.0, 95.0, 10.0],
            &[0.0, 0.0, 90.0, 10000.0, 359.99999999999994, 1000.0],
        ],
    },
    Function {
        name: "course_for_cpa",
        kinds: &[Direction, Speed, Direction, Distance, Direction, Speed, Distance],
        parts: 5,
        port: |words| {
            let (own, contact) = encounter(words);
            port::course(own, contact, f64::from_bits(words[6]))
        },
        rust: calls::course,
        rust_std: kinavis_std::calls::course,
        corners: &[
            &[0.0, 15.0, 10.0, 8.0, 190.0, 12.0, 2.0],
            &[0.0, 10.0, 45.0, 4.0, 0.0, 0.0, 1.0],
            &[105.0, 15.0, 300.0, 1.0, 195.0, 15.0, 0.5],
            &[60.0, 15.0, 60.0, 4.0, 120.0, 15.0, 2.0],
            &[0.0, 10.0, 0.0, 4.0, 0.0, 0.0, 0.0],
            &[1e-14, 10.0, 0.0, 4.0, 0.0, 0.0, 0.0],
            &[359.99999999999994, 10.0, 0.0, 4.0, 0.0, 0.0, 0.0],
            &[0.0, 10.0, 0.0, 1.0, 0.0, 0.0, 1.0],
            &[0.0, 0.0, 0.0, 1.0, 0.0, 0.0, 1.0],
            &[0.0, 0.0, 0.0, 4.0, 0.0, 0.0, 1.0],
            &[0.0, 1.0, 180.0, 4.0, 0.0, 20.0, 1.0],
        ],
    },
    Function {
        name: "relative_bearing_of",
        kinds: &[Direction, Speed, Direction, Distance],
        parts: 2,
        port: |words| {
            let [own_course, own_speed, bearing, range, ..] = words.map(f64::from_bits);
            port::bearing([own_course, own_speed], bearing, range)
        },
        rust: calls::bearing,
        rust_std: kinavis_std::calls::bearing,
        corners: &[&[350.0, 10.0, 10.0, 4.0], &[10.0, 10.0, 350.0, 4.0], &[0.0, 10.0, 0.0, 4.0], &[5e-324, 10.0, 0.0, 4.0]],
    },
];

const APPROACHES: &[&[f64]] = &[
    &[0.0, 10.0, 0.0, 4.0, 0.0, 0.0],
    &[0.0, 15.0, 30.0, 10.0, 270.0, 15.0],
    &[0.0, 3.0, 0.0, 1.625, 0.0, 0.0],
    &[0.0, 0.0, 180.0, 1.0, 0.0, 1e-9],
    &[0.0, 0.0, 180.0, 1.0, 0.0, 9.999999999999999e-10],
    &[0.0, 0.0, 0.0, 4.0, 6.0, 1e-9],
    &[0.0, 10.0, 0.0, 0.0, 90.0, 5.0],
    &[0.0, 10.0, 0.0, 5e-324, 0.0, 0.0],
    &[0.0, 1.0, 0.0, 5e-324, 0.0, 0.0],
    &[0.0, 10.0, 90.0, 4.0, 0.0, 0.0],
    &[0.0, 10.0, 180.0, 4.0, 0.0, 0.0],
    &[0.0, 10.0, 0.0, 4.0, 0.0, 10.0],
    &[360.0, 10.0, 0.0, 4.0, 0.0, 10.0],
    &[0.0, 1000.5, 0.0, -1.0, 0.0, 10.0],
    &[0.0, 10.0, 0.0, -1.0, 360.0, 10.0],
];

impl Function {
    /// Document 01's answer: the first bad argument decides, and with none bad the Rust does.
    fn reference(&self, words: Words) -> Answer {
        let bad = self.kinds.iter().enumerate().find(|(i, kind)| !is_accepted(**kind, &words[*i..]));
        bad.map_or_else(|| (self.rust)(words), |(_, kind)| [*kind as u64, 0, 0, 0, 0, 0])
    }

    /// Arguments as words.
    fn words(&self, arguments: &[f64]) -> Words {
        let mut words = [0; 8];
        for (i, x) in arguments.iter().enumerate() {
            // Kinds end with elapsed time, whose words are numbers.
            words[i] = if self.kinds.get(i).is_none_or(|kind| *kind == Elapsed) { *x as u64 } else { x.to_bits() };
        }
        words
    }

    /// Random arguments, all accepted but for an elapsed time of 0.
    fn random(&self, random: &mut Random) -> Words {
        let mut words = [0; 8];
        for (i, kind) in self.kinds.iter().enumerate() {
            accepted(*kind, &mut words[i..], random);
        }
        words
    }

    /// Case i of the adversarial ones: the corners, then arguments where something turns, related ones, and one or two bad ones.
    fn adversarial(&self, i: u64, random: &mut Random) -> Words {
        if let Some(corner) = self.corners.get(i as usize) {
            return self.words(corner);
        }
        let mut words = self.random(random);
        for (i, kind) in self.kinds.iter().enumerate() {
            if random.below(3) == 0 {
                turning(*kind, &mut words[i..], random);
            }
        }
        if random.below(4) != 0 {
            let related = related(words.map(f64::from_bits), random).map(f64::to_bits);
            let floats = self.kinds.iter().filter(|kind| **kind != Elapsed).count();
            words[..floats].copy_from_slice(&related[..floats]);
        }
        if random.below(4) == 0 {
            for _ in 0..=random.below(2) {
                let i = random.below(self.kinds.len() as u64) as usize;
                bad(self.kinds[i], &mut words[i..], random);
            }
        }
        words
    }

    /// So many random arguments that are not refused.
    pub fn answered(&self, count: usize) -> Vec<Words> {
        let mut random = Random::new(5);
        let cases = std::iter::repeat_with(|| self.random(&mut random));
        cases.filter(|words| self.reference(*words)[0] == 0).take(count).collect()
    }

    /// The words of a difference in any part, where zeros of either sign are equal.
    fn difference(&self, words: Words, wanted: Answer) -> Option<String> {
        let unsigned_zero = |word: u64| f64::from_bits(word) + 0.0;
        (0..self.parts).zip(wanted).find_map(|(part, wanted)| {
            let got = (self.port)(words).part(part);
            let floats = words.map(f64::from_bits);
            (!same(unsigned_zero(got), unsigned_zero(wanted)))
                .then(|| format!("{floats:?} ({words:x?}), part {part}: {got:016x}, wanted {wanted:016x}"))
        })
    }
}

/// The largest argument of a kind, and a usual size.
fn sizes(kind: Kind) -> (f64, u64) {
    match kind {
        Direction => (neighbour(360.0, -1), 360),
        Speed => (1000.0, 30),
        Distance => (10_000.0, 12),
        Elapsed => (LONGEST as f64, 3600),
        Width => (90.0, 90),
    }
}

pub fn any<T: Copy>(list: &[T], random: &mut Random) -> T {
    list[random.below(list.len() as u64) as usize]
}

/// An accepted argument: a whole number, a multiple of 1/1024, any number of a usual size or of any.
pub fn accepted(kind: Kind, words: &mut [u64], random: &mut Random) {
    let (most, usual) = sizes(kind);
    let x = match random.below(4) {
        0 => random.below(usual) as f64,
        1 => random.below(usual * 1024) as f64 / 1024.0,
        2 => random.unit() * usual as f64,
        _ => random.unit() * most,
    };
    if kind == Elapsed {
        words[0] = x as u64;
        words[1] = random.below(1_000_000_000) * random.below(2);
    } else {
        words[0] = x.to_bits();
    }
}

/// An argument where something turns: the ends, quarters of a circle, tiny numbers, the limits of relative motion.
pub fn turning(kind: Kind, words: &mut [u64], random: &mut Random) {
    let quarter = random.below(8) as f64 * 45.0;
    let tiny = [5e-324, 1e-300, 1.5e-162, 1e-15, 1e-12, 1e-9];
    if kind == Elapsed {
        let times = [(0, 0), (0, 1), (0, 999_999_999), (1, 0), (LONGEST - 1, 999_999_999), (LONGEST, 0), (LONGEST, 1)];
        (words[0], words[1]) = any(&times, random);
    } else {
        let common = [0.0, -0.0, sizes(kind).0, any(&tiny, random), if kind == Direction { quarter } else { 1.0 }];
        words[0] = any(&common, random).to_bits();
    }
}

/// An argument that is not accepted.
pub fn bad(kind: Kind, words: &mut [u64], random: &mut Random) {
    if kind == Elapsed {
        let times = [(0, 0), (LONGEST, 1), (LONGEST + 1, 0), (0, 1_000_000_000), (1, u64::from(u32::MAX)), (u64::MAX, u64::from(u32::MAX))];
        (words[0], words[1]) = any(&times, random);
    } else {
        let above = neighbour(sizes(kind).0, 1);
        let floats = [f64::NAN, f64::INFINITY, f64::NEG_INFINITY, -5e-324, -1.0, above, above + 0.5, f64::MAX];
        words[0] = any(&floats, random).to_bits();
    }
}

/// The bearing, in degrees of either sign, of a contact that comes straight on.
pub fn collision_bearing(own_course: f64, own_speed: f64, course: f64, speed: f64) -> f64 {
    let (own, target) = (math::to_radians(own_course), math::to_radians(course));
    let (north, east) = (own_speed * own.cos() - speed * target.cos(), own_speed * own.sin() - speed * target.sin());
    math::to_degrees(east.atan2(north))
}

/// The present CPA, or the range.
fn present_distance(encounter: [f64; 8]) -> f64 {
    f64::from_bits(calls::cpa(encounter.map(f64::to_bits))[2])
}

/// An encounter's arguments, some of them made to depend on others.
pub fn related(arguments: [f64; 8], random: &mut Random) -> [f64; 8] {
    let [mut own_course, mut own_speed, mut bearing, mut range, mut course, mut speed, mut desired, rest] = arguments;
    let quarters = 90.0 * random.below(4) as f64;
    let hair = any(&[0.0, 1e-9, -1e-9, 1e-7, -1e-7], random);
    match random.below(13) {
        // Parallel and reciprocal tracks, the contact ahead, abeam or astern.
        0 => (bearing, course) = (wrap360(own_course + quarters), own_course),
        1 => (bearing, course) = (wrap360(own_course + quarters), wrap360(own_course + 180.0)),
        // Equal velocities.
        2 => (course, speed) = (own_course, own_speed),
        // A relative speed about 1e-9; a determinant about 1e-12.
        3 => (own_course, own_speed, course, speed) = (quarters, 0.0, quarters, random.near(1e-9)),
        4 => (course, speed) = (wrap360(own_course + 90.0), random.near(1e-12)),
        // The same plot twice.
        5 => (course, speed) = (bearing, range),
        // The contact comes straight on, and crosses about over own craft; or is abeam of the relative motion.
        6 | 7 => bearing = wrap360(collision_bearing(own_course, own_speed, course, speed) + quarters + hair),
        // Desired about the range.
        8 => desired = random.near(range),
        // Own speed about the least that reaches the track.
        9 => {
            let grazing = (desired / range).clamp(0.0, 1.0).asin();
            let across = (math::to_radians(course - bearing) - grazing).sin() * speed;
            own_speed = if across == 0.0 { 0.0 } else { random.near(across.abs()) };
        }
        // A time on half a nanosecond.
        10 => {
            (own_course, bearing, speed) = (0.0, 0.0, 0.0);
            own_speed = f64::from(1u32 << random.below(8));
            range = random.below(1 << 17) as f64 / 16384.0;
        }
        // Two courses that alter by as much, after rounding.
        11 => {
            (own_course, bearing) = (332.0 + random.unit() * 28.0, 180.0 + random.unit() * 28.0);
            (speed, desired) = (0.0, range * 1e-15 * random.below(8) as f64);
        }
        _ => desired = present_distance(arguments),
    }
    [own_course, own_speed, bearing, range, course, speed, desired, rest]
}

/// Compares each function on `count` random cases and a tenth as many adversarial ones, and counts the numbers that occur.
pub fn compare(count: u64) -> bool {
    let mut good = true;
    for f in &FUNCTIONS {
        let mut numbers = [0u64; 12];
        good &= run(f.name, count + count / 10, |i, random| {
            let words = if i < count / 10 { f.adversarial(i, random) } else { f.random(random) };
            let wanted = f.reference(words);
            numbers[wanted[0] as usize] += 1;
            f.difference(words, wanted)
        });
        println!("{}: cases by number from 0 on {numbers:?}", f.name);
    }
    good
}

/// Cases of each function in the records.
const EACH: u64 = 120;

/// Writes the records and answers that `module_main` replays in the gate. An answer is the port's once it is known to be the
/// Rust's, so that a zero has the port's sign.
pub fn write(module: &mut Module) {
    let mut random = Random::new(13);
    for f in &FUNCTIONS {
        for i in 0..EACH {
            let words = if i < EACH * 2 / 3 { f.adversarial(i, &mut random) } else { f.random(&mut random) };
            let wanted = f.reference(words);
            assert_eq!(f.difference(words, wanted), None);
            for part in 0..f.parts {
                module.push(&(f.port)(words), part);
            }
        }
    }
}
