//! The assessment: the port's `assess` against assessment.rs on the port's elementary functions, behind document 01's argument checks.

use crate::angle::wrap360;
use crate::checks::is_accepted;
use crate::checks::Kind::{self, Direction, Distance, Elapsed, Speed};
use crate::compare::{run, same};
use crate::inputs::{neighbour, Random};
use crate::motion::{accepted, any, bad, collision_bearing, turning};
use crate::port;
use crate::traffic_calls::{assess, picture, AssessArguments, AssessWords};
use crate::vectors::Module;

/// The arguments in the order in which document 01 checks them. The time is two words.
const KINDS: [Kind; 8] = [Direction, Speed, Direction, Distance, Direction, Speed, Distance, Elapsed];

/// Parts of an answer.
const PARTS: u32 = 14;

/// Where some arguments and parts stand.
const OWN_SPEED: usize = 1;
const BEARING: usize = 2;
const RANGE: usize = 3;
const COURSE: usize = 4;
const SPEED: usize = 5;
const LIMIT: usize = 6;
const TIME: usize = 7;
const HAS_CPA: usize = 4;
const CPA: usize = 5;
const SECS: usize = 7;
const NANOS: usize = 8;
const RISK: usize = 11;

/// An encounter, the policy's distance and the seconds of its time: document 01's corners of assessment.rs, and what they lie between.
const CORNERS: &[[f64; 8]] = &[
    // The range: 0, and about where its square becomes 0.
    [0.0, 10.0, 0.0, 0.0, 90.0, 5.0, 1.0, 1800.0],
    [0.0, 10.0, 45.0, 1.5e-162, 90.0, 5.0, 1.0, 1800.0],
    [0.0, 10.0, 45.0, 1.6e-162, 90.0, 5.0, 1.0, 1800.0],
    [0.0, 1000.0, 45.0, 1e-150, 180.0, 1000.0, 1.0, 1800.0],
    [0.0, 1000.0, 90.0, 5e-324, 180.0, 1000.0, 1.0, 1800.0],
    // Dead ahead, abeam, opening, stationary; own velocity.
    [0.0, 10.0, 0.0, 4.0, 0.0, 0.0, 1.0, 1800.0],
    [0.0, 10.0, 0.0, 4.0, 180.0, 10.0, 0.0, 0.0],
    [0.0, 10.0, 90.0, 4.0, 0.0, 0.0, 1.0, 1800.0],
    [0.0, 10.0, 270.0, 4.0, 0.0, 0.0, 4.0, 1800.0],
    [0.0, 10.0, 180.0, 4.0, 0.0, 0.0, 1.0, 1800.0],
    [0.0, 10.0, 30.0, 4.0, 0.0, 10.0, 1.0, 1800.0],
    [0.0, 0.0, 30.0, 4.0, 0.0, 0.0, 1.0, 1800.0],
    [0.0, 0.0, 180.0, 1.0, 0.0, 1e-9, 1.0, 1800.0],
    // Passing at 3 in an hour, against limits that are those and next to them.
    [0.0, 4.0, 36.86989764584402, 5.0, 0.0, 0.0, 3.0, 3600.0],
    [0.0, 4.0, 36.86989764584402, 5.0, 0.0, 0.0, 2.999, 3600.0],
    [0.0, 4.0, 36.86989764584402, 5.0, 0.0, 0.0, 3.001, 3599.0],
    [0.0, 4.0, 36.86989764584402, 5.0, 0.0, 0.0, 3.001, 3601.0],
    // Bad arguments: each row's first decides.
    [360.0, 1000.5, 0.0, -1.0, 0.0, 10.0, -1.0, 1e300],
    [0.0, 1000.5, 360.0, -1.0, 0.0, 10.0, -1.0, 1e300],
    [0.0, 10.0, 0.0, -1.0, 360.0, 10.0, -1.0, 1e300],
    [0.0, 10.0, 0.0, 4.0, 0.0, -1.0, -1.0, 1e300],
    [0.0, 10.0, 0.0, 4.0, 0.0, 10.0, -1.0, 1e300],
    [0.0, 10.0, 0.0, 4.0, 0.0, 10.0, 1.0, 1e300],
];

fn of_corner(corner: [f64; 8]) -> AssessArguments {
    let mut words = [0; 9];
    for (word, x) in words.iter_mut().zip(corner) {
        *word = x.to_bits();
    }
    words[TIME] = corner[TIME] as u64;
    words
}

fn call(words: AssessArguments) -> port::Contact {
    let [own_course, own_speed, bearing, range, course, speed, limit, ..] = words.map(f64::from_bits);
    port::assess([own_course, own_speed], [bearing, range, course, speed], limit, words[TIME], words[TIME + 1] as u32)
}

pub fn port(part: u32, words: AssessArguments) -> u64 {
    call(words).part(part)
}

/// Document 01's answer: the first bad argument decides, and with none bad the Rust does.
fn reference(words: AssessArguments) -> AssessWords {
    let bad = KINDS.iter().enumerate().find(|(i, kind)| !is_accepted(**kind, &words[*i..]));
    bad.map_or_else(|| assess(words), |(_, kind)| [*kind as u64, 0, 0, 0, 0, 0, 0, 0, 0, 0, 0, 0, 0, 0])
}

/// The words of a difference in any part, where zeros of either sign are equal.
fn difference(words: AssessArguments, wanted: AssessWords) -> Option<String> {
    let unsigned_zero = |word: u64| f64::from_bits(word) + 0.0;
    (0..PARTS).zip(wanted).find_map(|(part, wanted)| {
        let got = port(part, words);
        let floats = words.map(f64::from_bits);
        (!same(unsigned_zero(got), unsigned_zero(wanted)))
            .then(|| format!("{floats:?} ({words:x?}), part {part}: {got:016x}, wanted {wanted:016x}"))
    })
}

/// Random arguments, all accepted.
fn random_arguments(random: &mut Random) -> AssessArguments {
    let mut words = [0; 9];
    for (i, kind) in KINDS.iter().enumerate() {
        accepted(*kind, &mut words[i..], random);
    }
    words
}

/// The policy's limits about what the encounter comes to: its CPA, the float to either side, or 0; its time to go, a nanosecond to
/// either side, or 0.
fn at_the_limits(mut words: AssessArguments, random: &mut Random) -> AssessArguments {
    let answer = reference(words);
    if answer[0] != 0 || answer[HAS_CPA] == 0 {
        return words;
    }
    let near = f64::from_bits(answer[CPA]);
    let step = any(&[-1, 0, 0, 1], random);
    words[LIMIT] = match random.below(4) {
        0 => words[LIMIT],
        1 => 0.0f64.to_bits(),
        _ if near == 0.0 => near.to_bits(),
        _ => neighbour(near, step).to_bits(),
    };
    let nanos = u128::from(answer[SECS]) * 1_000_000_000 + u128::from(answer[NANOS]);
    let nanos = match random.below(4) {
        0 => return words,
        1 => 0,
        _ => (nanos + 1 + u128::from(random.below(3))).saturating_sub(2),
    };
    (words[TIME], words[TIME + 1]) = ((nanos / 1_000_000_000).min(1 << 53) as u64, (nanos % 1_000_000_000) as u64);
    words
}

/// An encounter some of whose arguments depend on others.
fn related(words: AssessArguments, random: &mut Random) -> AssessArguments {
    let mut floats = words.map(f64::from_bits);
    let [own_course, own_speed, _, range, course, speed, ..] = floats;
    let quarters = 90.0 * random.below(4) as f64;
    let hair = any(&[0.0, 1e-9, -1e-9, 1e-7, -1e-7], random);
    match random.below(8) {
        // Dead ahead, abeam or astern, on parallel and reciprocal tracks.
        0 => (floats[BEARING], floats[COURSE]) = (wrap360(own_course + quarters), own_course),
        1 => (floats[BEARING], floats[COURSE]) = (wrap360(own_course + quarters), wrap360(own_course + 180.0)),
        // The same velocity; about the least relative speed that counts.
        2 => (floats[COURSE], floats[SPEED]) = (own_course, own_speed),
        3 => (floats[OWN_SPEED], floats[COURSE], floats[SPEED]) = (0.0, quarters, random.near(1e-9)),
        // Straight on, opening, or abeam of the relative motion.
        4 | 5 => floats[BEARING] = wrap360(collision_bearing(own_course, own_speed, course, speed) + quarters + hair),
        // Ranges about where the square becomes 0, and where the drift is large.
        6 => floats[RANGE] = any(&[0.0, 1.5e-162, 1.6e-162, 1.5717277847026285e-162, 1e-155, 1e-150, 1e-100, 5e-324], random),
        // The whole range on one leg: CPA and time that are whole.
        _ => {
            (floats[OWN_SPEED], floats[SPEED]) = (f64::from(1u32 << random.below(8)), 0.0);
            (floats[BEARING], floats[RANGE]) = (own_course, (range * 16384.0).floor() / 16384.0);
        }
    }
    let mut related = words;
    for i in 0..TIME {
        related[i] = floats[i].to_bits();
    }
    related
}

/// Case i of the adversarial ones: the corners, then arguments where something turns, related ones, limits that are just met, and one
/// or two bad ones.
fn adversarial(i: u64, random: &mut Random) -> AssessArguments {
    if let Some(corner) = CORNERS.get(i as usize) {
        return of_corner(*corner);
    }
    let mut words = random_arguments(random);
    for (i, kind) in KINDS.iter().enumerate() {
        if random.below(5) == 0 {
            turning(*kind, &mut words[i..], random);
        }
    }
    if random.below(4) != 0 {
        words = related(words, random);
    }
    words = at_the_limits(words, random);
    if random.below(4) == 0 {
        for _ in 0..=random.below(2) {
            let i = random.below(KINDS.len() as u64) as usize;
            bad(KINDS[i], &mut words[i..], random);
        }
    }
    words
}

/// So many random arguments that are not refused.
pub fn answered(count: usize) -> Vec<AssessArguments> {
    let mut random = Random::new(5);
    std::iter::repeat_with(|| random_arguments(&mut random)).filter(|words| reference(*words)[0] == 0).take(count).collect()
}

/// How often what occurs.
#[derive(Default, Debug)]
struct Tally {
    numbers: [u64; 7],
    risks: [u64; 4],
    equal_cpa: u64,
    equal_time: u64,
}

impl Tally {
    fn count(&mut self, words: AssessArguments, answer: AssessWords) {
        self.numbers[answer[0] as usize] += 1;
        if answer[0] == 0 {
            self.risks[answer[RISK] as usize] += 1;
            let meets = answer[HAS_CPA] == 1;
            self.equal_cpa += u64::from(meets && answer[CPA] == words[LIMIT]);
            self.equal_time += u64::from(meets && answer[SECS..=NANOS] == words[TIME..=TIME + 1]);
        }
    }
}

/// Compares `assess` on half of `count` adversarial cases and as many random ones, and counts what occurs.
pub fn compare(count: u64) -> bool {
    let mut tally = Tally::default();
    let good = run("assess", count / 2 * 2, |i, random| {
        let words = if i < count / 2 { adversarial(i, random) } else { random_arguments(random) };
        let wanted = reference(words);
        tally.count(words, wanted);
        difference(words, wanted)
    });
    println!("assess: cases by number from 0 on {:?}; by risk {:?}", tally.numbers, tally.risks);
    println!("assess: CPA equal to the limit {}, time equal to the limit {}", tally.equal_cpa, tally.equal_time);
    let mut sizes = [0; 4];
    let pictures = run("picture", count / 10, |_, random| picture_difference(random, &mut sizes));
    println!("picture: by contacts, eight at a time {sizes:?}");
    good && pictures
}

/// Contacts of a picture: few bearings, times and speeds, so that risks and times are often equal while ranges differ; some refused.
fn pictured(random: &mut Random) -> Vec<[f64; 4]> {
    let count = 1 + random.below(32) as usize;
    let pick = |random: &mut Random, from: &[f64]| from[random.below(from.len() as u64) as usize];
    let contact = |random: &mut Random| {
        if random.below(12) == 0 {
            return [0.0, -1.0, 0.0, 0.0];
        }
        // A range that grows with the closing speed gives the same time.
        let (speed, hours) = (pick(random, &[0.0, 5.0, 10.0, 20.0, 30.0]), pick(random, &[0.2, 0.25, 0.4, 2.0]));
        let bearing = pick(random, &[0.0, 0.0, 5.0, 90.0, 180.0, 270.0]);
        [bearing, (10.0 + speed) * hours, pick(random, &[180.0, 180.0, 0.0, bearing]), speed]
    };
    (0..count).map(|_| contact(random)).collect()
}

/// Parts of a picture.
const PICTURE: u32 = 15;

/// Whether the parts of one picture differ, and which.
fn picture_difference(random: &mut Random, sizes: &mut [u64; 4]) -> Option<String> {
    let (limit, secs) = ([0.0, 1.0, 3.0][random.below(3) as usize], [0, 900, 1440, 3600][random.below(4) as usize]);
    let contacts = pictured(random);
    let bits = |c: &[f64; 4]| (c[1] >= 0.0).then(|| c.map(f64::to_bits));
    let encounters: Vec<_> = contacts.iter().map(bits).collect();
    let wanted = picture(limit, secs, [0.0f64, 10.0].map(f64::to_bits), &encounters).unwrap_or([0; 15]);
    sizes[(contacts.len() - 1) / 8] += 1;
    let call = port::picture([0.0, 10.0], contacts.iter().copied(), limit, secs);
    let got: Vec<u64> = (1..=PICTURE).map(|part| call.part(part)).collect();
    (got != wanted).then(|| format!("{limit} {secs} {contacts:?}: {got:?}, not {wanted:?}"))
}

/// Cases in the records.
const EACH: u64 = 120;

/// Adds records and answers of the assessment. As in motion.rs an answer is the port's once it is known to be the Rust's.
pub fn write(module: &mut Module) {
    let mut random = Random::new(19);
    for i in 0..EACH {
        let words = if i < EACH * 2 / 3 { adversarial(i, &mut random) } else { random_arguments(&mut random) };
        assert_eq!(difference(words, reference(words)), None);
        for part in 0..PARTS {
            module.push(&call(words), part);
        }
    }
}
