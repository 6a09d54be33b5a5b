//! One contact: `avoid`.

use super::*;

/// The kinds of an encounter and the desired distance, in the order in which document 01 checks them.
const KINDS: [Kind; 7] = [Direction, Speed, Direction, Distance, Direction, Speed, Distance];

/// The sides' code, and whether a rate is given; the encounter and the desired distance; least, most and the rate.
#[derive(Clone, Copy)]
pub struct Avoid {
    pub sides: u32,
    has_rate: bool,
    pub encounter: [f64; 7],
    pub limits: Limits,
}

const fn meeting(sides: u32, encounter: [f64; 7], least: f64, most: f64) -> Avoid {
    Avoid { sides, has_rate: false, encounter, limits: Limits { least, most, rate: None } }
}

/// Document 01's corners of avoidance.rs and its examples, and those of the open points.
const CORNERS: &[Avoid] = &[
    // A seed before the grid: starboard only, either side, port only.
    meeting(1, [0.0, 10.0, 45.0, 4.0, 0.0, 0.0, 1.0], 0.0, 180.0),
    meeting(0, [0.0, 10.0, 45.0, 4.0, 0.0, 0.0, 1.0], 0.0, 180.0),
    meeting(2, [0.0, 10.0, 45.0, 4.0, 0.0, 0.0, 1.0], 0.0, 180.0),
    // Nothing clears, inside the distance.
    meeting(0, [0.0, 10.0, 0.0, 0.5, 0.0, 0.0, 1.0], 0.0, 5.0),
    // Without a seed, since desired is the range: the grid's last trial, and 2.5 untried.
    meeting(1, [0.0, 10.0, 271.5, 4.0, 0.0, 0.0, 4.0], 0.0, 2.5),
    meeting(1, [0.0, 10.0, 272.4, 4.0, 0.0, 0.0, 4.0], 0.0, 2.5),
    meeting(1, [0.0, 10.0, 272.4, 4.0, 0.0, 0.0, 4.0], 2.5, 2.5),
    // A seed raised to the least, and one above the most.
    meeting(0, [0.0, 10.0, 0.0, 4.0, 0.0, 0.0, 1.0], 30.0, 180.0),
    meeting(0, [0.0, 10.0, 0.0, 4.0, 0.0, 0.0, 1.0], 0.0, 14.0),
    meeting(0, [0.0, 10.0, 0.0, 4.0, 0.0, 0.0, 1.0], 14.47, 14.48),
    // Open points 14 to 18.
    meeting(0, [105.0, 15.0, 300.0, 1.0, 195.0, 15.0, 0.5], 0.0, 180.0),
    meeting(2, [105.0, 15.0, 300.0, 1.0, 195.0, 15.0, 0.5], 0.0, 180.0),
    meeting(0, [60.0, 15.0, 60.0, 4.0, 120.0, 15.0, 2.0], 0.0, 180.0),
    meeting(1, [60.0, 15.0, 60.0, 4.0, 120.0, 15.0, 2.0], 0.0, 180.0),
    meeting(0, [0.0, 10.0, 0.0, 1.0, 0.0, 0.0, 1.0], 17.38770443707414, 97.38770443707413),
    meeting(1, [180.1, 10.0, 180.1, 4.0, 0.0, 0.0, 1.0], 180.0, 180.0),
    meeting(2, [180.1, 10.0, 180.1, 4.0, 0.0, 0.0, 1.0], 180.0, 180.0),
    meeting(0, [0.0, 10.0, 180.0, 0.5, 0.0, 0.0, 1.0], 0.0, 180.0),
    meeting(0, [0.0, 10.0, 0.0, 0.5, 0.0, 10.0, 1.0], 0.0, 180.0),
    // Own speed 0; no course at that speed.
    meeting(0, [0.0, 0.0, 0.0, 4.0, 180.0, 10.0, 1.0], 0.0, 180.0),
    meeting(0, [0.0, 1.0, 180.0, 4.0, 0.0, 20.0, 1.0], 0.0, 180.0),
    // Bad arguments: the first decides.
    meeting(0, [360.0, 1000.5, 0.0, -1.0, 360.0, 10.0, -1.0], 9.0, 8.0),
    meeting(0, [360.0, 1000.5, 0.0, -1.0, 360.0, 10.0, -1.0], 0.0, 180.0),
    meeting(0, [0.0, 1000.5, 0.0, -1.0, 360.0, 10.0, -1.0], 0.0, 180.0),
    meeting(0, [0.0, 10.0, 0.0, -1.0, 360.0, 10.0, -1.0], 0.0, 180.0),
    meeting(0, [0.0, 10.0, 0.0, 1.0, 0.0, 1000.5, -1.0], 0.0, 180.0),
    meeting(0, [0.0, 10.0, 0.0, 1.0, 0.0, 10.0, -1.0], 0.0, 180.0),
];

/// What document 01 and the open points say of some corners, by their places: the number, the side, and the alteration and the course
/// to three decimals.
const STATED: &[(usize, u64, u64, f64, f64)] = &[
    (0, 0, 0, 30.522, 30.522),
    (1, 0, 0, 0.0, 0.0),
    (3, 5, 0, 0.0, 0.0),
    (4, 0, 0, 2.0, 2.0),
    (5, 5, 0, 0.0, 0.0),
    (6, 0, 0, 2.5, 2.5),
    (15, 0, 0, 180.0, 0.1),
    (16, 0, 1, -180.0, 0.1),
    (21, 1, 0, 0.0, 0.0),
    (22, 1, 0, 0.0, 0.0),
    (23, 2, 0, 0.0, 0.0),
    (24, 3, 0, 0.0, 0.0),
    (25, 2, 0, 0.0, 0.0),
    (26, 3, 0, 0.0, 0.0),
];

/// Whether the Rust answers the corners as is said of them, and turns from 180.1 by 180 either way to two different courses.
pub(super) fn compare_stated() -> bool {
    let course = |place: usize| CORNERS[place].reference()[3];
    let apart = course(15) == 0.10000000000002274f64.to_bits() && course(16) == 0.09999999999999432f64.to_bits();
    let good = run("avoid as documented", STATED.len() as u64, |i, _| {
        let (place, number, side, alteration, course) = STATED[i as usize];
        let answer = CORNERS[place].reference();
        let [got, course_got] = [answer[2], answer[3]].map(f64::from_bits);
        let near = (got - alteration).abs() < 5e-4 && (course_got - course).abs() < 5e-4;
        (answer[..2] != [number, side] || !near).then(|| format!("corner {place}: {answer:x?}"))
    });
    good && apart
}

impl Avoid {
    /// Random arguments, all accepted but for the rate.
    fn random(random: &mut Random) -> Avoid {
        let mut encounter = KINDS.map(|kind| drawn(accepted, kind, random));
        let [.., range, _, _, desired] = &mut encounter;
        match random.below(4) {
            0 => {}
            1 => *range = random.unit() * 12.0,
            _ => (*range, *desired) = (random.unit() * 12.0, random.unit() * 3.0),
        }
        let (least, most) = limits(random);
        let has_rate = random.below(3) == 0;
        Avoid { sides: random.below(3) as u32, has_rate, encounter, limits: Limits { least, most, rate: has_rate.then(|| rate(random)) } }
    }

    /// A seed that is about a reversal: the contact lies so that the relative track of the reversed course passes at the desired
    /// distance.
    fn reversing(mut self, random: &mut Random) -> Avoid {
        let [own_course, own_speed, bearing, range, course, speed, desired] = &mut self.encounter;
        *own_course = any(&[105.0, *own_course], random);
        let grazing = math::to_degrees((*desired / *range).clamp(0.0, 1.0).asin());
        let straight = collision_bearing(wrap360(*own_course + 180.0), *own_speed, *course, *speed);
        *bearing = wrap360(straight + any(&[grazing, -grazing], random));
        self
    }

    /// Adversarial arguments: where something turns, related ones, distances that are just met, lists that end about the answer, and one or
    /// two bad ones.
    fn adversarial(random: &mut Random) -> Avoid {
        let mut case = Avoid::random(random);
        for (x, kind) in case.encounter.iter_mut().zip(KINDS) {
            if random.below(6) == 0 {
                *x = drawn(turning, kind, random);
            }
        }
        if random.below(4) != 0 {
            let [a, b, c, d, e, f, g] = case.encounter;
            let [encounter @ .., _] = related([a, b, c, d, e, f, g, 0.0], random);
            case.encounter = encounter;
        }
        if random.below(8) == 0 {
            case = case.reversing(random);
        }
        let Limits { least, .. } = case.limits;
        let [own_course, own_speed, bearing, range, course, speed, _] = case.encounter;
        if random.below(3) == 0 {
            if let Some(desired) = just_met((own_course, own_speed), [bearing, range, course, speed], least, random) {
                case.encounter[6] = desired;
            }
        }
        let answer = case.reference();
        if random.below(4) == 0 && answer[0] == 0 {
            case.limits.most = most_about(f64::from_bits(answer[2]).abs(), least, random);
        }
        if random.below(8) == 0 {
            for _ in 0..=random.below(2) {
                let i = random.below(KINDS.len() as u64) as usize;
                case.encounter[i] = drawn(bad, KINDS[i], random);
            }
        }
        if random.below(20) == 0 {
            (case.limits.least, case.limits.most) = bad_limits(random);
        }
        case
    }

    fn call(&self) -> port::Contact {
        let [own_course, own_speed, bearing, range, course, speed, desired] = self.encounter;
        let Limits { least, most, rate } = self.limits;
        port::avoid([own_course, own_speed], [bearing, range, course, speed], (desired, least, most, rate, self.sides))
    }

    pub fn port(&self, part: u32) -> u64 {
        self.call().part(part)
    }
}

/// How often each number occurs; answers on each side, at 0, off the grid; turn times, and those too long.
#[derive(Default, Debug)]
#[allow(dead_code)]
pub(super) struct AvoidTally {
    numbers: [u64; 6],
    starboard: u64,
    port: u64,
    at_zero: u64,
    off_the_grid: u64,
    by_thirty_degrees: [u64; 7],
    timed: u64,
    too_long: u64,
}

impl Case for Avoid {
    const NAME: &'static str = "avoid";
    type Answer = AvoidWords;
    type Tally = AvoidTally;

    fn case(i: u64, count: u64, random: &mut Random) -> Avoid {
        match CORNERS.get(i as usize) {
            Some(corner) => *corner,
            None if i < count / 2 => Avoid::adversarial(random),
            None => Avoid::random(random),
        }
    }

    fn reference(&self) -> AvoidWords {
        let asked = || match constraints(SIDES[self.sides as usize], self.limits) {
            Err(_) => refused(CONSTRAINTS),
            Ok(made) => avoid(&made, self.encounter.map(f64::to_bits)),
        };
        first_bad(KINDS.into_iter().zip(self.encounter)).map_or_else(asked, refused)
    }

    fn count(&self, answer: &AvoidWords, tally: &mut AvoidTally) {
        tally.numbers[answer[0] as usize] += 1;
        if answer[0] == 0 {
            let magnitude = f64::from_bits(answer[2]).abs();
            let Limits { least, most, .. } = self.limits;
            let k = (magnitude - least).round();
            *if answer[1] == 0 { &mut tally.starboard } else { &mut tally.port } += 1;
            tally.at_zero += u64::from(magnitude == 0.0);
            tally.off_the_grid += u64::from((least + k).min(most) != magnitude);
            tally.by_thirty_degrees[(magnitude / 30.0) as usize] += 1;
            tally.timed += answer[5];
            tally.too_long += u64::from(self.has_rate && answer[5] == 0);
        }
    }

    fn asked(&self) -> port::Call<Vec<u64>> {
        let call = self.call();
        port::Call { which: call.which, words: call.words.to_vec() }
    }

    fn difference(&self, _: u64, wanted: &AvoidWords) -> Option<String> {
        let words = differing(0..9, wanted, |part| self.port(part))?;
        let Limits { least, most, rate } = self.limits;
        Some(format!("sides {}, {:?}, least {least:?}, most {most:?}, rate {rate:?}, {words}", self.sides, self.encounter))
    }
}

/// So many random cases of `avoid` that are not refused.
pub fn answered(count: usize) -> Vec<Avoid> {
    let mut random = Random::new(5);
    std::iter::repeat_with(|| Avoid::random(&mut random)).filter(|case| case.reference()[0] == 0).take(count).collect()
}
