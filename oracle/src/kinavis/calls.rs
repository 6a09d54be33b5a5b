//! The plane functions of relative_motion.rs and the ruling of kinavis-colregs on words. A float is its bit pattern, among the
//! arguments and in the answers; of an answer the first part is the number of the refusal, and parts that are not there are 0.

use std::time::Duration;

use crate::angle::{Direction, Side};
use crate::colregs::{rule_of_the_road, Party};
use crate::error::{KernelError, NavigationError, Result};
use crate::relative_motion::{
    bow_crossing_range, closest_point_of_approach, course_for_cpa, relative_bearing_of, target_from_plot, Approach, Contact, Vessel,
};
use crate::units::{Angle, Distance, Speed};
use crate::to_windward;
use crate::{ColregsConfig, Encounter, Responsibility, Ruling, Situation, Tack, VesselCategory, Visibility};

/// Accepted arguments, in document 01's order; those that a function has no use for are at the end.
pub type Words = [u64; 8];
pub type Answer = [u64; 6];

pub fn distance(word: u64) -> Distance {
    Distance::from_nautical_miles_unchecked(f64::from_bits(word))
}

pub fn direction<Origin>(word: u64) -> Direction<Origin> {
    Direction::from_degrees_unchecked(f64::from_bits(word))
}

pub fn vessel(course: u64, speed: u64) -> Vessel {
    Vessel { course: direction(course), speed: Speed::from_knots_unchecked(f64::from_bits(speed)) }
}

pub fn contact(bearing: u64, range: u64) -> Contact {
    Contact { bearing: direction(bearing), range: distance(range) }
}

/// The contexts of the numbers from 7 on.
const NO_SOLUTION: [&str; 5] = [
    "a crossing of own ship's track by a contact moving along it",
    "a crossing ahead of own ship",
    "opening a contact that is already inside the distance asked for",
    "a manoeuvre by a vessel that is not moving",
    "a course at this speed that opens the closest approach that far",
];

pub fn number(error: NavigationError) -> u64 {
    match error {
        NavigationError::Kernel(KernelError::Indeterminate { .. }) => 6,
        NavigationError::Kernel(KernelError::OutOfRange { .. }) => 12,
        NavigationError::NoSolution { context } => 7 + NO_SOLUTION.iter().position(|c| *c == context).expect(context) as u64,
        other => panic!("accepted arguments are not refused so: {other}"),
    }
}

/// The parts of a result, or its refusal.
fn answer<T>(result: Result<T>, parts: impl Fn(T) -> [u64; 5]) -> Answer {
    let (number, [a, b, c, d, e]) = match result {
        Ok(value) => (0, parts(value)),
        Err(error) => (number(error), [0; 5]),
    };
    [number, a, b, c, d, e]
}

/// Kind (0 closing, 1 opening, 2 stationary); distance; bearing, seconds and nanoseconds if closing.
pub fn cpa([own_course, own_speed, bearing, range, course, speed, ..]: Words) -> Answer {
    let result = closest_point_of_approach(vessel(own_course, own_speed), contact(bearing, range), vessel(course, speed));
    let miles = |d: Distance| d.nautical_miles().to_bits();
    answer(result, |approach| match approach {
        Approach::Closing(cpa) => {
            let time = cpa.time_to_go;
            [0, miles(cpa.distance), cpa.bearing.degrees().to_bits(), time.as_secs(), u64::from(time.subsec_nanos())]
        }
        Approach::Opening { current_range } => [1, miles(current_range), 0, 0, 0],
        Approach::Stationary { range } => [2, miles(range), 0, 0, 0],
    })
}

/// Kind and distance of the above.
pub fn passing(words: Words) -> Answer {
    let [number, kind, distance, ..] = cpa(words);
    [number, kind, distance, 0, 0, 0]
}

/// Target's course and speed, relative course and speed, aspect.
pub fn plot([own_course, own_speed, bearing, range, bearing2, range2, secs, nanos]: Words) -> Answer {
    let elapsed = Duration::new(secs, nanos as u32);
    let result = target_from_plot(vessel(own_course, own_speed), contact(bearing, range), contact(bearing2, range2), elapsed);
    answer(result, |target| {
        let (course, speed) = (target.vessel.course.degrees(), target.vessel.speed.knots());
        let (relative_course, relative_speed) = (target.relative_course.degrees(), target.relative_speed.knots());
        [course, speed, relative_course, relative_speed, target.aspect.degrees()].map(f64::to_bits)
    })
}

/// The range ahead.
pub fn bow([own_course, own_speed, bearing, range, course, speed, ..]: Words) -> Answer {
    let result = bow_crossing_range(vessel(own_course, own_speed), contact(bearing, range), vessel(course, speed));
    answer(result, |ahead| [ahead.nautical_miles().to_bits(), 0, 0, 0, 0])
}

/// Whether there is a starboard course, and it; the same for port.
pub fn course([own_course, own_speed, bearing, range, course, speed, desired, _]: Words) -> Answer {
    let (own, target) = (vessel(own_course, own_speed), vessel(course, speed));
    let result = course_for_cpa(own, contact(bearing, range), target, distance(desired));
    answer(result, |courses| {
        let [(a, b), (c, d)] = [courses.starboard, courses.port].map(|side| side.map_or((0, 0), |course| (1, course.degrees().to_bits())));
        [a, b, c, d, 0]
    })
}

/// The relative bearing.
pub fn bearing([own_course, own_speed, bearing, range, ..]: Words) -> Answer {
    let relative = relative_bearing_of(vessel(own_course, own_speed), contact(bearing, range));
    [0, relative.degrees().to_bits(), 0, 0, 0, 0]
}

/// A situation and its config: own course, speed and heading, bearing and range, the target's course, speed and heading, where the
/// wind is from, the start of the overtaking sector abaft the beam and the head-on half-width.
pub type SituationWords = [u64; 11];
pub type RulingWords = [u64; 8];

/// The codes that come with a situation: own category in the low three bits, the target's in the next three, and these.
pub const RESTRICTED: u32 = 1 << 6;
pub const OWN_HEADING: u32 = 1 << 7;
pub const HEADING: u32 = 1 << 8;
pub const WIND: u32 = 1 << 9;

/// The categories, in the order of their codes.
pub const CATEGORIES: [VesselCategory; 8] = [
    VesselCategory::PowerDriven,
    VesselCategory::Sailing { tack: None },
    VesselCategory::Sailing { tack: Some(Tack::Port) },
    VesselCategory::Sailing { tack: Some(Tack::Starboard) },
    VesselCategory::Fishing,
    VesselCategory::ConstrainedByDraught,
    VesselCategory::RestrictedInAbilityToManoeuvre,
    VesselCategory::NotUnderCommand,
];

pub fn party(motion: Vessel, code: u32, heading: Option<u64>) -> Party {
    let party = Party::new(motion, CATEGORIES[code as usize]);
    heading.map_or(party, |heading| party.with_heading(direction(heading)))
}

/// The situation and its config.
fn situation(codes: u32, words: SituationWords) -> (Situation, ColregsConfig) {
    let [own_course, own_speed, own_heading, bearing, range, course, speed, heading, wind, abaft, width] = words;
    let given = |bit: u32, word: u64| (codes & bit != 0).then_some(word);
    let own = party(vessel(own_course, own_speed), codes & 7, given(OWN_HEADING, own_heading));
    let target = party(vessel(course, speed), codes >> 3 & 7, given(HEADING, heading));
    let visibility = if codes & RESTRICTED == 0 { Visibility::InSight } else { Visibility::Restricted };
    let situation = Situation::new(own, target, contact(bearing, range), visibility);
    let situation = given(WIND, wind).map_or(situation, |wind| situation.with_wind_from(direction(wind)));
    let [overtaking_abaft_beam, head_on_half_width] = [abaft, width].map(|word| Angle::from_degrees_unchecked(f64::from_bits(word)));
    (situation, ColregsConfig { overtaking_abaft_beam, head_on_half_width })
}

/// The listed ruling.
pub fn ruling(codes: u32, words: SituationWords) -> Result<Ruling> {
    let (situation, config) = situation(codes, words);
    rule_of_the_road(&situation, &config)
}

/// Whether request R-2 changes it.
pub fn is_changed(codes: u32, words: SituationWords) -> bool {
    let (situation, config) = situation(codes, words);
    rule_of_the_road(&situation, &config).is_ok_and(|listed| to_windward::is_changed(&situation, &listed))
}

/// The ruling with request R-2: encounter, responsibility, the rule's printed number, and whether starboard, port, slowing down and
/// holding are permitted.
pub fn ruling_words(codes: u32, words: SituationWords) -> RulingWords {
    let (situation, config) = situation(codes, words);
    let ruling = match to_windward::rule_of_the_road(&situation, &config) {
        Ok(ruling) => ruling,
        Err(error) => return [number(error), 0, 0, 0, 0, 0, 0, 0],
    };
    let encounter = match ruling.encounter() {
        Encounter::Overtaking => 0,
        Encounter::BeingOvertaken => 1,
        Encounter::HeadOn => 2,
        Encounter::Crossing { target_on: Side::Starboard } => 3,
        Encounter::Crossing { target_on: Side::Port } => 4,
    };
    let responsibility = match ruling.responsibility() {
        Responsibility::GiveWay => 0,
        Responsibility::StandOn => 1,
        Responsibility::Both => 2,
        Responsibility::Undetermined => 3,
    };
    let printed = ruling.rule().to_string();
    let rule = printed.strip_prefix("Rule ").and_then(|number| number.parse().ok()).expect("a rule's number");
    let may = ruling.manoeuvre();
    let [starboard, port, slow_down, hold] = [may.starboard, may.port, may.slow_down, may.hold].map(u64::from);
    [0, encounter, responsibility, rule, starboard, port, slow_down, hold]
}
