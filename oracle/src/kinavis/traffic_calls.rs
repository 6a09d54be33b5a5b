//! The functions of assessment.rs and avoidance.rs, and the ruled search, on accepted arguments; answers are words as in calls.rs.

use std::time::Duration;

use crate::angle::{Direction, Side};
use crate::calls::{contact, distance, number, party, vessel, CATEGORIES};
use crate::colregs::{rule_of_the_road, Party};
use crate::error::{NavigationError, Result};
use crate::relative_motion::{Contact, Vessel};
use crate::event::TargetId;
use crate::traffic_assessment::probe::picture as all;
use crate::traffic_assessment::{assess as assessed, CollisionRisk, CpaPolicy, TargetAssessment};
use crate::traffic_avoidance::probe::searched;
use crate::traffic_avoidance::{avoid as avoided, AvoidanceManoeuvre, ManoeuvreConstraints, PermittedSides};
use crate::units::{Angle, Distance, RateOfTurn};
use crate::{ColregsConfig, Situation, Visibility};

pub type AssessWords = [u64; 14];
pub type PictureWords = [u64; 15];
pub type AvoidWords = [u64; 9];
pub type SearchWords = [u64; 5];

/// The numbers of a search that finds nothing, and of rulings that share no side.
pub const NOTHING_CLEARS: u64 = 5;
pub const NO_SHARED_SIDE: u64 = 13;

/// An encounter, the policy's distance, and the seconds and nanoseconds of its time.
pub type AssessArguments = [u64; 9];

/// Relative course and speed, bearing drift; whether there is a closest approach, its distance, bearing, seconds and nanoseconds;
/// whether there is a bow crossing, its distance; the risk; range and bearing.
pub fn assess([own_course, own_speed, bearing, range, course, speed, limit, secs, nanos]: AssessArguments) -> AssessWords {
    let policy = CpaPolicy::new(distance(limit), Duration::new(secs, nanos as u32)).expect("an accepted policy");
    let answer = match assessed(vessel(own_course, own_speed), contact(bearing, range), vessel(course, speed), &policy) {
        Ok(answer) => answer,
        Err(error) => panic!("accepted arguments are not refused so: {error}"),
    };
    let (has_cpa, near, bearing_at_cpa, secs, nanos) = answer.cpa().map_or((0, 0, 0, 0, 0), |cpa| {
        let time = cpa.time_to_go;
        (1, miles(cpa.distance), cpa.bearing.degrees().to_bits(), time.as_secs(), u64::from(time.subsec_nanos()))
    });
    let (crosses, ahead) = answer.bow_crossing().map_or((0, 0), |ahead| (1, miles(ahead)));
    let risk = match answer.risk() {
        CollisionRisk::Opening => 0,
        CollisionRisk::Passing => 1,
        CollisionRisk::Developing => 2,
        CollisionRisk::Dangerous => 3,
    };
    let relative = [answer.relative_course().degrees(), answer.relative_speed().knots(), answer.bearing_drift().degrees_per_minute()];
    let [relative_course, relative_speed, drift] = relative.map(f64::to_bits);
    let (range, bearing) = (miles(answer.range()), answer.bearing().degrees().to_bits());
    [0, relative_course, relative_speed, drift, has_cpa, near, bearing_at_cpa, secs, nanos, crosses, ahead, risk, range, bearing]
}

/// The picture of up to 32 contacts that are assessed, numbered from 0 to 4 over and over: its length, the range of the
/// most dangerous target and of the first target of each number, and for each risk how many are of at least that and the range of the most
/// dangerous of them. A list of encounters that are accepted or not (`None`).
pub fn picture(limit: f64, secs: u64, own: [u64; 2], contacts: &[Option<[u64; 4]>]) -> Option<PictureWords> {
    let policy = CpaPolicy::new(distance(limit.to_bits()), Duration::new(secs, 0)).expect("an accepted policy");
    let assessed = |&[bearing, range, course, speed]: &[u64; 4]| {
        assessed(vessel(own[0], own[1]), contact(bearing, range), vessel(course, speed), &policy).expect("accepted arguments")
    };
    let list: Vec<_> = contacts.iter().flatten().enumerate().map(|(place, e)| (place % 5, assessed(e))).collect();
    let whole = all::<32>(&list)?;
    let range = |target: Option<&TargetAssessment>| target.map_or(0, |t| miles(t.assessment.range()));
    let mut words = [0; 15];
    words[0] = whole.len() as u64;
    words[1] = range(whole.most_dangerous());
    for number in 0..5 {
        words[2 + number] = range(whole.target(TargetId::new(number)));
    }
    let risks = [CollisionRisk::Opening, CollisionRisk::Passing, CollisionRisk::Developing, CollisionRisk::Dangerous];
    for (i, least) in risks.into_iter().enumerate() {
        let kept: Vec<_> = whole.at_least(least).map(|t| (t.target.number(), t.assessment)).collect();
        words[7 + i] = kept.len() as u64;
        words[11 + i] = all::<32>(&kept).map_or(0, |kept| range(kept.most_dangerous()));
    }
    Some(words)
}

pub fn miles(d: Distance) -> u64 {
    d.nautical_miles().to_bits()
}

/// The sides, in the order of their codes.
pub const SIDES: [PermittedSides; 3] = [PermittedSides::Either, PermittedSides::Starboard, PermittedSides::Port];

/// The least and the most alteration in degrees, and the rate of turn in degrees per minute, if it is known.
#[derive(Clone, Copy)]
pub struct Limits {
    pub least: f64,
    pub most: f64,
    pub rate: Option<f64>,
}

/// Constraints as their constructors make them. A rate that is not finite is refused by its own type.
pub fn constraints(sides: PermittedSides, limits: Limits) -> Result<ManoeuvreConstraints> {
    let [least, most] = [limits.least, limits.most].map(Angle::from_degrees_unchecked);
    let made = ManoeuvreConstraints::new(sides, least, most)?;
    match limits.rate {
        Some(rate) => made.with_rate_of_turn(RateOfTurn::from_degrees_per_minute(rate)?),
        None => Ok(made),
    }
}

/// The words of a manoeuvre: side, alteration, course, passing distance, whether there is a turn time, its seconds and nanoseconds,
/// and the limiting contact's place plus 1.
pub fn manoeuvre_words(side: u64, alteration: f64, m: &AvoidanceManoeuvre) -> AvoidWords {
    let (has_time, secs, nanos) = m.turn_time().map_or((0, 0, 0), |time| (1, time.as_secs(), u64::from(time.subsec_nanos())));
    let (course, passing) = (m.course().degrees().to_bits(), miles(m.least_passing()));
    [0, side, alteration.to_bits(), course, passing, has_time, secs, nanos, limiting(m)]
}

fn limiting(m: &AvoidanceManoeuvre) -> u64 {
    m.limiting_target().map_or(0, |target| target.number() as u64 + 1)
}

pub fn refused(number: u64) -> AvoidWords {
    [number, 0, 0, 0, 0, 0, 0, 0, 0]
}

/// What a search finds: nothing only where no trial clears.
fn found(result: Result<AvoidanceManoeuvre>) -> Option<AvoidanceManoeuvre> {
    match result {
        Ok(m) => Some(m),
        Err(NavigationError::NoSolution { context: "an alteration within the constraints that opens every target that far" }) => None,
        Err(error) => panic!("accepted arguments are not refused so: {error}"),
    }
}

/// `avoid`. The arguments are an encounter and the desired distance.
pub fn avoid(constraints: &ManoeuvreConstraints, [own_course, own_speed, bearing, range, course, speed, desired]: [u64; 7]) -> AvoidWords {
    let (own, target) = (vessel(own_course, own_speed), vessel(course, speed));
    match found(avoided(own, contact(bearing, range), target, distance(desired), constraints)) {
        Some(m) => manoeuvre_words(u64::from(m.side() == Side::Port), m.alteration().degrees(), &m),
        None => refused(NOTHING_CLEARS),
    }
}

/// Own craft, the contacts of a list with their targets, and the desired distance.
#[derive(Clone, Debug)]
pub struct List {
    pub own: Vessel,
    pub contacts: Vec<(Contact, Vessel)>,
    pub desired: Distance,
}

/// A list from floats: own course and speed, desired; then bearing, range, course and speed of each contact.
pub fn list(own_course: f64, own_speed: f64, desired: f64, contacts: impl Iterator<Item = [f64; 4]>) -> List {
    let entry = |floats: [f64; 4]| {
        let [bearing, range, course, speed] = floats.map(f64::to_bits);
        (contact(bearing, range), vessel(course, speed))
    };
    List {
        own: vessel(own_course.to_bits(), own_speed.to_bits()),
        contacts: contacts.map(entry).collect(),
        desired: distance(desired.to_bits()),
    }
}

impl List {
    pub fn search(&self, sides: PermittedSides, limits: Limits) -> Option<AvoidanceManoeuvre> {
        let constraints = constraints(sides, limits).expect("accepted constraints");
        found(searched(self.own, &self.contacts, self.desired, &constraints))
    }
}

/// `search` without seeds: whether a trial is found, the side whose list held it, its magnitude, the passing distance, and the limiting
/// contact's place plus 1.
pub fn search(sides: PermittedSides, limits: Limits, list: &List) -> SearchWords {
    let Some(m) = list.search(sides, limits) else {
        return [0; 5];
    };
    let alteration = m.alteration().degrees();
    // With either side an alteration of 0 is starboard's if starboard alone finds it too.
    let to_port = match sides {
        PermittedSides::Starboard => false,
        PermittedSides::Port => true,
        PermittedSides::Either if alteration != 0.0 => alteration < 0.0,
        PermittedSides::Either => list.search(PermittedSides::Starboard, limits).is_none_or(|m| m.alteration().degrees() != 0.0),
    };
    [1, u64::from(to_port), alteration.abs().to_bits(), miles(m.least_passing()), limiting(&m)]
}

/// What the rulings of a list need beside it: the parties' categories by code and their headings, the visibility and the wind.
#[derive(Clone, Debug)]
pub struct Rulings {
    pub own: (u32, Option<f64>),
    pub targets: Vec<(u32, Option<f64>)>,
    pub restricted: bool,
    pub wind: Option<f64>,
}

fn of((code, heading): (u32, Option<f64>), motion: Vessel) -> Party {
    party(motion, code % CATEGORIES.len() as u32, heading.map(f64::to_bits))
}

/// Whether every ruling permits starboard, and port; and slowing down.
pub fn permitted(rulings: &Rulings, list: &List) -> ((bool, bool), bool) {
    let own = of(rulings.own, list.own);
    let visibility = if rulings.restricted { Visibility::Restricted } else { Visibility::InSight };
    let (mut starboard, mut port, mut slow_down) = (true, true, true);
    for (&(contact, motion), &target) in list.contacts.iter().zip(&rulings.targets) {
        let mut situation = Situation::new(own, of(target, motion), contact, visibility);
        if let Some(wind) = rulings.wind {
            situation = situation.with_wind_from(Direction::from_degrees_unchecked(wind));
        }
        let ruling = match rule_of_the_road(&situation, &ColregsConfig::STANDARD) {
            Ok(ruling) => ruling,
            Err(error) => panic!("refused with {}", number(error)),
        };
        starboard &= ruling.manoeuvre().starboard;
        port &= ruling.manoeuvre().port;
        slow_down &= ruling.manoeuvre().slow_down;
    }
    ((starboard, port), slow_down)
}

/// What the ruled search answers, which sides were shared, and whether both had a trial of the answer's magnitude.
pub struct Ruled {
    pub words: AvoidWords,
    pub shared: (bool, bool),
    pub tie: bool,
}

/// The ruled search: `search` on each shared side alone, and the smaller of the two alterations, starboard on equality. The words are
/// `avoid`'s, but the side is that of the list that held the trial, and the alteration is its magnitude.
pub fn ruled(limits: Limits, rulings: &Rulings, list: &List) -> Ruled {
    let (shared, _) = permitted(rulings, list);
    let on = |side: PermittedSides, permitted: bool| permitted.then(|| list.search(side, limits)).flatten();
    let sides = [on(PermittedSides::Starboard, shared.0), on(PermittedSides::Port, shared.1)];
    let magnitude = |m: &AvoidanceManoeuvre| m.alteration().degrees().abs();
    let tie = matches!(&sides, [Some(s), Some(p)] if magnitude(s) == magnitude(p));
    let words = match sides {
        _ if shared == (false, false) => refused(NO_SHARED_SIDE),
        [Some(s), Some(p)] if magnitude(&p) < magnitude(&s) => manoeuvre_words(1, magnitude(&p), &p),
        [Some(s), _] => manoeuvre_words(0, magnitude(&s), &s),
        [None, Some(p)] => manoeuvre_words(1, magnitude(&p), &p),
        [None, None] => refused(NOTHING_CLEARS),
    };
    Ruled { words, shared, tie }
}
