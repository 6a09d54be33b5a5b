//! The slowing search of request R-3 on accepted arguments, by trying every pair of a course trial and a trial speed; answers are words
//! as in calls.rs.

use crate::relative_motion::Vessel;
use crate::traffic_avoidance::probe::clearing;
use crate::traffic_calls::{manoeuvre_words, miles, permitted, Limits, List, Rulings, NOTHING_CLEARS, NO_SHARED_SIDE, SIDES};
use crate::units::Speed;

/// Those of the ruled search, and the speed.
pub type SlowingWords = [u64; 10];

/// So many eighths of own speed, by one product with the exact fraction.
pub fn trial_speed(own_speed: f64, eighths: u32) -> f64 {
    own_speed * (f64::from(eighths) / 8.0)
}

/// Document 01's magnitudes: least plus k for k from 0 to the whole part of most minus least, cut at most.
fn magnitudes(Limits { least, most, .. }: Limits) -> impl Iterator<Item = f64> {
    let last = (most - least).trunc() as u32;
    (0..=last).map(move |k| (least + f64::from(k)).min(most))
}

/// A pair that clears: the magnitude, the speed, 0 for starboard or 1 for port; the words of the passing distance and of the limiting
/// contact.
#[derive(Clone, Copy)]
struct Pair {
    magnitude: f64,
    speed: f64,
    side: u64,
    passing: [u64; 2],
}

impl Pair {
    /// The least is the best: the smallest turn, then the highest speed, then starboard.
    fn order(&self) -> (f64, f64, u64) {
        (self.magnitude, -self.speed, self.side)
    }
}

/// What the slowing search answers, and which sides were shared; of the clearing pairs of the answer's magnitude how many there are,
/// whether both sides have one of its speed, and whether the answer is port's where starboard has one of a lower speed.
pub struct Slowing {
    pub words: SlowingWords,
    pub shared: (bool, bool),
    pub pairs: usize,
    pub tie: bool,
    pub port_is_faster: bool,
}

/// An answer that is refused.
pub fn refused(number: u64, shared: (bool, bool)) -> Slowing {
    Slowing { words: [number, 0, 0, 0, 0, 0, 0, 0, 0, 0], shared, pairs: 0, tie: false, port_is_faster: false }
}

/// Own craft at a trial speed, on the present course.
fn at(list: &List, speed: f64) -> Vessel {
    Vessel { course: list.own.course, speed: Speed::from_knots_unchecked(speed) }
}

/// The clearing pairs, but for those of magnitudes greater than another's.
fn clearing_pairs(limits: Limits, list: &List, shared: (bool, bool), slowest: u32) -> Vec<Pair> {
    let clears = clearing(&list.contacts, list.desired);
    let sides = [(0, 1.0, shared.0), (1, -1.0, shared.1)].into_iter().filter(|(.., shared)| *shared);
    let mut pairs: Vec<Pair> = Vec::new();
    for magnitude in magnitudes(limits) {
        if pairs.iter().any(|pair| pair.magnitude < magnitude) {
            continue;
        }
        for (side, sign, _) in sides.clone() {
            let speeds = (slowest..=8).map(|eighths| trial_speed(list.own.speed.knots(), eighths));
            pairs.extend(speeds.filter_map(|speed| {
                let (passing, limiting) = clears(at(list, speed), sign * magnitude)?;
                let limiting = limiting.map_or(0, |target| target.number() as u64 + 1);
                Some(Pair { magnitude, speed, side, passing: [miles(passing), limiting] })
            }));
        }
    }
    pairs
}

/// The words of a pair. Its course and turn time are those of the listed `search` with this trial alone, at this speed.
fn pair_words(pair: &Pair, rate: Option<f64>, list: &List) -> SlowingWords {
    let Pair { magnitude, speed, side, passing } = *pair;
    let alone = Limits { least: magnitude, most: magnitude, rate };
    let slowed = List { own: at(list, speed), ..list.clone() };
    let m = slowed.search(SIDES[1 + side as usize], alone).expect("a trial that clears");
    let [number, side, magnitude, course, least, has_time, secs, nanos, limiting] = manoeuvre_words(side, magnitude, &m);
    assert_eq!([least, limiting], passing, "`search` against `clears`");
    [number, side, magnitude, course, least, has_time, secs, nanos, limiting, speed.to_bits()]
}

/// The slowing search: the best of all clearing pairs. The sides are those that the rulings at the present speed share, and lower speeds
/// are tried where each of these rulings permits slowing down.
pub fn slowing(limits: Limits, rulings: &Rulings, list: &List) -> Slowing {
    let (shared, slow_down) = permitted(rulings, list);
    if shared == (false, false) {
        return refused(NO_SHARED_SIDE, shared);
    }
    let pairs = clearing_pairs(limits, list, shared, if slow_down { 1 } else { 8 });
    let Some(best) = pairs.iter().min_by(|a, b| a.order().partial_cmp(&b.order()).expect("numbers")) else {
        return refused(NOTHING_CLEARS, shared);
    };
    let of_turn = || pairs.iter().filter(|pair| pair.magnitude == best.magnitude);
    Slowing {
        words: pair_words(best, limits.rate, list),
        shared,
        pairs: of_turn().count(),
        tie: of_turn().any(|pair| pair.side != best.side && pair.speed == best.speed),
        port_is_faster: of_turn().any(|pair| pair.side < best.side && pair.speed < best.speed),
    }
}
