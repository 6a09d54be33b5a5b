//! The ruled search.

use super::lists::size;
use super::lists::Style::{self, Quarter};
use super::*;

mod timed;

// The codes beside own category, which is the low three bits.
pub(super) const RESTRICTED: u32 = 1 << 3;
pub(super) const OWN_HEADING: u32 = 1 << 4;
const WIND: u32 = 1 << 5;
pub(super) const RATE: u32 = 1 << 6;
const CODES: u64 = 1 << 7;

/// In a contact's code, the category's bits and the one that says that its heading is known.
pub(super) const CATEGORY: u32 = 7;
pub(super) const HEADING: u32 = 8;

/// Floats before the contacts': own course, speed and heading, the wind, desired, least, most and the rate; and those of a contact:
/// bearing, range, course, speed, heading, code.
pub(super) const BASE: usize = 8;
pub(super) const EACH: usize = 6;

/// The codes, the count of contacts, and the floats as the C interface has them; one that is not there counts as 0.
#[derive(Clone)]
pub struct RuledCase {
    pub(super) codes: u32,
    pub(super) count: usize,
    pub(super) floats: Vec<f64>,
}

impl RuledCase {
    pub(super) fn at(&self, i: usize) -> f64 {
        self.floats.get(i).copied().unwrap_or(0.0)
    }

    fn given(&self, code: u32, i: usize) -> Option<f64> {
        (self.codes & code != 0).then(|| self.at(i))
    }

    fn limits(&self) -> Limits {
        Limits { least: self.at(5), most: self.at(6), rate: self.given(RATE, 7) }
    }

    /// A contact's bearing, range, course and speed; its category's code and its heading.
    pub(super) fn entry(&self, place: usize) -> ([f64; 4], (u32, Option<f64>)) {
        let [bearing, range, course, speed, heading, code] = std::array::from_fn(|i| self.at(BASE + EACH * place + i));
        let code = code as u32;
        ([bearing, range, course, speed], (code & CATEGORY, (code & HEADING != 0).then_some(heading)))
    }

    /// The number of the first bad argument: the count, own craft, the contacts one by one, the wind, desired.
    fn bad(&self) -> Option<u64> {
        if self.count > MAX_CONTACTS {
            return Some(COUNT);
        }
        let direction = |x: Option<f64>| x.map(|x| (Direction, x));
        let mut arguments = vec![(Direction, self.at(0)), (Speed, self.at(1))];
        arguments.extend(direction(self.given(OWN_HEADING, 2)));
        for place in 0..self.count {
            let ([bearing, range, course, speed], (_, heading)) = self.entry(place);
            arguments.extend([(Direction, bearing), (Distance, range), (Direction, course), (Speed, speed)]);
            arguments.extend(direction(heading));
        }
        arguments.extend(direction(self.given(WIND, 3)));
        arguments.push((Distance, self.at(4)));
        first_bad(arguments)
    }

    /// The number of the first bad argument, constraints last.
    pub(super) fn refusal(&self) -> Option<u64> {
        self.bad().or(constraints(SIDES[0], self.limits()).is_err().then_some(CONSTRAINTS))
    }

    /// A situation with accepted arguments, but for the rate.
    pub(super) fn random(style: Style, random: &mut Random) -> RuledCase {
        let (count, own) = (how_many(random), own(random));
        let (least, most) = limits(random);
        let mut codes = random.below(CODES) as u32 & !RATE;
        if random.below(3) == 0 {
            codes |= RATE;
        }
        // Both sides are shared where every vessel is overtaken, as seen from her heading.
        let overtaken = style != Quarter && random.below(2) == 0;
        if style == Quarter {
            codes |= RESTRICTED;
            codes &= !OWN_HEADING;
        } else if overtaken {
            codes &= !(RESTRICTED | OWN_HEADING);
        } else if random.below(3) != 0 {
            codes &= !OWN_HEADING;
        }
        let own_heading = any(&[own.0, wrap360(own.0 + random.unit() * 20.0 - 10.0), random.unit() * 360.0], random);
        let mut floats = vec![own.0, own.1, own_heading, drawn(accepted, Direction, random), own.2, least, most, rate(random)];
        let one = random.below(8) as u32;
        let contacts = traffic(style, count, own, random);
        if count > 0 && random.below(6) == 0 {
            floats[4] = just_met((own.0, own.1), any(&contacts, random), least, random).unwrap_or(own.2);
        }
        for [bearing, range, course, speed] in contacts {
            let heads = [course, bearing, wrap360(bearing + 180.0), wrap360(bearing + 90.0), drawn(accepted, Direction, random)];
            let heading = if overtaken { bearing } else { any(&heads, random) };
            let category = any(&[0, one, random.below(8) as u32], random);
            let known = if overtaken || random.below(4) == 0 { HEADING } else { 0 };
            floats.extend([bearing, range, course, speed, heading, f64::from(category | known)]);
        }
        RuledCase { codes, count, floats }
    }

    /// Puts bad arguments where none is given: they must not count.
    pub(super) fn fill_with_bad(&mut self, random: &mut Random) {
        let absent = [(OWN_HEADING, 2), (WIND, 3), (RATE, 7)].into_iter().filter(|(code, _)| self.codes & code == 0).map(|(_, i)| i);
        let unknown = (0..self.count).map(|place| BASE + EACH * place).filter(|i| (self.at(i + 5) as u32) & HEADING == 0).map(|i| i + 4);
        for i in absent.chain(unknown).collect::<Vec<_>>() {
            if random.below(4) == 0 {
                self.floats[i] = drawn(bad, Direction, random);
            }
        }
    }

    /// Makes something bad: limits, the count, one or two arguments anywhere; or leaves floats away.
    pub(super) fn spoil(&mut self, random: &mut Random) {
        match random.below(8) {
            0 => (self.floats[5], self.floats[6]) = bad_limits(random),
            1 => {
                if random.below(2) == 0 {
                    self.spoil_one(random);
                }
                self.count = any(&[33, 33, 34, 1000, usize::MAX], random);
            }
            2 => {
                self.floats.truncate(BASE + random.below((self.floats.len() - BASE + 1) as u64) as usize);
            }
            3 => {
                (self.floats[5], self.floats[6]) = bad_limits(random);
                self.count = any(&[33, usize::MAX], random);
            }
            _ => {
                for _ in 0..=random.below(2) {
                    self.spoil_one(random);
                }
            }
        }
    }

    fn spoil_one(&mut self, random: &mut Random) {
        let base = [(0, Direction), (1, Speed), (2, Direction), (3, Direction), (4, Distance)];
        let each = [(0, Direction), (1, Distance), (2, Direction), (3, Speed), (4, Direction)];
        let (i, kind) = if self.count == 0 || random.below(3) == 0 {
            any(&base, random)
        } else {
            let (i, kind) = any(&each, random);
            (BASE + EACH * random.below(self.count as u64) as usize + i, kind)
        };
        self.floats[i] = drawn(bad, kind, random);
    }

    pub fn port(&self, part: u32) -> u64 {
        self.asked().part(part)
    }

    /// The arguments of the reference, where none is bad.
    pub(super) fn arguments(&self) -> (Limits, Rulings, List) {
        let (contacts, targets): (Vec<_>, Vec<_>) = (0..self.count).map(|place| self.entry(place)).unzip();
        let own = (self.codes & CATEGORY, self.given(OWN_HEADING, 2));
        let rulings = Rulings { own, targets, restricted: self.codes & RESTRICTED != 0, wind: self.given(WIND, 3) };
        (self.limits(), rulings, list(self.at(0), self.at(1), self.at(4), contacts.into_iter()))
    }
}

/// What occurs: the numbers; of the answered ones the side, 0 on each side, ties between the sides, where in the list, the limiting
/// contact being none, the first or another, turn times and those too long; the sides shared (starboard alone, port alone, both), and
/// the contacts.
#[derive(Default, Debug)]
#[allow(dead_code)]
pub(super) struct RuledTally {
    numbers: [u64; 15],
    starboard: u64,
    port: u64,
    at_zero: [u64; 2],
    ties: u64,
    by_thirty_degrees: [u64; 7],
    limiting: [u64; 3],
    timed: u64,
    too_long: u64,
    shared: [u64; 3],
    contacts: [u64; 5],
}

impl Case for RuledCase {
    const NAME: &'static str = "ruled search";
    type Answer = Ruled;
    type Tally = RuledTally;

    fn case(i: u64, count: u64, random: &mut Random) -> RuledCase {
        let mut case = RuledCase::random(style(i), random);
        if random.below(4) == 0 {
            let answer = case.reference();
            if answer.words[0] == 0 {
                case.floats[6] = most_about(f64::from_bits(answer.words[2]), case.floats[5], random);
            }
        }
        if i < count / 2 {
            case.fill_with_bad(random);
            if random.below(4) == 0 {
                case.spoil(random);
            }
        }
        case
    }

    fn reference(&self) -> Ruled {
        match self.refusal() {
            Some(number) => Ruled { words: refused(number), shared: (false, false), tie: false },
            None => {
                let (limits, rulings, list) = self.arguments();
                ruled(limits, &rulings, &list)
            }
        }
    }

    fn count(&self, answer: &Ruled, tally: &mut RuledTally) {
        let words = answer.words;
        tally.numbers[words[0] as usize] += 1;
        tally.contacts[if self.count > MAX_CONTACTS { 4 } else { size(self.count) }] += 1;
        match answer.shared {
            (true, false) => tally.shared[0] += 1,
            (false, true) => tally.shared[1] += 1,
            (true, true) => tally.shared[2] += 1,
            (false, false) => {}
        }
        if words[0] == 0 {
            let magnitude = f64::from_bits(words[2]);
            *if words[1] == 0 { &mut tally.starboard } else { &mut tally.port } += 1;
            tally.at_zero[words[1] as usize] += u64::from(magnitude == 0.0);
            tally.ties += u64::from(answer.tie);
            tally.by_thirty_degrees[(magnitude / 30.0) as usize] += 1;
            tally.limiting[words[8].min(2) as usize] += 1;
            tally.timed += words[5];
            tally.too_long += u64::from(self.codes & RATE != 0 && words[5] == 0);
        }
    }

    fn asked(&self) -> port::Call<Vec<u64>> {
        let contacts = (0..self.count.min(2 * MAX_CONTACTS)).map(|place| self.entry(place));
        let kind = (self.codes & CATEGORY, self.given(OWN_HEADING, 2));
        let Limits { least, most, rate } = self.limits();
        let turn = (self.at(4), least, most, rate, 0);
        port::ruled([self.at(0), self.at(1)], contacts, kind, self.codes & RESTRICTED != 0, self.given(WIND, 3), turn)
    }

    fn difference(&self, i: u64, wanted: &Ruled) -> Option<String> {
        // Where nothing clears every part takes the whole search.
        let all = wanted.words[0] != 5;
        let parts = (0..9u32).filter(|part| all || *part == 0 || u64::from(*part) == i % 9);
        let call = self.asked();
        let words = differing(parts, &wanted.words, |part| call.part(part))?;
        Some(format!("codes {:07b}, {} contacts, {:?}, {words}", self.codes, self.count, self.floats))
    }
}
