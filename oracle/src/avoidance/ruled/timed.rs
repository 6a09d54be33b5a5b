//! Cases for the benchmark.

use super::*;
use crate::avoidance::lists::near;
use crate::avoidance::lists::Style::{StraightOn, Wall};

/// Own speed, where it is one.
const USUAL: f64 = 10.0;

/// Cases for the benchmark: own craft due north, desired 1, all alterations to either side.
impl RuledCase {
    fn timed(own_speed: f64, contacts: &[[f64; 4]]) -> RuledCase {
        let mut floats = vec![0.0, own_speed, 0.0, 0.0, 1.0, 0.0, 180.0, 0.0];
        for [bearing, range, course, speed] in contacts {
            // Each is seen from astern, so that both sides are permitted.
            floats.extend([*bearing, *range, *course, *speed, *bearing, f64::from(HEADING)]);
        }
        RuledCase { codes: 0, count: contacts.len(), floats }
    }

    fn shares_both(&self) -> bool {
        self.reference().shared == (true, true)
    }

    /// As many contacts as there is room for, of which the last alone blocks, on every course at each of some speeds. At each of them
    /// both sides are permitted.
    fn blocking(speeds: &[f64]) -> Vec<[f64; 4]> {
        let mut random = Random::new(5);
        let clears = |own_speed: f64, [bearing, range, course, speed]: [f64; 4]| {
            (0..360u32).all(|own_course| {
                let words = [f64::from(own_course), own_speed, bearing, range, course, speed, 0.0, 0.0].map(f64::to_bits);
                let [_, kind, distance, ..] = calls::cpa(words);
                kind != 0 || f64::from_bits(distance) >= 1.0
            })
        };
        let far = std::iter::repeat_with(|| {
            let [_, range, course, speed] = near(0.0, &mut random);
            [random.unit() * 60.0, 25.0 + range, course, speed]
        });
        let fits = |contact: [f64; 4]| speeds.iter().all(|s| clears(*s, contact) && RuledCase::timed(*s, &[contact]).shares_both());
        let mut contacts: Vec<[f64; 4]> = far.filter(|contact| fits(*contact)).take(MAX_CONTACTS - 1).collect();
        contacts.push([0.0, 0.9, 180.0, 100.0]);
        contacts
    }

    /// So many contacts and alterations up to so many degrees; nothing clears, and the last contact is always the one that does not.
    pub fn worst_of(cases: &[(usize, f64)]) -> Vec<RuledCase> {
        let contacts = RuledCase::blocking(&[USUAL]);
        let case = |(count, most): &(usize, f64)| {
            let mut case = RuledCase::timed(USUAL, &contacts[MAX_CONTACTS - count..]);
            case.floats[6] = *most;
            case.nothing_clears()
        };
        cases.iter().map(case).collect()
    }

    fn nothing_clears(self) -> RuledCase {
        let answer = self.reference();
        assert!(answer.words[0] == 5 && answer.shared == (true, true));
        self
    }

    /// The worst case at each of some speeds, with the same contacts.
    pub fn worst_at(speeds: &[f64]) -> Vec<RuledCase> {
        let contacts = RuledCase::blocking(speeds);
        speeds.iter().map(|own_speed| RuledCase::timed(*own_speed, &contacts).nothing_clears()).collect()
    }

    /// The worst case.
    pub fn worst() -> RuledCase {
        RuledCase::worst_of(&[(MAX_CONTACTS, 180.0)]).remove(0)
    }

    /// Eight contacts, both sides permitted, and an answer of 57 degrees.
    pub fn usual() -> Vec<RuledCase> {
        let mut random = Random::new(5);
        let cases = std::iter::repeat_with(|| {
            let style = any(&[StraightOn, Wall], &mut random);
            RuledCase::timed(USUAL, &traffic(style, 8, (0.0, USUAL, 1.0), &mut random))
        });
        let fits = |case: &RuledCase| {
            let answer = case.reference();
            answer.words[0] == 0 && answer.words[2] == 57f64.to_bits() && answer.shared == (true, true)
        };
        cases.filter(fits).take(16).collect()
    }

    /// Own course and speed, desired, and the contacts.
    pub fn picture(&self) -> (f64, f64, f64, Vec<[f64; 4]>) {
        (self.at(0), self.at(1), self.at(4), (0..self.count).map(|place| self.entry(place).0).collect())
    }
}
