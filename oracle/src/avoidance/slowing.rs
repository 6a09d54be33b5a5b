//! The slowing search.

use super::lists::Style::{EvenWall, Mirrored, Near, StraightOn};
use super::lists::{near, size};
use super::ruled::{BASE, CATEGORY, EACH, HEADING, OWN_HEADING, RATE, RESTRICTED};
use super::*;
use crate::slowing_calls::{refused, slowing, trial_speed, Slowing};

/// A situation as the ruled search has them.
pub struct SlowingCase(RuledCase);

/// A fishing vessel's category: own craft, power-driven, keeps out of her way to either side, and out of the way of the later ones.
const FISHING: u32 = 4;

/// A situation whose answer was worked out apart from the references: own craft northbound and power-driven at a speed, the desired
/// distance and the most alteration, the visibility, the contacts' category and the contacts; the number, the side, the magnitude and the
/// speed; where they are stated, how many pairs of that magnitude clear, and the magnitude of the ruled search.
struct Row {
    own_speed: f64,
    desired: f64,
    most: f64,
    restricted: bool,
    category: u32,
    contacts: &'static [[f64; 4]],
    answer: (u64, u64, f64, f64),
    pairs: Option<usize>,
    ruled: Option<f64>,
}

/// Power-driven contacts in sight.
const fn row(own_speed: f64, desired: f64, most: f64, contacts: &'static [[f64; 4]], answer: (u64, u64, f64, f64)) -> Row {
    Row { own_speed, desired, most, restricted: false, category: 0, contacts, answer, pairs: None, ruled: None }
}

/// Contacts whose rulings in restricted visibility share port at 8 knots, and no side at 4.
const AHEAD_AND_ABAFT: &[[f64; 4]] = &[[0.0, 3.0, 0.0, 4.0], [120.0, 3.0, 0.0, 0.0]];

const ROWS: &[Row] = &[
    Row { ruled: Some(29.0), ..row(10.0, 1.0, 180.0, &[[45.0, 4.0, 270.0, 10.0]], (0, 0, 0.0, 5.0)) },
    row(10.0, 1.0, 180.0, &[[315.0, 4.0, 90.0, 10.0]], (0, 0, 0.0, 5.0)),
    Row {
        category: FISHING,
        pairs: Some(1),
        ..row(8.0, 1.0, 20.0, &[[170.0, 4.0, 0.0, 12.0], [340.0, 4.0, 140.0, 8.0], [210.0, 5.0, 90.0, 4.0]], (0, 1, 20.0, 3.0))
    },
    Row { category: FISHING, ..row(8.0, 0.5, 90.0, &[[0.0, 2.0, 300.0, 0.0], [90.0, 1.0, 0.0, 8.0]], (0, 1, 15.0, 8.0)) },
    // The rulings are those at the present speed, not at the answer's.
    Row { restricted: true, ..row(8.0, 1.0, 5.0, AHEAD_AND_ABAFT, (0, 1, 0.0, 4.0)) },
    Row { restricted: true, ..row(4.0, 1.0, 5.0, AHEAD_AND_ABAFT, (13, 0, 0.0, 0.0)) },
    Row { ruled: Some(29.0), ..row(10.0, 1.0, 180.0, &[[0.0, 4.0, 180.0, 10.0]], (0, 0, 29.0, 10.0)) },
];

impl Row {
    fn case(&self) -> SlowingCase {
        let floats = vec![0.0, self.own_speed, 0.0, 0.0, self.desired, 0.0, self.most, 0.0];
        let codes = if self.restricted { RESTRICTED } else { 0 };
        let mut case = SlowingCase(RuledCase { codes, count: 0, floats });
        self.contacts.iter().for_each(|contact| case.add(*contact, self.category, None));
        case
    }

    /// What the references answer where it is not as stated.
    fn difference(&self) -> Option<String> {
        let case = self.case();
        let (Slowing { words, pairs, .. }, ruled) = (case.reference(), case.0.reference().words);
        let [magnitude, speed] = [words[2], words[9]].map(f64::from_bits);
        let good = (words[0], words[1], magnitude, speed) == self.answer
            && self.pairs.is_none_or(|stated| stated == pairs)
            && self.ruled.is_none_or(|stated| ruled[0] == 0 && ruled[2] == stated.to_bits());
        (!good).then(|| format!("{:?}: {words:x?}, {pairs} pairs; the ruled search {ruled:x?}", case.0.floats))
    }
}

/// Whether the references answer the rows as stated, and a trial speed is rounded once where rounding twice differs.
pub(super) fn compare_stated() -> bool {
    let least = 2.225073858507202e-308;
    let once = trial_speed(least, 5) == 1.3906711615670014e-308 && trial_speed(least, 5) != least * 5.0 / 8.0;
    run("slowing search as stated", ROWS.len() as u64, |i, _| ROWS[i as usize].difference()) && once
}

/// Own speeds of which trial speeds are equal or subnormal.
const LEAST: [f64; 7] = [0.0, -0.0, 5e-324, 1e-323, 2.225073858507202e-308, 2.2250738585072014e-308, 1e-300];

/// An own speed that is one of those or subnormal, or of which some trial speeds count as motion and others don't.
fn slow(random: &mut Random) -> f64 {
    let some = 1e-9 * (1.0 + random.unit() * 8.0);
    any(&[any(&LEAST, random), random.subnormal().abs(), 1e-9, some, some, some], random)
}

impl SlowingCase {
    /// Adds a contact with her category and her heading, if it is known.
    fn add(&mut self, contact: [f64; 4], category: u32, heading: Option<f64>) {
        let known = if heading.is_some() { HEADING } else { 0 };
        self.0.floats.extend(contact);
        self.0.floats.extend([heading.unwrap_or(0.0), f64::from(category | known)]);
        self.0.count += 1;
    }

    /// Adds a contact that comes straight on to own craft on some course at some speed. From far off few other courses and speeds meet
    /// her.
    fn meet(&mut self, own_course: f64, own_speed: f64, random: &mut Random) {
        let [_, range, course, usual] = near(0.0, random);
        let range = any(&[range, range + 5.0, range + 20.0, range + 80.0], random);
        let speed = if own_speed < 1e-6 { any(&[0.0, 0.0, 0.0, own_speed, 1e-9, usual], random) } else { usual };
        let bearing = wrap360(collision_bearing(own_course, own_speed, course, speed));
        let category = any(&[0, FISHING, FISHING + random.below(4) as u32, random.below(8) as u32], random);
        self.add([bearing, range, course, speed], category, any(&[None, None, Some(bearing), Some(course)], random));
    }

    /// Puts a contact in the way of the answer, so that the next best pair is one.
    fn block(&mut self, random: &mut Random) {
        let answer = self.reference().words;
        if answer[0] == 0 && self.0.count < MAX_CONTACTS {
            self.meet(f64::from_bits(answer[3]), f64::from_bits(answer[9]), random);
        }
    }

    /// In sight, power-driven, among vessels that she gives way to: both sides are shared.
    fn share_both(&mut self, random: &mut Random) {
        self.0.codes &= !(CATEGORY | RESTRICTED);
        for place in 0..self.0.count {
            let code = &mut self.0.floats[BASE + EACH * place + 5];
            *code = f64::from((*code as u32 & HEADING) | (FISHING + random.below(4) as u32));
        }
    }

    /// Among no contacts yet.
    fn alone(random: &mut Random) -> SlowingCase {
        let mut case = SlowingCase(RuledCase::random(Near, random));
        case.0.count = 0;
        case.0.floats.truncate(BASE);
        case
    }

    /// Contacts that come straight on at a trial speed each, often one after the other from full speed on, most of them on the present
    /// course; and often few alterations. Own craft has a speed, or any.
    fn at_trial_speeds(own_speed: Option<f64>, random: &mut Random) -> SlowingCase {
        let mut case = SlowingCase::alone(random);
        case.0.floats[1] = own_speed.unwrap_or(case.0.at(1));
        case.0.floats[4] = any(&[1.0, random.unit(), case.0.at(4)], random);
        if random.below(2) == 0 {
            (case.0.floats[5], case.0.floats[6]) = (0.0, any(&[0.0, 1.0, 5.0, 20.0, 90.0], random));
        }
        let in_turn = random.below(2) == 0;
        for faster in 0..any(&[1, 1, 2, 2, 3, 5, 7], random) {
            let eighths = if in_turn { 8 - faster } else { eighths(random) };
            let course = wrap360(case.0.at(0) + any(&[0.0, 0.0, random.unit() * 10.0 - 5.0], random));
            case.meet(course, trial_speed(case.0.at(1), eighths), random);
        }
        case
    }

    /// In restricted visibility, vessels ahead that own craft comes up with at full speed and not at some lower ones; and often one abaft
    /// her starboard beam, so that port alone is shared, and neither side would be at the lower speeds.
    fn coming_up(random: &mut Random) -> SlowingCase {
        let mut case = SlowingCase::alone(random);
        case.0.codes = (case.0.codes | RESTRICTED) & !OWN_HEADING;
        let (own_course, own_speed) = (case.0.at(0), case.0.at(1));
        for _ in 0..any(&[1, 1, 2, 4], random) {
            let [bearing, course] = [60.0, 40.0].map(|width| wrap360(own_course + (random.unit() - 0.5) * width));
            case.add([bearing, 1.0 + random.unit() * 8.0, course, trial_speed(own_speed, eighths(random))], 0, None);
        }
        if random.below(4) != 0 {
            let bearing = wrap360(own_course + 91.0 + random.unit() * 80.0);
            case.add([bearing, 1.0 + random.unit() * 8.0, own_course, random.unit() * own_speed], 0, None);
        }
        case
    }

    /// A desired distance that a contact just meets at a trial speed.
    fn just_meet(&mut self, random: &mut Random) {
        if self.0.count > 0 {
            let (contact, _) = self.0.entry(random.below(self.0.count as u64) as usize);
            let own = (self.0.at(0), trial_speed(self.0.at(1), eighths(random)));
            self.0.floats[4] = just_met(own, contact, self.0.at(5), random).unwrap_or(self.0.at(4));
        }
    }

    pub fn port(&self, part: u32) -> u64 {
        self.asked().part(part)
    }

    /// For the benchmark, the worst case: as many contacts as there is room for, of which the last alone blocks, on every course at every
    /// trial speed; and ruled searches of the same with each trial speed as own speed.
    pub fn worst() -> (SlowingCase, Vec<RuledCase>) {
        let speeds: Vec<f64> = (1..=8).rev().map(|eighths| trial_speed(10.0, eighths)).collect();
        let by_speed = RuledCase::worst_at(&speeds);
        let worst = SlowingCase(by_speed[0].clone());
        let answer = worst.reference();
        assert!(answer.words[0] == 5 && answer.shared == (true, true));
        (worst, by_speed)
    }

    /// For the benchmark, the ruled search's usual cases.
    pub fn usual() -> Vec<SlowingCase> {
        RuledCase::usual().into_iter().map(SlowingCase).collect()
    }
}

/// Of a trial speed.
fn eighths(random: &mut Random) -> u32 {
    1 + random.below(8) as u32
}

/// What occurs: the numbers; of the answered ones the side, 0 on each side, the speed in eighths of own speed from 1 on (the most of
/// them that give it), speeds of 0, where in the list; turns smaller than the ruled search's, and answers where it is refused with 5;
/// ties between the sides, port at a higher speed than starboard at the same turn; those in restricted visibility; the limiting contact
/// being none, the first or another, turn times and those too long; the sides shared (starboard alone, port alone, both), and the
/// contacts.
#[derive(Default, Debug)]
#[allow(dead_code)]
pub(super) struct SlowingTally {
    numbers: [u64; 15],
    starboard: u64,
    port: u64,
    at_zero: [u64; 2],
    by_eighths: [u64; 8],
    speed_zero: u64,
    by_thirty_degrees: [u64; 7],
    smaller_turns: u64,
    by_slowing_alone: u64,
    ties: u64,
    port_is_faster: u64,
    restricted: u64,
    limiting: [u64; 3],
    timed: u64,
    too_long: u64,
    shared: [u64; 3],
    contacts: [u64; 5],
}

impl Case for SlowingCase {
    const NAME: &'static str = "slowing search";
    type Answer = Slowing;
    type Tally = SlowingTally;

    fn case(i: u64, count: u64, random: &mut Random) -> SlowingCase {
        if let Some(row) = ROWS.get(i as usize) {
            return row.case();
        }
        let mut case = match i % 8 {
            0 | 1 => SlowingCase(RuledCase::random(style(i / 8), random)),
            2 => SlowingCase::coming_up(random),
            3 | 4 => SlowingCase::at_trial_speeds(None, random),
            5 => SlowingCase::at_trial_speeds(Some(slow(random)), random),
            _ => SlowingCase(RuledCase::random(any(&[EvenWall, Mirrored, StraightOn], random), random)),
        };
        if random.below(16) == 0 {
            case.0.floats[1] = slow(random);
        }
        if i % 8 > 5 || random.below(4) == 0 {
            case.share_both(random);
        }
        if random.below(6) == 0 {
            case.just_meet(random);
        }
        for _ in 0..any(&[0, 0, 1, 3], random) {
            case.block(random);
        }
        if random.below(4) == 0 {
            let answer = case.reference().words;
            if answer[0] == 0 {
                case.0.floats[6] = most_about(f64::from_bits(answer[2]), case.0.floats[5], random);
            }
        }
        if i < count / 2 {
            case.0.fill_with_bad(random);
            if random.below(4) == 0 {
                case.0.spoil(random);
            }
        }
        case
    }

    fn reference(&self) -> Slowing {
        match self.0.refusal() {
            Some(number) => refused(number, (false, false)),
            None => {
                let (limits, rulings, list) = self.0.arguments();
                slowing(limits, &rulings, &list)
            }
        }
    }

    fn count(&self, answer: &Slowing, tally: &mut SlowingTally) {
        let (words, ruled) = (answer.words, self.0.reference().words);
        tally.numbers[words[0] as usize] += 1;
        tally.contacts[if self.0.count > MAX_CONTACTS { 4 } else { size(self.0.count) }] += 1;
        match answer.shared {
            (true, false) => tally.shared[0] += 1,
            (false, true) => tally.shared[1] += 1,
            (true, true) => tally.shared[2] += 1,
            (false, false) => {}
        }
        if words[0] != 0 {
            assert_eq!(ruled[0], words[0], "the ruled search's pairs are at full speed");
            return;
        }
        let [magnitude, speed] = [words[2], words[9]].map(f64::from_bits);
        let eighths = (1..=8).rev().find(|eighths| trial_speed(self.0.at(1), *eighths) == speed).expect("a trial speed");
        // At full speed the answer is the ruled search's; at a lower one the turn is smaller.
        let alike = ruled[0] == 0 && words.iter().zip(ruled).all(|(a, b)| equal(*a, b));
        let smaller = ruled[0] == 0 && magnitude < f64::from_bits(ruled[2]);
        assert!(if eighths == 8 { alike } else { smaller || ruled[0] == 5 }, "the ruled search answers {ruled:x?}, not {words:x?}");
        *if words[1] == 0 { &mut tally.starboard } else { &mut tally.port } += 1;
        tally.at_zero[words[1] as usize] += u64::from(magnitude == 0.0);
        tally.by_eighths[eighths as usize - 1] += 1;
        tally.speed_zero += u64::from(speed == 0.0);
        tally.by_thirty_degrees[(magnitude / 30.0) as usize] += 1;
        tally.smaller_turns += u64::from(smaller);
        tally.by_slowing_alone += u64::from(ruled[0] == 5);
        tally.ties += u64::from(answer.tie);
        tally.port_is_faster += u64::from(answer.port_is_faster);
        tally.restricted += u64::from(self.0.codes & RESTRICTED != 0);
        tally.limiting[words[8].min(2) as usize] += 1;
        tally.timed += words[5];
        tally.too_long += u64::from(self.0.codes & RATE != 0 && words[5] == 0);
    }

    fn asked(&self) -> port::Call<Vec<u64>> {
        port::slowing(self.0.asked())
    }

    fn difference(&self, i: u64, wanted: &Slowing) -> Option<String> {
        // Where nothing clears every part takes the whole search.
        let all = wanted.words[0] != 5;
        let parts = (0..10u32).filter(|part| all || *part == 0 || u64::from(*part) == i % 10);
        let call = self.asked();
        let words = differing(parts, &wanted.words, |part| call.part(part))?;
        Some(format!("codes {:07b}, {} contacts, {:?}, {words}", self.0.codes, self.0.count, self.0.floats))
    }
}
