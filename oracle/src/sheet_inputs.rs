//! Sheets for the comparison: a systematic part, where the sample sheet's words, bits, length and codes are changed one by one and in
//! pairs, and random ones, of all sizes, at the limits, with ties, spoiled and damaged.

use crate::angle::wrap360;
use crate::avoidance::{how_many, limits, own, style, traffic};
use crate::checks::MAX_CONTACTS;
use crate::calls;
use crate::inputs::Random;
use crate::motion::any;
use crate::sheet::{answer, kind, Values, BASE, EACH, MOST_BYTES, PARTS, VALUE};

/// The limits of accepted values.
pub const CIRCLE: u32 = 360 << 10;
const FASTEST: u32 = 1000 << 10;
const FARTHEST: u32 = 10_000 << 10;
const REVERSAL: u32 = 180 << 10;

/// A sixteenth: its odd multiples are the numbers that lie exactly between two thousandths.
pub const SIXTEENTH: u32 = 64;

/// Where some values stand.
const DESIRED: usize = 4;
const LEAST: usize = 5;
const MOST: usize = 6;
const CPA_LIMIT: usize = 7;
const TCPA_LIMIT: usize = 8;

/// Document 01's sample sheet.
pub fn sample() -> Values {
    Values::of([0.0, 10.0, 0.0, 0.0, 1.0, 0.0, 90.0, 1.0, 1800.0], &[[7.0, 0.0, 4.0, 0.0, 0.0, 0.0]])
}

impl Values {
    /// The values of degrees, knots, miles, seconds, ids and codes, in a sheet's order.
    pub fn of(base: [f64; BASE], contacts: &[[f64; EACH]]) -> Values {
        let value = |place: usize, x: f64| (if is_whole(place) { x } else { x * PARTS }) as u32;
        let contact = |numbers: &[f64; EACH]| std::array::from_fn(|i| value(BASE + i, numbers[i]));
        Values { base: std::array::from_fn(|i| value(i, base[i])), wind: None, contacts: contacts.iter().map(contact).collect() }
    }

    /// How many words there are beside the wind's.
    pub fn len(&self) -> usize {
        BASE + EACH * self.contacts.len()
    }

    fn at(&mut self, place: usize) -> &mut u32 {
        match place.checked_sub(BASE) {
            Some(i) => &mut self.contacts[i / EACH][i % EACH],
            None => &mut self.base[place],
        }
    }

    pub fn with(mut self, changes: &[(usize, u32)]) -> Values {
        for (place, value) in changes {
            *self.at(*place) = *value;
        }
        self
    }
}

/// Whether the value at a place is a code, an id or seconds.
fn is_whole(place: usize) -> bool {
    [0x2, 0x3, 0x8, 0x9, 0xe].contains(&kind(place))
}

/// The largest accepted value at a place.
pub fn largest(place: usize) -> u32 {
    match kind(place) {
        0x0 | 0xa | 0xc => CIRCLE - 1,
        0x1 | 0xd => FASTEST,
        0x2 | 0xe => 7,
        0x3 => 1,
        0x5 | 0x6 => REVERSAL,
        0x8 | 0x9 => VALUE,
        _ => FARTHEST,
    }
}

// ---- the systematic part

/// Values that each word takes in turn; then come the largest accepted one and those next to it.
pub const TURNS: [u32; 16] =
    [0, 1, 2, 3, 4, 5, 6, 7, 8, 63, SIXTEENTH, 3 * SIXTEENTH, 1 << 10, 90 << 10, VALUE - 1, VALUE];
const TURNED: usize = TURNS.len() + 4;

fn turn(place: usize, i: usize) -> u32 {
    TURNS.get(i).copied().unwrap_or_else(|| (largest(place) + (i - TURNS.len()) as u32).saturating_sub(1).min(VALUE))
}

/// Two contacts, so that a second group is there too.
pub fn two() -> Values {
    let mut values = sample();
    values.contacts.push([9, 90 << 10, 2 << 10, 300 << 10, 5 << 10, 4]);
    values
}

/// Geometries of one contact for all pairs of categories: bearing, range, course, speed.
pub const GEOMETRIES: [[f64; 4]; 8] = [
    [0.0, 4.0, 0.0, 5.0],
    [0.0, 4.0, 180.0, 10.0],
    [45.0, 4.0, 270.0, 10.0],
    [315.0, 4.0, 90.0, 10.0],
    [180.0, 4.0, 0.0, 20.0],
    [120.0, 4.0, 300.0, 20.0],
    [90.0, 4.0, 0.0, 10.0],
    [0.0, 4.0, 0.0, 10.0],
];

/// The systematic sheets: each word at each of its turns; each bit changed; each length; each kind at each place; two bad words at every
/// two places, too many contacts beside each; each two categories in either visibility.
pub fn systematic() -> Vec<Vec<u8>> {
    let (one, two) = (sample(), two());
    let mut sheets = vec![Vec::new(), one.bytes(), two.bytes()];
    for place in 0..two.len() {
        sheets.extend((0..TURNED).map(|i| two.clone().with(&[(place, turn(place, i))]).bytes()));
        for kind in 0..16 {
            let mut bytes = two.bytes();
            bytes[4 * place + 3] = kind << 4;
            sheets.push(bytes);
        }
        let bad = |place: usize| (place, largest(place).saturating_add(1).min(VALUE));
        sheets.extend((0..place).map(|other| two.clone().with(&[bad(place), bad(other)]).bytes()));
        sheets.push(crowded(two.clone().with(&[bad(place)]), MAX_CONTACTS + 1).bytes());
    }
    for bit in 0..8 * 4 * one.len() {
        let mut bytes = one.bytes();
        bytes[bit / 8] ^= 1 << (bit % 8);
        sheets.push(bytes);
    }
    sheets.extend((0..two.bytes().len()).map(|length| two.bytes()[..length].to_vec()));
    for (own, target) in (0..8).flat_map(|own| (0..8).map(move |target| (own, target))) {
        for (visibility, [bearing, range, course, speed]) in [0.0, 1.0].into_iter().flat_map(|v| GEOMETRIES.map(|g| (v, g))) {
            let contact = [1.0, bearing, range, course, speed, f64::from(target)];
            sheets.push(Values::of([0.0, 10.0, f64::from(own), visibility, 1.0, 0.0, 180.0, 1.0, 1800.0], &[contact]).bytes());
        }
    }
    sheets
}

// ---- random sheets

/// A value of degrees, knots or miles, nearest.
fn value(x: f64) -> u32 {
    (x * PARTS).round() as u32
}

fn direction(degrees: f64) -> u32 {
    value(degrees) % CIRCLE
}

fn id(random: &mut Random) -> u32 {
    let repeating = random.below(4) as u32;
    any(&[repeating, repeating, random.below(100) as u32, random.word() as u32 & VALUE, VALUE], random)
}

/// Categories: one that many have, power-driven, or any.
fn category(one: u32, random: &mut Random) -> u32 {
    any(&[0, one, one, random.below(8) as u32], random)
}

/// Traffic as the ruled search is compared on, in parts of 1/1024. In half of it each contact heads away from own craft, so that those
/// that are overtaken leave both sides.
pub fn ordinary(i: u64, random: &mut Random) -> Values {
    let (own, (least, most)) = (own(random), limits(random));
    let count = any(&[how_many(random), random.below(33) as usize], random);
    let one = random.below(8) as u32;
    let away = random.below(2) == 0;
    let contact = |[bearing, range, course, speed]: [f64; 4], random: &mut Random| {
        let (bearing, course, speed) = (direction(bearing), direction(course), value(speed));
        let (course, speed) = if away { (bearing, any(&[0, speed / 8, speed], random)) } else { (course, speed) };
        [id(random), bearing, value(range), course, speed, category(one, random)]
    };
    let contacts = traffic(style(i), count, own, random).into_iter().map(|c| contact(c, random)).collect();
    let restricted = u32::from(random.below(3) == 0);
    let (cpa_limit, tcpa_limit) = (value(random.unit() * 3.0), random.below(3600) as u32);
    let (course, speed, desired) = (direction(own.0), value(own.1), value(own.2));
    let base = [course, speed, category(one, random), restricted, desired, value(least), value(most), cpa_limit, tcpa_limit];
    just_met(Values { base, wind: None, contacts }, random)
}

/// Limits about what the sheet comes to: the CPA and the time of a contact, the desired distance about a CPA, most about the answer.
fn just_met(mut values: Values, random: &mut Random) -> Values {
    if !values.contacts.is_empty() && random.below(3) == 0 {
        let [own_course, own_speed, ..] = values.base;
        let [_, bearing, range, course, speed, _] = any(&values.contacts, random);
        let words = [own_course, own_speed, bearing, range, course, speed, 0, 0].map(|v| (f64::from(v) / PARTS).to_bits());
        let [_, approach, distance, _, seconds, _] = calls::cpa(words);
        if approach == 0 {
            let about = (f64::from_bits(distance) * PARTS) as u32 + random.below(2) as u32;
            let place = any(&[CPA_LIMIT, DESIRED], random);
            values.base[place] = about.min(FARTHEST);
            values.base[TCPA_LIMIT] = (seconds + random.below(3)).saturating_sub(1).min(u64::from(VALUE)) as u32;
        }
    }
    if random.below(5) == 0 {
        let (text, _) = answer(&values.bytes());
        let fields: Vec<&str> = text.lines().last().unwrap_or_default().split(' ').collect();
        if let ["ALTER", _, magnitude, ..] = fields[..] {
            let magnitude: f64 = magnitude.parse().expect("a number");
            let least = values.base[LEAST];
            let steps = (magnitude - f64::from(least) / PARTS).round() as u32;
            let last = least + (steps << 10);
            values.base[MOST] = any(&[last, last, last + 1, last.saturating_sub(1).max(least)], random).min(REVERSAL);
        }
    }
    values
}

/// Symmetrical traffic about a course on a coarse grid, so that the sides tie: contacts ahead, and pairs that mirror one another, coming on
/// or overtaken.
pub fn coarse(random: &mut Random) -> Values {
    let own_course = 15.0 * random.below(24) as f64;
    let mut contacts = Vec::new();
    for _ in 0..1 + random.below(6) {
        let (off, range, speed) = (7.5 * random.below(24) as f64, 0.5 + 0.5 * random.below(8) as f64, 2.5 * random.below(5) as f64);
        let course = any(&[off, off + 180.0, 0.0, 180.0, 90.0], random);
        let mirrored = [1.0, -1.0].map(|sign| {
            let (bearing, course) = (direction(wrap360(own_course + sign * off)), direction(wrap360(own_course + sign * course)));
            [id(random), bearing, value(range), course, value(speed), 0]
        });
        contacts.extend(&mirrored[..if off == 0.0 { 1 } else { 2 }]);
    }
    let category = any(&[0.0, 0.0, 1.0, 4.0], random);
    let desired = any(&[0.5, 1.0, 2.0], random);
    let (least, most) = any(&[(0.0, 180.0), (0.0, 90.0), (30.0, 120.0), (7.5, 7.5), (0.0, 0.0)], random);
    let (cpa_limit, tcpa_limit) = (any(&[0.0, 0.5, 1.0, 2.0], random), any(&[360.0, 720.0, 1440.0, 1800.0], random));
    let visibility = any(&[0.0, 0.0, 0.0, 1.0], random);
    let base = [own_course, 10.0, category, visibility, desired, least, most, cpa_limit, tcpa_limit];
    Values { contacts, ..Values::of(base, &[]) }
}

/// Numbers that lie exactly between two thousandths, or about: contacts that keep their range or open, and others abeam, at odd sixteenths
/// of a mile; contacts ahead or abeam that pass at three or four fifths of an odd multiple of 1/64; courses and alterations at odd
/// sixteenths of a degree.
fn sixteenths(random: &mut Random) -> Values {
    let odd = |below: u64, random: &mut Random| 2 * random.below(below) as u32 + 1;
    let quarter = |random: &mut Random| value(90.0 * random.below(4) as f64);
    let mut values = ordinary(1, random);
    let own_course = if random.below(2) == 0 { odd(2880, random) * SIXTEENTH } else { quarter(random) };
    let (own_speed, least) = (4 * value(1.0 + random.below(5) as f64), odd(400, random) * SIXTEENTH);
    values.base[..2].copy_from_slice(&[own_course, own_speed]);
    values.base[LEAST..=MOST].copy_from_slice(&[least, any(&[least, REVERSAL, REVERSAL], random)]);
    values.base[DESIRED] = any(&[0, 1, SIXTEENTH, 1 << 10], random);
    let contact = |random: &mut Random| {
        let bearing = (own_course + quarter(random)) % CIRCLE;
        let part = any(&[SIXTEENTH, SIXTEENTH, SIXTEENTH / 4, 5 * SIXTEENTH], random);
        let range = any(&[odd(8, random), odd(80, random), odd(16_000, random)], random) * part;
        let across = (own_course + value(any(&[90.0, 270.0], random))) % CIRCLE;
        let keeping = [(own_course, own_speed), (own_course, own_speed / 2), (bearing, own_speed), (bearing, FASTEST)];
        let (course, speed) = any(&[any(&keeping, random), (across, own_speed / 4 * 3)], random);
        [id(random), bearing, range, course, speed, random.below(8) as u32]
    };
    values.contacts = (0..random.below(9)).map(|_| contact(random)).collect();
    values
}

/// Very slow relative motion far off, so that times are long.
fn slow(random: &mut Random) -> Values {
    let mut values = ordinary(1, random);
    let (course, speed) = (random.below(u64::from(CIRCLE)) as u32, 1 + random.below(8) as u32);
    values.base[..2].copy_from_slice(&[course, speed]);
    let contact = |random: &mut Random| {
        let beside = (course + CIRCLE + random.below(5) as u32 - 2) % CIRCLE;
        [id(random), random.below(u64::from(CIRCLE)) as u32, FARTHEST - random.below(9) as u32, beside, speed, 0]
    };
    values.contacts = (0..1 + random.below(4)).map(|_| contact(random)).collect();
    values
}

/// Each value the least, the largest or about, or any.
pub fn at_limits(random: &mut Random) -> Values {
    let mut values = ordinary(0, random);
    values.contacts.truncate(4);
    for place in 0..values.len() {
        let most = largest(place);
        let any_value = random.below(u64::from(most) + 1) as u32;
        let choices = [0, 1.min(most), most, most.saturating_sub(1), any_value, any_value];
        if random.below(2) == 0 {
            *values.at(place) = any(&choices, random);
        }
    }
    let [.., least, most, _, _] = &mut values.base;
    if *least > *most && random.below(4) != 0 {
        std::mem::swap(least, most);
    }
    values
}

/// So many contacts, those there are over and over.
pub fn crowded(mut values: Values, count: usize) -> Values {
    let from = if values.contacts.is_empty() { sample().contacts } else { values.contacts.clone() };
    values.contacts = from.into_iter().cycle().take(count).collect();
    values
}

/// One to three values that are refused, or next to that.
pub fn spoiled(mut values: Values, random: &mut Random) -> Values {
    for _ in 0..1 + random.below(3) {
        let place = random.below(values.len() as u64) as usize;
        let past = largest(place).saturating_add(1);
        *values.at(place) = any(&[past, past, past + random.below(64) as u32, VALUE, past - 1], random).min(VALUE);
    }
    if random.below(6) == 0 {
        values.base[LEAST] = values.base[MOST] + any(&[0, 1, 1, 1 << 10], random);
    }
    values
}

/// Damages bytes: bits, bytes, words, kinds, groups, the order of bytes in words.
pub fn damage(bytes: &mut Vec<u8>, random: &mut Random) {
    let length = bytes.len() as u64;
    if length < 4 {
        return bytes.extend(random.word().to_le_bytes());
    }
    let at = random.below(length) as usize;
    let [word, other] = [random.word(), random.word()].map(|w| (w % (length / 4)) as usize * 4);
    let groups = (bytes.len() / 4).saturating_sub(BASE) / EACH;
    let group = 4 * (BASE + EACH * random.below(groups.max(1) as u64) as usize);
    match random.below(12) {
        0 => bytes[at] ^= 1 << random.below(8),
        1 => drop(bytes.remove(at)),
        2 => bytes.insert(at, random.word() as u8),
        3 => (0..4).for_each(|i| bytes.swap(other + i, word + i)),
        4 => bytes[word + 3] = bytes[word + 3] & 15 | (random.word() as u8) << 4,
        5 => bytes.truncate(at),
        6 => bytes.truncate(word),
        7 => bytes.extend_from_within(word..word + 4),
        8 => drop(bytes.drain(word..word + 4)),
        9 => bytes.as_chunks_mut::<4>().0.iter_mut().for_each(|word| word.reverse()),
        10 if groups > 0 => drop(bytes.drain(group..group + 4 * EACH)),
        11 if groups > 0 => {
            let again = bytes[group..group + 4 * EACH].to_vec();
            bytes.splice(group..group, again);
        }
        _ => bytes.extend_from_within(..),
    }
}

/// Bytes without a sheet behind them: any, or words of the right kinds with any values.
fn chance(random: &mut Random) -> Vec<u8> {
    if random.below(2) == 0 {
        let length = any(&[4200, 100, 8], random);
        return (0..random.below(length + 1)).map(|_| random.word() as u8).collect();
    }
    let mut values = crowded(sample(), random.below(40) as usize);
    let usual = random.below(2) == 0;
    for place in 0..values.len() {
        let size = any(&[16, 20, random.below(29)], random);
        let any_value = (random.word() as u32) & ((1 << size) - 1);
        *values.at(place) = if usual || largest(place) < 8 { any_value % (largest(place) + 2) } else { any_value };
    }
    values.bytes()
}

/// Random sheet i.
pub fn random_sheet(i: u64, random: &mut Random) -> Vec<u8> {
    let values = match i % 16 {
        0..=6 => return ordinary(i, random).bytes(),
        7 => return chance(random),
        8 => coarse(random),
        9 => sixteenths(random),
        10 => slow(random),
        11 => at_limits(random),
        12 => spoiled(ordinary(i, random), random),
        13 => coarse(random),
        _ => ordinary(random.word(), random),
    };
    let mut bytes = values.bytes();
    match i % 16 {
        14 => {
            for _ in 0..1 + random.below(2) {
                damage(&mut bytes, random);
            }
        }
        15 => {
            let count = any(&[MAX_CONTACTS as u64 + 1, 33 + random.below(137), 165 + random.below(12), 4000], random);
            let mut values = crowded(values, count as usize);
            if random.below(3) == 0 {
                values = spoiled(values, random);
            }
            bytes = values.bytes();
            match random.below(6) {
                0 => bytes.truncate(MOST_BYTES - 4 + random.below(9) as usize),
                1 => damage(&mut bytes, random),
                _ => {}
            }
        }
        _ => {}
    }
    bytes
}
