//! Sheets that tell the wind (request R-1): a systematic part, where the wind's word takes every kind of value, stands at every place and
//! meets every other bad word, and random ones, most of them of sailing vessels with the wind about abeam of the line of sight.

use crate::checks::MAX_CONTACTS;
use crate::inputs::Random;
use crate::motion::any;
use crate::sheet::{Values, BASE, VALUE, WIND};
use crate::sheet_inputs::{at_limits, coarse, crowded, damage, largest, ordinary, sample, spoiled, two, CIRCLE, GEOMETRIES, TURNS};

/// The codes of sailing vessels: tack unknown, port tack, starboard tack.
const SAILING: [u32; 3] = [1, 2, 3];

/// Where categories stand: own craft's in the header, a target's in her words.
const OWN_CATEGORY: usize = 2;
const CATEGORY: usize = 5;

const QUARTER: u32 = CIRCLE / 4;

/// A word of the wind.
fn word(wind: u32) -> [u8; 4] {
    (WIND << 28 | wind).to_le_bytes()
}

impl Values {
    /// The same with a wind.
    pub fn blown(self, wind: u32) -> Values {
        Values { wind: Some(wind), ..self }
    }
}

/// The systematic sheets: the wind at each of its turns; its word at every place, and twice; each bit of it changed, each kind at each
/// place, each length; a bad wind beside every bad word and beside too many contacts; every two tacks in every wind.
pub fn systematic() -> Vec<Vec<u8>> {
    let (one, two) = (sample().blown(QUARTER), two().blown(QUARTER));
    let (bytes, without) = (two.bytes(), Values { wind: None, ..two.clone() }.bytes());
    let about_circle = (CIRCLE - 2)..(CIRCLE + 3);
    let mut sheets: Vec<Vec<u8>> = TURNS.into_iter().chain(about_circle).map(|wind| two.clone().blown(wind).bytes()).collect();
    sheets.push(Values { contacts: Vec::new(), ..one.clone() }.bytes());
    for place in 0..=two.len() {
        let mut moved = without.clone();
        moved.splice(4 * place..4 * place, word(QUARTER));
        let mut twice = bytes.clone();
        twice.splice(4 * place..4 * place, word(QUARTER));
        sheets.extend([moved, twice]);
        for kind in 0..16 {
            let mut bytes = bytes.clone();
            bytes[4 * place + 3] = kind << 4;
            sheets.push(bytes);
        }
    }
    for place in 0..two.len() {
        let bad = (place, largest(place).saturating_add(1).min(VALUE));
        sheets.push(two.clone().blown(CIRCLE).with(&[bad]).bytes());
        sheets.push(two.clone().with(&[bad]).bytes());
    }
    sheets.extend([QUARTER, CIRCLE].map(|wind| crowded(two.clone().blown(wind), MAX_CONTACTS + 1).bytes()));
    sheets.extend([32, MAX_CONTACTS, 169, 170].map(|count| crowded(two.clone(), count).bytes()));
    for bit in 0..32 {
        let mut bytes = one.bytes();
        bytes[4 * BASE + bit / 8] ^= 1 << (bit % 8);
        sheets.push(bytes);
    }
    sheets.extend((0..bytes.len()).map(|length| bytes[..length].to_vec()));
    for (own, target) in (0..4).flat_map(|own| (0..4).map(move |target| (own, target))) {
        for ([bearing, range, course, speed], wind) in GEOMETRIES.iter().flat_map(|g| (0..16).map(move |wind| (*g, wind))) {
            let contact = [1.0, bearing, range, course, speed, f64::from(target)];
            let values = Values::of([0.0, 10.0, f64::from(own), 0.0, 1.0, 0.0, 180.0, 1.0, 1800.0], &[contact]);
            sheets.push(values.blown(wind * (CIRCLE / 16)).bytes());
        }
    }
    sheets
}

/// Where the wind comes from: anywhere, or about abeam or along the line of sight to a contact, where Rule 12 turns.
fn wind(values: &Values, random: &mut Random) -> u32 {
    let anywhere = random.below(u64::from(CIRCLE)) as u32;
    let bearing = values.contacts.first().map_or(0, |_| any(&values.contacts, random)[1]);
    let about = bearing + QUARTER * random.below(4) as u32 + any(&[0, 0, 1, CIRCLE - 1, 1 << 10], random);
    any(&[anywhere, about % CIRCLE, about % CIRCLE, 0, CIRCLE - 1], random)
}

/// Own craft and all contacts under sail, most of them on one tack.
fn under_sail(mut values: Values, random: &mut Random) -> Values {
    let one = any(&SAILING[1..], random);
    values.base[OWN_CATEGORY] = one;
    for contact in &mut values.contacts {
        contact[CATEGORY] = any(&[one, one, any(&SAILING, random), 0], random);
    }
    values
}

/// Random sheet i that tells the wind, or nearly does.
pub fn random_sheet(i: u64, random: &mut Random) -> Vec<u8> {
    let values = match i % 8 {
        0 => coarse(random),
        1 => at_limits(random),
        2 => ordinary(i, random),
        _ => under_sail(ordinary(random.word(), random), random),
    };
    let wind = wind(&values, random);
    let values = values.blown(wind);
    match i % 8 {
        6 => {
            let past = any(&[CIRCLE, CIRCLE, CIRCLE + 1, VALUE, wind, wind], random);
            spoiled(values, random).blown(past).bytes()
        }
        7 => {
            let mut bytes = values.bytes();
            damage(&mut bytes, random);
            bytes
        }
        _ => values.bytes(),
    }
}
