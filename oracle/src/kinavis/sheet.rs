//! Encounter sheets by document 01, 'Encounter sheet and its program', and request R-1, the wind: which bytes are a sheet, and the lines that the program prints for
//! any bytes. Approach, risk and ruling are the unchanged Rust's (the ruling with request R-2), and the ruled search is the reference that the port's is compared with; what stands here is the sheet's layout, its checks and the lines' words.

use std::time::Duration;

use crate::angle::Side;
use crate::calls;
use crate::checks::Kind::{Direction, Distance as Miles, Speed as Knots};
use crate::checks::{first_bad, CONSTRAINTS, COUNT, MAX_CONTACTS};
use crate::colregs::Party;
use crate::relative_motion::{closest_point_of_approach, Approach, Contact, Vessel};
use crate::to_windward::rule_of_the_road;
use crate::traffic_assessment::{assess, CollisionRisk, CpaPolicy};
use crate::traffic_calls::{constraints, list, ruled, Limits, List, Ruled, Rulings, SIDES};
use crate::{ColregsConfig, Encounter, Responsibility, Situation, Tack, VesselCategory, Visibility};

/// The numbers of a wrong layout and of an unknown code.
const LAYOUT: u64 = 15;
const CODE: u64 = 16;

/// The most bytes of a sheet.
pub const MOST_BYTES: usize = 4096;

/// Words before the contacts' and the wind's, and words of a contact.
pub const BASE: usize = 9;
pub const EACH: usize = 6;

/// The bits of a word that are its value, and of its kind, which is above them.
pub const VALUE: u32 = (1 << 28) - 1;
const KIND_SHIFT: u32 = 28;

/// The kind of the word that tells where the wind comes from.
pub const WIND: u32 = 15;

/// Parts of a degree, a knot and a mile that a value counts.
pub const PARTS: f64 = 1024.0;

/// The categories, in the order of a sheet's codes.
const CATEGORIES: [VesselCategory; 8] = [
    VesselCategory::PowerDriven,
    VesselCategory::Sailing { tack: None },
    VesselCategory::Sailing { tack: Some(Tack::Port) },
    VesselCategory::Sailing { tack: Some(Tack::Starboard) },
    VesselCategory::Fishing,
    VesselCategory::ConstrainedByDraught,
    VesselCategory::RestrictedInAbilityToManoeuvre,
    VesselCategory::NotUnderCommand,
];

const VISIBILITIES: [Visibility; 2] = [Visibility::InSight, Visibility::Restricted];

/// The values of a sheet's words, without their kinds: own course and speed, category, visibility, desired, least, most, CPA limit, TCPA
/// limit; where the wind comes from; and of each contact id, bearing, range, course, speed, category.
#[derive(Clone)]
pub struct Values {
    pub base: [u32; BASE],
    pub wind: Option<u32>,
    pub contacts: Vec<[u32; EACH]>,
}

/// The kind of the word at a place, the wind's left out.
pub fn kind(place: usize) -> u32 {
    (if place < BASE { place } else { BASE + (place - BASE) % EACH }) as u32
}

/// Degrees, knots or miles.
fn quantity(value: u32) -> f64 {
    f64::from(value) / PARTS
}

impl Values {
    pub fn bytes(&self) -> Vec<u8> {
        let values = self.base.iter().chain(self.contacts.iter().flatten());
        let mut words: Vec<u32> = values.enumerate().map(|(place, value)| kind(place) << KIND_SHIFT | value).collect();
        if let Some(wind) = self.wind {
            words.insert(BASE, WIND << KIND_SHIFT | wind);
        }
        words.into_iter().flat_map(u32::to_le_bytes).collect()
    }

    /// The values of bytes whose layout is right: whole words, not too many, each of the kind of its place, and no group cut short.
    fn of_bytes(bytes: &[u8]) -> Option<Values> {
        let (words, rest) = bytes.as_chunks::<4>();
        let mut words: Vec<u32> = words.iter().map(|word| u32::from_le_bytes(*word)).collect();
        let is_wind = words.get(BASE).is_some_and(|word| word >> KIND_SHIFT == WIND);
        let wind = is_wind.then(|| words.remove(BASE) & VALUE);
        let in_order = words.iter().enumerate().all(|(place, word)| word >> KIND_SHIFT == kind(place));
        if bytes.len() > MOST_BYTES || !rest.is_empty() || !in_order {
            return None;
        }
        let values: Vec<u32> = words.iter().map(|word| word & VALUE).collect();
        let (base, contacts) = values.split_first_chunk()?;
        let (contacts, rest) = contacts.as_chunks();
        rest.is_empty().then(|| Values { base: *base, wind, contacts: contacts.to_vec() })
    }

    fn has_unknown_code(&self) -> bool {
        let [_, _, own, visibility, ..] = self.base;
        let unknown = |category: u32| category as usize >= CATEGORIES.len();
        unknown(own) || visibility as usize >= VISIBILITIES.len() || self.contacts.iter().any(|[.., category]| unknown(*category))
    }

    fn limits(&self) -> Limits {
        let [_, _, _, _, _, least, most, ..] = self.base.map(quantity);
        Limits { least, most, rate: None }
    }

    /// The number of the first value, in the sheet's order, that row 1, 2, 3 or 4 refuses. No value is too long a time.
    fn first_bad(&self) -> Option<u64> {
        let [own_course, own_speed, _, _, desired, _, _, cpa_limit, _] = self.base.map(quantity);
        let of_contact = |contact: &[u32; EACH]| {
            let [_, bearing, range, course, speed, _] = contact.map(quantity);
            [(Direction, bearing), (Miles, range), (Direction, course), (Knots, speed)]
        };
        first_bad([(Direction, own_course), (Knots, own_speed), (Miles, desired)])
            .or_else(|| constraints(SIDES[0], self.limits()).is_err().then_some(CONSTRAINTS))
            .or_else(|| first_bad([(Miles, cpa_limit)]))
            .or_else(|| first_bad(self.wind.map(|wind| (Direction, quantity(wind)))))
            .or_else(|| first_bad(self.contacts.iter().flat_map(of_contact)))
    }

    /// The values of an accepted sheet, or the number of its refusal.
    pub fn read(bytes: &[u8]) -> Result<Values, u64> {
        let values = Values::of_bytes(bytes).ok_or(LAYOUT)?;
        if values.contacts.len() > MAX_CONTACTS {
            return Err(COUNT);
        }
        if values.has_unknown_code() {
            return Err(CODE);
        }
        values.first_bad().map_or(Ok(values), Err)
    }
}

/// What an accepted sheet says.
struct Sheet {
    list: List,
    ids: Vec<u32>,
    own: VesselCategory,
    targets: Vec<VesselCategory>,
    visibility: Visibility,
    wind: Option<f64>,
    limits: Limits,
    policy: CpaPolicy,
}

impl Sheet {
    fn new(values: &Values) -> Sheet {
        let [_, _, own, visibility, _, _, _, _, seconds] = values.base;
        let [own_course, own_speed, _, _, desired, _, _, cpa_limit, _] = values.base.map(quantity);
        let moving = values.contacts.iter().map(|contact| {
            let [_, bearing, range, course, speed, _] = contact.map(quantity);
            [bearing, range, course, speed]
        });
        let (cpa_limit, tcpa_limit) = (calls::distance(cpa_limit.to_bits()), Duration::from_secs(u64::from(seconds)));
        Sheet {
            list: list(own_course, own_speed, desired, moving),
            ids: values.contacts.iter().map(|[id, ..]| *id).collect(),
            own: CATEGORIES[own as usize],
            targets: values.contacts.iter().map(|[.., category]| CATEGORIES[*category as usize]).collect(),
            visibility: VISIBILITIES[visibility as usize],
            wind: values.wind.map(quantity),
            limits: values.limits(),
            policy: CpaPolicy::new(cpa_limit, tcpa_limit).expect("an accepted policy"),
        }
    }

    /// The line on a contact.
    fn contact_line(&self, id: u32, (contact, target): (Contact, Vessel), category: VesselCategory) -> String {
        let own = self.list.own;
        let (approach, distance, seconds) = match closest_point_of_approach(own, contact, target).expect("accepted arguments") {
            Approach::Closing(cpa) => ("CLOSING", cpa.distance, cpa.time_to_go.as_secs().to_string()),
            Approach::Opening { current_range } => ("OPENING", current_range, "-".to_string()),
            Approach::Stationary { range } => ("STATIONARY", range, "-".to_string()),
        };
        let risk = match assess(own, contact, target, &self.policy).expect("accepted arguments").risk() {
            CollisionRisk::Opening => "OPENING",
            CollisionRisk::Passing => "PASSING",
            CollisionRisk::Developing => "DEVELOPING",
            CollisionRisk::Dangerous => "DANGEROUS",
        };
        let situation = Situation::new(Party::new(own, self.own), Party::new(target, category), contact, self.visibility);
        let situation = match self.wind {
            Some(from) => situation.with_wind_from(calls::direction(from.to_bits())),
            None => situation,
        };
        let ruling = rule_of_the_road(&situation, &ColregsConfig::STANDARD).expect("accepted arguments");
        let encounter = match ruling.encounter() {
            Encounter::Overtaking => "OVERTAKING",
            Encounter::BeingOvertaken => "BEING-OVERTAKEN",
            Encounter::HeadOn => "HEAD-ON",
            Encounter::Crossing { target_on: Side::Starboard } => "CROSSING-S",
            Encounter::Crossing { target_on: Side::Port } => "CROSSING-P",
        };
        let responsibility = match ruling.responsibility() {
            Responsibility::GiveWay => "GIVEWAY",
            Responsibility::StandOn => "STANDON",
            Responsibility::Both => "BOTH",
            Responsibility::Undetermined => "UNDETERMINED",
        };
        let (distance, rule) = (decimal(distance.nautical_miles()), ruling.rule().to_string().replace("Rule ", ""));
        format!("CONTACT {id} {approach} {distance} {seconds} {risk} {encounter} {responsibility} {rule}\n")
    }

    /// The ruled search: headings are unknown.
    fn search(&self) -> Ruled {
        let party = |category: &VesselCategory| {
            let code = calls::CATEGORIES.iter().position(|c| c == category).expect("a category");
            (code as u32, None)
        };
        let rulings = Rulings {
            own: party(&self.own),
            targets: self.targets.iter().map(party).collect(),
            restricted: self.visibility == Visibility::Restricted,
            wind: self.wind,
        };
        ruled(self.limits, &rulings, &self.list)
    }

    /// The line on the ruled search's answer.
    fn search_line(&self, answer: &Ruled) -> String {
        let [number, to_port, magnitude, course, passing, .., limiting] = answer.words;
        if number != 0 {
            return refusal(number);
        }
        let [magnitude, course, passing] = [magnitude, course, passing].map(|word| decimal(f64::from_bits(word)));
        let side = if to_port == 1 { "P" } else { "S" };
        match limiting.checked_sub(1) {
            Some(place) => format!("ALTER {side} {magnitude} {course} {passing} {}\n", self.ids[place as usize]),
            None => format!("ALTER {side} {magnitude} {course} FREE NONE\n"),
        }
    }
}

fn refusal(number: u64) -> String {
    format!("REFUSED {number}\n")
}

/// Three decimals, nearest, ties to even: the standard library rounds the exact number so (`compare` checks that it does). Nothing printed
/// is below 0.
pub fn decimal(x: f64) -> String {
    format!("{:.3}", x.abs())
}

/// The lines for some bytes, and whether the ruled search had a choice between sides of one magnitude.
pub fn answer(bytes: &[u8]) -> (String, bool) {
    let sheet = match Values::read(bytes) {
        Ok(values) => Sheet::new(&values),
        Err(number) => return (refusal(number), false),
    };
    let contacts = sheet.ids.iter().zip(&sheet.list.contacts).zip(&sheet.targets);
    let lines: String = contacts.map(|((id, moving), category)| sheet.contact_line(*id, *moving, *category)).collect();
    let answer = sheet.search();
    (lines + &sheet.search_line(&answer), answer.tie)
}

/// What the program prints for some bytes.
pub fn printed(bytes: &[u8]) -> Vec<u8> {
    answer(bytes).0.into_bytes()
}
