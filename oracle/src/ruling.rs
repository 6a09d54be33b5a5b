//! The ruling: the port's `rule_of_the_road` against rules.rs on the port's elementary functions, behind document 01's argument
//! checks, and with request R-2 (`kinavis/to_windward.rs`).

use std::collections::BTreeMap;

use crate::angle::wrap360;
use crate::calls::{self, RulingWords, SituationWords, CATEGORIES, HEADING, OWN_HEADING, RESTRICTED, WIND};
use crate::checks::is_accepted;
use crate::checks::Kind::{self, Direction, Distance, Speed, Width};
use crate::compare::run;
use crate::inputs::{neighbour, Random};
use crate::motion::{accepted, any, bad, collision_bearing, turning};
use crate::vectors::Module;
use crate::{port, ColregsConfig};

/// A situation and its config: the codes, and the floats as the C interface has them.
#[derive(Clone, Copy)]
pub struct Case {
    pub codes: u32,
    floats: [f64; 11],
}

/// The kinds of the floats, in the order in which document 01 checks them, each with the code without which it is not looked at.
const KINDS: [(Kind, u32); 11] = [
    (Direction, 0),
    (Speed, 0),
    (Direction, OWN_HEADING),
    (Direction, 0),
    (Distance, 0),
    (Direction, 0),
    (Speed, 0),
    (Direction, HEADING),
    (Direction, WIND),
    (Width, 0),
    (Width, 0),
];

/// How many codes there are: two categories and four flags.
const CODES: u64 = 1 << 10;

/// Parts of an answer.
const PARTS: u32 = 8;

/// The start of the overtaking sector abaft the beam, and the head-on half-width.
const STANDARD: (f64, f64) =
    (ColregsConfig::STANDARD.overtaking_abaft_beam.degrees(), ColregsConfig::STANDARD.head_on_half_width.degrees());

// The codes of the categories, but for a power-driven vessel's, which is 0.
const TACK_UNKNOWN: u32 = 1;
const PORT_TACK: u32 = 2;
const STARBOARD_TACK: u32 = 3;
const FISHING: u32 = 4;
const BY_DRAUGHT: u32 = 5;
const RESTRICTED_IN_ABILITY: u32 = 6;
const NOT_UNDER_COMMAND: u32 = 7;

/// Two power-driven vessels in sight of one another, with the standard config: own course and speed, bearing and range, the
/// target's course and speed.
const fn meeting(own_course: f64, own_speed: f64, bearing: f64, range: f64, course: f64, speed: f64) -> Case {
    let (abaft, width) = STANDARD;
    Case { codes: 0, floats: [own_course, own_speed, 0.0, bearing, range, course, speed, 0.0, 0.0, abaft, width] }
}

impl Case {
    const fn of(mut self, own: u32, target: u32) -> Case {
        self.codes |= own | target << 3;
        self
    }

    const fn restricted(mut self) -> Case {
        self.codes |= RESTRICTED;
        self
    }

    const fn own_heads(mut self, heading: f64) -> Case {
        self.codes |= OWN_HEADING;
        self.floats[2] = heading;
        self
    }

    const fn target_heads(mut self, heading: f64) -> Case {
        self.codes |= HEADING;
        self.floats[7] = heading;
        self
    }

    const fn wind_from(mut self, wind: f64) -> Case {
        self.codes |= WIND;
        self.floats[8] = wind;
        self
    }

    const fn config(mut self, abaft: f64, width: f64) -> Case {
        self.floats[9] = abaft;
        self.floats[10] = width;
        self
    }
}

/// Two vessels under sail at one velocity, own craft on the port tack, the target's tack unknown.
const fn unsure(bearing: f64, wind: f64) -> Case {
    meeting(0.0, 5.0, bearing, 2.0, 0.0, 5.0).of(PORT_TACK, TACK_UNKNOWN).wind_from(wind)
}

/// Document 01's corners of rules.rs and examples of refusals, with what the ruling is.
const CORNERS: &[(Case, &str)] = &[
    (meeting(0.0, 20.0, 0.0, 5.0, 67.5, 10.0), "crossing to port"),
    (meeting(0.0, 20.0, 0.0, 5.0, 67.49999999999999, 10.0), "overtaking"),
    (meeting(0.0, 10.0, 6.0, 5.0, 180.0, 10.0), "head-on"),
    (meeting(0.0, 10.0, 6.0, 5.0, 179.0, 10.0), "crossing to starboard"),
    (meeting(0.0, 5.0, 0.0, 2.0, 180.0, 5.0).own_heads(180.0).target_heads(0.0), "being overtaken"),
    (meeting(0.0, 5.000000000000001, 0.0, 2.0, 180.0, 5.0).own_heads(180.0).target_heads(0.0), "overtaking"),
    (meeting(0.0, 10.0, 0.0, 5.0, 270.0, 10.0), "crossing to starboard"),
    (meeting(0.0, 10.0, 0.0, 5.0, 90.0, 10.0), "crossing to port"),
    (meeting(0.0, 10.0, 9.999999999999999e-10, 5.0, 90.0, 10.0), "crossing to port"),
    (meeting(0.0, 10.0, 1e-9, 5.0, 90.0, 10.0), "crossing to starboard"),
    (meeting(0.0, 10.0, 5e-324, 5.0, 180.0, 10.0).config(22.5, 0.0), "crossing to port"),
    (meeting(0.0, 10.0, 90.0, 5.0, 270.0, 10.0).restricted(), "not starboard, port"),
    (meeting(0.0, 10.0, 89.99999999999999, 5.0, 270.0, 10.0).restricted(), "starboard, not port"),
    (meeting(0.0, 5.0, 90.0, 2.0, 270.0, 5.0).of(TACK_UNKNOWN, STARBOARD_TACK).wind_from(90.0), "undetermined, Rule 12"),
    (meeting(360.0, 10.0, 0.0, 5.0, 90.0, 10.0), "refused with 1"),
    (meeting(0.0, 1000.5, 0.0, -1.0, 90.0, 10.0), "refused with 2"),
    (meeting(0.0, 10.0, 0.0, -1.0, 360.0, 10.0), "refused with 3"),
    (meeting(0.0, 10.0, 0.0, 5.0, 90.0, 10.0).config(22.5, 91.0), "refused with 12"),
    (meeting(0.0, 10.0, 0.0, -1.0, 90.0, 10.0).own_heads(360.0), "refused with 1"),
    (meeting(0.0, 10.0, 0.0, 5.0, 90.0, 10.0).target_heads(360.0).config(91.0, 6.0), "refused with 1"),
    (meeting(0.0, 10.0, 0.0, 5.0, 90.0, 10.0).wind_from(360.0).config(91.0, 6.0), "refused with 1"),
];

/// Request R-2's rows, and others of document 01 and docs/DIFFERENCES.md that it speaks of.
const TO_WINDWARD: &[(Case, &str)] = &[
    (unsure(270.0, 270.0), "give way, Rule 12, starboard, port, not hold"),
    (unsure(180.0, 270.0), "give way, Rule 12"),
    (unsure(0.0, 270.0), "give way, Rule 12"),
    (unsure(90.0, 270.0), "undetermined, Rule 12, starboard, port, not hold"),
    (unsure(179.99999999999997, 270.0), "undetermined, Rule 12"),
    (unsure(60.000000000000036, 330.0), "give way, Rule 12"),
    (unsure(270.0, 270.0).restricted(), "both, Rule 19"),
    (unsure(270.0, 360.0), "refused with 1"),
    (meeting(0.0, 5.0, 270.0, 2.0, 0.0, 5.0).of(PORT_TACK, TACK_UNKNOWN), "undetermined, Rule 12"),
    (meeting(0.0, 5.0, 270.0, 2.0, 0.0, 5.0).of(STARBOARD_TACK, TACK_UNKNOWN).wind_from(270.0), "undetermined, Rule 12"),
    (meeting(0.0, 5.0, 270.0, 2.0, 0.0, 5.0).of(TACK_UNKNOWN, TACK_UNKNOWN).wind_from(270.0), "undetermined, Rule 12"),
    (meeting(0.0, 5.0, 270.0, 2.0, 0.0, 5.0).of(PORT_TACK, 0).wind_from(270.0), "stand on, Rule 18"),
    (meeting(0.0, 5.0, 90.0, 2.0, 270.0, 5.0).of(PORT_TACK, TACK_UNKNOWN).wind_from(90.0), "give way, Rule 12"),
    (meeting(0.0, 5.0, 270.0, 2.0, 45.0, 5.0).of(PORT_TACK, TACK_UNKNOWN).wind_from(270.0), "crossing to port, give way, Rule 12"),
    (meeting(0.0, 5.0, 0.0, 2.0, 0.0, 2.0).of(PORT_TACK, TACK_UNKNOWN).wind_from(0.0), "overtaking, give way, Rule 13"),
];

/// The inputs of docs/DIFFERENCES.md, 'The Rust against COLREGs', in that order, with what it says of the ruling.
const DEPARTURES: &[(Case, &str)] = &[
    (meeting(0.0, 5.0, 0.0, 2.0, 180.0, 5.0).own_heads(180.0).target_heads(0.0), "being overtaken, stand on"),
    (meeting(180.0, 5.0, 180.0, 2.0, 0.0, 5.0).own_heads(0.0).target_heads(180.0), "being overtaken, stand on"),
    (meeting(0.0, 10.0, 45.0, 5.0, 270.0, 10.0).of(BY_DRAUGHT, 0), "stand on, Rule 18, not port"),
    (meeting(0.0, 10.0, 315.0, 5.0, 90.0, 10.0).of(0, BY_DRAUGHT), "crossing to port, give way, Rule 18"),
    (meeting(0.0, 10.0, 45.0, 5.0, 270.0, 10.0).of(BY_DRAUGHT, FISHING), "stand on, Rule 18"),
    (meeting(0.0, 10.0, 45.0, 5.0, 270.0, 10.0).of(RESTRICTED_IN_ABILITY, NOT_UNDER_COMMAND), "give way, Rule 18"),
    (meeting(0.0, 10.0, 0.0, 5.0, 180.0, 10.0).of(FISHING, FISHING), "both, Rule 14"),
    (meeting(0.0, 10.0, 45.0, 5.0, 270.0, 10.0).of(FISHING, FISHING), "give way, Rule 15"),
    (meeting(0.0, 10.0, 45.0, 5.0, 45.0, 20.0), "give way, Rule 15"),
    (meeting(0.0, 10.0, 0.0, 2.0, 0.0, 10.0), "stand on, Rule 17"),
    (meeting(180.0, 5.0, 0.0, 2.0, 0.0, 5.0).own_heads(0.0).target_heads(180.0), "head-on, both, Rule 14"),
    (meeting(0.0, 5.0, 270.0, 2.0, 45.0, 5.0).of(PORT_TACK, TACK_UNKNOWN).wind_from(90.0), "undetermined, Rule 12"),
    (meeting(0.0, 5.0, 45.0, 5.0, 270.0, 10.0).of(FISHING, 0), "crossing to starboard, stand on, Rule 18, not port"),
    (meeting(0.0, 10.0, 0.0, 5.0, 270.0, 10.0), "give way, Rule 15"),
    (meeting(0.0, 10.0, 0.0, 5.0, 90.0, 10.0), "stand on, Rule 17, not port"),
    (meeting(0.0, 10.0, 315.0, 5.0, 180.0, 10.0), "crossing to port, stand on, Rule 17"),
    (meeting(0.0, 10.0, 180.0, 5.0, 0.0, 12.0).restricted(), "port, not starboard, slow down"),
    (meeting(0.0, 10.0, 45.0, 5.0, 45.0, 20.0).restricted(), "starboard, not port"),
    (meeting(0.0, 5.0, 90.0, 2.0, 0.0, 5.0).of(STARBOARD_TACK, STARBOARD_TACK).wind_from(0.0), "stand on"),
    (meeting(0.0, 5.0, 270.0, 2.0, 0.0, 5.0).of(STARBOARD_TACK, STARBOARD_TACK).wind_from(0.0), "stand on"),
    (meeting(0.0, 5.0, 90.0, 2.0, 0.0, 5.0).of(STARBOARD_TACK, STARBOARD_TACK), "undetermined"),
    (unsure(90.0, 0.0), "give way, Rule 12"),
    (unsure(270.0, 0.0), "give way, Rule 12"),
    (meeting(0.0, 20.0, 0.0, 5.0, 67.5, 10.0), "crossing to port, stand on, Rule 17"),
    (meeting(0.0, 20.0, 310.0, 1.0, 0.0, 10.0), "overtaking, give way"),
    (meeting(0.0, 20.0, 280.0, 1.0, 0.0, 10.0), "crossing to port, stand on, Rule 17"),
    (meeting(0.0, 10.0, 6.0, 5.0, 180.0, 10.0), "head-on"),
    (meeting(0.0, 10.0, 6.0, 5.0, 179.0, 10.0), "crossing to starboard, give way, Rule 15"),
    (meeting(0.0, 10.0, 354.0, 5.0, 167.0, 10.0), "crossing to port, stand on, Rule 17"),
    (meeting(0.0, 10.0, 45.0, 5.0, 270.0, 10.0), "starboard, not port"),
    (meeting(0.0, 10.0, 315.0, 5.0, 90.0, 10.0), "hold, starboard, slow down"),
    (meeting(0.0, 10.0, 45.0, 5.0, 270.0, 10.0).of(FISHING, NOT_UNDER_COMMAND), "give way, Rule 18"),
    (meeting(0.0, 10.0, 0.0, 5.0, 180.0, 10.0).own_heads(90.0), "crossing to port, stand on, Rule 17"),
];

/// The corners, then the departures, then request R-2's.
fn stated() -> impl Iterator<Item = &'static (Case, &'static str)> {
    CORNERS.iter().chain(DEPARTURES).chain(TO_WINDWARD)
}

/// The parts of an answer, numbered. A refusal has no other one.
fn parts(answer: RulingWords) -> impl Iterator<Item = (usize, u64)> {
    let count = if answer[0] == 0 { answer.len() } else { 1 };
    answer.into_iter().enumerate().take(count)
}

/// What a part of an answer says. A crossing is to the side that the target is on.
fn said(part: usize, value: u64) -> String {
    let of = |names: &[&str]| names[value as usize].to_string();
    match part {
        0 if value == 0 => "ruled".to_string(),
        0 => format!("refused with {value}"),
        1 => of(&["overtaking", "being overtaken", "head-on", "crossing to starboard", "crossing to port"]),
        2 => of(&["give way", "stand on", "both", "undetermined"]),
        3 => format!("Rule {value}"),
        4 => of(&["not starboard", "starboard"]),
        5 => of(&["not port", "port"]),
        6 => of(&["not slow down", "slow down"]),
        _ => of(&["not hold", "hold"]),
    }
}

impl Case {
    pub fn words(&self) -> SituationWords {
        self.floats.map(f64::to_bits)
    }

    fn call(&self) -> port::Contact {
        let [own_course, own_speed, own_heading, bearing, range, course, speed, heading, wind, abaft, width] = self.floats;
        let given = |code: u32, x: f64| self.is_given(code).then_some(x);
        let kinds = [(self.codes & 7, given(OWN_HEADING, own_heading)), (self.codes >> 3 & 7, given(HEADING, heading))];
        let contact = [bearing, range, course, speed];
        port::ruling([own_course, own_speed], contact, kinds, self.is_given(RESTRICTED), given(WIND, wind), [abaft, width])
    }

    pub fn port(&self, part: u32) -> u64 {
        self.call().part(part)
    }

    fn is_given(&self, code: u32) -> bool {
        self.codes & code == code
    }

    /// Document 01's answer: the first bad argument decides, and with none bad the Rust does, and request R-2. It refuses a bad config
    /// itself.
    fn reference(&self) -> RulingWords {
        let mut checked = KINDS.into_iter().zip(self.words());
        match checked.find(|((kind, code), word)| self.is_given(*code) && !is_accepted(*kind, &[*word])) {
            Some(((kind, _), _)) if kind != Width => [kind as u64, 0, 0, 0, 0, 0, 0, 0],
            _ => calls::ruling_words(self.codes, self.words()),
        }
    }

    /// Whether request R-2 changes the ruling, an answer being given.
    fn is_changed(&self, answer: RulingWords) -> bool {
        answer[0] == 0 && calls::is_changed(self.codes, self.words())
    }

    /// The words of a difference in any part.
    fn difference(&self, wanted: RulingWords) -> Option<String> {
        (0..PARTS).zip(wanted).find_map(|(part, wanted)| {
            let got = self.port(part);
            let (codes, floats, words) = (self.codes, self.floats, self.words());
            (got != wanted).then(|| format!("{codes:010b} {floats:?} ({words:x?}), part {part}: {got}, wanted {wanted}"))
        })
    }

    /// A random situation, accepted. Half of them have the standard config.
    fn random(random: &mut Random) -> Case {
        let case = Case { codes: random.below(CODES) as u32, floats: KINDS.map(|(kind, _)| drawn(accepted, kind, random)) };
        let (abaft, width) = STANDARD;
        if random.below(2) == 0 {
            case.config(abaft, width)
        } else {
            case
        }
    }

    /// Puts bad arguments where none is given: they must not count.
    fn fill_with_bad(&mut self, random: &mut Random) {
        for (i, (kind, code)) in KINDS.into_iter().enumerate() {
            if !self.is_given(code) && random.below(2) == 0 {
                self.floats[i] = drawn(bad, kind, random);
            }
        }
    }

    /// A situation some of whose arguments depend on others.
    fn related(self, random: &mut Random) -> Case {
        let [mut own_course, mut own_speed, mut own_heading, mut bearing, range, ..] = self.floats;
        let [.., mut course, mut speed, mut heading, mut wind, abaft, width] = self.floats;
        let mut codes = self.codes;
        let abeam = any(&[90.0, 270.0], random);
        match random.below(10) {
            // Equal velocities.
            0 => (course, speed) = (own_course, own_speed),
            // Motion across the line of sight: the closing rate is about rounding of zero.
            1 | 2 => {
                let hair = any(&[0.0, 1e-13, -1e-13, 5.7e-11, -5.7e-11, 6e-11, -6e-11], random);
                bearing = wrap360(collision_bearing(own_course, own_speed, course, speed) + abeam + hair);
            }
            // On the line of sight, one coming up with the other at about the least rate that counts.
            3 => {
                own_course = wrap360(bearing + any(&[0.0, 180.0], random));
                course = own_course;
                let ratio = any(&[1.0, 1.0 - 1e-12, 1.0 + 1e-12], random);
                speed = random.near(own_speed * ratio);
            }
            // The same dead ahead, the rate being exactly the largest that does not count, or about.
            4 => {
                let rate = (4600 + random.below(4400)) as f64 * 2f64.powi(-49);
                own_speed = rate / 1e-12;
                (own_course, bearing, course, speed) = (0.0, 0.0, 0.0, random.near(own_speed - rate));
            }
            // Headings against the motion: each astern of the other, or about, at about equal speeds.
            5 => {
                let off = any(&[0.0, 30.0, 90.0 - abaft, abaft - 90.0], random);
                (own_course, course) = (bearing, wrap360(bearing + 180.0));
                (own_heading, heading) = (beside(course + off, step(random)), beside(bearing + off, step(random)));
                speed = random.near(own_speed);
                codes |= OWN_HEADING | HEADING;
            }
            // Angles of the grid, off any course.
            6 | 7 => {
                (bearing, course) = on_grid(own_course, random.below(ANGLES), random.below(ANGLES), (abaft, width));
                codes &= !(OWN_HEADING | HEADING);
            }
            // The port tack, and one whose tack is unknown, the wind square to the line of sight or a few patterns off.
            8 => {
                wind = beside(bearing + abeam, random.below(9) as i64 - 4);
                codes = (codes & !(0o77 | RESTRICTED)) | PORT_TACK | TACK_UNKNOWN << 3 | WIND;
            }
            // Two on one tack, the wind about square to the line of sight.
            _ => {
                wind = beside(bearing + abeam, step(random));
                let tack = any(&[PORT_TACK, STARBOARD_TACK], random);
                codes = (codes & !0o77) | tack | tack << 3 | WIND;
            }
        }
        Case { codes, floats: [own_course, own_speed, own_heading, bearing, range, course, speed, heading, wind, abaft, width] }
    }
}

/// An argument that one of motion.rs's functions draws.
pub fn drawn(draw: fn(Kind, &mut [u64], &mut Random), kind: Kind, random: &mut Random) -> f64 {
    let mut words = [0];
    draw(kind, &mut words, random);
    f64::from_bits(words[0])
}

/// No pattern beside, or one to either side.
fn step(random: &mut Random) -> i64 {
    random.below(3) as i64 - 1
}

/// The direction so many patterns beside some degrees, round the circle.
fn beside(degrees: f64, step: i64) -> f64 {
    let direction = wrap360(degrees);
    wrap360(neighbour(if direction == 0.0 && step < 0 { 360.0 } else { direction }, step))
}

const ORDINARY: [f64; 8] = [30.0, -45.0, 75.0, -80.0, 100.0, -120.0, 150.0, -170.0];

/// Angles off a bow: ordinary ones, and six limits to starboard and port, each with its neighbours.
const ANGLES: u64 = 8 + 6 * 2 * 3;

/// Angle i, and how many patterns beside it.
fn angle(i: u64, (abaft, width): (f64, f64)) -> (f64, i64) {
    if let Some(&degrees) = ORDINARY.get(i as usize) {
        return (degrees, 0);
    }
    let i = i as usize - ORDINARY.len();
    let limit = [0.0, 1e-9, width, 90.0, 90.0 + abaft, 180.0][i % 6];
    (if i / 6 % 2 == 0 { limit } else { -limit }, (i / 12) as i64 - 1)
}

/// The bearing that has a relative bearing of the grid off own head, and the target's head that gives it an aspect of the grid.
fn on_grid(own_head: f64, relative: u64, aspect: u64, config: (f64, f64)) -> (f64, f64) {
    let (degrees, step) = angle(relative, config);
    let bearing = beside(own_head + degrees, step);
    let (degrees, step) = angle(aspect, config);
    (bearing, beside(bearing + 180.0 - degrees, step))
}

/// All codes with each relative bearing and each aspect of the grid, with the standard config and with others.
const SYSTEMATIC: u64 = CODES * ANGLES * ANGLES * 2;

/// Other configs.
const CONFIGS: [(f64, f64); 7] = [(0.0, 0.0), (90.0, 90.0), (0.0, 90.0), (90.0, 0.0), (45.0, 5.0), (33.3, 7.7), (1e-9, 1e-9)];

/// Own speed and the target's.
const SPEEDS: [(f64, f64); 10] = [
    (10.0, 10.0),
    (15.0, 10.0),
    (10.0, 15.0),
    (10.0, 10.000000000000002),
    (0.0, 0.0),
    (0.0, 10.0),
    (10.0, 0.0),
    (1000.0, 1000.0),
    (1000.0, 5.0),
    (5.0, 1000.0),
];

/// Case i of the systematic ones. Own head, speeds, wind and the courses of vessels with a heading vary in between.
fn systematic(i: u64, random: &mut Random) -> Case {
    let (abaft, width) = if i < SYSTEMATIC / 2 { STANDARD } else { any(&CONFIGS, random) };
    let own_head = any(&[0.0, 0.0, 90.0, 225.0, 354.0], random);
    let (bearing, head) = on_grid(own_head, i / CODES % ANGLES, i / CODES / ANGLES % ANGLES, (abaft, width));
    let (own_speed, speed) = any(&SPEEDS, random);
    let mut course = |head: f64| wrap360(any(&[head, head + 90.0, head + 180.0, bearing, bearing + 180.0], random));
    let (own_course, target_course) = (course(own_head), course(head));
    let wind = beside(bearing + any(&[0.0, 90.0, 180.0, 270.0], random), step(random));
    let mut case = Case {
        codes: (i % CODES) as u32,
        floats: [own_course, own_speed, own_head, bearing, 2.0, target_course, speed, head, wind, abaft, width],
    };
    if !case.is_given(OWN_HEADING) {
        case.floats[0] = own_head;
    }
    if !case.is_given(HEADING) {
        case.floats[5] = head;
    }
    case.fill_with_bad(random);
    case
}

/// How many patterns a bearing and a wind are put beside 90 degrees apart, to either side, and all that gives.
const BESIDE: i64 = 4;
const SQUARE: u64 = 360 * 2 * (2 * BESIDE as u64 + 1).pow(2);

/// Case i of those about 90 degrees from the wind: each whole bearing with the wind on either side of it, and both some patterns beside;
/// own craft on the port tack, the target's tack unknown, at one velocity. The next so many are on any course at any speed, from any
/// bearing.
fn about_square(i: u64, random: &mut Random) -> Case {
    let each = 2 * BESIDE as u64 + 1;
    let steps = [i % each, i / each % each].map(|step| step as i64 - BESIDE);
    let side = if i / each / each % 2 == 0 { 90.0 } else { 270.0 };
    let degrees = (i / each / each / 2 % 360) as f64;
    if i < SQUARE {
        return unsure(beside(degrees, steps[0]), beside(degrees + side, steps[1]));
    }
    let mut case = Case::random(random);
    let bearing = wrap360(random.unit() * 360.0);
    case.codes = (case.codes & !(0o77 | RESTRICTED)) | PORT_TACK | TACK_UNKNOWN << 3 | WIND;
    (case.floats[3], case.floats[8]) = (bearing, beside(bearing + side, steps[0]));
    case
}

/// Case i of the adversarial ones: the corners, the departures and request R-2's, then arguments where something turns, related ones, and one or two
/// bad ones.
fn adversarial(i: u64, random: &mut Random) -> Case {
    if let Some((case, _)) = stated().nth(i as usize) {
        return *case;
    }
    let mut case = Case::random(random);
    for (x, (kind, _)) in case.floats.iter_mut().zip(KINDS) {
        if random.below(4) == 0 {
            *x = drawn(turning, kind, random);
        }
    }
    if random.below(4) != 0 {
        case = case.related(random);
    }
    case.fill_with_bad(random);
    if random.below(4) == 0 {
        for _ in 0..=random.below(2) {
            let i = random.below(KINDS.len() as u64) as usize;
            case.floats[i] = drawn(bad, KINDS[i].0, random);
        }
    }
    case
}

/// So many random situations that are not refused.
pub fn answered(count: usize) -> Vec<Case> {
    let mut random = Random::new(5);
    std::iter::repeat_with(|| Case::random(&mut random)).filter(|case| case.reference()[0] == 0).take(count).collect()
}

/// How often each part of the answers has each value.
#[derive(Default)]
struct Tally(BTreeMap<(usize, u64), u64>);

impl Tally {
    fn count(&mut self, answer: RulingWords) {
        for part in parts(answer) {
            *self.0.entry(part).or_default() += 1;
        }
    }

    fn print(&self) {
        for part in 0..PARTS as usize {
            let counts = self.0.iter().filter(|((of, _), _)| *of == part);
            let words: Vec<String> = counts.map(|((_, value), count)| format!("{} {count}", said(part, *value))).collect();
            println!("rule_of_the_road: {}", words.join(", "));
        }
    }
}

/// Whether the Rust, with request R-2, rules as document 01, docs/DIFFERENCES.md and the request say.
fn compare_stated() -> bool {
    run("rulings as documented", stated().count() as u64, |i, _| {
        let (case, words) = stated().nth(i as usize)?;
        let says: Vec<String> = parts(case.reference()).map(|(part, value)| said(part, value)).collect();
        let missing = words.split(", ").find(|word| !says.iter().any(|said| said == word))?;
        Some(format!("{:010b} {:?}: the reference does not say '{missing}' but {says:?}", case.codes, case.floats))
    })
}

/// Compares the ruling about 90 degrees from the wind, and counts where request R-2 changes it.
fn compare_to_windward() -> bool {
    let mut changed = 0;
    let cases = 2 * SQUARE;
    let good = run("Rule 12(a)(iii) about 90 degrees", cases, |i, random| {
        let case = about_square(i, random);
        let wanted = case.reference();
        changed += u64::from(case.is_changed(wanted));
        case.difference(wanted)
    });
    println!("Rule 12(a)(iii) about 90 degrees: changed {changed}, as before {}", cases - changed);
    good
}

/// Compares the precedence of every category, and the ruling on a fifth of `count` adversarial situations, all systematic ones and
/// `count` random ones; and counts what occurs.
pub fn compare(count: u64) -> bool {
    let mut good = run("precedence", CATEGORIES.len() as u64, |code, _| {
        let (got, wanted) = (port::precedence(code as u32).part(1) as u8, CATEGORIES[code as usize].precedence());
        (got != wanted).then(|| format!("{code}: {got}, wanted {wanted}"))
    });
    good &= compare_stated();
    good &= compare_to_windward();
    let mut tally = Tally::default();
    let mut changed = 0u64;
    let (first, second) = (count / 5, count / 5 + SYSTEMATIC);
    good &= run("rule_of_the_road", second + count, |i, random| {
        let case = match i {
            _ if i < first => adversarial(i, random),
            _ if i < second => systematic(i - first, random),
            _ => Case::random(random),
        };
        let wanted = case.reference();
        tally.count(wanted);
        changed += u64::from(case.is_changed(wanted));
        case.difference(wanted)
    });
    tally.print();
    println!("rule_of_the_road: changed by request R-2 {changed}");
    good
}

/// Writes the records and answers that `module_main` replays in the gate: 300 situations with every part of their answers, and the
/// categories.
pub fn write(module: &mut Module) {
    let mut random = Random::new(17);
    for i in 0..300 {
        let case = match i {
            0..170 => adversarial(i, &mut random),
            170..250 => systematic(random.below(SYSTEMATIC), &mut random),
            _ => Case::random(&mut random),
        };
        let wanted = case.reference();
        assert_eq!(case.difference(wanted), None);
        for part in 0..PARTS {
            module.push(&case.call(), part);
        }
    }
    for (code, category) in (0..).zip(CATEGORIES) {
        assert_eq!(port::precedence(code).part(1), u64::from(category.precedence()));
        module.push(&port::precedence(code), 1);
    }
}
