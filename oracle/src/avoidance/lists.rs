//! Lists of contacts, and the search among them.

use super::*;

/// Own course and speed, and the desired distance.
pub type Own = (f64, f64, f64);

/// The kinds of traffic, the walls more often than others.
#[derive(Clone, Copy, PartialEq)]
pub enum Style {
    /// Any contacts.
    Any,
    /// Some miles off, at usual speeds.
    Near,
    /// Dense: each about straight on, from any course.
    StraightOn,
    /// Contacts that hardly move, from one side of the bow to the other: clear at the wall's nearer end.
    Wall,
    /// The same to both sides: two ends that are as near.
    EvenWall,
    /// Pairs that mirror one another.
    Mirrored,
    /// Coming up on the starboard quarter.
    Quarter,
}
use Style::{EvenWall, Mirrored, Near, Quarter, StraightOn, Wall};

const STYLES: [Style; 12] = [Style::Any, Near, StraightOn, StraightOn, StraightOn, Wall, Wall, Wall, EvenWall, EvenWall, Mirrored, Quarter];

pub fn style(i: u64) -> Style {
    STYLES[(i % STYLES.len() as u64) as usize]
}

/// Contacts: bearing, range, course and speed of each.
pub fn traffic(style: Style, count: usize, own: Own, random: &mut Random) -> Vec<[f64; 4]> {
    match style {
        Style::Any => (0..count).map(|_| [Direction, Distance, Direction, Speed].map(|kind| drawn(accepted, kind, random))).collect(),
        Near => (0..count).map(|_| near(random.unit() * 360.0, random)).collect(),
        StraightOn => (0..count).map(|_| straight_on(own, random)).collect(),
        Wall => wall(count, own, random.unit() * 110.0, random.unit() * 180.0, random),
        EvenWall => {
            let end = random.unit() * 110.0;
            wall(count, own, end, end, random)
        }
        Mirrored => mirrored(count, own, random),
        Quarter => (0..count).map(|_| up_the_quarter(own, random)).collect(),
    }
}

pub(super) fn near(bearing: f64, random: &mut Random) -> [f64; 4] {
    [wrap360(bearing), 0.3 + random.unit() * 10.0, random.unit() * 360.0, random.unit() * 25.0]
}

fn straight_on((own_course, own_speed, _): Own, random: &mut Random) -> [f64; 4] {
    let [_, range, course, speed] = near(0.0, random);
    let hair = (random.unit() - 0.5) * 10.0;
    [wrap360(collision_bearing(own_course, own_speed, course, speed) + hair), range, course, speed]
}

/// From so many degrees to port to so many to starboard, evenly.
fn wall(count: usize, (own_course, own_speed, desired): Own, port: f64, starboard: f64, random: &mut Random) -> Vec<[f64; 4]> {
    let range = (desired * (1.0 + 4.0 * random.unit().powi(3))).clamp(0.1, 10_000.0);
    let slow = any(&[0.0, 0.0, 1e-10, own_speed * 0.1], random).min(1000.0);
    let step = (port + starboard) / (count.max(2) - 1) as f64;
    let mut contacts: Vec<[f64; 4]> = (0..count).map(|i| [wrap360(own_course - port + step * i as f64), range, own_course, slow]).collect();
    if count > 1 && random.below(2) == 0 {
        let (i, j) = (random.below(count as u64) as usize, random.below(count as u64) as usize);
        contacts.swap(i, j);
    }
    contacts
}

fn up_the_quarter((own_course, own_speed, _): Own, random: &mut Random) -> [f64; 4] {
    let off = 90.0 + random.unit() * 89.0;
    let [_, range, ..] = near(0.0, random);
    let course = wrap360(own_course + off + 180.0 + random.unit() * 40.0 - 20.0);
    [wrap360(own_course + off), range, course, (own_speed + random.unit() * 25.0).min(1000.0)]
}

fn mirrored(count: usize, (own_course, ..): Own, random: &mut Random) -> Vec<[f64; 4]> {
    let pairs = (0..count.div_ceil(2)).flat_map(|_| {
        let off = any(&[random.below(180) as f64, random.unit() * 60.0], random);
        let [_, range, course, speed] = near(0.0, random);
        [1.0, -1.0].map(|sign| [wrap360(own_course + sign * off), range, wrap360(own_course + sign * course), speed])
    });
    pairs.take(count).collect()
}

/// Own craft and a desired distance for traffic.
pub fn own(random: &mut Random) -> Own {
    let course = any(&[0.0, 0.0, 90.0, 180.1, random.unit() * 360.0, drawn(turning, Direction, random)], random);
    let usual = 2.0 + random.unit() * 23.0;
    let speed = any(&[10.0, usual, usual, usual, usual, 0.0, drawn(accepted, Speed, random)], random);
    let small = any(&[0.0, 1e-9, random.unit() * 0.2], random);
    let desired = any(&[1.0, 1.0, random.unit() * 2.0, random.unit() * 2.0, random.unit() * 5.0, small], random);
    (course, speed, desired)
}

/// How many contacts: mostly few.
pub fn how_many(random: &mut Random) -> usize {
    let most = any(&[3, 4, 9, 9, 17, 17, 33], random);
    random.below(most) as usize
}

/// The sides' code, and the floats as the C interface has them: own course and speed, desired, least, most; then the contacts.
pub struct Search {
    sides: u32,
    count: usize,
    floats: Vec<f64>,
}

/// How often a trial is found, on which side and where.
#[derive(Default, Debug)]
#[allow(dead_code)]
pub(super) struct SearchTally {
    none: u64,
    starboard: u64,
    port: u64,
    at_zero: [u64; 2],
    by_thirty_degrees: [u64; 7],
    contacts: [u64; 4],
}

/// 0, up to 4, up to 16, and more contacts.
pub(super) fn size(count: usize) -> usize {
    [0, 4, 16].iter().filter(|most| count > **most).count()
}

impl Case for Search {
    const NAME: &'static str = "search";
    type Answer = SearchWords;
    type Tally = SearchTally;

    fn case(i: u64, _: u64, random: &mut Random) -> Search {
        let (count, own) = (how_many(random), own(random));
        let (least, most) = limits(random);
        let mut floats = vec![own.0, own.1, own.2, least, most];
        let contacts = traffic(style(i), count, own, random);
        if count > 0 && random.below(6) == 0 {
            floats[2] = just_met((own.0, own.1), any(&contacts, random), least, random).unwrap_or(own.2);
        }
        floats.extend(contacts.into_iter().flatten());
        let mut case = Search { sides: random.below(3) as u32, count, floats };
        if random.below(4) == 0 {
            let [found, _, magnitude, ..] = case.reference();
            if found == 1 {
                case.floats[4] = most_about(f64::from_bits(magnitude), least, random);
            }
        }
        case
    }

    fn reference(&self) -> SearchWords {
        let [own_course, own_speed, desired, least, most] = self.floats[..5].try_into().unwrap();
        let contacts = self.floats[5..].chunks_exact(4).map(|entry| entry.try_into().unwrap());
        search(SIDES[self.sides as usize], Limits { least, most, rate: None }, &list(own_course, own_speed, desired, contacts))
    }

    fn count(&self, answer: &SearchWords, tally: &mut SearchTally) {
        tally.contacts[size(self.count)] += 1;
        if answer[0] == 0 {
            tally.none += 1;
        } else {
            let magnitude = f64::from_bits(answer[2]);
            *if answer[1] == 0 { &mut tally.starboard } else { &mut tally.port } += 1;
            tally.at_zero[answer[1] as usize] += u64::from(magnitude == 0.0);
            tally.by_thirty_degrees[(magnitude / 30.0) as usize] += 1;
        }
    }

    fn asked(&self) -> port::Call<Vec<u64>> {
        let [own_course, own_speed, desired, least, most] = self.floats[..5].try_into().unwrap();
        let contacts = self.floats[5..].chunks_exact(4).map(|entry| entry.try_into().unwrap());
        port::search([own_course, own_speed], contacts, (desired, least, most, None, self.sides))
    }

    fn difference(&self, i: u64, wanted: &SearchWords) -> Option<String> {
        // Where nothing is found every part takes the whole search.
        let all = wanted[0] == 1;
        let parts = (0..5u32).filter(|part| all || *part == 0 || u64::from(*part) == i % 5);
        let call = self.asked();
        let words = differing(parts, wanted, |part| call.part(part + 1))?;
        Some(format!("sides {}, {} contacts, {:?}, {words}", self.sides, self.count, self.floats))
    }
}
