//! The trial list: how many trials there are between two alterations and which they are, against the lines of the listed `search` that
//! say so, which divide by a step of 1 degree; and the listed `search` itself, which must go as far as these lines say.

use super::*;
use crate::traffic_avoidance::probe::{clearing, steps, trial};

/// The worked pairs of request R-4: least, most, and how many trials there are.
const ROWS: [(f64, f64, u64); 4] = [
    (17.38770443707414, 97.38770443707413, 81),
    (127.00000000000001, 128.0, 1),
    (f64::EPSILON / 4.0, 1.0, 2),
    (f64::EPSILON / 2.0, 1.0, 1),
];

/// How many pairs there are of each kind: accepted limits; of those, differences that are whole, the floats next below and above a whole
/// one, and those that are whole only because they are rounded.
#[derive(Default, Debug)]
#[allow(dead_code)]
struct Tally {
    accepted: u64,
    whole: u64,
    next_below: u64,
    next_above: u64,
    rounded_to_whole: u64,
    by_thirty_trials: [u64; 7],
}

impl Tally {
    fn count(&mut self, least: f64, most: f64, trials: u64) {
        if !is_accepted(least, most) {
            return;
        }
        let difference = most - least;
        let whole = |x: f64| x.fract() == 0.0;
        self.accepted += 1;
        self.whole += u64::from(whole(difference));
        self.next_below += u64::from(!whole(difference) && whole(neighbour(difference, 1)));
        self.next_above += u64::from(!whole(difference) && whole(neighbour(difference, -1)));
        // The difference is exact exactly where both ends are had back from it.
        self.rounded_to_whole += u64::from(whole(difference) && (most - difference != least || least + difference != most));
        self.by_thirty_trials[(trials / 30) as usize] += 1;
    }
}

fn is_accepted(least: f64, most: f64) -> bool {
    0.0 <= least && least <= most && most <= 180.0
}

/// Two alterations: whole differences and their neighbours at either end, from any least, from one of few digits and from a small one, whose
/// difference is rounded; the limits of the searches; any accepted ones; any floats.
fn pair(i: u64, random: &mut Random) -> (f64, f64) {
    if let Some(&(least, most, _)) = ROWS.get(i as usize) {
        return (least, most);
    }
    let beside = |x: f64, random: &mut Random| neighbour(x, random.below(9) as i64 - 4);
    let least = match i % 8 {
        0..=2 => random.unit() * 180.0,
        3 => random.below(180 * 1024) as f64 / 1024.0,
        4 => (1 + random.below(8)) as f64 * 2f64.powi(-(random.below(64) as i32)),
        5 => return limits(random),
        6 => {
            let least = random.unit() * 180.0;
            return (least, least + random.unit() * (180.0 - least));
        }
        _ => return (random.float(), random.float()),
    };
    let whole = random.below(181 - (least as u64).min(180)) as f64;
    let most = if i % 8 == 4 { whole } else { least + whole };
    match random.below(4) {
        0 => (least, most),
        1 => (beside(least, random), most),
        2 => (least, beside(most, random)),
        _ => (beside(least, random), beside(most, random)),
    }
}

/// The words of a difference in the count and, of accepted limits, in one of the trials.
fn difference(least: f64, most: f64, tally: &mut Tally, random: &mut Random) -> Option<String> {
    let last = steps(least, most) as u64;
    let shown = |words: String| Some(format!("{least:e} to {most:e}: {words}"));
    tally.count(least, most, last + 1);
    let got = port::trial_count(least, most).part(1);
    if got != last + 1 {
        return shown(format!("{got} trials, wanted {}", last + 1));
    }
    let k = any(&[0, last, random.below(last + 1)], random);
    let (got, wanted) = (port::trial(least, most, k).part(1), trial(least, most, k as usize));
    if is_accepted(least, most) && !equal(got, wanted.to_bits()) {
        return shown(format!("trial {k} is {:e}, wanted {wanted:e}", f64::from_bits(got)));
    }
    None
}

/// A passing distance of a list, whatever is desired.
fn passing(list: &List, alteration: f64) -> f64 {
    let (distance, _) = clearing(&list.contacts, calls::distance(0))(list.own, alteration).expect("any distance clears");
    distance.nautical_miles()
}

/// The words of a difference between these lines and the listed `search`, on a vessel that doesn't move and lies on the course by the least
/// alteration: each larger one, up to a right angle, passes her farther off. Where the last trial alone opens her that far, `search` must
/// answer it, and where the most alteration alone would, it must find nothing. Distances that can't be told apart are left; `shown` counts
/// the others.
fn search_differs(least: f64, most: f64, shown: &mut [u64; 2]) -> Option<String> {
    let apart = 4e-9;
    let meeting = |desired: f64| list(0.0, 10.0, desired, std::iter::once([least, 10.0, 0.0, 0.0]));
    let last = steps(least, most);
    let (at_last, at_most) = (passing(&meeting(0.0), trial(least, most, last)), passing(&meeting(0.0), most));
    let before = if last == 0 { f64::NEG_INFINITY } else { passing(&meeting(0.0), trial(least, most, last - 1)) };
    let found = |desired: f64| {
        let m = meeting(desired).search(SIDES[1], Limits { least, most, rate: None });
        m.map(|m| m.alteration().degrees())
    };
    if at_last - before > apart {
        shown[0] += 1;
        let got = found(at_last);
        if got != Some(trial(least, most, last)) {
            return Some(format!("{least:e} to {most:e}: `search` finds {got:?} at its last trial"));
        }
    }
    if at_most - at_last > apart {
        shown[1] += 1;
        let got = found(at_most);
        if got.is_some() {
            return Some(format!("{least:e} to {most:e}: `search` finds {got:?} beyond its last trial"));
        }
    }
    None
}

/// Whether the reference has as many trials as request R-4 says.
pub(super) fn compare_stated() -> bool {
    run("trials as stated", ROWS.len() as u64, |i, _| {
        let (least, most, wanted) = ROWS[i as usize];
        let got = steps(least, most) as u64 + 1;
        (got != wanted).then(|| format!("{least:e} to {most:e}: {got} trials, wanted {wanted}"))
    })
}

/// Compares ten times `count` pairs; a hundredth of them with the listed `search`, so far as they are accepted and up to a right angle apart.
pub(super) fn compare(count: u64) -> bool {
    let (mut tally, mut shown) = (Tally::default(), [0; 2]);
    let good = run("trials", 10 * count, |i, random| {
        let (least, most) = pair(i, random);
        difference(least, most, &mut tally, random)
    });
    println!("trials: {tally:?}");
    let alike = run("trials of search", count / 10, |i, random| {
        let (least, most) = pair(i, random);
        if is_accepted(least, most) && most - least <= 89.0 {
            search_differs(least, most, &mut shown)
        } else {
            None
        }
    });
    println!("trials of search: {} last trials found, {} times nothing beyond", shown[0], shown[1]);
    good && alike
}

/// Adds the counts of so many pairs, the worked ones first, and a trial of those that are accepted.
pub(super) fn write(module: &mut Module, count: u64) {
    let mut random = generator("trials");
    for i in 0..count {
        let (least, most) = pair(i, &mut random);
        assert_eq!(difference(least, most, &mut Tally::default(), &mut random), None);
        module.push(&port::trial_count(least, most), 1);
        if is_accepted(least, most) {
            module.push(&port::trial(least, most, random.below(steps(least, most) as u64 + 1)), 1);
        }
    }
}
