//! Runs of plots: the port's window and fit against track.rs on the plots that document 02 accepts, R-5.

use crate::compare::{generator, run};
use crate::inputs::{neighbour, Random};
use crate::track::TargetTrack;
use crate::track_calls::{extended, fit, holds, verdict, FitWords, Plot};
use crate::vectors::Module;
use crate::port;

/// The most plots of a run, and those that a window holds.
const LONGEST: u64 = 20;
const HELD: usize = 8;

const LAST_SECOND: i64 = (1 << 31) - 1;

/// A worked run of request R-5: the plots, the numbers of their verdicts, and the number of the fit, whether there is a motion and the speed.
type Worked = (&'static [Plot], &'static [u64], [u64; 3]);

const NAN: f64 = f64::NAN;

const WORKED: [Worked; 9] = [
    (&[(4.7, 0.0, 14), (7.0, 0.0, 47), (7.6, 0.0, 50)], &[0, 0, 0], [0, 1, 0x4071_1d5a_7756_9dd6]),
    (&[(0.0, 0.0, 0), (105.0, 0.0, 378)], &[0, 0], [2, 0, 0]),
    (&[(0.0, 0.0, 0), (15.0, 0.0, 54)], &[0, 0], [0, 1, 0x408f_3fff_ffff_ffff]),
    (&[(0.0, 0.0, 0), (1.0, 0.0, 3600), (1.0, 0.0, 7200), (0.0, 0.0, 10800)], &[0, 0, 0, 0], [0, 0, 0]),
    (&[(0.0, 0.0, 0), (0.1, 0.0, 7), (0.1, 0.0, 14), (0.0, 0.0, 21)], &[0, 0, 0, 0], [0, 1, 0x3cd9_d43e_b1a1_f58c]),
    (&[(NAN, 0.0, -1)], &[3], [17, 0, 0]),
    (&[(0.0, 0.0, 1 << 31)], &[18], [17, 0, 0]),
    (
        &[(0.0, 0.0, 0), (1.0, 0.0, 100), (9.0, NAN, 200), (9.0, 9.0, 100), (2.0, 0.0, 150)],
        &[0, 0, 3, 18, 0],
        [0, 1, 0x4047_2492_4924_924a],
    ),
    (
        &[
            (9.0, 9.0, 0),
            (1.0, 0.0, 360),
            (2.0, 0.0, 720),
            (3.0, 0.0, 1080),
            (4.0, 0.0, 1440),
            (5.0, 0.0, 1800),
            (6.0, 0.0, 2160),
            (7.0, 0.0, 2520),
            (8.0, 0.0, 2880),
        ],
        &[0; 9],
        [0, 1, 0x4023_ffff_ffff_ffff],
    ),
];

/// What there is on the way through the runs: verdicts and fits by number, fits without motion and with one, plots that push out the oldest,
/// and fits after a refused plot that was later than the newest kept.
#[derive(Default, Debug)]
#[allow(dead_code)]
struct Tally {
    accepted: u64,
    refused_3: u64,
    refused_18: u64,
    pushed_out: u64,
    fit_17: u64,
    fit_2: u64,
    no_motion: u64,
    motion: u64,
}

impl Tally {
    fn plot(&mut self, number: u64, held: usize) {
        match number {
            0 => {
                self.accepted += 1;
                self.pushed_out += u64::from(held == HELD);
            }
            3 => self.refused_3 += 1,
            _ => self.refused_18 += 1,
        }
    }

    fn fit(&mut self, words: FitWords) {
        match words {
            [17, ..] => self.fit_17 += 1,
            [2, ..] => self.fit_2 += 1,
            [_, 0, ..] => self.no_motion += 1,
            _ => self.motion += 1,
        }
    }
}

/// How a contact of a run goes.
#[derive(Clone, Copy)]
enum Going {
    /// On a line, its plots scattered so far.
    Straight([f64; 2], f64),
    /// Not at all.
    Still,
    /// There and back, in equal times.
    Back([f64; 2]),
    /// At about the limit of speed.
    Fast(f64),
    /// Anywhere.
    Anywhere,
}

fn going(random: &mut Random) -> Going {
    let velocity = |random: &mut Random, most: f64| [(random.unit() - 0.5) * most, (random.unit() - 0.5) * most];
    match random.below(8) {
        0..=2 => Going::Straight(velocity(random, 60.0), [0.0, 1e-12, 0.01, 1.0][random.below(4) as usize]),
        3 => Going::Still,
        4 => Going::Back(velocity(random, 40.0)),
        5 => Going::Fast(random.unit() * 360.0),
        _ => Going::Anywhere,
    }
}

/// An offset at a limit, at a random place or none at all.
fn odd_offset(random: &mut Random) -> f64 {
    match random.below(6) {
        0 => random.float(),
        1 => [NAN, f64::INFINITY, f64::NEG_INFINITY, -0.0, 5e-324, -5e-324][random.below(6) as usize],
        2 | 3 => neighbour([10_000.0, -10_000.0][random.below(2) as usize], random.below(3) as i64 - 1),
        _ => (random.unit() - 0.5) * 20_000.0,
    }
}

/// A time at a limit, or beside the one before.
fn odd_time(before: i64, random: &mut Random) -> i64 {
    match random.below(6) {
        0 => [i64::MIN, i64::MAX, -1, 0, LAST_SECOND, LAST_SECOND + 1, 1 << 32, (1 << 32) + 7][random.below(8) as usize],
        1 => LAST_SECOND - random.below(40) as i64,
        2 => random.word() as i64,
        _ => before + random.below(3) as i64 - 1,
    }
}

/// A run of plots.
fn plots(i: u64, random: &mut Random) -> Vec<Plot> {
    if let Some((plots, ..)) = WORKED.get(i as usize) {
        return plots.to_vec();
    }
    let going = going(random);
    let (odd, whole) = (random.below(3) == 0, random.below(2) == 0);
    let start = [(random.unit() - 0.5) * 40.0, (random.unit() - 0.5) * 40.0];
    let most = [1, 10, 600, 100_000][random.below(4) as usize];
    let equal = random.below(most) as i64 + 1;
    let count = random.below(LONGEST + 1);
    let mut time = [0, random.below(1 << 20) as i64, LAST_SECOND - 3000][random.below(3) as usize];
    let first = time;
    let middle = first + equal * (count as i64 - 1) / 2;
    (0..count)
        .map(|k| {
            let hours = (time - first) as f64 / 3600.0;
            let [north, east] = match going {
                Going::Straight([n, e], noise) => [start[0] + n * hours, start[1] + e * hours].map(|x| x + (random.unit() - 0.5) * noise),
                Going::Still => start,
                Going::Back([n, e]) => {
                    let hours = (time.min(2 * middle - time) - first) as f64 / 3600.0;
                    [start[0] + n * hours, start[1] + e * hours]
                }
                Going::Fast(course) => {
                    let miles = neighbour(1000.0 * hours, random.below(3) as i64 - 1);
                    [miles * course.to_radians().cos(), miles * course.to_radians().sin()]
                }
                Going::Anywhere => [random.float(), (random.unit() - 0.5) * 20_000.0],
            };
            let plot = if whole { (north.round(), east.round(), time) } else { (north, east, time) };
            time += match going {
                Going::Back(_) | Going::Fast(_) => equal,
                _ => random.below(most) as i64 + 1,
            };
            if odd && random.below(4) == 0 {
                let [north, east] = [plot.0, plot.1].map(|x| if random.below(3) == 0 { odd_offset(random) } else { x });
                let second = if random.below(2) == 0 { odd_time(plot.2, random) } else { plot.2 };
                return (north, east, second);
            }
            if k > 0 && random.below(40) == 0 { (plot.0, plot.1, plot.2 - equal) } else { plot }
        })
        .collect()
}

/// The words of a difference: after every plot in the verdict on it and in the fit, and at the end in all that the window holds.
fn difference(plots: &[Plot], tally: &mut Tally) -> Option<String> {
    let (mut track, mut accepted): (Option<TargetTrack>, Vec<Plot>) = (None, Vec::new());
    let mut number = 0;
    for n in 0..=plots.len() {
        let so_far = &plots[..n];
        if let Some(&plot) = so_far.last() {
            number = verdict(accepted.last().map(|plot| plot.2), plot);
            tally.plot(number, accepted.len().min(HELD));
            if number == 0 {
                accepted.push(plot);
                track = Some(extended(track, plot));
            }
        }
        let shown = |what: &str, got: u64, wanted: u64| Some(format!("{so_far:?}: {what} {got:x}, wanted {wanted:x}"));
        let window = port::window(so_far);
        if window.part(0) != number {
            return shown("verdict", window.part(0), number);
        }
        let wanted = fit(track.as_ref());
        tally.fit(wanted);
        let got = port::fit(so_far);
        for (part, &wanted) in (0..).zip(&wanted) {
            if got.part(part) != wanted {
                return shown(["number", "motion", "course", "speed"][part as usize], got.part(part), wanted);
            }
        }
    }
    let held = &accepted[accepted.len().saturating_sub(HELD)..];
    if !holds(track.as_ref(), held) {
        return Some(format!("{plots:?}: track.rs doesn't hold the latest"));
    }
    let words = held.iter().flat_map(|&(north, east, second)| [north.to_bits(), east.to_bits(), second as u64]);
    let wanted: Vec<u64> = [number, held.len() as u64].into_iter().chain(words).chain([0; 4]).collect();
    let window = port::window(plots);
    for (part, &wanted) in (0..).zip(&wanted) {
        if window.part(part) != wanted {
            return Some(format!("{plots:?}: word {part} of the window {:x}, wanted {wanted:x}", window.part(part)));
        }
    }
    None
}

/// Whether the reference answers the worked runs as request R-5 says.
fn compare_stated() -> bool {
    run("plots as stated", WORKED.len() as u64, |i, _| {
        let (plots, numbers, wanted) = WORKED[i as usize];
        let (mut newest, mut track, mut got) = (None, None, Vec::new());
        for &plot in plots {
            let number = verdict(newest, plot);
            got.push(number);
            if number == 0 {
                newest = Some(plot.2);
                track = Some(extended(track, plot));
            }
        }
        let [number, motion, _, speed] = fit(track.as_ref());
        let answer = [number, motion, speed];
        (got != numbers || answer != wanted).then(|| format!("{plots:?}: {got:?} {answer:x?}, wanted {numbers:?} {wanted:x?}"))
    })
}

/// Compares a fifth of `count` runs.
pub fn compare(count: u64) -> bool {
    let mut tally = Tally::default();
    let stated = compare_stated();
    let good = run("runs of plots", count / 5, |i, random| difference(&plots(i, random), &mut tally));
    println!("runs of plots: {tally:?}");
    stated && good
}

/// Adds runs that fit into a record, the worked ones first: the fit of each, and of every tenth the whole window.
pub fn write(module: &mut Module) {
    let mut random = generator("runs of plots");
    let mut i = 0;
    let mut written = 0;
    while written < 100 {
        let mut plots = plots(i, &mut random);
        plots.truncate(11);
        i += 1;
        if plots.is_empty() {
            continue;
        }
        written += 1;
        assert_eq!(difference(&plots, &mut Tally::default()), None);
        for part in 0..4 {
            module.push(&port::fit(&plots), part);
        }
        let window = port::window(&plots);
        let parts = if written % 10 == 0 { 2 + 3 * window.part(1) as u32 } else { 2 };
        for part in 0..parts {
            module.push(&window, part);
        }
    }
}

/// Runs of 8 plots that are accepted and give a motion.
pub fn answered(count: usize) -> Vec<[Plot; HELD]> {
    let mut random = generator("plots that are answered");
    let mut found = Vec::new();
    while found.len() < count {
        let Going::Straight([n, e], noise) = going(&mut random) else { continue };
        let mut second = 0;
        let plots = [(); HELD].map(|()| {
            second += random.below(600) as i64 + 1;
            let hours = second as f64 / 3600.0;
            let [north, east] = [n * hours, e * hours].map(|x| x + (random.unit() - 0.5) * noise);
            (north, east, second)
        });
        if crate::track_calls::run(&plots)[1] == 1 {
            found.push(plots);
        }
    }
    found
}
