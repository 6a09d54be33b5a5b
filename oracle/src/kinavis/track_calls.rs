//! The motion that track.rs fits to the plots which document 02 accepts, R-5; answers are words as in calls.rs.

use crate::event::TargetId;
use crate::observation::TargetObservation;
use crate::position::Position;
use crate::time::Instant;
use crate::track::TargetTrack;

/// North and east offset in nautical miles, and the second.
pub type Plot = (f64, f64, i64);

/// The number, whether there is a motion, and its course and speed.
pub type FitWords = [u64; 4];

/// Document 02's numbers: an offset, a speed, too few plots, a time.
const OFFSET: u64 = 3;
const SPEED: u64 = 2;
const FEW: u64 = 17;
const TIME: u64 = 18;

const FASTEST: f64 = 1000.0;
const FARTHEST: f64 = 10_000.0;
const LAST_SECOND: i64 = (1 << 31) - 1;

/// The number of a plot after the newest that is kept, 0 where it is accepted.
pub fn verdict(newest: Option<i64>, (north, east, second): Plot) -> u64 {
    let near = |miles: f64| (-FARTHEST..=FARTHEST).contains(&miles);
    if !near(north) || !near(east) {
        OFFSET
    } else if second < 0 || second > LAST_SECOND || newest.is_some_and(|newest| second <= newest) {
        TIME
    } else {
        0
    }
}

fn observation((north, east, second): Plot) -> TargetObservation {
    TargetObservation::new(TargetId::new(0), Position::at(north, east), Instant::from_unix_seconds(second))
}

/// The track of plots that are accepted, one after the other, as track.rs keeps it.
pub fn extended(track: Option<TargetTrack>, plot: Plot) -> TargetTrack {
    match track {
        None => TargetTrack::started_by(&observation(plot)),
        Some(mut track) => {
            track.extend(&observation(plot));
            track
        }
    }
}

/// Whether a track holds as many plots as the last of these are, from the first to the last of them.
pub fn holds(track: Option<&TargetTrack>, plots: &[Plot]) -> bool {
    let (Some(first), Some(last)) = (plots.first(), plots.last()) else { return track.is_none() };
    let at = |plot: &Plot| Instant::from_unix_seconds(plot.2);
    track.is_some_and(|track| {
        let same = (track.first_seen(), track.last_seen(), track.last_position()) == (at(first), at(last), Position::at(last.0, last.1));
        track.fix_count() == plots.len() && same
    })
}

/// The motion of a track.
pub fn fit(track: Option<&TargetTrack>) -> FitWords {
    let Some(track) = track.filter(|track| track.fix_count() >= 2) else { return [FEW, 0, 0, 0] };
    let Some(motion) = track.fitted_motion() else { return [0; 4] };
    let (course, speed) = (motion.course_over_ground.degrees(), motion.speed_over_ground.knots());
    if speed > FASTEST {
        [SPEED, 0, 0, 0]
    } else {
        [0, 1, course.to_bits(), speed.to_bits()]
    }
}

/// The motion after a run of plots that are all accepted.
pub fn run(plots: &[Plot]) -> FitWords {
    fit(plots.iter().fold(None, |track, &plot| Some(extended(track, plot))).as_ref())
}
