//! What assessment.rs, avoidance.rs and track.rs name of files that are not at hand or out of scope. Of the first two only
//! `assess_track`, `assess_traffic` and `avoid_all`, which are not ported, call it, but for a target's id, by which `search` names the
//! limiting contact. track.rs finds its fixes and times here: a position holds the offset that was handed in, which its differences hand
//! back, and a track has room for the 8 plots of document 02.

/// Methods that are never called.
macro_rules! absent {
    ($($name:ident() -> $out:ty;)*) => {
        $(pub fn $name(&self) -> $out {
            unimplemented!()
        })*
    };
}

/// The kernel's event.rs, not at hand, and the traffic's, out of scope.
pub mod event {
    use std::marker::PhantomData;
    use std::time::Duration;

    use super::time::{Instant, Utc};
    use crate::units::Distance;

    /// A target, by number.
    #[derive(Debug, Clone, Copy, PartialEq, Eq)]
    pub struct TargetId(usize);

    impl TargetId {
        pub const fn new(number: usize) -> Self {
            Self(number)
        }

        pub const fn number(self) -> usize {
            self.0
        }
    }

    pub enum TrafficEvent {
        CpaAlarm { target: TargetId, cpa: Distance, tcpa: Duration, at: Instant<Utc> },
    }

    pub struct EventList<Event, const N: usize>(PhantomData<Event>);

    impl<Event, const N: usize> EventList<Event, N> {
        pub fn with_capacity() -> Self {
            unimplemented!()
        }

        pub fn push(&mut self, _: Event) {
            unimplemented!()
        }
    }
}

/// The kernel's inline.rs, not at hand: a fixed array and a count, as document 01 says.
pub mod inline {
    use std::ops::Deref;

    /// Where track.rs keeps 12 fixes, document 02 has 8 plots. Nothing else here has room for 12.
    const TRACK: usize = 12;
    const PLOTS: usize = 8;

    /// Up to N entries.
    #[derive(Debug, Clone, Copy, PartialEq)]
    pub struct Inline<T, const N: usize> {
        entries: [T; N],
        count: usize,
    }

    impl<T: Copy, const N: usize> Inline<T, N> {
        pub fn new(placeholder: T) -> Self {
            Self { entries: [placeholder; N], count: 0 }
        }

        pub fn push(&mut self, entry: T) -> Result<(), ()> {
            if N == TRACK && self.count == PLOTS {
                return Err(());
            }
            *self.entries.get_mut(self.count).ok_or(())? = entry;
            self.count += 1;
            Ok(())
        }

        pub const fn len(&self) -> usize {
            self.count
        }

        pub const fn is_empty(&self) -> bool {
            self.count == 0
        }
    }

    impl<T, const N: usize> Deref for Inline<T, N> {
        type Target = [T];

        fn deref(&self) -> &[T] {
            &self.entries[..self.count]
        }
    }
}

/// The kernel's position.rs, not at hand. What is one is an offset in nautical miles, north and east.
pub mod position {
    use std::ops::Mul;

    use crate::error::KernelError;

    #[derive(Debug, Clone, Copy, PartialEq)]
    pub struct Position {
        north: f64,
        east: f64,
    }

    /// The latitude of every position: the equator, where nothing is stretched.
    pub struct Latitude;
    pub struct Longitude;

    impl Latitude {
        pub const EQUATOR: Self = Self;

        pub const fn radians(&self) -> f64 {
            0.0
        }

        absent! {
            degrees() -> f64;
        }
    }

    impl Longitude {
        pub const GREENWICH: Self = Self;

        absent! {
            degrees() -> f64;
        }
    }

    /// A difference of two offsets, by its name in degrees, which are 60 miles each.
    pub struct Difference(f64);
    pub struct Degrees(f64);

    impl Difference {
        pub const fn degrees(&self) -> Degrees {
            Degrees(self.0)
        }
    }

    /// Degrees times 60: the miles that they were made of, with no rounding.
    impl Mul<f64> for Degrees {
        type Output = f64;

        fn mul(self, miles: f64) -> f64 {
            assert_eq!(miles, 60.0);
            self.0
        }
    }

    impl Position {
        pub const fn at(north: f64, east: f64) -> Self {
            Self { north, east }
        }

        pub const fn new(_: Latitude, _: Longitude) -> Self {
            Self::at(0.0, 0.0)
        }

        pub fn from_degrees(_: f64, _: f64) -> Result<Self, KernelError> {
            unimplemented!()
        }

        pub const fn latitude(&self) -> Latitude {
            Latitude
        }

        pub const fn longitude(&self) -> Longitude {
            Longitude
        }

        /// From here to another.
        pub fn latitude_difference(&self, other: Self) -> Difference {
            Difference(other.north - self.north)
        }

        pub fn longitude_difference(&self, other: Self) -> Difference {
            Difference(other.east - self.east)
        }
    }
}

/// The kernel's time.rs, not at hand: whole seconds.
pub mod time {
    use std::marker::PhantomData;
    use std::time::Duration;

    #[derive(Debug, Clone, Copy, PartialEq)]
    pub struct Utc;

    #[derive(Debug, Clone, Copy, PartialEq)]
    pub struct Instant<Scale>(i64, PhantomData<Scale>);

    impl<Scale> Instant<Scale> {
        /// Some time, where no function in scope looks at it.
        pub const SOME: Self = Self::from_unix_seconds(0);

        pub const fn from_unix_seconds(seconds: i64) -> Self {
            Self(seconds, PhantomData)
        }

        pub fn checked_duration_since(self, earlier: Self) -> Option<Duration> {
            u64::try_from(self.0 - earlier.0).ok().map(Duration::from_secs)
        }
    }
}

/// The kernel's snapshot.rs, not at hand.
pub mod snapshot {
    use super::position::Position;
    use super::time::{Instant, Utc};
    use crate::angle::TrueCourse;
    use crate::units::Speed;

    pub struct NavigationSnapshot;
    pub struct Observed;

    #[derive(Debug, Clone, Copy, PartialEq)]
    pub struct GroundTrack {
        pub course_over_ground: TrueCourse,
        pub speed_over_ground: Speed,
    }

    impl NavigationSnapshot {
        absent! {
            position() -> Option<Observed>;
            ground_track() -> Option<GroundTrack>;
        }
    }

    impl Observed {
        absent! {
            taken_at() -> Instant<Utc>;
            value() -> &Position;
        }
    }
}

/// sailings.rs, out of scope.
pub mod sailings {
    use super::position::Position;
    use crate::angle::TrueCourse;
    use crate::error::Result;
    use crate::units::Distance;

    pub struct Sailing {
        pub initial_course: TrueCourse,
        pub distance: Distance,
    }

    pub fn rhumb_line(_: Position, _: Position) -> Result<Sailing> {
        unimplemented!()
    }

    pub fn rhumb_destination(_: Position, _: TrueCourse, _: Distance) -> Result<Position> {
        unimplemented!()
    }
}

// The traffic's lib.rs, out of scope.

pub const MAX_TARGETS: usize = 32;

pub struct Traffic<const N: usize>;

impl<const N: usize> Traffic<N> {
    absent! {
        tracks() -> &[crate::track::TargetTrack];
    }
}
