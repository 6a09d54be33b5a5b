//! Distances, speeds, angles and times. Written from document 01's leaf helpers: the Rust's own file is not at hand.

use std::ops::Neg;
use std::time::Duration;

use crate::error::{KernelError, NavigationError, Result};

/// A number with a unit: how it is made and read.
macro_rules! unit {
    ($name:ident, $from:ident, $read:ident) => {
        #[derive(Debug, Clone, Copy, PartialEq, PartialOrd)]
        pub struct $name(f64);

        impl $name {
            pub const ZERO: Self = Self(0.0);

            pub const fn $from(x: f64) -> Self {
                Self(x)
            }

            pub const fn $read(self) -> f64 {
                self.0
            }
        }
    };
}

unit!(Distance, from_nautical_miles_unchecked, nautical_miles);
unit!(Speed, from_knots_unchecked, knots);
unit!(Angle, from_degrees_unchecked, degrees);
unit!(RateOfTurn, from_degrees_per_minute_unchecked, degrees_per_minute);

/// What isn't finite is refused.
fn finite(x: f64, what: &'static str) -> Result<f64> {
    if x.is_finite() {
        Ok(x)
    } else {
        Err(NavigationError::Kernel(KernelError::OutOfRange { what }))
    }
}

impl Angle {
    pub fn from_degrees(degrees: f64) -> Result<Self> {
        finite(degrees, "an angle").map(Self)
    }
}

impl RateOfTurn {
    pub fn from_degrees_per_minute(rate: f64) -> Result<Self> {
        finite(rate, "a rate of turn").map(Self)
    }

    pub fn abs(self) -> Self {
        Self(self.0.abs())
    }
}

pub fn hours(time: Duration) -> f64 {
    (time.as_secs() as f64 + f64::from(time.subsec_nanos()) / 1e9) / 3600.0
}

pub fn duration_from_hours(hours: f64) -> Result<Duration> {
    Ok(Duration::try_from_secs_f64(hours * 3600.0).map_err(|_| KernelError::Unrepresentable { what: "a time" })?)
}

impl Distance {
    pub fn from_nautical_miles(miles: f64) -> Result<Self> {
        finite(miles, "a distance").map(Self)
    }
}

// Only the three-dimensional part, which is not ported, calls what follows.

impl Distance {
    pub fn metres(self) -> f64 {
        unimplemented!()
    }
}

impl Speed {
    pub fn metres_per_second(self) -> f64 {
        unimplemented!()
    }
}

impl Neg for Distance {
    type Output = Self;

    fn neg(self) -> Self {
        unimplemented!()
    }
}
