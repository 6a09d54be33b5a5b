//! Directions, in degrees. Written from document 01's leaf helpers: the Rust's own file is not at hand.

use std::marker::PhantomData;

use crate::error::Result;
use crate::math;

/// The whole fold: 0 up to 360.
pub fn wrap360(degrees: f64) -> f64 {
    let rest = degrees % 360.0;
    let turned = if rest < 0.0 { rest + 360.0 } else { rest };
    if turned == 360.0 {
        0.0
    } else {
        turned
    }
}

/// The half fold: above -180 up to 180.
pub fn wrap180(degrees: f64) -> f64 {
    let whole = wrap360(degrees);
    if whole > 180.0 {
        whole - 360.0
    } else {
        whole
    }
}

/// A side of a vessel.
#[derive(Debug, Clone, Copy, PartialEq, Eq, Hash)]
pub enum Side {
    Port,
    Starboard,
}

/// What a direction is measured from: north, or own bow.
#[derive(Debug, Clone, Copy, PartialEq)]
pub struct True;
#[derive(Debug, Clone, Copy, PartialEq)]
pub struct Bow;

#[derive(Debug, Clone, Copy, PartialEq)]
pub struct Direction<Origin>(f64, PhantomData<Origin>);

pub type TrueCourse = Direction<True>;
pub type TrueBearing = Direction<True>;
pub type RelativeBearing = Direction<Bow>;

impl<Origin> Direction<Origin> {
    pub const NORTH: Self = Self(0.0, PhantomData);

    // Only functions on tracks, which are not ported, call this.
    pub fn new(_: f64) -> Result<Self> {
        unimplemented!()
    }

    pub fn from_degrees_unchecked(degrees: f64) -> Self {
        Self(degrees, PhantomData)
    }

    pub fn from_degrees_wrapped(degrees: f64) -> Self {
        Self::from_degrees_unchecked(wrap360(degrees))
    }

    pub fn degrees(self) -> f64 {
        self.0
    }

    pub fn radians(self) -> f64 {
        math::to_radians(self.0)
    }

    /// A speed's parts, north and east.
    pub fn components(self, speed: f64) -> (f64, f64) {
        let radians = self.radians();
        (speed * math::cos(radians), speed * math::sin(radians))
    }

    pub fn reciprocal(self) -> Self {
        Self::from_degrees_wrapped(self.0 + 180.0)
    }
}
