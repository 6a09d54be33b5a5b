//! What the three-dimensional part of relative_motion.rs, which is not ported, needs in order to compile.

use std::marker::PhantomData;
use std::time::Duration;

use crate::angle::TrueBearing;
use crate::units::{Distance, Speed};

#[derive(Debug, Clone, Copy, PartialEq)]
pub struct Ned;

#[derive(Debug, Clone, Copy, PartialEq)]
pub struct Vector3<Frame, T>(PhantomData<(Frame, T)>);

#[derive(Debug, Clone, Copy, PartialEq)]
pub struct Kinematics3<Frame>(PhantomData<Frame>);

/// Methods that are never called.
macro_rules! absent {
    ($($name:ident($($arg:ty),*) -> $out:ty;)*) => {
        $(pub fn $name(&self $(, _: $arg)*) -> $out {
            unimplemented!()
        })*
    };
}

impl<Frame, T> Vector3<Frame, T> {
    absent! {
        components() -> [T; 3];
        down() -> T;
        magnitude() -> Distance;
        horizontal_magnitude() -> Distance;
        horizontal_direction() -> Option<TrueBearing>;
    }
}

impl<Frame> Kinematics3<Frame> {
    absent! {
        relative_to(&Self) -> Self;
        after(Duration) -> Self;
        position() -> Vector3<Frame, Distance>;
        velocity() -> Vector3<Frame, Speed>;
    }
}
