// The root of a crate that holds the listed Rust, which names its parts from there. Two crates include it: the program, where
// `sin` and the other elementary functions at the root are the port's, and `kinavis_std`, where they are the standard library's.

// The parts of kinavis and of the kernel stand at the root too, and so does what math.rs takes from `libm`.
extern crate self as kinavis;
extern crate self as kinavis_kernel;
extern crate self as libm;

#[allow(dead_code)]
pub mod angle;
pub mod calls;
#[allow(dead_code)]
pub mod checks;
#[allow(dead_code)]
pub mod error;
#[allow(dead_code)]
pub mod local;
#[allow(dead_code)]
pub mod outside;
#[allow(dead_code)]
pub mod sheet;
pub mod slowing_calls;
pub mod to_windward;
pub mod track_calls;
pub mod traffic_calls;
#[allow(dead_code)]
pub mod units;

include!(concat!(env!("OUT_DIR"), "/listed.rs"));

// What rules.rs takes from the root of its own crate.
pub use colregs::{
    ColregsConfig, Encounter, PermittedManoeuvre, Responsibility, Rule, Ruling, Situation, Tack, VesselCategory, Visibility,
};

// What assessment.rs, avoidance.rs and track.rs take from the roots of the kernel, of kinavis and of their own crate.
pub use outside::{event, inline, position, sailings, snapshot, time, Traffic, MAX_TARGETS};

/// Functions under libm's names that the standard library answers.
macro_rules! of_std {
    ($($libm:ident = $std:ident($($x:ident),*);)*) => {
        $(#[inline]
        fn $libm($($x: f64),*) -> f64 {
            f64::$std($($x),*)
        })*
    };
}

of_std! {
    fabs = abs(x);
    copysign = copysign(x, sign);
    tan = tan(x);
    atan = atan(x);
    acos = acos(x);
    log = ln(x);
    exp = exp(x);
    round = round(x);
    ceil = ceil(x);
    trunc = trunc(x);
    sinh = sinh(x);
    cosh = cosh(x);
    tanh = tanh(x);
    asinh = asinh(x);
    atanh = atanh(x);
}
