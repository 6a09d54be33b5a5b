//! The kernel's errors as far as the listed files name them, and beside them those of the listed error.rs, which stands as
//! `navigation_error`. Written from their use and document 01: the kernel's own file is not at hand.

use std::{error, fmt, result};

pub use crate::navigation_error::*;

#[derive(Debug, Clone, PartialEq)]
pub enum KernelError {
    OutOfRange { what: &'static str },
    Indeterminate { quantity: &'static str },
    Missing { what: &'static str },
    Unrepresentable { what: &'static str },
}

impl fmt::Display for KernelError {
    fn fmt(&self, f: &mut fmt::Formatter<'_>) -> fmt::Result {
        fmt::Debug::fmt(self, f)
    }
}

impl error::Error for KernelError {}

/// Both ends are included, NaN is refused.
pub fn ensure_range(what: &'static str, value: f64, low: f64, high: f64) -> result::Result<f64, KernelError> {
    if (low..=high).contains(&value) {
        Ok(value)
    } else {
        Err(KernelError::OutOfRange { what })
    }
}

// Passed on by the listed error.rs, and called by nothing here.
pub fn ensure_finite() {}
pub struct Excerpt;
pub const EXCERPT_BYTES: usize = 0;
