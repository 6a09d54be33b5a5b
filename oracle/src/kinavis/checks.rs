//! Document 01's argument checks: what is accepted, and the numbers of refusals.

/// What an argument is, with the number that refuses a bad one. Elapsed time is two words, the last ones.
#[derive(Clone, Copy, PartialEq)]
pub enum Kind {
    Direction = 1,
    Speed = 2,
    Distance = 3,
    Elapsed = 6,
    /// An angle of a config.
    Width = 12,
}
use Kind::{Direction, Distance, Elapsed, Speed, Width};

/// The number of refused constraints, and of too many contacts.
pub const CONSTRAINTS: u64 = 4;
pub const COUNT: u64 = 14;

/// The most contacts that are accepted.
pub const MAX_CONTACTS: usize = 32;

/// The longest time that is accepted, in seconds.
pub const LONGEST: u64 = 1 << 53;

pub fn is_accepted(kind: Kind, words: &[u64]) -> bool {
    let x = f64::from_bits(words[0]);
    match kind {
        Direction => (0.0..360.0).contains(&x),
        Speed => (0.0..=1000.0).contains(&x),
        Distance => (0.0..=10_000.0).contains(&x),
        Elapsed => words[1] < 1_000_000_000 && (words[0], words[1]) <= (LONGEST, 0),
        Width => (0.0..=90.0).contains(&x),
    }
}

/// The first of some arguments that is bad gives its number.
pub fn first_bad(arguments: impl IntoIterator<Item = (Kind, f64)>) -> Option<u64> {
    arguments.into_iter().find(|(kind, x)| !is_accepted(*kind, &[x.to_bits()])).map(|(kind, _)| kind as u64)
}
