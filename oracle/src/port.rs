//! The port's functions, through their C exports. Each takes every value, so that each call is safe.

macro_rules! exports {
    ($($rust:ident = $c:ident ( $($arg:ident : $ty:ty),* ) -> $out:ty;)*) => {
        extern "C" { $(fn $c($($arg: $ty),*) -> $out;)* }
        $(
            #[inline]
            #[allow(clippy::too_many_arguments)]
            pub fn $rust($($arg: $ty),*) -> $out {
                // SAFETY: the function is proved for every argument, and keeps nothing.
                unsafe { $c($($arg),*) }
            }
        )*
    };
}

exports! {
    sqrt = port_sqrt(x: f64) -> f64;
    hypot = port_hypot(x: f64, y: f64) -> f64;
    sin = port_sin(x: f64) -> f64;
    cos = port_cos(x: f64) -> f64;
    asin = port_asin(x: f64) -> f64;
    atan2 = port_atan2(y: f64, x: f64) -> f64;
    trunc = port_trunc(x: f64) -> f64;
    round = port_round(x: f64) -> f64;
    ceil = port_ceil(x: f64) -> f64;
    to_radians = port_to_radians(x: f64) -> f64;
    wrap360 = port_wrap360(x: f64) -> f64;
    wrap180 = port_wrap180(x: f64) -> f64;
    reciprocal = port_reciprocal(x: f64) -> f64;
    is_effectively_zero = port_is_effectively_zero(value: f64, scale: f64) -> bool;
    round_to_i32 = port_round_to_i32(x: f64) -> i32;
    to_usize = port_to_usize(x: f64) -> usize;
    time_kind = port_time_kind(seconds: f64) -> u32;
    time_secs = port_time_secs(seconds: f64) -> u64;
    time_nanos = port_time_nanos(seconds: f64) -> u32;
    hours_secs = port_hours_secs(hours: f64) -> u64;
    hours_nanos = port_hours_nanos(hours: f64) -> u32;
    hours = port_hours(secs: u64, nanos: u32) -> f64;
    is_before = port_is_before(secs: u64, nanos: u32, other_secs: u64, other_nanos: u32) -> bool;
}

/// The words of an export's arguments before the contacts, and those of each contact (docs/COMPARISON.md).
const BEFORE: usize = 20;
const EACH: usize = 7;

/// The words of one contact's arguments, and of two.
const ONE: usize = BEFORE + EACH;
const TWO: usize = ONE + EACH;

macro_rules! words_exports {
    ($($name:ident)*) => {
        extern "C" { $(fn $name(part: u32, words: *const u64, len: usize) -> u64;)* }

        /// The exports that take words, in the order of their numbers in the records.
        const EXPORTS: &[fn(u32, &[u64]) -> u64] = &[
            // SAFETY: each function is proved for every argument, reads the words alone and keeps nothing.
            $(|part, words| unsafe { $name(part, words.as_ptr(), words.len()) }),*
        ];
    };
}

words_exports! {
    port_closest_point_of_approach port_approach_distance port_target_from_plot port_bow_crossing_range port_course_for_cpa
    port_relative_bearing_of port_rule_of_the_road port_precedence port_assess port_avoid port_search port_ruled_search port_collision_picture
    port_slowing_search port_trial_count port_trial port_window port_fit
}

/// A call of an export: its number in the records, and its arguments.
#[derive(Clone)]
pub struct Call<W> {
    pub which: usize,
    pub words: W,
}

impl<W: AsRef<[u64]>> Call<W> {
    /// One word of the answer.
    #[inline]
    pub fn part(&self, part: u32) -> u64 {
        EXPORTS[self.which](part, self.words.as_ref())
    }
}

/// A call of one of the first six, which have room for a second plot, and of one of those on one contact.
pub type Encounter = Call<[u64; TWO]>;
pub type Contact = Call<[u64; ONE]>;

/// Own course and speed, and a contact's bearing, range, course and speed.
#[inline]
fn encounter<const N: usize>(own: [f64; 2], contact: [f64; 4]) -> [u64; N] {
    let mut words = [0; N];
    for (word, x) in words.iter_mut().zip(own) {
        *word = x.to_bits();
    }
    for (word, x) in words[BEFORE..].iter_mut().zip(contact) {
        *word = x.to_bits();
    }
    words
}

pub fn cpa(own: [f64; 2], contact: [f64; 4]) -> Encounter {
    Call { which: 0, words: encounter(own, contact) }
}

pub fn approach_distance(own: [f64; 2], contact: [f64; 4]) -> Encounter {
    Call { which: 1, words: encounter(own, contact) }
}

/// Bearing and range at either plot, and the time between them.
pub fn plot(own: [f64; 2], first: [f64; 2], second: [f64; 2], secs: u64, nanos: u32) -> Encounter {
    let mut words: [u64; TWO] = encounter(own, [first[0], first[1], 0.0, 0.0]);
    [words[15], words[16]] = [secs, u64::from(nanos)];
    [words[ONE], words[ONE + 1]] = second.map(f64::to_bits);
    Call { which: 2, words }
}

pub fn bow(own: [f64; 2], contact: [f64; 4]) -> Encounter {
    Call { which: 3, words: encounter(own, contact) }
}

pub fn course(own: [f64; 2], contact: [f64; 4], desired: f64) -> Encounter {
    let mut words: [u64; TWO] = encounter(own, contact);
    words[8] = desired.to_bits();
    Call { which: 4, words }
}

pub fn bearing(own: [f64; 2], bearing: f64, range: f64) -> Encounter {
    Call { which: 5, words: encounter(own, [bearing, range, 0.0, 0.0]) }
}

/// A category's code, and a heading if it is known.
pub type Kind = (u32, Option<f64>);

/// Whether a direction is known, and it.
fn optional(x: Option<f64>) -> [u64; 2] {
    [u64::from(x.is_some()), x.unwrap_or(f64::NAN).to_bits()]
}

/// Category and heading, visibility and wind of own craft's words.
fn set_around(words: &mut [u64], (category, heading): Kind, restricted: bool, wind: Option<f64>) {
    words[2] = u64::from(category);
    [words[3], words[4]] = optional(heading);
    words[5] = u64::from(restricted);
    [words[6], words[7]] = optional(wind);
}

pub fn ruling(own: [f64; 2], contact: [f64; 4], kinds: [Kind; 2], restricted: bool, wind: Option<f64>, widths: [f64; 2]) -> Contact {
    let mut words: [u64; ONE] = encounter(own, contact);
    set_around(&mut words, kinds[0], restricted, wind);
    words[24] = u64::from(kinds[1].0);
    [words[25], words[26]] = optional(kinds[1].1);
    [words[17], words[18]] = widths.map(f64::to_bits);
    Call { which: 6, words }
}

pub fn precedence(code: u32) -> Contact {
    let mut words = [0; ONE];
    words[2] = u64::from(code);
    Call { which: 7, words }
}

pub fn assess(own: [f64; 2], contact: [f64; 4], limit: f64, secs: u64, nanos: u32) -> Contact {
    let mut words: [u64; ONE] = encounter(own, contact);
    [words[14], words[15], words[16]] = [limit.to_bits(), secs, u64::from(nanos)];
    Call { which: 8, words }
}

/// Desired distance, least and most alteration, rate of turn, and the code of the sides.
pub type Turn = (f64, f64, f64, Option<f64>, u32);

fn set_turn(words: &mut [u64], (desired, least, most, rate, sides): Turn) {
    [words[8], words[9], words[10]] = [desired, least, most].map(f64::to_bits);
    [words[11], words[12]] = optional(rate);
    words[13] = u64::from(sides);
}

pub fn avoid(own: [f64; 2], contact: [f64; 4], turn: Turn) -> Contact {
    let mut words: [u64; ONE] = encounter(own, contact);
    set_turn(&mut words, turn);
    Call { which: 9, words }
}

/// Own craft's words, and those of contacts, each with a category's code and a heading.
fn traffic(own: [f64; 2], contacts: impl Iterator<Item = ([f64; 4], Kind)>) -> Vec<u64> {
    let mut words = encounter::<BEFORE>(own, [0.0; 4]).to_vec();
    for (contact, (category, heading)) in contacts {
        words.extend(contact.map(f64::to_bits));
        words.push(u64::from(category));
        words.extend(optional(heading));
    }
    words
}

pub fn search(own: [f64; 2], contacts: impl Iterator<Item = [f64; 4]>, turn: Turn) -> Call<Vec<u64>> {
    let mut words = traffic(own, contacts.map(|contact| (contact, (0, None))));
    set_turn(&mut words, turn);
    Call { which: 10, words }
}

pub fn ruled(own: [f64; 2], contacts: impl Iterator<Item = ([f64; 4], Kind)>, kind: Kind, restricted: bool, wind: Option<f64>, turn: Turn) -> Call<Vec<u64>> {
    let mut words = traffic(own, contacts);
    set_around(&mut words, kind, restricted, wind);
    set_turn(&mut words, turn);
    Call { which: 11, words }
}

pub fn picture(own: [f64; 2], contacts: impl Iterator<Item = [f64; 4]>, limit: f64, secs: u64) -> Call<Vec<u64>> {
    let mut words = traffic(own, contacts.map(|contact| (contact, (0, None))));
    [words[14], words[15]] = [limit.to_bits(), secs];
    Call { which: 12, words }
}

/// The slowing search, which takes the words of the ruled search.
pub fn slowing(ruled: Call<Vec<u64>>) -> Call<Vec<u64>> {
    Call { which: 13, words: ruled.words }
}

/// The trial list between two alterations: how many trials there are, and one of them.
pub type Listed = Call<[u64; BEFORE]>;

#[inline]
fn listed(which: usize, least: f64, most: f64, k: u64) -> Listed {
    let mut words = [0; BEFORE];
    [words[9], words[10], words[19]] = [least.to_bits(), most.to_bits(), k];
    Call { which, words }
}

pub fn trial_count(least: f64, most: f64) -> Listed {
    listed(14, least, most, 0)
}

pub fn trial(least: f64, most: f64, k: u64) -> Listed {
    listed(15, least, most, k)
}

/// A run of plots, three words each, that is handed to an empty window: what the window then holds, and the motion that is fitted.
fn plotted(which: usize, plots: &[(f64, f64, i64)]) -> Call<Vec<u64>> {
    let words = plots.iter().flat_map(|&(north, east, second)| [north.to_bits(), east.to_bits(), second as u64]).collect();
    Call { which, words }
}

pub fn window(plots: &[(f64, f64, i64)]) -> Call<Vec<u64>> {
    plotted(16, plots)
}

pub fn fit(plots: &[(f64, f64, i64)]) -> Call<Vec<u64>> {
    plotted(17, plots)
}

extern "C" {
    fn encounter_report(sheet: *const u8, len: usize, out: *mut u8, out_len: usize) -> usize;
}

/// The report on a sheet, written into `out`: how many bytes, or 0 where there is no room.
pub fn report(sheet: &[u8], out: &mut [u8]) -> usize {
    // SAFETY: the function is proved for every argument, reads the sheet alone, writes into `out` alone and keeps nothing.
    unsafe { encounter_report(sheet.as_ptr(), sheet.len(), out.as_mut_ptr(), out.len()) }
}
