//! A child module of the listed avoidance.rs, and so one that may use its private `search`, `clears` and `ALTERATION_STEP_DEG`.

use super::{clears, math, search, AvoidanceManoeuvre, Encounter, ManoeuvreConstraints, ALTERATION_STEP_DEG};
use crate::error::Result;
use crate::event::TargetId;
use crate::relative_motion::{Contact, Vessel};
use crate::units::Distance;

/// A list as both take it. A target's id is its place in the list.
fn encounters(list: &[(Contact, Vessel)]) -> Vec<Encounter> {
    let entry = |(place, &(contact, vessel))| Encounter { target: Some(TargetId::new(place)), contact, vessel };
    list.iter().enumerate().map(entry).collect()
}

/// `search` over a list, without seeds.
pub fn searched(
    own: Vessel,
    list: &[(Contact, Vessel)],
    desired: Distance,
    constraints: &ManoeuvreConstraints,
) -> Result<AvoidanceManoeuvre> {
    search(own, &encounters(list), desired, constraints, [None, None])
}

/// `clears` over a list, for own craft at any course and speed and any alteration: the passing distance and the limiting target.
pub fn clearing(list: &[(Contact, Vessel)], desired: Distance) -> impl Fn(Vessel, f64) -> Option<(Distance, Option<TargetId>)> {
    let encounters = encounters(list);
    move |own, alteration| clears(own, alteration, &encounters, desired)
}

/// The last step of `search`'s list, by the words of its lines.
pub fn steps(least: f64, most: f64) -> usize {
    math::to_usize((most - least) / ALTERATION_STEP_DEG)
}

/// A step's alteration, likewise.
pub fn trial(least: f64, most: f64, step: usize) -> f64 {
    (least + math::count_to_f64(step) * ALTERATION_STEP_DEG).min(most)
}
