//! The ruling with request R-2, Rule 12(a)(iii): the listed `rule_of_the_road`, but where it leaves own craft undetermined by Rule 12,
//! she is on the port tack, the target's tack is unknown, and the target lies to windward. There it is what the listed function says with
//! the target on the starboard tack, which has to be what the rule's text says: that own craft keeps out of the way.

use crate::angle::{wrap180, wrap360};
use crate::colregs::{self, Party};
use crate::error::Result;
use crate::{ColregsConfig, Responsibility, Ruling, Situation, Tack, VesselCategory};

/// 'The target's bearing less the wind's `reciprocal`, half folded, is 90 degrees or more in magnitude.'
fn is_to_windward(situation: &Situation) -> bool {
    situation.wind_from().is_some_and(|wind| {
        let reciprocal = wrap360(wind.degrees() + 180.0);
        wrap180(situation.contact().bearing.degrees() - reciprocal).abs() >= 90.0
    })
}

fn is_by_rule_12(ruling: &Ruling, responsibility: Responsibility) -> bool {
    ruling.rule().to_string() == "Rule 12" && ruling.responsibility() == responsibility
}

/// Whether the request changes the ruling on a situation.
pub fn is_changed(situation: &Situation, listed: &Ruling) -> bool {
    is_by_rule_12(listed, Responsibility::Undetermined)
        && situation.own().category() == VesselCategory::Sailing { tack: Some(Tack::Port) }
        && situation.target().category() == VesselCategory::Sailing { tack: None }
        && is_to_windward(situation)
}

pub fn rule_of_the_road(situation: &Situation, config: &ColregsConfig) -> Result<Ruling> {
    let listed = colregs::rule_of_the_road(situation, config)?;
    if !is_changed(situation, &listed) {
        return Ok(listed);
    }
    let target = situation.target();
    let on_starboard_tack =
        Party::new(target.motion(), VesselCategory::Sailing { tack: Some(Tack::Starboard) }).with_heading(target.heading());
    let other = Situation::new(situation.own(), on_starboard_tack, situation.contact(), situation.visibility());
    let other = situation.wind_from().map_or(other, |wind| other.with_wind_from(wind));
    let ruling = colregs::rule_of_the_road(&other, config)?;
    assert!(is_by_rule_12(&ruling, Responsibility::GiveWay), "Rule 12(a)(iii) against the listed ruling with the target on the starboard tack");
    assert_eq!(ruling.manoeuvre(), listed.manoeuvre(), "Rule 12(a)(iii) changes what is permitted");
    Ok(ruling)
}
