//! A child module of the listed assessment.rs, and so one that may make a `CollisionPicture`.

use super::{CollisionAssessment, CollisionPicture, TargetAssessment};
use crate::event::TargetId;
use crate::inline::Inline;
use crate::time::Instant;

/// A picture of assessments with the numbers of their targets, in their order; none of none.
pub fn picture<const N: usize>(list: &[(usize, CollisionAssessment)]) -> Option<CollisionPicture<N>> {
    let entry = |&(number, assessment): &(usize, CollisionAssessment)| TargetAssessment { target: TargetId::new(number), assessment };
    let mut targets = Inline::new(entry(list.first()?));
    for listed in list {
        targets.push(entry(listed)).ok()?;
    }
    Some(CollisionPicture { at: Instant::SOME, targets })
}
