//! Document 01, "Spare slots of a second path".

use crate::plan::Plan;

/// "a(e) is the number of entries that the whole table has on e, m's own included".
pub fn a(plan: &Plan, e: usize) -> usize {
    let entries = plan.messages.iter().flat_map(|message| &message.places);
    entries.filter(|place| place.link == e).count()
}

/// "b(m, e) the number of messages lower than m with at least one second path
/// through e".
pub fn b(plan: &Plan, m: usize, e: usize) -> usize {
    let lower = plan.messages[..m].iter();
    lower
        .filter(|message| {
            message.places.iter().any(|place| match &place.second {
                None => false,
                Some(second) => second.contains(&e),
            })
        })
        .count()
}

/// "D is the sum over that path's links e of 1 + a(e) + b(m, e)."
pub fn d(plan: &Plan, m: usize, second: &[usize]) -> usize {
    second.iter().map(|e| 1 + a(plan, *e) + b(plan, m, *e)).sum()
}

/// "The slack is t less the slot of that place less D." Nothing if there is "no
/// such message, place or second path".
pub fn slack_of(plan: &Plan, m: usize, place: usize) -> Option<i32> {
    let place = plan.messages.get(m)?.places.get(place)?;
    let second = place.second.as_ref()?;
    Some(plan.timeout as i32 - place.slot as i32 - d(plan, m, second) as i32)
}
