//! The promises about every replay, tried on random plans and cut lists: arrival by
//! s + D (document 00, demand 3), the untouched message (document 01, "Also to be
//! proved"), and all arrivals where nothing is cut. Cuts are those of cables (document 02, [3]).

use crate::cuts::{is_cut, Pair};
use crate::cycle::{cycle, Cycle};
use crate::plan::Plan;
use crate::cases::plan_and_cuts;
use crate::slack::{d, slack_of};

#[derive(Default)]
pub struct Counts {
    pub replays: u64,
    pub messages: u64,
    /// Messages that left their first path.
    pub diverted: u64,
    /// ... with the second path whole until arrival or until t.
    pub whole: u64,
    /// ... and s + D at most t: the premise of demand 3.
    pub bound_in_time: u64,
    /// ... and arrived at s + D exactly.
    pub bound_met_exactly: u64,
    /// Second path whole and slack 0 or more.
    pub slack_not_negative: u64,
    /// Second path whole, slack below 0, and yet in time.
    pub negative_slack_in_time: u64,
    /// Messages no cable of whose first path is cut at or before its slot there, in
    /// replays with cuts.
    pub untouched: u64,
    pub untouched_though_others_diverted: u64,
    /// Messages that are touched by other ways of the links that are named, and by none of these; and
    /// those of them whose events are not those of the replay without cuts.
    pub touched_by_other_way: u64,
    pub changed_by_other_way: u64,
    /// Messages that left their first path, with only other ways of the named links on the second one
    /// and s + D at most t; and those of them that are not there by then.
    pub cut_by_other_way: u64,
    pub late_by_other_way: u64,
}

/// Checks one plan under one cut list.
pub fn check(plan: &Plan, cuts: &[Pair], counts: &mut Counts) -> Result<(), String> {
    counts.replays += 1;
    let without_cuts = cycle(plan, &[]);
    if without_cuts.arrivals != plan.messages.len() {
        return Err(String::from("without cuts, not all messages arrive"));
    }
    let with_cuts = cycle(plan, cuts);
    let any_diverted = (0..plan.messages.len()).any(|m| turning_slot(&with_cuts, m).is_some());
    for m in 0..plan.messages.len() {
        counts.messages += 1;
        check_untouched(plan, cuts, &without_cuts, &with_cuts, m, any_diverted, counts)?;
        check_arrival(plan, cuts, &with_cuts, m, counts)?;
    }
    Ok(())
}

/// "if no link of a message's first path is cut at or before its slot there, that
/// message's events are those of the replay without cuts, whatever else is cut." [3]: "the rule on
/// untouched first paths read[s] cuts in this sense".
fn check_untouched(
    plan: &Plan,
    cuts: &[Pair],
    without_cuts: &Cycle,
    with_cuts: &Cycle,
    m: usize,
    any_diverted: bool,
    counts: &mut Counts,
) -> Result<(), String> {
    let touched = plan.messages[m].places.iter().any(|place| is_cut(plan, cuts, place.slot, place.link));
    if touched {
        let named = plan.messages[m].places.iter().any(|place| is_named(cuts, place.slot, place.link));
        if !named {
            let mut slots = without_cuts.events.iter().zip(&with_cuts.events);
            counts.touched_by_other_way += 1;
            counts.changed_by_other_way += u64::from(slots.any(|(one, other)| one[m] != other[m]));
        }
        return Ok(());
    }
    if cuts.is_empty() {
        return Ok(());
    }
    counts.untouched += 1;
    if any_diverted {
        counts.untouched_though_others_diverted += 1;
    }
    for slot in 0..plan.timeout {
        if without_cuts.events[slot][m] != with_cuts.events[slot][m] {
            return Err(format!("message {} is untouched and yet changed in slot {}", m, slot));
        }
    }
    Ok(())
}

/// Whether a pair names this very link at or before this slot: document 01's sense of a cut.
fn is_named(cuts: &[Pair], slot: usize, link: usize) -> bool {
    cuts.iter().any(|(from_slot, named)| *named == link && *from_slot <= slot)
}

/// The slot in which a message leaves its first path, if it does: its first event of
/// kind 3, 4, 5 or 7.
fn turning_slot(cycle: &Cycle, m: usize) -> Option<usize> {
    cycle.events.iter().position(|events| matches!(events[m].kind, 3 | 4 | 5 | 7))
}

/// The time at which a message is first at its target, if it is there at time t.
fn arrival_time(plan: &Plan, cycle: &Cycle, m: usize) -> Option<usize> {
    if !cycle.at_target[m] {
        return None;
    }
    Some(cycle.events.iter().position(|events| events[m].kind == 0).unwrap_or(plan.timeout))
}

/// "Suppose a message leaves its first path in slot s and no link of its second path
/// is cut before it arrives. [...] Then it arrives by time s + D if that is within the
/// timeout, however many other links are cut." [3]: "demand 3's premise becomes that no cable of the
/// second path is cut before arrival".
fn check_arrival(
    plan: &Plan,
    cuts: &[Pair],
    cycle: &Cycle,
    m: usize,
    counts: &mut Counts,
) -> Result<(), String> {
    let s = match turning_slot(cycle, m) {
        None => return Ok(()),
        Some(s) => s,
    };
    counts.diverted += 1;
    let place = cycle.events[..s].iter().filter(|events| events[m].kind == 2).count();
    let second = plan.messages[m].places[place].second.as_ref().unwrap();
    let arrival = arrival_time(plan, cycle, m);
    // In the slots s to arrival - 1; where it does not arrive, s to t - 1.
    let last_slot = arrival.unwrap_or(plan.timeout) - 1;
    let bound = s + d(plan, m, second);
    if second.iter().any(|link| is_cut(plan, cuts, last_slot, *link)) {
        let named = second.iter().any(|link| is_named(cuts, last_slot, *link));
        if !named && bound <= plan.timeout {
            counts.cut_by_other_way += 1;
            counts.late_by_other_way += u64::from(!arrival.is_some_and(|time| time <= bound));
        }
        return Ok(());
    }
    counts.whole += 1;
    if bound <= plan.timeout {
        counts.bound_in_time += 1;
        match arrival {
            Some(time) if time <= bound => {
                if time == bound {
                    counts.bound_met_exactly += 1;
                }
            }
            _ => return Err(format!("message {} should be there by time {}", m, bound)),
        }
    }
    // "slack 0 or more, with the second path whole until arrival, means arrival in time".
    if slack_of(plan, m, place).unwrap() >= 0 {
        counts.slack_not_negative += 1;
        if arrival.is_none() {
            return Err(format!("message {} has slack 0 or more and is late", m));
        }
    } else if arrival.is_some() {
        counts.negative_slack_in_time += 1;
    }
    Ok(())
}

/// Tries all cases of a seed.
pub fn theorem(seed: u64, number: u64) -> Result<Counts, String> {
    let mut counts = Counts::default();
    for case in 0..number {
        let (plan, cuts) = plan_and_cuts(seed, case);
        check(&plan, &cuts, &mut counts)
            .map_err(|text| format!("seed {} case {}: {}\n{:?}\n{:?}", seed, case, text, cuts, plan))?;
    }
    Ok(counts)
}
