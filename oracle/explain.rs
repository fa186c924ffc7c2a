//! Document 02, request [7], "Which cuts explain this capture?": captures, their refusal,
//! and the first list that explains one. Every list is tried, in the verdict's order;
//! where there are too many, a walk leaves out those that cannot.

use crate::cuts::{bad_pair, cable_names, Pair};
use crate::cycle::{cycle, one_slot, start, Event, Position};
use crate::plan::{refusal, Plan, Refusal};
use crate::verdict::every_list;

/// "triples slot, link, message for every crossing".
pub type Triple = (usize, usize, usize);

/// A triple "out of [...] range or order": is this one bad after the last one before it?
pub fn bad_triple(plan: &Plan, last: Option<Triple>, triple: Triple) -> bool {
    let (slot, link, message) = triple;
    let too_large =
        slot >= plan.timeout || link >= plan.links.len() || message >= plan.messages.len();
    let does_not_rise = match last {
        None => false,
        Some(last) => last >= triple, // compared by slot, then by link, then by message
    };
    too_large || does_not_rise
}

/// 23: "a triple or line out of form, range or order"; "its index". An unfinished last
/// triple is out of form.
pub fn capture_of_numbers(plan: &Plan, numbers: &[u16]) -> Result<Vec<Triple>, Refusal> {
    let mut capture = Vec::new();
    for (index, three) in numbers.chunks(3).enumerate() {
        if three.len() < 3 {
            return Err(refusal(23, index));
        }
        let triple = (three[0] as usize, three[1] as usize, three[2] as usize);
        if bad_triple(plan, capture.last().copied(), triple) {
            return Err(refusal(23, index));
        }
        capture.push(triple);
    }
    Ok(capture)
}

/// The numbers of a capture.
pub fn numbers_of_capture(capture: &[Triple]) -> Vec<u16> {
    let triples = capture.iter();
    triples.flat_map(|(slot, link, m)| [*slot as u16, *link as u16, *m as u16]).collect()
}

/// The crossings of one slot, "kinds 2 and 3", in the order of a capture.
pub fn crossings_of_slot(slot: usize, events: &[Event]) -> Vec<Triple> {
    let mut crossings: Vec<Triple> = events
        .iter()
        .enumerate()
        .filter(|(_, event)| event.kind == 2 || event.kind == 3)
        .map(|(m, event)| (slot, event.number, m))
        .collect();
    crossings.sort();
    crossings
}

/// The crossings of the replay under a list: the capture that this list gives.
pub fn crossings(plan: &Plan, list: &[Pair]) -> Vec<Triple> {
    let cycle = cycle(plan, list);
    let slots = cycle.events.iter().enumerate();
    slots.flat_map(|(slot, events)| crossings_of_slot(slot, events)).collect()
}

/// So many lists are tried one by one; where there are more, the walk goes.
const LISTS: usize = 5000;

/// "find the first cut list, in the verdict's order, whose replay has exactly these
/// crossings (kinds 2 and 3)"; nothing if it is "unexplained": "no list of at most k
/// pairs has that replay".
pub fn explaining_list(plan: &Plan, k: usize, capture: &[Triple]) -> Option<Vec<Pair>> {
    if number_of_lists(plan, k) <= LISTS {
        of_every_list(plan, k, capture)
    } else {
        by_walking(plan, k, capture, usize::MAX).unwrap()
    }
}

/// How many cut lists have at most k pairs: as many as there are ways to choose the cables
/// and a slot for each of them.
pub fn number_of_lists(plan: &Plan, k: usize) -> usize {
    let mut all = 0;
    let mut of_so_many = 1;
    let cables = cable_names(plan).len();
    for pairs in 0..=k.min(cables) {
        all += of_so_many * plan.timeout.pow(pairs as u32);
        of_so_many = of_so_many * (cables - pairs) / (pairs + 1);
    }
    all
}

/// Tries every list.
pub fn of_every_list(plan: &Plan, k: usize, capture: &[Triple]) -> Option<Vec<Pair>> {
    for pairs in 0..=k {
        let mut explaining = None;
        every_list(plan, pairs, &mut |list| {
            if crossings(plan, list) == capture {
                explaining = Some(list.to_vec());
            }
            explaining.is_none()
        });
        if explaining.is_some() {
            return explaining;
        }
    }
    None
}

/// The same by a walk over the lists that plays each slot of a beginning once. What happens
/// in a slot depends on the cuts of this slot and of earlier ones; so if the crossings
/// before the next pair's slot are not the capture's, none of the lists that go on with a
/// pair there, or later, explains it. An error if it plays more slots than `most`.
pub fn by_walking(
    plan: &Plan,
    k: usize,
    capture: &[Triple],
    most: usize,
) -> Result<Option<Vec<Pair>>, ()> {
    let mut of_slots = vec![Vec::new(); plan.timeout];
    for triple in capture {
        of_slots[triple.0].push(*triple);
    }
    let mut walk = Walk { plan, of_slots, left: most };
    for pairs in 0..=k {
        let found = walk.lists(&mut Vec::new(), pairs, 0, start(plan))?;
        if found.is_some() {
            return Ok(found);
        }
    }
    Ok(None)
}

struct Walk<'a> {
    plan: &'a Plan,
    /// The capture, slot by slot.
    of_slots: Vec<Vec<Triple>>,
    /// How many slots it may still play.
    left: usize,
}

impl Walk<'_> {
    /// Plays a slot. Nothing if its crossings are not the capture's.
    fn play(&mut self, list: &[Pair], slot: usize, positions: &[Position]) -> Result<Option<Vec<Position>>, ()> {
        self.left = self.left.checked_sub(1).ok_or(())?;
        let (next, events) = one_slot(self.plan, list, slot, positions);
        Ok(if crossings_of_slot(slot, &events) == self.of_slots[slot] { Some(next) } else { None })
    }

    /// The first explaining list that goes on from this one with so many pairs more, at
    /// this slot or later. `positions` are those at this time, and the crossings before it
    /// are the capture's.
    fn lists(
        &mut self,
        list: &mut Vec<Pair>,
        missing: usize,
        slot: usize,
        mut positions: Vec<Position>,
    ) -> Result<Option<Vec<Pair>>, ()> {
        for slot in slot..self.plan.timeout {
            for link in 0..self.plan.links.len() {
                if missing == 0 || bad_pair(self.plan, list, (slot, link)) {
                    continue;
                }
                list.push((slot, link));
                let found = self.lists(list, missing - 1, slot, positions.clone())?;
                list.pop();
                if found.is_some() {
                    return Ok(found);
                }
            }
            match self.play(list, slot, &positions)? {
                None => return Ok(None),
                Some(next) => positions = next,
            }
        }
        Ok(if missing == 0 { Some(list.clone()) } else { None })
    }
}
