//! Document 01, "One slot": positions, events, one slot, the cycle.

use crate::cuts::{is_cut, Pair};
use crate::plan::Plan;

/// Where a message is: on its first path, with the next place (or, after the last
/// one, as many as there are places: at its target), or on the second path of a
/// place, with as many of its links crossed.
#[derive(Clone, Copy, PartialEq, Debug)]
pub enum Position {
    First { place: usize },
    Second { place: usize, crossed: usize },
}

/// "each message has one event: a kind and a number".
#[derive(Clone, Copy, PartialEq, Debug)]
pub struct Event {
    pub kind: usize,
    pub number: usize,
}

/// One cycle as it went.
pub struct Cycle {
    /// "slot by slot, message by message".
    pub events: Vec<Vec<Event>>,
    /// For each message, whether it is at its target at time t.
    pub at_target: Vec<bool>,
    /// "the number of messages at their targets at time t".
    pub arrivals: usize,
}

fn second_path(plan: &Plan, m: usize, place: usize) -> &[usize] {
    plan.messages[m].places[place].second.as_ref().unwrap()
}

/// "A message starts where its first path begins."
pub fn start(plan: &Plan) -> Vec<Position> {
    plan.messages.iter().map(|_| Position::First { place: 0 }).collect()
}

/// A first path and every second path end at the target and meet it only there.
pub fn at_target(plan: &Plan, m: usize, position: Position) -> bool {
    match position {
        Position::First { place } => place == plan.messages[m].places.len(),
        Position::Second { place, crossed } => crossed == second_path(plan, m, place).len(),
    }
}

/// "the table gives that link and slot to a message": which one?
/// "A link given by the table is not free even if its owner has been diverted, is
/// stopped, or is the trying message itself."
pub fn table(plan: &Plan, slot: usize, link: usize) -> Option<usize> {
    plan.messages.iter().position(|message| {
        message.places.iter().any(|place| place.link == link && place.slot == slot)
    })
}

/// "A message on its first path whose next link is cut turns to the second path of
/// that place in that same slot, and never returns."
fn turned(plan: &Plan, cuts: &[Pair], slot: usize, m: usize, position: Position) -> Position {
    if let Position::First { place } = position {
        if !at_target(plan, m, position) {
            let next = &plan.messages[m].places[place];
            if is_cut(plan, cuts, slot, next.link) && next.second.is_some() {
                return Position::Second { place, crossed: 0 };
            }
        }
    }
    position
}

/// "It tries the next link of that path if that link is whole."
fn tries(plan: &Plan, cuts: &[Pair], slot: usize, m: usize, position: Position) -> Option<usize> {
    if let Position::Second { place, crossed } = position {
        if !at_target(plan, m, position) {
            let next = second_path(plan, m, place)[crossed];
            if !is_cut(plan, cuts, slot, next) {
                return Some(next);
            }
        }
    }
    None
}

/// "Each slot takes a message's position and gives its next position." Message m
/// has turned already if it turns in this slot; `tried` has for each message the
/// link that it tries in this slot, if any.
fn step(
    plan: &Plan,
    cuts: &[Pair],
    slot: usize,
    m: usize,
    position: Position,
    tried: &[Option<usize>],
) -> (Position, Event) {
    let stays = |kind, number| (position, Event { kind, number });
    if at_target(plan, m, position) {
        return stays(0, 0); // "at its target already"
    }
    match position {
        Position::First { place } => {
            let next = &plan.messages[m].places[place];
            if is_cut(plan, cuts, slot, next.link) {
                // "first path's next link cut, no second path here: stays"
                stays(6, next.link)
            } else if next.slot == slot {
                // "on the first path, next link whole, its own slot: crosses"
                (Position::First { place: place + 1 }, Event { kind: 2, number: next.link })
            } else {
                // "on the first path, next link whole, slot not its own: waits"
                stays(1, next.link)
            }
        }
        Position::Second { place, crossed } => {
            let next = second_path(plan, m, place)[crossed];
            // "Tests go in the order 7, 4, 5, 3."
            if is_cut(plan, cuts, slot, next) {
                // "next link of the second path cut: stays"
                return stays(7, next);
            }
            if let Some(owner) = table(plan, slot, next) {
                // "held: the table gives that link and slot to a message"
                return stays(4, owner);
            }
            if let Some(lowest) = (0..m).find(|lower| tried[*lower] == Some(next)) {
                // "held: a lower message also tries the link"; "lowest one that tries it"
                return stays(5, lowest);
            }
            // "crosses a link of its second path"
            let position = Position::Second { place, crossed: crossed + 1 };
            (position, Event { kind: 3, number: next })
        }
    }
}

/// "What happens in slot i leads from time i to time i + 1."
pub fn one_slot(
    plan: &Plan,
    cuts: &[Pair],
    slot: usize,
    positions: &[Position],
) -> (Vec<Position>, Vec<Event>) {
    let messages = 0..plan.messages.len();
    let positions: Vec<Position> =
        messages.clone().map(|m| turned(plan, cuts, slot, m, positions[m])).collect();
    let tried: Vec<Option<usize>> =
        messages.clone().map(|m| tries(plan, cuts, slot, m, positions[m])).collect();
    messages.map(|m| step(plan, cuts, slot, m, positions[m], &tried)).unzip()
}

/// "Slot numbers run from 0 to t - 1; times run from 0 to t." One cycle of a good
/// plan under a good cut list.
pub fn cycle(plan: &Plan, cuts: &[Pair]) -> Cycle {
    let mut positions = start(plan);
    let mut events = Vec::new();
    for slot in 0..plan.timeout {
        let (next, of_slot) = one_slot(plan, cuts, slot, &positions);
        positions = next;
        events.push(of_slot);
    }
    let at_target: Vec<bool> =
        (0..plan.messages.len()).map(|m| at_target(plan, m, positions[m])).collect();
    let arrivals = at_target.iter().filter(|there| **there).count();
    Cycle { events, at_target, arrivals }
}
