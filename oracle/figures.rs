//! Document 02, request [2], "Worst figures for a shelf of plans": the figure of a plan, by trying
//! every list; and, as a second way that no answer comes from, by the game that the request tells.

use crate::cuts::{cable_names, is_cut, Pair};
use crate::cycle::{at_target, cycle, one_slot, start, Position};
use crate::plan::Plan;
use crate::verdict::every_list;

/// "the least number of arrivals over all cut lists of at most k pairs".
pub fn figure(plan: &Plan, k: usize) -> usize {
    figures(plan, k)[k]
}

/// The figures for 0, 1, .. k.
pub fn figures(plan: &Plan, k: usize) -> Vec<usize> {
    let mut least = plan.messages.len();
    let mut figures = Vec::new();
    for pairs in 0..=k {
        every_list(plan, pairs, &mut |list| {
            least = least.min(cycle(plan, list).arrivals);
            least > 0 // no list leaves fewer
        });
        figures.push(least);
    }
    figures
}

/// "Think of it as a game": how many arrive if the breaker, who may cut k cables in all, plays as
/// well as can be.
pub fn game(plan: &Plan, k: usize) -> usize {
    breakers_turn(plan, 0, &start(plan), &mut Vec::new(), 0, k)
}

/// "in each slot the breaker picks what else to cut": one of the cables from this name on that are
/// whole, and then the next, or nothing more in this slot.
fn breakers_turn(
    plan: &Plan,
    slot: usize,
    positions: &[Position],
    cuts: &mut Vec<Pair>,
    from_name: usize,
    left: usize,
) -> usize {
    let mut least = networks_turn(plan, slot, positions, cuts, left);
    if left == 0 {
        return least;
    }
    for name in cable_names(plan) {
        if name < from_name || is_cut(plan, cuts, slot, name) {
            continue;
        }
        cuts.push((slot, name));
        least = least.min(breakers_turn(plan, slot, positions, cuts, name + 1, left - 1));
        cuts.pop();
    }
    least
}

/// "then the network moves one slot, and they alternate until the timeout".
fn networks_turn(
    plan: &Plan,
    slot: usize,
    positions: &[Position],
    cuts: &mut Vec<Pair>,
    left: usize,
) -> usize {
    let (positions, _) = one_slot(plan, cuts, slot, positions);
    if slot + 1 == plan.timeout {
        return (0..positions.len()).filter(|m| at_target(plan, *m, positions[*m])).count();
    }
    breakers_turn(plan, slot + 1, &positions, cuts, 0, left)
}
