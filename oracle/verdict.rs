//! Document 01, "Verdict": every list is tried, in the demanded order.

use crate::cuts::{bad_pair, Pair};
use crate::cycle::cycle;
use crate::plan::Plan;

/// "the plan is resistant exactly if every cut list of at most k pairs gives at
/// least l arrivals. If not, the answer is the failing list with the fewest pairs
/// and, among those, the first in the order of its numbers from the left."
/// The failing list, or nothing if the plan is resistant.
pub fn failing_list(plan: &Plan, k: usize, l: usize) -> Option<Vec<Pair>> {
    for pairs in 0..=k {
        let mut failing = None;
        every_list(plan, pairs, &mut |list| {
            if cycle(plan, list).arrivals < l {
                failing = Some(list.to_vec());
            }
            failing.is_none()
        });
        if failing.is_some() {
            return failing;
        }
    }
    None
}

/// Shows every good cut list of this many pairs, in the order of its numbers from
/// the left, as long as `show` says to go on.
pub fn every_list(plan: &Plan, pairs: usize, show: &mut dyn FnMut(&[Pair]) -> bool) {
    extend(plan, &mut Vec::new(), pairs, show);
}

fn extend(
    plan: &Plan,
    list: &mut Vec<Pair>,
    missing: usize,
    show: &mut dyn FnMut(&[Pair]) -> bool,
) -> bool {
    if missing == 0 {
        return show(list);
    }
    for slot in 0..plan.timeout {
        for link in 0..plan.links.len() {
            if bad_pair(plan, list, (slot, link)) {
                continue;
            }
            list.push((slot, link));
            let go_on = extend(plan, list, missing - 1, show);
            list.pop();
            if !go_on {
                return false;
            }
        }
    }
    true
}

/// Every list of at most k pairs with its arrivals, in the demanded order: for the
/// verdict program, which asks about every l at once.
pub fn arrivals_of_every_list(plan: &Plan, k: usize) -> Vec<(Vec<Pair>, usize)> {
    let mut all = Vec::new();
    for pairs in 0..=k {
        every_list(plan, pairs, &mut |list| {
            all.push((list.to_vec(), cycle(plan, list).arrivals));
            true
        });
    }
    all
}
