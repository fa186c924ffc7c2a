//! Plausible wrong ways to explain a capture, and questions that show them: each answers
//! random questions on small plans beside the search that tries every list, and where the
//! two differ the question is worth keeping.
//!
//! Most of them are SEARCH.md's quick way (part 2: `named`, `hopeless`, `level`) with one
//! thing changed. The right quick way is here too, and must never differ. No answer of this
//! program comes from this file.

use crate::captures::good_capture;
use crate::cuts::{cable_names, is_cut, name_of, Pair};
use crate::cycle::{one_slot, start, Event, Position};
use crate::explain::{
    capture_of_numbers, crossings, numbers_of_capture, of_every_list, Triple,
};
use crate::plan::{row_of, Plan};
use crate::probe::spaced;
use crate::questions::{good_plan_of_row, numbers_of};
use crate::random::{plan_for_capture, Random};
use crate::verdict::every_list;

#[derive(Clone, Copy, PartialEq, Debug)]
pub enum Way {
    /// SEARCH.md's.
    Right,

    // Its wrong variants.
    /// Not the foremost message that differs is named, but the last.
    LastMessage,
    /// A message that waits (kind 1) and should cross is taken as dead.
    WaitIsDead,
    /// A message that crosses a link (kinds 2, 3) and should not is taken as dead.
    CrossingIsDead,
    /// The slot in which a link was named is not played again, but the next.
    SlotNotAgain,
    /// What was named is handed over as it is, without looking for the first list.
    NamesAlone,
    /// Two links for one message and slot: the later one counts.
    LaterLink,

    // Wrong readings of the question, for the search that tries every list.
    /// The replay may have crossings that the capture lacks.
    MoreCrossings,
    /// The capture may have crossings that the replay lacks.
    FewerCrossings,
    /// Kind 2 alone is a crossing.
    FirstPathsAlone,
    /// The slot and the link of a crossing count, its message does not.
    AnyMessage,
    /// The first list in the order of its numbers, however many pairs it has.
    NotTheFewest,
    /// The last of the lists with the fewest pairs.
    LastList,
    /// The empty list is told as unexplained.
    EmptyIsNone,
    /// Cuts in slot 0 alone.
    SlotZero,
}

/// The wrong ones by their names, and within how many questions of a seed each is found
/// (0: not tried, for it takes too many).
pub const WRONG: [(Way, &str, u64); 14] = [
    (Way::LastMessage, "last-message", 0),
    (Way::WaitIsDead, "wait-is-dead", 500),
    (Way::CrossingIsDead, "crossing-is-dead", 100),
    (Way::SlotNotAgain, "slot-not-again", 500),
    (Way::NamesAlone, "names-alone", 100),
    (Way::LaterLink, "later-link", 500),
    (Way::MoreCrossings, "more-crossings", 100),
    (Way::FewerCrossings, "fewer-crossings", 100),
    (Way::FirstPathsAlone, "first-paths-alone", 100),
    (Way::AnyMessage, "any-message", 500),
    (Way::NotTheFewest, "not-the-fewest", 100),
    (Way::LastList, "last-list", 100),
    (Way::EmptyIsNone, "empty-is-none", 100),
    (Way::SlotZero, "slot-zero", 100),
];

/// What a slot says: nothing, a cable, by its name, that every explaining list has cut, or that
/// there is no such list.
enum Name {
    None,
    Cable(usize),
    Dead,
}

/// "crossed[i][m] = link + 1 that m crosses in slot i of the capture, or 0"; "two links for
/// one i, m: unexplained".
fn crossed_of(plan: &Plan, capture: &[Triple], way: Way) -> Option<Vec<Vec<usize>>> {
    let mut crossed = vec![vec![0; plan.messages.len()]; plan.timeout];
    for (slot, link, m) in capture {
        if crossed[*slot][*m] != 0 && way != Way::LaterLink {
            return None;
        }
        crossed[*slot][*m] = link + 1;
    }
    Some(crossed)
}

struct Quick<'a> {
    plan: &'a Plan,
    crossed: Vec<Vec<usize>>,
    way: Way,
}

impl Quick<'_> {
    /// "for m from the foremost on: c = link + 1 of its event if kind 2 or 3, else 0; if
    /// c != crossed[i][m]: kind 1, 2, 3 -> Link; any other -> Dead". The cable of that link is named.
    fn named(&self, slot: usize, events: &[Event]) -> Name {
        let differs = |m: &usize| {
            let event = events[*m];
            let crosses = if event.kind == 2 || event.kind == 3 { event.number + 1 } else { 0 };
            crosses != self.crossed[slot][*m]
        };
        let mut messages = 0..events.len();
        let found = if self.way == Way::LastMessage {
            messages.rfind(differs)
        } else {
            messages.find(differs)
        };
        let dead: &[usize] = match self.way {
            Way::WaitIsDead => &[0, 1, 4, 5, 6, 7],
            Way::CrossingIsDead => &[0, 2, 3, 4, 5, 6, 7],
            _ => &[0, 4, 5, 6, 7],
        };
        match found {
            None => Name::None,
            Some(m) if dead.contains(&events[m].kind) => Name::Dead,
            Some(m) => Name::Cable(name_of(self.plan, events[m].number)),
        }
    }

    /// "play on from p's slot under p's cuts; None: next slot; Dead: true; Link x: true if
    /// no pair is left to name, else x is cut from this slot on, one fewer left, same slot
    /// again; false at the timeout". Gives the cuts, named ones too, where it is false.
    fn not_hopeless(
        &self,
        positions: &[Position],
        list: &[Pair],
        from: usize,
        mut left: usize,
    ) -> Option<Vec<Pair>> {
        let mut positions = positions.to_vec();
        let mut down = list.to_vec();
        let mut slot = from;
        while slot < self.plan.timeout {
            let (next, events) = one_slot(self.plan, &down, slot, &positions);
            match self.named(slot, &events) {
                Name::None => {
                    positions = next;
                    slot += 1;
                }
                Name::Dead => return None,
                Name::Cable(_) if left == 0 => return None,
                Name::Cable(name) => {
                    down.push((slot, name));
                    left -= 1;
                    if self.way == Way::SlotNotAgain {
                        positions = one_slot(self.plan, &down, slot, &positions).0;
                        slot += 1;
                    }
                }
            }
        }
        Some(down)
    }

    /// "if hopeless(ps, p, n): none. if n = 0: p. for slots s from p's on: for links from
    /// p's on (then from 0), not cut: level with (s, x) picked and n - 1; found: that; if
    /// named(ps, p, s) is not None: none. play slot s".
    fn level(
        &self,
        positions: &[Position],
        list: &[Pair],
        from: Pair,
        missing: usize,
    ) -> Option<Vec<Pair>> {
        let mut names = self.not_hopeless(positions, list, from.0, missing)?;
        if self.way == Way::NamesAlone {
            names.sort();
            return Some(names);
        }
        if missing == 0 {
            return Some(list.to_vec());
        }
        let mut positions = positions.to_vec();
        let mut first_link = from.1;
        for slot in from.0..self.plan.timeout {
            for name in cable_names(self.plan) {
                if name < first_link || is_cut(self.plan, list, slot, name) {
                    continue;
                }
                let mut longer = list.to_vec();
                longer.push((slot, name));
                let found = self.level(&positions, &longer, (slot, name + 1), missing - 1);
                if found.is_some() {
                    return found;
                }
            }
            first_link = 0;
            let (next, events) = one_slot(self.plan, list, slot, &positions);
            match self.named(slot, &events) {
                Name::None => positions = next,
                _ => return None,
            }
        }
        None
    }

    /// "first list: n = 0, 1, .. k in turn".
    fn first_list(&self, k: usize) -> Option<Vec<Pair>> {
        let pairs = k.min(cable_names(self.plan).len());
        (0..=pairs).find_map(|pairs| self.level(&start(self.plan), &[], (0, 0), pairs))
    }
}

/// The first list of at most k pairs whose crossings are as `right` says.
fn first_with(plan: &Plan, k: usize, right: &dyn Fn(&[Pair]) -> bool) -> Option<Vec<Pair>> {
    (0..=k).find_map(|pairs| lists_with(plan, pairs, right).into_iter().next())
}

/// All lists of so many pairs whose crossings are as `right` says.
fn lists_with(plan: &Plan, pairs: usize, right: &dyn Fn(&[Pair]) -> bool) -> Vec<Vec<Pair>> {
    let mut lists = Vec::new();
    every_list(plan, pairs, &mut |list| {
        if right(list) {
            lists.push(list.to_vec());
        }
        true
    });
    lists
}

/// The kinds of the replay's crossings are looked at again for this one.
fn crossings_of_first_paths(plan: &Plan, list: &[Pair]) -> Vec<Triple> {
    let events = crate::cycle::cycle(plan, list).events;
    let mut crossings = crossings(plan, list);
    crossings.retain(|(slot, _, m)| events[*slot][*m].kind == 2);
    crossings
}

/// What this way answers.
pub fn answer(way: Way, plan: &Plan, k: usize, capture: &[Triple]) -> Option<Vec<Pair>> {
    let exactly = |list: &[Pair]| crossings(plan, list) == capture;
    let without_messages = |triples: &[Triple]| -> Vec<Pair> {
        triples.iter().map(|(slot, link, _)| (*slot, *link)).collect()
    };
    match way {
        Way::MoreCrossings => first_with(plan, k, &|list| {
            let all = crossings(plan, list);
            capture.iter().all(|triple| all.contains(triple))
        }),
        Way::FewerCrossings => first_with(plan, k, &|list| {
            crossings(plan, list).iter().all(|triple| capture.contains(triple))
        }),
        Way::FirstPathsAlone => {
            first_with(plan, k, &|list| crossings_of_first_paths(plan, list) == capture)
        }
        Way::AnyMessage => first_with(plan, k, &|list| {
            without_messages(&crossings(plan, list)) == without_messages(capture)
        }),
        Way::NotTheFewest => (0..=k).flat_map(|pairs| lists_with(plan, pairs, &exactly)).min(),
        Way::LastList => (0..=k).find_map(|pairs| lists_with(plan, pairs, &exactly).pop()),
        Way::EmptyIsNone => first_with(plan, k, &exactly).filter(|list| !list.is_empty()),
        Way::SlotZero => first_with(plan, k, &|list| {
            list.iter().all(|(slot, _)| *slot == 0) && exactly(list)
        }),
        _ => {
            let crossed = crossed_of(plan, capture, way)?;
            Quick { plan, crossed, way }.first_list(k)
        }
    }
}

/// A small question, by its seed and index.
pub fn small_question(seed: u64, case: u64) -> (Plan, usize, Vec<Triple>) {
    let mut random = Random::of_case(seed ^ 0x6E616D6564, case);
    let r = &mut random;
    let k = *r.weighted(&[(1, 0), (3, 1), (6, 2), (8, 3)]);
    let plan = plan_for_capture(r, if k == 3 { 24 } else { 36 });
    let capture = good_capture(r, &plan);
    (plan, k, capture)
}

/// A question on which a way differs.
pub struct Different {
    pub question: String,
    /// The pairs of the right list, or nothing if it is unexplained.
    pub pairs: Option<usize>,
    pub wrong: Option<Vec<Pair>>,
}

/// Where these ways have another answer than the search that tries every list.
fn different(ways: &[Way], plan: &Plan, k: usize, capture: &[Triple]) -> Vec<(Way, Different)> {
    let right = of_every_list(plan, k, capture);
    let triples = spaced(&numbers_of_capture(capture));
    let mut found = Vec::new();
    for way in ways {
        let wrong = answer(*way, plan, k, capture);
        if wrong != right {
            let row = spaced(&row_of(plan));
            let question = format!("explain {} {} {}{}{}", k, 2 * k, 3 * capture.len(), triples, row);
            let pairs = right.as_ref().map(|list| list.len());
            found.push((*way, Different { question, pairs, wrong }));
        }
    }
    found
}

/// Whether a way differs on a question of the probe about a good plan and a good capture.
pub fn differs_on(way: Way, question: &str) -> Option<bool> {
    let numbers: Option<Vec<u16>> =
        question.strip_prefix("explain ")?.split(' ').map(|word| word.parse().ok()).collect();
    let numbers = numbers?;
    let (k, count) = (*numbers.first()? as usize, *numbers.get(2)? as usize);
    let row = numbers.get(3 + count..)?;
    let plan = good_plan_of_row(row).ok()?;
    let capture = capture_of_numbers(&plan, &numbers[3..3 + count]).ok()?;
    Some(!different(&[way], &plan, k, &capture).is_empty())
}

/// All questions of a seed on which one of these ways differs: the way, the index, the question.
pub fn all_different(ways: &[Way], seed: u64, number: u64) -> Vec<(Way, u64, Different)> {
    let mut all = Vec::new();
    for case in 0..number {
        let (plan, k, capture) = small_question(seed, case);
        let found = different(ways, &plan, k, &capture);
        all.extend(found.into_iter().map(|(way, one)| (way, case, one)));
    }
    all
}

/// Some of the questions to keep: the shortest ones, and as many as can be for each number of
/// pairs of the right answer.
pub fn to_keep(mut found: Vec<(u64, Different)>, number: usize) -> Vec<(u64, Different)> {
    found.sort_by_key(|(case, one)| (one.question.split(' ').count(), *case));
    // The shortest of each number of pairs, then the next of each, and so on.
    let mut seen: Vec<Option<usize>> = Vec::new();
    let mut ranked = Vec::new();
    for one in found {
        let pairs = one.1.pairs;
        ranked.push((seen.iter().filter(|other| **other == pairs).count(), one));
        seen.push(pairs);
    }
    ranked.sort_by_key(|(rank, _)| *rank);
    ranked.into_iter().take(number).map(|(_, one)| one).collect()
}

/// What a list or none looks like.
pub fn told(list: &Option<Vec<Pair>>) -> String {
    match list {
        None => String::from("unexplained"),
        Some(list) => format!("list {}{}", list.len(), spaced(&numbers_of(list))),
    }
}
