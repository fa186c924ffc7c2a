//! Plausible wrong ways to refuse a path (document 02, [1]), and plans that show them: each judges
//! random spoilt plans beside the right rules, and where the two differ the plan is worth keeping.
//! No answer of this program comes from this file.

use crate::cases::spoilt_plan;
use crate::good::{breaking, first_path, good, ORDER};
use crate::paths::{OF_FIRST, OF_SECOND};
use crate::plan::{refusal_of_path, row_of, Plan, Refusal};
use crate::probe::{plan_of_question, spaced};

#[derive(Clone, Copy, PartialEq, Debug)]
pub enum Way {
    // Another link is named.
    /// The step counts from 1.
    StepFromOne,
    /// 14 names the earlier of the two links that do not join.
    EarlierLink,
    /// 15 and 18 name the link that met the vertex first.
    FirstMeeting,
    /// 17 names the first link.
    EndAtFirstLink,
    /// 19 names the last link.
    ReplacedAtLastLink,
    /// The place of a second path is that of the place after.
    PlaceAfter,
    /// The place of a first path's link is 0.
    PlaceZero,

    // Another of several is given.
    /// Of several messages the highest.
    HigherMessage,
    /// Of several places of a message the highest.
    HigherPlace,
    /// Of several links of a path the last.
    LaterStep,

    // Another order.
    /// 15 before 14.
    MetBeforeJoined,
    /// 18 before 17, as the words of document 01 stand.
    MetBeforeEnd,
    /// 19 before 16 to 18, for it looks at the first link alone.
    ReplacedFirst,
    /// 10 next to 7, before 14 and 15.
    BadLinksFirst,
    /// 10 and 16 to 19 before 8 and 9.
    SecondsBeforeSlots,
    /// "The lowest number that applies", as in document 01: 14 to 19 behind 7 to 10.
    ByNumber,
    /// All rules of the first path of message 0 before those of message 1's, and likewise of the
    /// second paths.
    MessageByMessage,
    /// All rules, those of slots too, of message 0 before those of message 1.
    AllOfAMessage,
    /// All rules of one second path before those of the next.
    PathByPath,

    // Another rule.
    /// A wrong end is told as 16.
    EndIsSixteen,
    /// The vertex where the path begins does not count as met.
    BeginNotMet,
    /// The vertex where the path ends does not count as met again.
    EndNotMet,
    /// Only the vertex before does count as met.
    OnlyTheOneBefore,
    /// A second path should begin where its message starts.
    MessageStart,
    /// A second path should end where the link it replaces does.
    EndOfReplaced,

    // This one is not wrong: the link a second path replaces leads from where the path begins, so
    // that 18 is given where it stands further on.
    /// A second path should not have the link it replaces anywhere.
    ReplacedAnywhere,
}

/// The wrong ones by their names, and within how many spoilt plans of a seed each is found.
pub const WRONG: [(Way, &str, u64); 25] = [
    (Way::StepFromOne, "step-from-one", 20),
    (Way::EarlierLink, "earlier-link", 100),
    (Way::FirstMeeting, "first-meeting", 100),
    (Way::EndAtFirstLink, "end-at-first-link", 100),
    (Way::ReplacedAtLastLink, "replaced-at-last-link", 100),
    (Way::PlaceAfter, "place-after", 50),
    (Way::PlaceZero, "place-zero", 100),
    (Way::HigherMessage, "higher-message", 300),
    (Way::HigherPlace, "higher-place", 300),
    (Way::LaterStep, "later-step", 300),
    (Way::MetBeforeJoined, "met-before-joined", 300),
    (Way::MetBeforeEnd, "met-before-end", 300),
    (Way::ReplacedFirst, "replaced-first", 300),
    (Way::BadLinksFirst, "bad-links-first", 300),
    (Way::SecondsBeforeSlots, "seconds-before-slots", 300),
    (Way::ByNumber, "by-number", 300),
    (Way::MessageByMessage, "message-by-message", 300),
    (Way::AllOfAMessage, "all-of-a-message", 300),
    (Way::PathByPath, "path-by-path", 300),
    (Way::EndIsSixteen, "end-is-16", 100),
    (Way::BeginNotMet, "begin-not-met", 100),
    (Way::EndNotMet, "end-not-met", 300),
    (Way::OnlyTheOneBefore, "only-the-one-before", 300),
    (Way::MessageStart, "message-start", 100),
    (Way::EndOfReplaced, "end-of-replaced", 100),
];

pub const NOT_WRONG: [Way; 1] = [Way::ReplacedAnywhere];

// ---------------------------------------------------------------------- other rules

/// Every link that breaks the rule of a number as this way reads it.
fn all_faults(way: Way, plan: &Plan, number: usize) -> Vec<Refusal> {
    match (way, number) {
        (Way::BeginNotMet | Way::EndNotMet | Way::OnlyTheOneBefore, 15) => {
            let first_paths = (0..plan.messages.len()).map(|m| (m, first_path(plan, m)));
            let faults = first_paths.flat_map(|(m, links)| {
                let steps = met_twice(way, plan, &links);
                steps.into_iter().map(move |step| refusal_of_path(15, m, step, step))
            });
            faults.collect()
        }
        (Way::BeginNotMet | Way::EndNotMet | Way::OnlyTheOneBefore, 18) => {
            of_second_paths(plan, 18, |_, _, links| met_twice(way, plan, links))
        }
        (Way::MessageStart, 16) => {
            let mut faults = breaking(plan, 16);
            faults.retain(|one| one.link.is_some_and(|(_, step)| step > 0));
            faults.extend(of_second_paths(plan, 16, |m, _, links| {
                let starts = plan.links.get(plan.messages[m].places[0].link).map(|link| link.from);
                let begins = plan.links.get(links[0]).map(|link| link.from);
                if starts == begins { vec![] } else { vec![0] }
            }));
            faults
        }
        (Way::EndOfReplaced, 17) => of_second_paths(plan, 17, |m, place, links| {
            let replaced = plan.links.get(plan.messages[m].places[place].link);
            let last = plan.links.get(*links.last().unwrap());
            let same = replaced.map(|link| link.to) == last.map(|link| link.to);
            if same { vec![] } else { vec![links.len() - 1] }
        }),
        (Way::ReplacedAnywhere, 19) => of_second_paths(plan, 19, |m, place, links| {
            let replaced = plan.messages[m].places[place].link;
            (0..links.len()).filter(|step| links[*step] == replaced).collect()
        }),
        (Way::EndIsSixteen, 16) => {
            let ends = breaking(plan, 17).into_iter().map(|one| Refusal { number: 16, ..one });
            breaking(plan, 16).into_iter().chain(ends).collect()
        }
        (Way::EndIsSixteen, 17) => Vec::new(),
        _ => breaking(plan, number),
    }
}

/// The links of all second paths that are at fault, if `at_fault` gives the steps of one's by its
/// message, place and links.
fn of_second_paths(
    plan: &Plan,
    number: usize,
    at_fault: impl Fn(usize, usize, &[usize]) -> Vec<usize>,
) -> Vec<Refusal> {
    let mut faults = Vec::new();
    for (m, message) in plan.messages.iter().enumerate() {
        for (place, of_place) in message.places.iter().enumerate() {
            if let Some(links) = &of_place.second {
                let steps = at_fault(m, place, links);
                faults.extend(steps.into_iter().map(|step| refusal_of_path(number, m, place, step)));
            }
        }
    }
    faults
}

/// The steps of the links that end at a vertex met before, as these ways read it.
fn met_twice(way: Way, plan: &Plan, links: &[usize]) -> Vec<usize> {
    let ends: Vec<_> = links.iter().filter_map(|link| plan.links.get(*link)).collect();
    let again = |step: &usize| {
        let (step, last) = (*step, ends.len() - 1);
        match way {
            Way::BeginNotMet => ends[..step].iter().any(|link| link.to == ends[step].to),
            Way::EndNotMet => step < last && ends[..=step].iter().any(|link| link.from == ends[step].to),
            _ => step > 0 && ends[step - 1].from == ends[step].to,
        }
    };
    (0..ends.len()).filter(again).collect()
}

// ------------------------------------------------------------------- another of them

/// Where a number stands in this way's order.
fn rank(way: Way, number: usize) -> usize {
    let order: [usize; 12] = match way {
        Way::MetBeforeJoined => [5, 6, 7, 15, 14, 8, 9, 10, 16, 17, 18, 19],
        Way::MetBeforeEnd => [5, 6, 7, 14, 15, 8, 9, 10, 16, 18, 17, 19],
        Way::ReplacedFirst => [5, 6, 7, 14, 15, 8, 9, 10, 19, 16, 17, 18],
        Way::BadLinksFirst => [5, 6, 7, 10, 14, 15, 8, 9, 16, 17, 18, 19],
        Way::SecondsBeforeSlots => [5, 6, 7, 14, 15, 10, 16, 17, 18, 19, 8, 9],
        Way::ByNumber => [5, 6, 7, 8, 9, 10, 14, 15, 16, 17, 18, 19],
        _ => ORDER,
    };
    order.iter().position(|other| *other == number).unwrap()
}

/// What this way compares, from the left, to find the one to give.
fn key(way: Way, refusal: &Refusal) -> [isize; 5] {
    let number = refusal.number;
    let rank = rank(way, number) as isize;
    let m = refusal.place as isize;
    // The place of a first path's link is its step, and told there.
    let (place, step) = match refusal.link {
        None => (0, 0),
        Some((_, step)) if OF_FIRST.contains(&number) => (0, step as isize),
        Some((place, step)) => (place as isize, step as isize),
    };
    // The rules that are asked together: those of first paths, those of second paths.
    let group = match number {
        14 | 15 => 2,
        16..=19 => 7,
        _ => rank,
    };
    let of_path = refusal.link.is_some();
    match way {
        Way::HigherMessage if of_path => [rank, -m, place, step, 0],
        Way::HigherPlace => [rank, m, -place, step, 0],
        Way::LaterStep => [rank, m, place, -step, 0],
        Way::MessageByMessage => [group, m, rank, place, step],
        Way::AllOfAMessage => [rank.min(2), m, rank, place, step],
        Way::PathByPath if group == 7 => [group, m, place, rank, step],
        _ => [rank, m, place, step, 0],
    }
}

// ----------------------------------------------------------------- another link of it

/// The step of the link that met this vertex first, the first one if the path begins there.
fn first_meeting(plan: &Plan, links: &[usize], vertex: usize) -> usize {
    if plan.links[links[0]].from == vertex {
        return 0;
    }
    links.iter().position(|link| plan.links[*link].to == vertex).unwrap()
}

/// The link of the path at fault that this way names.
fn renamed(way: Way, plan: &Plan, refusal: Refusal) -> Refusal {
    let (number, m) = (refusal.number, refusal.place);
    let (place, step) = match refusal.link {
        None => return refusal,
        Some(link) => link,
    };
    let links = match &plan.messages[m].places[place].second {
        Some(second) if OF_SECOND.contains(&number) => second.clone(),
        _ => first_path(plan, m),
    };
    let first = OF_FIRST.contains(&number);
    // On a first path the step is the place.
    let at = |step: usize| refusal_of_path(number, m, if first { step } else { place }, step);
    match (way, number) {
        (Way::StepFromOne, _) => refusal_of_path(number, m, place, step + 1),
        (Way::PlaceAfter, _) if !first => refusal_of_path(number, m, place + 1, step),
        (Way::PlaceZero, _) if first => refusal_of_path(number, m, 0, step),
        (Way::EarlierLink, 14) => at(step - 1),
        (Way::EndAtFirstLink, 17) => at(0),
        (Way::ReplacedAtLastLink, 19) => at(links.len() - 1),
        (Way::FirstMeeting, 15 | 18) => at(first_meeting(plan, &links, plan.links[links[step]].to)),
        _ => refusal,
    }
}

/// What this way says of a plan.
pub fn refused(way: Way, plan: &Plan) -> Option<Refusal> {
    let faults = ORDER.iter().flat_map(|number| all_faults(way, plan, *number));
    let given = faults.min_by_key(|refusal| key(way, refusal));
    given.map(|refusal| renamed(way, plan, refusal))
}

// --------------------------------------------------------------- plans that show them

/// Whether a way differs from the right rules.
pub fn differs(way: Way, plan: &Plan) -> bool {
    refused(way, plan) != good(plan).err()
}

/// Whether a way differs on a question of the probe.
pub fn differs_on(way: Way, question: &str) -> Option<bool> {
    Some(differs(way, &plan_of_question(question)?))
}

/// The spoilt plans of a seed on which one of these ways differs: the way, the index.
pub fn all_different(ways: &[Way], seed: u64, number: u64) -> Vec<(Way, u64)> {
    let mut all = Vec::new();
    for case in 0..number {
        let plan = spoilt_plan(seed, case);
        let found = ways.iter().filter(|way| differs(**way, &plan));
        all.extend(found.map(|way| (*way, case)));
    }
    all
}

/// A question on which a way differs, and what is right.
pub struct Different {
    pub case: u64,
    pub question: String,
    pub right: Option<Refusal>,
    pub wrong: Option<Refusal>,
}

/// Some of these questions to keep: the shortest ones, and as many as can be for each right number.
pub fn to_keep(way: Way, seed: u64, number: u64, keep: usize) -> Vec<Different> {
    let mut found: Vec<Different> = all_different(&[way], seed, number)
        .into_iter()
        .map(|(_, case)| {
            let plan = spoilt_plan(seed, case);
            let question = format!("write 7348{}", spaced(&row_of(&plan)));
            Different { case, question, right: good(&plan).err(), wrong: refused(way, &plan) }
        })
        .collect();
    found.sort_by_key(|one| (one.question.split(' ').count(), one.case));
    // The shortest of each number, then the next of each, and so on.
    let mut seen: Vec<Option<usize>> = Vec::new();
    let mut ranked = Vec::new();
    for one in found {
        let number = one.right.map(|refusal| refusal.number);
        ranked.push((seen.iter().filter(|other| **other == number).count(), one));
        seen.push(number);
    }
    ranked.sort_by_key(|(rank, _)| *rank);
    ranked.into_iter().take(keep).map(|(_, one)| one).collect()
}

/// What a refusal or none looks like.
pub fn told(refusal: Option<Refusal>) -> String {
    refusal.map_or(String::from("good"), |refusal| refusal.to_string())
}
