//! Document 01, "A plan is good if", and document 02, [1], "Tell the planner which rule a path
//! broke": refusals 5 to 10 and 14 to 19, one function each. Each looks at its own rule only, so
//! that it can also be asked of plans that break several.

use crate::plan::{refusal, refusal_of_path, Plan, Refusal};

/// [1]: "the order is 7, 14, 15, 8, 9, 10, 16 to 19, then 11 on". Before it come 1 to 4 (plan.rs),
/// 5 and 6.
pub const ORDER: [usize; 12] = [5, 6, 7, 14, 15, 8, 9, 10, 16, 17, 18, 19];

/// A link of a path: its message, its place and its step. "on a first path the step is the place".
type Fault = (usize, usize, usize);

/// Everything that breaks the rule of this number, the lowest first.
pub fn breaking(plan: &Plan, number: usize) -> Vec<Refusal> {
    let faults = match number {
        5 => return refusals(number, links_with_bad_ends(plan)),
        6 => return refusals(number, links_that_repeat(plan)),
        8 => return refusals(number, messages_whose_slots_break_a_rule(plan)),
        9 => return refusals(number, messages_that_hold_what_is_held(plan)),
        7 => bad_links_of_first_paths(plan),
        14 => links_of_first_paths_that_do_not_join(plan),
        15 => vertices_met_twice_by_first_paths(plan),
        10 => bad_links_of_second_paths(plan),
        16 => wrong_beginnings_or_joins(plan),
        17 => wrong_ends(plan),
        18 => vertices_met_twice_by_second_paths(plan),
        19 => starts_with_the_replaced_link(plan),
        _ => unreachable!(),
    };
    faults.into_iter().map(|(m, place, step)| refusal_of_path(number, m, place, step)).collect()
}

fn refusals(number: usize, places: Vec<usize>) -> Vec<Refusal> {
    places.into_iter().map(|place| refusal(number, place)).collect()
}

/// The refusals that apply, in their order, each "for its lowest message, then place, then step".
pub fn broken(plan: &Plan) -> Vec<Refusal> {
    ORDER.iter().filter_map(|number| breaking(plan, *number).first().copied()).collect()
}

/// "the earliest that applies to any path is given".
pub fn good(plan: &Plan) -> Result<(), Refusal> {
    match broken(plan).first() {
        None => Ok(()),
        Some(earliest) => Err(*earliest),
    }
}

// ------------------------------------------------------------------ links and slots

/// 5: "a link's end is not below V, or both are equal"; "lowest such link".
fn links_with_bad_ends(plan: &Plan) -> Vec<usize> {
    let bad = |link: &usize| {
        let link = plan.links[*link];
        link.from >= plan.vertices || link.to >= plan.vertices || link.from == link.to
    };
    (0..plan.links.len()).filter(bad).collect()
}

/// 6: "a link repeats an earlier one"; "later link, the lowest such".
fn links_that_repeat(plan: &Plan) -> Vec<usize> {
    let repeats = |later: &usize| plan.links[..*later].contains(&plan.links[*later]);
    (0..plan.links.len()).filter(repeats).collect()
}

/// 8: "slots don't rise, or one is not below t"; "lowest such message".
/// "its slots rise strictly and lie below t".
fn messages_whose_slots_break_a_rule(plan: &Plan) -> Vec<usize> {
    let breaks = |m: &usize| {
        let slots: Vec<usize> = plan.messages[*m].places.iter().map(|place| place.slot).collect();
        slots.windows(2).any(|two| two[0] >= two[1]) || slots.iter().any(|slot| *slot >= plan.timeout)
    };
    (0..plan.messages.len()).filter(breaks).collect()
}

/// 9: "a lower message holds the same link and slot"; "lowest such message".
fn messages_that_hold_what_is_held(plan: &Plan) -> Vec<usize> {
    let holds = |m: &usize| {
        plan.messages[*m].places.iter().any(|own| {
            plan.messages[..*m].iter().any(|lower| {
                lower.places.iter().any(|held| held.link == own.link && held.slot == own.slot)
            })
        })
    };
    (0..plan.messages.len()).filter(holds).collect()
}

// ---------------------------------------------------------- what any row of links does

/// The steps of the links that are "not below E".
fn bad_links(plan: &Plan, links: &[usize]) -> Vec<usize> {
    (0..links.len()).filter(|step| links[*step] >= plan.links.len()).collect()
}

/// The steps of the links that do not begin "where the last ended". Nothing is said of a link not
/// below E, which has no ends: 7 and 10 speak first.
fn not_joined(plan: &Plan, links: &[usize]) -> Vec<usize> {
    let apart = |step: &usize| match (plan.links.get(links[*step - 1]), plan.links.get(links[*step])) {
        (Some(last), Some(link)) => last.to != link.from,
        _ => false,
    };
    (1..links.len()).filter(apart).collect()
}

/// The steps of the links that end at a vertex that was met before them, be it the one where the
/// row of links begins.
fn met_twice(plan: &Plan, links: &[usize]) -> Vec<usize> {
    let mut met = Vec::new();
    let mut steps = Vec::new();
    for (step, link) in links.iter().enumerate() {
        if let Some(link) = plan.links.get(*link) {
            if step == 0 {
                met.push(link.from);
            }
            if met.contains(&link.to) {
                steps.push(step);
            }
            met.push(link.to);
        }
    }
    steps
}

/// The vertices that a row of links visits, or nothing if it uses a link not below
/// E or does not join up.
pub fn vertices_of(plan: &Plan, links: &[usize]) -> Option<Vec<usize>> {
    let mut visited: Vec<usize> = Vec::new();
    for link in links {
        let link = plan.links.get(*link)?;
        if visited.is_empty() {
            visited.push(link.from);
        }
        if *visited.last().unwrap() != link.from {
            return None;
        }
        visited.push(link.to);
    }
    Some(visited)
}

// ------------------------------------------------------------------------ first paths

/// The links of message m's first path.
pub fn first_path(plan: &Plan, m: usize) -> Vec<usize> {
    plan.messages[m].places.iter().map(|place| place.link).collect()
}

/// The links of all first paths that are at fault, if `at_fault` gives the steps of one's.
/// "on a first path the step is the place".
fn of_first_paths(plan: &Plan, at_fault: impl Fn(&[usize]) -> Vec<usize>) -> Vec<Fault> {
    let mut faults = Vec::new();
    for m in 0..plan.messages.len() {
        for step in at_fault(&first_path(plan, m)) {
            faults.push((m, step, step));
        }
    }
    faults
}

/// 7: "keeps only a link not below E".
fn bad_links_of_first_paths(plan: &Plan) -> Vec<Fault> {
    of_first_paths(plan, |links| bad_links(plan, links))
}

/// 14: "links that don't join"; the link that does not begin where the last ended is at fault.
fn links_of_first_paths_that_do_not_join(plan: &Plan) -> Vec<Fault> {
    of_first_paths(plan, |links| not_joined(plan, links))
}

/// 15: "a vertex met twice"; the link that leads there again is at fault.
fn vertices_met_twice_by_first_paths(plan: &Plan) -> Vec<Fault> {
    of_first_paths(plan, |links| met_twice(plan, links))
}

// ----------------------------------------------------------------------- second paths

/// A second path, and what its rules speak of beside it.
struct Second<'a> {
    links: &'a [usize],
    /// The link of its place.
    replaced: usize,
    /// "the vertex where its place stands", if its link is below E (else 7 speaks first).
    stands: Option<usize>,
    /// "where the first path ends", likewise.
    target: Option<usize>,
}

/// The links of all second paths that are at fault, if `at_fault` gives the steps of one's.
fn of_second_paths(plan: &Plan, at_fault: impl Fn(&Second) -> Vec<usize>) -> Vec<Fault> {
    let mut faults = Vec::new();
    for (m, message) in plan.messages.iter().enumerate() {
        let last_link = message.places.last().unwrap().link;
        for (place, of_place) in message.places.iter().enumerate() {
            if let Some(links) = &of_place.second {
                let second = Second {
                    links,
                    replaced: of_place.link,
                    stands: plan.links.get(of_place.link).map(|link| link.from),
                    target: plan.links.get(last_link).map(|link| link.to),
                };
                for step in at_fault(&second) {
                    faults.push((m, place, step));
                }
            }
        }
    }
    faults
}

/// Whether two vertices are there and differ.
fn differ(one: Option<usize>, other: Option<usize>) -> bool {
    one.is_some() && other.is_some() && one != other
}

/// 10: "likewise keeps the bad link".
fn bad_links_of_second_paths(plan: &Plan) -> Vec<Fault> {
    of_second_paths(plan, |second| bad_links(plan, second.links))
}

/// 16: "a wrong beginning or join"; the first link is at fault if it does not begin at the vertex
/// where the place stands, and any other one if it does not begin where the last ended.
fn wrong_beginnings_or_joins(plan: &Plan) -> Vec<Fault> {
    of_second_paths(plan, |second| {
        let begins = plan.links.get(second.links[0]).map(|link| link.from);
        let mut steps = Vec::new();
        if differ(begins, second.stands) {
            steps.push(0);
        }
        steps.extend(not_joined(plan, second.links));
        steps
    })
}

/// 17: "a wrong end"; "17 names the last link".
fn wrong_ends(plan: &Plan) -> Vec<Fault> {
    of_second_paths(plan, |second| {
        let last = second.links.len() - 1;
        let ends = plan.links.get(second.links[last]).map(|link| link.to);
        if differ(ends, second.target) {
            vec![last]
        } else {
            Vec::new()
        }
    })
}

/// 18: "a vertex met twice"; the link that leads there again is at fault.
fn vertices_met_twice_by_second_paths(plan: &Plan) -> Vec<Fault> {
    of_second_paths(plan, |second| met_twice(plan, second.links))
}

/// 19: "a start with the replaced link"; it names "the first" link.
fn starts_with_the_replaced_link(plan: &Plan) -> Vec<Fault> {
    of_second_paths(plan, |second| {
        if second.links[0] == second.replaced {
            vec![0]
        } else {
            Vec::new()
        }
    })
}
