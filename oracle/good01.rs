//! Document 01, "A plan is good if": refusals 5 to 10 as document 01 has them, before request [1]
//! tells its 7 and 10 apart. The second program's answers are those of good.rs; here is what they
//! are held against: a plan is refused by the one exactly if it is by the other.

use crate::cases::plan_good_or_bad;
use crate::good::{breaking, first_path, good, vertices_of};
use crate::plan::{refusal, Plan, Refusal};

/// The refusals 5 to 10 that apply, number before number.
pub fn broken_by_01(plan: &Plan) -> Vec<Refusal> {
    let mut all = Vec::new();
    let lowest = |number| breaking(plan, number).first().map(|refusal| refusal.place);
    let found = [
        (5, lowest(5)),
        (6, lowest(6)),
        (7, first_path_that_breaks_a_rule(plan)),
        (8, lowest(8)),
        (9, lowest(9)),
        (10, second_path_that_breaks_a_rule(plan)),
    ];
    for (number, place) in found {
        if let Some(place) = place {
            all.push(refusal(number, place));
        }
    }
    all
}

/// "The lowest number that applies is given".
pub fn good_by_01(plan: &Plan) -> Result<(), Refusal> {
    match broken_by_01(plan).first() {
        None => Ok(()),
        Some(lowest) => Err(*lowest),
    }
}

/// "visits no vertex twice".
fn a_vertex_twice(visited: &[usize]) -> bool {
    (0..visited.len()).any(|later| visited[..later].contains(&visited[later]))
}

/// 7: "a first path breaks a rule other than that of slots"; "lowest such message".
/// "every first path uses links below E, each beginning where the last ended, with
/// no vertex visited twice".
fn first_path_that_breaks_a_rule(plan: &Plan) -> Option<usize> {
    (0..plan.messages.len()).find(|m| match vertices_of(plan, &first_path(plan, *m)) {
        None => true,
        Some(visited) => a_vertex_twice(&visited),
    })
}

/// 10: "a second path breaks a rule"; "lowest such message".
fn second_path_that_breaks_a_rule(plan: &Plan) -> Option<usize> {
    (0..plan.messages.len()).find(|m| {
        plan.messages[*m].places.iter().any(|place| match &place.second {
            None => false,
            Some(second) => !second_path_is_good(plan, *m, place.link, second),
        })
    })
}

/// "every second path uses links below E, begins at the vertex where its place
/// stands, joins up, visits no vertex twice, ends where the first path ends, and
/// does not begin with the link it replaces. It may meet vertices and links of any
/// first path."
fn second_path_is_good(plan: &Plan, m: usize, replaced: usize, second: &[usize]) -> bool {
    let last_place = plan.messages[m].places.last().unwrap();
    let (stands, target) = match (plan.links.get(replaced), plan.links.get(last_place.link)) {
        (Some(replaced), Some(last)) => (replaced.from, last.to),
        _ => return true, // refusal 7 speaks first
    };
    match vertices_of(plan, second) {
        None => false,
        Some(visited) => {
            visited[0] == stands
                && !a_vertex_twice(&visited)
                && *visited.last().unwrap() == target
                && second[0] != replaced
        }
    }
}

/// What request [1] moves and what it leaves: a plan is refused exactly if it is by document 01;
/// where that says 5, 6, 8 or 9 it is the same refusal, and where that says 7 or 10 it is one of the
/// numbers into which these are told apart, for that message or a higher one.
fn agrees_with_01(plan: &Plan) -> bool {
    match (good_by_01(plan), good(plan)) {
        (Ok(()), Ok(())) => true,
        (Err(before), Err(now)) => match before.number {
            7 => [7, 14, 15].contains(&now.number) && now.place >= before.place,
            10 => [10, 16, 17, 18, 19].contains(&now.number) && now.place >= before.place,
            _ => now == before,
        },
        _ => false,
    }
}

/// Tries this on all cases of a seed, plans that are good and plans that break rules. Says how
/// many were refused.
pub fn held_against_01(seed: u64, number: u64) -> Result<u64, String> {
    let mut refused = 0;
    for case in 0..number {
        let plan = plan_good_or_bad(seed, case);
        if !agrees_with_01(&plan) {
            let (before, now) = (good_by_01(&plan), good(&plan));
            return Err(format!("seed {} case {}: {:?}, now {:?}\n{:?}", seed, case, before, now, plan));
        }
        refused += u64::from(good(&plan).is_err());
    }
    Ok(refused)
}
