//! Document 01, "One slot": the cut list; and document 02, [3], "A cable goes both ways".

use crate::plan::{refusal, Link, Plan, Refusal};

/// "pairs slot, link".
pub type Pair = (usize, usize);

/// "the same ends reversed".
fn reversed(one: Link, other: Link) -> bool {
    one.from == other.to && one.to == other.from
}

/// [3]: "the link with the same ends reversed, if the plan has one". In a good plan there is at most
/// one, for "no two links have the same ends in the same direction".
pub fn other_way(plan: &Plan, link: usize) -> Option<usize> {
    plan.links.iter().position(|other| reversed(*other, plan.links[link]))
}

/// [3]: "A pair names the lower-numbered of the two, so that a cable has one name": the name of the
/// cable that a link is a way of.
pub fn name_of(plan: &Plan, link: usize) -> usize {
    other_way(plan, link).map_or(link, |other| other.min(link))
}

/// [3]: "a pair cuts the named link and the link with the same ends reversed": does it cut this one,
/// from its slot on?
pub fn pair_cuts(plan: &Plan, pair: Pair, link: usize) -> bool {
    pair.1 == link || reversed(plan.links[pair.1], plan.links[link])
}

/// "slots below t, links below E, pairs rising strictly (by slot, then by link), no link twice", and
/// [3]: "a pair that names the higher link is 12". Is this pair bad after these earlier good ones?
/// (As each names the lower link of its cable, no link twice is no cable twice.)
pub fn bad_pair(plan: &Plan, earlier: &[Pair], pair: Pair) -> bool {
    let (slot, link) = pair;
    let too_large = slot >= plan.timeout || link >= plan.links.len();
    let does_not_rise = match earlier.last() {
        None => false,
        Some(last) => *last >= pair, // a pair is compared by its slot, then by its link
    };
    let link_twice = earlier.iter().any(|(_, other)| *other == link);
    too_large || does_not_rise || link_twice || name_of(plan, link) != link
}

/// 12: "a bad cut list; an odd last number counts as a bad pair"; "index of first
/// bad pair".
pub fn cut_list_of_numbers(plan: &Plan, numbers: &[u16]) -> Result<Vec<Pair>, Refusal> {
    let mut list = Vec::new();
    for (index, two) in numbers.chunks(2).enumerate() {
        if two.len() < 2 {
            return Err(refusal(12, index));
        }
        let pair = (two[0] as usize, two[1] as usize);
        if bad_pair(plan, &list, pair) {
            return Err(refusal(12, index));
        }
        list.push(pair);
    }
    Ok(list)
}

/// "A link is cut in its slot and every later one."
pub fn is_cut(plan: &Plan, cuts: &[Pair], slot: usize, link: usize) -> bool {
    cuts.iter().any(|pair| pair.0 <= slot && pair_cuts(plan, *pair, link))
}

/// The names of a plan's cables, rising: the links that a pair may name.
pub fn cable_names(plan: &Plan) -> Vec<usize> {
    (0..plan.links.len()).filter(|link| name_of(plan, *link) == *link).collect()
}
