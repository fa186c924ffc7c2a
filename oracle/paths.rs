//! What the generator spoils in paths: first and second paths that break one of the rules of
//! document 02, [1] (7, 10 and 14 to 19), at any link at which that rule can be broken, in paths
//! of 1 to 16 links. Links that such a path needs and that the plan lacks are added to it, or
//! take the place of links that no path uses.

use crate::good::first_path;
use crate::plan::{Link, Place, Plan};
use crate::random::{free_slots, Ground, Random};

/// A path as the ends of its links; they need not join.
type Hops = Vec<(usize, usize)>;

/// The most links of a path, and the most links and vertices of a plan.
const LONGEST: usize = 16;
const LINKS: usize = 64;
const VERTICES: usize = 64;

/// The numbers of first paths, and those of second paths.
pub const OF_FIRST: [usize; 3] = [7, 14, 15];
pub const OF_SECOND: [usize; 5] = [10, 16, 17, 18, 19];

/// The plan in which the first path of this message, or the second path from this place of it,
/// breaks the rule of this number; nothing if that cannot be.
pub fn break_path(
    r: &mut Random,
    plan: &mut Plan,
    number: usize,
    m: usize,
    place: usize,
) -> Option<()> {
    if number == 7 || number == 10 {
        leave_a_number(plan)?;
    }
    if OF_FIRST.contains(&number) {
        break_first_path(r, plan, number, m)
    } else {
        break_second_path(r, plan, number, m, place)
    }
}

/// 7: "a link not below E"; 14: "links that don't join"; 15: "a vertex met twice".
fn break_first_path(r: &mut Random, plan: &mut Plan, number: usize, m: usize) -> Option<()> {
    let links = first_path(plan, m);
    let links = if number == 7 {
        with_a_bad_link(r, plan, links)?
    } else {
        let hops = hops_of(plan, &links)?;
        let hops = match number {
            14 => with_links_apart(r, plan, hops)?,
            _ => with_a_vertex_again(r, hops, false)?,
        };
        links_of(plan, &hops)?
    };
    set_first_path(r, plan, m, &links);
    Some(())
}

/// 10: "the bad link"; 16: "a wrong beginning or join"; 17: "a wrong end"; 18: "a vertex met
/// twice"; 19: "a start with the replaced link".
fn break_second_path(
    r: &mut Random,
    plan: &mut Plan,
    number: usize,
    m: usize,
    place: usize,
) -> Option<()> {
    let links = match plan.messages[m].places[place].second.clone() {
        Some(links) if r.percent(85) => links,
        _ => new_second_path(r, plan, m, place)?,
    };
    let links = longer_path(r, plan, links)?;
    let links = if number == 10 {
        with_a_bad_link(r, plan, links)?
    } else {
        let hops = hops_of(plan, &links)?;
        let hops = match number {
            16 if r.percent(45) => with_a_wrong_beginning(r, plan, hops)?,
            16 => with_links_apart(r, plan, hops)?,
            17 => with_a_wrong_end(r, plan, hops)?,
            18 if r.percent(40) => with_the_end_again(r, plan, hops)?,
            18 => with_a_vertex_again(r, hops, true)?,
            _ => with_the_replaced_link(r, plan, m, place)?,
        };
        links_of(plan, &hops)?
    };
    plan.messages[m].places[place].second = Some(links);
    Some(())
}

/// A second path from this place, straight or over one other vertex.
fn new_second_path(r: &mut Random, plan: &mut Plan, m: usize, place: usize) -> Option<Vec<usize>> {
    let path = hops_of(plan, &first_path(plan, m))?;
    let (stands, target) = (path[place].0, path.last()?.1);
    if place + 1 < path.len() && r.percent(50) {
        return links_of(plan, &[(stands, target)]);
    }
    let over = vertex_but(r, plan, &[stands, target])?;
    links_of(plan, &[(stands, over), (over, target)])
}

// ------------------------------------------------------------------- one fault each

/// A link not below E in place of one of these.
fn with_a_bad_link(r: &mut Random, plan: &Plan, mut links: Vec<usize>) -> Option<Vec<usize>> {
    let number_of_links = plan.links.len();
    if number_of_links == LINKS {
        return None;
    }
    let step = r.place_below(links.len());
    links[step] = match r.below(3) {
        0 => number_of_links,
        1 => LINKS - 1,
        _ => r.between(number_of_links, LINKS - 1),
    };
    Some(links)
}

/// A link that does not begin where the last ended.
fn with_links_apart(r: &mut Random, plan: &mut Plan, mut hops: Hops) -> Option<Hops> {
    let last = hops.len() - 1;
    if last == 0 {
        return None;
    }
    let step = 1 + r.place_below(last);
    match r.below(5) {
        0 => hops[step] = any_hop(r, plan), // then the next one may not join either
        1 if step < last => {
            hops.remove(step);
        }
        2 if step < last => hops.swap(step, step + 1),
        _ => hops[step].0 = vertex_but(r, plan, &vertices_met(&hops))?,
    }
    Some(hops)
}

/// A vertex met twice: the one where the path begins, the one before, or another one; and from
/// there on to where it led before, or no further.
fn with_a_vertex_again(r: &mut Random, mut hops: Hops, to_the_end: bool) -> Option<Hops> {
    let last_step = if to_the_end { hops.len() - 1 } else { hops.len() };
    if last_step == 0 {
        return None;
    }
    let step = match r.below(10) {
        0 => 1,
        1..=3 => last_step,
        _ => r.between(1, last_step),
    };
    let again = hops[r.place_below(step)].0;
    let here = hops[step - 1].1;
    if here == again {
        return None;
    }
    if to_the_end || step < hops.len() && r.percent(80) {
        hops[step].0 = again;
        hops.insert(step, (here, again));
    } else {
        hops.truncate(step);
        hops.push((here, again));
    }
    no_loops(hops)
}

/// The end met twice: away from it and back, over one to three others.
fn with_the_end_again(r: &mut Random, plan: &mut Plan, mut hops: Hops) -> Option<Hops> {
    let end = hops.last()?.1;
    let mut met = vertices_met(&hops);
    let mut here = end;
    for _ in 0..*r.pick(&[1, 1, 2, 3]) {
        let next = vertex_but(r, plan, &met)?;
        hops.push((here, next));
        met.push(next);
        here = next;
    }
    hops.push((here, end));
    no_loops(hops)
}

/// Begins elsewhere.
fn with_a_wrong_beginning(r: &mut Random, plan: &mut Plan, mut hops: Hops) -> Option<Hops> {
    let elsewhere = vertex_but(r, plan, &vertices_met(&hops))?;
    match r.below(5) {
        0 if hops.len() > 1 => {
            hops.remove(0);
        }
        1 => hops.insert(0, (elsewhere, hops[0].0)),
        2 => hops[0] = any_hop(r, plan), // then the next one may not join either
        _ => hops[0].0 = elsewhere,
    }
    no_loops(hops)
}

/// Ends elsewhere.
fn with_a_wrong_end(r: &mut Random, plan: &mut Plan, mut hops: Hops) -> Option<Hops> {
    let last = hops.len() - 1;
    let elsewhere = vertex_but(r, plan, &vertices_met(&hops))?;
    match r.below(5) {
        0 if last > 0 => {
            hops.pop();
        }
        1 if last > 0 => hops.truncate(r.between(1, last)),
        2 => hops.push((hops[last].1, elsewhere)),
        _ => hops[last].1 = elsewhere,
    }
    no_loops(hops)
}

/// Begins with the link it replaces: the rest of the first path, or that and other links.
fn with_the_replaced_link(r: &mut Random, plan: &mut Plan, m: usize, place: usize) -> Option<Hops> {
    let mut rest = hops_of(plan, &first_path(plan, m)[place..])?;
    let others = rest.split_off(1);
    if others.is_empty() {
        return Some(rest);
    }
    let others = lengthened(r, plan, others, &vertices_met(&rest), LONGEST - 1);
    Some([rest, others].concat())
}

// -------------------------------------------------------------------- links and paths

/// The ends of these links, if all are below E.
fn hops_of(plan: &Plan, links: &[usize]) -> Option<Hops> {
    links.iter().map(|link| plan.links.get(*link).map(|link| (link.from, link.to))).collect()
}

/// The hops, if there are not too many, and none leads to where it begins.
fn no_loops(hops: Hops) -> Option<Hops> {
    Some(hops).filter(|hops| hops.len() <= LONGEST && hops.iter().all(|(from, to)| from != to))
}

fn vertices_met(hops: &[(usize, usize)]) -> Vec<usize> {
    hops.iter().flat_map(|(from, to)| [*from, *to]).collect()
}

/// The ends of some link.
fn any_hop(r: &mut Random, plan: &Plan) -> (usize, usize) {
    let link = r.pick(&plan.links);
    (link.from, link.to)
}

/// A vertex that is none of these, now and then a new one.
fn vertex_but(r: &mut Random, plan: &mut Plan, met: &[usize]) -> Option<usize> {
    let others: Vec<usize> = (0..plan.vertices).filter(|vertex| !met.contains(vertex)).collect();
    if !others.is_empty() && (plan.vertices == VERTICES || r.percent(80)) {
        return Some(*r.pick(&others));
    }
    if plan.vertices == VERTICES {
        return None;
    }
    plan.vertices += 1;
    Some(plan.vertices - 1)
}

/// The path as it is, or with more links, at most so many: other vertices lie between the ends of
/// one of them, and none of these.
fn lengthened(
    r: &mut Random,
    plan: &mut Plan,
    mut hops: Hops,
    but: &[usize],
    longest: usize,
) -> Hops {
    // For n links more n + 1 new ones are to be had, and three are left for the fault itself.
    let to_be_had = LINKS - plan.links.len() + unused_links(plan).len();
    let most = longest.min(hops.len() + to_be_had.saturating_sub(4)).max(hops.len());
    let wanted = match r.below(10) {
        0 | 1 => hops.len(),
        2..=7 => r.between(hops.len(), most),
        8 => most.saturating_sub(1).max(hops.len()),
        _ => most,
    };
    let step = r.below(hops.len());
    let (from, to) = hops[step];
    let mut met = [vertices_met(&hops), but.to_vec()].concat();
    let mut over = vec![from];
    for _ in hops.len()..wanted {
        if let Some(vertex) = vertex_but(r, plan, &met) {
            met.push(vertex);
            over.push(vertex);
        }
    }
    over.push(to);
    hops.splice(step..=step, over.windows(2).map(|two| (two[0], two[1])));
    hops
}

/// These links, or such a longer path; they stay as they are if one is not below E.
fn longer_path(r: &mut Random, plan: &mut Plan, links: Vec<usize>) -> Option<Vec<usize>> {
    match hops_of(plan, &links) {
        None => Some(links),
        Some(hops) => {
            let hops = lengthened(r, plan, hops, &[], LONGEST);
            links_of(plan, &hops)
        }
    }
}

/// The first path of this message gets longer if it can, and the timeout with it. The places that
/// stay keep their second paths.
pub fn lengthen_first_path(r: &mut Random, plan: &mut Plan, m: usize) -> Option<()> {
    let links = longer_path(r, plan, first_path(plan, m))?;
    let timeout = plan.timeout.max(r.between(links.len(), 64));
    let ground = ground_without(plan, m, timeout);
    let slots = (0..6).find_map(|_| free_slots(r, &ground, &links))?;
    plan.timeout = timeout;
    let old = std::mem::take(&mut plan.messages[m].places);
    for (link, slot) in links.into_iter().zip(slots) {
        let stays = old.iter().find(|place| place.link == link);
        let second = stays.and_then(|place| place.second.clone());
        plan.messages[m].places.push(Place { link, slot, second });
    }
    Some(())
}

/// What the other messages hold.
fn ground_without(plan: &Plan, m: usize, timeout: usize) -> Ground {
    let others = plan.messages.iter().enumerate().filter(|(other, _)| *other != m);
    let places = others.flat_map(|(_, message)| &message.places);
    let held = places.map(|place| (place.link, place.slot)).collect();
    Ground { links: Vec::new(), load: Vec::new(), held, timeout }
}

/// The links that no path uses.
pub fn unused_links(plan: &Plan) -> Vec<usize> {
    (0..plan.links.len())
        .filter(|link| {
            plan.messages.iter().flat_map(|message| &message.places).all(|place| {
                place.link != *link && !place.second.iter().flatten().any(|other| other == link)
            })
        })
        .collect()
}

/// The links with these ends: those of the plan, else new ones, else ones that no path uses.
fn links_of(plan: &mut Plan, hops: &[(usize, usize)]) -> Option<Vec<usize>> {
    let mut links: Vec<usize> = Vec::new();
    for (from, to) in hops {
        let wanted = Link { from: *from, to: *to };
        let link = match plan.links.iter().position(|link| *link == wanted) {
            Some(link) => link,
            None if plan.links.len() < LINKS => {
                plan.links.push(wanted);
                plan.links.len() - 1
            }
            None => {
                let unused = unused_links(plan).into_iter().find(|link| !links.contains(link))?;
                plan.links[unused] = wanted;
                unused
            }
        };
        links.push(link);
    }
    Some(links)
}

/// There is a link number not below E: if need be a link that no path uses goes, and the last one
/// gets its number.
fn leave_a_number(plan: &mut Plan) -> Option<()> {
    if plan.links.len() < LINKS {
        return Some(());
    }
    let unused = *unused_links(plan).first()?;
    plan.links.swap_remove(unused);
    let last = plan.links.len();
    let places = plan.messages.iter_mut().flat_map(|message| &mut message.places);
    for place in places {
        for link in std::iter::once(&mut place.link).chain(place.second.iter_mut().flatten()) {
            if *link == last {
                *link = unused;
            }
        }
    }
    Some(())
}

/// The message gets this first path. If it has as many links as before, it keeps its slots and now
/// and then its second paths; else it has none, and slots that nobody holds if there are such.
fn set_first_path(r: &mut Random, plan: &mut Plan, m: usize, links: &[usize]) {
    if links.len() == plan.messages[m].places.len() {
        let keeps = r.percent(30);
        for (place, link) in plan.messages[m].places.iter_mut().zip(links) {
            place.link = *link;
            place.second = place.second.take().filter(|_| keeps);
        }
        return;
    }
    let ground = ground_without(plan, m, plan.timeout);
    let free = if links.len() <= plan.timeout { free_slots(r, &ground, links) } else { None };
    let slots = free.unwrap_or((0..links.len()).collect());
    plan.messages[m].places = links
        .iter()
        .zip(slots)
        .map(|(link, slot)| Place { link: *link, slot, second: None })
        .collect();
}
