//! Plans for benchmarks, by kind and seed: the largest size with second paths that compete, plans in
//! the manner of document 000's evaluation (its section 6), the same on networks as they are built,
//! plans in which every message has a whole fallback, and plans in which all messages wait.

use crate::plan::{Link, Message, Place, Plan};
use crate::random::{free_slots, largest_plan, limit_plan, Ground, Random};

pub const KINDS: &str = "network, chain, small, wide, own, gadget, dual, grid or wait";

/// The plan of a kind and a seed, if there is such a kind.
pub fn plan(kind: &str, seed: u64) -> Option<Plan> {
    let mut r = Random::of_case(seed, 0);
    match kind {
        "network" => Some(largest_plan(&mut r)),
        "chain" => Some(limit_plan(&mut r, false)),
        "small" => Some(as_evaluated(&mut r, 25, 50, 10)),
        "wide" => Some(as_evaluated(&mut r, 32, 64, 64)),
        "own" => Some(in_gadgets(&mut r, GADGETS)),
        "gadget" => Some(in_gadgets(&mut r, MESSAGES)),
        "dual" => Some(routed(&mut r, HOSTS + 2, HOSTS, two_switches(), 64)),
        "grid" => Some(routed(&mut r, 16, 16, square(4), 64)),
        "wait" => Some(waiting(&mut r)),
        _ => None,
    }
}

const MESSAGES: usize = 32;
const HOSTS: usize = 15;
const GADGETS: usize = 21;

/// So many messages, each in one of 21 gadgets: two vertices, a link from one to the other, which is
/// its first path, and a way round by a third vertex, which is its second path. No gadget has two
/// messages more than another. Slots are drawn so that every second path has slack.
fn in_gadgets(r: &mut Random, number: usize) -> Plan {
    let (vertices, timeout) = (3 * GADGETS, 64);
    let mut links = Vec::new();
    for gadget in 0..GADGETS {
        let (from, by, to) = (3 * gadget, 3 * gadget + 1, 3 * gadget + 2);
        links.extend([Link { from, to }, Link { from, to: by }, Link { from: by, to }]);
    }
    r.shuffle(&mut links);
    let link = |from, to| links.iter().position(|link| link.from == from && link.to == to).unwrap();
    let mut gadgets: Vec<usize> = (0..GADGETS).collect();
    let mut held = Vec::new();
    let mut messages = Vec::new();
    while messages.len() < number {
        let at = messages.len() % GADGETS;
        if at == 0 {
            r.shuffle(&mut gadgets);
        }
        let (from, by, to) = (3 * gadgets[at], 3 * gadgets[at] + 1, 3 * gadgets[at] + 2);
        let place = link(from, to);
        let mut slot = r.below(timeout - 3);
        while held.contains(&(place, slot)) {
            slot = r.below(timeout - 3);
        }
        held.push((place, slot));
        let second = Some(vec![link(from, by), link(by, to)]);
        messages.push(Message { places: vec![Place { link: place, slot, second }] });
    }
    Plan { vertices, timeout, links, messages }
}

/// A ring of 64 links. All messages wait before eight of them, far from each other, until one of the
/// last 16 slots, and none has a second path: what is cut shows late, if ever.
fn waiting(r: &mut Random) -> Plan {
    let (vertices, timeout) = (64, 64);
    let links = (0..vertices).map(|from| Link { from, to: (from + 1) % vertices }).collect();
    let mut held = Vec::new();
    let mut messages = Vec::new();
    while messages.len() < MESSAGES {
        let (link, slot) = (8 * r.below(8), timeout - 16 + r.below(16));
        if !held.contains(&(link, slot)) {
            held.push((link, slot));
            messages.push(Message { places: vec![Place { link, slot, second: None }] });
        }
    }
    Plan { vertices, timeout, links, messages }
}

/// Each host has a link to and from both switches, and the switches one to and from each other.
fn two_switches() -> Vec<Link> {
    let (left, right) = (HOSTS, HOSTS + 1);
    let mut pairs = vec![(left, right)];
    pairs.extend((0..HOSTS).flat_map(|host| [(host, left), (host, right)]));
    both_ways(&pairs)
}

/// A square grid: each vertex has a link to and from the next one in its row and in its column.
fn square(side: usize) -> Vec<Link> {
    let mut pairs = Vec::new();
    for at in 0..side * side {
        if at % side + 1 < side {
            pairs.push((at, at + 1));
        }
        if at + side < side * side {
            pairs.push((at, at + side));
        }
    }
    both_ways(&pairs)
}

fn both_ways(pairs: &[(usize, usize)]) -> Vec<Link> {
    let there = pairs.iter().map(|&(from, to)| Link { from, to });
    let back = pairs.iter().map(|&(to, from)| Link { from, to });
    there.chain(back).collect()
}

/// "We fix the number of vertices, edges, and messages. We generate a random directed graph." There
/// are two links to a vertex, as in the larger of its settings, and here every vertex can be reached
/// from every other.
fn as_evaluated(r: &mut Random, vertices: usize, number: usize, timeout: usize) -> Plan {
    let links = connected(r, vertices, number);
    routed(r, vertices, vertices, links, timeout)
}

/// "Once we have a graph, we randomly select a source and a target for each message, while
/// guaranteeing that these are different nodes", here of the first so many vertices. Where there is
/// no room for a message, other ends are drawn for it.
fn routed(r: &mut Random, vertices: usize, ends: usize, links: Vec<Link>, timeout: usize) -> Plan {
    let load = vec![0; links.len()];
    let mut ground = Ground { links, load, held: Vec::new(), timeout };
    let mut messages = Vec::new();
    while messages.len() < MESSAGES {
        let (from, to) = (r.below(ends), r.below(ends));
        if from != to {
            messages.extend(message(r, &mut ground, from, to));
        }
    }
    Plan { vertices, timeout, links: ground.links, messages }
}

/// A random directed graph, drawn until every vertex can be reached from every other.
fn connected(r: &mut Random, vertices: usize, number: usize) -> Vec<Link> {
    let mut all = Vec::new();
    for from in 0..vertices {
        all.extend((0..vertices).filter(|to| *to != from).map(|to| Link { from, to }));
    }
    loop {
        r.shuffle(&mut all);
        let links = &all[..number];
        let back: Vec<Link> =
            links.iter().map(|link| Link { from: link.to, to: link.from }).collect();
        if reached(links) == vertices && reached(&back) == vertices {
            return links.to_vec();
        }
    }
}

/// How many vertices can be reached from vertex 0.
fn reached(links: &[Link]) -> usize {
    let mut seen = vec![0];
    let mut at = 0;
    while at < seen.len() {
        for link in links {
            if link.from == seen[at] && !seen.contains(&link.to) {
                seen.push(link.to);
            }
        }
        at += 1;
    }
    seen.len()
}

/// "The first path is the shortest path between s(m) and t(m). To find the second path, we remove the
/// edges that the first path traverses. For each vertex v on the first path, we set the second path
/// from v to be the shortest path from v to t(m) in the new graph, if it exists." "The weight of every
/// edge on the first and second path is incremented by 1."
fn message(r: &mut Random, ground: &mut Ground, from: usize, to: usize) -> Option<Message> {
    let path = lightest_path(ground, from, to, &[]).filter(|path| path.len() <= ground.timeout)?;
    let slots = free_slots(r, ground, &path)?;
    let mut places = Vec::new();
    let mut used = path.clone();
    for (link, slot) in path.iter().zip(slots) {
        let second = lightest_path(ground, ground.links[*link].from, to, &path);
        used.extend(second.iter().flatten());
        ground.held.push((*link, slot));
        places.push(Place { link: *link, slot, second });
    }
    used.sort();
    used.dedup();
    for link in used {
        ground.load[link] += 1;
    }
    Some(Message { places })
}

/// The path of least weight that avoids some links and, of those, of the fewest links: "The weight of
/// an edge refers to the number of times it appears in a first or second path." Nothing where it has
/// more than 16 links. Every way is made shorter until none can be.
fn lightest_path(ground: &Ground, from: usize, to: usize, avoided: &[usize]) -> Option<Vec<usize>> {
    let mut best: Vec<Option<(usize, usize)>> = vec![None; 64]; // weight and number of links
    let mut by = vec![0; 64];
    best[from] = Some((0, 0));
    let mut again = true;
    while again {
        again = false;
        for (number, link) in ground.links.iter().enumerate() {
            if avoided.contains(&number) {
                continue;
            }
            if let Some((weight, count)) = best[link.from] {
                let way = (weight + ground.load[number], count + 1);
                if best[link.to].map_or(true, |other| way < other) {
                    best[link.to] = Some(way);
                    by[link.to] = number;
                    again = true;
                }
            }
        }
    }
    best[to].filter(|(_, count)| *count <= 16)?;
    let mut path = Vec::new();
    let mut here = to;
    while here != from {
        path.push(by[here]);
        here = ground.links[by[here]].from;
    }
    path.reverse();
    Some(path)
}
