//! The random generator: numbers, good plans in which second paths compete with each
//! other and with the table, with cables that go both ways or not, and good cut lists.
//! (bad.rs spoils them, cases.rs makes questions and programs' inputs of them.)

use crate::cuts::{cable_names, name_of, other_way, Pair};
use crate::plan::{Link, Message, Place, Plan};
use crate::slack::d;

/// splitmix64.
pub struct Random {
    state: u64,
}

impl Random {
    /// The generator of one case of a seed.
    pub fn of_case(seed: u64, case: u64) -> Random {
        let mut random = Random { state: seed };
        random.state = random.next() ^ case.wrapping_mul(0xD1B54A32D192ED03);
        random.next();
        random
    }

    pub fn next(&mut self) -> u64 {
        self.state = self.state.wrapping_add(0x9E3779B97F4A7C15);
        let mut z = self.state;
        z = (z ^ (z >> 30)).wrapping_mul(0xBF58476D1CE4E5B9);
        z = (z ^ (z >> 27)).wrapping_mul(0x94D049BB133111EB);
        z ^ (z >> 31)
    }

    /// A number from 0 to bound - 1.
    pub fn below(&mut self, bound: usize) -> usize {
        (self.next() % bound as u64) as usize
    }

    /// A number from low to high, both included.
    pub fn between(&mut self, low: usize, high: usize) -> usize {
        low + self.below(high + 1 - low)
    }

    /// True in so many of a hundred cases.
    pub fn percent(&mut self, chance: usize) -> bool {
        self.below(100) < chance
    }

    pub fn pick<'a, T>(&mut self, from: &'a [T]) -> &'a T {
        &from[self.below(from.len())]
    }

    pub fn shuffle<T>(&mut self, items: &mut [T]) {
        for last in (1..items.len()).rev() {
            items.swap(last, self.below(last + 1));
        }
    }

    /// The first, the last, or any number below the bound.
    pub fn place_below(&mut self, bound: usize) -> usize {
        match self.below(3) {
            0 => 0,
            1 => bound - 1,
            _ => self.below(bound),
        }
    }

    /// Draws one of the things by its weight.
    pub fn weighted<'a, T>(&mut self, things: &'a [(usize, T)]) -> &'a T {
        let mut at = self.below(things.iter().map(|(weight, _)| weight).sum());
        for (weight, thing) in things {
            if at < *weight {
                return thing;
            }
            at -= weight;
        }
        unreachable!()
    }
}

// ---------------------------------------------------------------- good plans

#[derive(Clone, Copy, PartialEq)]
pub enum Size {
    Tiny,
    Small,
    Middle,
    Large,
    Limit,
}

const SIZES: [(usize, Size); 5] = [
    (36, Size::Tiny),
    (30, Size::Small),
    (18, Size::Middle),
    (11, Size::Large),
    (5, Size::Limit),
];

pub fn any_size(r: &mut Random) -> Size {
    *r.weighted(&SIZES)
}

/// What bounds a plan on a random network, each from low to high.
struct Bounds {
    /// The vertices that have links.
    active: Range,
    links: Range,
    messages: Range,
    timeout: Range,
}

/// From low to high, both included.
type Range = (usize, usize);

/// A good plan of this size.
pub fn good_plan(r: &mut Random, size: Size) -> Plan {
    let bounds = match size {
        Size::Tiny => {
            Bounds { active: (2, 4), links: (1, 12), messages: (1, 5), timeout: (1, 8) }
        }
        Size::Small => {
            Bounds { active: (3, 6), links: (4, 24), messages: (2, 8), timeout: (3, 16) }
        }
        Size::Middle => {
            Bounds { active: (5, 10), links: (10, 48), messages: (4, 18), timeout: (6, 32) }
        }
        Size::Large => {
            Bounds { active: (8, 16), links: (40, 64), messages: (16, 32), timeout: (20, 64) }
        }
        Size::Limit if r.percent(35) => return two_way_limit_plan(r),
        Size::Limit => {
            let full = r.percent(25);
            return limit_plan(r, full);
        }
    };
    network_plan(r, &bounds)
}

/// A plan on a random network of the largest size: 64 links, 32 messages, t 64.
pub fn largest_plan(r: &mut Random) -> Plan {
    let bounds = Bounds { active: (9, 16), links: (64, 64), messages: (32, 32), timeout: (64, 64) };
    loop {
        let plan = network_plan(r, &bounds);
        if plan.links.len() == 64 && plan.messages.len() == 32 {
            return plan;
        }
    }
}

/// How many pairs a cut list may have as its first: so many cables, each in so many slots.
pub fn number_of_pairs(plan: &Plan) -> usize {
    cable_names(plan).len() * plan.timeout
}

/// A plan small enough for the exhaustive verdict: there are at most so many pairs.
pub fn plan_for_verdict(r: &mut Random, pairs: usize) -> Plan {
    let bounds = Bounds { active: (2, 5), links: (2, 9), messages: (1, 5), timeout: (2, 8) };
    let robust = r.percent(60);
    for tries in 0.. {
        let plan = network_plan(r, &bounds);
        // If possible two messages and more, each with a second path from its start.
        let fits_well = plan.messages.len() > 1
            && plan.messages.iter().all(|message| message.places[0].second.is_some());
        if number_of_pairs(&plan) <= pairs && (!robust || fits_well || tries > 50) {
            return plan;
        }
    }
    unreachable!()
}

/// A plan for captures: there are at most so many pairs, and mostly there are messages that share
/// a link of their second paths, so that they hold each other, and messages that wait.
pub fn plan_for_capture(r: &mut Random, pairs: usize) -> Plan {
    let bounds = Bounds { active: (3, 5), links: (3, 10), messages: (2, 6), timeout: (2, 9) };
    for tries in 0.. {
        let plan = if r.percent(25) {
            let mut plan = ladder_plan(r);
            let places = plan.messages.iter().flat_map(|message| &message.places);
            let last = places.map(|place| place.slot).max().unwrap();
            plan.timeout = (last + r.between(1, 4)).min(64);
            plan
        } else {
            network_plan(r, &bounds)
        };
        if number_of_pairs(&plan) <= pairs && (shares_second_paths(&plan) || tries > 40) {
            return plan;
        }
    }
    unreachable!()
}

/// Whether two messages have a second path through the same link.
fn shares_second_paths(plan: &Plan) -> bool {
    let passes = |message: &Message, link: usize| {
        let seconds = message.places.iter().filter_map(|place| place.second.as_ref());
        seconds.flatten().any(|other| *other == link)
    };
    (0..plan.links.len()).any(|link| {
        plan.messages.iter().filter(|message| passes(message, link)).count() > 1
    })
}

/// How many links of a network have their other way in it.
#[derive(Clone, Copy, PartialEq)]
enum Cables {
    /// None.
    OneWay,
    /// Those of one to three cables.
    FewBothWays,
    /// Most of them.
    MostBothWays,
    /// All of them.
    BothWays,
}

const CABLES: [(usize, Cables); 4] = [
    (35, Cables::OneWay),
    (20, Cables::FewBothWays),
    (12, Cables::MostBothWays),
    (33, Cables::BothWays),
];

/// How the paths of a plan are laid.
#[derive(Clone, Copy, PartialEq)]
enum Manner {
    /// Few starts and targets, so that messages meet on the same links.
    Crowd,
    /// Each message from anywhere to anywhere.
    Scattered,
    /// Document 000, section 6: shortest first paths, and as second paths the
    /// shortest ones in the network without the links of the first path.
    Document000,
}

/// What a plan is laid on while it grows.
pub struct Ground {
    pub links: Vec<Link>,
    /// How many paths use each link.
    pub load: Vec<usize>,
    /// The table: link and slot of every place so far.
    pub held: Vec<(usize, usize)>,
    pub timeout: usize,
}

/// The links of a random network on these vertices.
fn network(r: &mut Random, names: &[usize], bounds: Range) -> Vec<Link> {
    let mut links = Vec::new();
    let shape = r.below(100);
    if shape < 15 && names.len() >= 4 {
        // A target and a hub: each other vertex is linked to both, the hub to the
        // target, and so all second paths meet there.
        for start in &names[2..] {
            links.push(Link { from: *start, to: names[0] });
            links.push(Link { from: *start, to: names[1] });
        }
        links.push(Link { from: names[1], to: names[0] });
    } else if shape < 50 && names.len() >= 4 {
        // Layers of two or three vertices, each linked to the next ones: long paths,
        // and from every vertex another way.
        let width = if names.len() >= 6 { r.between(2, 3) } else { 2 };
        let layers: Vec<&[usize]> = names.chunks(width).collect();
        for two in layers.windows(2) {
            for from in two[0] {
                for to in two[1] {
                    links.push(Link { from: *from, to: *to });
                }
            }
        }
        for one in &layers {
            if one.len() >= 2 && r.percent(50) {
                links.push(Link { from: one[0], to: one[1] });
            }
        }
    } else {
        // Any of the ordered pairs.
        for from in names {
            for to in names {
                if from != to {
                    links.push(Link { from: *from, to: *to });
                }
            }
        }
    }
    r.shuffle(&mut links);
    // One way of each cable.
    let mut one_way: Vec<Link> = Vec::new();
    for link in links {
        if !one_way.contains(&reversed(link)) {
            one_way.push(link);
        }
    }
    let cables = *r.weighted(&CABLES);
    // Where most go both ways, the bounds are those of cables, as far as there may be links.
    let ways = match cables {
        Cables::OneWay | Cables::FewBothWays => 1,
        Cables::MostBothWays | Cables::BothWays => 2,
    };
    let highest = (ways * bounds.1.min(one_way.len())).min(64);
    let lowest = (ways * bounds.0).min(highest);
    // Dense networks more often: they have more second paths.
    let number = match r.below(10) {
        0..=5 => highest,
        6 | 7 => r.between((lowest + highest) / 2, highest),
        _ => r.between(lowest, highest),
    };
    with_other_ways(r, one_way, cables, number)
}

/// The same ends the other way round.
fn reversed(link: Link) -> Link {
    Link { from: link.to, to: link.from }
}

/// About so many of these links, and the other ways of some or all of them.
fn with_other_ways(r: &mut Random, one_way: Vec<Link>, cables: Cables, number: usize) -> Vec<Link> {
    let mut links = one_way;
    match cables {
        Cables::OneWay => links.truncate(number),
        Cables::FewBothWays => {
            let few = r.between(1, 3).min((number / 2).max(1));
            links.truncate((number - few).max(1));
            let backwards: Vec<Link> = links.iter().take(few).copied().map(reversed).collect();
            links.extend(backwards);
            r.shuffle(&mut links);
        }
        Cables::MostBothWays => {
            links.truncate((number / 2).max(1));
            let backwards: Vec<Link> =
                links.iter().copied().filter(|_| r.percent(75)).map(reversed).collect();
            links.extend(backwards);
            r.shuffle(&mut links);
        }
        Cables::BothWays => {
            links.truncate((number / 2).max(1));
            let backwards: Vec<Link> = links.iter().copied().map(reversed).collect();
            match r.below(4) {
                // Both ways of a cable next to each other; first all one way, then all the other, in
                // the same order or from the last one back; or in any order.
                0 => links = links.into_iter().zip(backwards).flat_map(|(a, b)| [a, b]).collect(),
                1 => links.extend(backwards),
                2 => links.extend(backwards.into_iter().rev()),
                _ => {
                    links.extend(backwards);
                    r.shuffle(&mut links);
                }
            }
        }
    }
    links
}

/// A plan on a random network: few vertices that matter among perhaps many, first
/// paths packed closely into the table, second paths that lean to links that others
/// use.
fn network_plan(r: &mut Random, bounds: &Bounds) -> Plan {
    let mut active = r.between(bounds.active.0, bounds.active.1);
    if bounds.links.1 >= 40 && r.percent(35) {
        active = r.between(active, 36); // many layers
    }
    let vertices = match r.below(4) {
        0 => 64,
        1 => r.between(active, 64),
        _ => active,
    };
    let mut names: Vec<usize> = (0..vertices).collect();
    r.shuffle(&mut names);
    names.truncate(active);
    let links = network(r, &names, bounds.links);

    let timeout = r.between(bounds.timeout.0, bounds.timeout.1);
    let load = vec![0; links.len()];
    let mut ground = Ground { links, load, held: Vec::new(), timeout };
    let manner = *r.weighted(&[
        (65, Manner::Crowd),
        (20, Manner::Scattered),
        (15, Manner::Document000),
    ]);
    let second_chance = *r.pick(&[100, 100, 100, 90, 75, 30]);
    let wanted = if r.percent(60) {
        r.between((bounds.messages.0 + bounds.messages.1) / 2, bounds.messages.1)
    } else {
        r.between(bounds.messages.0, bounds.messages.1)
    };
    // The few starts and targets of the crowd; every other time also from target to start.
    let number_of_ends = r.between(1, 3);
    let mut ends: Vec<(usize, usize)> =
        (0..number_of_ends).map(|_| two_way_ends(r, &ground, &names)).collect();
    if r.percent(50) {
        ends = ends.into_iter().flat_map(|(from, to)| [(from, to), (to, from)]).collect();
    }

    let mut messages = Vec::new();
    for _ in 0..4 * wanted {
        if messages.len() == wanted {
            break;
        }
        let path = if manner == Manner::Crowd && r.percent(30) {
            stretch_of_a_second_path(r, &messages)
        } else if manner != Manner::Document000 && r.percent(25) {
            way_back(r, &ground, &messages).or_else(|| stretch_of_a_second_path(r, &messages))
        } else {
            let (from, to) = match manner {
                Manner::Crowd if r.percent(85) => *r.pick(&ends),
                Manner::Scattered if r.percent(50) => two_way_ends(r, &ground, &names),
                _ => (*r.pick(&names), *r.pick(&names)),
            };
            new_first_path(r, &ground, manner, from, to)
        };
        if let Some(path) = path {
            if let Some(message) = new_message(r, &mut ground, manner, &path, second_chance) {
                // Anywhere among the others, so that any one may be the lower one.
                let at = r.below(messages.len() + 1);
                messages.insert(at, message);
            }
        }
    }
    if messages.is_empty() {
        // A path of one link always fits.
        let link = r.below(ground.links.len());
        let slot = r.below(timeout);
        messages.push(Message { places: vec![Place { link, slot, second: None }] });
    }
    Plan { vertices, timeout, links: ground.links, messages }
}

/// A start and a target, if possible with a second way between them.
fn two_way_ends(r: &mut Random, ground: &Ground, names: &[usize]) -> (usize, usize) {
    for _ in 0..12 {
        let (from, to) = (*r.pick(names), *r.pick(names));
        if from == to {
            continue;
        }
        if let Some(path) = shortest_path(r, ground, from, to, &[]) {
            if path.len() <= 16 && shortest_path(r, ground, from, to, &path[..1]).is_some() {
                return (from, to);
            }
        }
    }
    (*r.pick(names), *r.pick(names))
}

/// A first path from here to there, if one is found.
fn new_first_path(
    r: &mut Random,
    ground: &Ground,
    manner: Manner,
    from: usize,
    to: usize,
) -> Option<Vec<usize>> {
    if from == to {
        return None;
    }
    if manner == Manner::Document000 || r.percent(55) {
        shortest_path(r, ground, from, to, &[])
    } else {
        winding_path(r, ground, from, to, None, ground.timeout.min(16))
    }
}

/// A first path that lies on another message's second path, and so holds it up.
fn stretch_of_a_second_path(r: &mut Random, messages: &[Message]) -> Option<Vec<usize>> {
    let seconds: Vec<&Vec<usize>> = messages
        .iter()
        .flat_map(|message| &message.places)
        .filter_map(|place| place.second.as_ref())
        .collect();
    if seconds.is_empty() {
        return None;
    }
    let second = r.pick(&seconds);
    let begin = r.below(second.len());
    let end = r.between(begin + 1, second.len());
    Some(second[begin..end].to_vec())
}

/// A first path that goes back over the cables of another message's path, or of a stretch of it.
fn way_back(r: &mut Random, ground: &Ground, messages: &[Message]) -> Option<Vec<usize>> {
    if messages.is_empty() {
        return None;
    }
    let places = &r.pick(messages).places;
    let of_first: Vec<usize> = places.iter().map(|place| place.link).collect();
    let path = match &r.pick(places).second {
        Some(second) if r.percent(40) => second.clone(),
        _ => of_first,
    };
    let begin = if r.percent(50) { 0 } else { r.below(path.len()) };
    let end = if r.percent(50) { path.len() } else { r.between(begin + 1, path.len()) };
    let back = path[begin..end].iter().rev().map(|link| other_way_on(ground, *link));
    back.collect()
}

/// The other way of a link of the ground, if it has one.
fn other_way_on(ground: &Ground, link: usize) -> Option<usize> {
    ground.links.iter().position(|other| *other == reversed(ground.links[link]))
}

/// A path uses a link; its cable's other way is then as likely to be taken by other paths.
fn load(ground: &mut Ground, link: usize) {
    ground.load[link] += 1;
    if let Some(other) = other_way_on(ground, link) {
        ground.load[other] += 1;
    }
}

/// A message with this first path, if there are slots for it, and second paths.
fn new_message(
    r: &mut Random,
    ground: &mut Ground,
    manner: Manner,
    path: &[usize],
    second_chance: usize,
) -> Option<Message> {
    if path.len() > ground.timeout.min(16) {
        return None;
    }
    let to = ground.links[*path.last().unwrap()].to;
    let slots = free_slots(r, ground, path)?;
    let mut places = Vec::new();
    for (place, link) in path.iter().enumerate() {
        ground.held.push((*link, slots[place]));
        load(ground, *link);
        places.push(Place { link: *link, slot: slots[place], second: None });
    }
    for place in 0..places.len() {
        if !r.percent(second_chance) {
            continue;
        }
        let stands = ground.links[path[place]].from;
        let second = if manner == Manner::Document000 {
            shortest_path(r, ground, stands, to, path)
        } else if r.percent(40) {
            shortest_path(r, ground, stands, to, &[path[place]])
        } else {
            winding_path(r, ground, stands, to, Some(path[place]), 16)
        };
        if let Some(second) = second {
            if second.len() <= 16 && second[0] != path[place] {
                for link in &second {
                    load(ground, *link);
                }
                places[place].second = Some(second);
            }
        }
    }
    Some(Message { places })
}

/// Rising slots for a path that nobody holds, mostly as close together as can be.
pub fn free_slots(r: &mut Random, ground: &Ground, path: &[usize]) -> Option<Vec<usize>> {
    let mut slots = Vec::new();
    let spare = ground.timeout - path.len();
    // As early as can be, somewhere, or so late that a late cut may be the worst one.
    let mut next = match r.below(10) {
        0..=4 => 0,
        5..=7 => r.below(spare + 1),
        _ => spare,
    };
    for link in path {
        if r.percent(15) {
            next += r.below(3);
        }
        while ground.held.contains(&(*link, next)) {
            next += 1;
        }
        if next >= ground.timeout {
            return None;
        }
        slots.push(next);
        next += 1;
    }
    Some(slots)
}

/// A shortest path that avoids some links; of several, any.
fn shortest_path(
    r: &mut Random,
    ground: &Ground,
    from: usize,
    to: usize,
    avoided: &[usize],
) -> Option<Vec<usize>> {
    let mut order: Vec<usize> = (0..ground.links.len()).collect();
    r.shuffle(&mut order);
    let mut reached = vec![from];
    let mut by = vec![None; 64];
    let mut at = 0;
    while at < reached.len() {
        let here = reached[at];
        at += 1;
        for link in &order {
            let Link { from: start, to: end } = ground.links[*link];
            if start == here && !avoided.contains(link) && !reached.contains(&end) {
                reached.push(end);
                by[end] = Some(*link);
            }
        }
    }
    let mut path = Vec::new();
    let mut here = to;
    while here != from {
        let link = by[here]?;
        path.push(link);
        here = ground.links[link].from;
    }
    path.reverse();
    Some(path)
}

/// A path that winds about, more often over links that others use; it does not
/// begin with the link `not_first`.
fn winding_path(
    r: &mut Random,
    ground: &Ground,
    from: usize,
    to: usize,
    not_first: Option<usize>,
    longest: usize,
) -> Option<Vec<usize>> {
    let crowded = r.percent(60);
    // Seldom at full length, so that slack is now below, now above zero.
    let longest = if r.percent(70) { longest.min(r.between(1, 8)) } else { longest };
    let mut path = Vec::new();
    let mut visited = vec![from];
    let mut effort = 300;
    if wind(r, ground, to, not_first, longest, crowded, &mut path, &mut visited, &mut effort) {
        Some(path)
    } else {
        None
    }
}

fn wind(
    r: &mut Random,
    ground: &Ground,
    to: usize,
    not_first: Option<usize>,
    longest: usize,
    crowded: bool,
    path: &mut Vec<usize>,
    visited: &mut Vec<usize>,
    effort: &mut usize,
) -> bool {
    let here = *visited.last().unwrap();
    if here == to {
        return true;
    }
    if path.len() == longest || *effort == 0 {
        return false;
    }
    *effort -= 1;
    let mut next: Vec<usize> = (0..ground.links.len())
        .filter(|link| ground.links[*link].from == here)
        .filter(|link| !visited.contains(&ground.links[*link].to))
        .filter(|link| !(path.is_empty() && not_first == Some(*link)))
        .collect();
    r.shuffle(&mut next);
    if crowded {
        next.sort_by_key(|link| usize::MAX - ground.load[*link]);
    }
    for link in next {
        path.push(link);
        visited.push(ground.links[link].to);
        if wind(r, ground, to, not_first, longest, crowded, path, visited, effort) {
            return true;
        }
        path.pop();
        visited.pop();
    }
    false
}

/// A plan at the limits: 64 vertices, 64 links, 32 messages, t 64, first paths of 16
/// links that follow each other closely along one chain, and from each place a
/// second path of 16 links, all by one side chain. That full plan has the longest
/// row and the longest file; mostly it is thinned out, and some second paths leave
/// the side chain early.
pub fn limit_plan(r: &mut Random, full: bool) -> Plan {
    let mut names: Vec<usize> = (0..64).collect();
    r.shuffle(&mut names);
    let chain = &names[..17];
    let side = &names[17..32];
    let rest = &names[32..];
    let target = chain[16];
    let mut links = Vec::new();
    for two in chain.windows(2) {
        links.push(Link { from: two[0], to: two[1] }); // 0 to 15: along the chain
    }
    for from in &chain[..16] {
        links.push(Link { from: *from, to: side[0] }); // 16 to 31: to the side chain
    }
    for two in side.windows(2) {
        links.push(Link { from: two[0], to: two[1] }); // 32 to 45: along the side chain
    }
    for from in side.iter().rev().take(9) {
        links.push(Link { from: *from, to: target }); // 46 to 54: back, the last one first
    }
    if !full && r.percent(50) {
        // The others are other ways of some of these.
        let mut others: Vec<Link> = links.iter().copied().map(reversed).collect();
        r.shuffle(&mut others);
        links.extend(others.into_iter().take(r.between(1, 64 - links.len())));
    }
    for two in rest.windows(2).take(64 - links.len()) {
        links.push(Link { from: two[0], to: two[1] });
    }
    // The links get their numbers in any order.
    let mut numbers: Vec<usize> = (0..64).collect();
    r.shuffle(&mut numbers);
    let mut numbered = links.clone();
    for (link, number) in numbers.iter().enumerate() {
        numbered[*number] = links[link];
    }
    let mut messages = Vec::new();
    for m in 0..32 {
        let begins = if full { 0 } else { *r.pick(&[0, 0, 0, 1, 15]) };
        let mut places = Vec::new();
        for place in begins..16 {
            let early = if full { 0 } else { *r.pick(&[0, 0, 1, 4, 8]) };
            let mut second = vec![numbers[16 + place]];
            second.extend(&numbers[32..46 - early]);
            second.push(numbers[46 + early]);
            let has_second = full || r.percent(90);
            places.push(Place {
                link: numbers[place],
                slot: place + m + if full { 0 } else { 16 * (m % 2) },
                second: if has_second { Some(second) } else { None },
            });
        }
        messages.push(Message { places });
    }
    Plan { vertices: 64, timeout: 64, links: numbered, messages }
}

/// A plan at the limits, all of whose 64 links are both ways of 32 cables: two rails of eleven
/// vertices, rungs between them, and a cable apart. Messages run both ways over either rail, and from
/// each place there is a second path by a rung, the other rail and a rung; some of these first go back
/// over the cables of their own first path.
fn two_way_limit_plan(r: &mut Random) -> Plan {
    const RUNGS: usize = 11;
    let mut names: Vec<usize> = (0..64).collect();
    r.shuffle(&mut names);
    let vertex = |rail: usize, rung: usize| names[RUNGS * rail + rung];
    let mut one_way = vec![Link { from: names[62], to: names[63] }];
    for rung in 0..RUNGS {
        one_way.push(Link { from: vertex(0, rung), to: vertex(1, rung) });
        if rung + 1 < RUNGS {
            one_way.push(Link { from: vertex(0, rung), to: vertex(0, rung + 1) });
            one_way.push(Link { from: vertex(1, rung), to: vertex(1, rung + 1) });
        }
    }
    r.shuffle(&mut one_way);
    let links = with_other_ways(r, one_way, Cables::BothWays, 64);
    let load = vec![0; links.len()];
    let mut ground = Ground { links, load, held: Vec::new(), timeout: 64 };
    // The links of a way along these vertices.
    let along = |ground: &Ground, vertices: &[usize]| -> Vec<usize> {
        let link = |two: &[usize]| {
            let ends = Link { from: two[0], to: two[1] };
            ground.links.iter().position(|link| *link == ends).unwrap()
        };
        vertices.windows(2).map(link).collect()
    };
    let mut messages = Vec::new();
    while messages.len() < 32 {
        let rail = r.below(2);
        let (from, to) = (r.below(RUNGS), r.below(RUNGS));
        if from == to {
            continue;
        }
        // The rungs from one to the other, rising or falling.
        let between = |from: usize, to: usize| -> Vec<usize> {
            if from < to { (from..=to).collect() } else { (to..=from).rev().collect() }
        };
        let rungs = between(from, to);
        let on = |rail: usize, rungs: &[usize]| -> Vec<usize> {
            rungs.iter().map(|rung| vertex(rail, *rung)).collect()
        };
        let path = along(&ground, &on(rail, &rungs));
        let slots = match free_slots(r, &ground, &path) {
            None => continue,
            Some(slots) => slots,
        };
        let mut places = Vec::new();
        for (place, link) in path.iter().enumerate() {
            ground.held.push((*link, slots[place]));
            let back = if r.percent(25) { r.below(place + 1) } else { 0 };
            let turn = rungs[place - back];
            let mut vertices = on(rail, &between(rungs[place], turn));
            vertices.extend(on(1 - rail, &between(turn, to)));
            vertices.push(vertex(rail, to));
            let second = Some(along(&ground, &vertices));
            let second = second.filter(|path| path.len() <= 16 && r.percent(90));
            places.push(Place { link: *link, slot: slots[place], second });
        }
        messages.push(Message { places });
    }
    Plan { vertices: 64, timeout: 64, links: ground.links, messages }
}

/// A plan for the promise about lost messages: with many places whose second path has
/// slack, often several for a message, with second paths that messages share, and with
/// slacks about zero.
pub fn plan_with_slack(r: &mut Random) -> Plan {
    let plan = match r.below(100) {
        0..=24 => {
            let bounds =
                Bounds { active: (3, 6), links: (4, 16), messages: (1, 6), timeout: (3, 16) };
            network_plan(r, &bounds)
        }
        25..=49 => {
            // Long paths and few messages: many places with slack on one path.
            let bounds =
                Bounds { active: (6, 12), links: (12, 36), messages: (1, 4), timeout: (8, 40) };
            network_plan(r, &bounds)
        }
        50..=92 => ladder_plan(r),
        93..=97 => good_plan(r, Size::Small),
        98 => good_plan(r, Size::Middle),
        _ => good_plan(r, Size::Large),
    };
    if r.percent(70) {
        retimed(r, plan)
    } else {
        plan
    }
}

/// One to three chains, each with a side vertex to which its vertices are linked and which
/// is linked to its end or to a vertex before it: the messages of a chain share their
/// second paths over it, and some of these come back to the first path. A few messages
/// have their first path over the side vertex. Where all links have their other way, every
/// other message goes back along the chain, and around over the side vertex.
fn ladder_plan(r: &mut Random) -> Plan {
    let mut links = Vec::new();
    let mut firsts: Vec<Vec<(usize, Option<Vec<usize>>)>> = Vec::new();
    let mut vertices = 0;
    let cables = *r.weighted(&CABLES);
    // Those that go back: each link, and whether its other way is meant.
    let mut backs: Vec<Vec<((usize, bool), Option<Vec<(usize, bool)>>)>> = Vec::new();
    for _ in 0..r.between(1, 3) {
        let length = r.between(1, 4);
        let (begin, side) = (vertices, vertices + length + 1);
        vertices = side + 1;
        // Where the side vertex leads back to.
        let joins = if r.percent(60) { length } else { r.between(1, length) };
        let chain = links.len();
        for step in 0..length {
            links.push(Link { from: begin + step, to: begin + step + 1 });
        }
        for step in 0..length {
            links.push(Link { from: begin + step, to: side });
        }
        links.push(Link { from: side, to: begin + joins });
        if joins < length && cables == Cables::OneWay {
            // The vertex where the side vertex leads to is not linked to it.
            links[chain + length + joins] = Link { from: side, to: begin + length };
        }
        let along = |from: usize| chain + from..chain + length;
        let around = |from: usize| {
            let mut path = vec![chain + length + from, chain + 2 * length];
            path.extend(along(joins));
            path
        };
        for _ in 0..*r.pick(&[1, 1, 2, 3]) {
            let from = r.below(joins);
            if cables == Cables::BothWays && r.percent(50) {
                let places = (from..joins).rev().map(|step| {
                    // From the vertex behind this step to the side vertex, and from there on.
                    let to_side = if step + 1 == joins {
                        (chain + 2 * length, true)
                    } else {
                        (chain + length + step + 1, false)
                    };
                    let second = vec![to_side, (chain + length + from, true)];
                    ((chain + step, true), Some(second).filter(|_| r.percent(85)))
                });
                backs.push(places.collect());
                continue;
            }
            firsts.push(if r.percent(80) {
                let places = from..length;
                places
                    .map(|step| {
                        let second = step < joins && r.percent(85);
                        (chain + step, if second { Some(around(step)) } else { None })
                    })
                    .collect()
            } else {
                let mut path: Vec<_> = around(from).into_iter().map(|link| (link, None)).collect();
                path[0].1 = Some(along(from).collect());
                path
            });
        }
    }
    // The other ways stand behind the links, as far as they are not there: all, or a few.
    let few = match cables {
        Cables::OneWay => 0,
        Cables::FewBothWays => r.between(1, 3).min(links.len()),
        Cables::MostBothWays => r.between(links.len() / 2, links.len()),
        Cables::BothWays => links.len(),
    };
    for link in 0..few {
        let back = reversed(links[link]);
        if !links.contains(&back) {
            links.push(back);
        }
    }
    let of = |(link, back): (usize, bool)| {
        let ends = if back { reversed(links[link]) } else { links[link] };
        links.iter().position(|link| *link == ends).unwrap()
    };
    for places in backs {
        let places = places.into_iter();
        let first = places.map(|(link, second)| {
            (of(link), second.map(|second| second.into_iter().map(of).collect()))
        });
        firsts.push(first.collect());
    }
    r.shuffle(&mut firsts);
    let timeout = r.between(6, 32);
    let load = vec![0; links.len()];
    let mut ground = Ground { links, load, held: Vec::new(), timeout };
    let mut messages = Vec::new();
    for first in firsts {
        let path: Vec<usize> = first.iter().map(|(link, _)| *link).collect();
        if let Some(slots) = free_slots(r, &ground, &path) {
            let mut places = Vec::new();
            for ((link, second), slot) in first.into_iter().zip(slots) {
                ground.held.push((link, slot));
                places.push(Place { link, slot, second });
            }
            messages.push(Message { places });
        }
    }
    if messages.is_empty() {
        return ladder_plan(r); // no path found its slots
    }
    let plan = Plan { vertices, timeout, links: ground.links, messages };
    if cables != Cables::OneWay && r.percent(60) {
        renumbered(r, plan)
    } else {
        plan
    }
}

/// The same plan with other numbers for its links.
fn renumbered(r: &mut Random, mut plan: Plan) -> Plan {
    let mut numbers: Vec<usize> = (0..plan.links.len()).collect();
    r.shuffle(&mut numbers);
    let links = plan.links.clone();
    for (link, number) in numbers.iter().enumerate() {
        plan.links[*number] = links[link];
    }
    for place in plan.messages.iter_mut().flat_map(|message| &mut message.places) {
        place.link = numbers[place.link];
        for link in place.second.iter_mut().flatten() {
            *link = numbers[*link];
        }
    }
    plan
}

/// The same plan with another timeout, as far as the slots let it: one at which a second
/// path, or the one with the least slack, has slack -1, 0, 1 or a little more, or one at
/// which a second path takes about all the time there is.
fn retimed(r: &mut Random, mut plan: Plan) -> Plan {
    let mut ends = Vec::new();
    let mut last = 0;
    for (m, message) in plan.messages.iter().enumerate() {
        for place in &message.places {
            last = last.max(place.slot);
            if let Some(second) = &place.second {
                ends.push((place.slot + second.len(), place.slot + d(&plan, m, second)));
            }
        }
    }
    if !ends.is_empty() {
        let (soonest, latest) = *r.pick(&ends);
        let last_of_all = ends.iter().map(|(_, latest)| *latest).max().unwrap();
        let more = *r.pick(&[0, 0, 1, 1, 2, 4]);
        let end = match r.below(10) {
            0..=2 => last_of_all + more - 1,
            3..=6 => latest + more - 1,
            _ => r.between(soonest, latest),
        };
        plan.timeout = end.clamp(last + 1, 64);
    }
    plan
}

// ----------------------------------------------------------------- cut lists

/// A good cut list: mostly cables that somebody uses, at slots that matter.
pub fn good_cuts(r: &mut Random, plan: &Plan) -> Vec<Pair> {
    let most = cable_names(plan).len();
    let number = match r.below(20) {
        0 => 0,
        1..=4 => 1,
        5..=10 => 2,
        11..=13 => 3,
        14..=17 => r.between(1, 8),
        18 => r.below(most + 1),
        _ => most,
    };
    let number = number.min(most);
    let mut cuts: Vec<Pair> = Vec::new();
    let entries: Vec<&Place> = plan.messages.iter().flat_map(|message| &message.places).collect();
    let with_second: Vec<&Place> =
        entries.iter().filter(|place| place.second.is_some()).copied().collect();
    let early = r.percent(50);
    for _ in 0..4 * number {
        if with_second.is_empty() || r.percent(25) {
            // Any link of a first path, or any link.
            if r.percent(60) {
                let place = r.pick(&entries);
                cuts.push((r.below(place.slot + 1), place.link));
            } else {
                cuts.push((r.place_below(plan.timeout), r.place_below(plan.links.len())));
            }
        } else {
            // A link with a second path around it, at or before its slot; and then
            // perhaps a link of that second path.
            let place = r.pick(&with_second);
            let slot = if early { r.below(3).min(place.slot) } else { r.below(place.slot + 1) };
            cuts.push((slot, place.link));
            if r.percent(35) {
                let link = *r.pick(place.second.as_ref().unwrap());
                let later = (slot + r.below(6)).min(plan.timeout - 1);
                cuts.push((later, link));
            }
        }
        cuts = without_repeats(plan, cuts);
        cuts.truncate(number);
        if cuts.len() == number {
            break;
        }
    }
    if number == most {
        // Every cable, each in some slot.
        cuts.extend(cable_names(plan).into_iter().map(|name| (r.below(plan.timeout), name)));
        cuts = without_repeats(plan, cuts);
    }
    if r.percent(12) {
        // Many in the same slot.
        let slot = r.below(plan.timeout);
        for pair in cuts.iter_mut() {
            pair.0 = slot;
        }
    }
    cuts.sort();
    cuts
}

/// A good cut list of at most four pairs: mostly about one message, links of its first
/// path at its slot or before, and links of its second paths, often late.
pub fn few_cuts(r: &mut Random, plan: &Plan) -> Vec<Pair> {
    let number = *r.weighted(&[(3, 0), (20, 1), (34, 2), (25, 3), (18, 4)]);
    let number = number.min(cable_names(plan).len());
    let last = plan.timeout - 1;
    let mut message = r.pick(&plan.messages);
    let mut cuts: Vec<Pair> = Vec::new();
    for _ in 0..4 * number {
        if r.percent(25) {
            message = r.pick(&plan.messages);
        }
        let place = r.pick(&message.places);
        let second = place.second.as_ref().filter(|_| r.percent(50));
        cuts.push(if r.percent(8) {
            (r.place_below(plan.timeout), r.below(plan.links.len()))
        } else if let Some(second) = second {
            let slot = match r.below(4) {
                0 => r.below(plan.timeout),
                1 => r.below(place.slot + 1),
                _ => (place.slot + r.below(5)).min(last),
            };
            (slot, *r.pick(second))
        } else {
            let slot = match r.below(10) {
                0..=3 => place.slot,
                4 | 5 => 0,
                6 => (place.slot + 1).min(last),
                _ => r.below(place.slot + 1),
            };
            (slot, place.link)
        });
        cuts = without_repeats(plan, cuts);
        if cuts.len() == number {
            break;
        }
    }
    cuts.sort();
    cuts
}

/// The pairs whose cable did not come before, each by its name.
fn without_repeats(plan: &Plan, cuts: Vec<Pair>) -> Vec<Pair> {
    let mut kept: Vec<Pair> = Vec::new();
    for (slot, link) in cuts {
        let name = name_of(plan, link);
        if kept.iter().all(|(_, other)| *other != name) {
            kept.push((slot, name));
        }
    }
    kept
}

/// The cables of a plan that go both ways: the lower and the higher link of each.
pub fn two_way_cables(plan: &Plan) -> Vec<(usize, usize)> {
    let both = |name| other_way(plan, name).map(|other| (name, other));
    cable_names(plan).into_iter().filter_map(both).collect()
}
