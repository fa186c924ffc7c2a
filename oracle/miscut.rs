//! Plausible wrong ways to read document 02, [3], "A cable goes both ways", and questions that show
//! them: each answers beside the right way, and where the two differ the question is worth keeping. No
//! answer of this program comes from this file; that it has a replay of its own, in which the right way
//! gives what `cycle.rs` does, lets the wrong ones change any rule of it.

use crate::captures::good_capture;
use crate::cuts::{name_of, other_way, Pair};
use crate::cycle::Event;
use crate::explain::{capture_of_numbers, crossings_of_slot, numbers_of_capture, Triple};
use crate::plan::{row_of, Plan};
use crate::probe::{self, spaced};
use crate::questions::{good_plan_of_row, numbers_of};
use crate::random::{
    few_cuts, good_cuts, number_of_pairs, plan_for_capture, plan_for_verdict, two_way_cables, Random,
};
use crate::slack::slack_of;

#[derive(Clone, Copy, PartialEq, Debug)]
pub enum Way {
    /// The request as it is read.
    Right,

    // What a pair may name.
    /// Either link of a cable names it.
    EitherName,
    /// The higher link names a cable, and the lower is refused.
    HigherName,
    /// Either link names a cable, and both may come in one list.
    BothMayBeNamed,
    /// The higher link passes once the lower one has been named.
    PassesAfterLower,
    /// Higher links are looked for when nothing else is bad in the list.
    HigherLookedForLast,
    /// Higher links are looked for before all else that may be bad in the list.
    HigherLookedForFirst,

    // What a pair cuts.
    /// The named link alone, whichever it is: document 01's sense.
    OneWay,
    /// The named link alone, which is the lower one of its cable.
    NamedLinkAlone,
    /// The lower link cuts both; the higher may be named, and cuts that link alone.
    HigherCutsOne,
    /// The named link and the first link that begins where it ends, wherever that leads to.
    OneEnd,
    /// The named link, and the other way if it has the next number.
    NextNumber,
    /// For messages on second paths the named link alone.
    OnlyFirstPaths,
    /// For messages on first paths the named link alone.
    OnlySecondPaths,
    /// The other way from the next slot on.
    FromNextSlot,
    /// The other way in the pair's own slot alone.
    InItsSlotAlone,
    /// The other way in the first pair of a list alone.
    FirstPairAlone,
    /// The other way in the last pair of a list alone.
    LastPairAlone,

    // What k counts, and what is told.
    /// k counts links: a pair on a cable with both ways takes two.
    LinksCounted,
    /// A list that is handed over names both links of its cables.
    BothTold,
    /// Events of kinds 6 and 7 tell the name of the cable, not the link.
    NameTold,

    // What stays as it is, and here does not.
    /// A link is held by the table, and by a lower message, if the other way of its cable is.
    HeldByTheOtherWay,
    /// a(e) and b(m, e) of a slack count both ways of a cable.
    SlackOfCables,
}

/// By their names, and within how many small questions of a seed each is found.
pub const WRONG: [(Way, &str, u64); 22] = [
    (Way::EitherName, "either-name", 100),
    (Way::HigherName, "higher-name", 50),
    (Way::BothMayBeNamed, "both-may-be-named", 100),
    (Way::PassesAfterLower, "passes-after-lower", 200),
    (Way::HigherLookedForLast, "higher-looked-for-last", 500),
    (Way::HigherLookedForFirst, "higher-looked-for-first", 500),
    (Way::OneWay, "one-way", 50),
    (Way::NamedLinkAlone, "named-link-alone", 50),
    (Way::HigherCutsOne, "higher-cuts-one", 100),
    (Way::OneEnd, "one-end", 50),
    (Way::NextNumber, "next-number", 50),
    (Way::OnlyFirstPaths, "only-first-paths", 100),
    (Way::OnlySecondPaths, "only-second-paths", 50),
    (Way::FromNextSlot, "from-next-slot", 50),
    (Way::InItsSlotAlone, "in-its-slot-alone", 50),
    (Way::FirstPairAlone, "first-pair-alone", 100),
    (Way::LastPairAlone, "last-pair-alone", 100),
    (Way::LinksCounted, "links-counted", 100),
    (Way::BothTold, "both-told", 100),
    (Way::NameTold, "name-told", 100),
    (Way::HeldByTheOtherWay, "held-by-the-other-way", 100),
    (Way::SlackOfCables, "slack-of-cables", 300),
];

// -------------------------------------------------------------------------------- lists

/// Whether this way refuses the pair for the link that it names, after these earlier ones.
fn bad_name(way: Way, plan: &Plan, earlier: &[Pair], link: usize) -> bool {
    match way {
        Way::OneWay | Way::EitherName | Way::BothMayBeNamed | Way::HigherCutsOne => false,
        Way::HigherName => other_way(plan, link).is_some_and(|other| other > link),
        Way::PassesAfterLower => {
            let name = name_of(plan, link);
            name != link && earlier.iter().all(|(_, other)| *other != name)
        }
        _ => name_of(plan, link) != link,
    }
}

/// "no link twice".
fn comes_twice(way: Way, plan: &Plan, earlier: &[Pair], link: usize) -> bool {
    match way {
        Way::OneWay | Way::BothMayBeNamed | Way::HigherCutsOne | Way::PassesAfterLower => {
            earlier.iter().any(|(_, other)| *other == link)
        }
        _ => earlier.iter().any(|(_, other)| name_of(plan, *other) == name_of(plan, link)),
    }
}

fn bad_pair(way: Way, plan: &Plan, earlier: &[Pair], pair: Pair) -> bool {
    pair.0 >= plan.timeout
        || pair.1 >= plan.links.len()
        || earlier.last().is_some_and(|last| *last >= pair)
        || comes_twice(way, plan, earlier, pair.1)
        || bad_name(way, plan, earlier, pair.1)
}

/// The list in these numbers, or the index of the bad pair that this way gives.
fn list_of_numbers(way: Way, plan: &Plan, numbers: &[u16]) -> Result<Vec<Pair>, usize> {
    let higher = || {
        numbers.chunks(2).position(|two| {
            let link = *two.last().unwrap() as usize;
            two.len() == 2 && link < plan.links.len() && name_of(plan, link) != link
        })
    };
    let first_bad = |way: Way| {
        let mut list = Vec::new();
        for (index, two) in numbers.chunks(2).enumerate() {
            let pair = (two[0] as usize, *two.last().unwrap() as usize);
            if two.len() < 2 || bad_pair(way, plan, &list, pair) {
                return Err(index);
            }
            list.push(pair);
        }
        Ok(list)
    };
    match way {
        Way::HigherLookedForFirst => higher().map_or_else(|| first_bad(Way::Right), Err),
        // A cable may be there by both names: that is no link twice.
        Way::HigherLookedForLast => {
            first_bad(Way::BothMayBeNamed)?;
            first_bad(Way::Right)
        }
        _ => first_bad(way),
    }
}

/// How many of k a list takes.
fn counted(way: Way, plan: &Plan, list: &[Pair]) -> usize {
    match way {
        Way::LinksCounted => {
            list.len() + list.iter().filter(|(_, link)| other_way(plan, *link).is_some()).count()
        }
        _ => list.len(),
    }
}

/// Shows every list that takes so many of k, in the order of its numbers from the left, as long as
/// `show` says to go on.
fn every_list(
    way: Way,
    plan: &Plan,
    number: usize,
    list: &mut Vec<Pair>,
    show: &mut dyn FnMut(&[Pair]) -> bool,
) -> bool {
    let taken = counted(way, plan, list);
    if taken >= number {
        return taken > number || show(list);
    }
    let first_slot = list.last().map_or(0, |last| last.0);
    for slot in first_slot..plan.timeout {
        for link in 0..plan.links.len() {
            if bad_pair(way, plan, list, (slot, link)) {
                continue;
            }
            list.push((slot, link));
            let go_on = every_list(way, plan, number, list, show);
            list.pop();
            if !go_on {
                return false;
            }
        }
    }
    true
}

/// The first list of at most k, those that take the least of it first, of which `is` says so.
fn first_list(way: Way, plan: &Plan, k: usize, is: &dyn Fn(&[Pair]) -> bool) -> Option<Vec<Pair>> {
    let mut found = None;
    for number in 0..=k {
        every_list(way, plan, number, &mut Vec::new(), &mut |list| {
            if is(list) {
                found = Some(list.to_vec());
            }
            found.is_none()
        });
        if found.is_some() {
            break;
        }
    }
    found
}

/// The numbers of a list as this way hands it over.
fn told(way: Way, plan: &Plan, list: &[Pair]) -> Vec<u16> {
    let mut list = list.to_vec();
    if way == Way::BothTold {
        let others = |pair: &Pair| other_way(plan, pair.1).map(|other| (pair.0, other));
        let others: Vec<Pair> = list.iter().filter_map(others).collect();
        list.extend(others);
        list.sort();
    }
    numbers_of(&list)
}

// ------------------------------------------------------------------------------- replay

/// Who asks whether a link is cut: a message on its first path, or one on its second.
#[derive(Clone, Copy, PartialEq)]
enum On {
    First,
    Second,
}

fn is_cut(way: Way, plan: &Plan, list: &[Pair], slot: usize, on: On, link: usize) -> bool {
    list.iter().enumerate().any(|(at, (from_slot, named))| {
        let in_force = *from_slot <= slot;
        let is_other = || other_way(plan, *named) == Some(link);
        if *named == link {
            return in_force;
        }
        match way {
            Way::OneWay | Way::NamedLinkAlone => false,
            Way::HigherCutsOne => in_force && *named < link && is_other(),
            Way::OneEnd => {
                let end = plan.links[*named].to;
                let first = plan.links.iter().position(|other| other.from == end);
                in_force && first == Some(link)
            }
            Way::NextNumber => in_force && named + 1 == link && is_other(),
            Way::OnlyFirstPaths => in_force && on == On::First && is_other(),
            Way::OnlySecondPaths => in_force && on == On::Second && is_other(),
            Way::FromNextSlot => *from_slot < slot && is_other(),
            Way::InItsSlotAlone => *from_slot == slot && is_other(),
            Way::FirstPairAlone => in_force && at == 0 && is_other(),
            Way::LastPairAlone => in_force && at + 1 == list.len() && is_other(),
            _ => in_force && is_other(),
        }
    })
}

/// Whether a link counts as this one where a message is held.
fn holds(way: Way, plan: &Plan, link: usize, other: usize) -> bool {
    link == other || way == Way::HeldByTheOtherWay && other_way(plan, link) == Some(other)
}

/// Where a message is: the links before it, with the slots of those of its first path, and the second
/// path that it would turn to.
struct Going<'a> {
    message: &'a [crate::plan::Place],
    crossed: usize,
    second: Option<&'a [usize]>,
}

impl Going<'_> {
    fn is_there(&self) -> bool {
        self.crossed == self.second.map_or(self.message.len(), |second| second.len())
    }
}

/// The events of a cycle as this way plays it, and how many arrive.
pub fn played(way: Way, plan: &Plan, list: &[Pair]) -> (Vec<Vec<Event>>, usize) {
    let mut all: Vec<Going> = plan
        .messages
        .iter()
        .map(|message| Going { message: &message.places, crossed: 0, second: None })
        .collect();
    let mut events = Vec::new();
    for slot in 0..plan.timeout {
        // They turn.
        for going in all.iter_mut().filter(|going| going.second.is_none() && !going.is_there()) {
            let next = &going.message[going.crossed];
            if is_cut(way, plan, list, slot, On::First, next.link) && next.second.is_some() {
                going.second = next.second.as_deref();
                going.crossed = 0;
            }
        }
        // They try.
        let tried: Vec<Option<usize>> = all
            .iter()
            .map(|going| {
                let next = *going.second.filter(|_| !going.is_there())?.get(going.crossed)?;
                Some(next).filter(|next| !is_cut(way, plan, list, slot, On::Second, *next))
            })
            .collect();
        let mut of_slot = Vec::new();
        for m in 0..all.len() {
            let going = &all[m];
            let (kind, number) = if going.is_there() {
                (0, 0)
            } else if let Some(second) = going.second {
                let next = second[going.crossed];
                let owner = plan.messages.iter().position(|message| {
                    let mut places = message.places.iter();
                    places.any(|place| place.slot == slot && holds(way, plan, next, place.link))
                });
                let lower = (0..m)
                    .find(|lower| tried[*lower].is_some_and(|link| holds(way, plan, next, link)));
                match (tried[m], owner, lower) {
                    (None, _, _) => (7, next),
                    (_, Some(owner), _) => (4, owner),
                    (_, _, Some(lower)) => (5, lower),
                    _ => (3, next),
                }
            } else {
                let next = &going.message[going.crossed];
                if is_cut(way, plan, list, slot, On::First, next.link) {
                    (6, next.link)
                } else {
                    (if next.slot == slot { 2 } else { 1 }, next.link)
                }
            };
            let named = way == Way::NameTold && (kind == 6 || kind == 7);
            let number = if named { name_of(plan, number) } else { number };
            of_slot.push(Event { kind, number });
        }
        for (going, event) in all.iter_mut().zip(&of_slot) {
            going.crossed += usize::from(event.kind == 2 || event.kind == 3);
        }
        events.push(of_slot);
    }
    let arrivals = all.iter().filter(|going| going.is_there()).count();
    (events, arrivals)
}

fn crossings(way: Way, plan: &Plan, list: &[Pair]) -> Vec<Triple> {
    let (events, _) = played(way, plan, list);
    let slots = events.iter().enumerate();
    slots.flat_map(|(slot, events)| crossings_of_slot(slot, events)).collect()
}

// ------------------------------------------------------------------------------ answers

/// D with both ways of its cables counted, for `slack-of-cables`.
fn slack_of_cables(plan: &Plan, m: usize, place: usize) -> Option<i32> {
    let place = plan.messages.get(m)?.places.get(place)?;
    let second = place.second.as_ref()?;
    let same = |one: usize, other: usize| name_of(plan, one) == name_of(plan, other);
    let entries = |e: usize| {
        let places = plan.messages.iter().flat_map(|message| &message.places);
        places.filter(|place| same(place.link, e)).count()
    };
    let lower = |e: usize| {
        let passes = |message: &&crate::plan::Message| {
            let seconds = message.places.iter().filter_map(|place| place.second.as_ref());
            seconds.flatten().any(|link| same(*link, e))
        };
        plan.messages[..m].iter().filter(passes).count()
    };
    let d: usize = second.iter().map(|e| 1 + entries(*e) + lower(*e)).sum();
    Some(plan.timeout as i32 - place.slot as i32 - d as i32)
}

/// How many pairs there may be in the plans that the wrong ways search; they take long on others.
const SMALL: usize = 40;

/// What this way answers to a question of the probe about a good plan, with room enough and nothing
/// else to refuse but cuts; nothing to any other.
pub fn answer(way: Way, question: &str) -> Option<String> {
    let words: Vec<&str> = question.split(' ').collect();
    let numbers: Option<Vec<u16>> = words[1..].iter().map(|word| word.parse().ok()).collect();
    let numbers = numbers?;
    let at = |index: usize| numbers.get(index).map(|number| *number as usize);
    let listed = |word: &str, list: &[Pair], plan: &Plan| {
        let numbers = told(way, plan, list);
        format!("ok {} {}{}", word, numbers.len() / 2, spaced(&numbers))
    };
    let small = |plan: &Plan, k: usize| k <= 3 && number_of_pairs(plan) <= SMALL;
    match words[0] {
        "replay" => {
            let (room, count) = (at(0)?, at(1)?);
            let cuts = numbers.get(2..2 + count)?;
            let plan = good_plan_of_row(&numbers[2 + count..]).ok()?;
            if room < 2 * plan.timeout * plan.messages.len() {
                return None;
            }
            Some(match list_of_numbers(way, &plan, cuts) {
                Err(index) => format!("refused 12 place {}", index),
                Ok(list) => {
                    let (events, arrivals) = played(way, &plan, &list);
                    let events: Vec<u16> = events
                        .iter()
                        .flatten()
                        .flat_map(|event| [event.kind as u16, event.number as u16])
                        .collect();
                    format!("ok {}{}", arrivals, spaced(&events))
                }
            })
        }
        "verdict" => {
            let (k, l, room) = (at(0)?, at(1)?, at(2)?);
            let plan = good_plan_of_row(&numbers[3..]).ok()?;
            if !small(&plan, k) || l > plan.messages.len() || room < 2 * k {
                return None;
            }
            let fails = |list: &[Pair]| played(way, &plan, list).1 < l;
            Some(match first_list(way, &plan, k, &fails) {
                None => String::from("ok resistant"),
                Some(list) => listed("failing", &list, &plan),
            })
        }
        "explain" => {
            let (k, room, count) = (at(0)?, at(1)?, at(2)?);
            let triples = numbers.get(3..3 + count)?;
            let plan = good_plan_of_row(&numbers[3 + count..]).ok()?;
            let capture = capture_of_numbers(&plan, triples).ok()?;
            if !small(&plan, k) || room < 2 * k {
                return None;
            }
            let explains = |list: &[Pair]| crossings(way, &plan, list) == capture;
            Some(match first_list(way, &plan, k, &explains) {
                None => String::from("ok unexplained"),
                Some(list) => listed("list", &list, &plan),
            })
        }
        "figure" => {
            let k = at(0)?;
            let plan = good_plan_of_row(&numbers[1..]).ok()?;
            if !small(&plan, k) {
                return None;
            }
            let mut least = plan.messages.len();
            for number in 0..=k {
                every_list(way, &plan, number, &mut Vec::new(), &mut |list| {
                    least = least.min(played(way, &plan, list).1);
                    least > 0
                });
            }
            Some(format!("ok {}", least))
        }
        "slack" => {
            let (m, place) = (at(0)?, at(1)?);
            let plan = good_plan_of_row(&numbers[2..]).ok()?;
            let slack = match way {
                Way::SlackOfCables => slack_of_cables(&plan, m, place)?,
                _ => slack_of(&plan, m, place)?,
            };
            Some(format!("ok {}", slack))
        }
        _ => None,
    }
}

/// Whether a way differs on a question; nothing where it is asked nothing.
pub fn differs_on(way: Way, question: &str) -> Option<bool> {
    Some(answer(way, question)? != probe::answer(question.as_bytes()))
}

// ---------------------------------------------------------------------------- questions

/// A list for a replay: a good one, or one in which some cables have another name, or both names.
fn numbers_for_replay(r: &mut Random, plan: &Plan) -> Vec<u16> {
    let mut list = if r.percent(70) { few_cuts(r, plan) } else { good_cuts(r, plan) };
    if r.percent(65) {
        return numbers_of(&list);
    }
    let cables = two_way_cables(plan);
    for (lower, higher) in &cables {
        let at = list.iter().position(|pair| pair.1 == *lower);
        match (at, r.below(6)) {
            (Some(at), 0) => list[at].1 = *higher,
            (Some(at), 1) => list.push((r.between(list[at].0, plan.timeout - 1), *higher)),
            (Some(at), 2) => list.push((r.below(list[at].0 + 1), *higher)),
            (None, 0) if list.len() < 3 => list.push((r.below(plan.timeout), *higher)),
            _ => {}
        }
    }
    list.sort();
    let mut numbers = numbers_of(&list);
    if !list.is_empty() && r.percent(25) {
        // Another fault.
        let at = r.below(list.len());
        match r.below(3) {
            0 => numbers[2 * at] = plan.timeout as u16,
            1 => numbers[2 * at + 1] = plan.links.len() as u16,
            _ => numbers.truncate(2 * at + 1),
        }
    }
    numbers
}

/// A small question, by its seed and index: mostly about a plan with cables that go both ways.
pub fn small_question(seed: u64, case: u64) -> String {
    let mut random = Random::of_case(seed ^ 0x6361626C65, case);
    let r = &mut random;
    let name = *r.weighted(&[(45, "replay"), (16, "verdict"), (14, "figure"), (17, "explain"), (8, "slack")]);
    let k = *r.weighted(&[(4, 1), (6, 2), (3, 3)]);
    let pairs = match (name, k) {
        ("replay" | "slack", _) => SMALL,
        (_, 3) => 15,
        (_, 2) => 24,
        _ => 36,
    };
    let mut plan = plan_for_capture(r, pairs);
    for _ in 0..12 {
        if !two_way_cables(&plan).is_empty() || r.percent(5) {
            break;
        }
        let verdict = r.percent(50);
        plan = if verdict { plan_for_verdict(r, pairs) } else { plan_for_capture(r, pairs) };
    }
    let row = spaced(&row_of(&plan));
    match name {
        "replay" => {
            let cuts = numbers_for_replay(r, &plan);
            let room = 2 * plan.timeout * plan.messages.len();
            format!("replay {} {}{}{}", room, cuts.len(), spaced(&cuts), row)
        }
        "verdict" => {
            let l = r.between(1, plan.messages.len());
            format!("verdict {} {} {}{}", k, l, 2 * k, row)
        }
        "figure" => format!("figure {}{}", k, row),
        "explain" => {
            let way = *r.pick(&[Way::Right, Way::OneWay, Way::OnlySecondPaths, Way::FromNextSlot]);
            let mut capture = good_capture(r, &plan);
            if r.percent(70) {
                let list = few_cuts(r, &plan);
                capture = crossings(way, &plan, &list[..k.min(list.len())]);
            }
            let triples = numbers_of_capture(&capture);
            format!("explain {} {} {}{}{}", k, 2 * k, triples.len(), spaced(&triples), row)
        }
        _ => {
            let places = |m: usize| 0..plan.messages[m].places.len();
            let with_second: Vec<(usize, usize)> = (0..plan.messages.len())
                .flat_map(|m| places(m).map(move |place| (m, place)))
                .filter(|(m, place)| plan.messages[*m].places[*place].second.is_some())
                .collect();
            let (m, place) = if with_second.is_empty() { (0, 0) } else { *r.pick(&with_second) };
            format!("slack {} {}{}", m, place, row)
        }
    }
}

/// A question on which a way differs.
pub struct Different {
    pub case: u64,
    pub question: String,
    pub right: String,
    pub wrong: String,
}

/// All small questions of a seed on which one of these ways differs.
pub fn all_different(ways: &[Way], seed: u64, number: u64) -> Vec<(Way, Different)> {
    let mut all = Vec::new();
    for case in 0..number {
        let question = small_question(seed, case);
        let right = probe::answer(question.as_bytes());
        for way in ways {
            match answer(*way, &question) {
                Some(wrong) if wrong != right => {
                    let (question, right) = (question.clone(), right.clone());
                    all.push((*way, Different { case, question, right, wrong }));
                }
                _ => {}
            }
        }
    }
    all
}

/// What sort of question it is, and of answer: some of each are kept.
fn sort_of(one: &Different) -> (String, String) {
    let name = one.question.split(' ').next().unwrap().to_string();
    let words: Vec<&str> = one.right.split(' ').collect();
    let answered = match name.as_str() {
        "replay" => words[0].to_string(),
        "slack" | "figure" => String::new(),
        _ => words[1..words.len().min(3)].join(" "),
    };
    (name, answered)
}

/// Some of these questions to keep: the shortest ones, and as many as can be of each sort.
pub fn to_keep(way: Way, seed: u64, number: u64, keep: usize) -> Vec<Different> {
    let mut found: Vec<Different> =
        all_different(&[way], seed, number).into_iter().map(|(_, one)| one).collect();
    found.sort_by_key(|one| (one.question.split(' ').count(), one.case));
    // The shortest of each, then the next of each, and so on.
    let mut seen: Vec<(String, String)> = Vec::new();
    let mut ranked = Vec::new();
    for one in found {
        let sort = sort_of(&one);
        ranked.push((seen.iter().filter(|other| **other == sort).count(), one));
        seen.push(sort);
    }
    ranked.sort_by_key(|(rank, _)| *rank);
    ranked.into_iter().take(keep).map(|(_, one)| one).collect()
}
