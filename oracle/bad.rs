//! What the generator spoils: plans that break one rule, for each of refusals 5 to 10 and 14 to 19
//! in each way, and plans that break several; damaged files and rows; bad cut lists.

use crate::good::{broken, ORDER};
use crate::paths::{break_path, lengthen_first_path, unused_links, OF_FIRST, OF_SECOND};
use crate::plan::{fields_of, file_of, plan_of_row, row_of, Plan};
use crate::questions::numbers_of;
use crate::random::{good_cuts, good_plan, two_way_cables, Random, Size};

// --------------------------------------------------------- plans that break a rule

/// A plan that breaks the rule of this refusal (5 to 10, 14 to 19), mostly no other one.
pub fn plan_that_breaks(r: &mut Random, number: usize, size: Size) -> Plan {
    let mut tries = 0;
    loop {
        tries += 1;
        // A small plan if this size does not lend itself to it.
        let mut plan = good_plan(r, if tries > 30 { Size::Small } else { size });
        let (m, place) = place_to_spoil(r, &mut plan);
        if spoil(r, &mut plan, number, m, place).is_none() {
            continue;
        }
        let found = broken(&plan);
        let alone = found.len() == 1;
        if !found.is_empty() && found[0].number == number && (alone || tries > 8 || r.percent(10)) {
            return plan;
        }
    }
}

/// The plan that breaks this rule, if it is one of paths in this message and place.
fn spoil(r: &mut Random, plan: &mut Plan, number: usize, m: usize, place: usize) -> Option<()> {
    match number {
        5 => break_ends(r, plan),
        6 => break_by_repeating(r, plan),
        8 => break_slots(r, plan),
        9 => break_by_holding_twice(r, plan),
        _ => break_path(r, plan, number, m, place),
    }
}

fn message_to_spoil(r: &mut Random, plan: &Plan) -> usize {
    r.place_below(plan.messages.len())
}

/// A message, whose first path may get longer, and a place of it, every other time one with a
/// second path if it has such.
fn place_to_spoil(r: &mut Random, plan: &mut Plan) -> (usize, usize) {
    let m = message_to_spoil(r, plan);
    if r.percent(75) {
        let _ = lengthen_first_path(r, plan, m);
    }
    let places = &plan.messages[m].places;
    let with_second: Vec<usize> =
        (0..places.len()).filter(|place| places[*place].second.is_some()).collect();
    if with_second.is_empty() || r.percent(50) {
        (m, r.place_below(places.len()))
    } else {
        (m, with_second[r.place_below(with_second.len())])
    }
}

/// A link to spoil: mostly one that no path uses, so that nothing else breaks.
fn link_to_spoil(r: &mut Random, plan: &Plan) -> usize {
    let unused = unused_links(plan);
    if unused.is_empty() || r.percent(15) {
        r.place_below(plan.links.len())
    } else {
        unused[r.place_below(unused.len())]
    }
}

/// 5: "a link's end is not below V, or both are equal".
fn break_ends(r: &mut Random, plan: &mut Plan) -> Option<()> {
    let link = link_to_spoil(r, plan);
    let ends = &mut plan.links[link];
    match r.below(4) {
        0 => ends.to = ends.from,
        1 => ends.from = ends.to,
        way => {
            if plan.vertices == 64 {
                return None;
            }
            let too_large = match r.below(3) {
                0 => plan.vertices,
                1 => 63,
                _ => r.between(plan.vertices, 63),
            };
            if way == 2 {
                ends.from = too_large;
            } else {
                ends.to = too_large;
            }
        }
    }
    Some(())
}

/// 6: "a link repeats an earlier one".
fn break_by_repeating(r: &mut Random, plan: &mut Plan) -> Option<()> {
    if plan.links.len() < 2 {
        return None;
    }
    let later = link_to_spoil(r, plan).max(1);
    let earlier = r.place_below(later);
    plan.links[later] = plan.links[earlier];
    Some(())
}

/// 8: "slots don't rise, or one is not below t".
fn break_slots(r: &mut Random, plan: &mut Plan) -> Option<()> {
    let m = message_to_spoil(r, plan);
    let timeout = plan.timeout;
    let places = &mut plan.messages[m].places;
    let last = places.len() - 1;
    match r.below(4) {
        0 => {
            // Two equal ones.
            if last == 0 {
                return None;
            }
            let at = 1 + r.place_below(last);
            places[at].slot = places[at - 1].slot;
        }
        1 => {
            // One that falls.
            if last == 0 {
                return None;
            }
            let at = r.place_below(last);
            let (one, other) = (places[at].slot, places[at + 1].slot);
            places[at].slot = other;
            places[at + 1].slot = one;
        }
        2 => {
            // The last one not below t.
            if timeout == 64 {
                return None;
            }
            places[last].slot = *r.pick(&[timeout, 63]);
        }
        _ => {
            // Any one not below t.
            if timeout == 64 {
                return None;
            }
            let at = r.place_below(last + 1);
            places[at].slot = *r.pick(&[timeout, 63]);
        }
    }
    Some(())
}

/// 9: "a lower message holds the same link and slot".
fn break_by_holding_twice(r: &mut Random, plan: &mut Plan) -> Option<()> {
    if r.percent(30) && plan.messages.len() < 32 {
        // A message like another one, behind it.
        let m = message_to_spoil(r, plan);
        let copy = plan.messages[m].clone();
        let at = r.between(m + 1, plan.messages.len());
        plan.messages.insert(at, copy);
        return Some(());
    }
    // A place of a message moves to a slot in which another one holds its link, and
    // the slots still rise.
    let mut ways = Vec::new();
    for m in 0..plan.messages.len() {
        let places = &plan.messages[m].places;
        for at in 0..places.len() {
            for other in 0..plan.messages.len() {
                for held in &plan.messages[other].places {
                    let rises = (at == 0 || places[at - 1].slot < held.slot)
                        && (at + 1 == places.len() || held.slot < places[at + 1].slot);
                    if other != m && held.link == places[at].link && rises {
                        ways.push((m, at, held.slot));
                    }
                }
            }
        }
    }
    if ways.is_empty() {
        return None;
    }
    let (m, at, slot) = ways[r.place_below(ways.len())];
    plan.messages[m].places[at].slot = slot;
    Some(())
}

/// How often each rule is the one to break, of a hundred.
const WEIGHTS: [(usize, usize); 12] = [
    (8, 5),
    (8, 6),
    (9, 7),
    (9, 14),
    (9, 15),
    (7, 8),
    (7, 9),
    (9, 10),
    (9, 16),
    (8, 17),
    (9, 18),
    (8, 19),
];

/// A plan that breaks some rule, or several.
pub fn bad_plan(r: &mut Random, size: Size) -> Plan {
    if r.percent(30) {
        return plan_with_faults(r, size);
    }
    let number = *r.weighted(&WEIGHTS);
    plan_that_breaks(r, number, size)
}

/// A plan with two to four faults: of second paths, of first paths, of paths, or of any rule of
/// messages; often of one rule, often in one path or one message. The earliest number must win,
/// then the lowest message, place and step.
pub fn plan_with_faults(r: &mut Random, size: Size) -> Plan {
    let of_paths = [7, 10, 14, 15, 16, 17, 18, 19];
    let rules = [(35, &OF_SECOND[..]), (15, &OF_FIRST), (20, &of_paths), (30, &ORDER[2..])];
    let numbers = *r.weighted(&rules);
    let mut plan = good_plan(r, size);
    let (mut m, mut place) = place_to_spoil(r, &mut plan);
    let mut number = *r.pick(numbers);
    for _ in 0..r.between(2, 4) {
        let _ = spoil(r, &mut plan, number, m, place);
        if r.percent(65) {
            number = *r.pick(numbers);
        }
        if r.percent(45) {
            (m, place) = place_to_spoil(r, &mut plan);
        } else if r.percent(35) {
            place = r.below(plan.messages[m].places.len());
        }
        place = place.min(plan.messages[m].places.len() - 1);
    }
    plan
}

/// A plan that is good, breaks rules, or is in a damaged row that has the form of one.
pub fn any_plan(r: &mut Random, size: Size) -> Plan {
    match r.below(10) {
        0 | 1 => good_plan(r, size),
        2..=7 => bad_plan(r, size),
        _ => {
            let row = damaged_row(r, size);
            plan_of_row(&row).unwrap_or_else(|_| bad_plan(r, size))
        }
    }
}

// ------------------------------------------------------ damaged files and rows

/// A file that was damaged; now and then it is still good.
fn damaged_file(r: &mut Random, size: Size) -> Vec<u8> {
    let mut file = file_of(&good_plan(r, size));
    match r.below(9) {
        0 => file.truncate(r.below(12).min(file.len())),
        1 => file.truncate(r.below(file.len())),
        2 => {
            file.pop();
        }
        3 => {
            for _ in 0..r.between(1, 3) {
                let at = r.below(file.len());
                file[at] ^= 1 << r.below(8);
            }
        }
        4 => {
            // Near the end: fill bits, or the last fields.
            let last = file.len() - 1;
            file[last] ^= 1 << r.below(8);
        }
        5 => {
            for _ in 0..r.between(1, 3) {
                file.push(*r.pick(&[0, 0, 1, 128, 255]));
            }
        }
        6 => {
            // Another edition.
            let edition = r.below(16) as u8;
            file[0] = file[0] & 15 | edition << 4;
            if r.percent(30) {
                file.truncate(r.between(1, file.len()));
            }
        }
        7 => {
            // Anything behind a right edition.
            let length = r.between(1, 60);
            file = (0..length).map(|_| r.next() as u8).collect();
            file[0] = file[0] & 15 | 16;
        }
        _ => {
            let length = r.below(8);
            file = (0..length).map(|_| r.next() as u8).collect();
        }
    }
    file
}

/// A row that was damaged; now and then it is still good.
fn damaged_row(r: &mut Random, size: Size) -> Vec<u16> {
    let mut row = row_of(&good_plan(r, size));
    let too_large = [1u16, 2, 16, 32, 64, 100, 256, 4096, 32768, 65535];
    match r.below(10) {
        0 => row.truncate(r.below(8)),
        1 => row.truncate(r.below(row.len())),
        2 => {
            row.pop();
        }
        3 | 4 => {
            // A number too large for its field, here or there.
            let at = r.place_below(row.len());
            row[at] = *r.pick(&too_large);
        }
        5 => {
            let fields = fields_of(&good_plan(r, size));
            row = fields.iter().map(|(_, value)| *value as u16).collect();
            let at = r.below(row.len());
            row[at] = 1 << fields[at].0;
        }
        6 => {
            // Two such, one perhaps behind the end.
            for _ in 0..2 {
                let at = r.below(row.len());
                row[at] = *r.pick(&[64, 65535]);
            }
            row.truncate(r.between(1, row.len()));
        }
        7 => {
            for _ in 0..r.between(1, 3) {
                row.push(*r.pick(&[0, 0, 1, 63, 65535]));
            }
        }
        8 => {
            row[0] = *r.pick(&[0, 2, 3, 15, 16, 17, 65535]);
            if r.percent(40) {
                row.truncate(r.between(1, row.len()));
            }
        }
        _ => {
            let length = r.below(40);
            row = (0..length).map(|_| r.below(4) as u16).collect();
            if length > 0 {
                row[0] = 1;
            }
        }
    }
    row
}

/// A row: good in `good` of a hundred cases, else of a bad plan or damaged.
pub fn any_row(r: &mut Random, size: Size, good: usize) -> Vec<u16> {
    if r.percent(good) {
        row_of(&good_plan(r, size))
    } else if r.percent(55) {
        row_of(&bad_plan(r, size))
    } else {
        damaged_row(r, size)
    }
}

/// A file: good in `good` of a hundred cases, else of a bad plan or damaged.
pub fn any_file(r: &mut Random, size: Size, good: usize) -> Vec<u8> {
    if r.percent(good) {
        file_of(&good_plan(r, size))
    } else if r.percent(50) {
        file_of(&bad_plan(r, size))
    } else {
        damaged_file(r, size)
    }
}

// ----------------------------------------------------------------- bad cut lists

/// A cut list with a pair that names the higher link of its cable (document 02, [3]), as numbers:
/// at the first, a middle or the last pair, alone or beside other faults.
fn cuts_by_higher_links(r: &mut Random, plan: &Plan, cables: &[(usize, usize)]) -> Vec<u16> {
    let mut cuts = if r.percent(25) { Vec::new() } else { good_cuts(r, plan) };
    let (lower, higher) = *r.pick(cables);
    let slot = r.place_below(plan.timeout);
    let named = |cuts: &[(usize, usize)], link: usize| cuts.iter().position(|pair| pair.1 == link);
    match r.below(10) {
        // The cable by its other name: the higher link stands for the lower.
        0..=3 => match named(&cuts, lower) {
            Some(at) => cuts[at].1 = higher,
            None => cuts.push((slot, higher)),
        },
        // Every cable of the list by its other name, or some of them.
        4 | 5 => {
            let all = r.percent(50);
            for pair in cuts.iter_mut() {
                if let Some((_, higher)) = cables.iter().find(|cable| cable.0 == pair.1) {
                    if all || r.percent(50) {
                        pair.1 = *higher;
                    }
                }
            }
            if cuts.is_empty() {
                cuts.push((slot, higher));
            }
        }
        // By both names: in one slot, the higher one later, or the lower one later.
        _ => {
            let at = match named(&cuts, lower) {
                Some(at) => at,
                None => {
                    cuts.push((slot, lower));
                    cuts.len() - 1
                }
            };
            let first = cuts[at].0;
            let other = match r.below(3) {
                0 => first,
                1 => r.between(first, plan.timeout - 1),
                _ => r.below(first + 1),
            };
            cuts.push((other, higher));
        }
    }
    cuts.sort();
    let mut numbers = numbers_of(&cuts);
    if r.percent(30) {
        // Another fault, before or behind it.
        let at = r.place_below(cuts.len());
        match r.below(6) {
            0 => numbers[2 * at] = plan.timeout as u16,
            1 => numbers[2 * at + 1] = plan.links.len() as u16,
            2 => {
                cuts.insert(at, cuts[at]);
                numbers = numbers_of(&cuts);
            }
            3 => {
                let other = r.below(cuts.len());
                cuts.swap(at, other);
                numbers = numbers_of(&cuts);
            }
            4 => numbers.push(r.below(plan.timeout) as u16),
            _ => numbers.truncate(2 * at + 1),
        }
    }
    numbers
}

/// A cut list that is bad in one way or another, as numbers; sometimes it turns out
/// good after all.
fn bad_cuts(r: &mut Random, plan: &Plan) -> Vec<u16> {
    let cables = two_way_cables(plan);
    if !cables.is_empty() && r.percent(60) {
        return cuts_by_higher_links(r, plan, &cables);
    }
    let mut cuts = good_cuts(r, plan);
    if cuts.is_empty() {
        cuts.push((r.below(plan.timeout), r.below(plan.links.len())));
    }
    let at = r.place_below(cuts.len());
    let mut numbers = numbers_of(&cuts);
    match r.below(10) {
        // "slots below t"
        0 => numbers[2 * at] = *r.pick(&[plan.timeout as u16, 64, 256, 65535]),
        // "links below E"
        1 => numbers[2 * at + 1] = *r.pick(&[plan.links.len() as u16, 64, 256, 65535]),
        // "rising strictly": two pairs change places
        2 => {
            let other = r.below(cuts.len());
            cuts.swap(at, other);
            numbers = numbers_of(&cuts);
        }
        // two equal pairs
        3 => {
            cuts.insert(at, cuts[at]);
            numbers = numbers_of(&cuts);
        }
        // "no link twice": the same link again, mostly in a later slot
        4 => {
            let slot = r.between(cuts[at].0, plan.timeout - 1);
            cuts.push((slot, cuts[at].1));
            cuts.sort();
            numbers = numbers_of(&cuts);
        }
        // "an odd last number"
        5 => numbers.push(r.below(plan.timeout) as u16),
        6 => {
            numbers.truncate(2 * at + 1);
        }
        // two bad pairs, or a bad pair before an odd number
        7 => {
            numbers[2 * at] = plan.timeout as u16;
            let other = r.below(numbers.len());
            numbers[other] = 65535;
            if r.percent(50) {
                numbers.push(0);
            }
        }
        // more pairs than there are links
        8 => {
            while numbers.len() < 2 * r.between(1, 70) {
                numbers.push(r.below(plan.timeout) as u16);
                numbers.push(r.below(plan.links.len()) as u16);
            }
        }
        // anything
        _ => {
            let count = r.below(12);
            numbers = (0..count).map(|_| r.below(6) as u16).collect();
        }
    }
    numbers
}

/// The numbers of a cut list, good or bad.
pub fn any_cuts(r: &mut Random, plan: &Plan, good: usize) -> Vec<u16> {
    if r.percent(good) {
        numbers_of(&good_cuts(r, plan))
    } else {
        bad_cuts(r, plan)
    }
}
