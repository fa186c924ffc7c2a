//! Examples of document 02, [1]: plans whose paths break rules, each with its refusal, found by hand.

use crate::examples::plan;
use crate::plan::{Link, Place, Plan};

/// A plan, what it shows, and its refusal or "good".
pub type Example = (&'static str, Plan, &'static str);

/// A change of a plan: a first path, a second path from a place, or other slots of a message.
enum Change {
    First(usize, &'static [usize]),
    Second(usize, usize, &'static [usize]),
    Slots(usize, &'static [usize]),
    Ends(usize, usize, usize),
}
use Change::{Ends, First, Second, Slots};

/// A good plan to be changed. Each of its three messages has first path 0, 1, 2, 3, that is 0 -> 1
/// -> 2 -> 3 -> 4, and from each place a second path over 5, 6, 7 to 4. There are 28 links.
fn base() -> Plan {
    let links = [
        (0, 1), // 0 to 3: the first path
        (1, 2),
        (2, 3),
        (3, 4),
        (0, 5), // 4 to 7: the second path from place 0
        (5, 6),
        (6, 7),
        (7, 4),
        (1, 5), // 8 to 10: the beginnings of those from places 1, 2, 3
        (2, 5),
        (3, 5),
        (1, 0), // 11 to 16: back
        (2, 0),
        (2, 1),
        (4, 0),
        (4, 2),
        (4, 3),
        (5, 0), // 17 to 22
        (6, 0),
        (6, 5),
        (7, 5),
        (4, 7),
        (4, 6),
        (7, 8), // 23 to 27
        (0, 4),
        (8, 9),
        (0, 3),
        (5, 4),
    ];
    let message = |m: usize| {
        let seconds = [[4, 5, 6, 7], [8, 5, 6, 7], [9, 5, 6, 7], [10, 5, 6, 7]];
        (0..4).map(|place| (place, 6 * m + place, seconds[place].to_vec())).collect()
    };
    plan(10, 20, &links, (0..3).map(message).collect())
}

/// The plan with these changes. A message with another first path has no second paths.
fn changed(mut plan: Plan, changes: &[Change]) -> Plan {
    for change in changes {
        match change {
            First(m, links) => {
                let begins = plan.messages[*m].places[0].slot;
                let places = links.iter().enumerate();
                plan.messages[*m].places = places
                    .map(|(place, link)| Place { link: *link, slot: begins + place, second: None })
                    .collect();
            }
            Second(m, place, links) => {
                plan.messages[*m].places[*place].second = Some(links.to_vec());
            }
            Slots(m, slots) => {
                for (place, slot) in plan.messages[*m].places.iter_mut().zip(*slots) {
                    place.slot = *slot;
                }
            }
            Ends(link, from, to) => plan.links[*link] = Link { from: *from, to: *to },
        }
    }
    plan
}

/// Each number at the first, at a middle and at the last link where it can be, in a path of one
/// link and of several, in the first, the middle and the last message.
pub fn each_number() -> Vec<Example> {
    let one = |name, change, wanted| (name, changed(base(), &[change]), wanted);
    vec![
        ("the plan itself", base(), "good"),
        // 7: "a link not below E".
        one("7, first", First(1, &[28, 1, 2, 3]), "refused 7 place 1 0 0"),
        one("7, middle", First(1, &[0, 28, 2, 3]), "refused 7 place 1 1 1"),
        one("7, middle", First(0, &[0, 1, 63, 3]), "refused 7 place 0 2 2"),
        one("7, last", First(1, &[0, 1, 2, 28]), "refused 7 place 1 3 3"),
        one("7, the only one", First(0, &[63]), "refused 7 place 0 0 0"),
        one("7, of two", First(2, &[0, 63]), "refused 7 place 2 1 1"),
        one("not 7: the last link there is", First(1, &[27]), "good"),
        // 14: "links that don't join". 0 -> 1, 2 -> 3 -> 4; 0 -> 1 -> 2, 3 -> 4; 0 -> 1 -> 2 -> 3, 7 -> 4;
        // 0 -> 1, 6 -> 7, 2 -> 3 -> 4; 1 -> 0, 1 -> 2.
        one("14, step 1", First(1, &[0, 2, 3]), "refused 14 place 1 1 1"),
        one("14, middle", First(0, &[0, 1, 3, 16]), "refused 14 place 0 2 2"),
        one("14, last", First(1, &[0, 1, 3]), "refused 14 place 1 2 2"),
        one("14, last", First(2, &[0, 1, 2, 7]), "refused 14 place 2 3 3"),
        one("14, last of two", First(2, &[0, 2]), "refused 14 place 2 1 1"),
        one("14, a link that joins with neither", First(1, &[0, 6, 2, 3]), "refused 14 place 1 1 1"),
        one("14, links in one direction each", First(1, &[11, 1]), "refused 14 place 1 1 1"),
        one("not 14: another start", First(1, &[1, 2, 3]), "good"),
        // 15: "a vertex met twice". 0 -> 1 -> 0; 0 -> 1 -> 2 -> 0; 0 -> 1 -> 2 -> 1; up to 4, then 2, 3 or 0;
        // 0 -> 1 -> 2 -> 0 -> 5 -> 6; 0 -> 1 -> 2 -> 1 -> 5.
        one("15, there and back", First(1, &[0, 11]), "refused 15 place 1 1 1"),
        one("15, the start, last", First(2, &[0, 1, 12]), "refused 15 place 2 2 2"),
        one("15, the one before, last", First(0, &[0, 1, 13]), "refused 15 place 0 2 2"),
        one("15, another, last", First(1, &[0, 1, 2, 3, 15]), "refused 15 place 1 4 4"),
        one("15, the one before, last", First(1, &[0, 1, 2, 3, 16]), "refused 15 place 1 4 4"),
        one("15, the start, last", First(1, &[0, 1, 2, 3, 14]), "refused 15 place 1 4 4"),
        one("15, the start, middle", First(1, &[0, 1, 12, 4, 5]), "refused 15 place 1 2 2"),
        one("15, the one before, middle", First(1, &[0, 1, 13, 8]), "refused 15 place 1 2 2"),
        one("15, another, middle", First(1, &[1, 2, 3, 15, 9]), "refused 15 place 1 3 3"),
        one("not 15: all vertices once", First(1, &[11, 4, 5, 6, 7, 15]), "good"),
        // 10: "likewise keeps the bad link".
        one("10, first", Second(1, 0, &[28, 5, 6, 7]), "refused 10 place 1 0 0"),
        one("10, middle", Second(1, 0, &[4, 28, 6, 7]), "refused 10 place 1 0 1"),
        one("10, middle", Second(0, 2, &[9, 5, 63, 7]), "refused 10 place 0 2 2"),
        one("10, last", Second(1, 0, &[4, 5, 6, 63]), "refused 10 place 1 0 3"),
        one("10, the only one", Second(1, 3, &[63]), "refused 10 place 1 3 0"),
        one("10, last", Second(2, 1, &[8, 5, 6, 28]), "refused 10 place 2 1 3"),
        one("not 10: the last link there is", Second(1, 0, &[4, 27]), "good"),
        // 16: "a wrong beginning or join". From 1 it begins at 0, from 3 at 7, from 0 at 5 and at 4; 0 -> 5,
        // 6 -> 7 -> 4; 0 -> 5 -> 6, 7 -> 4; 2 -> 5 -> 6, 7 -> 4.
        one("16, beginning", Second(1, 1, &[4, 5, 6, 7]), "refused 16 place 1 1 0"),
        one("16, beginning, one link", Second(2, 3, &[7]), "refused 16 place 2 3 0"),
        one("16, beginning, no first link", Second(0, 0, &[5, 6, 7]), "refused 16 place 0 0 0"),
        one("16, beginning, the target", Second(0, 0, &[16, 3]), "refused 16 place 0 0 0"),
        one("16, join, step 1", Second(1, 0, &[4, 6, 7]), "refused 16 place 1 0 1"),
        one("16, join, last", Second(1, 0, &[4, 5, 7]), "refused 16 place 1 0 2"),
        one("16, join, last", Second(2, 2, &[9, 5, 7]), "refused 16 place 2 2 2"),
        one(
            "16, join, a link that joins with neither",
            Second(0, 3, &[10, 25, 6, 7]),
            "refused 16 place 0 3 1",
        ),
        // 17: "a wrong end"; the last link.
        one("17, one link", Second(1, 0, &[4]), "refused 17 place 1 0 0"),
        one("17, no last link", Second(0, 0, &[4, 5, 6]), "refused 17 place 0 0 2"),
        one("17, another last link", Second(2, 3, &[10, 5, 6, 23]), "refused 17 place 2 3 3"),
        one("17, one link more", Second(1, 1, &[8, 27, 16]), "refused 17 place 1 1 2"),
        one("17, a vertex of the first path", Second(2, 0, &[26]), "refused 17 place 2 0 0"),
        // 18: "a vertex met twice". 0 -> 5 -> 0 -> 4; 0 -> 5 -> 6 -> 0 -> 4; 0 -> 5 -> 6 -> 5 -> 4; 0 -> 5 -> 6
        // -> 7 -> 5 -> 4; 0 -> 5 -> 6 -> 7 -> 4 -> 7 -> 4; 0 -> 5 -> 4 -> 3 -> 4; 0 -> 5 -> 4 -> 2 -> 3 -> 4.
        one("18, there and back", Second(1, 0, &[4, 17, 24]), "refused 18 place 1 0 1"),
        one("18, the start, middle", Second(1, 0, &[4, 5, 18, 24]), "refused 18 place 1 0 2"),
        one("18, the one before, middle", Second(2, 0, &[4, 5, 19, 27]), "refused 18 place 2 0 2"),
        one("18, another, middle", Second(0, 0, &[4, 5, 6, 20, 27]), "refused 18 place 0 0 3"),
        one("18, two of them", Second(1, 0, &[4, 5, 6, 7, 21, 7]), "refused 18 place 1 0 4"),
        one("18, the target, last", Second(1, 0, &[4, 27, 16, 3]), "refused 18 place 1 0 3"),
        one("18, the target, last", Second(1, 2, &[9, 27, 14, 26, 3]), "refused 18 place 1 2 4"),
        // 2 -> 5 -> 0 -> 3 -> 4 and 1 -> 0 -> 3 -> 4 meet the first path's vertices and its last link.
        one("not 18: the first path's vertices", Second(1, 2, &[9, 17, 26, 3]), "good"),
        one("not 18: the first path's start", Second(1, 1, &[11, 26, 3]), "good"),
        // 19: "a start with the replaced link". 0 -> 1 -> 2 -> 3 -> 4; 1 -> 2 -> 5 -> 6 -> 7 -> 4; 3 -> 4.
        one("19, the first path", Second(1, 0, &[0, 1, 2, 3]), "refused 19 place 1 0 0"),
        one("19, and then elsewhere", Second(0, 1, &[1, 9, 5, 6, 7]), "refused 19 place 0 1 0"),
        one("19, the only link", Second(2, 3, &[3]), "refused 19 place 2 3 0"),
        one("not 19: another link of the first path", Second(1, 0, &[26, 3]), "good"),
    ]
}

/// Where several rules are broken: "the earliest that applies to any path is given, for its lowest
/// message, then place, then step".
pub fn orders() -> Vec<Example> {
    let all = |name, changes: &[Change], wanted| (name, changed(base(), changes), wanted);
    vec![
        // Each number beside the next one in its order, the later one in a lower message.
        all("5, 7", &[First(0, &[63]), Ends(25, 8, 8)], "refused 5 place 25"),
        all("6, 7", &[First(0, &[63]), Ends(25, 7, 8)], "refused 6 place 25"),
        all("7, 14", &[First(0, &[0, 2, 3]), First(2, &[0, 28])], "refused 7 place 2 1 1"),
        all("14, 15", &[First(0, &[0, 11]), First(2, &[0, 2])], "refused 14 place 2 1 1"),
        all("15, 8", &[Slots(0, &[0, 0]), First(2, &[0, 11])], "refused 15 place 2 1 1"),
        all("8, 9", &[Slots(1, &[0, 1, 2, 3]), Slots(2, &[12, 13, 14, 20])], "refused 8 place 2"),
        all("9, 10", &[Second(0, 0, &[28]), Slots(2, &[0, 4, 10, 11])], "refused 9 place 2"),
        all("10, 16", &[Second(0, 1, &[4, 5]), Second(2, 3, &[10, 63])], "refused 10 place 2 3 1"),
        all("16, 17", &[Second(0, 0, &[4]), Second(2, 0, &[4, 6, 7])], "refused 16 place 2 0 1"),
        all("17, 18", &[Second(0, 0, &[4, 17, 24]), Second(2, 0, &[4, 5])], "refused 17 place 2 0 1"),
        all("18, 19", &[Second(0, 3, &[3]), Second(2, 0, &[4, 17, 24])], "refused 18 place 2 0 1"),
        // Numbers that stand further apart.
        all("7, 15", &[First(0, &[0, 11]), First(1, &[0, 1, 63])], "refused 7 place 1 2 2"),
        all("7, 8", &[Slots(0, &[3, 2, 1, 0]), First(1, &[63])], "refused 7 place 1 0 0"),
        all("14, 10", &[Second(0, 0, &[28]), First(2, &[0, 2])], "refused 14 place 2 1 1"),
        all("15, 10", &[Second(0, 0, &[28]), First(2, &[0, 11])], "refused 15 place 2 1 1"),
        all("14, 9", &[Slots(1, &[0, 1, 2, 3]), First(2, &[1, 0])], "refused 14 place 2 1 1"),
        all("8, 16", &[Second(0, 1, &[4, 5, 6, 7]), Slots(2, &[12, 12])], "refused 8 place 2"),
        all("9, 17", &[Second(0, 0, &[4]), Slots(1, &[0, 7, 8, 9])], "refused 9 place 1"),
        all("8, 19", &[Second(0, 3, &[3]), Slots(1, &[6, 7, 8, 63])], "refused 8 place 1"),
        all("10, 19", &[Second(0, 3, &[3]), Second(1, 3, &[28])], "refused 10 place 1 3 0"),
        all("16, 18", &[Second(0, 0, &[4, 17, 24]), Second(1, 1, &[0])], "refused 16 place 1 1 0"),
        all("17, 19", &[Second(0, 3, &[3]), Second(1, 3, &[10])], "refused 17 place 1 3 0"),
        // In one first path: 0 -> 1 -> 0 -> 5, 6 -> 7, then a bad link; 15 at step 1, 14 at 3, 7 at 4.
        all("15 below 14", &[First(1, &[0, 11, 4, 6])], "refused 14 place 1 3 3"),
        all("15 below 14 below 7", &[First(1, &[0, 11, 4, 6, 28])], "refused 7 place 1 4 4"),
        all("14 below 7", &[First(1, &[0, 2, 63])], "refused 7 place 1 2 2"),
        all("14 below 15", &[First(1, &[0, 4, 17])], "refused 14 place 1 1 1"),
        all("15 and 8", &[First(1, &[0, 11]), Slots(1, &[7, 7])], "refused 15 place 1 1 1"),
        // In one second path. 0 -> 5 -> 0 -> 5 -> 6: 18 at steps 1, 2, 17 at 3.
        all("18 below 17", &[Second(1, 0, &[4, 17, 4, 5])], "refused 17 place 1 0 3"),
        all("17 and 18", &[Second(1, 0, &[4, 17])], "refused 17 place 1 0 1"),
        // 0 -> 1 -> 0 -> 4: 19 at step 0, 18 at 1. 0 -> 1 -> 2: 19 at 0, 17 at 1. 0 -> 1, 6 -> 7 -> 4: 19, 16.
        all("19 below 18", &[Second(1, 0, &[0, 11, 24])], "refused 18 place 1 0 1"),
        all("19 below 17", &[Second(1, 0, &[0, 1])], "refused 17 place 1 0 1"),
        all("19 below 16", &[Second(1, 0, &[0, 6, 7])], "refused 16 place 1 0 1"),
        all("19 below 10", &[Second(1, 0, &[0, 1, 2, 28])], "refused 10 place 1 0 3"),
        // 0 -> 5 -> 0, 6 -> 7 -> 8: 18 at 1, 16 at 2, 17 at 3. The same with a bad link in place of the last.
        all("18 below 16 below 17", &[Second(1, 0, &[4, 17, 6, 23])], "refused 16 place 1 0 2"),
        all("18, 16, 10", &[Second(1, 0, &[4, 17, 6, 63])], "refused 10 place 1 0 3"),
        all("16 below 17", &[Second(1, 1, &[4])], "refused 16 place 1 1 0"),
        all("16 below 10", &[Second(1, 1, &[4, 63])], "refused 10 place 1 1 1"),
        // Two faults of one rule in one path: the lower step.
        all("7 twice", &[First(1, &[0, 63, 28])], "refused 7 place 1 1 1"),
        all("14 twice", &[First(1, &[0, 2, 1, 3])], "refused 14 place 1 1 1"),
        all("15 twice", &[First(1, &[0, 11, 0, 1])], "refused 15 place 1 1 1"),
        all("10 twice", &[Second(1, 0, &[4, 63, 28])], "refused 10 place 1 0 1"),
        all("16 twice, the beginning", &[Second(1, 1, &[4, 6, 7])], "refused 16 place 1 1 0"),
        all("16 twice", &[Second(1, 0, &[4, 7, 6, 7])], "refused 16 place 1 0 1"),
        all("18 twice", &[Second(1, 0, &[4, 17, 4, 17, 24])], "refused 18 place 1 0 1"),
        // In two places of one message: the lower place, whatever the steps.
        all("10, two places", &[Second(1, 0, &[4, 63]), Second(1, 2, &[63])], "refused 10 place 1 0 1"),
        all("16, two places", &[Second(1, 1, &[8, 6, 7]), Second(1, 3, &[7])], "refused 16 place 1 1 1"),
        all("17, two places", &[Second(1, 2, &[9, 5]), Second(1, 3, &[10])], "refused 17 place 1 2 1"),
        // From place 1: 1 -> 0 -> 1 -> 5 -> 4.
        all(
            "18, two places",
            &[Second(1, 0, &[4, 5, 18, 24]), Second(1, 1, &[11, 0, 8, 27])],
            "refused 18 place 1 0 2",
        ),
        all("19, two places", &[Second(1, 0, &[0, 1, 2, 3]), Second(1, 3, &[3])], "refused 19 place 1 0 0"),
        // ... of two rules: the earlier number, though its place is higher.
        all("10, 16, one message", &[Second(1, 1, &[4]), Second(1, 3, &[10, 63])], "refused 10 place 1 3 1"),
        all(
            "17, 18, one message",
            &[Second(1, 0, &[4, 17, 24]), Second(1, 3, &[10])],
            "refused 17 place 1 3 0",
        ),
        all(
            "18, 19, one message",
            &[Second(1, 0, &[0, 1, 2, 3]), Second(1, 1, &[11, 0, 8, 27])],
            "refused 18 place 1 1 1",
        ),
        // In two messages: the lower one, whatever the places and steps.
        all("7, two messages", &[First(1, &[0, 1, 2, 63]), First(2, &[28])], "refused 7 place 1 3 3"),
        all("14, two messages", &[First(1, &[0, 1, 3]), First(2, &[0, 2])], "refused 14 place 1 2 2"),
        all("15, two messages", &[First(1, &[0, 1, 12]), First(2, &[0, 11])], "refused 15 place 1 2 2"),
        all("10, two messages", &[Second(1, 3, &[10, 63]), Second(2, 0, &[63])], "refused 10 place 1 3 1"),
        all("16, two messages", &[Second(0, 3, &[10, 6, 7]), Second(2, 0, &[5])], "refused 16 place 0 3 1"),
        all("17, two messages", &[Second(1, 3, &[10, 5]), Second(2, 0, &[4])], "refused 17 place 1 3 1"),
        all(
            "18, two messages",
            &[Second(0, 1, &[8, 5, 19, 27]), Second(2, 0, &[4, 17, 24])],
            "refused 18 place 0 1 2",
        ),
        all("19, two messages", &[Second(0, 3, &[3]), Second(2, 0, &[0, 1, 2, 3])], "refused 19 place 0 3 0"),
        // A rule that is broken in the lowest message and again in the highest, and an earlier one between.
        all(
            "15, 14, 15",
            &[First(0, &[0, 11]), First(1, &[0, 2]), First(2, &[0, 11])],
            "refused 14 place 1 1 1",
        ),
        all(
            "19, 18, 19",
            &[Second(0, 3, &[3]), Second(1, 0, &[4, 17, 24]), Second(2, 3, &[3])],
            "refused 18 place 1 0 1",
        ),
    ]
}

/// The first path 0, ..., 15 along 0 -> 1 -> ... -> 16 for each of 32 messages, and from its place 15
/// the second path 16, ..., 31 along 15 -> 17 -> 18 -> ... -> 31 -> 16.
fn longest() -> Plan {
    let mut links: Vec<(usize, usize)> = (0..16).map(|from| (from, from + 1)).collect();
    links.push((15, 17));
    links.extend((17..31).map(|from| (from, from + 1)));
    links.push((31, 16));
    links.extend([(31, 32), (29, 16), (16, 31), (15, 0)]); // 32 to 35
    let message = |m: usize| {
        let second = |place| if place == 15 { (16..32).collect() } else { vec![] };
        (0..16).map(|place| (place, m + place, second(place))).collect()
    };
    plan(33, 64, &links, (0..32).map(message).collect())
}

/// The last message, the last place and the last link that there can be.
pub fn last_of_all() -> Vec<Example> {
    let mut all = vec![("the longest paths", longest(), "good")];
    let mut first = |name, link, wanted| {
        let mut plan = longest();
        plan.messages[31].places[15] = Place { link, slot: 46, second: None };
        all.push((name, plan, wanted));
    };
    first("7, the last of all", 36, "refused 7 place 31 15 15");
    first("14, the last of all", 31, "refused 14 place 31 15 15");
    first("15, the last of all", 35, "refused 15 place 31 15 15");
    let mut last = |name, link, wanted| {
        let mut plan = longest();
        plan.messages[31].places[15].second.as_mut().unwrap()[15] = link;
        all.push((name, plan, wanted));
    };
    last("10, the last of all", 63, "refused 10 place 31 15 15");
    last("16, the last of all", 15, "refused 16 place 31 15 15");
    last("17, the last of all", 32, "refused 17 place 31 15 15");
    let mut second = |name, links: Vec<usize>, wanted| {
        let mut plan = longest();
        plan.messages[31].places[15].second = Some(links);
        all.push((name, plan, wanted));
    };
    // 15 -> 17 -> ... -> 29 -> 16 -> 31 -> 16.
    let again = [(16..29).collect(), vec![33, 34, 31]].concat();
    second("18, the last of all", again, "refused 18 place 31 15 15");
    second("19, the last of all", vec![15], "refused 19 place 31 15 0");
    // 15 -> 16 -> 31 -> 16: 18 at step 2, and 19.
    second("18 and 19, the last place", vec![15, 34, 31], "refused 18 place 31 15 2");
    all
}
