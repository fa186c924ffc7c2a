//! Examples of document 02, [3], "A cable goes both ways", found by hand; that a plan without reversed
//! links answers as document 01 says; that a replay is document 01's with both ways of each cable cut;
//! and that each wrong way to read the request differs somewhere.

use crate::cases::{self, plan_and_cuts};
use crate::cuts::{cable_names, name_of, other_way};
use crate::cycle::cycle;
use crate::examples::{a, b, plan, row, Tests};
use crate::lines::{capture_program, explain_program, highest_k, replay_program, verdict_program};
use crate::miscut::{self, Way};
use crate::plan::{file_of, Plan};
use crate::probe;
use crate::questions::numbers_of;
use crate::random::two_way_cables;
use crate::shelf::shelf_program;
use crate::theorem;

pub fn run(tests: &mut Tests) {
    names(tests);
    replays(tests);
    searches(tests);
    second_paths(tests);
    largest(tests);
    programs(tests);
    as_before(tests);
    both_ways_cut(tests);
    wrong_ways(tests);
}

/// Three vertices, and between each two of them a cable: links 0 and 1 between 0 and 1, links 2 and 4
/// between 0 and 2, links 3 and 5 between 2 and 1. Message 0 goes from 0 to 1 in slot 0 and message 1
/// from 1 to 0 in slot 1, over the same cable; their second paths go over vertex 2, one each way.
fn there_and_back() -> Plan {
    plan(
        3,
        4,
        &[(0, 1), (1, 0), (0, 2), (2, 1), (2, 0), (1, 2)],
        vec![vec![(0, 0, vec![2, 3])], vec![(1, 1, vec![5, 4])]],
    )
}

/// The same three cables, cut by the lower links 0, 1 and 2. The one message goes over link 0, and its
/// second path over the higher links 3 and 4.
fn by_higher_links() -> Plan {
    plan(
        3,
        3,
        &[(0, 1), (2, 0), (1, 2), (0, 2), (2, 1), (1, 0)],
        vec![vec![(0, 0, vec![3, 4])]],
    )
}

/// One cable. Message 0 goes over link 1 and message 1 over link 0.
fn one_cable() -> Plan {
    plan(2, 1, &[(1, 0), (0, 1)], vec![vec![(1, 0, vec![])], vec![(0, 0, vec![])]])
}

/// From 0 over 1 to 2 by links 0 and 1; from 1 the second path goes back over link 2, the other way of
/// link 0, and from 0 to 2 by link 3.
fn back_over_its_own() -> Plan {
    plan(
        3,
        4,
        &[(0, 1), (1, 2), (1, 0), (0, 2)],
        vec![vec![(0, 0, vec![]), (1, 1, vec![2, 3])]],
    )
}

/// A vertex in the middle with 32 cables: links 2i from it, links 2i + 1 to it. Message i goes out if i
/// is even, and in if it is odd, all in slot 0 of one.
fn star() -> Plan {
    let links: Vec<(usize, usize)> = (1..33).flat_map(|end| [(0, end), (end, 0)]).collect();
    plan(33, 1, &links, (0..32).map(|i| vec![(2 * i + i % 2, 0, vec![])]).collect())
}

/// A replay with just the room it needs.
fn replay(plan: &Plan, cuts: &str) -> String {
    let count = if cuts.is_empty() { 0 } else { cuts.split(' ').count() };
    let cuts = if cuts.is_empty() { String::new() } else { format!(" {}", cuts) };
    let room = 2 * plan.timeout * plan.messages.len();
    format!("replay {} {}{} {}", room, count, cuts, row(plan))
}

/// What a cable's name is, and refusal 12 for any other.
fn names(tests: &mut Tests) {
    let plan = there_and_back();
    let others: Vec<Option<usize>> = (0..6).map(|link| other_way(&plan, link)).collect();
    tests.holds(
        "the other ways",
        others == [Some(1), Some(0), Some(4), Some(5), Some(2), Some(3)],
    );
    tests.holds("the names", cable_names(&plan) == [0, 2, 3]);
    let of_links: Vec<usize> = (0..6).map(|link| name_of(&plan, link)).collect();
    tests.holds("the names of links", of_links == [0, 0, 2, 3, 2, 3]);
    // "Plans A and B have no reversed links".
    for plan in [a(), b()] {
        let links = 0..plan.links.len();
        tests.holds("A and B", links.clone().all(|link| other_way(&plan, link).is_none()));
        tests.holds("A and B", cable_names(&plan) == links.collect::<Vec<usize>>());
    }
    // "a pair that names the higher link is 12", wherever it stands; the first bad pair decides.
    let refused = [
        ("0 1", 0),             // alone
        ("3 5", 0),             // the last pair that there is
        ("0 0 0 1", 1),         // behind the lower one of its cable
        ("0 0 3 1", 1),         // ... later
        ("0 1 1 0", 0),         // before it
        ("0 2 0 4 0 5", 1),     // the first of two
        ("0 0 0 2 0 3 0 5", 3), // the last
        ("0 0 1 4 2 3", 1),     // in the middle
        ("0 4 9 0", 0),         // before a slot that is too large
        ("9 0 0 4", 0),         // behind one
        ("0 4 0", 0),           // before an odd last number
        ("0 2 0 2 0 4", 1),     // behind a pair that does not rise
        ("0 2 1 2 2 5", 1),     // behind a link that comes twice
        ("1 5 0 3", 0),         // before a pair that falls
        ("0 6 0 1", 0),         // behind a link that is not there
    ];
    for (cuts, index) in refused {
        let wanted = format!("refused 12 place {}", index);
        tests.asked("a higher link", &replay(&plan, cuts), &wanted);
        // 12 comes before 13.
        let question = replay(&plan, cuts).replacen("replay 16", "replay 15", 1);
        tests.asked("a higher link, too short", &question, &wanted);
    }
    for cuts in ["0 0", "0 2", "3 3", "0 0 0 2 0 3", "0 3 1 2 2 0"] {
        let got = probe::answer(replay(&plan, cuts).as_bytes());
        tests.holds(&format!("by the lower links ({})", cuts), got.starts_with("ok "));
    }
}

fn replays(tests: &mut Tests) {
    let plan = there_and_back();
    // Cable 0 in slot 0: both find their link cut in slot 0, turn, and cross at once: message 0 by links
    // 2 and 3, message 1 by links 5 and 4. In slot 0 link 5 and in slot 1 link 3 are crossed: the two
    // ways of a cable do not hold each other up.
    tests.asked(
        "cable 0 in slot 0",
        &replay(&plan, "0 0"),
        "ok 2 3 2 3 5 3 3 3 4 0 0 0 0 0 0 0 0",
    );
    // In slot 1: message 0 is through. Message 1 waited for link 1 in slot 0, and turns in slot 1.
    tests.asked(
        "cable 0 in slot 1",
        &replay(&plan, "1 0"),
        "ok 2 2 0 1 1 0 0 3 5 0 0 3 4 0 0 0 0",
    );
    // In slot 2: "A crossing begun in slot i is not hurt by a cut in slot i + 1", either way.
    let whole = "ok 2 2 0 1 1 0 0 2 1 0 0 0 0 0 0 0 0";
    tests.asked("cable 0 in slot 2", &replay(&plan, "2 0"), whole);
    tests.asked("no cuts", &replay(&plan, ""), whole);
    // Cables 2 and 3 are on second paths alone.
    tests.asked("cables 2 and 3", &replay(&plan, "0 2 0 3"), whole);
    // Cables 0 and 3: message 0 comes as far as vertex 2 and finds link 3 cut; message 1 finds link 5 cut
    // at once. The events tell the links (kind 7), not the name of the cable, which is 3.
    tests.asked(
        "cables 0 and 3",
        &replay(&plan, "0 0 0 3"),
        "ok 0 3 2 7 5 7 3 7 5 7 3 7 5 7 3 7 5",
    );
    // Cables 0 and 2, the latter in slot 1: message 0 has crossed link 2 in slot 0 and crosses link 3 in
    // slot 1; message 1 has crossed link 5 and finds link 4 cut.
    tests.asked(
        "cables 0 and 2",
        &replay(&plan, "0 0 1 2"),
        "ok 1 3 2 3 5 3 3 7 4 0 0 7 4 0 0 7 4",
    );
    // A message more, which comes in over link 4 in slot 0 while message 0 goes out over link 2: the table
    // gives link 4 to it, and link 2 to nobody.
    let mut both = there_and_back();
    both.messages.push(crate::plan::Message {
        places: vec![crate::plan::Place { link: 4, slot: 0, second: None }],
    });
    tests.asked(
        "both ways in one slot",
        &replay(&both, "0 0"),
        "ok 3 3 2 3 5 2 4 3 3 3 4 0 0 0 0 0 0 0 0 0 0 0 0 0 0",
    );
    // Kind 6 by the other way: message 0 of the one cable goes over link 1 and the pair names link 0.
    tests.asked("one cable", &replay(&one_cable(), "0 0"), "ok 0 6 1 6 0");
    tests.asked("one cable by its other name", &replay(&one_cable(), "0 1"), "refused 12 place 0");
}

/// Verdict, figures and captures: "it is one cut, and k counts pairs".
fn searches(tests: &mut Tests) {
    let there = there_and_back();
    let there_row = row(&there);
    // No one cable loses a message: cable 0 is gone around, and the others are second paths'. With cables
    // 0 and 2 in slot 0 message 0 cannot leave vertex 0, and message 1 gets as far as vertex 2: none
    // arrives, and before (0,0), (0,2) there is no list of two pairs. By document 01 these two links lose
    // message 0 alone, and three links no more.
    for (k, wanted) in [2, 2, 0, 0].iter().enumerate() {
        tests.asked("figures", &format!("figure {} {}", k, there_row), &format!("ok {}", wanted));
    }
    tests.asked("figures", &format!("figures 3 4 {}", there_row), "ok 4 2 2 0 0");
    tests.asked("verdict", &format!("verdict 1 2 2 {}", there_row), "ok resistant");
    for l in [1, 2] {
        let question = format!("verdict 2 {} 4 {}", l, there_row);
        tests.asked("verdict", &question, "ok failing 2 0 0 0 2");
        let question = format!("verdict 3 {} 6 {}", l, there_row);
        tests.asked("verdict", &question, "ok failing 2 0 0 0 2");
    }
    tests.holds(
        "by document 01",
        miscut::answer(Way::OneWay, &format!("figure 3 {}", there_row)) == Some(String::from("ok 1")),
    );
    // The crossings of the replay of (0,0), above: one pair explains them, where document 01 needs two.
    let capture = "12 0 2 0 0 5 1 1 3 0 1 4 1";
    tests.asked("explain", &format!("explain 1 2 {} {}", capture, there_row), "ok list 1 0 0");
    tests.asked("explain", &format!("explain 0 0 {} {}", capture, there_row), "ok unexplained");
    // Message 0 crosses link 0 and message 1 nothing: link 0 is whole in slot 0, and link 1 cut in slot
    // 1; then message 1 turns to link 5, and that is cut by then. (0,3), (1,0) is the first such list, and
    // it names links 0 and 3, neither of which message 1 would cross.
    for k in [2, 3] {
        let question = format!("explain {} {} 3 0 0 0 {}", k, 2 * k, there_row);
        tests.asked("explain", &question, "ok list 2 0 3 1 0");
    }
    tests.asked("explain", &format!("explain 1 2 3 0 0 0 {}", there_row), "ok unexplained");
    // Message 0 crosses nothing and message 1 its link 1: that is one way alone cut, and unexplained.
    tests.asked("explain", &format!("explain 3 6 3 1 1 1 {}", there_row), "ok unexplained");
    // The one cable has one name, and one cut loses both.
    let one = row(&one_cable());
    for k in [1, 2, 3] {
        tests.asked("one cable", &format!("figure {} {}", k, one), "ok 0");
        for l in [1, 2] {
            let question = format!("verdict {} {} {} {}", k, l, 2 * k, one);
            tests.asked("one cable", &question, "ok failing 1 0 0");
        }
        let question = format!("explain {} {} 0 {}", k, 2 * k, one);
        tests.asked("one cable", &question, "ok list 1 0 0");
        // One message alone crosses: no list cuts one way.
        let question = format!("explain {} {} 3 0 0 1 {}", k, 2 * k, one);
        tests.asked("one cable", &question, "ok unexplained");
    }
}

/// Demand 3's premise is that no cable of the second path is cut before arrival; and slack is as before.
fn second_paths(tests: &mut Tests) {
    // D is 2, for nothing else is on links 3 and 4: slack 3 - 0 - 2.
    let higher = by_higher_links();
    tests.asked("slack", &format!("slack 0 0 {}", row(&higher)), "ok 1");
    // Diverted in slot 0 it arrives by time 2.
    tests.asked("link 0 alone", &replay(&higher, "0 0"), "ok 1 3 3 3 4 0 0");
    // Links 1 and 2 are not on its second path, and their cables are: it is stopped at vertex 0, and at
    // vertex 2; by document 01 it would arrive by time 2 both times.
    tests.asked("cable 1 too", &replay(&higher, "0 0 0 1"), "ok 0 7 3 7 3 7 3");
    tests.asked("cable 2 too", &replay(&higher, "0 0 1 2"), "ok 0 3 3 7 4 7 4");
    for cuts in ["0 0 0 1", "0 0 1 2"] {
        let by_01 = miscut::answer(Way::OneWay, &replay(&higher, cuts));
        tests.holds("by document 01", by_01 == Some(String::from("ok 1 3 3 3 4 0 0")));
    }
    // Cut in the slot after it has crossed, they do no harm.
    tests.asked("cable 1 later", &replay(&higher, "0 0 1 1"), "ok 1 3 3 3 4 0 0");
    tests.asked("cable 2 later", &replay(&higher, "0 0 2 2"), "ok 1 3 3 3 4 0 0");
    // Back over the cable that it came by. Link 1 cut in slot 1: back by link 2, on by link 3.
    let back = back_over_its_own();
    tests.asked("back", &replay(&back, "1 1"), "ok 1 2 0 3 2 3 3 0 0");
    // ... and cable 0 cut too, once it is crossed: it cannot go back.
    tests.asked("not back", &replay(&back, "1 0 1 1"), "ok 0 2 0 7 2 7 2 7 2");
    // Only link 0 is crossed: link 1 is cut in slot 1, and cable 0 in that slot too, not before.
    let question = format!("explain 2 4 3 0 0 0 {}", row(&back));
    tests.asked("not back, explained", &question, "ok list 2 0 1 1 0");
    // Slack counts links. There and back with a message on link 3 in slot 0: a(3) is 1, and a(5) is 0.
    // Message 0: 4 - 0 - (1 + 2); message 1, by links 5 and 4: 4 - 1 - 2.
    let mut third = there_and_back();
    third.messages.push(crate::plan::Message {
        places: vec![crate::plan::Place { link: 3, slot: 0, second: None }],
    });
    tests.asked("slack", &format!("slack 0 0 {}", row(&third)), "ok 1");
    tests.asked("slack", &format!("slack 1 0 {}", row(&third)), "ok 1");
}

/// 64 links that are 32 cables.
fn largest(tests: &mut Tests) {
    let star = star();
    let all: Vec<String> = (0..32).map(|i| format!("0 {}", 2 * i)).collect();
    let got = probe::answer(replay(&star, &all.join(" ")).as_bytes());
    // Message i loses link 2i or 2i + 1: kind 6.
    let events: Vec<String> = (0..32).map(|i| format!("6 {}", 2 * i + i % 2)).collect();
    tests.equal("32 cables, all cut", &got, &format!("ok 0 {}", events.join(" ")));
    // One more pair names a link that is cut already: the first one that is a higher link.
    let more = format!("{} 0 63", all.join(" "));
    tests.asked("33 pairs", &replay(&star, &more), "refused 12 place 32");
    let names: Vec<String> = (0..64).map(|link| format!("0 {}", link)).collect();
    tests.asked("64 pairs", &replay(&star, &names.join(" ")), "refused 12 place 1");
    // Each pair loses one message: E x t is 64.
    tests.asked("its figures", &format!("figures 3 4 {}", row(&star)), "ok 4 32 31 30 29");
    tests.asked(
        "its verdict",
        &format!("verdict 3 30 6 {}", row(&star)),
        "ok failing 3 0 0 0 2 0 4",
    );
}

fn programs(tests: &mut Tests) {
    let file = file_of(&there_and_back());
    let refused: [(&[u8], usize); 6] = [
        (b"cut 0 1\n", 0),
        (b"cut 0 0\ncut 0 1\n", 1),
        (b"cut 0 0\ncut 1 4\ncut 2 x\n", 1),
        (b"cut 0 x\ncut 1 4\n", 0),
        (b"cut 0 0\ncut 1 2\ncut 3 5\n", 2),
        (b"cut 0 5", 0),
    ];
    for (input, line) in refused {
        let name = format!("a higher link ({:?})", String::from_utf8_lossy(input));
        let wanted = format!("refused 12 place {}\n", line);
        tests.equal(&name, &replay_program(&file, input), &wanted);
        tests.equal(&name, &capture_program(&file, input), &wanted);
    }
    let listing = replay_program(&file, b"cut 0 0\n");
    tests.equal(
        "the listing of (0,0)",
        &listing,
        "slot message kind number\n0 0 3 2\n0 1 3 5\n1 0 3 3\n1 1 3 4\n2 0 0 0\n2 1 0 0\n3 0 0 0\n\
         3 1 0 0\narrived 2 of 2\n",
    );
    let capture = "0 2 0\n0 5 1\n1 3 0\n1 4 1\n";
    tests.equal("its capture", &capture_program(&file, b"cut 0 0\n"), capture);
    let wanted = format!("0 0\n{}", listing);
    tests.equal("its capture explained", &explain_program(&file, capture.as_bytes()), &wanted);
    // The one cable: k up to 3, and one pair each.
    tests.equal(
        "the verdicts of one cable",
        &verdict_program(&file_of(&one_cable())),
        "0 0 resistant\n0 1 resistant\n0 2 resistant\n1 0 resistant\n1 1 0 0\n1 2 0 0\n2 0 resistant\n\
         2 1 0 0\n2 2 0 0\n3 0 resistant\n3 1 0 0\n3 2 0 0\n",
    );
    let sheet = shelf_program(b"one\n", &|_| file_of(&one_cable()));
    tests.equal(
        "the sheet of one cable",
        &String::from_utf8(sheet).unwrap(),
        "2 0 0 0 one\n0 1 0\n1 0 2\n2 0 2\n3 0 2\n",
    );
    // E x t counts links, as before: 6 x 10, and 6 x 11.
    let mut longer = there_and_back();
    longer.timeout = 10;
    tests.holds("E x t is 60", highest_k(&longer) == 3);
    longer.timeout = 11;
    tests.holds("E x t is 66", highest_k(&longer) == 1);
}

/// A plan without reversed links answers as document 01 says.
fn as_before(tests: &mut Tests) {
    let (mut same, mut asked) = (true, [0; 5]);
    let without: Vec<String> = ["read", "write", "second", "where", "junk"].map(String::from).to_vec();
    for case in 0..4000 {
        let (name, line) = cases::question(17, case, &without);
        let two_way = probe::plan_of_question(&line).map_or(true, |plan| {
            !good(&plan) || !two_way_cables(&plan).is_empty()
        });
        if two_way {
            continue;
        }
        if let Some(by_01) = miscut::answer(Way::OneWay, &line) {
            same = same && by_01 == probe::answer(line.as_bytes());
            let names = ["replay", "verdict", "figure", "explain", "slack"];
            asked[names.iter().position(|other| *other == name).unwrap()] += 1;
        }
    }
    tests.holds("without reversed links all is as by document 01", same);
    tests.holds("it is asked often enough", asked.iter().all(|number| *number > 40));
}

fn good(plan: &Plan) -> bool {
    crate::good::good(plan).is_ok()
}

/// The replay is document 01's under the list that has both ways of each cable.
fn both_ways_cut(tests: &mut Tests) {
    let (mut same, mut two_way) = (true, 0);
    for case in 0..1000 {
        let (plan, list) = plan_and_cuts(18, case);
        let mut links = list.clone();
        for (slot, name) in &list {
            links.extend(other_way(&plan, *name).map(|other| (*slot, other)));
        }
        two_way += usize::from(links.len() > list.len());
        let (events, arrivals) = miscut::played(Way::OneWay, &plan, &links);
        let cycle = cycle(&plan, &list);
        same = same && events == cycle.events && arrivals == cycle.arrivals;
        let named = numbers_of(&list).chunks(2).all(|pair| {
            name_of(&plan, pair[1] as usize) == pair[1] as usize
        });
        same = same && named;
    }
    tests.holds("a cable cut is both its links cut", same);
    tests.holds("many of these lists cut two-way cables", two_way > 300);
}

/// Each wrong way differs on small questions, and the right one never does.
fn wrong_ways(tests: &mut Tests) {
    tests.holds("the right way", miscut::all_different(&[Way::Right], 3, 1500).is_empty());
    for (way, name, within) in miscut::WRONG {
        for seed in 1..=2 {
            let name = format!("{} differs, seed {}, {} questions", name, seed, within);
            tests.holds(&name, !miscut::all_different(&[way], seed, within).is_empty());
        }
    }
    // The promises, if they are read by the link that a pair names alone.
    match theorem::theorem(9, 2000) {
        Err(_) => tests.holds("the promises hold", false),
        Ok(counts) => {
            tests.holds("demand 3 by named links is false", counts.late_by_other_way > 0);
            tests.holds("untouched by named links is false", counts.changed_by_other_way > 0);
        }
    }
}
