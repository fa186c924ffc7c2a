//! The examples of document 01, those marked P and those not, the cases "Plausible and
//! wrong", each refusal in each way (document 02's [1] and [7] too), and a few laws on random plans.
//! (figure_examples.rs has those of [2], cable_examples.rs those of [3].)

use crate::bad;
use crate::cable_examples;
use crate::captures;
use crate::cases;
use crate::cuts::{cut_list_of_numbers, Pair};
use crate::cycle::cycle;
use crate::explain::{by_walking, crossings, number_of_lists, numbers_of_capture, of_every_list};
use crate::figure_examples;
use crate::good::ORDER;
use crate::good01::held_against_01;
use crate::lines::{
    capture_program, deep_program, explain_program, lines_of_capture, replay_program,
    verdict_program,
};
use crate::losses;
use crate::misjudged;
use crate::named;
use crate::path_examples;
use crate::plan::{file_of, row_of, Link, Message, Place, Plan};
use crate::probe::{answer, hex_of_bytes, spaced};
use crate::questions::{self, good_plan_of_row, numbers_of};
use crate::random::{self, Random, Size};
use crate::shelf::shelf_program;
use crate::slack::slack_of;
use crate::theorem;
use crate::verdict::{every_list, failing_list};

pub struct Tests {
    passed: usize,
    failed: usize,
}

impl Tests {
    pub fn holds(&mut self, name: &str, holds: bool) {
        if holds {
            self.passed += 1;
        } else {
            self.failed += 1;
            println!("FAILED: {}", name);
        }
    }

    pub fn equal(&mut self, name: &str, got: &str, wanted: &str) {
        if got == wanted {
            self.passed += 1;
        } else {
            self.failed += 1;
            println!("FAILED: {}\n  wanted: {:?}\n  got:    {:?}", name, wanted, got);
        }
    }

    /// A question of PROBE.md and its answer.
    pub fn asked(&mut self, name: &str, question: &str, wanted: &str) {
        let got = answer(question.as_bytes());
        self.equal(&format!("{} ({})", name, question), &got, wanted);
    }
}

/// How many passed and how many failed.
pub fn run() -> (usize, usize) {
    let mut tests = Tests { passed: 0, failed: 0 };
    plan_b(&mut tests);
    plan_a(&mut tests);
    fields(&mut tests);
    rules(&mut tests);
    path_rules(&mut tests);
    cut_lists(&mut tests);
    rooms(&mut tests);
    plausible_and_wrong(&mut tests);
    document_000(&mut tests);
    slacks_and_second_paths(&mut tests);
    programs(&mut tests);
    probe_lines(&mut tests);
    verdicts(&mut tests);
    laws(&mut tests);
    generator(&mut tests);
    lost_messages(&mut tests);
    explained(&mut tests);
    captures_as_lines(&mut tests);
    captures_at_random(&mut tests);
    figure_examples::run(&mut tests);
    cable_examples::run(&mut tests);
    (tests.passed, tests.failed)
}

// ------------------------------------------------------------------ the two plans

/// "Its row".
const B: &str = "1 2 2 1 3 0 1 0 2 2 1 0 0 0 1 1 1 2 0 0 1 1 1 1 2";
/// "Its file, 17 bytes in hex".
const B_FILE: [u8; 17] = [
    0x10, 0x82, 0x08, 0x60, 0x02, 0x00, 0x41, 0x02, 0x00, 0x01, 0x10, 0x42, 0x00, 0x01, 0x88,
    0x21, 0x00,
];

/// "Plan A has links 0->1, 1->3, 0->2, 2->3 and t = 4. Message 0: links 0, 1 in slots
/// 0, 1, second path 2, 3 from place 0. Message 1: links 2, 3 in slots 0, 1, second
/// path 0, 1 from place 0."
pub fn a() -> Plan {
    plan(
        4,
        4,
        &[(0, 1), (1, 3), (0, 2), (2, 3)],
        vec![vec![(0, 0, vec![2, 3]), (1, 1, vec![])], vec![(2, 0, vec![0, 1]), (3, 1, vec![])]],
    )
}

/// "Plan B has links 0->1, 0->2, 2->1 and t = 4. Both messages have first path link 0,
/// message 0 in slot 0 and message 1 in slot 1, and second path links 1, 2."
pub fn b() -> Plan {
    plan(
        3,
        4,
        &[(0, 1), (0, 2), (2, 1)],
        vec![vec![(0, 0, vec![1, 2])], vec![(0, 1, vec![1, 2])]],
    )
}

/// A plan; each place has its link, its slot and its second path, empty for none.
pub fn plan(
    vertices: usize,
    timeout: usize,
    links: &[(usize, usize)],
    messages: Vec<Vec<(usize, usize, Vec<usize>)>>,
) -> Plan {
    Plan {
        vertices,
        timeout,
        links: links.iter().map(|(from, to)| Link { from: *from, to: *to }).collect(),
        messages: messages
            .into_iter()
            .map(|places| Message {
                places: places
                    .into_iter()
                    .map(|(link, slot, second)| Place {
                        link,
                        slot,
                        second: if second.is_empty() { None } else { Some(second) },
                    })
                    .collect(),
            })
            .collect(),
    }
}

pub fn row(plan: &Plan) -> String {
    spaced(&row_of(plan)).trim_start().to_string()
}

/// Message m's events, kind and number in each slot.
fn events_of(plan: &Plan, cuts: &[Pair], m: usize) -> Vec<(usize, usize)> {
    cycle(plan, cuts).events.iter().map(|events| (events[m].kind, events[m].number)).collect()
}

fn kinds_of(plan: &Plan, cuts: &[Pair], m: usize) -> Vec<usize> {
    events_of(plan, cuts, m).iter().map(|(kind, _)| *kind).collect()
}

fn read(file: &[u8]) -> String {
    answer(format!("read 12000 {}", hex_of_bytes(file)).as_bytes())
}

fn plan_b(tests: &mut Tests) {
    let hex = hex_of_bytes(&B_FILE);
    tests.holds("B as described has B's row", row(&b()) == B);
    // "P: B's row and file give each other."
    tests.asked("B's row gives its file", &format!("write 17 {}", B), &format!("ok 17 {}", hex));
    tests.asked("B's file gives its row", &format!("read 25 {}", hex), &format!("ok 25 {}", B));
    // "P: B with its last byte 01: refusal 4, place 129. P: empty file: 2, place 0. P:
    // first byte 20: 1."
    let mut file = B_FILE.to_vec();
    file[16] = 1;
    tests.equal("B with its last byte 01", &read(&file), "refused 4 place 129");
    tests.equal("empty file", &read(&[]), "refused 2 place 0");
    let mut file = B_FILE.to_vec();
    file[0] = 0x20;
    tests.equal("B with first byte 20", &read(&file), "refused 1 place 0");
    tests.equal("first byte 20 alone", &read(&[0x20]), "refused 1 place 0");
    // "P: B, cut (0,0): events as above."
    tests.asked(
        "B, cut (0,0)",
        &format!("replay 16 2 0 0 {}", B),
        "ok 2 3 1 5 0 3 2 3 1 0 0 3 2 0 0 0 0",
    );
    // "P: cut (1,0): message 1 has kinds 1, 3, 3, 0."
    tests.holds("B, cut (1,0)", kinds_of(&b(), &[(1, 0)], 1) == [1, 3, 3, 0]);
    // "P: B's slacks: message 0, 2; message 1, -1, though it arrives at time 3."
    tests.asked("B's slacks", &format!("slack 0 0 {}", B), "ok 2");
    tests.asked("B's slacks", &format!("slack 1 0 {}", B), "ok -1");
    let kinds = kinds_of(&b(), &[(0, 0)], 1);
    tests.holds("B, message 1 arrives at time 3", kinds[2] == 3 && kinds[3] == 0);
    // The listing in full.
    tests.equal(
        "B's listing",
        &replay_program(&B_FILE, b"cut 0 0\n"),
        "slot message kind number\n0 0 3 1\n0 1 5 0\n1 0 3 2\n1 1 3 1\n2 0 0 0\n2 1 3 2\n\
         3 0 0 0\n3 1 0 0\narrived 2 of 2\n",
    );
}

fn plan_a(tests: &mut Tests) {
    let a_row = row(&a());
    // "P: A, no cuts: 2."
    tests.asked(
        "A, no cuts",
        &format!("replay 16 0 {}", a_row),
        "ok 2 2 0 2 2 2 1 2 3 0 0 0 0 0 0 0 0",
    );
    // "P: cut (0,0): message 0 held by the table in slot 0, arrives at time 3."
    tests.holds(
        "A, cut (0,0)",
        events_of(&a(), &[(0, 0)], 0) == [(4, 1), (3, 2), (3, 3), (0, 0)],
    );
    // "P: cut (1,1): kind 6 from slot 1, 1 arrival."
    tests.asked(
        "A, cut (1,1)",
        &format!("replay 16 2 1 1 {}", a_row),
        "ok 1 2 0 2 2 6 1 2 3 6 1 0 0 6 1 0 0",
    );
    // "A, k 1, l 2: list (0,1). k 1, l 1: resistant."
    tests.asked("A", &format!("verdict 1 2 2 {}", a_row), "ok failing 1 0 1");
    tests.asked("A", &format!("verdict 1 1 2 {}", a_row), "ok resistant");
    // "P: cuts (0,0), (0,2): no arrivals, and this is the list for k 2, l 1."
    tests.holds("A, cuts (0,0), (0,2)", cycle(&a(), &[(0, 0), (0, 2)]).arrivals == 0);
    tests.asked("A", &format!("verdict 2 1 4 {}", a_row), "ok failing 2 0 0 0 2");
    // "A with t = 2, k 1, l 2: (0,0)."
    let mut short = a();
    short.timeout = 2;
    tests.asked("A with t = 2", &format!("verdict 1 2 2 {}", row(&short)), "ok failing 1 0 0");
    // "A's slacks: 0 and 0."
    tests.asked("A's slacks", &format!("slack 0 0 {}", a_row), "ok 0");
    tests.asked("A's slacks", &format!("slack 1 0 {}", a_row), "ok 0");
    // "k = 4: refusal 11."
    tests.asked("k = 4", &format!("verdict 4 2 8 {}", a_row), "refused 11 place 0");
    // "l = 0, or k = 0: always resistant."
    for plan in [a(), b(), short] {
        for l in 0..=2 {
            let question = format!("verdict 0 {} 0 {}", l, row(&plan));
            tests.asked("k = 0", &question, "ok resistant");
        }
        for k in 0..=3 {
            let question = format!("verdict {} 0 6 {}", k, row(&plan));
            tests.asked("l = 0", &question, "ok resistant");
        }
    }
}

// -------------------------------------------------------------- refusals 1 to 4

fn numbers(text: &str) -> Vec<u16> {
    text.split(' ').map(|word| word.parse().unwrap()).collect()
}

fn fields(tests: &mut Tests) {
    // 1: "first field present and not 1", whatever else is wrong.
    for first in ["0", "2", "15", "16", "65535"] {
        tests.asked("row, another edition", &format!("write 99 {}", first), "refused 1 place 0");
        let more = format!("write 99 {} 64 70 99", first);
        tests.asked("row, another edition", &more, "refused 1 place 0");
    }
    for first in [0x00, 0x0F, 0x2F, 0xF0] {
        tests.equal("file, another edition", &read(&[first]), "refused 1 place 0");
    }
    // 2: "input ends inside or before a field": every row cut short.
    let b_row = numbers(B);
    for length in 0..b_row.len() {
        tests.asked(
            "B's row cut short",
            &format!("write 99{}", spaced(&b_row[..length])),
            &format!("refused 2 place {}", length),
        );
    }
    // The starts of B's fields, by hand: 27 bits ahead, 36 of links, then the messages.
    let starts = [
        0, 4, 10, 16, 21, 27, 33, 39, 45, 51, 57, 63, 67, 73, 79, 80, 84, 90, 96, 100, 106, 112,
        113, 117, 123,
    ];
    for length in 0..17 {
        let bits = 8 * length;
        // The last field that starts at or before the end and is not wholly there.
        let ends = |field: usize| if field + 1 < 25 { starts[field + 1] } else { 129 };
        let field = (0..25).find(|field| ends(*field) > bits).unwrap();
        tests.equal(
            "B's file cut short",
            &read(&B_FILE[..length]),
            &format!("refused 2 place {}", starts[field]),
        );
    }
    // 3: "a number after the first too large for its field": the widths of B's fields.
    let widths = [
        4, 6, 6, 5, 6, 6, 6, 6, 6, 6, 6, 4, 6, 6, 1, 4, 6, 6, 4, 6, 6, 1, 4, 6, 6,
    ];
    for index in 1..25 {
        let mut row = b_row.clone();
        for value in [1 << widths[index], 65535] {
            row[index] = value;
            let question = format!("write 99{}", spaced(&row));
            tests.asked("too large", &question, &format!("refused 3 place {}", index));
        }
        // The largest number that fits gives another refusal or none.
        row[index] = (1 << widths[index]) - 1;
        let got = answer(format!("write 99{}", spaced(&row)).as_bytes());
        tests.holds("the largest number that fits", !got.starts_with("refused 3"));
    }
    // "2 and 3 go by the first one met from the front".
    tests.asked("3 before 2", "write 99 1 2 2 1 3 0 1 0 64", "refused 3 place 8");
    tests.asked("3 before 2", "write 99 1 64", "refused 3 place 1");
    tests.asked("the first 3", "write 99 1 2 64 32 64", "refused 3 place 2");
    // 4: "a fill bit is 1, or more follows".
    for fill in 0..7 {
        let mut file = B_FILE.to_vec();
        file[16] |= 1 << fill;
        tests.equal("a fill bit is 1", &read(&file), "refused 4 place 129");
    }
    for more in [0, 1, 255] {
        let mut file = B_FILE.to_vec();
        file.push(more);
        tests.equal("more follows", &read(&file), "refused 4 place 129");
    }
    tests.asked("more follows", &format!("write 99 {} 0", B), "refused 4 place 25");
    tests.asked("more follows", &format!("write 99 {} 65535 1", B), "refused 4 place 25");
    // 4 is lower than 5: a bad plan with more behind it.
    tests.asked("4 before 5", "write 99 1 0 0 0 0 0 0 0 0 0 0 0", "refused 4 place 11");
    tests.asked("5", "write 99 1 0 0 0 0 0 0 0 0 0 0", "refused 5 place 0");
    // A file without fill: its fields end at a whole byte.
    // 27 + 12 E + the messages' bits; one message of 1 link: 4 + 13 = 17; 27 + 17 = 44;
    // with one link 56 bits.
    let whole = plan(2, 1, &[(0, 1)], vec![vec![(0, 0, vec![])]]);
    let file = file_of(&whole);
    tests.holds("a file without fill has 7 bytes", file.len() == 7);
    tests.equal("a file without fill", &read(&file), &format!("ok 11 {}", row(&whole)));
    let mut longer = file.clone();
    longer.push(0);
    tests.equal("more follows a file without fill", &read(&longer), "refused 4 place 56");
    // "The longest file is 7,348 bytes. [...] at most 10,405 numbers."
    let longest = random::limit_plan(&mut Random::of_case(0, 0), true);
    tests.holds("the longest row", row_of(&longest).len() == 10405);
    tests.holds("the longest file", file_of(&longest).len() == 7348);
    tests.asked(
        "the longest row",
        &format!("write 7348 {}", row(&longest)),
        &format!("ok 7348 {}", hex_of_bytes(&file_of(&longest))),
    );
    tests.equal(
        "the longest file",
        &read(&file_of(&longest)),
        &format!("ok 10405 {}", row(&longest)),
    );
}

// -------------------------------------------------- refusals 5 to 10 and 14 to 19

/// A plan is good, or every question and every program refuses it in this way, whatever else is bad.
fn judged(tests: &mut Tests, name: &str, plan: &Plan, wanted: &str) {
    let row = row(plan);
    let file = file_of(plan);
    if wanted == "good" {
        let wanted = format!("ok {} {}", file.len(), hex_of_bytes(&file));
        tests.asked(name, &format!("write 9999 {}", row), &wanted);
        return;
    }
    tests.asked(name, &format!("write 9999 {}", row), wanted);
    tests.asked(name, &format!("write 0 {}", row), wanted);
    tests.asked(name, &format!("replay 9999 3 9 9 9 {}", row), wanted);
    tests.asked(name, &format!("verdict 9 9 0 {}", row), wanted);
    tests.asked(name, &format!("explain 9 0 1 9 {}", row), wanted);
    tests.asked(name, &format!("figure 9 {}", row), wanted);
    tests.asked(name, &format!("figures 9 0 {}", row), wanted);
    tests.asked(name, &format!("slack 99 99 {}", row), wanted);
    tests.asked(name, &format!("second 0 0 {}", row), "part 0");
    tests.asked(name, &format!("where 0 0 {}", row), "at 0 0");
    tests.equal(name, &read(&file), wanted);
    let printed = format!("{}\n", wanted);
    tests.equal(name, &replay_program(&file, b"x"), &printed);
    tests.equal(name, &verdict_program(&file), &printed);
    tests.equal(name, &deep_program(&file), &printed);
    tests.equal(name, &explain_program(&file, b"x"), &printed);
    let sheet = shelf_program(b"x", &|_| file.clone());
    let printed = format!("{} x\n0 0 0\n1 0 0\n2 0 0\n3 0 0\n", wanted);
    tests.equal(name, &String::from_utf8(sheet).unwrap(), &printed);
}

fn rules(tests: &mut Tests) {
    let mut refused = |name: &str, plan: &Plan, wanted: &str| judged(tests, name, plan, wanted);
    let changed = |change: &dyn Fn(&mut Plan)| {
        let mut plan = a();
        change(&mut plan);
        plan
    };
    // 5: "a link's end is not below V, or both are equal".
    refused("5, from", &changed(&|p| p.links[0].from = 4), "refused 5 place 0");
    refused("5, to", &changed(&|p| p.links[3].to = 63), "refused 5 place 3");
    refused("5, equal", &changed(&|p| p.links[2].to = 0), "refused 5 place 2");
    let two = changed(&|p| {
        p.links[3].to = 2;
        p.links[1].from = 4;
    });
    refused("5, the lowest", &two, "refused 5 place 1");
    // 6: "a link repeats an earlier one"; "later link".
    refused("6", &changed(&|p| p.links[2] = p.links[0]), "refused 6 place 2");
    refused("6", &changed(&|p| p.links[3] = p.links[2]), "refused 6 place 3");
    let three = changed(&|p| {
        p.links[1] = p.links[0];
        p.links[3] = p.links[0];
    });
    refused("6, the lowest later one", &three, "refused 6 place 1");
    let five_and_six = changed(&|p| {
        p.links[1] = p.links[0];
        p.links[3].to = 2;
    });
    refused("5 before 6", &five_and_six, "refused 5 place 3");
    // 7: "keeps only a link not below E"; 14: "links that don't join"; 15: "a vertex met twice".
    // "on a first path the step is the place".
    refused("7", &changed(&|p| p.messages[1].places[1].link = 4), "refused 7 place 1 1 1");
    refused("7", &changed(&|p| p.messages[0].places[0].link = 63), "refused 7 place 0 0 0");
    // 0 -> 1, then 2 -> 3.
    refused("14", &changed(&|p| p.messages[0].places[1].link = 3), "refused 14 place 0 1 1");
    let ring = |links: Vec<(usize, usize, Vec<usize>)>| {
        plan(3, 4, &[(0, 1), (1, 2), (2, 0), (1, 0)], vec![links])
    };
    // 0 -> 1 -> 2 -> 0, and 0 -> 1 -> 0: the last link leads back.
    let whole = ring(vec![(0, 0, vec![]), (1, 1, vec![]), (2, 2, vec![])]);
    refused("15, back at the start", &whole, "refused 15 place 0 2 2");
    let back = ring(vec![(0, 0, vec![]), (3, 1, vec![])]);
    refused("15, there and back", &back, "refused 15 place 0 1 1");
    // 8: "slots don't rise, or one is not below t".
    refused("8, equal", &changed(&|p| p.messages[1].places[1].slot = 0), "refused 8 place 1");
    refused("8, falling", &changed(&|p| p.messages[0].places[0].slot = 2), "refused 8 place 0");
    refused("8, t", &changed(&|p| p.messages[0].places[1].slot = 4), "refused 8 place 0");
    refused("8, t", &changed(&|p| p.messages[1].places[1].slot = 63), "refused 8 place 1");
    let fourteen_and_eight = changed(&|p| {
        p.messages[0].places[1].slot = 4;
        p.messages[1].places[1].link = 1;
    });
    // Links 2, 1 of message 1: 0 -> 2, then 1 -> 3.
    refused("14 before 8", &fourteen_and_eight, "refused 14 place 1 1 1");
    // 9: "a lower message holds the same link and slot".
    let mut same = b();
    same.messages[1].places[0].slot = 0;
    refused("9", &same, "refused 9 place 1");
    let mut same = a();
    same.messages.push(same.messages[0].clone());
    refused("9", &same, "refused 9 place 2");
    // At the last place only: link 1 in slot 1.
    let mut last = a();
    last.messages.push(Message { places: vec![Place { link: 1, slot: 1, second: None }] });
    refused("9, the last place", &last, "refused 9 place 2");
    let mut same = a();
    same.messages.push(same.messages[0].clone());
    same.messages[2].places[0].slot = 1;
    same.messages[2].places[1].slot = 2;
    refused("good, the same links in other slots", &same, "good");
    let eight_and_nine = {
        let mut plan = b();
        plan.messages[1].places[0].slot = 0;
        plan.messages.push(plan.messages[0].clone());
        plan.messages[2].places[0].slot = 4;
        plan
    };
    refused("8 before 9", &eight_and_nine, "refused 8 place 2");
    // 10: "likewise keeps the bad link"; 16: "a wrong beginning or join"; 17: "a wrong end"; 18: "a
    // vertex met twice"; 19: "a start with the replaced link".
    let second = |m: usize, at: usize, path: &[usize]| {
        let path = path.to_vec();
        changed(&move |p: &mut Plan| p.messages[m].places[at].second = Some(path.clone()))
    };
    refused("10", &second(1, 0, &[0, 4]), "refused 10 place 1 0 1");
    refused("10", &second(0, 0, &[63, 3]), "refused 10 place 0 0 0");
    // 2 -> 3 from vertex 0, and 1 -> 3 from vertex 2.
    refused("16, begin", &second(0, 0, &[3]), "refused 16 place 0 0 0");
    refused("16, begin", &second(1, 1, &[1]), "refused 16 place 1 1 0");
    // 0 -> 2, then 1 -> 3.
    refused("16, join", &second(0, 0, &[2, 1]), "refused 16 place 0 0 1");
    // 0 -> 1, and the first path ends at 3.
    refused("17", &second(1, 0, &[0]), "refused 17 place 1 0 0");
    refused("19", &second(0, 0, &[0, 1]), "refused 19 place 0 0 0");
    refused("19", &second(1, 1, &[3]), "refused 19 place 1 1 0");
    // A vertex twice: 0 -> 2 -> 0 -> 1 -> 3, 0 -> 2 -> 3 -> 2 -> 3, 0 -> 2 -> 3 -> 1 -> 3 and
    // 0 -> 2 -> 0 -> 3.
    let mut loops = a();
    loops.links.push(Link { from: 2, to: 0 });
    loops.messages[0].places[0].second = Some(vec![2, 4, 0, 1]);
    refused("18, the start", &loops, "refused 18 place 0 0 1");
    let mut through = a();
    through.links.push(Link { from: 3, to: 2 });
    through.messages[0].places[0].second = Some(vec![2, 3, 4, 3]);
    refused("18, one on the way, then the target", &through, "refused 18 place 0 0 2");
    let mut only_target = a();
    only_target.links.push(Link { from: 3, to: 1 });
    only_target.messages[0].places[0].second = Some(vec![2, 3, 4, 1]);
    refused("18, only the target", &only_target, "refused 18 place 0 0 3");
    let mut only_start = a();
    only_start.links.push(Link { from: 2, to: 0 });
    only_start.links.push(Link { from: 0, to: 3 });
    only_start.messages[0].places[0].second = Some(vec![2, 4, 5]);
    refused("18, only the start", &only_start, "refused 18 place 0 0 1");
    let nine_and_seventeen = {
        let mut plan = b();
        plan.messages[0].places[0].second = Some(vec![1]);
        plan.messages[1].places[0].slot = 0;
        plan
    };
    refused("9 before 17", &nine_and_seventeen, "refused 9 place 1");
    // "It may meet vertices and links of any first path."
    let mut meets = plan(
        4,
        6,
        &[(0, 1), (1, 2), (0, 3), (3, 1)],
        vec![vec![(0, 0, vec![2, 3, 1]), (1, 1, vec![])], vec![(2, 0, vec![]), (3, 1, vec![])]],
    );
    meets.messages[1].places[0].slot = 3;
    meets.messages[1].places[1].slot = 4;
    refused("good, a second path meets first paths", &meets, "good");
}

/// Document 02, [1]: each number wherever it can stand, and the order of several.
fn path_rules(tests: &mut Tests) {
    let examples = [
        path_examples::each_number(),
        path_examples::orders(),
        path_examples::last_of_all(),
    ]
    .concat();
    for (name, plan, wanted) in &examples {
        judged(tests, name, plan, wanted);
    }
    // The wrong ways differ on these, and on random plans.
    let ways = misjudged::WRONG.map(|(way, _, _)| way);
    for (way, name, _) in misjudged::WRONG {
        let shown = examples.iter().any(|(_, plan, _)| misjudged::differs(way, plan));
        tests.holds(&format!("{} differs on an example", name), shown);
    }
    for seed in 1..=2 {
        let found = misjudged::all_different(&ways, seed, 300);
        for (way, name, within) in misjudged::WRONG {
            let differs = found.iter().any(|(other, case)| *other == way && *case < within);
            tests.holds(&format!("{} differs, seed {}, {} plans", name, seed, within), differs);
        }
    }
    let found = misjudged::all_different(&misjudged::NOT_WRONG, 1, 300);
    tests.holds("these are not wrong", found.is_empty());
}

// ------------------------------------------------------------------ cut lists, 12

fn cut_lists(tests: &mut Tests) {
    let a_row = row(&a());
    let mut cuts = |name: &str, list: &str, wanted: &str| {
        let count = if list.is_empty() { 0 } else { list.split(' ').count() };
        let separator = if list.is_empty() { "" } else { " " };
        let question = format!("replay 16 {}{}{} {}", count, separator, list, a_row);
        let got = answer(question.as_bytes());
        let start = if wanted.starts_with("refused") {
            got.as_str()
        } else {
            &got[..wanted.len().min(got.len())]
        };
        tests.equal(&format!("{} ({})", name, list), start, wanted);
        // With a room that is too short, 12 still comes first.
        let question = format!("replay 15 {}{}{} {}", count, separator, list, a_row);
        let got = answer(question.as_bytes());
        let wanted = if wanted.starts_with("refused") { wanted } else { "refused 13 place 16" };
        tests.equal(&format!("{}, too short ({})", name, list), &got, wanted);
    };
    cuts("no cuts", "", "ok 2");
    cuts("one", "3 3", "ok");
    cuts("all", "0 0 0 1 0 2 0 3", "ok 0");
    cuts("rising by slot", "0 3 1 2 2 1 3 0", "ok");
    cuts("slot t", "4 0", "refused 12 place 0");
    cuts("slot", "0 0 65535 1", "refused 12 place 1");
    cuts("link E", "0 4", "refused 12 place 0");
    cuts("link", "0 0 1 65535", "refused 12 place 1");
    cuts("falling slot", "1 0 0 1", "refused 12 place 1");
    cuts("falling link", "1 2 1 1", "refused 12 place 1");
    cuts("equal pairs", "1 2 1 2", "refused 12 place 1");
    cuts("link twice", "0 2 1 1 2 2", "refused 12 place 2");
    cuts("odd", "0", "refused 12 place 0");
    cuts("odd", "0 0 1", "refused 12 place 1");
    cuts("odd", "0 0 1 1 2", "refused 12 place 2");
    cuts("bad before odd", "0 0 0 0 2", "refused 12 place 1");
    cuts("first of two", "0 0 4 1 0 1", "refused 12 place 1");
    cuts("five pairs", "0 0 0 1 0 2 0 3 1 0", "refused 12 place 4");
    // "A link is cut in its slot and every later one. A crossing begun in slot i is not
    // hurt by a cut in slot i + 1."
    tests.holds("cut in its own slot", kinds_of(&b(), &[(0, 0)], 0) == [3, 3, 0, 0]);
    tests.holds("cut a slot later", kinds_of(&b(), &[(1, 0)], 0) == [2, 0, 0, 0]);
    tests.holds("a crossing of the second path", kinds_of(&b(), &[(0, 0), (1, 1)], 0) == [3, 3, 0, 0]);
    tests.holds("7 in the slot of the turn", kinds_of(&b(), &[(0, 0), (0, 1)], 0) == [7, 7, 7, 7]);
    tests.holds(
        "7 later on",
        events_of(&b(), &[(0, 0), (1, 2)], 0) == [(3, 1), (7, 2), (7, 2), (7, 2)],
    );
    tests.holds(
        "7 before 5: the link a lower message is held at is cut",
        events_of(&b(), &[(0, 0), (0, 1)], 1) == [(7, 1); 4],
    );
}

// ---------------------------------------------------------------- rooms, 11 and 13

fn rooms(tests: &mut Tests) {
    let hex = hex_of_bytes(&B_FILE);
    for room in [0, 1, 24] {
        tests.asked("read", &format!("read {} {}", room, hex), "refused 13 place 25");
    }
    tests.asked("read, more room", &format!("read 26 {}", hex), &format!("ok 25 {}", B));
    for room in [0, 16] {
        tests.asked("write", &format!("write {} {}", room, B), "refused 13 place 17");
    }
    tests.asked("write, more room", &format!("write 18 {}", B), &format!("ok 17 {}", hex));
    tests.asked("replay", &format!("replay 15 0 {}", B), "refused 13 place 16");
    tests.asked("replay", &format!("replay 0 2 0 0 {}", B), "refused 13 place 16");
    // "for a verdict 2 x k numbers even if the plan is resistant".
    for k in 0..=3usize {
        let wanted = if k == 0 {
            String::from("ok resistant")
        } else {
            format!("refused 13 place {}", 2 * k)
        };
        let short = (2 * k).saturating_sub(1);
        tests.asked("verdict", &format!("verdict {} 0 {} {}", k, short, B), &wanted);
        tests.asked("verdict", &format!("verdict {} 0 {} {}", k, 2 * k, B), "ok resistant");
    }
    // ... also if the failing list would fit: here it has 2 pairs.
    tests.asked("verdict", &format!("verdict 3 2 4 {}", B), "refused 13 place 6");
    tests.asked("verdict", &format!("verdict 3 2 6 {}", B), "ok failing 2 0 0 0 1");
    // 11 before 13.
    for question in ["verdict 4 0 0", "verdict 65535 0 0", "verdict 1 3 0", "verdict 0 65535 0"] {
        tests.asked("11 before 13", &format!("{} {}", question, B), "refused 11 place 0");
    }
    // 11 for slack: "no such message, place or second path".
    for question in ["slack 2 0", "slack 65535 0", "slack 0 1", "slack 1 65535"] {
        tests.asked("slack", &format!("{} {}", question, B), "refused 11 place 0");
    }
    let without = format!("slack 0 1 {}", row(&a()));
    tests.asked("slack without a second path", &without, "refused 11 place 0");
    // "no change in any buffer", "A success changes only the part it writes".
    let b_row = numbers(B);
    let mut numbers = vec![7u16; 30];
    let _ = questions::read(&B_FILE, &mut numbers);
    tests.holds("read leaves the rest", numbers[25..].iter().all(|number| *number == 7));
    let mut numbers = vec![7u16; 24];
    let _ = questions::read(&B_FILE, &mut numbers);
    tests.holds("a refused read", numbers.iter().all(|number| *number == 7));
    let mut bytes = vec![7u8; 16];
    let _ = questions::write(&b_row, &mut bytes);
    tests.holds("a refused write", bytes.iter().all(|byte| *byte == 7));
    let mut numbers = vec![7u16; 15];
    let _ = questions::replay(&b_row, &[0, 0], &mut numbers);
    tests.holds("a refused replay", numbers.iter().all(|number| *number == 7));
    let mut numbers = vec![7u16; 6];
    let found = questions::verdict(&b_row, 3, 2, &mut numbers);
    tests.holds("a failing verdict", found == Ok(Some(2)));
    tests.holds("a failing verdict leaves the rest", numbers == [0, 0, 0, 1, 7, 7]);
    let mut numbers = vec![7u16; 6];
    let _ = questions::verdict(&b_row, 3, 0, &mut numbers);
    tests.holds("a resistant verdict writes nothing", numbers.iter().all(|number| *number == 7));
}

// ----------------------------------------------------------- "Plausible and wrong"

fn plausible_and_wrong(tests: &mut Tests) {
    // "Letting a diverted message take a table slot whose owner is gone." Message 0 has
    // left for link 2, and its entry on link 1 in slot 1 still holds message 1.
    let gone = plan(
        4,
        4,
        &[(0, 1), (1, 3), (0, 3), (1, 2), (2, 3)],
        vec![vec![(0, 0, vec![2]), (1, 1, vec![])], vec![(3, 2, vec![1]), (4, 3, vec![])]],
    );
    tests.holds("the owner is gone, 0", events_of(&gone, &[(0, 0), (1, 3)], 0)[0] == (3, 2));
    tests.holds(
        "the owner is gone, 1",
        events_of(&gone, &[(0, 0), (1, 3)], 1) == [(1, 3), (4, 0), (3, 1), (0, 0)],
    );
    // ... or is stopped: message 0 has no second path.
    let mut stopped = gone.clone();
    stopped.messages[0].places[0].second = None;
    tests.holds(
        "the owner is stopped",
        events_of(&stopped, &[(0, 0), (1, 3)], 1) == [(1, 3), (4, 0), (3, 1), (0, 0)],
    );
    // ... or has gone on along its first path: no longer there, and slot 1 still its own.
    tests.holds(
        "the owner crosses",
        events_of(&gone, &[(1, 3)], 1) == [(1, 3), (4, 0), (3, 1), (0, 0)],
    );
    // ... "or is the trying message itself".
    let itself = plan(
        4,
        4,
        &[(0, 1), (1, 2), (0, 3), (3, 1)],
        vec![vec![(0, 0, vec![2, 3, 1]), (1, 2, vec![])]],
    );
    tests.holds(
        "held by its own entry",
        events_of(&itself, &[(0, 0)], 0) == [(3, 2), (3, 3), (4, 0), (3, 1)],
    );
    // "Letting a diverted message wait a slot before its first try."
    tests.holds("tries at once", events_of(&b(), &[(0, 0)], 0)[0] == (3, 1));
    tests.holds("tries at once, before its own slot", events_of(&b(), &[(0, 0)], 1)[0] == (5, 0));
    // "Going back to the first path after a hold": slot 1 is message 1's own one on the
    // first path, and it crosses link 1 of the second path instead.
    tests.holds("does not go back", events_of(&b(), &[(0, 0)], 1)[1] == (3, 1));
    // 5 gives the "lowest one that tries it".
    let three = plan(
        3,
        6,
        &[(0, 1), (0, 2), (2, 1)],
        vec![
            vec![(0, 0, vec![1, 2])],
            vec![(0, 1, vec![1, 2])],
            vec![(0, 2, vec![1, 2])],
            vec![(0, 3, vec![1, 2])],
        ],
    );
    tests.holds(
        "5, lowest one that tries it",
        events_of(&three, &[(0, 0)], 3) == [(5, 0), (5, 1), (5, 2), (3, 1), (3, 2), (0, 0)],
    );
    tests.holds(
        "5, message 0 does not try",
        events_of(&three, &[(1, 0)], 3) == [(1, 0), (5, 1), (5, 2), (3, 1), (3, 2), (0, 0)],
    );
    // 4 before 5: both try a link that the table gives away.
    let mut both = three.clone();
    both.links.push(Link { from: 1, to: 0 });
    both.messages[3] = Message { places: vec![Place { link: 1, slot: 0, second: None }] };
    tests.holds("4 before 5, lower", events_of(&both, &[(0, 0)], 0)[0] == (4, 3));
    tests.holds("4 before 5, higher", events_of(&both, &[(0, 0)], 1)[0] == (4, 3));
    // 7 before 4: the link is cut and given away.
    tests.holds("7 before 4", events_of(&both, &[(0, 0), (0, 1)], 1)[0] == (7, 1));
    // "Counting in b one message once for each of its second paths": message 0 has two
    // through link 4, and message 1 counts it once.
    let twice = plan(
        4,
        9,
        &[(0, 1), (1, 3), (0, 2), (1, 2), (2, 3), (0, 3)],
        vec![
            vec![(0, 0, vec![2, 4]), (1, 1, vec![3, 4])],
            vec![(5, 0, vec![2, 4])],
        ],
    );
    // D of message 1: link 2: 1 + 0 + 1; link 4: 1 + 0 + 1; slack 9 - 0 - 4.
    tests.holds("b counts a message once", slack_of(&twice, 1, 0) == Some(5));
    // D of message 0, place 1: links 3 and 4: 2; slack 9 - 1 - 2.
    tests.holds("b counts lower messages only", slack_of(&twice, 0, 1) == Some(6));
}

/// Document 000, example 4.1: immediate crashes are not the worst. The text leaves open
/// how the red path ends; here m1's has five links, and m2, m3, m4 leave s, a for their
/// own targets.
fn document_000(tests: &mut Tests) {
    // Vertices: s 0, a 1, b 2, u1 3, u2 4, u3 5, u4 6, x1 7, x2 8, x3 9, others 10 to 13.
    let plan = plan(
        14,
        5,
        &[
            (0, 1),   // 0: e
            (1, 2),   // 1: a, b
            (2, 3),   // 2: b, u1
            (1, 4),   // 3: a, u2
            (1, 5),   // 4: a, u3
            (1, 6),   // 5: a, u4
            (1, 7),   // 6: red
            (7, 8),   // 7: red, m4's
            (8, 9),   // 8: red, m3's
            (9, 4),   // 9: red, m2's
            (4, 3),   // 10: red
            (0, 7),   // 11: m4
            (8, 10),  // 12: m4
            (10, 6),  // 13: m4
            (0, 11),  // 14: m3
            (11, 8),  // 15: m3
            (9, 5),   // 16: m3
            (0, 12),  // 17: m2
            (12, 13), // 18: m2
            (13, 9),  // 19: m2
        ],
        vec![
            vec![(0, 0, vec![]), (1, 1, vec![6, 7, 8, 9, 10]), (2, 2, vec![])],
            vec![(0, 1, vec![17, 18, 19, 9]), (3, 2, vec![])],
            vec![(0, 2, vec![14, 15, 8, 16]), (4, 3, vec![])],
            vec![(0, 3, vec![11, 7, 12, 13]), (5, 4, vec![])],
        ],
    );
    tests.holds("example 4.1 is a good plan", good_plan_of_row(&row_of(&plan)).is_ok());
    tests.holds("example 4.1, no crash", cycle(&plan, &[]).arrivals == 4);
    let mut worst = 4;
    for pairs in 0..=2 {
        every_list(&plan, pairs, &mut |list| {
            if list.iter().all(|(slot, _)| *slot == 0) {
                worst = worst.min(cycle(&plan, list).arrivals);
            }
            true
        });
    }
    tests.holds("example 4.1, immediate crashes leave 2", worst == 2);
    let late = cycle(&plan, &[(1, 0), (1, 1)]);
    tests.holds("example 4.1, crashes at time 1 leave fewer", late.arrivals < 2);
    // "Message m4 reaches the red edge on its path at time 2, message m3 at time 3, and
    // message m2 at time 4. Since m1 < mi, it has precedence".
    tests.holds("example 4.1, m4", events_of(&plan, &[(1, 0), (1, 1)], 3)[2] == (5, 0));
    tests.holds("example 4.1, m3", events_of(&plan, &[(1, 0), (1, 1)], 2)[3] == (5, 0));
    tests.holds("example 4.1, m2", events_of(&plan, &[(1, 0), (1, 1)], 1)[4] == (5, 0));
    // "Trying cuts only in slot 0" is wrong.
    let list = failing_list(&plan, 2, 2);
    let late = list.is_some_and(|list| list.iter().any(|(slot, _)| *slot > 0));
    tests.holds("example 4.1, the failing list", late);
}

// ------------------------------------------------------------ slack, second path

fn slacks_and_second_paths(tests: &mut Tests) {
    tests.asked("second path", &format!("second 0 0 {}", B), "part 2 1 2");
    tests.asked("second path", &format!("second 1 0 {}", B), "part 2 1 2");
    tests.asked("no such message", &format!("second 2 0 {}", B), "part 0");
    tests.asked("no such place", &format!("second 0 1 {}", B), "part 0");
    tests.asked("no such message", &format!("second 65535 65535 {}", B), "part 0");
    tests.asked("no row", "second 0 0", "part 0");
    tests.asked("a bad row", &format!("second 0 0 {} 0", B), "part 0");
    tests.asked("a bad row", &format!("second 0 0 2{}", &B[1..]), "part 0");
    let a_row = row(&a());
    tests.asked("second path", &format!("second 0 0 {}", a_row), "part 2 2 3");
    tests.asked("second path", &format!("second 1 0 {}", a_row), "part 2 0 1");
    tests.asked("no second path", &format!("second 0 1 {}", a_row), "part 0");
    tests.asked("no second path", &format!("second 1 1 {}", a_row), "part 0");
    for (place, stands) in [("0 0", "at 16 2"), ("1 0", "at 23 2"), ("0 1", "at 0 0"), ("5 0", "at 0 0")] {
        tests.asked("where", &format!("where {} {}", place, B), stands);
    }
    for (place, stands) in [("0 0", "at 18 2"), ("1 0", "at 28 2"), ("0 1", "at 0 0")] {
        tests.asked("where", &format!("where {} {}", place, a_row), stands);
    }
    tests.asked("where there is no row", "where 0 0", "at 0 0");
    tests.asked("where a row is bad", &format!("where 0 0 {} 0", B), "at 0 0");
    tests.asked("a needless zero", &format!("where 00 0 {}", B), "?");
    // It is a part of the row itself.
    let b_row = numbers(B);
    let part = questions::second(&b_row, 1, 0);
    tests.holds("the part is the row's own", std::ptr::eq(part, &b_row[23..25]));
    // Slack 63: t 64, slot 0, one link that nobody else uses.
    let most = plan(3, 64, &[(0, 1), (1, 2), (0, 2)], vec![vec![(0, 0, vec![2]), (1, 1, vec![])]]);
    tests.asked("the largest slack", &format!("slack 0 0 {}", row(&most)), "ok 63");
    // A slack far below zero: 32 messages whose second paths take each other's links.
    let longest = random::limit_plan(&mut Random::of_case(0, 0), true);
    // Message 31, place 15, slot 46: its own link to the side chain is in the second
    // paths of all 31 lower messages, and so are the 15 others; none is in the table.
    tests.holds("32 messages", slack_of(&longest, 31, 15) == Some(64 - 46 - 16 * 32));
}

// -------------------------------------------------------------------- the programs

fn programs(tests: &mut Tests) {
    // A, by the answers that document 01 gives for it.
    tests.equal(
        "A's verdicts",
        &verdict_program(&file_of(&a())),
        "0 0 resistant\n0 1 resistant\n0 2 resistant\n1 0 resistant\n1 1 resistant\n1 2 0 1\n\
         2 0 resistant\n2 1 0 0 0 2\n2 2 0 1\n3 0 resistant\n3 1 0 0 0 2\n3 2 0 1\n\
         slack 0 0 0\nslack 1 0 0\n",
    );
    let text = verdict_program(&B_FILE);
    tests.holds("B's slack lines", text.ends_with("\nslack 0 0 2\nslack 1 0 -1\n"));
    tests.holds("B goes up to k 3", text.contains("\n3 2 "));
    // "it goes up to k 3 if E x t is at most 64, else to k 1".
    let mut longer = a();
    longer.timeout = 16; // 4 x 16 = 64
    tests.holds("E x t = 64", verdict_program(&file_of(&longer)).contains("\n3 2 "));
    longer.timeout = 17;
    let text = verdict_program(&file_of(&longer));
    tests.holds("E x t = 68", text.contains("\n1 2 ") && !text.contains("\n2 "));
    // The program deep goes on where the verdict program stops, and has its lines elsewhere.
    let deep = deep_program(&file_of(&longer));
    let stop = text.find("slack ").unwrap();
    tests.holds("deep, E x t = 68", deep.starts_with(&text[..stop]) && deep.ends_with(&text[stop..]) && deep.contains("\n3 2 "));
    tests.equal("deep, A", &deep_program(&file_of(&a())), &verdict_program(&file_of(&a())));
    tests.equal("deep, no file", &deep_program(&[]), "refused 2 place 0\n");
    // Refusals stand alone.
    tests.equal("no file", &replay_program(&[], b""), "refused 2 place 0\n");
    tests.equal("no file", &verdict_program(&[]), "refused 2 place 0\n");
    tests.equal("no file, bad lines", &replay_program(&[], b"x"), "refused 2 place 0\n");
    let mut bad = b();
    bad.messages[1].places[0].slot = 0;
    tests.equal("a bad plan", &replay_program(&file_of(&bad), b""), "refused 9 place 1\n");
    tests.equal("a bad plan", &replay_program(&file_of(&bad), b"\n"), "refused 9 place 1\n");
    tests.equal("a bad plan", &verdict_program(&file_of(&bad)), "refused 9 place 1\n");
    // "no line at all is the list without cuts".
    let none = replay_program(&B_FILE, b"");
    tests.holds("no line at all", none.starts_with("slot message kind number\n0 0 2 0\n"));
    tests.holds("no line at all", none.ends_with("\narrived 2 of 2\n"));
    // "A line of another form is refusal 12".
    let forms: [&[u8]; 34] = [
        b"\n", b"cut 0 0", b"cut 0 0\r\n", b"cut 0 0 \n", b" cut 0 0\n", b"cut  0 0\n",
        b"cut 0  0\n", b"cut\t0 0\n", b"cut 0\t0\n", b"Cut 0 0\n", b"cut 00 0\n", b"cut 0 00\n",
        b"cut 01 0\n", b"cut 1 02\n", b"cut -0 0\n", b"cut +0 0\n", b"cut 0 -1\n", b"cut 0\n",
        b"cut 0 \n", b"cut\n", b"cut \n", b"cut  0\n", b"0 0\n", b"cut 0 0 0\n", b"cut 64 0\n",
        b"cut 0 64\n", b"cut 256 0\n", b"cut 0 65536\n", b"cut 0 4294967296\n",
        b"cut 18446744073709551616 0\n", b"cut 0x0 0\n", b"cut 0,0\n", b"\xff\xfe\n", b"\0",
    ];
    for form in forms {
        let name = format!("a line of another form ({:?})", String::from_utf8_lossy(form));
        tests.equal(&name, &replay_program(&B_FILE, form), "refused 12 place 0\n");
        let mut second = b"cut 0 1\n".to_vec();
        second.extend(form);
        tests.equal(&name, &replay_program(&B_FILE, &second), "refused 12 place 1\n");
        second.extend(b"cut 0 1\n");
        tests.equal(&name, &replay_program(&B_FILE, &second), "refused 12 place 1\n");
    }
    let refused: [(&[u8], &str); 8] = [
        (b"cut 4 0\n", "refused 12 place 0\n"),
        (b"cut 63 0\n", "refused 12 place 0\n"),
        (b"cut 0 3\n", "refused 12 place 0\n"),
        (b"cut 1 0\ncut 0 1\n", "refused 12 place 1\n"),
        (b"cut 1 0\ncut 1 0\n", "refused 12 place 1\n"),
        (b"cut 1 0\ncut 2 0\nx\n", "refused 12 place 1\n"),
        (b"cut 1 0\nx\ncut 0 1\n", "refused 12 place 1\n"),
        (b"cut 0 0\ncut 0 1\ncut 0 2\ncut 1 0\n", "refused 12 place 3\n"),
    ];
    for (input, wanted) in refused {
        let name = format!("a bad list ({:?})", String::from_utf8_lossy(input));
        tests.equal(&name, &replay_program(&B_FILE, input), wanted);
    }
    // 64 links, all of them cut, and a line more.
    let longest = random::limit_plan(&mut Random::of_case(0, 0), true);
    let mut input = Vec::new();
    for link in 0..64 {
        input.extend(format!("cut 0 {}\n", link).into_bytes());
    }
    let text = replay_program(&file_of(&longest), &input);
    tests.holds("64 lines", text.ends_with("\narrived 0 of 32\n"));
    tests.holds("64 lines", text.lines().count() == 2 + 64 * 32);
    input.extend(b"cut 63 63\n");
    let text = replay_program(&file_of(&longest), &input);
    tests.equal("65 lines", &text, "refused 12 place 64\n");
}

// ------------------------------------------------------------------------ the probe

fn probe_lines(tests: &mut Tests) {
    tests.asked("an empty file", "read 0 -", "refused 2 place 0");
    tests.asked("an empty row", "write 0", "refused 2 place 0");
    tests.asked("an empty row", "replay 0 0", "refused 2 place 0");
    tests.asked("an empty row", "replay 0 2 0 0", "refused 2 place 0");
    tests.asked("an empty row", "verdict 0 0 0", "refused 2 place 0");
    tests.asked("an empty row", "slack 0 0", "refused 2 place 0");
    let no_questions = [
        "", " ", "what", "read", "read 0", "read -", "read 0 1", "read 0 1g", "read 0 AB",
        "read 0 10 10", "read 0 10 ", "read  0 10", "write", "write -1", "write 1 +1",
        "write 65536", "write 1 65536", "write 1  1", "write 1 ", " write 1", "replay 0",
        "replay 0 1", "replay 0 3 1 1", "verdict 0 0", "slack 0", "second 0", "second 0 x",
    ];
    for line in no_questions {
        tests.asked("no question", line, "?");
    }
    tests.holds("no text", answer(b"read 0 \xff\xff") == "?");
}

// --------------------------------------------------------------------- the verdict

fn verdicts(tests: &mut Tests) {
    // Every list comes up once, in order: as many as there are ways to choose the links
    // and a slot for each of them.
    for plan in [a(), b()] {
        let (links, timeout) = (plan.links.len(), plan.timeout);
        let mut choices = 1;
        for pairs in 0..=3usize {
            let mut count = 0;
            let mut last: Option<Vec<Pair>> = None;
            let mut right = true;
            every_list(&plan, pairs, &mut |list| {
                count += 1;
                right = right && list.len() == pairs;
                right = right && cut_list_of_numbers(&plan, &numbers_of(list)).is_ok();
                right = right && last.as_ref().map_or(true, |last| last.as_slice() < list);
                last = Some(list.to_vec());
                true
            });
            tests.holds("lists are good and in order", right);
            let wanted = choices * timeout.pow(pairs as u32);
            tests.holds("every list comes up", count == wanted);
            choices = choices * (links - pairs) / (pairs + 1);
        }
    }
    // No more pairs than links.
    let one = plan(2, 3, &[(0, 1)], vec![vec![(0, 1, vec![])]]);
    tests.asked("one link", &format!("verdict 3 1 6 {}", row(&one)), "ok failing 1 0 0");
    // A failing list whose first slot is above 0: the first message is through before.
    // Two messages one after the other on link 0 without second paths: a cut in slot 0
    // loses both, in slot 1 only message 1; so for l = 1 it is (0,0).
    let two = plan(2, 3, &[(0, 1)], vec![vec![(0, 0, vec![])], vec![(0, 1, vec![])]]);
    tests.asked("both", &format!("verdict 1 1 2 {}", row(&two)), "ok failing 1 0 0");
    tests.holds("one of both", cycle(&two, &[(1, 0)]).arrivals == 1);
    tests.holds("none of both", cycle(&two, &[(2, 0)]).arrivals == 2);
}

// ------------------------------------------------------------------------------ laws

fn laws(tests: &mut Tests) {
    let mut round_trips = true;
    let mut resistant = true;
    let mut slack_in_bounds = true;
    for case in 0..300 {
        let (plan, _) = cases::plan_and_cuts(7, case);
        let (row, file) = (row_of(&plan), file_of(&plan));
        round_trips = round_trips && questions::good_plan_of_file(&file) == Ok(plan.clone());
        round_trips = round_trips && questions::good_plan_of_row(&row) == Ok(plan.clone());
        resistant = resistant && failing_list(&plan, 0, plan.messages.len()).is_none();
        for (m, message) in plan.messages.iter().enumerate() {
            for place in 0..message.places.len() {
                if let Some(slack) = slack_of(&plan, m, place) {
                    slack_in_bounds = slack_in_bounds && (-1535..=63).contains(&slack);
                }
            }
        }
    }
    tests.holds("good plans, written and read back", round_trips);
    tests.holds("k = 0: always resistant", resistant);
    tests.holds("slack lies between -1,535 and 63", slack_in_bounds);
    // "Accepted plan files, read and written back, are the same bytes, and good rows,
    // written and read back, the same numbers": also after damage.
    let (mut files, mut rows, mut same) = (0, 0, true);
    for case in 0..6000 {
        let (name, line) = cases::question(8, case, &[]);
        let got = answer(line.as_bytes());
        let words: Vec<&str> = line.split(' ').collect();
        if name == "read" && got.starts_with("ok ") {
            let row = got.splitn(3, ' ').nth(2).unwrap();
            let back = answer(format!("write 8000 {}", row).as_bytes());
            files += 1;
            same = same && back.splitn(3, ' ').nth(2) == Some(words[2]);
        }
        if name == "write" && got.starts_with("ok ") {
            let back = answer(format!("read 12000 {}", got.splitn(3, ' ').nth(2).unwrap()).as_bytes());
            rows += 1;
            same = same && back.splitn(3, ' ').nth(2) == line.splitn(3, ' ').nth(2);
        }
    }
    tests.holds("accepted files and rows there and back", same && files > 200 && rows > 200);
    tests.holds("the promises about every replay", theorem::theorem(9, 500).is_ok());
}

/// The generator does what it is for.
fn generator(tests: &mut Tests) {
    let sizes = [Size::Tiny, Size::Small, Size::Middle, Size::Large, Size::Limit];
    let mut good = true;
    for case in 0..400 {
        let mut r = Random::of_case(10, case);
        let plan = random::good_plan(&mut r, sizes[case as usize % 5]);
        good = good && questions::good_plan_of_row(&row_of(&plan)).is_ok();
        let cuts = random::good_cuts(&mut r, &plan);
        good = good && cut_list_of_numbers(&plan, &numbers_of(&cuts)).is_ok();
    }
    tests.holds("good plans and good cut lists are good", good);
    let mut right = true;
    for number in ORDER {
        for case in 0..40 {
            let mut r = Random::of_case(11, case);
            let plan = bad::plan_that_breaks(&mut r, number, sizes[case as usize % 4]);
            let refused = questions::good_plan_of_row(&row_of(&plan));
            right = right && refused.is_err_and(|refusal| refusal.number == number);
        }
    }
    tests.holds("plans that break a rule break that rule", right);
    let refused = held_against_01(11, 3000);
    tests.holds("refused as by document 01", refused.is_ok_and(|refused| refused > 2000));
    let again = cases::question(3, 77, &[]) == cases::question(3, 77, &[]);
    tests.holds("a case follows from seed and index", again);
    let without = [String::from("verdict")];
    let none = (0..500).all(|case| cases::question(4, case, &without).0 != "verdict");
    tests.holds("without verdict", none);
}

// ------------------------------------------------------------------- lost messages

fn lost_messages(tests: &mut Tests) {
    // In B message 0 is robust (slack 2) and message 1 fragile (slack -1).
    let pairs = [(0, 0), (1, 0), (2, 0), (0, 1), (3, 2)];
    let weights = pairs.map(|pair| losses::weights(&b(), pair));
    tests.holds("weights in B", weights == [(2, 1), (1, 1), (0, 0), (0, 1), (0, 1)]);
    // In A both places 0 are robust (slack 0), and places 1 fragile (no second path).
    let weights = [(0, 0), (1, 0), (1, 1), (2, 1)].map(|pair| losses::weights(&a(), pair));
    tests.holds("weights in A", weights == [(1, 1), (0, 1), (1, 2), (0, 1)]);
    tests.holds("what a list can lose", losses::losses(9, 500).is_ok());
    for (reading, cases) in losses::WRONG {
        for seed in 1..=3 {
            let name = format!("{:?} is found false, seed {}, {} cases", reading, seed, cases);
            tests.holds(&name, losses::found_false(seed, cases, reading).is_some());
        }
    }
    for reading in losses::NOT_WRONG {
        let name = format!("{:?} is not wrong", reading);
        tests.holds(&name, losses::found_false(1, 300, reading).is_none());
    }
    let mut good = true;
    for case in 0..400 {
        let (plan, lists) = cases::plan_and_few_cuts(10, case, losses::LISTS);
        good = good && questions::good_plan_of_row(&row_of(&plan)).is_ok();
        good = good && lists.iter().all(|list| {
            list.len() <= 4 && cut_list_of_numbers(&plan, &numbers_of(list)).is_ok()
        });
    }
    tests.holds("plans with slack and short cut lists are good", good);
}

// ----------------------------------------------------------- document 02, [7]: explain

/// A question about the capture that a list gives.
fn of_list(plan: &Plan, k: usize, list: &[Pair]) -> String {
    let triples = numbers_of_capture(&crossings(plan, list));
    format!("explain {} {} {}{} {}", k, 2 * k, triples.len(), spaced(&triples), row(plan))
}

fn explained(tests: &mut Tests) {
    // "exactly these crossings (kinds 2 and 3)": B's listing, by hand.
    let listed = [(0, 1, 0), (1, 1, 1), (1, 2, 0), (2, 2, 1)];
    tests.holds("B, cut (0,0), crossings", crossings(&b(), &[(0, 0)]) == listed);
    for k in 1..=3 {
        tests.asked("B, cut (0,0)", &of_list(&b(), k, &[(0, 0)]), "ok list 1 0 0");
    }
    tests.asked("B, cut (0,0), k 0", &of_list(&b(), 0, &[(0, 0)]), "ok unexplained");
    // The empty list is an answer, also for k 0 and without room.
    for k in 0..=3 {
        tests.asked("B, no cuts", &of_list(&b(), k, &[]), "ok list 0");
        tests.asked("A, no cuts", &of_list(&a(), k, &[]), "ok list 0");
    }
    // The empty capture: nobody crosses anything.
    let nothing = |k: usize| format!("explain {} {} 0 {}", k, 2 * k, B);
    tests.asked("B, nothing", &nothing(1), "ok unexplained");
    tests.asked("B, nothing", &nothing(2), "ok list 2 0 0 0 1");
    tests.asked("B, nothing", &nothing(3), "ok list 2 0 0 0 1");
    // The first list, not the one that was cut: link 1 of A may be cut before slot 1.
    tests.asked("A, cut (1,1)", &of_list(&a(), 2, &[(1, 1)]), "ok list 1 0 1");
    // A cut that nobody meets is not told.
    tests.asked("A, cut (3,1)", &of_list(&a(), 2, &[(3, 1)]), "ok list 0");
    // The fewest pairs: (0,0), (0,2) of A leaves nobody to cross, and so does no one pair.
    tests.asked("A, nothing", &of_list(&a(), 3, &[(0, 0), (0, 2)]), "ok list 2 0 0 0 2");
    tests.asked("A, nothing", &of_list(&a(), 1, &[(0, 0), (0, 2)]), "ok unexplained");
    // One crossing removed, added, moved.
    let of_triples = |triples: &str| {
        let count = triples.split(' ').count();
        answer(format!("explain 3 6 {} {} {}", count, triples, B).as_bytes())
    };
    tests.equal("B, the last one removed", &of_triples("0 1 0 1 1 1 1 2 0"), "ok list 2 0 0 2 2");
    tests.equal("B, one added", &of_triples("0 1 0 0 2 1 1 1 1 1 2 0 2 2 1"), "ok unexplained");
    tests.equal("B, one moved", &of_triples("0 1 0 1 1 1 1 2 0 3 2 1"), "ok unexplained");
    tests.equal("B, another message", &of_triples("0 1 1 1 1 0 1 2 1 2 2 0"), "ok unexplained");
    // Refusals: 1 to 10, then 11, 23, 13.
    let mut bad = b();
    bad.messages[1].places[0].slot = 0;
    let refused = [
        (format!("explain 4 0 1 9 {}", row(&bad)), "refused 9 place 1"),
        (format!("explain 4 0 1 9 2{}", &B[1..]), "refused 1 place 0"),
        (String::from("explain 4 0 0"), "refused 2 place 0"),
        (format!("explain 4 0 1 9 {}", B), "refused 11 place 0"),
        (format!("explain 65535 0 1 9 {}", B), "refused 11 place 0"),
        (format!("explain 3 0 1 0 {}", B), "refused 23 place 0"),
        (format!("explain 3 0 0 {}", B), "refused 13 place 6"),
        (format!("explain 3 5 0 {}", B), "refused 13 place 6"),
        (format!("explain 1 1 0 {}", B), "refused 13 place 2"),
        (format!("explain 0 0 0 {}", B), "ok unexplained"),
    ];
    for (question, wanted) in refused {
        tests.asked("refusals of explain", &question, wanted);
    }
    // 23: a triple out of form, range or order. B has t 4, E 3, M 2.
    let triples = [
        ("0", 0), ("0 0", 0), ("0 0 0 1", 1), ("0 0 0 1 1", 1), ("4 0 0", 0), ("0 3 0", 0),
        ("0 0 2", 0), ("65535 0 0", 0), ("0 65535 0", 0), ("0 0 65535", 0), ("0 0 0 0 0 0", 1),
        ("0 0 1 0 0 0", 1), ("0 1 0 0 0 1", 1), ("1 0 0 0 2 1", 1), ("0 0 0 1 0 0 3 2 2", 2),
        ("0 0 0 0 0 1 0 1 0 0 0 1 9", 3), ("0 0 0 4 0 0 0", 1),
    ];
    for (triples, index) in triples {
        let wanted = format!("refused 23 place {}", index);
        tests.equal(&format!("23 ({})", triples), &of_triples(triples), &wanted);
    }
    tests.equal("the last ones", &of_triples("0 0 0 0 0 1 0 1 0 1 0 0 3 2 1"), "ok unexplained");
    // "A success changes only the part it writes"; unexplained writes nothing.
    let b_row = numbers(B);
    let mut buffer = vec![7u16; 6];
    let found = questions::explain(&b_row, 3, &[], &mut buffer);
    tests.holds("an explaining list", found == Ok(Some(2)) && buffer == [0, 0, 0, 1, 7, 7]);
    let mut buffer = vec![7u16; 6];
    let found = questions::explain(&b_row, 3, &[3, 2, 1], &mut buffer);
    tests.holds("unexplained writes nothing", found == Ok(None) && buffer == [7; 6]);
    let mut buffer = vec![7u16; 5];
    let found = questions::explain(&b_row, 3, &[], &mut buffer);
    tests.holds("a refused one writes nothing", found.is_err() && buffer == [7; 5]);
    let no_questions = [
        "explain", "explain 1", "explain 1 2", "explain 1 2 1", "explain 1 2 3 0 0",
        "explain 1 2 0 x", "explain 01 2 0 1", "explain 1 2 00 1", "explain 65536 2 0 1",
    ];
    for line in no_questions {
        tests.asked("no question", line, "?");
    }
}

fn captures_as_lines(tests: &mut Tests) {
    let listing = replay_program(&B_FILE, b"cut 0 0\n");
    let capture = "0 1 0\n1 1 1\n1 2 0\n2 2 1\n";
    tests.equal("B's capture", &capture_program(&B_FILE, b"cut 0 0\n"), capture);
    tests.equal("a bad list's", &capture_program(&B_FILE, b"cut 0 9\n"), "refused 12 place 0\n");
    let wanted = format!("0 0\n{}", listing);
    tests.equal("B's capture explained", &explain_program(&B_FILE, capture.as_bytes()), &wanted);
    // "an empty line for the empty list".
    let none = format!("\n{}", replay_program(&B_FILE, b""));
    tests.equal("B, no cuts", &explain_program(&B_FILE, b"0 0 0\n1 0 1\n"), &none);
    // "No line at all is the empty capture"; it "uses k 2".
    let two = format!("0 0 0 1\n{}", replay_program(&B_FILE, b"cut 0 0\ncut 0 1\n"));
    tests.equal("B, no line at all", &explain_program(&B_FILE, b""), &two);
    tests.equal("B, unexplained", &explain_program(&B_FILE, b"3 2 1\n"), "unexplained\n");
    // With a message of its own link each, so many are lost by so many cuts and no fewer.
    let three = plan(
        4,
        2,
        &[(0, 1), (1, 2), (2, 3)],
        vec![vec![(0, 0, vec![])], vec![(1, 0, vec![])], vec![(2, 0, vec![])]],
    );
    tests.asked("three lost", &format!("explain 3 6 0 {}", row(&three)), "ok list 3 0 0 0 1 0 2");
    tests.equal("three lost", &explain_program(&file_of(&three), b""), "unexplained\n");
    // The plan's refusals come before the lines'.
    tests.equal("no file", &explain_program(&[], b"x"), "refused 2 place 0\n");
    let mut bad = b();
    bad.messages[1].places[0].slot = 0;
    tests.equal("a bad plan", &explain_program(&file_of(&bad), b"x"), "refused 9 place 1\n");
    // "a triple or line out of form, range or order is 23 with its index".
    let forms: [&[u8]; 36] = [
        b"\n", b"1 0 0", b"1 0 0\r\n", b"1 0 0 \n", b" 1 0 0\n", b"1  0 0\n", b"1 0  0\n",
        b"1\t0 0\n", b"1 0\t0\n", b"01 0 0\n", b"1 00 0\n", b"1 0 00\n", b"1 01 0\n", b"1 0 01\n",
        b"-1 0 0\n", b"+1 0 0\n", b"1\n", b"1 0\n", b"1 0 \n", b"1 0 0 0\n", b"cut 1 0\n",
        b"64 0 0\n", b"1 64 0\n", b"1 0 64\n", b"256 0 0\n", b"1 0 256\n", b"1 65536 0\n",
        b"4294967296 0 0\n", b"1 0 18446744073709551616\n", b"1,0,0\n", b"x\n", b"\xff\xfe\n", b"\0",
        b"4 0 0\n", b"1 3 0\n", b"1 0 2\n",
    ];
    for form in forms {
        let name = format!("a bad line ({:?})", String::from_utf8_lossy(form));
        tests.equal(&name, &explain_program(&B_FILE, form), "refused 23 place 0\n");
        let mut second = b"0 0 0\n".to_vec();
        second.extend(form);
        tests.equal(&name, &explain_program(&B_FILE, &second), "refused 23 place 1\n");
        second.extend(b"0 0 0\n");
        tests.equal(&name, &explain_program(&B_FILE, &second), "refused 23 place 1\n");
    }
    for order in ["0 0 0\n0 0 0\n", "0 0 1\n0 0 0\n", "0 1 0\n0 0 1\n", "1 0 0\n0 1 1\n"] {
        let name = format!("out of order ({:?})", order);
        tests.equal(&name, &explain_program(&B_FILE, order.as_bytes()), "refused 23 place 1\n");
    }
    // More than a cycle can have crossings; a bad line behind them.
    let longest = random::limit_plan(&mut Random::of_case(0, 0), true);
    let all = captures::every_triple(&longest, usize::MAX);
    tests.holds("131,072 triples", all.len() == 64 * 64 * 32);
    let mut input = lines_of_capture(&all);
    let file = file_of(&longest);
    tests.equal("too many", &explain_program(&file, input.as_bytes()), "unexplained\n");
    input += "63 63 31\n";
    let text = explain_program(&file, input.as_bytes());
    tests.equal("too many and a bad one", &text, "refused 23 place 131072\n");
}

fn captures_at_random(tests: &mut Tests) {
    // The walk is the search that tries every list; and there are so many.
    let (mut walks, mut counts, mut explains) = (true, true, true);
    for case in 0..400 {
        let (plan, k, capture) = named::small_question(12, case);
        let every = of_every_list(&plan, k, &capture);
        walks = walks && by_walking(&plan, k, &capture, usize::MAX) == Ok(every.clone());
        if let Some(list) = &every {
            explains = explains && crossings(&plan, list) == capture;
        }
        let mut count = 0;
        for pairs in 0..=k {
            every_list(&plan, pairs, &mut |_| {
                count += 1;
                true
            });
        }
        counts = counts && count == number_of_lists(&plan, k);
    }
    tests.holds("the walk finds what every list says", walks);
    tests.holds("what is found explains", explains);
    tests.holds("so many lists", counts);
    // SEARCH.md's quick way never differs, and its wrong variants do.
    tests.holds("the quick way", named::all_different(&[named::Way::Right], 13, 1000).is_empty());
    for (way, name, within) in named::WRONG {
        for seed in if within > 0 { 1..=2 } else { 1..=0 } {
            let name = format!("{} differs, seed {}, {} questions", name, seed, within);
            tests.holds(&name, !named::all_different(&[way], seed, within).is_empty());
        }
    }
    // One that is seldom found. Message 1 is diverted in slot 0 and tries link 2 in slot 1;
    // message 0 is diverted in slot 1 and takes it. Before the second cut is known, message 0
    // waits for link 0 and message 1 crosses link 2: both differ, and link 0 is the one cut.
    let last = plan(
        4,
        4,
        &[(0, 1), (1, 2), (0, 2), (3, 2), (3, 0)],
        vec![vec![(0, 2, vec![2]), (1, 3, vec![])], vec![(3, 3, vec![4, 2])]],
    );
    let cuts = [(0, 3), (1, 0)];
    tests.asked("the foremost message", &of_list(&last, 3, &cuts), "ok list 2 0 3 1 0");
    let capture = crossings(&last, &cuts);
    tests.holds("its capture", capture == [(0, 4, 1), (1, 2, 0), (2, 2, 1)]);
    let wrong = named::answer(named::Way::LastMessage, &last, 3, &capture);
    tests.holds("the last message", wrong.is_none());
}
