//! The random cases: questions for the probe, inputs for the programs, plans and cut
//! lists for the promises. Each case follows from its seed and index alone (and, for a
//! question, from the names that are left out).

use crate::bad::{any_cuts, any_file, any_plan, any_row, bad_plan, plan_with_faults};
use crate::captures::{any_capture, capture_lines};
use crate::cuts::Pair;
use crate::cycle::cycle;
use crate::explain::{by_walking, capture_of_numbers, number_of_lists, Triple};
use crate::figures::figure;
use crate::lines::{capture_of_lines, highest_k, EXPLAIN_K};
use crate::plan::{file_of, row_of, Plan};
use crate::probe::{hex_of_bytes, spaced};
use crate::questions::{good_plan_of_file, good_plan_of_row};
use crate::random::{
    any_size, few_cuts, good_cuts, good_plan, plan_for_capture, plan_for_verdict, plan_with_slack,
    Random, Size,
};
use crate::verdict::every_list;

// ------------------------------------------------------------------- questions

/// `figure` stands for `figures` too.
pub const QUESTIONS: [&str; 10] =
    ["read", "write", "replay", "verdict", "slack", "second", "where", "explain", "figure", "junk"];

/// A room: what is needed, one less, none, or more.
fn any_room(r: &mut Random, needed: usize) -> usize {
    match r.below(24) {
        0 | 1 => needed.saturating_sub(1),
        2 => 0,
        3 => r.below(needed + 1),
        4 | 5 => needed + 1,
        6 | 7 => needed + r.below(100),
        _ => needed,
    }
}

/// One question of a seed, by its index: its name and its line. Names in `without`
/// do not come up.
pub fn question(seed: u64, case: u64, without: &[String]) -> (&'static str, String) {
    let mut random = Random::of_case(seed, case);
    let r = &mut random;
    let weights = [
        (16, "read"),
        (16, "write"),
        (34, "replay"),
        (10, "verdict"),
        (12, "slack"),
        (5, "second"),
        (4, "where"),
        (11, "explain"),
        (12, "figure"),
        (3, "junk"),
    ];
    let allowed: Vec<(usize, &'static str)> =
        weights.into_iter().filter(|(_, name)| !without.iter().any(|out| out == name)).collect();
    let name = *r.weighted(&allowed);
    let line = match name {
        "read" => read_question(r),
        "write" => write_question(r),
        "replay" => replay_question(r),
        "verdict" => verdict_question(r),
        "slack" | "second" | "where" => path_question(r, name),
        "explain" => explain_question(r),
        "figure" => figure_question(r),
        _ => junk(r),
    };
    (name, line)
}

fn read_question(r: &mut Random) -> String {
    let size = any_size(r);
    let file = any_file(r, size, 35);
    let needed = match good_plan_of_file(&file) {
        Ok(plan) => row_of(&plan).len(),
        Err(_) => r.below(100),
    };
    format!("read {} {}", any_room(r, needed), hex_of_bytes(&file))
}

fn write_question(r: &mut Random) -> String {
    let size = any_size(r);
    let row = any_row(r, size, 35);
    let needed = match good_plan_of_row(&row) {
        Ok(plan) => file_of(&plan).len(),
        Err(_) => r.below(100),
    };
    format!("write {}{}", any_room(r, needed), spaced(&row))
}

fn replay_question(r: &mut Random) -> String {
    let size = any_size(r);
    let row = any_row(r, size, 90);
    let (cuts, needed) = match good_plan_of_row(&row) {
        Ok(plan) => (any_cuts(r, &plan, 78), 2 * plan.timeout * plan.messages.len()),
        Err(_) => ((0..r.below(5)).map(|_| r.below(3) as u16).collect(), r.below(100)),
    };
    let room = any_room(r, needed);
    format!("replay {} {}{}{}", room, cuts.len(), spaced(&cuts), spaced(&row))
}

/// Whether the exhaustive search ends after at most this many replays.
pub fn search_is_quick(plan: &Plan, k: usize, l: usize, replays: usize) -> bool {
    let mut count = 0;
    let mut found = false;
    for pairs in 0..=k {
        every_list(plan, pairs, &mut |list| {
            count += 1;
            found = found || cycle(plan, list).arrivals < l;
            !found && count <= replays
        });
        if found || count > replays {
            break;
        }
    }
    count <= replays
}

fn verdict_question(r: &mut Random) -> String {
    let k = *r.weighted(&[(5, 0), (20, 1), (32, 2), (36, 3), (5, 4), (1, 5), (1, 65535)]);
    let row = match r.below(20) {
        0..=14 => {
            let pairs = match k {
                3 => 24,
                2 => 50,
                _ => 64,
            };
            row_of(&plan_for_verdict(r, pairs))
        }
        15 | 16 => row_of(&good_plan(r, Size::Small)),
        17 => {
            let size = if r.percent(70) { Size::Middle } else { Size::Large };
            row_of(&good_plan(r, size))
        }
        _ => any_row(r, Size::Tiny, 0),
    };
    let (k, l) = match good_plan_of_row(&row) {
        Ok(plan) => {
            let messages = plan.messages.len();
            let l = match r.below(12) {
                0..=2 => r.below(messages + 1),
                3 | 4 => 1,
                5..=7 => messages,
                8 | 9 => messages.saturating_sub(1),
                10 => messages.saturating_sub(2),
                _ => *r.pick(&[0, messages + 1, 33, 65535]),
            };
            // Never a search that takes long: then a lower k.
            let mut k = k;
            while (2..=3).contains(&k) && l <= messages && !search_is_quick(&plan, k, l, 4000) {
                k -= 1;
            }
            (k, l)
        }
        Err(_) => (k, r.below(4)),
    };
    let room = any_room(r, 2 * k.min(10));
    format!("verdict {} {} {}{}", k, l, room, spaced(&row))
}

/// The highest k up to this one for which the answer to a capture is quick to find.
fn quick_k(plan: &Plan, k: usize, capture: &[Triple]) -> usize {
    let quick = |k: &usize| {
        number_of_lists(plan, *k) <= 1600 || by_walking(plan, *k, capture, 12000).is_ok()
    };
    (1..=k).rev().find(quick).unwrap_or(0)
}

fn explain_question(r: &mut Random) -> String {
    if r.percent(3) {
        return String::from(*r.pick(&[
            "explain", "explain 2", "explain 2 4", "explain 2 4 1", "explain 2 4 3 0 0",
            "explain x 4 0 1", "explain 2 -1 0 1", "explain 2 4 00 1", "explain 02 4 0 1",
            "explain 65536 4 0 1", "explain 2 65536 0 1", "explain 2 4 65536 1", "explain 2 4 0  1",
            "explain 2 4 0 1 ", " explain 2 4 0 1", "Explain 2 4 0 1", "explains 2 4 0 1",
            "explain 2 4 3 0 0 0 1 x", "explain 2 4 3 0 0 65536 1", "explain 2 4 65535 1",
        ]));
    }
    let k = *r.weighted(&[(6, 0), (17, 1), (30, 2), (40, 3), (5, 4), (1, 5), (1, 65535)]);
    let row = match r.below(20) {
        0..=15 => row_of(&plan_for_capture(r, if k == 3 { 30 } else { 56 })),
        16 => row_of(&good_plan(r, Size::Small)),
        17 => {
            let size = if r.percent(70) { Size::Middle } else { Size::Large };
            row_of(&good_plan(r, size))
        }
        18 => row_of(&good_plan(r, Size::Tiny)),
        _ => any_row(r, Size::Tiny, 0),
    };
    let (k, triples) = match good_plan_of_row(&row) {
        Ok(plan) => {
            let triples = any_capture(r, &plan, 88);
            match capture_of_numbers(&plan, &triples) {
                Ok(capture) if k <= 3 => (quick_k(&plan, k, &capture), triples),
                _ => (k, triples),
            }
        }
        Err(_) => (k, (0..r.below(5)).map(|_| r.below(3) as u16).collect()),
    };
    let room = any_room(r, 2 * k.min(10));
    format!("explain {} {} {}{}{}", k, room, triples.len(), spaced(&triples), spaced(&row))
}

/// A plan for figures, with at most so many pairs: every other time the one of several that loses
/// the least to a single cut, for most plans lose something to it and all to two or three.
pub fn plan_for_figure(r: &mut Random, pairs: usize) -> Plan {
    let number = if r.percent(50) { 1 } else { 6 };
    let plans = (0..number).map(|_| {
        if r.percent(50) { plan_for_verdict(r, pairs) } else { plan_for_capture(r, pairs) }
    });
    let lost = |plan: &Plan| plan.messages.len() - figure(plan, 1);
    plans.min_by_key(|plan| (lost(plan), 32 - plan.messages.len())).unwrap()
}

fn figure_question(r: &mut Random) -> String {
    if r.percent(3) {
        return String::from(*r.pick(&[
            "figure", "figure ", "figure x", "figure -1 1", "figure 01 1", "figure 65536 1",
            "figure 1  1", "figure 1 1 ", "figure 1 x", "figure 1 65536", " figure 1 1", "Figure 1 1",
            "figures", "figures 1", "figures 1 ", "figures x 2 1", "figures 1 x 1", "figures 1 -1 1",
            "figures 01 2 1", "figures 1 02 1", "figures 65536 2 1", "figures 1 65536 1",
            "figures 1 2 65536", "figures 1 2 1 ", "figures 1  2 1", "figuress 1 2 1",
        ]));
    }
    let k = *r.weighted(&[(8, 0), (18, 1), (30, 2), (34, 3), (6, 4), (3, 5), (1, 65535)]);
    let row = match r.below(20) {
        0..=13 => row_of(&plan_for_figure(r, if k == 3 { 24 } else { 50 })),
        14 => row_of(&plan_with_slack(r)),
        15 => row_of(&good_plan(r, Size::Small)),
        16 => {
            let size = *r.weighted(&[(60, Size::Middle), (30, Size::Large), (10, Size::Limit)]);
            row_of(&good_plan(r, size))
        }
        17 => row_of(&good_plan(r, Size::Tiny)),
        _ => any_row(r, Size::Tiny, 0),
    };
    // Never a search that takes long: then a lower k.
    let k = match good_plan_of_row(&row) {
        Ok(plan) if k <= 3 => {
            let replays = 40_000 / (plan.timeout * plan.messages.len());
            (1..=k).rev().find(|k| search_is_quick(&plan, *k, 1, replays)).unwrap_or(0)
        }
        _ => k,
    };
    if r.percent(50) {
        format!("figure {}{}", k, spaced(&row))
    } else {
        format!("figures {} {}{}", k, any_room(r, k.min(10) + 1), spaced(&row))
    }
}

/// How many second paths a plan has.
fn second_paths_of(plan: &Plan) -> usize {
    let places = plan.messages.iter().flat_map(|message| &message.places);
    places.filter(|place| place.second.is_some()).count()
}

/// A slack or second path question.
fn path_question(r: &mut Random, name: &str) -> String {
    let size = any_size(r);
    let mut row = any_row(r, size, 85);
    for _ in 0..4 {
        // Seldom a good plan without any second path.
        match good_plan_of_row(&row) {
            Ok(plan) if second_paths_of(&plan) == 0 => row = row_of(&good_plan(r, size)),
            _ => break,
        }
    }
    let (m, place) = match good_plan_of_row(&row) {
        Ok(plan) => {
            let m = match r.below(16) {
                0 => plan.messages.len(),
                1 => *r.pick(&[32, 64, 65535]),
                2 | 3 => r.place_below(plan.messages.len()),
                _ => {
                    // Mostly one with a second path.
                    let with_second: Vec<usize> = (0..plan.messages.len())
                        .filter(|m| plan.messages[*m].places.iter().any(|p| p.second.is_some()))
                        .collect();
                    if with_second.is_empty() {
                        0
                    } else {
                        with_second[r.place_below(with_second.len())]
                    }
                }
            };
            let place = match (plan.messages.get(m), r.below(16)) {
                (Some(message), 0) => message.places.len(),
                (Some(_), 1) => *r.pick(&[16, 17, 65535]),
                (Some(message), 2 | 3) => r.place_below(message.places.len()),
                (Some(message), _) => {
                    let with_second: Vec<usize> = (0..message.places.len())
                        .filter(|place| message.places[*place].second.is_some())
                        .collect();
                    if with_second.is_empty() {
                        0
                    } else {
                        with_second[r.place_below(with_second.len())]
                    }
                }
                (None, _) => r.below(3),
            };
            (m, place)
        }
        Err(_) => (r.below(3), r.below(3)),
    };
    format!("{} {} {}{}", name, m, place, spaced(&row))
}

/// Lines that are no questions.
fn junk(r: &mut Random) -> String {
    let lines = [
        "", " ", "?", "judge", "judge 1 2 2 1 3", "READ 5 -", "reads 5 -", "read", "read 5",
        "read - 5", "read 5 - -", "read 5 1", "read 5 108", "read 5 1g", "read 5 10 82",
        "read x 10", "read -1 10", "read 5 --", "read  5 10", " read 5 10", "read 5 10 ",
        "write", "write x", "write -1", "write 10 +1", "write 10 1 2 x", "write 10 1  2",
        "write 10 1 2 ", "write 10 65536", "write 65536 1", "write 10 1.5", "write 10 0x1",
        "write 10 4294967297", "write 10 18446744073709551617",
        "replay", "replay 5", "replay 5 1", "replay 5 3 0 0", "replay 5 -1 0", "replay x 0 1",
        "replay 5 65535 1", "verdict", "verdict 1", "verdict 1 1", "verdict 1 x 2 1",
        "slack", "slack 0", "slack 0 x 1", "slack 65536 0 1", "second", "second 0",
        "second x 0 1", "second 0 65536 1", "second 0 0 1 -", "cut 0 0", "write,5,1",
        "where", "where 0", "where 0 x 1", "where 65536 0 1", "where 00 0 1", "write 017 1",
        "write 00", "write 10 01", "read 025 10", "replay 16 00 1", "verdict 01 0 2 1", "slack 00 0 1",
    ];
    String::from(*r.pick(&lines))
}

// ---------------------------------------------------------- the programs' inputs

/// One case for a program: what stands in its folder, by name, and standard input.
pub struct ProgramCase {
    pub files: Vec<(Vec<u8>, Made)>,
    pub input: Vec<u8>,
}

/// What is made in the folder of a case; a file that is closed may not be read by others than root.
pub enum Made {
    File(Vec<u8>),
    Closed(Vec<u8>),
    Folder,
}

impl Made {
    /// What is read of it, if it may be.
    pub fn content(&self) -> &[u8] {
        match self {
            Made::File(content) | Made::Closed(content) => content,
            Made::Folder => &[],
        }
    }
}

/// The case with this plan file, if there is one.
fn of_plan(file: Option<Vec<u8>>, input: Vec<u8>) -> ProgramCase {
    let plan = file.map(|file| (b"plan.bin".to_vec(), Made::File(file)));
    ProgramCase { files: plan.into_iter().collect(), input }
}

/// A case for the replay program.
pub fn replay_case(seed: u64, case: u64) -> ProgramCase {
    let mut random = Random::of_case(seed ^ 0x7265706C6179, case);
    let r = &mut random;
    if r.percent(2) {
        let input = if r.percent(50) { Vec::new() } else { b"cut 0 0\n".to_vec() };
        return of_plan(None, input);
    }
    let size = any_size(r);
    let file = any_file(r, size, 82);
    let input = match good_plan_of_file(&file) {
        Ok(plan) => cut_lines(r, &plan),
        Err(_) if r.percent(50) => Vec::new(),
        Err(_) => b"cut 0 0\ncut x\n".to_vec(),
    };
    of_plan(Some(file), input)
}

/// A case for the verdict program: only plans whose table is quick to find.
pub fn verdict_case(seed: u64, case: u64) -> ProgramCase {
    let mut random = Random::of_case(seed ^ 0x76657264696374, case);
    let r = &mut random;
    let input = if r.percent(80) { Vec::new() } else { b"cut 0 0\n".to_vec() };
    if r.percent(2) {
        return of_plan(None, input);
    }
    let file = if r.percent(15) {
        any_file(r, Size::Tiny, 0)
    } else {
        match r.below(20) {
            0..=10 => file_of(&plan_for_verdict(r, 20)),
            11 | 12 => file_of(&plan_for_verdict(r, 36)),
            13 => file_of(&plan_for_verdict(r, 64)),
            way => loop {
                // E x t above 64, often not far above: up to k 1.
                let size = if way == 19 { Size::Middle } else { Size::Small };
                let plan = good_plan(r, size);
                let far_above = plan.links.len() * plan.timeout > 80;
                if highest_k(&plan) == 1 && (way > 15 || !far_above) {
                    break file_of(&plan);
                }
            },
        }
    };
    of_plan(Some(file), input)
}

/// A case for the program `deep`: plans whose table up to k 3 is quick to find, half of them with E x t above 64.
pub fn deep_case(seed: u64, case: u64) -> ProgramCase {
    let mut random = Random::of_case(seed ^ 0x64656570, case);
    let r = &mut random;
    if r.percent(2) {
        return of_plan(None, Vec::new());
    }
    let file = if r.percent(10) {
        any_file(r, Size::Tiny, 0)
    } else if r.percent(45) {
        file_of(&plan_for_verdict(r, 36))
    } else {
        loop {
            let plan = plan_for_verdict(r, 96);
            if highest_k(&plan) == 1 {
                break file_of(&plan);
            }
        }
    };
    of_plan(Some(file), Vec::new())
}

/// A case for the program `explain`: only plans and captures whose answer is quick to find.
pub fn explain_case(seed: u64, case: u64) -> ProgramCase {
    let mut random = Random::of_case(seed ^ 0x6578706C61696E, case);
    let r = &mut random;
    if r.percent(2) {
        let input = if r.percent(50) { Vec::new() } else { b"0 0 0\n".to_vec() };
        return of_plan(None, input);
    }
    if r.percent(10) {
        let input = if r.percent(50) { Vec::new() } else { b"0 0 0\nx\n".to_vec() };
        return of_plan(Some(any_file(r, Size::Tiny, 0)), input);
    }
    loop {
        let plan = match r.below(20) {
            0..=13 => plan_for_capture(r, 64),
            14 | 15 => good_plan(r, Size::Small),
            16 => good_plan(r, Size::Middle),
            17 => good_plan(r, Size::Large),
            18 => good_plan(r, Size::Limit),
            _ => good_plan(r, Size::Tiny),
        };
        let input = capture_lines(r, &plan);
        let quick = match capture_of_lines(&plan, &input) {
            Ok(capture) => quick_k(&plan, EXPLAIN_K, &capture) == EXPLAIN_K,
            Err(_) => true,
        };
        if quick {
            return of_plan(Some(file_of(&plan)), input);
        }
    }
}

/// Cut lines, good and bad in every way.
fn cut_lines(r: &mut Random, plan: &Plan) -> Vec<u8> {
    let numbers = any_cuts(r, plan, 88);
    let mut lines: Vec<Vec<u8>> = numbers
        .chunks(2)
        .map(|pair| {
            let mut line = String::from("cut");
            for number in pair {
                line += &format!(" {}", number);
            }
            (line + "\n").into_bytes()
        })
        .collect();
    if r.percent(76) {
        return lines.concat();
    }
    if lines.is_empty() {
        lines.push(b"cut 0 0\n".to_vec());
    }
    let at = r.place_below(lines.len());
    let text = String::from_utf8(lines[at].clone()).unwrap();
    let text = text.trim_end().to_string();
    let bad = match r.below(26) {
        0 => text.clone(), // no line feed: this line and the next run together, or end
        1 => text.replacen("cut ", "cut 0", 1) + "\n",
        2 => text.replacen(' ', "  ", 1) + "\n",
        3 => text.clone() + " \n",
        4 => text.clone() + "\r\n",
        5 => format!(" {}\n", text),
        6 => text.replacen("cut", "Cut", 1) + "\n",
        7 => text.replacen("cut ", "", 1) + "\n",
        8 => text.replacen("cut ", "cut -", 1) + "\n",
        9 => text.replacen("cut ", "cut +", 1) + "\n",
        10 => text.clone() + " 0\n",
        11 => String::from("cut 64 0\n"),
        12 => String::from("cut 0 64\n"),
        13 => String::from("cut 0 100\n"),
        14 => String::from("cut 4294967296 0\n"),
        15 => String::from("cut 0 18446744073709551616\n"),
        16 => String::from("\n"),
        17 => String::from("cut\n"),
        18 => String::from("cut \n"),
        19 => String::from("cut 0\n"),
        20 => String::from("cut 0 \n"),
        21 => text.replacen(' ', "\t", 1) + "\n",
        22 => text.clone() + "\n\n",
        23 => text.replacen("cut ", "cut 00", 1) + "\n",
        24 => String::from("# junk\n"),
        _ => String::from("cut 0 00\n"),
    };
    lines[at] = bad.into_bytes();
    match r.below(8) {
        0 => {
            // Bytes that are no text.
            lines[at] = (0..r.below(12)).map(|_| r.next() as u8).collect();
        }
        1 => {
            // Only the last line feed is missing.
            lines = numbers
                .chunks(2)
                .map(|pair| format!("cut {} {}\n", pair[0], pair[pair.len() - 1]).into_bytes())
                .collect();
            if let Some(last) = lines.last_mut() {
                last.pop();
            }
        }
        2 => {
            // 65 lines and more.
            let mut many = Vec::new();
            for number in 0..r.between(64, 70) {
                let slot = if r.percent(50) { 0 } else { number.min(63) };
                many.push(format!("cut {} {}\n", slot, number.min(63)).into_bytes());
            }
            lines = many;
        }
        3 => {
            // A second bad line.
            let other = r.below(lines.len());
            lines[other] = b"cut 9 x\n".to_vec();
        }
        _ => {}
    }
    lines.concat()
}

// ------------------------------------------------- plans for the theorems' check

/// A good plan and a good cut list.
pub fn plan_and_cuts(seed: u64, case: u64) -> (Plan, Vec<Pair>) {
    let mut random = Random::of_case(seed ^ 0x7468656F72656D, case);
    let r = &mut random;
    let size = any_size(r);
    let plan = good_plan(r, size);
    let cuts = good_cuts(r, &plan);
    (plan, cuts)
}

/// A plan, good or bad.
pub fn plan_good_or_bad(seed: u64, case: u64) -> Plan {
    let mut random = Random::of_case(seed ^ 0x72756C6573, case);
    let r = &mut random;
    let size = any_size(r);
    any_plan(r, size)
}

/// A plan that breaks rules, every other time several.
pub fn spoilt_plan(seed: u64, case: u64) -> Plan {
    let mut random = Random::of_case(seed ^ 0x73706F696C74, case);
    let r = &mut random;
    let size = any_size(r);
    if r.percent(50) {
        plan_with_faults(r, size)
    } else {
        bad_plan(r, size)
    }
}

/// A good plan and good cut lists of at most four pairs.
pub fn plan_and_few_cuts(seed: u64, case: u64, lists: usize) -> (Plan, Vec<Vec<Pair>>) {
    let mut random = Random::of_case(seed ^ 0x6C6F7373, case);
    let r = &mut random;
    let plan = plan_with_slack(r);
    let lists = (0..lists).map(|_| few_cuts(r, &plan)).collect();
    (plan, lists)
}
