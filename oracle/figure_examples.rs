//! Examples of document 02, [2]: figures and sheets found by hand, the figure as the verdict and the
//! game have it on random plans, names of every length and number.

use crate::cases::{plan_for_figure, ProgramCase};
use crate::cuts::cable_names;
use crate::cycle::cycle;
use crate::examples::{a, b, plan, row, Tests};
use crate::figures::{figure, figures, game};
use crate::lines::highest_k;
use crate::misfigured;
use crate::plan::{file_of, Plan};
use crate::questions::{self, good_plan_of_row};
use crate::random::Random;
use crate::shelf::{by_text, names_of, shelf_program, told_of_file};
use crate::shelves::shelf_case;
use crate::verdict::failing_list;
use std::cell::RefCell;
use std::collections::HashMap;

pub fn run(tests: &mut Tests) {
    by_hand(tests);
    refused(tests);
    by_verdict_and_game(tests);
    sheets(tests);
    names(tests);
    names_that_are_text(tests);
    orders(tests);
    wrong_ways(tests);
}

/// A plan with another timeout.
fn until(timeout: usize, plan: Plan) -> Plan {
    Plan { timeout, ..plan }
}

/// A message on each of so many links in a row, in slot 1 of three, and no second path.
fn chain(messages: usize) -> Plan {
    let links: Vec<(usize, usize)> = (0..messages).map(|at| (at, at + 1)).collect();
    let messages = (0..messages).map(|link| vec![(link, 1, vec![])]).collect();
    plan(links.len() + 1, 3, &links, messages)
}

/// The accident of the mission (samples/accident): "it gives no promise about a cut that comes in
/// slot 3", and that one sent two setpoints down the same link.
fn accident() -> Plan {
    let row = [
        1, 5, 8, 2, 5, 0, 1, 1, 2, 2, 3, 0, 4, 1, 4, 4, 2, 4, 5, 5, 3, 2, 5, 1, 0, 0, 1, 1, 3, 5, 1,
        4, 1, 1, 4, 5, 2, 0, 2, 1, 2, 3, 6, 7, 1, 3, 1, 2, 4, 6, 7, 2, 4, 1, 1, 8, 7, 1, 3, 0, 1, 2,
        0, 1, 8, 6, 1, 1, 1, 5, 8,
    ];
    good_plan_of_row(&row).unwrap()
}

// ---------------------------------------------------------------------------- figures

fn by_hand(tests: &mut Tests) {
    let mut has = |name: &str, plan: &Plan, wanted: [usize; 4]| {
        for k in 0..4 {
            let question = format!("figure {} {}", k, row(plan));
            tests.asked(name, &question, &format!("ok {}", wanted[k]));
            let words: Vec<String> = wanted[..=k].iter().map(|one| one.to_string()).collect();
            let answer = format!("ok {} {}", k + 1, words.join(" "));
            for room in [k + 1, k + 2, 99] {
                tests.asked(name, &format!("figures {} {} {}", k, room, row(plan)), &answer);
            }
            tests.holds(name, game(plan, k) == wanted[k]);
        }
    };
    // A: "no cuts: 2"; "k 1, l 2: list (0,1). k 1, l 1: resistant"; "(0,0), (0,2): no arrivals".
    has("A", &a(), [2, 1, 0, 0]);
    // "A with t = 2, k 1, l 2: (0,0)": message 0 is held in slot 0 and has one slot for two links;
    // message 1 is untouched, and likewise the other way round.
    has("A with t = 2", &until(2, a()), [2, 1, 0, 0]);
    // B: cut in slot 0 both take links 1, 2 one behind the other, until time 3; cut in slot 1
    // message 1 has them alone; before that none uses them. Two cuts take both ways.
    has("B", &b(), [2, 2, 0, 0]);
    has("B with t = 3", &until(3, b()), [2, 2, 0, 0]);
    has("B with t = 2", &until(2, b()), [2, 1, 0, 0]);
    // B with message 1 in slot 2 of three: cut in slot 0 or 1 both arrive by time 3; cut in slot 2
    // message 1 has one slot for two links.
    let mut late = until(3, b());
    late.messages[1].places[0].slot = 2;
    has("a cut in slot 2", &late, [2, 1, 0, 0]);
    // A cut in slot 0 or 1 loses the message of its link and no other.
    has("four links", &chain(4), [4, 3, 2, 1]);
    has("three links", &chain(3), [3, 2, 1, 0]);
    // "At most k pairs" where there are fewer links.
    has("two links", &chain(2), [2, 1, 0, 0]);
    has("one link", &chain(1), [1, 0, 0, 0]);
    let least = plan(2, 1, &[(0, 1)], vec![vec![(0, 0, vec![])]]);
    has("one link, one slot", &least, [1, 0, 0, 0]);
    // All take link 0: cut in slot 0 it loses all of them.
    let queue = |messages| (0..messages).map(|slot| vec![(0, slot, vec![])]).collect();
    has("four on one link", &plan(2, 4, &[(0, 1)], queue(4)), [4, 0, 0, 0]);
    has("32 on one link", &plan(2, 32, &[(0, 1)], queue(32)), [32, 0, 0, 0]);
    // Three messages from three starts to vertex 0, each over vertex 4 if need be, where link 6 is
    // shared; there is time for all. One cut loses nothing; two lose a message that has both its
    // links cut, or its first link and the shared one; three lose two by the shared one alone.
    let hub = plan(
        5,
        6,
        &[(1, 0), (2, 0), (3, 0), (1, 4), (2, 4), (3, 4), (4, 0)],
        vec![vec![(0, 0, vec![3, 6])], vec![(1, 0, vec![4, 6])], vec![(2, 0, vec![5, 6])]],
    );
    has("three starts and a hub", &hub, [3, 3, 2, 1]);
    // The accident: some cut in slot 3, and none in slot 0, loses a message.
    let accident = accident();
    let lost = |slot: usize| {
        (0..accident.links.len()).any(|link| cycle(&accident, &[(slot, link)]).arrivals < 3)
    };
    let late_alone = !lost(0) && lost(3) && figure(&accident, 1) == 2;
    tests.holds("the accident, k 1", late_alone);
}

fn refused(tests: &mut Tests) {
    let a_row = row(&a());
    let mut bad = b();
    bad.messages[1].places[0].slot = 0;
    let questions = [
        (format!("figure 4 {}", row(&bad)), "refused 9 place 1"),
        (format!("figure 4 2{}", &a_row[1..]), "refused 1 place 0"),
        (String::from("figure 4"), "refused 2 place 0"),
        (format!("figure 0 {} 0", a_row), "refused 4 place 33"),
        (format!("figure 4 {}", a_row), "refused 11 place 0"),
        (format!("figure 65535 {}", a_row), "refused 11 place 0"),
        (format!("figures 4 0 {}", row(&bad)), "refused 9 place 1"),
        (String::from("figures 4 0"), "refused 2 place 0"),
        (format!("figures 4 0 {}", a_row), "refused 11 place 0"),
        (format!("figures 65535 65535 {}", a_row), "refused 11 place 0"),
        (format!("figures 3 3 {}", a_row), "refused 13 place 4"),
        (format!("figures 3 0 {}", a_row), "refused 13 place 4"),
        (format!("figures 1 1 {}", a_row), "refused 13 place 2"),
        (format!("figures 0 0 {}", a_row), "refused 13 place 1"),
        (format!("figures 0 1 {}", a_row), "ok 1 2"),
    ];
    for (question, wanted) in questions {
        tests.asked("refusals of figures", &question, wanted);
    }
    // "A success changes only the part it writes", and a refusal changes nothing.
    let a_row: Vec<u16> = a_row.split(' ').map(|word| word.parse().unwrap()).collect();
    let mut buffer = vec![7u16; 5];
    let written = questions::figures(&a_row, 2, &mut buffer);
    tests.holds("figures are written", written == Ok(3) && buffer == [2, 1, 0, 7, 7]);
    let mut buffer = vec![7u16; 2];
    let written = questions::figures(&a_row, 2, &mut buffer);
    tests.holds("refused figures are not", written.is_err() && buffer == [7; 2]);
    let no_questions = [
        "figure", "figure x", "figure 01", "figure -1", "figure 1 ", "figure 65536", "figure 1 x",
        "figures", "figures 1", "figures 1 x", "figures 01 2", "figures 1 02", "figures 1 65536",
    ];
    for line in no_questions {
        tests.asked("no question", line, "?");
    }
}

/// "The figure for k is at least l exactly when the verdict for k and l says resistant": it is the
/// highest such l. And it is what the game ends with.
fn by_verdict_and_game(tests: &mut Tests) {
    let (mut as_verdict, mut as_game, mut falls, mut two_lose) = (true, true, true, true);
    let mut kinds = Vec::new();
    for case in 0..400 {
        let plan = plan_for_figure(&mut Random::of_case(14, case), 20);
        let messages = plan.messages.len();
        let found = figures(&plan, 3);
        for k in 0..=3 {
            let resistant = |l: &usize| failing_list(&plan, k, *l).is_none();
            as_verdict = as_verdict && (0..=messages).rev().find(resistant) == Some(found[k]);
            as_verdict = as_verdict && (0..=found[k]).all(|l| resistant(&l));
            as_game = as_game && game(&plan, k) == found[k] && figure(&plan, k) == found[k];
        }
        falls = falls && found.windows(2).all(|two| two[0] >= two[1]);
        two_lose = two_lose && found[0] == messages && found[2] < messages;
        kinds.push(found);
    }
    tests.holds("the figure is the highest l that is resistant", as_verdict);
    tests.holds("the figure is the game's", as_game);
    tests.holds("more cuts never leave more", falls);
    // The link that a message begins with, and the one that its second path there begins with.
    tests.holds("no cut loses nothing, and two lose something", two_lose);
    kinds.sort();
    kinds.dedup();
    tests.holds("figures of many kinds", kinds.len() > 20);
}

// ----------------------------------------------------------------------------- sheets

/// A shelf of A, B, some long plans and bad ones.
fn open(name: &[u8]) -> Vec<u8> {
    match name {
        b"a" | b"\xff" => file_of(&a()),
        b"b" | b"M\xc3\xbchle" => file_of(&b()),
        b"chain" => file_of(&chain(4)),
        b"64" => file_of(&until(16, a())),
        b"68" => file_of(&until(17, a())),
        b"edition 2" => [&[0x20], &file_of(&a())[1..]].concat(),
        b"one more" => [&file_of(&a())[..], &[0]].concat(),
        b"path" => {
            let mut plan = a();
            plan.messages[1].places[1].link = 1;
            file_of(&plan)
        }
        _ => Vec::new(),
    }
}

/// What is printed for this input on that shelf.
fn printed(input: &[u8]) -> String {
    String::from_utf8_lossy(&shelf_program(input, &open)).to_string()
}

fn sheets(tests: &mut Tests) {
    let sheets: [(&[u8], &str); 14] = [
        (b"", "0 0 0\n1 0 0\n2 0 0\n3 0 0\n"),
        (b"a\n", "2 1 0 0 a\n0 1 0\n1 0 1\n2 0 2\n3 0 2\n"),
        (b"b", "2 2 0 0 b\n0 1 0\n1 1 0\n2 0 2\n3 0 2\n"),
        (b"a\nb\n", "2 1 0 0 a\n2 2 0 0 b\n0 2 0\n1 1 1\n2 0 4\n3 0 4\n"),
        (b"a\nb", "2 1 0 0 a\n2 2 0 0 b\n0 2 0\n1 1 1\n2 0 4\n3 0 4\n"),
        (b"b\na\nb\n", "2 2 0 0 b\n2 1 0 0 a\n2 2 0 0 b\n0 3 0\n1 2 1\n2 0 6\n3 0 6\n"),
        (b"chain\n", "4 3 2 1 chain\n0 1 0\n1 0 1\n2 0 2\n3 0 3\n"),
        // "as far as the verdict program goes": E x t is 64, and 68.
        (b"64\n", "2 1 0 0 64\n0 1 0\n1 0 1\n2 0 2\n3 0 2\n"),
        (b"68\n", "2 1 68\n0 1 0\n1 0 1\n2 0 0\n3 0 0\n"),
        (b"68\na\n", "2 1 68\n2 1 0 0 a\n0 2 0\n1 0 2\n2 0 2\n3 0 2\n"),
        // A refused plan counts in no sum.
        (b"none\n", "refused 2 place 0 none\n0 0 0\n1 0 0\n2 0 0\n3 0 0\n"),
        (b"edition 2\na\n", "refused 1 place 0 edition 2\n2 1 0 0 a\n0 1 0\n1 0 1\n2 0 2\n3 0 2\n"),
        (b"b\npath\n", "2 2 0 0 b\nrefused 14 place 1 1 1 path\n0 1 0\n1 1 0\n2 0 2\n3 0 2\n"),
        // The file of A has 27 + 48 + 2 * (4 + 13 + 4 + 12 + 13) = 167 bits.
        (b"one more\n", "refused 4 place 167 one more\n0 0 0\n1 0 0\n2 0 0\n3 0 0\n"),
    ];
    for (input, wanted) in sheets {
        let name = format!("sheet ({:?})", String::from_utf8_lossy(input));
        tests.equal(&name, &printed(input), wanted);
    }
    // The name as it was given, whatever bytes it has.
    let sheet = shelf_program(b"\xff \0\r\n", &|_| file_of(&a()));
    tests.holds("any bytes", sheet.starts_with(b"2 1 0 0 \xff \0\r\n0 1 0\n"));
    tests.holds("E x t is 64", highest_k(&until(16, a())) == 3 && highest_k(&until(17, a())) == 1);
}

/// "a name of another length, or a name too many, is 24 with its line, and then no plan is read".
fn names(tests: &mut Tests) {
    let refused: [(&[u8], usize); 8] = [
        (b"\n", 0),
        (b"\na\n", 0),
        (b"\n\n", 0),
        (b"a\n\n", 1),
        (b"a\n\nb", 1),
        (b"a\nb\n\n", 2),
        (b"a\n\n\n", 1),
        (b"a\n\nb\n\n", 1),
    ];
    for (input, line) in refused {
        let name = format!("empty lines ({:?})", String::from_utf8_lossy(input));
        tests.equal(&name, &printed(input), &format!("refused 24 place {}\n", line));
    }
    for (length, good) in [(1, true), (254, true), (255, true), (256, false), (300, false), (70000, false)] {
        for before in [0, 1, 249] {
            for end in ["", "\n"] {
                let mut input = b"a\n".repeat(before);
                input.extend(vec![b'x'; length]);
                input.extend(end.bytes());
                let wanted = if good { Ok(before + 1) } else { Err(before) };
                let got = names_of(&input).map(|names| names.len()).map_err(|refusal| refusal.place);
                let name = format!("{} bytes behind {} names", length, before);
                tests.holds(&name, got == wanted);
            }
        }
    }
    for (number, end) in [(249, "a"), (249, ""), (250, ""), (250, "a"), (250, "\n"), (251, ""), (300, "a")] {
        let mut input = b"b\n".repeat(number);
        input.extend(end.bytes());
        let name = format!("{} names and {:?}", number, end);
        let wanted = match (number, end) {
            (249, "a") | (250, "") => Ok(250),
            (249, "") => Ok(249),
            _ => Err(250),
        };
        let got = names_of(&input).map(|names| names.len()).map_err(|refusal| refusal.place);
        tests.holds(&name, got == wanted);
    }
    // The first bad line decides, and the 251st is bad whatever it has.
    let long = [b'x'; 256];
    let lines: [(Vec<u8>, usize); 4] = [
        ([&b"a\n"[..], &long, b"\n\n"].concat(), 1),
        ([b"a\n\n", &long[..]].concat(), 1),
        ([&b"a\n".repeat(250)[..], &long].concat(), 250),
        ([&b"a\n".repeat(249)[..], b"\n", &long].concat(), 249),
    ];
    for (input, line) in lines {
        tests.holds("the first bad line", names_of(&input).is_err_and(|one| one.place == line));
    }
    // No plan is read where a name is refused, and each is where none is.
    let opened = std::cell::Cell::new(0);
    let open = |_: &[u8]| {
        opened.set(opened.get() + 1);
        Vec::new()
    };
    shelf_program(b"a\nb\n\n", &open);
    tests.holds("no plan is read", opened.get() == 0);
    shelf_program(b"a\nb\na\n", &open);
    tests.holds("every plan is read", opened.get() == 3);
}

/// What the file of this very name holds, on a random shelf.
fn content_of(shelf: &ProgramCase, name: &[u8]) -> Vec<u8> {
    let found = shelf.files.iter().find(|(other, _)| other == name);
    found.map_or(Vec::new(), |(_, made)| made.content().to_vec())
}

/// Where names are text, a file counts as empty whose name is none, and nothing else changes.
fn names_that_are_text(tests: &mut Tests) {
    let sheets: [(&[u8], &[u8], &[u8]); 3] = [
        (
            b"\xff\n",
            b"2 1 0 0 \xff\n0 1 0\n1 0 1\n2 0 2\n3 0 2\n",
            b"refused 2 place 0 \xff\n0 0 0\n1 0 0\n2 0 0\n3 0 0\n",
        ),
        (
            b"a\n\xff\nM\xc3\xbchle",
            b"2 1 0 0 a\n2 1 0 0 \xff\n2 2 0 0 M\xc3\xbchle\n0 3 0\n1 1 2\n2 0 6\n3 0 6\n",
            b"2 1 0 0 a\nrefused 2 place 0 \xff\n2 2 0 0 M\xc3\xbchle\n0 2 0\n1 1 1\n2 0 4\n3 0 4\n",
        ),
        // Their length counts as before.
        (b"\xff\n\n", b"refused 24 place 1\n", b"refused 24 place 1\n"),
    ];
    for (input, of_bytes, of_text) in sheets {
        let name = format!("names that are no text ({:?})", String::from_utf8_lossy(input));
        tests.holds(&name, shelf_program(input, &open) == of_bytes);
        tests.holds(&name, shelf_program(input, &by_text(&open)) == of_text);
    }
    let text: [&[u8]; 10] = [
        b"a", b" ", b"\r", b"\x7f", b"\xc2\x80", b"\xdf\xbf", b"\xe0\xa0\x80", b"\xed\x9f\xbf",
        b"\xf0\x90\x80\x80", b"a\xf4\x8f\xbf\xbfb",
    ];
    // A byte that goes on or begins nothing, one that is cut off, one that takes more bytes than it
    // needs, half of a pair, and one above the last.
    let none: [&[u8]; 15] = [
        b"\x80", b"a\xbf", b"\xff", b"\xfe", b"m\xfchle", b"\xc3", b"\xe2\x82", b"\xe2\x82/a", b"\xf0\x9f\x98",
        b"\xc0\xaf", b"\xe0\x9f\xbf", b"\xf0\x8f\xbf\xbf", b"\xed\xa0\x80", b"\xed\xbf\xbf", b"\xf4\x90\x80\x80",
    ];
    let any = |name: &[u8]| name.to_vec();
    tests.holds("what is text", text.iter().all(|name| by_text(&any)(name) == *name));
    tests.holds("what is no text", none.iter().all(|name| by_text(&any)(name).is_empty()));
    let (mut as_said, mut differ) = (true, 0);
    for case in 0..200 {
        let shelf = shelf_case(17, case);
        let names = match names_of(&shelf.input) {
            Ok(names) if names.len() < 20 => names,
            _ => continue,
        };
        let open = |name: &[u8]| content_of(&shelf, name);
        let lines_of = |sheet: Vec<u8>| -> Vec<Vec<u8>> {
            sheet.split(|byte| *byte == b'\n').map(|line| line.to_vec()).collect()
        };
        let of_bytes = lines_of(shelf_program(&shelf.input, &open));
        let of_text = lines_of(shelf_program(&shelf.input, &by_text(&open)));
        let is_text = |name: &&[u8]| std::str::from_utf8(name).is_ok();
        let texts: Vec<&[u8]> = names.iter().copied().filter(is_text).collect();
        let alone = lines_of(shelf_program(&texts.join(&b'\n'), &open));
        for (at, name) in names.iter().enumerate() {
            let empty = [b"refused 2 place 0 ", *name].concat();
            as_said = as_said && of_text[at] == if is_text(name) { of_bytes[at].clone() } else { empty };
        }
        as_said = as_said && of_text[names.len()..] == alone[texts.len()..];
        differ += usize::from(of_text != of_bytes);
    }
    tests.holds("a name that is no text is of an empty file, and counts in no sum", as_said);
    tests.holds("shelves with files whose names are no text", differ > 20);
}

/// The order of the names changes the order of their lines alone.
fn orders(tests: &mut Tests) {
    let (mut same, mut sheets) = (true, 0);
    for case in 0..60 {
        let shelf = shelf_case(15, case);
        let mut names = match names_of(&shelf.input) {
            Ok(names) if names.len() > 1 && names.len() < 20 => names,
            _ => continue,
        };
        let open = |name: &[u8]| content_of(&shelf, name);
        let lines_of = |names: &[&[u8]]| -> (Vec<Vec<u8>>, Vec<Vec<u8>>) {
            let sheet = shelf_program(&names.join(&b'\n'), &open);
            let lines = sheet.split(|byte| *byte == b'\n').map(|line| line.to_vec());
            let mut lines: Vec<Vec<u8>> = lines.take(names.len() + 4).collect();
            let totals = lines.split_off(names.len());
            lines.sort();
            (lines, totals)
        };
        let before = lines_of(&names);
        Random::of_case(16, case).shuffle(&mut names);
        same = same && lines_of(&names) == before;
        sheets += 1;
    }
    tests.holds("the order of the names does not count", same && sheets > 20);
}

/// Each wrong way to find a figure or to print a sheet differs somewhere.
fn wrong_ways(tests: &mut Tests) {
    let ways = misfigured::WRONG.map(|(way, _, _)| way);
    for seed in 1..=2 {
        let found = misfigured::all_different(&ways, seed, 300);
        for (way, name, within) in misfigured::WRONG {
            let differs = found.iter().any(|(other, one)| *other == way && one.case < within)
                || within > 300 && !misfigured::all_different(&[way], seed, within).is_empty();
            tests.holds(&format!("{} differs, seed {}, {} plans", name, seed, within), differs);
        }
    }
    // Exactly k cuts are not wrong where there are so many cables: a cut more in the last slot never
    // leaves more.
    let mut same = true;
    for case in 0..300 {
        let (plan, k) = misfigured::small_question(3, case);
        let exactly = misfigured::figure(misfigured::Way::ExactlyK, &plan, k);
        same = same && (cable_names(&plan).len() < k || exactly == figure(&plan, k));
    }
    tests.holds("exactly k cuts, where there are so many cables", same);
    let shelves = [
        &b""[..], b"a\n", b"a\nb", b"b\nb\n", b"68\n", b"none\n", b"path\na\n", b"a\n\n", b"\na\n",
        b"a\r\n", b" a\n", b"a\0b\n", b"\xff\n", b"M\xc3\xbchle\n", &b"a\n".repeat(250),
        &b"a\n".repeat(251), &[b'x'; 255], &[b'x'; 256], &[&b"a\n".repeat(251)[..], b"\n"].concat(),
    ];
    for (way, name) in misfigured::WRONG_SHEETS {
        let differs = shelves.iter().any(|input| {
            let right = shelf_program(input, &by_text(&open));
            misfigured::wrong_sheet(way, input, &open, &told_of_file) != right
        });
        tests.holds(&format!("{} differs on a sheet", name), differs);
    }
    // And on as many random shelves as are compared with another program.
    let known = RefCell::new(HashMap::new());
    let tell = |file: &[u8]| {
        let mut known = known.borrow_mut();
        known.entry(file.to_vec()).or_insert_with(|| told_of_file(file)).clone()
    };
    let mut found = [0; misfigured::WRONG_SHEETS.len()];
    for case in 0..300 {
        let shelf = shelf_case(1, case);
        let open = |name: &[u8]| content_of(&shelf, name);
        let right = shelf_program(&shelf.input, &by_text(&open));
        for (at, (way, _)) in misfigured::WRONG_SHEETS.iter().enumerate() {
            let wrong = misfigured::wrong_sheet(*way, &shelf.input, &open, &tell);
            found[at] += usize::from(wrong != right);
        }
    }
    for ((_, name), number) in misfigured::WRONG_SHEETS.iter().zip(found) {
        tests.holds(&format!("{} differs on a random shelf", name), number > 0);
    }
}
