//! The independent second program: document 01 once more, simple and slow, and the
//! comparison of another program with it. See README.md.

mod bad;
mod bench;
mod cable_examples;
mod captures;
mod cases;
mod compare;
mod cuts;
mod cycle;
mod examples;
mod explain;
mod figure_examples;
mod figures;
mod good;
mod good01;
mod lines;
mod losses;
mod miscut;
mod misfigured;
mod misjudged;
mod named;
mod path_examples;
mod paths;
mod plan;
mod probe;
mod questions;
mod random;
mod shelf;
mod shelves;
mod slack;
mod tally;
mod theorem;
mod verdict;

use std::cell::RefCell;
use std::collections::HashMap;
use std::io::{BufRead, BufWriter, Read, Write};

const HELP: &str = "\
oracle: document 01 once more, independent, simple and slow

  oracle probe                      answers the questions of PROBE.md on standard input
  oracle replay                     the replay program (plan.bin, cut lines on standard input)
  oracle verdict                    the verdict program (plan.bin)
  oracle deep                       the same up to k 3 whatever the size; for small plans alone
  oracle explain                    the program explain (plan.bin, a capture on standard input)
  oracle capture                    the capture of what oracle replay plays, to be explained
  oracle shelf [--names-are-text]   the program shelf (names of plan files on standard input); with
                                    the option a file whose name is no UTF-8 counts as empty
  oracle test                       runs the examples of document 01 and more
  oracle generate SEED N            writes N random probe questions
  oracle kinds SEED N               counts event kinds and refusals in these N questions
  oracle compare SEED N -- COMMAND...
                                    asks COMMAND these N questions and compares the answers
  oracle files SEED N DIR [NAME]    makes folders DIR/000001... with plan.bin (shelf: plan files),
                                    stdin and what the program NAME (replay, verdict, deep, explain
                                    or shelf, with --names-are-text; replay) should print
  oracle compare-program NAME SEED N [--cwd-root DIR] -- COMMAND...
                                    runs COMMAND in a folder for each of N cases and compares
                                    what it prints with the program NAME (the same)
  oracle bench-plan KIND SEED       writes a plan file for benchmarks; KIND is network or chain (64 links,
                                    64 slots, 32 messages), small or wide (as document 000 evaluates)
  oracle theorem SEED N             tries the promises about every replay on N random cases,
                                    what a list can lose on N more, with 12 lists each, and on N
                                    more that a plan is refused exactly if it is by document 01
  oracle different SEED N [NAME [KEEP]]
                                    on how many of N small captures wrong ways to explain them
                                    differ; with NAME, such questions, the KEEP shortest (10)
  oracle different-refusals SEED N [NAME [KEEP]]
                                    the same for N spoilt plans and wrong ways to refuse a path
  oracle different-figures SEED N [NAME [KEEP]]
                                    the same for N small plans and wrong ways to find a figure
  oracle different-cuts SEED N [NAME [KEEP]]
                                    the same for N small questions and wrong ways to cut a cable
  oracle differs NAME               whether this wrong way differs on each question of standard input;
                                    NAME refusals: whether each to refuse a path does on six or more;
                                    NAME figures: likewise each to find a figure; NAME cuts: likewise
                                    each to cut a cable
  oracle differs sheets DIR         whether each wrong way to print a sheet differs on a stored case of
                                    DIR, whose sources are found from here, and all print what is stored
  oracle help                       this

generate, kinds and compare take --without NAME (again and again), where NAME is read,
write, replay, verdict, slack, second, where, explain, figure (figures too) or junk: such
questions do not come up.
SEED and N are decimals. A case follows from SEED, its index (from 0) and the --without
names. The exit status is 0 if all is well, 1 for a difference or a failure, 2 for a wrong
command line.
";

fn main() {
    let arguments: Vec<String> = std::env::args().skip(1).collect();
    let status = match run(&arguments) {
        Ok(true) => 0,
        Ok(false) => 1,
        Err(text) => {
            eprintln!("oracle: {}", text);
            2
        }
    };
    std::process::exit(status);
}

/// What a command line says.
struct Words {
    plain: Vec<String>,
    without: Vec<String>,
    root: Option<String>,
    names_are_text: bool,
    command: Vec<String>,
}

fn words_of(arguments: &[String]) -> Result<Words, String> {
    let mut words = Words { plain: vec![], without: vec![], root: None, names_are_text: false, command: vec![] };
    let mut at = 0;
    while at < arguments.len() {
        match arguments[at].as_str() {
            "--" => {
                words.command = arguments[at + 1..].to_vec();
                break;
            }
            "--without" => {
                at += 1;
                let name = arguments.get(at).ok_or("--without what?")?;
                if !cases::QUESTIONS.contains(&name.as_str()) {
                    return Err(format!("--without {}: no such question", name));
                }
                words.without.push(name.clone());
            }
            "--cwd-root" => {
                at += 1;
                words.root = Some(arguments.get(at).ok_or("--cwd-root which?")?.clone());
            }
            "--names-are-text" => words.names_are_text = true,
            other => words.plain.push(String::from(other)),
        }
        at += 1;
    }
    if cases::QUESTIONS.iter().all(|name| words.without.iter().any(|out| out == name)) {
        return Err(String::from("no question is left"));
    }
    Ok(words)
}

fn number_at(words: &Words, at: usize) -> Result<u64, String> {
    let word = words.plain.get(at).ok_or("a number is missing; see oracle help")?;
    word.parse().map_err(|_| format!("{}: no number", word))
}

const PROGRAMS: [&str; 5] = ["replay", "verdict", "deep", "explain", "shelf"];

fn name_at(words: &Words, at: usize) -> Result<String, String> {
    match words.plain.get(at) {
        Some(name) if PROGRAMS.contains(&name.as_str()) => Ok(name.clone()),
        _ => Err(format!("which of {}?", PROGRAMS.join(", "))),
    }
}

fn run(arguments: &[String]) -> Result<bool, String> {
    let words = words_of(arguments)?;
    match words.plain.first().map(String::as_str) {
        Some("probe") => answer_questions(),
        Some("replay") => {
            let text = lines::replay_program(&plan_file(), &standard_input());
            print_all(&text)
        }
        Some("verdict") => print_all(&lines::verdict_program(&plan_file())),
        Some("deep") => print_all(&lines::deep_program(&plan_file())),
        Some("explain") => {
            print_all(&lines::explain_program(&plan_file(), &standard_input()))
        }
        Some("capture") => {
            print_all(&lines::capture_program(&plan_file(), &standard_input()))
        }
        Some("shelf") => {
            let open = |name: &[u8]| shelf::open_in(std::path::Path::new(""), name);
            let text = if words.names_are_text {
                shelf::shelf_program(&standard_input(), &shelf::by_text(&open))
            } else {
                shelf::shelf_program(&standard_input(), &open)
            };
            print_bytes(&text)
        }
        Some("test") => {
            let (passed, failed) = examples::run();
            println!("{} passed, {} failed", passed, failed);
            Ok(failed == 0)
        }
        Some("generate") => {
            let (seed, number) = (number_at(&words, 1)?, number_at(&words, 2)?);
            generate(seed, number, &words.without)
        }
        Some("kinds") => {
            let (seed, number) = (number_at(&words, 1)?, number_at(&words, 2)?);
            kinds(seed, number, &words.without)
        }
        Some("compare") => {
            let (seed, number) = (number_at(&words, 1)?, number_at(&words, 2)?);
            need_command(&words)?;
            compare::compare(seed, number, &words.without, &words.command)
        }
        Some("files") => {
            let (seed, number) = (number_at(&words, 1)?, number_at(&words, 2)?);
            let folder = words.plain.get(3).ok_or("which folder?")?;
            let name =
                if words.plain.len() > 4 { name_at(&words, 4)? } else { String::from("replay") };
            compare::files(&name, seed, number, folder)?;
            Ok(true)
        }
        Some("compare-program") => {
            let name = name_at(&words, 1)?;
            let (seed, number) = (number_at(&words, 2)?, number_at(&words, 3)?);
            need_command(&words)?;
            compare::compare_program(&name, seed, number, words.root.clone(), &words.command)
        }
        Some("theorem") => {
            let (seed, number) = (number_at(&words, 1)?, number_at(&words, 2)?);
            theorems(seed, number)
        }
        Some("different") => {
            let (seed, number) = (number_at(&words, 1)?, number_at(&words, 2)?);
            match words.plain.get(3) {
                None => count_different(seed, number),
                Some(name) => {
                    let keep = if words.plain.len() > 4 { number_at(&words, 4)? } else { 10 };
                    keep_different(seed, number, name, keep as usize)
                }
            }
        }
        Some("different-refusals") => {
            let (seed, number) = (number_at(&words, 1)?, number_at(&words, 2)?);
            match words.plain.get(3) {
                None => count_different_refusals(seed, number),
                Some(name) => {
                    let keep = if words.plain.len() > 4 { number_at(&words, 4)? } else { 10 };
                    keep_different_refusals(seed, number, name, keep as usize)
                }
            }
        }
        Some("different-figures") => {
            let (seed, number) = (number_at(&words, 1)?, number_at(&words, 2)?);
            match words.plain.get(3) {
                None => count_different_figures(seed, number),
                Some(name) => {
                    let keep = if words.plain.len() > 4 { number_at(&words, 4)? } else { 10 };
                    keep_different_figures(seed, number, name, keep as usize)
                }
            }
        }
        Some("different-cuts") => {
            let (seed, number) = (number_at(&words, 1)?, number_at(&words, 2)?);
            match words.plain.get(3) {
                None => count_different_cuts(seed, number),
                Some(name) => {
                    let keep = if words.plain.len() > 4 { number_at(&words, 4)? } else { 10 };
                    keep_different_cuts(seed, number, name, keep as usize)
                }
            }
        }
        Some("differs") => {
            let name = words.plain.get(1).ok_or("which way?")?;
            match name.as_str() {
                "refusals" => every_way_to_refuse_differs(),
                "figures" => every_way_to_find_figures_differs(),
                "cuts" => every_way_to_cut_differs(),
                "sheets" => every_way_to_print_sheets_differs(words.plain.get(2).ok_or("which folder?")?),
                _ => differs(name),
            }
        }
        Some("bench-plan") => {
            let kind = words.plain.get(1).ok_or(bench::KINDS)?;
            let plan = bench::plan(kind, number_at(&words, 2)?).ok_or(bench::KINDS)?;
            good::good(&plan).map_err(|refusal| format!("no good plan: {:?}", refusal))?;
            let file = plan::file_of(&plan);
            std::io::stdout().write_all(&file).map_err(|error| error.to_string())?;
            Ok(true)
        }
        Some("help") => print_all(HELP),
        _ => Err(String::from("see oracle help")),
    }
}

fn need_command(words: &Words) -> Result<(), String> {
    if words.command.is_empty() {
        return Err(String::from("no command after --"));
    }
    Ok(())
}

/// "Both read the file `plan.bin`; a missing file counts as empty."
fn plan_file() -> Vec<u8> {
    std::fs::read("plan.bin").unwrap_or_default()
}

fn standard_input() -> Vec<u8> {
    let mut input = Vec::new();
    let _ = std::io::stdin().read_to_end(&mut input);
    input
}

fn print_all(text: &str) -> Result<bool, String> {
    print_bytes(text.as_bytes())
}

fn print_bytes(bytes: &[u8]) -> Result<bool, String> {
    let mut output = std::io::stdout();
    output.write_all(bytes).and_then(|_| output.flush()).map_err(|e| e.to_string())?;
    Ok(true)
}

/// "reads questions from standard input, one a line, and writes one answer line for
/// each, in order, until the input ends".
fn answer_questions() -> Result<bool, String> {
    let mut input = std::io::stdin().lock();
    let mut output = BufWriter::new(std::io::stdout().lock());
    loop {
        let mut line = Vec::new();
        let count = input.read_until(b'\n', &mut line).map_err(|error| error.to_string())?;
        if count == 0 {
            break;
        }
        if line.last() == Some(&b'\n') {
            line.pop();
        }
        writeln!(output, "{}", probe::answer(&line)).map_err(|error| error.to_string())?;
    }
    output.flush().map_err(|error| error.to_string())?;
    Ok(true)
}

fn generate(seed: u64, number: u64, without: &[String]) -> Result<bool, String> {
    let mut output = BufWriter::new(std::io::stdout().lock());
    for case in 0..number {
        let (_, line) = cases::question(seed, case, without);
        writeln!(output, "{}", line).map_err(|error| error.to_string())?;
    }
    output.flush().map_err(|error| error.to_string())?;
    Ok(true)
}

/// How often each event kind and each refusal came up, and under which question.
fn kinds(seed: u64, number: u64, without: &[String]) -> Result<bool, String> {
    let mut kinds = [0u64; 8];
    let mut replays_with = [0u64; 8];
    let mut refusals = vec![vec![0u64; 24]; cases::QUESTIONS.len()];
    let mut asked = vec![0u64; cases::QUESTIONS.len()];
    let mut verdicts = vec![0u64; 5]; // resistant, then lists of 0, 1, 2, 3 pairs
    let mut captures = vec![0u64; 5]; // unexplained, then lists of 0, 1, 2, 3 pairs
    let mut losses = [[0u64; 4]; 4]; // for each k: nothing lost, 1, 2, more
    let mut after_slot_0 = 0;
    let mut part_of_length_0 = 0;
    let of_paths = tally::numbers();
    let mut tallies: Vec<tally::Tally> = of_paths.iter().map(|_| Default::default()).collect();
    let mut cables = tally::Cables::default();
    for case in 0..number {
        let (name, line) = cases::question(seed, case, without);
        let question = cases::QUESTIONS.iter().position(|other| *other == name).unwrap();
        asked[question] += 1;
        cables.count(name, &line);
        let answer = probe::answer(line.as_bytes());
        let words: Vec<&str> = answer.split(' ').collect();
        if words[0] == "refused" {
            let refusal = words[1].parse::<usize>().unwrap();
            refusals[question][refusal] += 1;
            if let Some(at) = of_paths.iter().position(|other| *other == refusal) {
                let plan = probe::plan_of_question(&line).unwrap();
                tallies[at].count(&plan, good::good(&plan).unwrap_err());
            }
        } else if name == "replay" {
            let mut seen = [0u64; 8];
            for event in words[2..].chunks(2) {
                seen[event[0].parse::<usize>().unwrap()] += 1;
            }
            for kind in 0..8 {
                kinds[kind] += seen[kind];
                replays_with[kind] += u64::from(seen[kind] > 0);
            }
        } else if name == "verdict" {
            let pairs = if words[1] == "failing" { 1 + words[2].parse::<usize>().unwrap() } else { 0 };
            verdicts[pairs] += 1;
            if pairs > 0 && words[3..].iter().step_by(2).any(|slot| *slot != "0") {
                after_slot_0 += 1;
            }
        } else if name == "explain" && words[0] == "ok" {
            let pairs = if words[1] == "list" { 1 + words[2].parse::<usize>().unwrap() } else { 0 };
            captures[pairs] += 1;
        } else if name == "figure" && words[0] == "ok" {
            let asked: Vec<&str> = line.split(' ').collect();
            let k = asked[1].parse::<usize>().unwrap();
            let figure = words.last().unwrap().parse::<usize>().unwrap();
            let messages = probe::plan_of_question(&line).unwrap().messages.len();
            losses[k][(messages - figure).min(3)] += 1;
        } else if name == "second" && words[1] == "0" {
            part_of_length_0 += 1;
        }
    }
    println!("kind        0        1        2        3        4        5        6        7");
    print!("events");
    for kind in kinds {
        print!(" {:8}", kind);
    }
    print!("\nreplays");
    for kind in replays_with {
        print!("{:8} ", kind);
    }
    println!("(replays in which the kind comes up)");
    print!("refusal   asked");
    let numbers: Vec<usize> = (1..20).chain([23]).collect();
    for refusal in &numbers {
        print!(" {:5}", refusal);
    }
    println!();
    for (question, name) in cases::QUESTIONS.iter().enumerate() {
        print!("{:8} {:6}", name, asked[question]);
        for refusal in &numbers {
            print!(" {:5}", refusals[question][*refusal]);
        }
        println!();
    }
    println!(
        "verdicts: resistant {}, failing lists of 1 pair {}, 2 pairs {}, 3 pairs {}; {} of these \
         lists have a slot above 0",
        verdicts[0], verdicts[2], verdicts[3], verdicts[4], after_slot_0
    );
    println!(
        "captures: unexplained {}, explained by the empty list {}, by lists of 1 pair {}, 2 pairs \
         {}, 3 pairs {}",
        captures[0], captures[1], captures[2], captures[3], captures[4]
    );
    for (k, lost) in losses.iter().enumerate() {
        println!(
            "figures for k {}: with nothing lost {}, 1 message {}, 2 messages {}, more {}",
            k, lost[0], lost[1], lost[2], lost[3]
        );
    }
    println!("second paths of length 0: {}", part_of_length_0);
    cables.print();
    tally::print(&tallies);
    Ok(true)
}

fn theorems(seed: u64, number: u64) -> Result<bool, String> {
    match theorem::theorem(seed, number) {
        Err(text) => {
            println!("FAILED\n{}", text);
            Ok(false)
        }
        Ok(counts) => {
            println!("{} replays, {} messages: all promises held", counts.replays, counts.messages);
            println!("left their first path: {}", counts.diverted);
            println!("  second path whole until arrival or timeout: {}", counts.whole);
            println!("    s + D within the timeout (demand 3): {}", counts.bound_in_time);
            println!("      arrived at s + D exactly: {}", counts.bound_met_exactly);
            println!("    slack 0 or more: {}", counts.slack_not_negative);
            println!("    slack below 0 and yet in time: {}", counts.negative_slack_in_time);
            println!("untouched under cuts: {}", counts.untouched);
            println!("  while others were diverted: {}", counts.untouched_though_others_diverted);
            println!("touched by other ways of the named links alone: {}", counts.touched_by_other_way);
            println!("  with other events than without cuts: {}", counts.changed_by_other_way);
            println!(
                "second paths cut by other ways of the named links alone, s + D within the timeout: {}",
                counts.cut_by_other_way
            );
            println!("  not there by s + D: {}", counts.late_by_other_way);
            Ok(refused_as_before(seed, number)? && losses_of(seed, number)?)
        }
    }
}

/// That a plan is refused by request [1] exactly if it is by document 01.
fn refused_as_before(seed: u64, number: u64) -> Result<bool, String> {
    match good01::held_against_01(seed, number) {
        Err(text) => {
            println!("FAILED: not refused as by document 01\n{}", text);
            Ok(false)
        }
        Ok(refused) => {
            println!("{} plans, {} of them refused: all as by document 01", number, refused);
            Ok(true)
        }
    }
}

/// How often each wrong way to explain a capture differs, and that the right quick way never
/// does.
fn count_different(seed: u64, number: u64) -> Result<bool, String> {
    let mut ways = vec![named::Way::Right];
    ways.extend(named::WRONG.map(|(way, _, _)| way));
    let found = named::all_different(&ways, seed, number);
    if let Some((_, case, one)) = found.iter().find(|(way, _, _)| *way == named::Way::Right) {
        println!("FAILED\nthe quick way differs, seed {} case {}: {}", seed, case, one.question);
        return Ok(false);
    }
    println!("{} questions of seed {}: the quick way never differs", number, seed);
    for (way, name, _) in named::WRONG {
        let cases: Vec<u64> =
            found.iter().filter(|(other, _, _)| *other == way).map(|(_, case, _)| *case).collect();
        println!("{:18} {:7}, the first {:?}", name, cases.len(), cases.first());
    }
    Ok(true)
}

fn way_of(name: &str) -> Result<named::Way, String> {
    let found = named::WRONG.iter().find(|(_, other, _)| *other == name);
    found.map(|(way, _, _)| *way).ok_or(format!("{}: no such way", name))
}

fn way_to_refuse(name: &str) -> Result<misjudged::Way, String> {
    let found = misjudged::WRONG.iter().find(|(_, other, _)| *other == name);
    found.map(|(way, _, _)| *way).ok_or(format!("{}: no such way", name))
}

fn way_to_find_figures(name: &str) -> Result<misfigured::Way, String> {
    let found = misfigured::WRONG.iter().find(|(_, other, _)| *other == name);
    found.map(|(way, _, _)| *way).ok_or(format!("{}: no such way", name))
}

fn way_to_cut(name: &str) -> Result<miscut::Way, String> {
    let found = miscut::WRONG.iter().find(|(_, other, _)| *other == name);
    found.map(|(way, _, _)| *way).ok_or(format!("{}: no such way", name))
}

/// Whether this wrong way, to explain a capture, to refuse a path, to find a figure or to cut a
/// cable, differs on every question of standard input.
fn differs(name: &str) -> Result<bool, String> {
    let differs_on: Box<dyn Fn(&str) -> Option<bool>> = if let Ok(way) = way_of(name) {
        Box::new(move |line| named::differs_on(way, line))
    } else if let Ok(way) = way_to_refuse(name) {
        Box::new(move |line| misjudged::differs_on(way, line))
    } else if let Ok(way) = way_to_find_figures(name) {
        Box::new(move |line| misfigured::differs_on(way, line))
    } else {
        let way = way_to_cut(name)?;
        Box::new(move |line| miscut::differs_on(way, line))
    };
    let (mut passed, mut failed) = (0, 0);
    for line in std::io::stdin().lock().lines() {
        let line = line.map_err(|error| error.to_string())?;
        if differs_on(&line) == Some(true) {
            passed += 1;
        } else {
            failed += 1;
            println!("FAILED: does not differ: {}", line);
        }
    }
    println!("{} passed, {} failed", passed, failed);
    Ok(failed == 0 && passed > 0)
}

/// Whether each wrong way to refuse a path differs on six questions of standard input or more.
fn every_way_to_refuse_differs() -> Result<bool, String> {
    let lines = lines_of_standard_input()?;
    let ways = misjudged::WRONG.iter().map(|(way, name, _)| {
        let differs = |line: &&String| misjudged::differs_on(*way, line) == Some(true);
        (*name, lines.iter().filter(differs).count())
    });
    each_differs_on(6, ways)
}

/// The same of the wrong ways to find a figure.
fn every_way_to_find_figures_differs() -> Result<bool, String> {
    let lines = lines_of_standard_input()?;
    let ways = misfigured::WRONG.iter().map(|(way, name, _)| {
        let differs = |line: &&String| misfigured::differs_on(*way, line) == Some(true);
        (*name, lines.iter().filter(differs).count())
    });
    each_differs_on(6, ways)
}

/// The same of the wrong ways to cut a cable.
fn every_way_to_cut_differs() -> Result<bool, String> {
    let lines = lines_of_standard_input()?;
    let ways = miscut::WRONG.iter().map(|(way, name, _)| {
        let differs = |line: &&String| miscut::differs_on(*way, line) == Some(true);
        (*name, lines.iter().filter(differs).count())
    });
    each_differs_on(6, ways)
}

/// Whether each wrong way to print a sheet differs on one of the stored cases of a folder or more.
fn every_way_to_print_sheets_differs(folder: &str) -> Result<bool, String> {
    let mut numbers = vec![0; misfigured::WRONG_SHEETS.len()];
    // What is told of a file is found once.
    let known = RefCell::new(HashMap::new());
    let tell = |file: &[u8]| {
        let mut known = known.borrow_mut();
        known.entry(file.to_vec()).or_insert_with(|| shelf::told_of_file(file)).clone()
    };
    compare::stored_shelves(folder, &mut |input, open, right| {
        for (at, (way, _)) in misfigured::WRONG_SHEETS.iter().enumerate() {
            let wrong = misfigured::wrong_sheet(*way, input, open, &tell);
            numbers[at] += usize::from(wrong != right);
        }
    })?;
    let names = misfigured::WRONG_SHEETS.iter().map(|(_, name)| *name);
    each_differs_on(1, names.zip(numbers))
}

fn lines_of_standard_input() -> Result<Vec<String>, String> {
    let lines: Result<Vec<String>, _> = std::io::stdin().lock().lines().collect();
    lines.map_err(|error| error.to_string())
}

/// Says of each way whether the questions on which it differs are so many or more.
fn each_differs_on<'a>(
    least: usize,
    ways: impl Iterator<Item = (&'a str, usize)>,
) -> Result<bool, String> {
    let (mut passed, mut failed) = (0, 0);
    for (name, number) in ways {
        if number >= least {
            passed += 1;
        } else {
            failed += 1;
            println!("FAILED: {} differs on {} alone", name, number);
        }
    }
    println!("{} passed, {} failed", passed, failed);
    Ok(failed == 0)
}

/// How often each wrong way to find a figure differs.
fn count_different_figures(seed: u64, number: u64) -> Result<bool, String> {
    let ways = misfigured::WRONG.map(|(way, _, _)| way);
    let found = misfigured::all_different(&ways, seed, number);
    println!("{} small plans of seed {}", number, seed);
    for (way, name, _) in misfigured::WRONG {
        let cases: Vec<u64> =
            found.iter().filter(|(other, _)| *other == way).map(|(_, one)| one.case).collect();
        println!("{:22} {:7}, the first {:?}", name, cases.len(), cases.first());
    }
    Ok(true)
}

/// How often each wrong way to cut a cable differs, and that the right one never does.
fn count_different_cuts(seed: u64, number: u64) -> Result<bool, String> {
    let mut ways = vec![miscut::Way::Right];
    ways.extend(miscut::WRONG.map(|(way, _, _)| way));
    let found = miscut::all_different(&ways, seed, number);
    if let Some((_, one)) = found.iter().find(|(way, _)| *way == miscut::Way::Right) {
        println!("FAILED\nthe right way differs, seed {} case {}: {}", seed, one.case, one.question);
        return Ok(false);
    }
    println!("{} small questions of seed {}: the right way never differs", number, seed);
    let names = ["replay", "verdict", "figure", "explain", "slack"];
    println!("{:24} {:>7} {}  the first", "", "all", names.map(|name| format!("{:>8}", name)).concat());
    for (way, name, _) in miscut::WRONG {
        let found: Vec<&miscut::Different> =
            found.iter().filter(|(other, _)| *other == way).map(|(_, one)| one).collect();
        let of = |name: &str| found.iter().filter(|one| one.question.starts_with(name)).count();
        let numbers = names.map(|name| format!("{:8}", of(name))).concat();
        println!("{:24} {:7} {}  {:?}", name, found.len(), numbers, found.first().map(|one| one.case));
    }
    Ok(true)
}

/// The shortest questions on which this wrong way to cut a cable differs; what it answers is said on
/// standard error.
fn keep_different_cuts(seed: u64, number: u64, name: &str, keep: usize) -> Result<bool, String> {
    for one in miscut::to_keep(way_to_cut(name)?, seed, number, keep) {
        eprintln!("seed {} case {}: {}, not {}", seed, one.case, one.right, one.wrong);
        println!("{}", one.question);
    }
    Ok(true)
}

/// The shortest questions on which this wrong way to find a figure differs; what it answers is said
/// on standard error.
fn keep_different_figures(seed: u64, number: u64, name: &str, keep: usize) -> Result<bool, String> {
    for one in misfigured::to_keep(way_to_find_figures(name)?, seed, number, keep) {
        eprintln!("seed {} case {}: {}, not {}", seed, one.case, one.right, one.wrong);
        println!("{}", one.question);
    }
    Ok(true)
}

/// The shortest questions on which this wrong way differs; what it answers is said on
/// standard error.
fn keep_different(seed: u64, number: u64, name: &str, keep: usize) -> Result<bool, String> {
    let found = named::all_different(&[way_of(name)?], seed, number);
    let found = found.into_iter().map(|(_, case, one)| (case, one)).collect();
    for (case, one) in named::to_keep(found, keep) {
        let right = probe::answer(one.question.as_bytes());
        eprintln!("seed {} case {}: {}, not {}", seed, case, right, named::told(&one.wrong));
        println!("{}", one.question);
    }
    Ok(true)
}

/// How often each wrong way to refuse a path differs.
fn count_different_refusals(seed: u64, number: u64) -> Result<bool, String> {
    let ways = misjudged::WRONG.map(|(way, _, _)| way);
    let found = misjudged::all_different(&ways, seed, number);
    println!("{} spoilt plans of seed {}", number, seed);
    for (way, name, _) in misjudged::WRONG {
        let cases: Vec<u64> =
            found.iter().filter(|(other, _)| *other == way).map(|(_, case)| *case).collect();
        println!("{:22} {:7}, the first {:?}", name, cases.len(), cases.first());
    }
    Ok(true)
}

/// The shortest questions on which this wrong way to refuse a path differs; what it answers is said
/// on standard error.
fn keep_different_refusals(seed: u64, number: u64, name: &str, keep: usize) -> Result<bool, String> {
    for one in misjudged::to_keep(way_to_refuse(name)?, seed, number, keep) {
        let (right, wrong) = (misjudged::told(one.right), misjudged::told(one.wrong));
        eprintln!("seed {} case {}: {}, not {}", seed, one.case, right, wrong);
        println!("{}", one.question);
    }
    Ok(true)
}

fn losses_of(seed: u64, number: u64) -> Result<bool, String> {
    match losses::losses(seed, number) {
        Err(text) => {
            println!("FAILED\n{}", text);
            Ok(false)
        }
        Ok((few, any)) => {
            println!("lost: only what is both touched and stripped; the bounds T, C, H and L hold");
            println!("{} plans, {} lists of at most 4 pairs", few.plans, few.lists);
            print_losses(&few, &["T", "C", "H", "L"]);
            println!("{} plans, {} lists of any length, only whole", any.plans, any.lists);
            print_losses(&any, &["L"]);
            Ok(true)
        }
    }
}

fn print_losses(counts: &losses::Counts, bounds: &[&str]) {
    println!("  robust places: {}", counts.robust_places);
    println!("    whose second path meets another message's: {}", counts.shared);
    println!("  messages with several: {}", counts.several_robust);
    println!(
        "  under the lists: touched {}, stripped {}, both {}, lost {}",
        counts.touched, counts.stripped, counts.both, counts.lost
    );
    println!("    lost with no fragile place touched: {}", counts.lost_by_second);
    println!("      by cuts after the slots of its robust places: {}", counts.lost_by_late_cut);
    for name in bounds {
        let which = losses::BOUNDS.iter().position(|other| other == name).unwrap();
        println!(
            "  {} held {} times, and exactly, with something lost, {}",
            name, counts.tried[which], counts.met[which]
        );
    }
}
