//! Document 01, "Programs": what the programs read and print; and document 02, [1] and [7].

use crate::cuts::{bad_pair, Pair};
use crate::cycle::cycle;
use crate::explain::{bad_triple, crossings, explaining_list, Triple};
use crate::plan::{refusal, Plan, Refusal};
use crate::questions::good_plan_of_file;
use crate::slack::slack_of;
use crate::verdict::arrivals_of_every_list;

/// "a line is `cut `, the slot, one space, the link and a line feed, in decimal
/// without needless zeros, each number at most 63". The pair of a line that still
/// has its line feed, or nothing for "a line of another form".
fn pair_of_line(line: &[u8]) -> Option<Pair> {
    let line = line.strip_suffix(b"\n")?;
    let line = line.strip_prefix(b"cut ")?;
    let space = line.iter().position(|byte| *byte == b' ')?;
    let slot = number_of_digits(&line[..space])?;
    let link = number_of_digits(&line[space + 1..])?;
    Some((slot, link))
}

/// The number at most 63 that is written so, or nothing.
fn number_of_digits(digits: &[u8]) -> Option<usize> {
    let value = |digit: u8| (digit - b'0') as usize;
    let number = match digits {
        [one @ b'0'..=b'9'] => value(*one),
        [ten @ b'1'..=b'9', one @ b'0'..=b'9'] => 10 * value(*ten) + value(*one),
        _ => return None,
    };
    Some(number).filter(|number| *number <= 63)
}

/// 12: "a bad cut list"; "index of first bad pair or line". "A line of another form
/// is refusal 12; no line at all is the list without cuts."
pub fn cut_list_of_lines(plan: &Plan, input: &[u8]) -> Result<Vec<Pair>, Refusal> {
    let mut list = Vec::new();
    // Each line with its line feed; what stands behind the last line feed, if
    // anything, is a line without one.
    for (index, line) in input.split_inclusive(|byte| *byte == b'\n').enumerate() {
        match pair_of_line(line) {
            Some(pair) if !bad_pair(plan, &list, pair) => list.push(pair),
            _ => return Err(refusal(12, index)),
        }
    }
    Ok(list)
}

/// "A refusal prints `refused N place P` alone", and those of a path the place and the step.
pub fn refusal_line(refusal: Refusal) -> String {
    format!("{}\n", refusal)
}

/// What the replay program prints for a plan file and a standard input.
pub fn replay_program(file: &[u8], input: &[u8]) -> String {
    replay_listing(file, input).unwrap_or_else(refusal_line)
}

/// "It prints the header of the example below, one line an event, and
/// `arrived N of M`."
fn replay_listing(file: &[u8], input: &[u8]) -> Result<String, Refusal> {
    let plan = good_plan_of_file(file)?;
    let cuts = cut_list_of_lines(&plan, input)?;
    Ok(listing(&plan, &cuts))
}

/// The listing of the replay of a plan under a list.
pub fn listing(plan: &Plan, cuts: &[Pair]) -> String {
    let cycle = cycle(plan, cuts);
    let mut text = String::from("slot message kind number\n");
    for (slot, events) in cycle.events.iter().enumerate() {
        for (m, event) in events.iter().enumerate() {
            text += &format!("{} {} {} {}\n", slot, m, event.kind, event.number);
        }
    }
    text += &format!("arrived {} of {}\n", cycle.arrivals, plan.messages.len());
    text
}

/// "lines of three decimals with single spaces", each with a line feed, the decimals as in
/// the line of a cut. The triple of a line, or nothing for a line "out of form".
fn triple_of_line(line: &[u8]) -> Option<Triple> {
    let line = line.strip_suffix(b"\n")?;
    let mut numbers = line.split(|byte| *byte == b' ').map(number_of_digits);
    let triple = (numbers.next()??, numbers.next()??, numbers.next()??);
    if numbers.next().is_some() {
        return None;
    }
    Some(triple)
}

/// 23: "a triple or line out of form, range or order is 23 with its index". "No line at all
/// is the empty capture."
pub fn capture_of_lines(plan: &Plan, input: &[u8]) -> Result<Vec<Triple>, Refusal> {
    let mut capture = Vec::new();
    for (index, line) in input.split_inclusive(|byte| *byte == b'\n').enumerate() {
        match triple_of_line(line) {
            Some(triple) if !bad_triple(plan, capture.last().copied(), triple) => {
                capture.push(triple);
            }
            _ => return Err(refusal(23, index)),
        }
    }
    Ok(capture)
}

/// The lines of a capture.
pub fn lines_of_capture(capture: &[Triple]) -> String {
    capture.iter().map(|(slot, link, m)| format!("{} {} {}\n", slot, link, m)).collect()
}

/// What the program `explain` prints for a plan file and a standard input.
pub fn explain_program(file: &[u8], input: &[u8]) -> String {
    explained(file, input).unwrap_or_else(refusal_line)
}

/// "uses k 2".
pub const EXPLAIN_K: usize = 2;

/// "print its pairs' numbers on one line, then its listing"; "an empty line for the empty
/// list"; "or `unexplained` alone".
fn explained(file: &[u8], input: &[u8]) -> Result<String, Refusal> {
    let plan = good_plan_of_file(file)?;
    let capture = capture_of_lines(&plan, input)?;
    Ok(match explaining_list(&plan, EXPLAIN_K, &capture) {
        None => String::from("unexplained\n"),
        Some(list) => {
            let pairs: Vec<String> =
                list.iter().map(|(slot, link)| format!("{} {}", slot, link)).collect();
            pairs.join(" ") + "\n" + &listing(&plan, &list)
        }
    })
}

/// The capture of the replay program's cycle, as lines: what `explain` reads. A refusal is
/// the replay program's.
pub fn capture_program(file: &[u8], input: &[u8]) -> String {
    captured(file, input).unwrap_or_else(refusal_line)
}

fn captured(file: &[u8], input: &[u8]) -> Result<String, Refusal> {
    let plan = good_plan_of_file(file)?;
    let cuts = cut_list_of_lines(&plan, input)?;
    Ok(lines_of_capture(&crossings(&plan, &cuts)))
}

/// What the verdict program prints for a plan file.
pub fn verdict_program(file: &[u8]) -> String {
    verdict_listing(file, highest_k).unwrap_or_else(refusal_line)
}

/// What the program `deep` prints for a plan file: the same up to k 3 whatever the size.
pub fn deep_program(file: &[u8]) -> String {
    verdict_listing(file, |_| 3).unwrap_or_else(refusal_line)
}

/// "it goes up to k 3 if E x t is at most 64, else to k 1".
pub fn highest_k(plan: &Plan) -> usize {
    if plan.links.len() * plan.timeout <= 64 {
        3
    } else {
        1
    }
}

/// "The verdict program prints, for k rising and under each k for l from 0 to M, one
/// line `k l resistant`, or `k l` and the pairs' numbers [...]. Then it prints for
/// each message and place with a second path, in order, `slack`, message, place and
/// slack."
fn verdict_listing(file: &[u8], highest: fn(&Plan) -> usize) -> Result<String, Refusal> {
    let plan = good_plan_of_file(file)?;
    let highest = highest(&plan);
    let lists = arrivals_of_every_list(&plan, highest);
    let mut text = String::new();
    for k in 0..=highest {
        for l in 0..=plan.messages.len() {
            text += &format!("{} {}", k, l);
            match lists.iter().find(|(list, arrivals)| list.len() <= k && *arrivals < l) {
                None => text += " resistant",
                Some((list, _)) => {
                    for (slot, link) in list {
                        text += &format!(" {} {}", slot, link);
                    }
                }
            }
            text += "\n";
        }
    }
    for (m, message) in plan.messages.iter().enumerate() {
        for place in 0..message.places.len() {
            if let Some(slack) = slack_of(&plan, m, place) {
                text += &format!("slack {} {} {}\n", m, place, slack);
            }
        }
    }
    Ok(text)
}
