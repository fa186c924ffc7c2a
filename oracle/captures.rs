//! Random captures for [7]: of cut lists, with a crossing removed, added or moved, of other
//! plans, empty, junk, and out of form, range or order.

use crate::cuts::Pair;
use crate::explain::{crossings, numbers_of_capture, Triple};
use crate::lines::lines_of_capture;
use crate::plan::Plan;
use crate::random::{few_cuts, good_cuts, plan_for_capture, Random};

/// Any triple in range.
fn any_triple(r: &mut Random, plan: &Plan) -> Triple {
    (r.below(plan.timeout), r.below(plan.links.len()), r.below(plan.messages.len()))
}

/// A list to take a capture of: few cuts about one message, late ones, four, or any.
fn cuts_for_capture(r: &mut Random, plan: &Plan) -> Vec<Pair> {
    let last = plan.timeout - 1;
    match r.below(20) {
        0..=10 => few_cuts(r, plan),
        11..=13 => {
            // Late ones.
            let mut cuts = few_cuts(r, plan);
            for pair in cuts.iter_mut() {
                pair.0 = r.between(pair.0.max(last - last.min(3)), last);
            }
            cuts.sort();
            cuts
        }
        14..=16 => {
            // Four, where there are so many links.
            for _ in 0..20 {
                let cuts = few_cuts(r, plan);
                if cuts.len() == 4 {
                    return cuts;
                }
            }
            few_cuts(r, plan)
        }
        17 => Vec::new(),
        _ => good_cuts(r, plan),
    }
}

/// A capture in good form: mostly one of a list, or one with something changed.
pub fn good_capture(r: &mut Random, plan: &Plan) -> Vec<Triple> {
    let cuts = cuts_for_capture(r, plan);
    let mut capture = crossings(plan, &cuts);
    let at = if capture.is_empty() { 0 } else { r.place_below(capture.len()) };
    match r.below(100) {
        // One crossing removed, one added, one moved.
        0..=9 if !capture.is_empty() => {
            capture.remove(at);
        }
        10..=16 => capture.push(any_triple(r, plan)),
        17..=25 if !capture.is_empty() => {
            let other = any_triple(r, plan);
            let last = plan.timeout - 1;
            match r.below(4) {
                0 => capture[at].0 = (capture[at].0 + 1).min(last),
                1 => capture[at].0 = capture[at].0.saturating_sub(1),
                2 => capture[at].1 = other.1,
                _ => capture[at].2 = other.2,
            }
        }
        // Another plan's, as far as it is in range.
        26..=28 => {
            let plan_of_another = plan_for_capture(r, 40);
            let cuts = few_cuts(r, &plan_of_another);
            capture = crossings(&plan_of_another, &cuts);
            capture.retain(|(slot, link, m)| {
                *slot < plan.timeout && *link < plan.links.len() && *m < plan.messages.len()
            });
        }
        29..=32 => capture.clear(),
        // That of one list up to a slot, and of another, or of nothing, from there on.
        33..=38 => {
            let slot = r.below(plan.timeout);
            let others = if r.percent(50) { few_cuts(r, plan) } else { Vec::new() };
            let of_others = crossings(plan, &others);
            capture.retain(|triple| triple.0 < slot);
            if r.percent(60) {
                capture.extend(of_others.iter().filter(|triple| triple.0 >= slot));
            }
        }
        // One message's crossings alone, or all but these.
        39..=41 => {
            let m = r.below(plan.messages.len());
            let alone = r.percent(50);
            capture.retain(|triple| (triple.2 == m) == alone);
        }
        // Junk in form, and more than a cycle can have.
        42 | 43 => capture = (0..r.below(12)).map(|_| any_triple(r, plan)).collect(),
        44 => {
            let most = plan.timeout * plan.messages.len();
            capture = every_triple(plan, most + r.below(20));
        }
        _ => {}
    }
    capture.sort();
    capture.dedup();
    capture
}

/// All triples that there are, in order, but no more than so many.
pub fn every_triple(plan: &Plan, most: usize) -> Vec<Triple> {
    let mut triples = Vec::new();
    for slot in 0..plan.timeout {
        for link in 0..plan.links.len() {
            for m in 0..plan.messages.len() {
                if triples.len() == most {
                    return triples;
                }
                triples.push((slot, link, m));
            }
        }
    }
    triples
}

/// The numbers of a capture that is bad in one way or another; sometimes it turns out good
/// after all.
fn bad_capture(r: &mut Random, plan: &Plan) -> Vec<u16> {
    let mut capture = good_capture(r, plan);
    if capture.is_empty() {
        capture.push(any_triple(r, plan));
    }
    let at = r.place_below(capture.len());
    let mut numbers = numbers_of_capture(&capture);
    match r.below(10) {
        // Out of range.
        0 => numbers[3 * at] = *r.pick(&[plan.timeout as u16, 64, 256, 65535]),
        1 => numbers[3 * at + 1] = *r.pick(&[plan.links.len() as u16, 64, 256, 65535]),
        2 => numbers[3 * at + 2] = *r.pick(&[plan.messages.len() as u16, 32, 256, 65535]),
        // Out of order: two change places, or one comes twice.
        3 | 4 => {
            let other = if r.percent(50) { r.below(capture.len()) } else { (at + 1) % capture.len() };
            capture.swap(at, other);
            numbers = numbers_of_capture(&capture);
        }
        5 => {
            capture.insert(at, capture[at]);
            numbers = numbers_of_capture(&capture);
        }
        // Unfinished: one or two numbers are missing, or too many.
        6 => numbers.truncate(3 * at + r.between(1, 2)),
        7 => {
            for _ in 0..r.between(1, 2) {
                numbers.push(r.below(plan.timeout) as u16);
            }
        }
        // Two bad ones, or one before an unfinished one.
        8 => {
            numbers[3 * at] = plan.timeout as u16;
            let other = r.below(numbers.len());
            numbers[other] = 65535;
            if r.percent(50) {
                numbers.push(0);
            }
        }
        // Anything.
        _ => numbers = (0..r.below(16)).map(|_| r.below(5) as u16).collect(),
    }
    numbers
}

/// The numbers of a capture, good or bad.
pub fn any_capture(r: &mut Random, plan: &Plan, good: usize) -> Vec<u16> {
    if r.percent(good) {
        numbers_of_capture(&good_capture(r, plan))
    } else {
        bad_capture(r, plan)
    }
}

/// Lines of a capture, good and bad in every way.
pub fn capture_lines(r: &mut Random, plan: &Plan) -> Vec<u8> {
    if r.percent(4) {
        return long_lines(r, plan);
    }
    if r.percent(60) {
        return lines_of_capture(&good_capture(r, plan)).into_bytes();
    }
    let numbers = any_capture(r, plan, 60);
    let mut lines: Vec<Vec<u8>> = numbers
        .chunks(3)
        .map(|triple| {
            let words: Vec<String> = triple.iter().map(|number| number.to_string()).collect();
            (words.join(" ") + "\n").into_bytes()
        })
        .collect();
    if r.percent(25) {
        return lines.concat();
    }
    if lines.is_empty() {
        lines.push(b"0 0 0\n".to_vec());
    }
    let at = r.place_below(lines.len());
    lines[at] = bad_line(r, &lines[at]);
    match r.below(10) {
        0 => {
            // A second bad line.
            let other = r.below(lines.len());
            lines[other] = b"9 x 0\n".to_vec();
        }
        1 => {
            // Only the last line feed is missing.
            let mut bytes = lines_of_capture(&good_capture(r, plan)).into_bytes();
            bytes.pop();
            return bytes;
        }
        _ => {}
    }
    lines.concat()
}

/// A line out of form in place of this one; sometimes it turns out good after all.
fn bad_line(r: &mut Random, line: &[u8]) -> Vec<u8> {
    let text = String::from_utf8(line.to_vec()).unwrap();
    let text = text.trim_end().to_string();
    let bad = match r.below(26) {
        0 => text, // no line feed: this line and the next run together, or end
        1 => format!("0{}\n", text),
        2 => text.replacen(' ', " 0", 1) + "\n",
        3 => text.replacen(' ', "  ", 1) + "\n",
        4 => text + " \n",
        5 => text + "\r\n",
        6 => format!(" {}\n", text),
        7 => format!("-{}\n", text),
        8 => format!("+{}\n", text),
        9 => text + " 0\n",
        10 => String::from("64 0 0\n"),
        11 => String::from("0 64 0\n"),
        12 => String::from("0 0 64\n"),
        13 => String::from("0 0 100\n"),
        14 => String::from("4294967296 0 0\n"),
        15 => String::from("0 0 18446744073709551616\n"),
        16 => String::from("\n"),
        17 => String::from("0\n"),
        18 => String::from("0 0\n"),
        19 => String::from("0 0 \n"),
        20 => text.replacen(' ', "\t", 1) + "\n",
        21 => text + "\n\n",
        22 => text.replacen(' ', ",", 2) + "\n",
        23 => format!("cut {}\n", text),
        24 => String::from("0 0 x\n"),
        _ => return (0..r.below(12)).map(|_| r.next() as u8).collect(), // no text
    };
    bad.into_bytes()
}

/// More triples than a cycle can have crossings, up to all that there are, and often
/// something behind them.
fn long_lines(r: &mut Random, plan: &Plan) -> Vec<u8> {
    let crossings = plan.timeout * plan.messages.len();
    let all = crossings * plan.links.len();
    let number = match r.below(4) {
        0 => all,
        1 => r.between(crossings, all),
        _ => (crossings + r.below(4)).min(all),
    };
    let mut bytes = lines_of_capture(&every_triple(plan, number)).into_bytes();
    match r.below(5) {
        0 => bytes.extend(b"0 0 0\n"),
        1 => bytes.extend(b"63 63"),
        2 => {
            bytes.pop();
        }
        3 => bytes.extend(b"63 63 x\n64 0 0\n"),
        _ => {}
    }
    bytes
}
