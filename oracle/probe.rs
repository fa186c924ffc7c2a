//! PROBE.md: every question as a line of text, and its answer.

use crate::plan::{plan_of_file, plan_of_row, Plan, Refusal};
use crate::questions;

const BYTE_BEFORE: u8 = 0xA5;
const NUMBER_BEFORE: u16 = 0xA5A5;

/// The answer to a line (without its line feed): "A line that is no question is
/// answered `?`."
pub fn answer(line: &[u8]) -> String {
    answer_to_a_question(line).unwrap_or_else(|| String::from("?"))
}

/// "words and numbers are parted by single spaces": nothing if it is no question.
fn answer_to_a_question(line: &[u8]) -> Option<String> {
    let line = std::str::from_utf8(line).ok()?;
    let words: Vec<&str> = line.split(' ').collect();
    match words[0] {
        "read" => {
            if words.len() != 3 {
                return None;
            }
            Some(read(number(words[1])? as usize, &bytes_of_hex(words[2])?))
        }
        "write" => {
            let numbers = numbers(&words[1..])?;
            let (room, row) = numbers.split_first()?;
            Some(write(*room as usize, row))
        }
        "replay" => {
            let numbers = numbers(&words[1..])?;
            let (room, rest) = numbers.split_first()?;
            let (count, rest) = rest.split_first()?;
            if *count as usize > rest.len() {
                return None;
            }
            let (cuts, row) = rest.split_at(*count as usize);
            Some(replay(*room as usize, cuts, row))
        }
        "verdict" => {
            let numbers = numbers(&words[1..])?;
            if numbers.len() < 3 {
                return None;
            }
            let (k, l, room) = (numbers[0] as usize, numbers[1] as usize, numbers[2] as usize);
            Some(verdict(k, l, room, &numbers[3..]))
        }
        "explain" => {
            let numbers = numbers(&words[1..])?;
            if numbers.len() < 3 {
                return None;
            }
            let (k, room, count) = (numbers[0] as usize, numbers[1] as usize, numbers[2] as usize);
            let rest = &numbers[3..];
            if count > rest.len() {
                return None;
            }
            let (triples, row) = rest.split_at(count);
            Some(explain(k, room, triples, row))
        }
        "figure" => {
            let numbers = numbers(&words[1..])?;
            let (k, row) = numbers.split_first()?;
            Some(figure(*k as usize, row))
        }
        "figures" => {
            let numbers = numbers(&words[1..])?;
            if numbers.len() < 2 {
                return None;
            }
            Some(figures(numbers[0] as usize, numbers[1] as usize, &numbers[2..]))
        }
        "slack" => {
            let numbers = numbers(&words[1..])?;
            if numbers.len() < 2 {
                return None;
            }
            Some(slack(numbers[0] as usize, numbers[1] as usize, &numbers[2..]))
        }
        "second" => {
            let numbers = numbers(&words[1..])?;
            if numbers.len() < 2 {
                return None;
            }
            Some(second(numbers[0] as usize, numbers[1] as usize, &numbers[2..]))
        }
        "where" => {
            let numbers = numbers(&words[1..])?;
            if numbers.len() < 2 {
                return None;
            }
            Some(place(numbers[0] as usize, numbers[1] as usize, &numbers[2..]))
        }
        _ => None,
    }
}

/// The plan that a question is about, good or not, if its file or row has the form of one.
pub fn plan_of_question(line: &str) -> Option<Plan> {
    let words: Vec<&str> = line.split(' ').collect();
    if words[0] == "read" {
        return plan_of_file(&bytes_of_hex(words.get(2)?)?).ok();
    }
    let numbers = numbers(&words[1..])?;
    let before = match words[0] {
        "write" | "figure" => 1,
        "replay" => 2 + *numbers.get(1)? as usize,
        "verdict" => 3,
        "explain" => 3 + *numbers.get(2)? as usize,
        "slack" | "second" | "where" | "figures" => 2,
        _ => return None,
    };
    plan_of_row(numbers.get(before..)?).ok()
}

/// "Numbers are decimals": digits and nothing else, without needless zeros, and a 16-bit number.
fn number(word: &str) -> Option<u16> {
    if word.is_empty() || !word.bytes().all(|byte| byte.is_ascii_digit()) {
        return None;
    }
    if word.len() > 1 && word.starts_with('0') {
        return None;
    }
    word.parse().ok()
}

fn numbers(words: &[&str]) -> Option<Vec<u16>> {
    words.iter().map(|word| number(word)).collect()
}

/// "bytes are pairs of hexadecimal digits in one word (`-` where there are none)".
fn bytes_of_hex(word: &str) -> Option<Vec<u8>> {
    if word == "-" {
        return Some(Vec::new());
    }
    if word.is_empty() || word.len() % 2 != 0 {
        return None;
    }
    if !word.bytes().all(|byte| matches!(byte, b'0'..=b'9' | b'a'..=b'f')) {
        return None;
    }
    (0..word.len()).step_by(2).map(|at| u8::from_str_radix(&word[at..at + 2], 16).ok()).collect()
}

pub fn hex_of_bytes(bytes: &[u8]) -> String {
    if bytes.is_empty() {
        return String::from("-");
    }
    bytes.iter().map(|byte| format!("{:02x}", byte)).collect()
}

/// The numbers, each with a space before it.
pub fn spaced(numbers: &[u16]) -> String {
    let mut text = String::new();
    for number in numbers {
        text.push(' ');
        text += &number.to_string();
    }
    text
}

/// "A refusal is `refused N place P`; with [1] those of a path are `refused N place MESSAGE PLACE
/// STEP`."
fn refused(refusal: Refusal) -> String {
    refusal.to_string()
}

/// "Behind any answer stands ` spoilt` if a number of the lent buffer outside the
/// written part is not as it was (after a refusal: any number)."
fn with_spoilt<T: PartialEq>(answer: String, buffer: &[T], written: usize, before: T) -> String {
    if buffer[written..].iter().all(|number| *number == before) {
        answer
    } else {
        answer + " spoilt"
    }
}

fn read(room: usize, file: &[u8]) -> String {
    let mut buffer = vec![NUMBER_BEFORE; room];
    let (text, written) = match questions::read(file, &mut buffer) {
        Err(refusal) => (refused(refusal), 0),
        Ok(count) => (format!("ok {}{}", count, spaced(&buffer[..count])), count),
    };
    with_spoilt(text, &buffer, written, NUMBER_BEFORE)
}

fn write(room: usize, row: &[u16]) -> String {
    let mut buffer = vec![BYTE_BEFORE; room];
    let (text, written) = match questions::write(row, &mut buffer) {
        Err(refusal) => (refused(refusal), 0),
        Ok(count) => (format!("ok {} {}", count, hex_of_bytes(&buffer[..count])), count),
    };
    with_spoilt(text, &buffer, written, BYTE_BEFORE)
}

fn replay(room: usize, cuts: &[u16], row: &[u16]) -> String {
    let mut buffer = vec![NUMBER_BEFORE; room];
    let (text, written) = match questions::replay(row, cuts, &mut buffer) {
        Err(refusal) => (refused(refusal), 0),
        Ok((arrivals, written)) => {
            (format!("ok {}{}", arrivals, spaced(&buffer[..written])), written)
        }
    };
    with_spoilt(text, &buffer, written, NUMBER_BEFORE)
}

fn verdict(k: usize, l: usize, room: usize, row: &[u16]) -> String {
    let mut buffer = vec![NUMBER_BEFORE; room];
    let (text, written) = match questions::verdict(row, k, l, &mut buffer) {
        Err(refusal) => (refused(refusal), 0),
        Ok(None) => (String::from("ok resistant"), 0),
        Ok(Some(pairs)) => {
            (format!("ok failing {}{}", pairs, spaced(&buffer[..2 * pairs])), 2 * pairs)
        }
    };
    with_spoilt(text, &buffer, written, NUMBER_BEFORE)
}

/// "`ok unexplained`, or `ok list PAIRS NUMBERS...`".
fn explain(k: usize, room: usize, triples: &[u16], row: &[u16]) -> String {
    let mut buffer = vec![NUMBER_BEFORE; room];
    let (text, written) = match questions::explain(row, k, triples, &mut buffer) {
        Err(refusal) => (refused(refusal), 0),
        Ok(None) => (String::from("ok unexplained"), 0),
        Ok(Some(pairs)) => {
            (format!("ok list {}{}", pairs, spaced(&buffer[..2 * pairs])), 2 * pairs)
        }
    };
    with_spoilt(text, &buffer, written, NUMBER_BEFORE)
}

/// "`ok FIGURE`, the least number of arrivals".
fn figure(k: usize, row: &[u16]) -> String {
    match questions::figure(row, k) {
        Err(refusal) => refused(refusal),
        Ok(figure) => format!("ok {}", figure),
    }
}

/// "`ok COUNT F0 F1 .. FK`".
fn figures(k: usize, room: usize, row: &[u16]) -> String {
    let mut buffer = vec![NUMBER_BEFORE; room];
    let (text, written) = match questions::figures(row, k, &mut buffer) {
        Err(refusal) => (refused(refusal), 0),
        Ok(count) => (format!("ok {}{}", count, spaced(&buffer[..count])), count),
    };
    with_spoilt(text, &buffer, written, NUMBER_BEFORE)
}

fn slack(m: usize, place: usize, row: &[u16]) -> String {
    match questions::slack(row, m, place) {
        Err(refusal) => refused(refusal),
        Ok(slack) => format!("ok {}", slack),
    }
}

fn second(m: usize, place: usize, row: &[u16]) -> String {
    let part = questions::second(row, m, place);
    format!("part {}{}", part.len(), spaced(part))
}

/// "`at INDEX LENGTH`: where in the row the shown part begins (`at 0 0` where there is none)".
fn place(m: usize, place: usize, row: &[u16]) -> String {
    let (index, length) = questions::place_of_second(row, m, place);
    format!("at {} {}", index, length)
}
