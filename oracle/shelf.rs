//! Document 02, request [2], "Worst figures for a shelf of plans": the names, and the sheet that the
//! program `shelf` prints.

use crate::figures::figures;
use crate::lines::highest_k;
use crate::plan::{refusal, Refusal};
use crate::questions::good_plan_of_file;
use std::ffi::OsStr;
use std::os::unix::ffi::OsStrExt;
use std::path::Path;

/// "names of plan files, one a line, at most 250".
pub const MOST_NAMES: usize = 250;
/// "each of 1 to 255 bytes".
pub const LONGEST_NAME: usize = 255;
/// "for those k that the verdict program prints".
const HIGHEST_K: usize = 3;

/// 24: "a name of another length, or a name too many, is 24 with its line". What stands behind the
/// last line feed, if anything, is a name too; nothing at all is no name.
pub fn names_of(input: &[u8]) -> Result<Vec<&[u8]>, Refusal> {
    let mut names = Vec::new();
    for (line, name) in input.split_inclusive(|byte| *byte == b'\n').enumerate() {
        let name = name.strip_suffix(b"\n").unwrap_or(name);
        if line >= MOST_NAMES || name.is_empty() || name.len() > LONGEST_NAME {
            return Err(refusal(24, line));
        }
        names.push(name);
    }
    Ok(names)
}

/// What is told of a plan: how many messages it has and its figures for k 0, 1, .. as far as the
/// verdict program goes; or its refusal.
pub type Told = Result<(usize, Vec<usize>), Refusal>;

pub fn told_of_file(file: &[u8]) -> Told {
    let plan = good_plan_of_file(file)?;
    Ok((plan.messages.len(), figures(&plan, highest_k(&plan))))
}

/// What is printed of a plan before its name: "the figures [...] parted by single spaces, or the
/// plan's refusal exactly as it is printed elsewhere".
pub fn words_of(told: &Told) -> String {
    match told {
        Err(refusal) => refusal.to_string(),
        Ok((_, figures)) => {
            let words: Vec<String> = figures.iter().map(|figure| figure.to_string()).collect();
            words.join(" ")
        }
    }
}

/// "for each k, how many plans with a figure for it lose nothing and the exact sum of losses, a
/// loss being M less the figure". "A plan that is refused [...] counts in no sum."
pub fn totals(shelf: &[Told]) -> Vec<(usize, usize)> {
    let losses_for = |k: usize| {
        let plans = shelf.iter().flatten();
        plans.filter_map(move |(messages, figures)| Some(messages - figures.get(k)?))
    };
    (0..=HIGHEST_K)
        .map(|k| (losses_for(k).filter(|loss| *loss == 0).count(), losses_for(k).sum()))
        .collect()
}

/// The sheet: a line for each plan, then a line for each k.
pub fn sheet(names: &[&[u8]], shelf: &[Told]) -> Vec<u8> {
    let mut text = Vec::new();
    for (name, told) in names.iter().zip(shelf) {
        text.extend(words_of(told).bytes());
        text.push(b' ');
        text.extend(*name);
        text.push(b'\n');
    }
    for (k, (nothing_lost, losses)) in totals(shelf).iter().enumerate() {
        text.extend(format!("{} {} {}\n", k, nothing_lost, losses).bytes());
    }
    text
}

/// What the program `shelf` prints for a standard input and for files as `open` finds them.
pub fn shelf_program(input: &[u8], open: &dyn Fn(&[u8]) -> Vec<u8>) -> Vec<u8> {
    match names_of(input) {
        // "and then no plan is read"
        Err(refusal) => format!("{}\n", refusal).into_bytes(),
        Ok(names) => {
            let shelf: Vec<Told> = names.iter().map(|name| told_of_file(&open(name))).collect();
            sheet(&names, &shelf)
        }
    }
}

/// A file by its name, from this folder; one that is missing or cannot be read counts as empty.
pub fn open_in(folder: &Path, name: &[u8]) -> Vec<u8> {
    std::fs::read(folder.join(OsStr::from_bytes(name))).unwrap_or_default()
}

/// Files for a program that opens them by text alone: one whose name is no UTF-8 counts as empty.
/// [2] has no such rule (README.md, "Names that are text").
pub fn by_text<'a>(open: &'a dyn Fn(&[u8]) -> Vec<u8>) -> impl Fn(&[u8]) -> Vec<u8> + 'a {
    move |name| match std::str::from_utf8(name) {
        Ok(_) => open(name),
        Err(_) => Vec::new(),
    }
}
