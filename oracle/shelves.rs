//! Random shelves for [2]: plan files of every kind under names of every kind, and the lines that
//! name them, too many, too long and empty ones too.

use crate::bad::{any_file, plan_that_breaks};
use crate::cases::{plan_for_figure, search_is_quick, Made, ProgramCase};
use crate::good::ORDER;
use crate::lines::highest_k;
use crate::plan::{file_of, Plan};
use crate::questions::good_plan_of_file;
use crate::random::{good_plan, plan_for_verdict, Random, Size};
use crate::shelf::{LONGEST_NAME, MOST_NAMES};

// ------------------------------------------------------------------------ plan files

/// Whether all figures of a plan are found after at most so many replays.
fn is_quick(plan: &Plan, replays: usize) -> bool {
    search_is_quick(plan, highest_k(plan), 1, replays)
}

/// A good plan whose figures are quick to find.
fn quick_plan(r: &mut Random, replays: usize) -> Plan {
    loop {
        let mut plan = match r.below(20) {
            0..=12 => plan_for_figure(r, 24),
            13 => good_plan(r, Size::Tiny),
            14 => good_plan(r, Size::Small),
            15 => good_plan(r, Size::Middle),
            _ => plan_for_verdict(r, 64),
        };
        if r.percent(25) {
            // E x t 64 or just below, or the next above it.
            let last = plan.messages.iter().flat_map(|m| &m.places).map(|place| place.slot).max();
            let most = 64 / plan.links.len();
            plan.timeout = (most + r.below(2)).clamp(last.unwrap() + 1, 64);
        }
        if is_quick(&plan, replays) {
            return plan;
        }
    }
}

/// What a plan file holds: a good plan, or something refused for any reason.
fn content(r: &mut Random, replays: usize) -> Vec<u8> {
    match r.below(24) {
        0 => Vec::new(),
        1 => {
            // A byte too many, or too few.
            let mut file = file_of(&quick_plan(r, replays));
            if r.percent(50) {
                file.push(*r.pick(&[0, 1, 255]));
            } else {
                file.pop();
            }
            file
        }
        2 => {
            // Edition 2, and others.
            let mut file = file_of(&quick_plan(r, replays));
            file[0] = file[0] & 15 | *r.pick(&[0x20, 0x20, 0x30, 0x00, 0xF0]);
            file
        }
        3..=6 => {
            let number = *r.pick(&ORDER);
            file_of(&plan_that_breaks(r, number, Size::Tiny))
        }
        7 => loop {
            let file = any_file(r, Size::Tiny, 0);
            if good_plan_of_file(&file).map_or(true, |plan| is_quick(&plan, replays)) {
                return file;
            }
        },
        _ => file_of(&quick_plan(r, replays)),
    }
}

// ------------------------------------------------------------------------------ names

/// A name of exactly so many bytes, in folders where one alone would be too long for a file system.
fn long_name(r: &mut Random, length: usize) -> Vec<u8> {
    let mut name = vec![*r.pick(b"abcxyz"); length];
    if r.percent(60) || length > 255 {
        for at in (r.between(1, 200)..length.saturating_sub(1)).step_by(r.between(2, 200)) {
            name[at] = b'/';
        }
    }
    name
}

/// A name for a file that is to be there.
fn name_of_file(r: &mut Random) -> Vec<u8> {
    let names: [&[u8]; 40] = [
        b"plan.bin", b"a", b"b", b"A", b"0", b"-", b"--", b"a.bin", b"b.bin", b"mill 3.bin",
        b" a", b"a ", b"  ", b" ", b"a\r", b"plan.bin\r", b"\r", b"\t", b"a\tb", b"m\xfchle.bin",
        b"\xff\xfe", b"\x80", b"M\xc3\xbchle 7", b"\x01", b"\x7f", b"mills/north/3.bin", b"mills/b",
        b"mills/a b/\xe4", b"n/n/n/n/n/n/n/n", b"refused 2 place 0", b"0 0 0", b"2 1 0 0 a",
        b"%20", b"\\", b"'", b"\"", b"$HOME", b"*", b"...", b".hidden",
    ];
    match r.below(12) {
        0 => {
            let length = *r.pick(&[1, 2, 254, 255]);
            long_name(r, length)
        }
        1 => (0..r.between(1, 20)).map(|_| *r.pick(b"abc019-_. \x80\xff\r")).collect(),
        _ => r.pick(&names).to_vec(),
    }
}

/// A name that stands for no file: missing, a folder, with a byte 0, a file taken for a folder.
fn name_of_none(r: &mut Random, files: &[(Vec<u8>, Made)]) -> Vec<u8> {
    let mut name = r.pick(files).0.clone();
    match r.below(10) {
        0 => name.push(b'\r'),
        1 => name.push(b'/'),
        2 => name.push(0),
        3 => {
            let at = r.below(name.len() + 1);
            name.insert(at, 0);
        }
        4 => name.insert(0, b' '),
        5 => name = r.pick(&[&b"folder"[..], b"folder/", b".", b"..", b"./", b"mills", b"/"]).to_vec(),
        6 => name.extend(b"/a"),
        7 => {
            let length = *r.pick(&[1, 2, 254, 255]);
            name = long_name(r, length);
        }
        8 => name = vec![0; r.between(1, 3)],
        _ => name = r.pick(&[&b"missing"[..], b"no such folder/a", b"PLAN.BIN", b"/dev/null"]).to_vec(),
    }
    name
}

/// A name of a file, sometimes in another way that leads there too; the last one is a folder.
fn name_to_open(r: &mut Random, files: &[(Vec<u8>, Made)]) -> Vec<u8> {
    let name = &files[r.below(files.len() - 1)].0;
    match r.below(30) {
        0 => [b"./", &name[..]].concat(),
        1 => [b"folder/../", &name[..]].concat(),
        2 => [b".//", &name[..]].concat(),
        _ => name.clone(),
    }
}

// ---------------------------------------------------------------------------- shelves

/// How many names there are.
fn number_of_names(r: &mut Random) -> usize {
    match r.below(40) {
        0 => 0,
        1..=4 => 1,
        5 => MOST_NAMES - 1,
        6 => MOST_NAMES,
        7 => MOST_NAMES + 1,
        8 => MOST_NAMES + r.between(2, 60),
        9..=12 => r.between(10, 60),
        _ => r.between(2, 9),
    }
}

/// A line that is no name, or just still one.
fn other_line(r: &mut Random) -> Vec<u8> {
    match r.below(10) {
        0..=3 => Vec::new(),
        4 => long_name(r, LONGEST_NAME - 1),
        5 => long_name(r, LONGEST_NAME),
        6 => vec![b'a'; LONGEST_NAME + 1],
        7 => long_name(r, 300),
        8 => vec![0xff; r.between(LONGEST_NAME + 1, 600)],
        _ => {
            let length = *r.pick(&[256, 257, 511, 512, 4096, 65535, 65536, 70000]);
            vec![*r.pick(b"a/ \0\r"); length]
        }
    }
}

/// A shelf, by its seed and index.
pub fn shelf_case(seed: u64, case: u64) -> ProgramCase {
    let mut random = Random::of_case(seed ^ 0x7368656C66, case);
    let r = &mut random;
    let number = number_of_names(r);
    let replays = if number > 9 { 60 } else { 2000 };
    let mut files: Vec<(Vec<u8>, Made)> = Vec::new();
    let wanted = r.between(1, if number > 9 { 4 } else { 8 });
    while files.len() < wanted {
        let name = name_of_file(r);
        // No file where another one or its folder is.
        let apart = |(other, _): &(Vec<u8>, Made)| {
            let (name, other) = ([&name[..], b"/"].concat(), [&other[..], b"/"].concat());
            !name.starts_with(&other) && !other.starts_with(&name)
        };
        let bare = name.split(|byte| *byte == b'/').all(|part| part != b"." && part != b"..");
        if bare && files.iter().all(apart) {
            let content = content(r, replays);
            let closed = r.percent(2);
            files.push((name, if closed { Made::Closed(content) } else { Made::File(content) }));
        }
    }
    files.push((b"folder".to_vec(), Made::Folder));
    let mut lines: Vec<Vec<u8>> = (0..number)
        .map(|_| if r.percent(12) { name_of_none(r, &files) } else { name_to_open(r, &files) })
        .collect();
    if number > 0 && r.percent(3) {
        // The longest names there can be.
        lines.iter_mut().for_each(|line| *line = long_name(r, LONGEST_NAME));
    }
    if r.percent(if number > MOST_NAMES { 85 } else { 20 }) {
        for _ in 0..*r.pick(&[1, 1, 1, 2, 3]) {
            let line = other_line(r);
            let last = number > MOST_NAMES && r.percent(50);
            let at = if last { lines.len() } else { r.place_below(lines.len() + 1) };
            lines.insert(at, line);
        }
    }
    let mut input = lines.join(&b'\n');
    if !lines.is_empty() && r.percent(70) {
        input.push(b'\n');
    }
    ProgramCase { files, input }
}
