//! The comparison of another program with this one: by the probe's lines, and by
//! what the programs print.

use crate::lines;
use crate::probe;
use crate::cases::{
    deep_case, explain_case, question, replay_case, verdict_case, Made, ProgramCase, QUESTIONS,
};
use crate::shelf::{by_text, open_in, shelf_program};
use crate::shelves::shelf_case;
use std::ffi::OsStr;
use std::io::{BufRead, BufReader, BufWriter, Read, Write};
use std::os::unix::ffi::OsStrExt;
use std::os::unix::fs::PermissionsExt;
use std::path::{Path, PathBuf};
use std::process::{Child, Command, Stdio};
use std::time::{Duration, Instant};

/// Says on standard error how far it is, at most once a second.
struct Progress {
    what: String,
    last: Instant,
}

impl Progress {
    fn new(what: String) -> Progress {
        Progress { what, last: Instant::now() }
    }

    fn at(&mut self, case: u64, of: u64) {
        if self.last.elapsed() >= Duration::from_secs(1) {
            eprintln!("{}: case {} of {}", self.what, case, of);
            self.last = Instant::now();
        }
    }
}

/// A command named by a path is found from where this program was started, also if
/// it is then run elsewhere.
fn command_of(words: &[String]) -> Command {
    let mut name = PathBuf::from(&words[0]);
    if words[0].contains('/') {
        if let Ok(here) = std::env::current_dir() {
            name = here.join(name);
        }
    }
    let mut command = Command::new(name);
    command.args(&words[1..]);
    command
}

fn started(command: &mut Command) -> Result<Child, String> {
    command.spawn().map_err(|error| format!("cannot start {:?}: {}", command, error))
}

fn shortened(text: &str) -> String {
    if text.len() <= 4000 {
        text.to_string()
    } else {
        let head: String = text.chars().take(4000).collect();
        format!("{} ... ({} bytes in all)", head, text.len())
    }
}

/// Where two answers first differ, by words.
fn first_difference(own: &str, other: &str) -> String {
    let own: Vec<&str> = own.split(' ').collect();
    let other: Vec<&str> = other.split(' ').collect();
    let at = (0..).find(|at| own.get(*at) != other.get(*at)).unwrap();
    format!("first different word (from 0): {}: {:?} and {:?}", at, own.get(at), other.get(at))
}

/// Asks a child all the questions and compares each answer. True if all were equal.
pub fn compare(seed: u64, number: u64, without: &[String], words: &[String]) -> Result<bool, String> {
    let mut command = command_of(words);
    let mut child = started(command.stdin(Stdio::piped()).stdout(Stdio::piped()))?;
    let child_input = child.stdin.take().unwrap();
    let mut child_output = BufReader::new(child.stdout.take().unwrap());

    // The questions are written by a thread of their own, so that neither side can
    // wait for the other; the loop below makes each of them again.
    let for_thread = without.to_vec();
    let writer = std::thread::spawn(move || {
        let mut child_input = BufWriter::new(child_input);
        for case in 0..number {
            let (_, line) = question(seed, case, &for_thread);
            if writeln!(child_input, "{}", line).is_err() {
                return; // The child has ended; the loop below will say so.
            }
        }
        let _ = child_input.flush();
    });

    let mut counts = vec![0; QUESTIONS.len()];
    let mut progress = Progress::new(format!("compare, seed {}", seed));
    let mut difference = None;
    for case in 0..number {
        progress.at(case, number);
        let (name, line) = question(seed, case, without);
        counts[QUESTIONS.iter().position(|other| *other == name).unwrap()] += 1;
        let own = probe::answer(line.as_bytes());
        let mut other = Vec::new();
        let read = child_output.read_until(b'\n', &mut other);
        let ended = read.is_err() || other.last() != Some(&b'\n');
        let other = String::from_utf8_lossy(&other).trim_end_matches('\n').to_string();
        if ended || other != own {
            let note = if ended {
                String::from("the other program ended before this answer's line feed")
            } else {
                first_difference(&own, &other)
            };
            difference = Some(format!(
                "seed {} case {}\n{}\nquestion: {}\nown answer:   {}\nother answer: {}",
                seed,
                case,
                note,
                line,
                shortened(&own),
                shortened(&other)
            ));
            break;
        }
    }
    if difference.is_none() {
        writer.join().unwrap();
        let mut more = Vec::new();
        let _ = child_output.read_to_end(&mut more);
        if !more.is_empty() {
            let more = shortened(&String::from_utf8_lossy(&more));
            difference = Some(format!("seed {}: more after the last answer: {}", seed, more));
        }
    }
    if let Some(text) = difference {
        let _ = child.kill();
        let _ = child.wait();
        println!("DIFFERENT\n{}", text);
        return Ok(false);
    }
    if let Ok(status) = child.wait() {
        if !status.success() {
            eprintln!("note: the other program ended with {}", status);
        }
    }
    let counts: Vec<String> = QUESTIONS
        .iter()
        .zip(&counts)
        .filter(|(_, count)| **count > 0)
        .map(|(name, count)| format!("{} {}", name, count))
        .collect();
    println!("compared {} cases of seed {}: equal ({})", number, seed, counts.join(", "));
    Ok(true)
}

/// The cases of a program, by its name.
fn program_case(name: &str, seed: u64, case: u64) -> ProgramCase {
    match name {
        "verdict" => verdict_case(seed, case),
        "deep" => deep_case(seed, case),
        "explain" => explain_case(seed, case),
        "shelf" => shelf_case(seed, case),
        _ => replay_case(seed, case),
    }
}

/// What the program of this name prints in the folder of a case, the program `shelf` where names are
/// text.
fn program_text(name: &str, folder: &Path, input: &[u8]) -> Vec<u8> {
    if name == "shelf" {
        return shelf_program(input, &by_text(&|name| open_in(folder, name)));
    }
    let file = open_in(folder, b"plan.bin"); // "a missing file counts as empty"
    let text = match name {
        "verdict" => lines::verdict_program(&file),
        "deep" => lines::deep_program(&file),
        "explain" => lines::explain_program(&file, input),
        _ => lines::replay_program(&file, input),
    };
    text.into_bytes()
}

fn make_folder(folder: &Path, case: &ProgramCase) -> Result<(), String> {
    let tell = |error: std::io::Error| format!("{}: {}", folder.display(), error);
    std::fs::create_dir_all(folder).map_err(tell)?;
    for (name, made) in &case.files {
        let path = folder.join(OsStr::from_bytes(name));
        match made {
            Made::Folder => std::fs::create_dir_all(path).map_err(tell)?,
            Made::File(_) | Made::Closed(_) => {
                std::fs::create_dir_all(path.parent().unwrap()).map_err(tell)?;
                std::fs::write(&path, made.content()).map_err(tell)?;
                if matches!(made, Made::Closed(_)) {
                    let nobody = std::fs::Permissions::from_mode(0);
                    std::fs::set_permissions(path, nobody).map_err(tell)?;
                }
            }
        }
    }
    std::fs::write(folder.join("stdin"), &case.input).map_err(tell)
}

/// Runs a command in a folder for each case and compares what it prints, byte for
/// byte. True if all were equal.
pub fn compare_program(
    name: &str,
    seed: u64,
    number: u64,
    root: Option<String>,
    words: &[String],
) -> Result<bool, String> {
    let root = root.map_or_else(std::env::temp_dir, PathBuf::from);
    let mut progress = Progress::new(format!("compare-program {}, seed {}", name, seed));
    let mut refused = 0;
    for index in 0..number {
        progress.at(index, number);
        let case = program_case(name, seed, index);
        let folder =
            root.join(format!("oracle-{}-{}-{}-{:06}", std::process::id(), name, seed, index));
        make_folder(&folder, &case)?;
        let own = program_text(name, &folder, &case.input);
        let mut command = command_of(words);
        command.current_dir(&folder).stdin(Stdio::piped()).stdout(Stdio::piped());
        let mut child = started(&mut command)?;
        let mut child_input = child.stdin.take().unwrap();
        let input = case.input.clone();
        let writer = std::thread::spawn(move || {
            let _ = child_input.write_all(&input); // a program need not read it
        });
        let output = child.wait_with_output().map_err(|error| error.to_string())?;
        writer.join().unwrap();
        if output.stdout != own {
            std::fs::write(folder.join("own"), &own).map_err(|error| error.to_string())?;
            std::fs::write(folder.join("other"), &output.stdout)
                .map_err(|error| error.to_string())?;
            let own = String::from_utf8_lossy(&own).to_string();
            let own_lines: Vec<&str> = own.split('\n').collect();
            let other = String::from_utf8_lossy(&output.stdout).to_string();
            let other_lines: Vec<&str> = other.split('\n').collect();
            let line = (0..own_lines.len().max(other_lines.len()))
                .find(|line| own_lines.get(*line) != other_lines.get(*line));
            println!("DIFFERENT\n{} program, seed {} case {}", name, seed, index);
            println!("folder (stdin, own, other): {}", folder.display());
            if let Some(line) = line {
                println!("line {} (from 0)", line);
                println!("own:   {:?}", own_lines.get(line));
                println!("other: {:?}", other_lines.get(line));
            }
            return Ok(false);
        }
        // A refusal stands alone; a sheet may begin with one of a plan.
        if own.starts_with(b"refused") && own.iter().filter(|byte| **byte == b'\n').count() == 1 {
            refused += 1;
        }
        std::fs::remove_dir_all(&folder).map_err(|error| error.to_string())?;
    }
    println!(
        "compared {} cases of seed {} with the {} program: equal ({} of them refused)",
        number, seed, name, refused
    );
    Ok(true)
}

/// A name of a list of files, in which %20 and the like stand for bytes.
fn unescaped(name: &str) -> Option<Vec<u8>> {
    let mut parts = name.split('%');
    let mut bytes = parts.next()?.as_bytes().to_vec();
    for part in parts {
        bytes.push(u8::from_str_radix(part.get(..2)?, 16).ok()?);
        bytes.extend(part[2..].bytes());
    }
    Some(bytes)
}

/// A stored case of the program `shelf` (tests/run-stored says of what it is made); its sources are
/// found from here.
fn stored_shelf(folder: &Path) -> Result<ProgramCase, String> {
    let read = |path: &Path| std::fs::read(path).map_err(|e| format!("{}: {}", path.display(), e));
    let mut files = Vec::new();
    let list = std::fs::read_to_string(folder.join("files")).unwrap_or_default();
    for line in list.lines() {
        let mut words = line.split(' ');
        let name = words.next().and_then(unescaped).ok_or(format!("{}: no name", line))?;
        let sources: Result<Vec<Vec<u8>>, String> = words.map(|word| read(Path::new(word))).collect();
        let made = if name.ends_with(b"/") { Made::Folder } else { Made::File(sources?.concat()) };
        files.push((name, made));
    }
    let input = std::fs::read(folder.join("stdin")).unwrap_or_default();
    Ok(ProgramCase { files, input })
}

/// Shows the stored cases of the program `shelf`: the input, how its files are opened, and what is
/// printed where names are text: `stdout-text`, or `stdout` where there is none. An error if this
/// program prints something else, also where names are any bytes, which is `stdout`.
pub fn stored_shelves(
    folder: &str,
    show: &mut dyn FnMut(&[u8], &dyn Fn(&[u8]) -> Vec<u8>, &[u8]),
) -> Result<(), String> {
    let tell = |error: std::io::Error| format!("{}: {}", folder, error);
    let made = std::env::temp_dir().join(format!("oracle-{}-stored", std::process::id()));
    for entry in std::fs::read_dir(folder).map_err(tell)? {
        let stored = entry.map_err(tell)?.path();
        let case = stored_shelf(&stored)?;
        make_folder(&made, &case)?;
        let open = |name: &[u8]| open_in(&made, name);
        let of_bytes = std::fs::read(stored.join("stdout")).map_err(tell)?;
        let of_text = match stored.join("stdout-text") {
            path if path.exists() => std::fs::read(path).map_err(tell)?,
            _ => of_bytes.clone(),
        };
        if shelf_program(&case.input, &open) != of_bytes
            || shelf_program(&case.input, &by_text(&open)) != of_text
        {
            return Err(format!("{}: another sheet is stored", stored.display()));
        }
        show(&case.input, &open, &of_text);
        std::fs::remove_dir_all(&made).map_err(tell)?;
    }
    Ok(())
}

/// Makes a folder for each case, with plan.bin (or none) or the files of a shelf, stdin, and what
/// the program of this name prints in the file `expected`.
pub fn files(name: &str, seed: u64, number: u64, folder: &str) -> Result<(), String> {
    for index in 0..number {
        let case = program_case(name, seed, index);
        let folder = Path::new(folder).join(format!("{:06}", index + 1));
        make_folder(&folder, &case)?;
        std::fs::write(folder.join("expected"), program_text(name, &folder, &case.input))
            .map_err(|error| error.to_string())?;
    }
    Ok(())
}
