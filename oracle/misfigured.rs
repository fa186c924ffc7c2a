//! Plausible wrong ways to find the figures of a plan and to print a sheet of them (document 02, [2]),
//! and questions and shelves that show them: each answers beside the right way, and where the two
//! differ the question is worth keeping. No answer of this program comes from this file.

use crate::cases::plan_for_figure;
use crate::cuts::{cable_names, is_cut, pair_cuts, Pair};
use crate::cycle::{at_target, cycle, one_slot, start, Position};
use crate::figures::figures;
use crate::plan::{plan_of_file, refusal, row_of, Plan};
use crate::probe::spaced;
use crate::questions::good_plan_of_row;
use crate::random::{good_plan, number_of_pairs, Random, Size};
use crate::shelf::{by_text, totals, words_of, Told, LONGEST_NAME, MOST_NAMES};
use crate::verdict::{every_list, failing_list};

// ---------------------------------------------------------------------------- figures

#[derive(Clone, Copy, PartialEq, Debug)]
pub enum Way {
    // The turns of the game.
    /// The network moves first: a cut picked in slot i is in force from slot i + 1 on.
    AfterTheNetwork,
    /// The breaker has no turn in the last slot.
    NotInTheLastSlot,
    /// The network does not move in the last slot.
    OneSlotShort,

    // What the breaker may pick.
    /// Cuts in slot 0 alone.
    SlotZero,
    /// One cut a slot at most.
    OneASlot,
    /// No more cuts after the first slot with one.
    OneSlotAlone,
    /// k slots in which anything is cut.
    SlotsCount,
    /// k cuts in each slot.
    KASlot,
    /// Exactly k cuts; all arrive where there are fewer cables.
    ExactlyK,
    /// Links rise over the whole list, not within a slot.
    LinksRise,
    /// Cables of first paths alone.
    FirstPathsAlone,
    /// The worst list of one cut fewer, and the cut that does the most harm to it.
    Greedy,

    // What counts.
    /// A link is cut in its slot alone.
    CutsHeal,
    /// The messages that no list loses, each looked at for itself.
    EachForItself,
    /// Each of k cuts loses what one loses.
    LossesAdd,
    /// The arrivals of the list that the verdict for l = M gives.
    FirstFailing,
    /// How many are lost.
    LossNotFigure,
}

/// By their names, and within how many questions of a seed each is found.
pub const WRONG: [(Way, &str, u64); 17] = [
    (Way::AfterTheNetwork, "after-the-network", 50),
    (Way::NotInTheLastSlot, "not-in-the-last-slot", 300),
    (Way::OneSlotShort, "one-slot-short", 50),
    (Way::SlotZero, "cuts-in-slot-zero", 300),
    (Way::OneASlot, "one-a-slot", 300),
    (Way::OneSlotAlone, "one-slot-alone", 1500),
    (Way::SlotsCount, "slots-count", 50),
    (Way::KASlot, "k-a-slot", 50),
    (Way::ExactlyK, "exactly-k", 100),
    (Way::LinksRise, "links-rise", 1500),
    (Way::FirstPathsAlone, "links-of-first-paths", 50),
    (Way::Greedy, "greedy", 300),
    (Way::CutsHeal, "cuts-heal", 300),
    (Way::EachForItself, "each-for-itself", 50),
    (Way::LossesAdd, "losses-add", 50),
    (Way::FirstFailing, "first-failing", 50),
    (Way::LossNotFigure, "loss-not-figure", 50),
];

/// The least of `arrivals` over the lists of at most k pairs that `may` be.
fn least(
    plan: &Plan,
    k: usize,
    may: impl Fn(&[Pair]) -> bool,
    arrivals: impl Fn(&[Pair]) -> usize,
) -> usize {
    let mut least = plan.messages.len();
    for pairs in 0..=k {
        every_list(plan, pairs, &mut |list| {
            if may(list) {
                least = least.min(arrivals(list));
            }
            true
        });
    }
    least
}

/// How many are at their targets after so many slots, if `in_force` says which cuts there are in one.
fn played(plan: &Plan, slots: usize, in_force: impl Fn(usize) -> Vec<Pair>) -> usize {
    let mut positions = start(plan);
    for slot in 0..slots {
        positions = one_slot(plan, &in_force(slot), slot, &positions).0;
    }
    arrived(plan, &positions)
}

fn arrived(plan: &Plan, positions: &[Position]) -> usize {
    (0..positions.len()).filter(|m| at_target(plan, *m, positions[*m])).count()
}

/// The game with k cuts in each slot: what it ends with from this slot and these positions on.
fn k_a_slot(
    plan: &Plan,
    k: usize,
    slot: usize,
    positions: &[Position],
    cuts: &mut Vec<Pair>,
    from_name: usize,
    left: usize,
) -> usize {
    let next = one_slot(plan, cuts, slot, positions).0;
    let mut least = if slot + 1 == plan.timeout {
        arrived(plan, &next)
    } else {
        k_a_slot(plan, k, slot + 1, &next, cuts, 0, k)
    };
    for name in cable_names(plan) {
        if least == 0 || left == 0 {
            break;
        }
        if name >= from_name && !is_cut(plan, cuts, slot, name) {
            cuts.push((slot, name));
            least = least.min(k_a_slot(plan, k, slot, positions, cuts, name + 1, left - 1));
            cuts.pop();
        }
    }
    least
}

/// The worst list of n cuts that begins with the worst of n - 1, for n up to k: the least it leaves.
fn greedy(plan: &Plan, k: usize) -> usize {
    let mut list: Vec<Pair> = Vec::new();
    let mut least = plan.messages.len();
    for _ in 0..k.min(cable_names(plan).len()) {
        let mut longer: Vec<Vec<Pair>> = Vec::new();
        every_list(plan, 1, &mut |one| {
            if list.iter().all(|(_, link)| *link != one[0].1) {
                let mut with = [&list[..], one].concat();
                with.sort();
                longer.push(with);
            }
            true
        });
        list = longer.into_iter().min_by_key(|list| cycle(plan, list).arrivals).unwrap();
        least = least.min(cycle(plan, &list).arrivals);
    }
    least
}

/// What this way answers.
pub fn figure(way: Way, plan: &Plan, k: usize) -> usize {
    let messages = plan.messages.len();
    let arrivals = |list: &[Pair]| cycle(plan, list).arrivals;
    let any = |_: &[Pair]| true;
    match way {
        Way::AfterTheNetwork => least(plan, k, any, |list| {
            let later: Vec<Pair> = list.iter().map(|(slot, link)| (slot + 1, *link)).collect();
            arrivals(&later)
        }),
        Way::NotInTheLastSlot => {
            let before = |list: &[Pair]| list.iter().all(|(slot, _)| slot + 1 < plan.timeout);
            least(plan, k, before, arrivals)
        }
        Way::OneSlotShort => least(plan, k, any, |list| {
            played(plan, plan.timeout - 1, |_| list.to_vec())
        }),
        Way::SlotZero => least(plan, k, |list| list.iter().all(|(slot, _)| *slot == 0), arrivals),
        Way::OneASlot => {
            least(plan, k, |list| list.windows(2).all(|two| two[0].0 < two[1].0), arrivals)
        }
        Way::OneSlotAlone => {
            least(plan, k, |list| list.windows(2).all(|two| two[0].0 == two[1].0), arrivals)
        }
        Way::SlotsCount if k == 0 => messages,
        Way::SlotsCount => {
            let all: Vec<Pair> = cable_names(plan).into_iter().map(|name| (0, name)).collect();
            arrivals(&all)
        }
        Way::KASlot => k_a_slot(plan, k, 0, &start(plan), &mut Vec::new(), 0, k),
        Way::ExactlyK => least(plan, k, |list| list.len() == k, arrivals),
        Way::LinksRise => {
            least(plan, k, |list| list.windows(2).all(|two| two[0].1 < two[1].1), arrivals)
        }
        Way::FirstPathsAlone => {
            let on_first_path = |pair: &Pair| {
                let mut places = plan.messages.iter().flat_map(|message| &message.places);
                places.any(|place| pair_cuts(plan, *pair, place.link))
            };
            least(plan, k, |list| list.iter().all(on_first_path), arrivals)
        }
        Way::Greedy => greedy(plan, k),
        Way::CutsHeal => least(plan, k, any, |list| {
            played(plan, plan.timeout, |slot| {
                list.iter().filter(|pair| pair.0 == slot).copied().collect()
            })
        }),
        Way::EachForItself => {
            let lost = |m: &usize| {
                least(plan, k, any, |list| usize::from(cycle(plan, list).at_target[*m])) == 0
            };
            messages - (0..messages).filter(lost).count()
        }
        Way::LossesAdd => messages.saturating_sub(k * (messages - figures(plan, 1)[1])),
        Way::FirstFailing => {
            failing_list(plan, k, messages).map_or(messages, |list| arrivals(&list))
        }
        Way::LossNotFigure => messages - figures(plan, k)[k],
    }
}

/// A small question, by its seed and index.
pub fn small_question(seed: u64, case: u64) -> (Plan, usize) {
    let mut random = Random::of_case(seed ^ 0x666967757265, case);
    let r = &mut random;
    let k = *r.weighted(&[(1, 0), (5, 1), (8, 2), (6, 3)]);
    let plan = if r.percent(10) {
        // Fewer cables than cuts, if it can be.
        let plans: Vec<Plan> = (0..20).map(|_| good_plan(r, Size::Tiny)).collect();
        plans.into_iter().min_by_key(|plan| number_of_pairs(plan).max(2 * plan.timeout)).unwrap()
    } else {
        plan_for_figure(r, if k == 3 { 18 } else { SMALL })
    };
    (plan, k)
}

/// How many pairs there may be in the plans that the wrong ways are asked about; some take long on
/// others.
const SMALL: usize = 28;

/// Whether a way differs on a question of the probe about a small good plan and a k of at most 3.
pub fn differs_on(way: Way, question: &str) -> Option<bool> {
    let words: Vec<&str> = question.split(' ').collect();
    let numbers: Option<Vec<u16>> = words[1..].iter().map(|word| word.parse().ok()).collect();
    let numbers = numbers?;
    let k = *numbers.first().filter(|k| **k <= 3)? as usize;
    let (asked, row) = match words[0] {
        "figure" => (k..=k, numbers.get(1..)?),
        "figures" => (0..=k, numbers.get(2..)?),
        _ => return None,
    };
    let plan = good_plan_of_row(row).ok()?;
    if number_of_pairs(&plan) > SMALL {
        return None;
    }
    let right = figures(&plan, k);
    Some(asked.into_iter().any(|k| figure(way, &plan, k) != right[k]))
}

/// A question on which a way differs.
pub struct Different {
    pub case: u64,
    pub k: usize,
    pub question: String,
    pub right: usize,
    pub wrong: usize,
}

/// All small questions of a seed on which one of these ways differs.
pub fn all_different(ways: &[Way], seed: u64, number: u64) -> Vec<(Way, Different)> {
    let mut all = Vec::new();
    for case in 0..number {
        let (plan, k) = small_question(seed, case);
        let right = figures(&plan, k)[k];
        for way in ways {
            let wrong = figure(*way, &plan, k);
            if wrong != right {
                let question = format!("figure {}{}", k, spaced(&row_of(&plan)));
                all.push((*way, Different { case, k, question, right, wrong }));
            }
        }
    }
    all
}

/// Some of these questions to keep: the shortest ones, and as many as can be for each k and figure.
pub fn to_keep(way: Way, seed: u64, number: u64, keep: usize) -> Vec<Different> {
    let mut found: Vec<Different> =
        all_different(&[way], seed, number).into_iter().map(|(_, one)| one).collect();
    found.sort_by_key(|one| (one.question.split(' ').count(), one.case));
    // The shortest of each, then the next of each, and so on.
    let mut seen: Vec<(usize, usize)> = Vec::new();
    let mut ranked = Vec::new();
    for one in found {
        let both = (one.k, one.right);
        ranked.push((seen.iter().filter(|other| **other == both).count(), one));
        seen.push(both);
    }
    ranked.sort_by_key(|(rank, _)| *rank);
    ranked.into_iter().take(keep).map(|(_, one)| one).collect()
}

// ----------------------------------------------------------------------------- sheets

#[derive(Clone, Copy, PartialEq, Debug)]
pub enum SheetWay {
    // What counts.
    /// A refused plan that has the form of one loses all its messages.
    RefusedLosesAll,
    /// A refused plan loses one message.
    RefusedLosesOne,
    /// A refused plan loses nothing.
    RefusedLosesNothing,
    /// The number of plans is that of those that lose something.
    CountsLosers,
    /// The number of plans is that of all with a figure.
    CountsAll,
    /// The sum is the number of plans that lose something.
    SumsPlans,
    /// The sum is that of the figures.
    SumsFigures,
    /// A plan without a figure for k loses nothing.
    NoFigureLosesNothing,
    /// A plan without a figure for k loses as much as for k 1.
    NoFigureAsBefore,
    /// A name that comes again does not count again.
    CountsOnce,

    // What a line is.
    /// The line of 24 counts from 1.
    LineFromOne,
    /// Behind the last line feed there is an empty line.
    EmptyLastLine,
    /// A last line without a line feed is none.
    NoLastLine,
    /// Empty lines are passed over.
    SkipsEmpty,
    /// No bytes at all are an empty line.
    NothingIsALine,
    /// 250 names are too many.
    FewerNames,
    /// 251 names are not.
    MoreNames,
    /// 255 bytes are too many.
    ShorterNames,
    /// 256 bytes are not.
    LongerNames,
    /// Too many names are told after names of another length.
    TooManyLast,
    /// Too many names are told before names of another length, with place 0.
    TooManyAtFirst,
    /// Plans are read up to the bad line, and printed.
    PrintsBefore,

    // What a name is.
    /// A carriage return before the line feed is no part of it.
    NoCarriageReturn,
    /// Spaces at either end are no part of it.
    Trimmed,
    /// It ends before a byte 0.
    EndsBeforeZero,
    /// What is no text is printed otherwise.
    AsText,
    /// A file is opened whose name is no text.
    OpensNoText,
    /// A file is not opened whose name has a byte above 127, be it text.
    OpensAsciiAlone,
    /// It is printed before the figures.
    NameFirst,
    /// It is not printed for a refused plan.
    NoNameOfRefused,

    // What a plan is.
    /// A missing one, or an empty one, is passed over.
    SkipsMissing,
    /// A refusal of a path is told without its place and step.
    ShortRefusal,
    /// One with figures up to k 1 has that of k 1 for k 2 and 3 too.
    AlwaysFour,
}

pub const WRONG_SHEETS: [(SheetWay, &str); 33] = [
    (SheetWay::RefusedLosesAll, "refused-loses-all"),
    (SheetWay::RefusedLosesOne, "refused-loses-one"),
    (SheetWay::RefusedLosesNothing, "refused-loses-nothing"),
    (SheetWay::CountsLosers, "counts-losers"),
    (SheetWay::CountsAll, "counts-all"),
    (SheetWay::SumsPlans, "sums-plans"),
    (SheetWay::SumsFigures, "sums-figures"),
    (SheetWay::NoFigureLosesNothing, "no-figure-loses-nothing"),
    (SheetWay::NoFigureAsBefore, "no-figure-as-before"),
    (SheetWay::CountsOnce, "counts-once"),
    (SheetWay::LineFromOne, "line-from-one"),
    (SheetWay::EmptyLastLine, "empty-last-line"),
    (SheetWay::NoLastLine, "no-last-line"),
    (SheetWay::SkipsEmpty, "skips-empty"),
    (SheetWay::NothingIsALine, "nothing-is-a-line"),
    (SheetWay::FewerNames, "fewer-names"),
    (SheetWay::MoreNames, "more-names"),
    (SheetWay::ShorterNames, "shorter-names"),
    (SheetWay::LongerNames, "longer-names"),
    (SheetWay::TooManyLast, "too-many-last"),
    (SheetWay::TooManyAtFirst, "too-many-at-first"),
    (SheetWay::PrintsBefore, "prints-before"),
    (SheetWay::NoCarriageReturn, "no-carriage-return"),
    (SheetWay::Trimmed, "trimmed"),
    (SheetWay::EndsBeforeZero, "ends-before-zero"),
    (SheetWay::AsText, "as-text"),
    (SheetWay::OpensNoText, "opens-no-text"),
    (SheetWay::OpensAsciiAlone, "opens-ascii-alone"),
    (SheetWay::NameFirst, "name-first"),
    (SheetWay::NoNameOfRefused, "no-name-of-refused"),
    (SheetWay::SkipsMissing, "skips-missing"),
    (SheetWay::ShortRefusal, "short-refusal"),
    (SheetWay::AlwaysFour, "always-four"),
];

/// The lines of the input as this way finds them.
fn lines_of(way: SheetWay, input: &[u8]) -> Vec<Vec<u8>> {
    let mut lines: Vec<&[u8]> = input.split(|byte| *byte == b'\n').collect();
    let last_is_empty = lines.last().is_some_and(|last| last.is_empty());
    match way {
        SheetWay::EmptyLastLine if !input.is_empty() => {}
        SheetWay::NothingIsALine if input.is_empty() => {}
        SheetWay::NoLastLine => {
            lines.pop();
        }
        _ if last_is_empty => {
            lines.pop();
        }
        _ => {}
    }
    if way == SheetWay::SkipsEmpty {
        lines.retain(|line| !line.is_empty());
    }
    let name = |line: &&[u8]| match way {
        SheetWay::NoCarriageReturn => line.strip_suffix(b"\r").unwrap_or(line).to_vec(),
        SheetWay::Trimmed => line.trim_ascii().to_vec(),
        _ => line.to_vec(),
    };
    lines.iter().map(name).collect()
}

/// The first bad line as this way finds it.
fn bad_line(way: SheetWay, lines: &[Vec<u8>]) -> Option<usize> {
    let most = match way {
        SheetWay::FewerNames => MOST_NAMES - 1,
        SheetWay::MoreNames => MOST_NAMES + 1,
        _ => MOST_NAMES,
    };
    let longest = match way {
        SheetWay::ShorterNames => LONGEST_NAME - 1,
        SheetWay::LongerNames => LONGEST_NAME + 1,
        _ => LONGEST_NAME,
    };
    let of_length = lines.iter().position(|line| line.is_empty() || line.len() > longest);
    let too_many = if lines.len() > most { Some(most) } else { None };
    match way {
        SheetWay::TooManyLast => of_length.or(too_many),
        SheetWay::TooManyAtFirst if too_many.is_some() => too_many,
        _ => of_length.into_iter().chain(too_many).min(),
    }
}

/// The lines of the totals as this way counts them.
fn wrong_totals(
    way: SheetWay,
    names: &[Vec<u8>],
    files: &[Vec<u8>],
    shelf: &[Told],
) -> Vec<(usize, usize)> {
    let mut right = totals(shelf);
    let refused = || shelf.iter().enumerate().filter(|(_, told)| told.is_err());
    let without = |k: usize| shelf.iter().flatten().filter(move |(_, figures)| figures.len() <= k);
    let with = |k: usize| shelf.iter().flatten().filter(move |(_, figures)| figures.len() > k);
    for (k, (nothing_lost, losses)) in right.iter_mut().enumerate() {
        match way {
            SheetWay::RefusedLosesAll => {
                let plans = refused().filter_map(|(at, _)| plan_of_file(&files[at]).ok());
                *losses += plans.map(|plan| plan.messages.len()).sum::<usize>();
            }
            SheetWay::RefusedLosesOne => *losses += refused().count(),
            SheetWay::RefusedLosesNothing => *nothing_lost += refused().count(),
            SheetWay::CountsLosers => *nothing_lost = with(k).count() - *nothing_lost,
            SheetWay::CountsAll => *nothing_lost = with(k).count(),
            SheetWay::SumsPlans => *losses = with(k).count() - *nothing_lost,
            SheetWay::SumsFigures => *losses = with(k).map(|(_, figures)| figures[k]).sum(),
            SheetWay::NoFigureLosesNothing => *nothing_lost += without(k).count(),
            SheetWay::NoFigureAsBefore => {
                let lost = without(k).map(|(messages, figures)| messages - figures[1]);
                *nothing_lost += lost.clone().filter(|lost| *lost == 0).count();
                *losses += lost.sum::<usize>();
            }
            _ => {}
        }
    }
    if way == SheetWay::CountsOnce {
        let first = |at: &usize| !names[..*at].contains(&names[*at]);
        let once: Vec<Told> =
            (0..names.len()).filter(first).map(|at| shelf[at].clone()).collect();
        right = totals(&once);
    }
    right
}

/// What this way prints for a standard input, for files as `open` finds them by any name, and for
/// what `tell` says of each. Names are text, but for the way that opens others.
pub fn wrong_sheet(
    way: SheetWay,
    input: &[u8],
    open: &dyn Fn(&[u8]) -> Vec<u8>,
    tell: &dyn Fn(&[u8]) -> Told,
) -> Vec<u8> {
    let mut names = lines_of(way, input);
    let bad = bad_line(way, &names);
    let refused = bad.map(|line| {
        let place = match way {
            SheetWay::LineFromOne => line + 1,
            SheetWay::TooManyAtFirst if names.len() > MOST_NAMES => 0,
            _ => line,
        };
        format!("{}\n", refusal(24, place)).into_bytes()
    });
    if let Some(line) = bad {
        if way != SheetWay::PrintsBefore {
            return refused.unwrap();
        }
        names.truncate(line);
    }
    let of_text = by_text(open);
    let opened = |name: &Vec<u8>| match way {
        SheetWay::EndsBeforeZero => of_text(name.split(|byte| *byte == 0).next().unwrap()),
        SheetWay::OpensNoText => open(name),
        SheetWay::OpensAsciiAlone if !name.is_ascii() => Vec::new(),
        _ => of_text(name),
    };
    let mut files: Vec<Vec<u8>> = names.iter().map(opened).collect();
    if way == SheetWay::SkipsMissing {
        let found: Vec<bool> = files.iter().map(|file| !file.is_empty()).collect();
        names = names.into_iter().zip(&found).filter(|two| *two.1).map(|two| two.0).collect();
        files.retain(|file| !file.is_empty());
    }
    let told = |file: &Vec<u8>| match (way, tell(file)) {
        (SheetWay::ShortRefusal, Err(one)) => Err(refusal(one.number, one.place)),
        (SheetWay::AlwaysFour, Ok((messages, figures))) if figures.len() < 4 => {
            let least = figures[1];
            Ok((messages, [&figures[..], &[least, least]].concat()))
        }
        (_, told) => told,
    };
    let shelf: Vec<Told> = files.iter().map(told).collect();
    let mut text = Vec::new();
    for (name, told) in names.iter().zip(&shelf) {
        let words = words_of(told).into_bytes();
        let name = match way {
            SheetWay::AsText => String::from_utf8_lossy(name).into_owned().into_bytes(),
            _ => name.clone(),
        };
        text.extend(match way {
            SheetWay::NameFirst => [name, words].join(&b' '),
            SheetWay::NoNameOfRefused if told.is_err() => words,
            _ => [words, name].join(&b' '),
        });
        text.push(b'\n');
    }
    if let Some(refused) = refused {
        text.extend(refused);
        return text;
    }
    for (k, (nothing_lost, losses)) in wrong_totals(way, &names, &files, &shelf).iter().enumerate() {
        text.extend(format!("{} {} {}\n", k, nothing_lost, losses).bytes());
    }
    text
}
