//! The questions, each with its refusals in their order and
//! with the lent buffer that its answer goes to. "A refusal gives its number and
//! place, [...] and no change in any buffer. A success changes only the part it
//! writes; a resistant verdict writes nothing."

use crate::cuts::{cut_list_of_numbers, Pair};
use crate::cycle;
use crate::explain::{capture_of_numbers, explaining_list};
use crate::figures::{figure as figure_of, figures as figures_of};
use crate::good::good;
use crate::plan::{file_of, plan_of_file, plan_of_row, refusal, row_of, Plan, Refusal};
use crate::slack::slack_of;
use crate::verdict::failing_list;

/// The good plan in a file: refusals 1 to 10 and 14 to 19.
pub fn good_plan_of_file(file: &[u8]) -> Result<Plan, Refusal> {
    let plan = plan_of_file(file)?;
    good(&plan)?;
    Ok(plan)
}

/// The good plan in a row: refusals 1 to 10 and 14 to 19.
pub fn good_plan_of_row(row: &[u16]) -> Result<Plan, Refusal> {
    let plan = plan_of_row(row)?;
    good(&plan)?;
    Ok(plan)
}

/// 13: "the output is too short"; "numbers or bytes needed". Else writes.
fn lend<T: Copy>(written: &[T], buffer: &mut [T]) -> Result<usize, Refusal> {
    if buffer.len() < written.len() {
        return Err(refusal(13, written.len()));
    }
    buffer[..written.len()].copy_from_slice(written);
    Ok(written.len())
}

/// A file into a row: how many numbers were written.
pub fn read(file: &[u8], buffer: &mut [u16]) -> Result<usize, Refusal> {
    let plan = good_plan_of_file(file)?;
    lend(&row_of(&plan), buffer)
}

/// A row into a file: how many bytes were written.
pub fn write(row: &[u16], buffer: &mut [u8]) -> Result<usize, Refusal> {
    let plan = good_plan_of_row(row)?;
    lend(&file_of(&plan), buffer)
}

/// "The replay's answer is the number of messages at their targets at time t, with
/// the row of events: slot by slot, message by message, kind then number,
/// 2 x t x M numbers." Gives the arrivals and how many numbers were written.
pub fn replay(row: &[u16], cuts: &[u16], buffer: &mut [u16]) -> Result<(usize, usize), Refusal> {
    let plan = good_plan_of_row(row)?;
    let cuts = cut_list_of_numbers(&plan, cuts)?;
    let cycle = cycle::cycle(&plan, &cuts);
    let events: Vec<u16> = cycle
        .events
        .iter()
        .flatten()
        .flat_map(|event| [event.kind as u16, event.number as u16])
        .collect();
    let written = lend(&events, buffer)?;
    Ok((cycle.arrivals, written))
}

/// 11: "k above 3, l above M". 13: "for a verdict 2 x k numbers even if the plan is
/// resistant". Gives the pairs of the failing list, or nothing if resistant.
pub fn verdict(
    row: &[u16],
    k: usize,
    l: usize,
    buffer: &mut [u16],
) -> Result<Option<usize>, Refusal> {
    let plan = good_plan_of_row(row)?;
    if k > 3 || l > plan.messages.len() {
        return Err(refusal(11, 0));
    }
    if buffer.len() < 2 * k {
        return Err(refusal(13, 2 * k));
    }
    match failing_list(&plan, k, l) {
        None => Ok(None),
        Some(list) => {
            lend(&numbers_of(&list), buffer)?;
            Ok(Some(list.len()))
        }
    }
}

/// Document 02, [7]. 11: k above 3; then "23 with its index, after 11; then 13, for 2 x k
/// numbers", even if unexplained. Gives the pairs of the explaining list, of which there may
/// be none, or nothing if unexplained.
pub fn explain(
    row: &[u16],
    k: usize,
    triples: &[u16],
    buffer: &mut [u16],
) -> Result<Option<usize>, Refusal> {
    let plan = good_plan_of_row(row)?;
    if k > 3 {
        return Err(refusal(11, 0));
    }
    let capture = capture_of_numbers(&plan, triples)?;
    if buffer.len() < 2 * k {
        return Err(refusal(13, 2 * k));
    }
    match explaining_list(&plan, k, &capture) {
        None => Ok(None),
        Some(list) => {
            lend(&numbers_of(&list), buffer)?;
            Ok(Some(list.len()))
        }
    }
}

/// Document 02, [2]. 11: k above 3.
pub fn figure(row: &[u16], k: usize) -> Result<usize, Refusal> {
    let plan = good_plan_of_row(row)?;
    if k > 3 {
        return Err(refusal(11, 0));
    }
    Ok(figure_of(&plan, k))
}

/// The figures for 0, 1, .. k. 11: k above 3; 13, for k + 1 numbers. Gives how many were written.
pub fn figures(row: &[u16], k: usize, buffer: &mut [u16]) -> Result<usize, Refusal> {
    let plan = good_plan_of_row(row)?;
    if k > 3 {
        return Err(refusal(11, 0));
    }
    if buffer.len() < k + 1 {
        return Err(refusal(13, k + 1));
    }
    let figures: Vec<u16> = figures_of(&plan, k).iter().map(|figure| *figure as u16).collect();
    lend(&figures, buffer)
}

/// The numbers of a cut list.
pub fn numbers_of(list: &[Pair]) -> Vec<u16> {
    list.iter().flat_map(|(slot, link)| [*slot as u16, *link as u16]).collect()
}

/// 11: "for slack, no such message, place or second path".
pub fn slack(row: &[u16], m: usize, place: usize) -> Result<i32, Refusal> {
    let plan = good_plan_of_row(row)?;
    slack_of(&plan, m, place).ok_or(refusal(11, 0))
}

/// "the library shows that part of the row itself, its links only. A bad row, a
/// message or place that doesn't exist or a place without a second path gives a
/// part of length 0".
pub fn second(row: &[u16], m: usize, place: usize) -> &[u16] {
    let (index, length) = place_of_second(row, m, place);
    &row[index..index + length]
}

/// Where in the row that part begins, and its length; 0 and 0 where there is none.
pub fn place_of_second(row: &[u16], m: usize, place: usize) -> (usize, usize) {
    let plan = match good_plan_of_row(row) {
        Ok(plan) => plan,
        Err(_) => return (0, 0),
    };
    // Walks over the numbers of the row: five, then two a link, then the messages.
    let mut at = 5 + 2 * plan.links.len();
    for (message_here, message) in plan.messages.iter().enumerate() {
        at += 1; // the number of links of its first path less one
        for (place_here, of_place) in message.places.iter().enumerate() {
            at += 3; // link, slot, flag
            if let Some(second) = &of_place.second {
                at += 1; // number of links less one
                if message_here == m && place_here == place {
                    return (at, second.len());
                }
                at += second.len();
            }
        }
    }
    (0, 0)
}
