//! Nuthatchet for Rust: the declarations of include/nuthatchet.h, and a safe function over each, so that no pointer can lie.

extern "C" {
    fn nuthatchet_judge(row: *const u16, row_len: usize, place: *mut usize, at: *mut usize, step: *mut usize, result: *mut usize) -> usize;
    fn nuthatchet_read_file(file: *const u8, file_len: usize, row: *mut u16, row_len: usize, place: *mut usize, at: *mut usize, step: *mut usize, result: *mut usize) -> usize;
    fn nuthatchet_write_file(row: *const u16, row_len: usize, file: *mut u8, file_len: usize, place: *mut usize, at: *mut usize, step: *mut usize, result: *mut usize) -> usize;
    fn nuthatchet_second_path(row: *const u16, row_len: usize, m: usize, p: usize, index: *mut usize) -> usize;
    fn nuthatchet_replay(row: *const u16, row_len: usize, cuts: *const u16, cuts_len: usize, events: *mut u16, events_len: usize, place: *mut usize, at: *mut usize, step: *mut usize, result: *mut usize) -> usize;
    fn nuthatchet_verdict(row: *const u16, row_len: usize, k: usize, l: usize, list: *mut u16, list_len: usize, place: *mut usize, at: *mut usize, step: *mut usize, pairs: *mut usize) -> usize;
    fn nuthatchet_explain(row: *const u16, row_len: usize, k: usize, capture: *const u16, capture_len: usize, list: *mut u16, list_len: usize, place: *mut usize, at: *mut usize, step: *mut usize, result: *mut usize) -> usize;
    fn nuthatchet_all_answers(row: *const u16, row_len: usize, k: usize, out: *mut u16, out_len: usize, place: *mut usize, at: *mut usize, step: *mut usize, result: *mut usize) -> usize;
    fn nuthatchet_figure(row: *const u16, row_len: usize, k: usize, place: *mut usize, at: *mut usize, step: *mut usize, result: *mut usize) -> usize;
    fn nuthatchet_figures(row: *const u16, row_len: usize, k: usize, out: *mut u16, out_len: usize, place: *mut usize, at: *mut usize, step: *mut usize, result: *mut usize) -> usize;
    fn nuthatchet_slack(row: *const u16, row_len: usize, m: usize, p: usize, place: *mut usize, at: *mut usize, step: *mut usize, slots: *mut i32) -> usize;
    fn nuthatchet_replay_text(file: *const u8, file_len: usize, input: *const u8, input_len: usize, out: *mut u8, out_len: usize, place: *mut usize, at: *mut usize, step: *mut usize, result: *mut usize) -> usize;
    fn nuthatchet_row_text(file: *const u8, file_len: usize, out: *mut u8, out_len: usize, place: *mut usize, at: *mut usize, step: *mut usize, result: *mut usize) -> usize;
    fn nuthatchet_refusal_text(n: usize, p: usize, q: usize, s: usize, out: *mut u8, out_len: usize, place: *mut usize, at: *mut usize, step: *mut usize, result: *mut usize) -> usize;
    fn nuthatchet_pack_text(text: *const u8, text_len: usize, file: *mut u8, file_len: usize, place: *mut usize, at: *mut usize, step: *mut usize, result: *mut usize) -> usize;
}

/// What is always enough room.
pub const FILE: usize = 7348;
pub const ROW: usize = 10405;
pub const EVENTS: usize = 4096;
pub const LIST: usize = 6;
pub const ANSWERS: usize = 231;
pub const FIGURES: usize = 4;

/// Of a rule of paths (7, 10 and 14 to 19) `place` is the message, `at` the place on its first path, and `step` which link there is at fault; of
/// every other refusal `at` and `step` are 0.
#[derive(Debug, Clone, Copy, PartialEq, Eq)]
pub struct Refusal {
    pub number: usize,
    pub place: usize,
    pub at: usize,
    pub step: usize,
}

/// A result, or the refusal that stands in its place.
fn told<T: Default>(ask: impl FnOnce(&mut usize, &mut usize, &mut usize, &mut T) -> usize) -> Result<T, Refusal> {
    let (mut place, mut at, mut step, mut result) = (0, 0, 0, T::default());
    match ask(&mut place, &mut at, &mut step, &mut result) {
        0 => Ok(result),
        number => Err(Refusal { number, place, at, step }),
    }
}

pub fn judge(row: &[u16]) -> Result<usize, Refusal> {
    told(|place, at, step, result| unsafe { nuthatchet_judge(row.as_ptr(), row.len(), place, at, step, result) })
}

pub fn read_file(file: &[u8], row: &mut [u16]) -> Result<usize, Refusal> {
    told(|place, at, step, result| unsafe { nuthatchet_read_file(file.as_ptr(), file.len(), row.as_mut_ptr(), row.len(), place, at, step, result) })
}

pub fn write_file(row: &[u16], file: &mut [u8]) -> Result<usize, Refusal> {
    told(|place, at, step, result| unsafe { nuthatchet_write_file(row.as_ptr(), row.len(), file.as_mut_ptr(), file.len(), place, at, step, result) })
}

pub fn second_path(row: &[u16], m: usize, p: usize) -> &[u16] {
    let mut index = 0;
    let links = unsafe { nuthatchet_second_path(row.as_ptr(), row.len(), m, p, &mut index) };
    &row[index..index + links]
}

/// A pair slot, link of `cuts` cuts that link and the link with the same ends reversed, if the plan has one; it names the lower of the two.
pub fn replay(row: &[u16], cuts: &[u16], events: &mut [u16]) -> Result<usize, Refusal> {
    told(|place, at, step, result| unsafe {
        nuthatchet_replay(row.as_ptr(), row.len(), cuts.as_ptr(), cuts.len(), events.as_mut_ptr(), events.len(), place, at, step, result)
    })
}

/// 0 if resistant, or how many pairs the first failing list has, at the front of `list`.
pub fn verdict(row: &[u16], k: usize, l: usize, list: &mut [u16]) -> Result<usize, Refusal> {
    told(|place, at, step, pairs| unsafe { nuthatchet_verdict(row.as_ptr(), row.len(), k, l, list.as_mut_ptr(), list.len(), place, at, step, pairs) })
}

/// 0 if unexplained, or one more than the pairs of the first list that explains the capture, at the front of `list`.
pub fn explain(row: &[u16], k: usize, capture: &[u16], list: &mut [u16]) -> Result<usize, Refusal> {
    told(|place, at, step, result| unsafe {
        nuthatchet_explain(row.as_ptr(), row.len(), k, capture.as_ptr(), capture.len(), list.as_mut_ptr(), list.len(), place, at, step, result)
    })
}

pub fn all_answers(row: &[u16], k: usize, out: &mut [u16]) -> Result<usize, Refusal> {
    told(|place, at, step, result| unsafe {
        nuthatchet_all_answers(row.as_ptr(), row.len(), k, out.as_mut_ptr(), out.len(), place, at, step, result)
    })
}

/// The least number of messages that arrive, over every list of at most k cuts.
pub fn figure(row: &[u16], k: usize) -> Result<usize, Refusal> {
    told(|place, at, step, result| unsafe { nuthatchet_figure(row.as_ptr(), row.len(), k, place, at, step, result) })
}

/// How many figures there are, those for 0 to k, at the front of `out`.
pub fn figures(row: &[u16], k: usize, out: &mut [u16]) -> Result<usize, Refusal> {
    told(|place, at, step, result| unsafe { nuthatchet_figures(row.as_ptr(), row.len(), k, out.as_mut_ptr(), out.len(), place, at, step, result) })
}

pub fn slack(row: &[u16], m: usize, p: usize) -> Result<i32, Refusal> {
    told(|place, at, step, slots| unsafe { nuthatchet_slack(row.as_ptr(), row.len(), m, p, place, at, step, slots) })
}

pub fn replay_text(file: &[u8], input: &[u8], out: &mut [u8]) -> Result<usize, Refusal> {
    told(|place, at, step, result| unsafe {
        nuthatchet_replay_text(file.as_ptr(), file.len(), input.as_ptr(), input.len(), out.as_mut_ptr(), out.len(), place, at, step, result)
    })
}

pub fn row_text(file: &[u8], out: &mut [u8]) -> Result<usize, Refusal> {
    told(|place, at, step, result| unsafe { nuthatchet_row_text(file.as_ptr(), file.len(), out.as_mut_ptr(), out.len(), place, at, step, result) })
}

/// The line that the programs print for a refusal; 98 bytes are room for each.
pub fn refusal_text(refusal: Refusal, out: &mut [u8]) -> Result<usize, Refusal> {
    let Refusal { number: n, place: p, at: q, step: s } = refusal;
    told(|place, at, step, result| unsafe { nuthatchet_refusal_text(n, p, q, s, out.as_mut_ptr(), out.len(), place, at, step, result) })
}

pub fn pack_text(text: &[u8], file: &mut [u8]) -> Result<usize, Refusal> {
    told(|place, at, step, result| unsafe { nuthatchet_pack_text(text.as_ptr(), text.len(), file.as_mut_ptr(), file.len(), place, at, step, result) })
}
