//! Dates of comments: what is wrong with one, which of two is the earlier, and windows of them.

use crate::exports;

/// Year, month, day, hour and minutes, as a comment's row begins with them.
pub type Stamp = [u32; 5];

/// The number of the refusal of a date that a window starts or ends with, 34 or 46; 0 for none.
pub fn date_fault(date: &Stamp) -> u64 {
    // SAFETY: the pointer is of one live array of five words; the library writes nothing and does not keep it.
    unsafe { exports::jangqeruz_date_fault(date) }
}

/// Likewise of a comment, which may be undated: month and day both 0.
pub fn note_fault(note: &Stamp) -> u64 {
    // SAFETY: as in `date_fault`.
    unsafe { exports::jangqeruz_note_fault(note) }
}

/// Whether `a` is earlier than `b`. Nothing is refused.
pub fn earlier(a: &Stamp, b: &Stamp) -> bool {
    // SAFETY: as in `date_fault`, of both pointers; they may be of one array.
    unsafe { exports::jangqeruz_earlier(a, b) }
}

/// The refusal's number, 0 for none; and 1 if the comment falls in the window, 0 if not, or the refusal's detail.
pub fn falls_in(start: &Stamp, end: &Stamp, note: &Stamp) -> (u64, u64) {
    let mut falls = [u64::MAX];
    // SAFETY: each pointer is of one live array, of one word and of five; the library writes to `falls` only, which is
    // apart from the others, and keeps none of them.
    let number = unsafe { exports::jangqeruz_falls_in(&mut falls, start, end, note) };
    (number, falls[0])
}
