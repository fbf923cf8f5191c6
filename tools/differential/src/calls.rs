//! Calls of a function that writes into a buffer and answers how many bytes the whole has, or how many it filled.

use crate::hex;
use crate::random::Random;
use crate::subject::Disagreement;

/// What a buffer holds before a call.
const UNTOUCHED: u8 = 0xEE;

/// A call with a buffer of `room` bytes, in front of `more` bytes that are not lent.
struct Call {
    answer: usize,
    lent: Vec<u8>,
    /// The first place, at or past the answer or outside of what was lent, that is not as before.
    touched: Option<usize>,
}

fn call(room: usize, more: usize, function: &impl Fn(&mut [u8]) -> usize) -> Call {
    let mut buffer = vec![UNTOUCHED; room + more];
    let answer = function(&mut buffer[..room]);
    let end = answer.min(room);
    let touched = buffer[end..].iter().position(|&byte| byte != UNTOUCHED);
    buffer.truncate(room);
    Call { answer, lent: buffer, touched: touched.map(|place| end + place) }
}

impl Call {
    /// The bytes of the answer, or as many of them as there was room for.
    fn written(&self) -> &[u8] {
        &self.lent[..self.answer.min(self.lent.len())]
    }

    fn told(&self) -> String {
        let touched = self.touched.map_or(String::new(), |place| format!(", byte {place} touched"));
        format!("ours: {} {}{touched}", self.answer, hex(self.written()))
    }
}

/// Holds a function that should write what the original wrote, and that never has more than `most` bytes to write: with
/// room to spare, then with a buffer that ends too early at a random place and with an empty one. These two are held
/// against the call with room.
pub fn hold(
    what: &str,
    original: &[u8],
    most: usize,
    random: &mut Random,
    function: impl Fn(&mut [u8]) -> usize,
) -> Vec<Disagreement> {
    let mut found = Vec::new();
    let mut differs = |way: &str, expected: String, call: &Call| {
        found.push(Disagreement { what: format!("{what}, {way}"), expected, ours: call.told() });
    };

    let full = call(most + 1 + random.place(64), 16, &function);
    if full.answer != original.len() || full.written() != original {
        differs("bytes", format!("the original: {} {}", original.len(), hex(original)), &full);
    }
    if full.touched.is_some() {
        differs("past the answer", "expected: bytes past the answer stay".into(), &full);
    }
    let whole = full.written();
    if !whole.is_empty() {
        let room = random.place(whole.len());
        let short = call(room, 16, &function);
        if short.answer != full.answer || short.written() != &whole[..room] || short.touched.is_some() {
            let front = hex(&whole[..room]);
            differs("short buffer", format!("expected: {}, of which {room} fit: {front}", full.answer), &short);
        }
    }
    let empty = call(0, 16, &function);
    if empty.answer != full.answer || empty.touched.is_some() {
        differs("empty buffer", format!("expected: {}", full.answer), &empty);
    }
    found
}

/// Holds a read into `room` bytes: it should fill as many as the original did, and leave the rest.
pub fn hold_read(
    what: String,
    told: &str,
    original: &[u8],
    room: usize,
    function: impl Fn(&mut [u8]) -> usize,
) -> Option<Disagreement> {
    let call = call(room, 16, &function);
    let same = call.answer == original.len() && call.written() == original && call.touched.is_none();
    (!same).then(|| Disagreement {
        what,
        expected: format!("{told}; the original: {} {}", original.len(), hex(original)),
        ours: call.told(),
    })
}

/// Holds a read that is wrongly lent: the answer should be the largest `usize`, and all of `room` bytes should stay.
pub fn hold_refused(
    what: String,
    told: &str,
    room: usize,
    function: impl Fn(&mut [u8]) -> usize,
) -> Option<Disagreement> {
    let call = call(room, 16, &function);
    let stays = call.lent.iter().all(|&byte| byte == UNTOUCHED) && call.touched.is_none();
    (call.answer != usize::MAX || !stays).then(|| Disagreement {
        what,
        expected: format!("{told}; expected: {}, and nothing written", usize::MAX),
        ours: call.told(),
    })
}
