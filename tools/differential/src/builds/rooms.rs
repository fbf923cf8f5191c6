//! A build, called with buffers of several lengths.

use library::builds::{self as ours, ANSWERS, HEADER_SHORT, TRAILER_SHORT};
use library::checks::{Lent, Verdict};

use super::{File, Outcome};
use crate::buffer::Buffer;
use crate::checks::border::Beside;
use crate::checks::Inputs;
use crate::hex;
use crate::random::Random;
use crate::subject::Disagreement;

/// What our calls gave.
pub struct Held {
    /// The verdict of the call with room to spare.
    pub ours: Verdict,
    pub found: Vec<Disagreement>,
    pub calls: Calls,
}

/// Calls by what was wanted of them, and bytes.
#[derive(Default)]
pub struct Calls {
    pub built: u64,
    pub header_short: u64,
    pub trailer_short: u64,
    pub refused: u64,
    /// Bytes of header and trailer held against the original's.
    pub compared: u64,
    /// Bytes that had to stay.
    pub stayed: u64,
}

/// So many bytes are enough for the header or the trailer of a small file.
const ENOUGH: usize = 4_096;

/// How long the buffers are.
struct Way {
    name: &'static str,
    header: usize,
    trailer: usize,
}

/// The buffers of a build. The first ones have room to spare.
fn ways(outcome: &Outcome, random: &mut Random) -> Vec<Way> {
    let mut more = || 1 + random.place(64);
    let mut ways = Vec::new();
    let mut add = |name, header, trailer| ways.push(Way { name, header, trailer });
    let Outcome::Built(file) = outcome else {
        add("room to spare", 100 * more(), 100 * more());
        add("short buffers", more(), more());
        add("empty buffers", 0, 0);
        return ways;
    };
    let (header, trailer) = (file.header.len(), file.trailer.len());
    add("room to spare", header + more(), trailer + more());
    add("exact buffers", header, trailer);
    add("header one short", header - 1, trailer);
    add("header one short, trailer longer", header - 1, trailer + more());
    add("header empty", 0, trailer + more());
    add("both empty", 0, 0);
    if trailer > 0 {
        add("both one short", header - 1, trailer - 1);
        add("trailer one short", header, trailer - 1);
        add("trailer one short, header longer", header + more(), trailer - 1);
        add("trailer empty", header, 0);
        add("trailer empty, header longer", header + more(), 0);
    } else {
        add("header longer, no trailer", header + more(), 0);
    }
    let short = random.place(header);
    ways.push(Way { name: "both short", header: short, trailer: random.place(trailer + 1) });
    ways
}

/// What is to be answered to a way of calling: a refusal, or the file.
fn answer<'a>(way: &Way, outcome: &'a Outcome) -> Result<&'a File, [u64; 2]> {
    match outcome {
        Outcome::Refused(Verdict { number, detail }) => Err([(*number).into(), (*detail).into()]),
        Outcome::Built(file) if way.header < file.header.len() => Err([HEADER_SHORT, file.header.len() as u64]),
        Outcome::Built(file) if way.trailer < file.trailer.len() => Err([TRAILER_SHORT, file.trailer.len() as u64]),
        Outcome::Built(file) => Ok(file),
    }
}

fn told(number: u64, answer: &[u64]) -> String {
    match number {
        0 => format!("built, {answer:?}"),
        _ => format!("refused {number}, {answer:?}"),
    }
}

/// Number and detail as the checks have them.
fn verdict(number: u64, detail: u64) -> Verdict {
    let [number, detail] = [number, detail].map(|word| word.try_into().unwrap_or(u32::MAX));
    Verdict { number, detail: if number == 0 { 0 } else { detail } }
}

/// Calls the build in all ways. If it is at fault with room to spare, in this way only. `buffers` decides how long they are.
pub fn hold(inputs: &Inputs, outcome: &Outcome, buffers: u64) -> Held {
    let mut random = Random::of_case(buffers, 1);
    let mut held = Held { ours: Verdict::default(), found: Vec::new(), calls: Calls::default() };
    for (place, way) in ways(outcome, &mut random).into_iter().enumerate() {
        // All numbers of the answer are wanted first, later any of them.
        let answers = if place == 0 { ANSWERS + random.place(2) } else { random.place(ANSWERS + 2) };
        let [number, detail] = held.call(&inputs.words, inputs.lent(), outcome, &way, answers);
        if place == 0 {
            held.ours = verdict(number, detail);
            if !held.found.is_empty() {
                break;
            }
        }
    }
    held
}

impl Held {
    /// A call beside the case's own. If it is to be refused, with buffers of any lengths; else only the number is held.
    pub fn hold_beside(&mut self, beside: &Beside, inputs: &Inputs, random: &mut Random) {
        let before = self.found.len();
        match beside.wanted.number {
            0 => self.hold_accepted(beside, inputs),
            _ => {
                let mut room = || random.pick(&[0, 1, 30, 200, 3_000]);
                let way = Way { name: "any room", header: room(), trailer: room() };
                let outcome = Outcome::Refused(beside.wanted);
                self.call(&beside.words, beside.lent(inputs), &outcome, &way, random.place(ANSWERS + 2));
            }
        }
        for Disagreement { what, expected, .. } in &mut self.found[before..] {
            *what = format!("{}: {what}", beside.name());
            *expected = format!("{}; {expected}", beside.told(inputs));
        }
    }

    fn hold_accepted(&mut self, beside: &Beside, inputs: &Inputs) {
        let [mut header, mut trailer] = [vec![0; ENOUGH], vec![0; ENOUGH]];
        let mut answer = [0; ANSWERS];
        let number = ours::build(&beside.words, beside.lent(inputs), &mut header, &mut trailer, &mut answer);
        if number != 0 {
            self.found.push(Disagreement {
                what: format!("0 wanted, {number} answered (0: built)"),
                expected: "built".into(),
                ours: format!("ours: {}", told(number, &answer)),
            });
        }
    }

    /// One call, with room for so many numbers of the answer. Answers the number and the answer's first one.
    fn call(&mut self, words: &[u32], given: Lent<'_>, outcome: &Outcome, way: &Way, answers: usize) -> [u64; 2] {
        const BEFORE: u64 = 0xE1E2_E3E4_E5E6_E7E8;
        let (mut header, mut trailer) = (Buffer::new(way.header), Buffer::new(way.trailer));
        let mut answer_room = vec![BEFORE; answers + 1];
        let lent = &mut answer_room[..answers];
        let number = ours::build(words, given, header.lent(), trailer.lent(), lent);

        let wanted = answer(way, outcome);
        let (wanted_number, mut wanted_answer) = match wanted {
            Ok(file) => (0, vec![file.header.len() as u64, file.sound, file.trailer.len() as u64]),
            Err([number, detail]) => (number, vec![detail, 0, 0]),
        };
        wanted_answer.truncate(answers);
        wanted_answer.resize(answers + 1, BEFORE);
        let rooms = format!("{} (header {}, trailer {})", way.name, way.header, way.trailer);
        let mut differs = |what: &str, expected: String, ours: String| {
            let what = format!("{}: {what}", way.name);
            self.found.push(Disagreement { what, expected: format!("{rooms}: {expected}"), ours });
        };
        if (number, &answer_room) != (wanted_number, &wanted_answer) {
            let (wanted, ours) = (told(wanted_number, &wanted_answer), told(number, &answer_room));
            let what = match number == wanted_number {
                true => format!("the answer's numbers, {}", told(number, &[]).trim_end_matches(", []")),
                false => format!("{wanted_number} wanted, {number} answered (0: built)"),
            };
            differs(&what, format!("{wanted} (the last one is not lent)"), format!("ours: {ours}"));
        }
        let (in_header, in_trailer) = wanted.map_or((&[][..], &[][..]), |file| (&file.header, &file.trailer));
        for (name, buffer, bytes) in [("header", &header, in_header), ("trailer", &trailer, in_trailer)] {
            let written = &buffer.bytes[..bytes.len()];
            if let Some(at) = bytes.iter().zip(written).position(|(a, b)| a != b) {
                let ours = format!("ours: {} {}, other from byte {at} on", bytes.len(), hex(written));
                differs(&format!("{name}, bytes"), format!("the original: {} {}", bytes.len(), hex(bytes)), ours);
            }
            if let Some(at) = buffer.touched(bytes.len()) {
                let bytes = hex(&buffer.bytes[at..buffer.bytes.len().min(at + 64)]);
                let ours = format!("ours: byte {at} of {} touched, from there: {bytes}", buffer.room);
                let what = if wanted.is_ok() { format!("past the {name}") } else { format!("{name} of a refusal") };
                differs(&what, "expected: these bytes stay".into(), ours);
            }
            self.calls.compared += bytes.len() as u64;
            self.calls.stayed += (buffer.bytes.len() - bytes.len()) as u64;
        }
        let calls = &mut self.calls;
        *match wanted {
            Ok(_) => &mut calls.built,
            Err([HEADER_SHORT, _]) => &mut calls.header_short,
            Err([TRAILER_SHORT, _]) => &mut calls.trailer_short,
            Err(_) => &mut calls.refused,
        } += 1;
        [number, answer_room[0]]
    }
}
