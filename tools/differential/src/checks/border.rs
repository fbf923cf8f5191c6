//! The border: what is refused of the words themselves, before anything is made of them. And the calls beside a case's own, with
//! other words or one more marker, which the original is not told: they are held against document 01 and the border's order.

use std::collections::BTreeMap;
use std::fmt;
use std::ops::Range;

use library::checks::{self as ours, Lent, Verdict, WORDS};
use library::markers::Marker;

use super::fixed::{Fixed, Part, TWO_BYTES};
use super::{told, Beyond, Case, Inputs, Place, LONGEST_TEXT, MOST_MARKERS, MOST_TRACKS};
use crate::random::Random;
use crate::subject::Disagreement;

/// So many words from `first` on, and the refusal if one of them exceeds `most`.
struct Field {
    first: usize,
    count: usize,
    most: u32,
    number: u32,
}

/// In checking order. A list that has not all words, or more, comes before these.
const BORDER: [Field; 9] = [
    Field { first: 2, count: 1, most: 255, number: 7 },
    Field { first: 3, count: 1, most: 3, number: 8 },
    Field { first: 21, count: 1, most: 65_535, number: 13 },
    Field { first: 47, count: 1, most: 255, number: 24 },
    Field { first: 8, count: 6, most: 65_535, number: 26 },
    Field { first: 52, count: 5, most: 4, number: 28 },
    Field { first: 57, count: 4, most: 3, number: 30 },
    Field { first: 32, count: 2, most: 2, number: 30 },
    Field { first: 61, count: 5, most: 4, number: 37 },
];
const NOT_ALL_WORDS: u32 = 2;

/// The refusal of the words themselves, 0 for none.
fn refusal(words: &[u32]) -> u32 {
    if words.len() != WORDS {
        return NOT_ALL_WORDS;
    }
    let exceeds = |field: &&Field| words[field.places()].iter().any(|&word| word > field.most);
    BORDER.iter().find(exceeds).map_or(0, |field| field.number)
}

/// Numbers of words that are refused.
const COUNTS: [usize; 5] = [66, 68, 0, 1, 134];

/// So many words: the first ones, or all and then further ones.
fn counted(words: &[u32], count: usize) -> Vec<u32> {
    words.iter().copied().cycle().take(count).collect()
}

impl Field {
    fn places(&self) -> Range<usize> {
        self.first..self.first + self.count
    }

    /// Values past the field: the next one, wide ones, and some with the low bits of what was there.
    fn past(&self, value: u32) -> Vec<u32> {
        let wide = [256, 257, 258, 65_536, 0x0100_0002, 0x8000_0000, u32::MAX];
        let same_low = [1 << 8, 1 << 16, 1 << 31].map(|bit| value | bit);
        let mut values = [&[self.most + 1], &wide[..], &same_low].concat();
        values.retain(|&value| value > self.most);
        values.sort_unstable();
        values.dedup();
        values
    }

    fn draw_past(&self, random: &mut Random, value: u32) -> u32 {
        if random.one_in(2) {
            return random.pick(&self.past(value));
        }
        // The low bits stay.
        let bits = if self.most > 255 { 16 } else { random.pick(&[8, 16]) };
        random.between(1, u32::MAX >> bits) << bits | value & ((1 << bits) - 1)
    }
}

/// What a call has instead of the case's own.
#[derive(Clone, Copy, PartialEq, Eq, PartialOrd, Ord)]
pub enum Kind {
    /// Words that the border refuses.
    Words,
    /// The largest value that a field holds.
    Largest,
    /// One more marker, of a kind that there is not.
    Unnamed,
    /// One more, of a kind that there is.
    Named,
    /// An EMID that is off.
    IdOff,
}

impl Kind {
    fn name(self) -> &'static str {
        match self {
            Kind::Words => "words past the border",
            Kind::Largest => "a word at its largest",
            Kind::Unnamed => "one more marker, of no kind",
            Kind::Named => "one more marker, of a kind",
            Kind::IdOff => "an EMID that is off",
        }
    }
}

/// A call beside the case's own.
pub struct Beside {
    kind: Kind,
    pub words: Vec<u32>,
    markers: Option<Vec<u32>>,
    pub wanted: Verdict,
    /// Wanted is a refusal of the case itself, which comes before.
    earlier: bool,
}

fn refused(number: u32) -> Verdict {
    Verdict { number, detail: 0 }
}

impl Beside {
    fn of(kind: Kind, words: Vec<u32>, wanted: Verdict) -> Beside {
        Beside { kind, words, markers: None, wanted, earlier: false }
    }

    /// The same, but if the case itself is refused with one of these numbers, that is wanted.
    fn unless(self, of_case: Verdict, before: Range<u32>) -> Beside {
        match before.contains(&of_case.number) {
            true => Beside { wanted: of_case, earlier: true, ..self },
            false => self,
        }
    }

    /// Other words, of which the border's refusal is wanted.
    fn past(words: Vec<u32>) -> Beside {
        let wanted = refused(refusal(&words));
        Beside::of(Kind::Words, words, wanted)
    }

    pub fn lent<'a>(&'a self, inputs: &'a Inputs) -> Lent<'a> {
        Lent { markers: self.markers.as_deref().unwrap_or(&inputs.markers), ..inputs.lent() }
    }

    /// All that the call is given.
    pub fn inputs(&self, inputs: &Inputs) -> Inputs {
        let markers = self.markers.as_ref().unwrap_or(&inputs.markers).clone();
        Inputs { words: self.words.clone(), markers, ..inputs.clone() }
    }

    pub fn name(&self) -> &'static str {
        self.kind.name()
    }

    /// What is not as in the case.
    pub fn told(&self, inputs: &Inputs) -> String {
        let mut parts: Vec<String> = Vec::new();
        if self.words.len() != inputs.words.len() {
            parts.push(format!("{} words", self.words.len()));
        }
        let both = self.words.iter().zip(&inputs.words).enumerate();
        let others = both.filter(|(_, (word, before))| word != before);
        parts.extend(others.map(|(place, (word, before))| format!("word {place} is {word:#x}, not {before:#x}")));
        parts.extend(self.markers.iter().map(|markers| format!("markers {markers:?}")));
        parts.join(", ")
    }

    /// The verdict, held against the one wanted.
    pub fn hold(&self, inputs: &Inputs) -> Option<Disagreement> {
        let ours = ours::verdict(&self.words, self.lent(inputs));
        (ours != self.wanted).then(|| Disagreement {
            what: format!("{}: {} wanted, {} answered", self.name(), told(self.wanted), told(ours)),
            expected: format!("{}; wanted: {}", self.told(inputs), told(self.wanted)),
            ours: format!("ours: {}", told(ours)),
        })
    }
}

/// The calls beside a case's own, of which this verdict is wanted, if it is known.
pub fn calls(case: &Case, inputs: &Inputs, wanted: Option<Verdict>) -> Vec<Beside> {
    let mut calls = Vec::new();
    if case.beside != 0 {
        let random = &mut Random::of_case(case.beside, 2);
        calls.extend((0..2).map(|_| draw_words(random, &inputs.words)));
        if let Some(wanted) = wanted {
            calls.push(draw_largest(random, case, &inputs.words, wanted));
            // Else a 1 of the case may be for its EMID.
            if !has_long_id(case) {
                calls.push(draw_id_off(random, inputs, wanted));
            }
            if case.of.info.custom_markers && case.of.info.on && has_own_markers(case) {
                calls.push(draw_no_kind(random, case, inputs, wanted));
            }
        }
    }
    if let Some(Fixed { part: Part::Border { full }, .. }) = case.fixed {
        fixed_words(&mut calls, &inputs.words, full);
        fixed_kinds(&mut calls, case, inputs);
        fixed_ids(&mut calls, inputs);
    }
    calls
}

/// Of the border's plain case, the calls with one fault: each word just past its field, each bad kind, an EMID that is off.
pub fn with_one_fault(case: &Case, inputs: &Inputs) -> Vec<Beside> {
    let mut calls = Vec::new();
    if let Some(Fixed { part: Part::Border { full: false }, .. }) = case.fixed {
        for field in &BORDER {
            calls.extend(field.places().map(|place| Beside::past(with(&inputs.words, place, field.most + 1))));
        }
        fixed_kinds(&mut calls, case, inputs);
        fixed_ids(&mut calls, inputs);
        calls.retain(|call| call.wanted.number != 0);
    }
    calls
}

/// The words with another one at a place.
fn with(words: &[u32], place: usize, value: u32) -> Vec<u32> {
    let mut words = words.to_vec();
    words[place] = value;
    words
}

/// Whether the markers that we are told are the original's: whole rows, which a further one does not change.
fn has_own_markers(case: &Case) -> bool {
    let others = [Beyond::Outside(Place::Marker), Beyond::CutShort(Place::Marker)];
    !case.beyond.iter().any(|beyond| others.contains(beyond))
}

/// Whether we are told an EMID that is too long.
fn has_long_id(case: &Case) -> bool {
    let told = |beyond: &Beyond| matches!(beyond, Beyond::NoPool(Place::Emid, _));
    case.of.info.emid[2] > LONGEST_TEXT || case.beyond.iter().any(told)
}

/// One to three words past their fields, or another number of them.
fn draw_words(random: &mut Random, words: &[u32]) -> Beside {
    let mut words = words.to_vec();
    let recounted = random.one_in(6);
    for _ in 0..random.between(u32::from(!recounted), 3) {
        let field = &BORDER[random.place(BORDER.len())];
        let place = field.first + random.place(field.count);
        words[place] = field.draw_past(random, words[place]);
    }
    if recounted {
        words = counted(&words, random.pick(&COUNTS));
    }
    Beside::past(words)
}

/// The largest value of a field that is refused by a later check, unless something comes before.
fn draw_largest(random: &mut Random, case: &Case, words: &[u32], wanted: Verdict) -> Beside {
    let (place, largest, number) = match random.between(0, 2) {
        // Not of an edited master, nor if there is that track.
        0 if !case.edited_master && case.of.tracks.len() < MOST_TRACKS => (21, 65_535, 13),
        1 => (47, 255, 24),
        _ => (2, 255, 7),
    };
    let mut words = words.to_vec();
    words[place] = largest;
    if place == 47 {
        words[46] = 1;
    }
    Beside::of(Kind::Largest, words, refused(number)).unless(wanted, 1..number)
}

const BAD_KINDS: [u32; 10] = [3, 5, 6, 7, 8, 255, 256, 0x8000, 0xFFFE, 0xFFFF];
const KINDS: [u32; 4] = [0, 1, 2, 4];

/// One more marker of no kind, before the others or behind them. The markers are custom, and looked at.
fn draw_no_kind(random: &mut Random, case: &Case, inputs: &Inputs, wanted: Verdict) -> Beside {
    let kind = random.pick(&BAD_KINDS);
    let flags = random.between(0, 65_535);
    // Its text is not looked at any more.
    let length = random.place(inputs.raw.len().min(1) + 1) as u32;
    let row: Marker = [case.of.info.first, kind << 16 | flags, 0, length];
    let front = random.one_in(4);
    let markers = if front { [&row, &inputs.markers[..]].concat() } else { [&inputs.markers[..], &row].concat() };
    // The first marker at fault is answered, unless there are too many.
    let (number, before) = match front {
        _ if markers.len() / row.len() > MOST_MARKERS => (1, 1..1),
        true => (32, 1..32),
        false => (32, 1..34),
    };
    let call = Beside::of(Kind::Unnamed, inputs.words.clone(), refused(number));
    Beside { markers: Some(markers), ..call }.unless(wanted, before)
}

/// EMID off, with an extent that is outside the pool or too long.
fn draw_id_off(random: &mut Random, inputs: &Inputs, wanted: Verdict) -> Beside {
    let pool = inputs.raw.len() as u32;
    let inside = random.between(0, pool);
    let (start, length) = match random.between(0, 3) {
        0 => (inside, pool - inside + 1),
        1 => (random.between(pool + 1, u32::MAX), 0),
        2 => (random.between(pool, u32::MAX), random.between(1, LONGEST_TEXT)),
        _ => (inside, random.between(LONGEST_TEXT + 1, u32::MAX)),
    };
    let number = if length > LONGEST_TEXT { 1 } else { 2 };
    Beside::of(Kind::IdOff, id_off(&inputs.words, start, length), refused(number)).unless(wanted, 1..number)
}

/// The words with EMID off, and this extent.
fn id_off(words: &[u32], start: u32, length: u32) -> Vec<u32> {
    let mut words = words.to_vec();
    words[24..27].copy_from_slice(&[0, start, length]);
    words
}

/// Each word past its field and at its largest value, each two past their fields, other numbers of words.
fn fixed_words(calls: &mut Vec<Beside>, words: &[u32], full: bool) {
    let fields: Vec<(usize, &Field)> =
        BORDER.iter().flat_map(|field| field.places().map(move |place| (place, field))).collect();
    for (number, &(place, field)) in fields.iter().enumerate() {
        calls.extend(field.past(words[place]).into_iter().map(|value| Beside::past(with(words, place, value))));
        calls.push(Beside::of(Kind::Largest, with(words, place, field.most), refused(largest(full, place))));
        let wrong = with(words, place, field.most + 1);
        for &(place, field) in &fields[number + 1..] {
            let mut both = wrong.clone();
            both[place] = field.most + 1;
            calls.push(Beside::past(both));
        }
        calls.extend(COUNTS.map(|count| Beside::past(counted(&wrong, count))));
    }
    calls.extend(COUNTS.map(|count| Beside::past(counted(words, count))));
}

/// What the plain case and the full one are answered with the largest value at one place, 0 if they are accepted.
fn largest(full: bool, place: usize) -> u32 {
    match place {
        2 => 7,
        21 => 13,
        47 => 24,
        // Three channels have numbers.
        8..=10 if full => 26,
        // Names that are there already.
        52..=55 => 28,
        57..=59 if full => 30,
        61 | 63..=65 => 37,
        _ => 0,
    }
}

/// One more marker of each kind, with custom markers and info on and off. Only if both are on it is looked at.
fn fixed_kinds(calls: &mut Vec<Beside>, case: &Case, inputs: &Inputs) {
    let kinds = BAD_KINDS.map(|kind| (kind, Kind::Unnamed)).into_iter().chain(KINDS.map(|kind| (kind, Kind::Named)));
    for (number, kind) in kinds {
        for (custom, info) in [(true, true), (true, false), (false, true), (false, false)] {
            let mut words = inputs.words.clone();
            (words[27], words[23]) = (custom.into(), info.into());
            let row: Marker = [case.of.info.first, number << 16, 0, 0];
            let markers = Some([&inputs.markers[..], &row].concat());
            let refuses = kind == Kind::Unnamed && custom && info;
            let call = Beside::of(kind, words, refused(if refuses { 32 } else { 0 }));
            calls.push(Beside { markers, ..call });
        }
    }
}

/// EMID off, at both sides of the limits of its extent.
fn fixed_ids(calls: &mut Vec<Beside>, inputs: &Inputs) {
    let pool = inputs.raw.len() as u32;
    for (start, length, number) in [
        (0, pool, 0),
        (pool, 0, 0),
        (0, pool + 1, 2),
        (pool, 1, 2),
        (pool + 1, 0, 2),
        (u32::MAX, 1, 2),
        (0, TWO_BYTES, 2),
        (0, TWO_BYTES + 1, 2),
        (0, LONGEST_TEXT, 2),
        (0, LONGEST_TEXT + 1, 1),
        (u32::MAX, u32::MAX, 1),
    ] {
        calls.push(Beside::of(Kind::IdOff, id_off(&inputs.words, start, length), refused(number)));
    }
}

/// Calls of drawn cases and of fixed ones, by what they have instead and by the number that is wanted; none for an earlier
/// refusal of the case.
#[derive(Default)]
pub struct Counts(BTreeMap<(Kind, Option<u32>), [u64; 2]>);

impl Counts {
    pub fn count(&mut self, beside: &Beside, fixed: bool) {
        let number = (!beside.earlier).then_some(beside.wanted.number);
        self.0.entry((beside.kind, number)).or_default()[usize::from(fixed)] += 1;
    }
}

impl fmt::Display for Counts {
    fn fmt(&self, f: &mut fmt::Formatter<'_>) -> fmt::Result {
        writeln!(f, "{:50}{:>9}{:>9}", "calls with other words or one more marker", "drawn", "fixed")?;
        for ((kind, number), [drawn, fixed]) in &self.0 {
            let answer = match number {
                None => "an earlier refusal".into(),
                Some(0) => "accepted".into(),
                Some(number) => format!("refused {number}"),
            };
            writeln!(f, "  {:48}{drawn:>9}{fixed:>9}", format!("{}: {answer}", kind.name()))?;
        }
        Ok(())
    }
}
