//! Text: converted bytes, the chunks DIAR and DITI, and the chunk COMT.

use std::fmt;
use std::ops::Range;

use crate::calls::hold;
use crate::chunks::{self, Chunk};
use crate::original::Answer;
use crate::random::Random;
use crate::subject::{keep, simplify_list, Disagreement, Fails, Halt, Subject};
use crate::{hex, is_long_run};
use library::text::{self as ours, Conversion, Extent, Row, Switches, D2, REMOVE, REPLACE};

pub struct Text;

/// A case as our functions are given it. The original's texts are read from the pool.
#[derive(Clone, PartialEq)]
pub struct Case {
    conversion: Conversion,
    switches: Switches,
    pool: Vec<u32>,
    artist: Given,
    title: Given,
    comments: Vec<Row>,
    /// Decides how long the lent buffers are.
    buffers: u64,
}

/// An artist or a title. One that is given is not empty; of one that is not, the extent says nothing.
#[derive(Clone, Copy, PartialEq)]
struct Given {
    given: bool,
    extent: Extent,
}

// The places of a row.
const KIND: usize = 5;
const REFERENCE: usize = 6;
const START: usize = 7;
const LENGTH: usize = 8;

fn extent(row: &Row) -> Extent {
    Extent { start: row[START], length: row[LENGTH] }
}

/// Each element, and how often it stands there in a row.
pub fn runs<T: PartialEq>(list: impl Iterator<Item = T>) -> impl Iterator<Item = (T, usize)> {
    let mut list = list.peekable();
    std::iter::from_fn(move || {
        let first = list.next()?;
        let mut count = 1;
        while list.next_if_eq(&first).is_some() {
            count += 1;
        }
        Some((first, count))
    })
}

/// A text in the original's case language: UTF-8 in hexadecimal.
pub fn utf8(values: &[u32]) -> String {
    let character = |&value: &u32| char::from_u32(value).expect("a scalar value");
    let told = |values: &[u32]| hex(values.iter().map(character).collect::<String>().as_bytes());
    match is_long_run(values) {
        true => format!("{}*{}", told(&values[..1]), values.len()),
        false => told(values),
    }
}

impl Case {
    fn values(&self, text: Extent) -> &[u32] {
        &self.pool[text.start as usize..][..text.length as usize]
    }

    /// The extents of all texts: artist, title, comments.
    fn texts(&self) -> impl Iterator<Item = Extent> + '_ {
        let tags = [self.artist, self.title].into_iter().filter(|text| text.given);
        tags.map(|text| text.extent).chain(self.comments.iter().map(extent))
    }

    fn utf8(&self, text: Extent) -> String {
        utf8(self.values(text))
    }
}

impl Subject for Text {
    const NAME: &'static str = "text";
    type Case = Case;
    type Counts = Counts;

    fn draw(random: &mut Random) -> Case {
        draw(random)
    }

    fn for_original(case: &Case) -> String {
        let Conversion { rule, replacement } = case.conversion;
        let switches = case.switches;
        let mut lines = vec![
            "info 1".to_owned(),
            "artist_title on".to_owned(),
            "artist_title_source album".to_owned(),
            format!("empty_text {}", u8::from(switches.empty_text)),
            format!("text_pad_counted {}", u8::from(switches.text_pad_counted)),
            format!("departures {}", if rule == D2 { "d2" } else { "-" }),
        ];
        // D2 does not use the replacement, but one that is no text byte is refused.
        if rule != REMOVE && (0x20..=0x7E).contains(&replacement) {
            lines.push(format!("replacement {replacement}"));
        } else {
            lines.push("replacement none".to_owned());
        }
        for (tag, text) in [("album_artist", case.artist), ("album", case.title)] {
            if text.given {
                lines.push(format!("tag {tag} {}", case.utf8(text.extent)));
            }
        }
        let comments = case.comments.iter().map(|row| {
            let [year, month, day, hour, minutes, kind, reference, ..] = *row;
            // A general comment has no reference there.
            let reference = if kind == 0 { 0 } else { reference };
            let text = case.utf8(extent(row));
            format!("comment {year} {month} {day} {hour} {minutes} {kind} {reference} {text}")
        });
        // A count repeats a comment.
        lines.extend(runs(comments).map(|(comment, count)| match count {
            1 => comment,
            _ => format!("{comment} {count}"),
        }));
        lines.push(String::new());
        lines.join("\n")
    }

    fn for_us(case: &Case) -> String {
        let Conversion { rule, replacement } = case.conversion;
        let Switches { empty_text, text_pad_counted } = case.switches;
        let rule_name = RULES[usize::from(rule)];
        let times = |count| if count == 1 { String::new() } else { format!(" x {count}") };
        let pool = runs(case.pool.iter()).map(|(value, count)| format!("{value:#x}{}", times(count)));
        let pool: Vec<String> = pool.collect();
        let mut lines = vec![
            format!("pool [{}]", pool.join(", ")),
            format!("rule {rule} ({rule_name}), replacement {replacement:#04x}"),
            format!("empty_text {empty_text}, text_pad_counted {text_pad_counted}"),
        ];
        for (name, text) in [("DIAR", case.artist), ("DITI", case.title)] {
            let Extent { start, length } = text.extent;
            lines.push(format!("{name} given {}, start {start}, length {length}", text.given));
        }
        lines.extend(runs(case.comments.iter()).map(|(row, count)| format!("row {row:?}{}", times(count))));
        lines.join("\n")
    }

    fn compare(case: &Case, answer: &Answer, counts: &mut Counts) -> Result<Vec<Disagreement>, String> {
        let header = answer.header()?;
        let local = chunks::before_sound(&header)?;
        let info = chunks::only(&local, b"DIIN")?.ok_or("the original wrote no DIIN")?;
        let info = chunks::all(info.data)?;
        let artist = Part::of_tag(chunks::only(&info, b"DIAR")?)?;
        let title = Part::of_tag(chunks::only(&info, b"DITI")?)?;
        let comments = Part::of_comments(chunks::only(&local, b"COMT")?)?;

        let mut held = Held { case, random: Random::of_case(case.buffers, 0), texts: 0, found: Vec::new() };
        held.tag(b"DIAR", "artist", case.artist, &artist);
        held.tag(b"DITI", "title", case.title, &title);
        held.comments(&comments);
        counts.count(case, &artist, &title, &comments, held.texts);
        Ok(held.found)
    }

    fn simplify(case: &mut Case, fails: Fails<'_, Case>) -> Result<(), Halt> {
        simplify(case, fails)
    }
}

// Comparing

/// A chunk of the original: the whole of it, empty if it was not written, and the texts in it.
struct Part<'a> {
    whole: &'a [u8],
    texts: Vec<&'a [u8]>,
}

impl<'a> Part<'a> {
    fn of_tag(chunk: Option<Chunk<'a>>) -> Result<Part<'a>, String> {
        Part::new(chunk, |data| Ok(vec![chunks::counted_text(data)?]))
    }

    fn of_comments(chunk: Option<Chunk<'a>>) -> Result<Part<'a>, String> {
        Part::new(chunk, chunks::comment_texts)
    }

    fn new(
        chunk: Option<Chunk<'a>>,
        texts: impl Fn(&'a [u8]) -> Result<Vec<&'a [u8]>, String>,
    ) -> Result<Part<'a>, String> {
        match chunk {
            None => Ok(Part { whole: &[], texts: Vec::new() }),
            Some(chunk) => Ok(Part { whole: chunk.whole, texts: texts(chunk.data)? }),
        }
    }

    fn written(&self) -> bool {
        !self.whole.is_empty()
    }
}

/// Our functions held against the parts of one answer.
struct Held<'a> {
    case: &'a Case,
    random: Random,
    /// How many texts were compared by themselves.
    texts: u64,
    found: Vec<Disagreement>,
}

impl Held<'_> {
    fn text(&mut self, what: &str, expected: &[u8], text: Extent) {
        let case = self.case;
        self.texts += 1;
        self.found.extend(hold(what, expected, text.length as usize, &mut self.random, |out| {
            ours::text_bytes(out, &case.pool, text, case.conversion)
        }));
    }

    fn tag(&mut self, id: &[u8; 4], name: &str, Given { given, extent }: Given, original: &Part) {
        let case = self.case;
        let most = 18 + if given { extent.length as usize } else { 0 };
        self.found.extend(hold(&id.escape_ascii().to_string(), original.whole, most, &mut self.random, |out| {
            ours::diin_text(out, id, &case.pool, given, extent, case.conversion, case.switches)
        }));
        if given {
            let expected = original.texts.first().copied().unwrap_or_default();
            self.text(&format!("text of the {name}"), expected, extent);
        }
    }

    fn comments(&mut self, original: &Part) {
        let case = self.case;
        let most = 15 + case.comments.iter().map(|row| 15 + row[LENGTH] as usize).sum::<usize>();
        self.found.extend(hold("COMT", original.whole, most, &mut self.random, |out| {
            ours::comt(out, &case.pool, &case.comments, case.conversion, case.switches)
        }));
        // If some were skipped, only a rule of our own could tell which.
        if original.texts.len() == case.comments.len() {
            for (row, expected) in case.comments.iter().zip(&original.texts) {
                self.text("text of a comment", expected, extent(row));
            }
        }
    }
}

// Drawing cases

/// Both sides of each limit of the rules, and of scalar values.
const EDGES: [u32; 17] = [
    0x00, 0x09, 0x0A, 0x1F, 0x20, 0x7E, 0x7F, 0x80, 0x9F, 0xA0, 0xFF, 0x100, 0xD7FF, 0xE000, 0xFFFF, 0x10000, 0x10FFFF,
];

/// What the values of a text are like.
#[derive(Clone, Copy)]
enum Flavour {
    /// Passes under every rule.
    Plain,
    /// Vanishes unless it is replaced.
    Vanishing,
    /// Passes under D2 only.
    Latin,
    Edge,
    Any,
    Mixed,
}

const FLAVOURS: [Flavour; 8] = [
    Flavour::Plain,
    Flavour::Vanishing,
    Flavour::Vanishing,
    Flavour::Latin,
    Flavour::Edge,
    Flavour::Any,
    Flavour::Mixed,
    Flavour::Mixed,
];

fn draw_value(random: &mut Random, flavour: Flavour) -> u32 {
    match flavour {
        Flavour::Plain => random.between(0x20, 0x7E),
        Flavour::Vanishing => match random.between(0, 5) {
            0 => random.between(0x00, 0x1F),
            1 => random.between(0x7F, 0x9F),
            2 => random.pick(&[0x00, 0x1F, 0x7F, 0x80, 0x9F, 0x100, 0xD7FF, 0xE000, 0x10FFFF]),
            // The low byte alone would pass.
            3 => 0x100 * random.between(1, 0xD7) + random.between(0x20, 0x7E),
            4 => random.between(0x100, 0xD7FF),
            _ => random.between(0xE000, 0x10FFFF),
        },
        Flavour::Latin => random.between(0xA0, 0xFF),
        Flavour::Edge => random.pick(&EDGES),
        Flavour::Any => match random.between(0, 0x10FFFF) {
            0xD800..=0xDFFF => 0xFFFD,
            value => value,
        },
        Flavour::Mixed => {
            let flavour = random.pick(&FLAVOURS[..6]);
            draw_value(random, flavour)
        }
    }
}

fn draw_text(random: &mut Random, least: u32) -> Vec<u32> {
    let length = match random.between(0, 999) {
        0 => random.between(601, 65_535),
        1 => 65_535,
        2..=40 => random.between(255, 600),
        41..=300 => random.between(least, 3),
        _ => random.between(least, 40),
    };
    draw_values(random, length)
}

pub fn draw_values(random: &mut Random, length: u32) -> Vec<u32> {
    let flavour = random.pick(&FLAVOURS);
    (0..length).map(|_| draw_value(random, flavour)).collect()
}

/// Where a text is found.
enum Source {
    Absent,
    /// The text of this number, laid in the pool for it.
    Own(usize),
    /// A text laid for another, or a stretch of it.
    Shared,
}

fn draw(random: &mut Random) -> Case {
    let rule = random.pick(&[REPLACE, REMOVE, D2]);
    let replacement = match random.between(0, 3) {
        0 => random.pick(&[0x20, 0x3F, 0x7E]),
        // Any byte at all where it is not used.
        1 if rule != REPLACE => random.between(0, 255),
        _ => random.between(0x20, 0x7E),
    };
    let switches = Switches { empty_text: random.one_in(2), text_pad_counted: random.one_in(2) };

    let mut texts = Vec::new();
    let mut own = |text| {
        texts.push(text);
        Source::Own(texts.len() - 1)
    };
    let artist = if random.one_in(5) { Source::Absent } else { own(draw_text(random, 1)) };
    let title = match random.between(0, 9) {
        0 | 1 => Source::Absent,
        2 if !matches!(artist, Source::Absent) => Source::Shared,
        _ => own(draw_text(random, 1)),
    };
    let count = match random.between(0, 7_999) {
        0 => 65_535,
        1 => random.between(351, 65_535),
        2..=30 => random.between(250, 350),
        _ => random.between(0, 6),
    };
    let comments: Vec<Source> = (0..count)
        .map(|_| match random.between(0, 6) {
            0 => Source::Shared,
            _ if count <= 6 => own(draw_text(random, 0)),
            drawn => {
                let length = random.between(0, if drawn == 1 { 40 } else { 3 });
                own(draw_values(random, length))
            }
        })
        .collect();

    let (pool, places) = lay(random, &texts, draw_other);
    let tag = |random: &mut Random, source: &Source| match *source {
        Source::Absent => Given { given: false, extent: nowhere(random, pool.len()) },
        Source::Own(number) => Given { given: true, extent: places[number] },
        // The artist is the first text.
        Source::Shared => Given { given: true, extent: part(random, places[0], 1) },
    };
    let artist = tag(random, &artist);
    let title = tag(random, &title);
    let comments = comments
        .iter()
        .map(|source| match *source {
            Source::Own(number) => draw_row(random, places[number]),
            _ if places.is_empty() => draw_row(random, Extent::default()),
            _ => {
                let place = random.pick(&places);
                let place = part(random, place, 0);
                draw_row(random, place)
            }
        })
        .collect();
    let conversion = Conversion { rule, replacement: replacement as u8 };
    let buffers = random.word();
    Case { conversion, switches, pool, artist, title, comments, buffers }
}

/// A value of the pool that no text has. No scalars too: nobody may look at it.
pub fn draw_other(random: &mut Random) -> u32 {
    match random.between(0, 3) {
        0 => random.between(0, u32::MAX),
        1 => random.pick(&[0xD800, 0xDFFF, 0x110000, u32::MAX]),
        _ => random.between(0x20, 0x7E),
    }
}

/// A pool that holds the texts in any order, mostly with other values between and around them.
pub fn lay<T: Copy>(random: &mut Random, texts: &[Vec<T>], other: fn(&mut Random) -> T) -> (Vec<T>, Vec<Extent>) {
    let most_between = random.pick(&[0, 1, 3, 20]);
    let fill = |random: &mut Random, pool: &mut Vec<T>| {
        for _ in 0..random.between(0, most_between) {
            pool.push(other(random));
        }
    };
    let mut order: Vec<usize> = (0..texts.len()).collect();
    random.shuffle(&mut order);
    let mut pool = Vec::new();
    let mut places = vec![Extent::default(); texts.len()];
    for number in order {
        fill(random, &mut pool);
        let text = &texts[number];
        places[number] = Extent { start: pool.len() as u32, length: text.len() as u32 };
        pool.extend(text);
    }
    fill(random, &mut pool);
    (pool, places)
}

/// A text's extent, or a stretch of at least `least` values of it.
pub fn part(random: &mut Random, text: Extent, least: u32) -> Extent {
    if text.length <= least || random.one_in(2) {
        return text;
    }
    let from = random.between(0, text.length - least);
    let length = random.between(least, text.length - from);
    Extent { start: text.start + from, length }
}

/// An extent for a text that is not given: none, in the pool of so many elements, or anywhere.
pub fn nowhere(random: &mut Random, pool: usize) -> Extent {
    let most = random.pick(&[0, pool as u32, u32::MAX]);
    Extent { start: random.between(0, most), length: random.between(0, most) }
}

fn draw_row(random: &mut Random, text: Extent) -> Row {
    let any_year = random.between(0, 65_535);
    let year = random.pick(&[0, 255, 256, 65_535, any_year, any_year, any_year, any_year]);
    let kind = random.between(0, 3);
    let reference = match kind {
        // Not to be written, so it may be anything.
        0 => random.pick(&[0, 1, 2, 65_535, 65_536, u32::MAX]),
        // A channel of two, or a sound source.
        1 | 2 => random.between(0, 2),
        _ => random.between(0, 4),
    };
    [
        year,
        random.between(0, 12),
        random.between(0, 31),
        random.between(0, 23),
        random.between(0, 59),
        kind,
        reference,
        text.start,
        text.length,
    ]
}

// Shrinking

/// The value that all others become if the case still fails.
const PLAIN: u32 = 0x41;

fn simplify(case: &mut Case, fails: Fails<'_, Case>) -> Result<(), Halt> {
    // Replacing needs a byte that may be written.
    let fails: Fails<'_, Case> = &mut |case| {
        let Conversion { rule, replacement } = case.conversion;
        Ok((rule != REPLACE || (0x20..=0x7E).contains(&replacement)) && fails(case)?)
    };
    let drop_comments = |case: &Case, gone: Range<usize>| {
        let mut simpler = case.clone();
        simpler.comments.drain(gone);
        Some(simpler)
    };
    let plain_values = |case: &Case, places: Range<usize>| {
        let mut simpler = case.clone();
        simpler.pool[places].fill(PLAIN);
        Some(simpler).filter(|simpler| simpler != case)
    };
    let absent = Given { given: false, extent: Extent::default() };
    keep(case, fails, |case| case.artist = absent)?;
    keep(case, fails, |case| case.title = absent)?;
    keep(case, fails, |case| case.comments.iter_mut().for_each(|row| row[..START].fill(0)))?;
    keep(case, fails, |case| *case = without_values(case, 0..case.pool.len()).unwrap_or(case.clone()))?;
    simplify_list(case, |case| case.comments.len(), drop_comments, fails)?;
    simplify_list(case, |case| case.pool.len(), without_values, fails)?;
    keep(case, fails, |case| case.switches.empty_text = false)?;
    keep(case, fails, |case| case.switches.text_pad_counted = false)?;
    keep(case, fails, |case| case.conversion.replacement = 0x3F)?;
    for rule in REPLACE..case.conversion.rule {
        if keep(case, fails, |case| case.conversion.rule = rule)? {
            break;
        }
    }
    for number in 0..case.comments.len() {
        keep(case, fails, |case| case.comments[number][..START].fill(0))?;
        for field in 0..KIND {
            keep(case, fails, |case| case.comments[number][field] = 0)?;
        }
        keep(case, fails, |case| case.comments[number][KIND..START].fill(0))?;
        for reference in 0..case.comments[number][REFERENCE].min(2) {
            if keep(case, fails, |case| case.comments[number][REFERENCE] = reference)? {
                break;
            }
        }
    }
    simplify_list(case, |case| case.pool.len(), plain_values, fails)?;
    keep(case, fails, |case| case.buffers = 0)?;
    Ok(())
}

/// The case without these values of the pool; `None` if a tag that is given would be empty.
fn without_values(case: &Case, gone: Range<usize>) -> Option<Case> {
    let shrunk = |text: Extent| shrunk(text, &gone);
    let mut simpler = case.clone();
    simpler.pool.drain(gone.clone());
    for text in [&mut simpler.artist, &mut simpler.title] {
        if text.given {
            text.extent = shrunk(text.extent);
            if text.extent.length == 0 {
                return None;
            }
        }
    }
    for row in &mut simpler.comments {
        let text = shrunk(extent(row));
        (row[START], row[LENGTH]) = (text.start, text.length);
    }
    Some(simpler)
}

/// A text's extent, after these elements of its pool are gone.
pub fn shrunk(text: Extent, gone: &Range<usize>) -> Extent {
    let moved = |place: u32| {
        let place = place as usize;
        let before = place.min(gone.start) + place.saturating_sub(gone.end);
        before as u32
    };
    let start = moved(text.start);
    Extent { start, length: moved(text.start + text.length) - start }
}

// Counting

pub const RULES: [&str; 3] = ["replace", "remove", "D2"];

/// A count for each rule, with empty texts left out and written.
type Line = [u64; 2 * RULES.len()];

#[derive(Default)]
struct ChunkCounts {
    written: Line,
    odd: Line,
    empty: Line,
    left_out: Line,
    absent: Line,
}

impl ChunkCounts {
    fn count(&mut self, column: usize, text: Given, original: &Part) {
        let add = |line: &mut Line, when: bool| line[column] += u64::from(when);
        add(&mut self.written, original.written());
        add(&mut self.odd, original.texts.iter().any(|text| text.len() % 2 == 1));
        add(&mut self.empty, original.texts.iter().any(|text| text.is_empty()));
        add(&mut self.left_out, text.given && !original.written());
        add(&mut self.absent, !text.given);
    }
}

#[derive(Default)]
pub struct Counts {
    cases: Line,
    pad_counted: Line,
    texts: Line,
    diar: ChunkCounts,
    diti: ChunkCounts,
    comt_written: Line,
    comt_none: Line,
    comments_written: Line,
    comments_odd: Line,
    comments_empty: Line,
    comments_skipped: Line,
    references: Line,
    longest_text: u32,
    most_comments: usize,
    edges: [u64; EDGES.len()],
}

impl Counts {
    fn count(&mut self, case: &Case, artist: &Part, title: &Part, comments: &Part, texts: u64) {
        let Switches { empty_text, text_pad_counted } = case.switches;
        let column = 2 * usize::from(case.conversion.rule) + usize::from(empty_text);
        let add = |line: &mut Line, number: usize| line[column] += number as u64;
        add(&mut self.cases, 1);
        add(&mut self.pad_counted, usize::from(text_pad_counted));
        self.texts[column] += texts;
        self.diar.count(column, case.artist, artist);
        self.diti.count(column, case.title, title);

        let given = case.comments.len();
        let written = comments.texts.len();
        let general = case.comments.iter().filter(|row| row[KIND] == 0 && row[REFERENCE] != 0);
        add(&mut self.comt_written, usize::from(comments.written()));
        add(&mut self.comt_none, usize::from(!comments.written()));
        add(&mut self.comments_written, written);
        add(&mut self.comments_odd, comments.texts.iter().filter(|text| text.len() % 2 == 1).count());
        add(&mut self.comments_empty, comments.texts.iter().filter(|text| text.is_empty()).count());
        add(&mut self.comments_skipped, given.saturating_sub(written));
        add(&mut self.references, general.count());

        self.most_comments = self.most_comments.max(given);
        for text in case.texts() {
            self.longest_text = self.longest_text.max(text.length);
            for value in case.values(text) {
                if let Ok(edge) = EDGES.binary_search(value) {
                    self.edges[edge] += 1;
                }
            }
        }
    }
}

impl fmt::Display for Counts {
    fn fmt(&self, f: &mut fmt::Formatter<'_>) -> fmt::Result {
        let rules = RULES.map(|rule| format!("{rule:>18}"));
        writeln!(f, "{:34}{}      all", "rule", rules.concat())?;
        writeln!(f, "{:34}{}", "empty texts are", " left out  written".repeat(RULES.len()))?;
        let (diar, diti) = (&self.diar, &self.diti);
        for (name, line) in [
            ("cases", self.cases),
            ("  pad counted", self.pad_counted),
            ("texts compared by themselves", self.texts),
            ("DIAR written", diar.written),
            ("  with an odd text", diar.odd),
            ("  with an empty text", diar.empty),
            ("  left out as empty", diar.left_out),
            ("  absent", diar.absent),
            ("DITI written", diti.written),
            ("  with an odd text", diti.odd),
            ("  with an empty text", diti.empty),
            ("  left out as empty", diti.left_out),
            ("  absent", diti.absent),
            ("COMT written", self.comt_written),
            ("  none", self.comt_none),
            ("comments written", self.comments_written),
            ("  with an odd text", self.comments_odd),
            ("  with an empty text", self.comments_empty),
            ("  skipped", self.comments_skipped),
            ("  general, with a reference", self.references),
        ] {
            let numbers = line.map(|number| format!("{number:>9}"));
            writeln!(f, "{name:34}{}{:>9}", numbers.concat(), line.iter().sum::<u64>())?;
        }
        writeln!(f, "longest text: {} values; most comments: {}", self.longest_text, self.most_comments)?;
        writeln!(f, "values met:")?;
        for (edge, number) in EDGES.iter().zip(self.edges) {
            writeln!(f, "  {edge:#08x}{number:>9}")?;
        }
        Ok(())
    }
}
