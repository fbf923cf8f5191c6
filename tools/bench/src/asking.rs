//! Asking how long a header is, with an empty buffer (40), where rows share one pool: little is lent, much is asked for.

use library::checks::Build;

use crate::builds::{Ours, defaults};
use crate::pool::{CHANNELS, Pool};
use crate::random::Random;
use crate::shared::{LONGEST, Shared};
use crate::sizes;
use crate::sound::{Kind, Sound};
use crate::texts;
use crate::timing::timed;

/// How many values the rows name in all; the most of plain ones alone.
const NAMED: [usize; 3] = [16 << 20, 256 << 20, MOST];
const MOST: usize = 1 << 30;

/// What the values are, and what becomes of them.
struct Rule {
    name: &'static str,
    replacement: Option<u8>,
    d2: bool,
    value: fn(&mut Random) -> u32,
}

const RULES: [Rule; 6] = [
    Rule { name: "plain", replacement: Some(b'?'), d2: false, value: plain },
    Rule { name: "replaced", replacement: Some(b'?'), d2: false, value: mixed },
    Rule { name: "removed", replacement: None, d2: false, value: mixed },
    Rule { name: "half repl.", replacement: Some(b'?'), d2: false, value: latin },
    Rule { name: "half rem.", replacement: None, d2: false, value: latin },
    Rule { name: "D2", replacement: None, d2: true, value: latin },
];

fn plain(random: &mut Random) -> u32 {
    u32::from(b' ') + random.word() % 95
}

fn mixed(random: &mut Random) -> u32 {
    texts::character(random).into()
}

/// On average one of two from 0xA0 on.
fn latin(random: &mut Random) -> u32 {
    if random.word().is_multiple_of(2) { plain(random) } else { 0xA0 + random.word() % 0x60 }
}

impl Rule {
    fn passes(&self, value: u32) -> bool {
        (0x20..=0x7E).contains(&value) || self.d2 && (0xA0..=0xFF).contains(&value)
    }

    fn pool(&self) -> Vec<u32> {
        let mut random = Random(19_991_231);
        (0..LONGEST).map(|_| (self.value)(&mut random)).collect()
    }

    /// How many bytes the pool becomes.
    fn bytes(&self, pool: &[u32]) -> u64 {
        pool.iter().filter(|value| self.replacement.is_some() || self.passes(**value)).count() as u64
    }
}

/// Where the texts are.
#[derive(Clone, Copy, PartialEq)]
enum Place {
    Comments,
    Markers,
    Titles,
    /// Of tracks, where nothing writes them.
    Unwritten,
}

const PLACES: [Place; 4] = [Place::Comments, Place::Markers, Place::Titles, Place::Unwritten];

impl Place {
    fn name(self) -> &'static str {
        match self {
            Place::Comments => "comments",
            Place::Markers => "marker texts",
            Place::Titles => "titles",
            Place::Unwritten => "titles, unused",
        }
    }

    /// Whether a rule is tried: a custom marker's text has to pass as it is (33), and texts that are not written have none.
    fn takes(self, rule: &Rule) -> bool {
        match self {
            Place::Comments | Place::Titles => true,
            Place::Markers => matches!(rule.name, "plain" | "D2"),
            Place::Unwritten => rule.name == "plain",
        }
    }

    fn rows(self, pool: Vec<u32>, count: usize) -> Shared {
        let raw = pool.iter().map(|value| *value as u8).collect();
        let shared = Shared { pool, raw, ..Shared::default() };
        match self {
            Place::Comments => shared.comments(count),
            Place::Markers => shared.markers(count),
            Place::Titles | Place::Unwritten => shared.tracks(count),
        }
    }

    fn build(self, build: Build) -> Build {
        let mut build = build;
        build.info.on = matches!(self, Place::Markers | Place::Titles);
        (build.info.custom_markers, build.info.titles) = (self == Place::Markers, self == Place::Titles);
        build
    }

    /// How long the header is, of so many texts of so many bytes.
    fn header(self, count: u64, text: u64) -> u64 {
        let chunk = match self {
            Place::Comments => sizes::chunk(sizes::comt(count, text)),
            Place::Markers => sizes::chunk(sizes::marks(count, text)),
            Place::Titles => sizes::chunk(sizes::program(count, text)),
            Place::Unwritten => 0,
        };
        sizes::FRONT + sizes::chunk(sizes::prop(CHANNELS.into(), false, false)) + chunk + sizes::sound_head(false)
    }
}

pub fn print(pool: &Pool) -> Result<(), String> {
    print!("{:16}{:12}{:>10}{:>9}{:>14}", "asking", "rule", "values", "rows", "header");
    println!("{:>14}{:>10}", "ns", "ns/value");
    for place in PLACES {
        for rule in RULES.iter().filter(|rule| place.takes(rule)) {
            for values in NAMED.into_iter().filter(|values| *values < MOST || rule.name == "plain") {
                print_one(pool, place, rule, values)?;
            }
        }
    }
    Ok(())
}

fn print_one(pool: &Pool, place: Place, rule: &Rule, values: usize) -> Result<(), String> {
    let count = values / LONGEST;
    let shared = place.rows(rule.pool(), count);
    let wanted = place.header(count as u64, rule.bytes(&shared.pool));
    // The last track's stop is at the end.
    let sound = Sound { kind: Kind::Dsd, positions: 2 * count, pool };
    let build = Build { replacement: rule.replacement, d2: rule.d2, ..place.build(defaults(sound)) };
    let ours = Ours::of(&build, shared.lent());
    let mut header = 0;
    let time = timed(|| header = ours.header_length()).as_nanos() as f64;
    let name = place.name();
    if header != wanted {
        return Err(format!("{name}, {}, {values} values: a header of {header} bytes, not {wanted}", rule.name));
    }
    print!("{name:16}{:12}{values:>10}{count:>9}{header:>14}", rule.name);
    println!("{time:>14.0}{:>10.2}", time / values as f64);
    Ok(())
}
