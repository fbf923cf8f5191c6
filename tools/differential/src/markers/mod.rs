//! Markers and properties: the chunks PROP and DIIN.

pub mod counts;
pub mod draw;
pub mod simplify;

use std::borrow::Cow;
use std::iter;

use library::markers::{self as ours, ChannelNumbers, Info, Lent, Marker, Properties, Track, INDEX, PROGRAM_START};
use library::text::{Extent, D2, REMOVE};

use self::counts::Counts;
use crate::calls::hold;
use crate::chunks;
use crate::original::Answer;
use crate::random::Random;
use crate::short_hex;
use crate::subject::{Disagreement, Fails, Halt, Subject};
use crate::text::{utf8, RULES};

pub struct Markers;

/// A case as our functions are given it, and what only the original is told. It reads its texts from the pools.
#[derive(Clone, PartialEq)]
pub struct Case {
    pub properties: Properties,
    pub info: Info,
    pub tracks: Vec<TrackOf>,
    /// Read only if the markers are custom.
    pub custom: Vec<MarkerOf>,
    pub pool: Vec<u32>,
    pub raw: Vec<u8>,
    /// The area's configuration, which with the number of channels gives the layout.
    pub config: u8,
    /// The original is told nothing of artist and title, instead of "off".
    pub unset: bool,
    /// DIIN comes after the sound.
    pub after_sound: bool,
    /// Decides how long the lent buffers are.
    pub buffers: u64,
}

#[derive(Clone, Copy, PartialEq)]
pub struct TrackOf {
    pub start: u32,
    pub duration: u32,
    pub title: Extent,
    /// The original is given no title, and we an empty one.
    pub untitled: bool,
}

impl TrackOf {
    pub fn end(&self) -> u32 {
        self.start.saturating_add(self.duration)
    }
}

#[derive(Clone, Copy, PartialEq)]
pub struct MarkerOf {
    pub frame: u32,
    /// 16 bits, of which only four values have a name.
    pub kind: u32,
    pub flags: u32,
    pub text: Extent,
}

/// The last source track that the original can be told.
pub const LAST_TOLD: u16 = 255;

const PROPERTY_NAMES: [&str; 5] = ["fs", "chnl", "cmpr", "abss", "lsco"];
const INFO_NAMES: [&str; 4] = ["emid", "mark", "diar", "diti"];
const SOURCE_NAMES: [&str; 3] = ["album", "track", "track_then_album"];

/// What a number means: all above the last are as the last.
pub fn meant<T: Copy>(number: u8, list: &[T]) -> T {
    list[usize::from(number).min(list.len() - 1)]
}

pub fn order(numbers: &[u8], names: &[&str]) -> String {
    numbers.iter().map(|&number| meant(number, names)).collect::<Vec<_>>().join(",")
}

fn extent([_, start, length]: ours::Text) -> Extent {
    Extent { start, length }
}

impl Case {
    fn values(&self, text: Extent) -> &[u32] {
        &self.pool[text.start as usize..][..text.length as usize]
    }

    fn bytes(&self, text: Extent) -> &[u8] {
        &self.raw[text.start as usize..][..text.length as usize]
    }

    /// The tags, each with the original's name.
    fn tags(&self) -> [(&'static str, ours::Text); 4] {
        let info = &self.info;
        [
            ("album_artist", info.album_artist),
            ("album", info.album_title),
            ("performer", info.track_artist),
            ("title", info.track_title),
        ]
    }

    pub fn track_rows(&self) -> Vec<Track> {
        let row = |track: &TrackOf| [track.start, track.duration, track.title.start, track.title.length];
        self.tracks.iter().map(row).collect()
    }

    pub fn marker_rows(&self) -> Vec<Marker> {
        let row =
            |marker: &MarkerOf| [marker.frame, marker.kind << 16 | marker.flags, marker.text.start, marker.text.length];
        self.custom.iter().map(row).collect()
    }

    /// The source track and the tracks as the original is told them. It has a byte for the number: a later track changes places
    /// with the last that a byte can tell, and one that there is not is 0, which is no track there either. The other tracks do
    /// not count if there is a source track.
    fn told_tracks(&self) -> (Option<u32>, Cow<'_, [TrackOf]>) {
        let tracks = Cow::Borrowed(&self.tracks[..]);
        match self.info.source_track {
            0 => (None, tracks),
            source if source <= LAST_TOLD => (Some(source.into()), tracks),
            source if usize::from(source) > tracks.len() => (Some(0), tracks),
            source => {
                let mut swapped = tracks.into_owned();
                swapped.swap(usize::from(source) - 1, usize::from(LAST_TOLD) - 1);
                (Some(LAST_TOLD.into()), Cow::Owned(swapped))
            }
        }
    }

    /// The case in the original's case language, but for the lengths of DST frames.
    pub fn lines(&self) -> Vec<String> {
        let Case { properties, info, .. } = self;
        let bit = u8::from;
        let ChannelNumbers { given, count, numbers } = properties.numbers;
        let numbers = numbers.into_iter().chain(iter::repeat(0)).take(count as usize);
        let numbers = numbers.map(|number| number.to_string()).collect::<Vec<_>>().join(",");
        let numbers = if numbers.is_empty() { "-" } else { &numbers };
        let rule = info.conversion.rule;
        let replacement = info.conversion.replacement;
        // D2 does not use the replacement, but one that is no text byte is refused.
        let replaces = rule != REMOVE && (0x20..=0x7E).contains(&replacement);
        let departures = match (properties.d1, rule >= D2) {
            (false, false) => "-",
            (true, false) => "d1",
            (false, true) => "d2",
            (true, true) => "d1,d2",
        };
        let artist_title = match (info.artist_title, self.unset) {
            (true, _) => "on",
            (false, false) => "off",
            (false, true) => "unset",
        };
        // The original has an EMID even if it is not written.
        let emid = if info.emid[0] == 0 { &b"EMID"[..] } else { self.bytes(extent(info.emid)) };
        let mut lines = vec![
            format!("kind {}", if properties.dst { "dst" } else { "dsd" }),
            format!("channels {}", properties.channels),
            format!("config {}", self.config),
            format!("playtime {}", info.playtime),
            format!("range {} {}", info.first, info.end),
            format!("property_order {}", order(&properties.order, &PROPERTY_NAMES)),
            format!("info_order {}", order(&info.order, &INFO_NAMES)),
            format!(
                "local_order {}",
                if self.after_sound { "prop,comt,sound,diin,dsti" } else { "prop,comt,diin,sound,dsti" }
            ),
            format!("channel_numbers {}", if given { numbers } else { "none" }),
            format!("lsco {}", bit(properties.loudspeaker_configuration)),
            format!("unspecified_lsco {}", bit(properties.unspecified_loudspeaker_configuration)),
            format!("info {}", bit(info.on)),
            format!("empty_info {}", bit(info.empty_info)),
            format!("emid_written {}", bit(info.emid[0] != 0)),
            format!("emid {}", short_hex(emid)),
            format!("markers {}", if info.custom_markers { "custom" } else { "toc" }),
            format!("source_track_markers {}", bit(info.source_track_markers)),
            format!("clipped_program {}", bit(info.clipped_program)),
            format!("marker_text {}", if info.titles { "title" } else { "empty" }),
            format!("artist_title {artist_title}"),
            format!("artist_title_source {}", meant(info.artist_title_source, &SOURCE_NAMES)),
            format!("empty_text {}", bit(info.switches.empty_text)),
            format!("text_pad_counted {}", bit(info.switches.text_pad_counted)),
            format!("departures {departures}"),
        ];
        let mut optional = |key: &str, number: Option<u32>| match number {
            Some(number) => lines.push(format!("{key} {number}")),
            None => lines.push(format!("{key} none")),
        };
        optional("absolute_start", properties.start.given.then_some(properties.start.frame));
        let (source_track, tracks) = self.told_tracks();
        optional("source_track", source_track);
        optional("replacement", replaces.then_some(replacement.into()));
        for track in tracks.iter() {
            let title = if track.untitled { "-".into() } else { utf8(self.values(track.title)) };
            lines.push(format!("track {} {} {title}", track.start, track.duration));
        }
        if info.custom_markers {
            for MarkerOf { frame, kind, flags, text } in self.custom.iter().copied() {
                let kind = if kind <= PROGRAM_START { kind } else { INDEX };
                lines.push(format!("marker {frame} {kind} {flags} {}", short_hex(self.bytes(text))));
            }
        }
        for (name, tag) in self.tags().into_iter().filter(|(_, tag)| tag[0] != 0) {
            lines.push(format!("tag {name} {}", utf8(self.values(extent(tag)))));
        }
        lines
    }

    /// The case as our functions are given it, for a reader.
    pub fn told(&self) -> String {
        let rule = meant(self.info.conversion.rule, &RULES);
        let pool = self.pool.iter().map(|value| format!("{value:#x}")).collect::<Vec<_>>();
        let mut lines = vec![
            format!("{:?}", self.properties),
            format!("{:?}", self.info),
            format!("the rule: {rule}"),
            format!("pool [{}]", pool.join(", ")),
            format!("raw {}", short_hex(&self.raw)),
        ];
        lines.extend(self.track_rows().iter().map(|row| format!("track {row:?}")));
        lines.extend(self.marker_rows().iter().map(|row| format!("marker {row:?}")));
        lines.join("\n")
    }

    /// No DIIN of this case has more bytes.
    fn most_info(&self) -> usize {
        let given = |text: ours::Text| if text[0] == 0 { 0 } else { text[2] as usize };
        let titles = self.tracks.iter().map(|track| track.title.length as usize).sum::<usize>();
        let texts = self.custom.iter().map(|marker| marker.text.length as usize).sum::<usize>();
        let tags = self.tags().map(|(_, tag)| given(tag)).iter().sum::<usize>();
        let marks = 1 + 2 * self.tracks.len() + self.custom.len();
        100 + given(self.info.emid) + titles + texts + tags + 40 * marks
    }
}

impl Subject for Markers {
    const NAME: &'static str = "markers and properties";
    type Case = Case;
    type Counts = Counts;

    fn draw(random: &mut Random) -> Case {
        draw::draw(random)
    }

    fn for_original(case: &Case) -> String {
        let mut lines = case.lines();
        if case.properties.dst {
            lines.push(format!("lengths 3x{}", case.info.end - case.info.first));
        }
        lines.push(String::new());
        lines.join("\n")
    }

    fn for_us(case: &Case) -> String {
        case.told()
    }

    fn compare(case: &Case, answer: &Answer, counts: &mut Counts) -> Result<Vec<Disagreement>, String> {
        let (header, trailer) = (answer.header()?, answer.trailer()?);
        let before = chunks::before_sound(&header)?;
        let after = chunks::all(&trailer)?;
        let property = chunks::only(&before, b"PROP")?.ok_or("the original wrote no PROP")?;
        let local = [before, after].concat();
        let info = chunks::only(&local, b"DIIN")?;
        counts.count(case, property, info)?;

        let random = &mut Random::of_case(case.buffers, 0);
        let mut found = hold("PROP", property.whole, 200, random, |out| ours::property(out, &case.properties));
        let whole = info.map_or(&[][..], |info| info.whole);
        let (tracks, custom) = (case.track_rows(), case.marker_rows());
        let lent = Lent { pool: &case.pool, raw: &case.raw, tracks: &tracks, custom: &custom };
        found.extend(hold("DIIN", whole, case.most_info(), random, |out| ours::diin(out, lent, &case.info)));
        Ok(found)
    }

    fn simplify(case: &mut Case, fails: Fails<'_, Case>) -> Result<(), Halt> {
        simplify::simplify(case, fails)
    }
}
