//! A file to be written: all that a build is given, and the same as lines of text for whoever compares.

use library::checks::{Build, COMT, DIIN, DSTI, Lent, PROP, SOUND};
use library::markers::{FIVE_POINT_ONE, Info, Properties, STEREO, Start, THREE_TWO, Text, UNSPECIFIED};

use crate::sound::{Frames, Sound};

/// FS is 0, CHNL 1, CMPR 2, ABSS 3, LSCO 4.
const PROPERTIES: [&str; 5] = ["FS", "CHNL", "CMPR", "ABSS", "LSCO"];
const LAYOUTS: [&str; 4] = ["stereo", "5", "5.1", "unspecified"];
const LOCALS: [&str; 5] = ["PROP", "SOUND", "DSTI", "DIIN", "COMT"];

pub struct Case {
    pub name: &'static str,
    what: &'static str,
    pub build: Build,
    frames: Frames,
    positions: u32,
    pool: Vec<u32>,
    raw: Vec<u8>,
    tracks: Vec<u32>,
    markers: Vec<u32>,
    comments: Vec<u32>,
    callers: Vec<u32>,
    /// Texts, tracks, markers, comments and caller chunks, a line each.
    lines: Vec<String>,
}

impl Case {
    /// The original's defaults; the layout that is defined for so many channels, or an unspecified one.
    fn new(name: &'static str, what: &'static str, channels: u8, positions: u32, frames: Frames) -> Case {
        let layout = match channels {
            2 => STEREO,
            5 => THREE_TWO,
            6 => FIVE_POINT_ONE,
            _ => UNSPECIFIED,
        };
        let properties = Properties {
            order: [0, 1, 2, 3, 4],
            dst: frames != Frames::None,
            layout,
            channels,
            loudspeaker_configuration: true,
            ..Properties::default()
        };
        let info = Info {
            order: [0, 1, 2, 3],
            emid: [1, 0, 0],
            empty_info: true,
            end: positions,
            playtime: positions,
            ..Info::default()
        };
        let build = Build {
            properties,
            info,
            dst_index: true,
            replacement: Some(b'?'),
            local_order: [PROP, COMT, DIIN, SOUND, DSTI],
            local_count: 5,
            ..Build::default()
        };
        Case {
            name,
            what,
            build,
            frames,
            positions,
            pool: Vec::new(),
            raw: Vec::new(),
            tracks: Vec::new(),
            markers: Vec::new(),
            comments: Vec::new(),
            callers: Vec::new(),
            lines: Vec::new(),
        }
    }

    pub fn dsd(name: &'static str, what: &'static str, channels: u8, positions: u32) -> Case {
        Case::new(name, what, channels, positions, Frames::None)
    }

    pub fn dst(name: &'static str, what: &'static str, channels: u8, positions: u32, frames: Frames) -> Case {
        Case::new(name, what, channels, positions, frames)
    }

    /// Changes single values.
    pub fn with(mut self, change: impl FnOnce(&mut Build)) -> Case {
        change(&mut self.build);
        self
    }

    /// An unspecified layout with these channel numbers.
    pub fn numbered(self, numbers: &[u16]) -> Case {
        self.with(|build| {
            let given = &mut build.properties.numbers;
            (given.given, given.count) = (true, numbers.len() as u32);
            given.numbers[..numbers.len()].copy_from_slice(numbers);
            build.properties.layout = UNSPECIFIED;
        })
    }

    pub fn start(self, frame: u32) -> Case {
        self.with(|build| build.properties.start = Start { given: true, frame })
    }

    /// The positions are those from `first` on of a longer play time.
    pub fn range(mut self, first: u32, playtime: u32) -> Case {
        let info = &mut self.build.info;
        (info.first, info.end, info.playtime) = (first, first + self.positions, playtime);
        self
    }

    /// The local chunks in this order.
    pub fn order(self, order: [u8; 5]) -> Case {
        self.with(|build| build.local_order = order)
    }

    pub fn d1(self) -> Case {
        self.with(|build| build.properties.d1 = true)
    }

    pub fn info(self) -> Case {
        self.with(|build| build.info.on = true)
    }

    fn text(&mut self, text: &str) -> [u32; 2] {
        let start = self.pool.len();
        self.pool.extend(text.chars().map(u32::from));
        [start, self.pool.len() - start].map(|number| number as u32)
    }

    fn bytes(&mut self, bytes: &[u8]) -> [u32; 2] {
        let start = self.raw.len() as u32;
        self.raw.extend_from_slice(bytes);
        [start, bytes.len() as u32]
    }

    pub fn emid(mut self, emid: &str) -> Case {
        let [start, length] = self.bytes(emid.as_bytes());
        self.build.info.emid = [1, start, length];
        self.lines.push(format!("emid {emid}"));
        self
    }

    /// DIIN without EMID.
    pub fn no_emid(self) -> Case {
        self.with(|build| build.info.emid = [0, 0, 0])
    }

    /// Artist and title of the album.
    pub fn artist_title(mut self, artist: &str, title: &str) -> Case {
        let [artist_text, title_text]: [Text; 2] = [artist, title].map(|text| {
            let [start, length] = self.text(text);
            [1, start, length]
        });
        (self.build.info.album_artist, self.build.info.album_title) = (artist_text, title_text);
        self.build.artist_title = library::checks::ON;
        self.lines.extend([format!("artist {artist}"), format!("title {title}")]);
        self
    }

    pub fn track(mut self, start: u32, duration: u32, title: &str) -> Case {
        let [text, length] = self.text(title);
        self.tracks.extend([start, duration, text, length]);
        self.lines.push(format!("track {start} {duration} {title}"));
        self
    }

    /// A marker that is given; then none is made from tracks.
    pub fn marker(mut self, frame: u32, kind: u32, flags: u32, text: &str) -> Case {
        let [start, length] = self.bytes(text.as_bytes());
        self.markers.extend([frame, kind << 16 | flags, start, length]);
        self.build.info.custom_markers = true;
        self.lines.push(format!("marker {frame} {kind} {flags} {text}"));
        self
    }

    pub fn comment(mut self, kind: u32, reference: u32, comment: &str) -> Case {
        let [start, length] = self.text(comment);
        self.comments.extend([2024, 6, 11, 23, 59, kind, reference, start, length]);
        self.lines.push(format!("comment {kind} {reference} {comment}"));
        self
    }

    pub fn caller(mut self, name: &[u8; 4], data: &[u8]) -> Case {
        let [start, length] = self.bytes(data);
        self.callers.extend([u32::from_be_bytes(*name), start, length]);
        let name = String::from_utf8_lossy(name).replace(' ', "_");
        let hex: String = data.iter().map(|byte| format!("{byte:02x}")).collect();
        self.lines.push(format!("caller {name} {hex}"));
        self
    }

    /// A caller chunk "ID3 " with an ID3v2 tag.
    pub fn id3(mut self, title: &str, artist: &str) -> Case {
        self.lines.extend([format!("id3-title {title}"), format!("id3-artist {artist}")]);
        self.caller(b"ID3 ", &crate::id3::tag(title, artist))
    }

    pub fn sound(&self, seed: u64) -> Sound {
        Sound::new(seed, self.build.properties.channels, self.positions, self.frames)
    }

    pub fn lent<'a>(&'a self, lengths: &'a [u32]) -> Lent<'a> {
        Lent {
            pool: &self.pool,
            raw: &self.raw,
            tracks: &self.tracks,
            markers: &self.markers,
            comments: &self.comments,
            callers: &self.callers,
            lengths,
        }
    }

    /// What is given, a line for each value.
    pub fn given(&self, lengths: &[u32], read_bytes: usize) -> String {
        let Build { properties: p, info, .. } = &self.build;
        let yes = |switch: bool| if switch { "yes" } else { "no" };
        let index = match (p.dst && self.build.dst_index, self.build.frame_data) {
            (false, _) => "none",
            (true, false) => "header",
            (true, true) => "data",
        };
        let frames = match self.frames {
            Frames::None => "none",
            Frames::Plain => "plain",
            Frames::Coded => "coded",
            Frames::Random(_) => "random",
        };
        let mut lines = vec![
            format!("what {}", self.what),
            format!("sound {}", if p.dst { "dst" } else { "dsd" }),
            format!("channels {}", p.channels),
            format!("layout {}", LAYOUTS[p.layout as usize]),
            format!("positions {}", self.positions),
            format!("first {}", info.first),
            format!("playtime {}", info.playtime),
            format!("frames {frames}"),
            format!("crc {}", yes(p.dst && self.build.dst_crc)),
            format!("index {index}"),
            format!("prop {}", p.order.map(|number| PROPERTIES[number as usize]).join(" ")),
            format!("local {}", self.build.local_order.map(|number| LOCALS[number as usize]).join(" ")),
            format!("lsco {}", yes(p.loudspeaker_configuration)),
            format!("lsco-unspecified {}", yes(p.unspecified_loudspeaker_configuration)),
            format!("d1 {}", yes(p.d1)),
            format!("d2 {}", yes(self.build.d2)),
            format!("pads-counted {}", yes(info.switches.text_pad_counted)),
            format!("info {}", yes(info.on || self.build.edited_master)),
            format!("edited-master {}", yes(self.build.edited_master)),
            format!("titles {}", yes(info.titles)),
            format!("reads-of {read_bytes}"),
        ];
        if p.numbers.given {
            let numbers = p.numbers.numbers.map(|number| number.to_string());
            lines.push(format!("numbers {}", numbers[..p.numbers.count as usize].join(" ")));
        }
        if p.start.given {
            lines.push(format!("start {}", p.start.frame));
        }
        if p.dst {
            let lengths: Vec<_> = lengths.iter().map(u32::to_string).collect();
            lines.push(format!("lengths {}", lengths.join(" ")));
        }
        lines.extend_from_slice(&self.lines);
        lines.join("\n") + "\n"
    }
}
