//! The largest header and the largest trailer that refusal 1 allows, asked for (40 and 41): rows that all name one pool of
//! 1,048,576 values. Their lengths have to be those that are reckoned from document 01's layouts.

use library::checks::{Build, COMT, DIIN, DSTI, ON, PROP, SOUND};
use library::markers::{FIVE_POINT_ONE, Info, Properties, Start};

use crate::builds::{Ours, defaults};
use crate::pool::Pool;
use crate::shared::{LONGEST, Shared, TEXT};
use crate::sizes;
use crate::sound::{Kind, Sound};
use crate::timing::timed;

const CHANNELS: u8 = 6;
/// The longest playtime (6).
const FRAMES: u64 = 1_151_999;
/// The most tracks, markers and comments, and caller chunks with their most bytes (1, 36).
const ROWS: u64 = 65_535;
const CALLERS: u64 = 255;
const CALLER_BYTES: u64 = 16_777_216;

/// Header buffer for an asking of the trailer.
const ROOM: usize = 4_096;

const IN_FRONT: [u8; 5] = [PROP, COMT, DIIN, DSTI, SOUND];
const BEHIND: [u8; 5] = [PROP, SOUND, COMT, DIIN, DSTI];

/// One of the askings.
struct Asking {
    name: &'static str,
    /// Custom markers, or those of titled tracks.
    custom: bool,
    behind: bool,
}

const ASKINGS: [Asking; 3] = [
    Asking { name: "header, custom markers", custom: true, behind: false },
    Asking { name: "header, titled tracks", custom: false, behind: false },
    Asking { name: "trailer, titled tracks", custom: false, behind: true },
];

/// The data of COMT and of DIIN, and the whole.
struct Sizes {
    comt: u64,
    diin: u64,
    whole: u64,
}

impl Asking {
    fn rows(&self) -> Shared {
        let letters = |count: usize| vec![b'A'; count];
        let rows = Shared {
            pool: vec![u32::from(b'A'); LONGEST],
            raw: letters(CALLER_BYTES as usize),
            callers: vec![[u32::from_be_bytes(*b"NOTE"), 0, CALLER_BYTES as u32]; CALLERS as usize],
            lengths: vec![1; FRAMES as usize],
            ..Shared::default()
        };
        let rows = rows.comments(ROWS as usize);
        if self.custom { rows.markers(ROWS as usize) } else { rows.tracks(ROWS as usize) }
    }

    fn build(&self, pool: &Pool) -> Build {
        let build = defaults(Sound { kind: Kind::Dst { crc: false }, positions: FRAMES as usize, pool });
        let start = Start { given: true, frame: 0 };
        let properties = Properties { channels: CHANNELS, layout: FIVE_POINT_ONE, start, ..build.properties };
        let info = Info {
            on: true,
            emid: TEXT,
            custom_markers: self.custom,
            titles: true,
            album_artist: TEXT,
            album_title: TEXT,
            ..build.info
        };
        let local_order = if self.behind { BEHIND } else { IN_FRONT };
        Build { properties, info, artist_title: ON, local_order, ..build }
    }

    fn sizes(&self) -> Sizes {
        let text = LONGEST as u64;
        let marks = if self.custom { sizes::marks(ROWS, text) } else { sizes::program(ROWS, text) };
        let diin = sizes::chunk(text) + marks + 2 * sizes::counted(text);
        let comt = sizes::comt(ROWS, text);
        let locals = sizes::chunk(comt) + sizes::chunk(diin) + sizes::chunk(sizes::dsti(FRAMES));
        let more = if self.behind {
            CALLERS * sizes::chunk(CALLER_BYTES)
        } else {
            let prop = sizes::prop(CHANNELS.into(), true, true);
            sizes::FRONT + sizes::chunk(prop) + sizes::sound_head(true)
        };
        Sizes { comt, diin, whole: locals + more }
    }

    fn print(&self, pool: &Pool) -> Result<(), String> {
        let (rows, build) = (self.rows(), self.build(pool));
        let ours = Ours::of(&build, rows.lent());
        let Sizes { comt, diin, whole } = self.sizes();
        let mut asked = 0;
        let time =
            timed(|| asked = if self.behind { ours.trailer_length(&mut [0; ROOM]) } else { ours.header_length() });
        if asked != whole {
            return Err(format!("{}: {asked} bytes, not {whole}", self.name));
        }
        let seconds = time.as_secs_f64();
        print!("{:24}{comt:>15}{diin:>15}{asked:>15}{seconds:>9.1}", self.name);
        println!("{:>10.2}", seconds * 1e9 / asked as f64);
        Ok(())
    }
}

pub fn print(pool: &Pool) -> Result<(), String> {
    println!("{:24}{:>15}{:>15}{:>15}{:>9}{:>10}", "largest", "COMT", "DIIN", "bytes", "seconds", "ns/byte");
    ASKINGS.iter().try_for_each(|asking| asking.print(pool))
}
