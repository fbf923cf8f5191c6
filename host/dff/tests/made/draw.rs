//! Areas and options, drawn.

use super::{Draw, Frames, Made};
use jangqeruz::{
    Area, ArtistTitle, CallerChunk, Comment, CommentKind, FRAME_BYTES_PER_CHANNEL, IndexOffset, InfoChunk, Kind,
    Layout, LocalChunk, Marker, MarkerKind, Options, PropertyChunk, Track,
};

/// The next file that the library takes.
pub fn made(random: &mut Draw) -> Made {
    loop {
        let area = area(random);
        let options = options(random, &area);
        let frames = frames(random, &area);
        if let Some(made) = Made::new(area, options, frames) {
            return made;
        }
    }
}

fn area(random: &mut Draw) -> Area {
    let (channels, layout) = random.pick(&[
        (2, Layout::Stereo),
        (2, Layout::Stereo),
        (5, Layout::ThreeTwo),
        (6, Layout::FivePointOne),
        (1, Layout::Unspecified),
        (3, Layout::Unspecified),
    ]);
    let kind = random.pick(&[Kind::Dsd, Kind::Dst, Kind::Dst]);
    let master = layout == Layout::Stereo && random.chance(15);
    let playtime = if master { random.range(150..160) } else { random.range(1..6) };
    let whole = master || random.chance(60);
    let first = if whole { 0 } else { random.range(0..playtime) };
    let end = if whole { playtime } else { random.range(first + 1..playtime + 1) };
    let half = playtime / 2;
    let mut tracks = vec![];
    if half > 0 && (master || random.chance(70)) {
        let gap = if !master && random.chance(30) { half.saturating_sub(1) } else { half };
        tracks.push(Track { start: 0, duration: gap.max(1), title: text(random) });
        tracks.push(Track { start: half, duration: playtime - half, title: text(random) });
    }
    Area { kind, channels, layout, playtime, first, end, tracks }
}

pub fn frames(random: &mut Draw, area: &Area) -> Frames {
    let bytes = FRAME_BYTES_PER_CHANNEL * area.channels as usize;
    let fill = random.chance(50);
    let plain: Vec<Vec<u8>> = (0..area.playtime)
        .map(|number| if fill { vec![0x69 ^ number as u8; bytes] } else { random.bytes(bytes) })
        .collect();
    let own = random.chance(40);
    let coded = plain.iter().map(|content| match own {
        true => [&[0], content.as_slice()].concat(),
        false => {
            let length = random.range(1..60) as usize;
            let mut frame = random.bytes(length);
            frame[0] |= 0x80;
            frame
        }
    });
    Frames { coded: if area.kind == Kind::Dst { coded.collect() } else { vec![] }, plain }
}

fn options(random: &mut Draw, area: &Area) -> Options {
    let mut options = Options::default();
    if random.chance(10) {
        return options; // 01's defaults
    }
    if random.chance(50) {
        let mut numbers: Vec<u32> = vec![0, 7, 42, 999, 100, 123];
        random.shuffle(&mut numbers);
        numbers.truncate(area.channels as usize);
        options.channel_numbers = Some(numbers);
    }
    options.unspecified_loudspeaker_configuration = random.chance(50);
    options.loudspeaker_configuration = random.chance(70);
    options.absolute_start = random.pick(&[None, Some(0), Some(1), Some(270_000), Some(6_479_000)]);
    options.dst_crc = random.chance(50);
    options.dst_index = random.chance(70);
    options.dst_index_offset = random.pick(&[IndexOffset::ChunkHeader, IndexOffset::FrameData]);
    options.edited_master = area.playtime >= 150 && random.chance(80);
    options.loudspeaker_configuration |= options.edited_master;
    options.edited_master_info = random.chance(75);
    options.edited_master_id = random.pick(&[None, Some(vec![]), Some(b"id".to_vec()), Some(b"odd".to_vec())]);
    if options.edited_master {
        options.edited_master_id.get_or_insert_default();
    }
    options.d1 = random.chance(40);
    options.d2 = random.chance(40);
    if !options.edited_master && random.chance(60) {
        options.custom_markers = Some((0..random.under(4)).map(|_| marker(random, area, options.d2)).collect());
    }
    options.clipped_program = random.chance(50);
    options.marker_titles = random.chance(50);
    options.text_pad_counted = random.chance(50);
    options.artist_title = random.pick(&[None, Some(true), Some(true), Some(false)]);
    let one = |random: &mut Draw| if random.chance(70) { Some(text(random)) } else { None };
    options.album = ArtistTitle { artist: one(random), title: one(random) };
    options.text_replacement = random.pick(&[Some(0x3F), None]);
    options.empty_text = random.chance(40);
    options.empty_info = random.chance(70);
    options.property_order = order(
        random,
        [PropertyChunk::Fs, PropertyChunk::Chnl, PropertyChunk::Cmpr, PropertyChunk::Abss, PropertyChunk::Lsco],
    );
    options.info_order = order(random, [InfoChunk::Emid, InfoChunk::Mark, InfoChunk::Diar, InfoChunk::Diti]);
    let local = [LocalChunk::Prop, LocalChunk::Sound, LocalChunk::Dsti, LocalChunk::Diin, LocalChunk::Comt];
    options.local_order = order(random, local).to_vec();
    options.comments = (0..random.under(4)).map(|_| comment(random, area)).collect();
    options.chunks = (0..random.under(3)).map(|_| chunk(random)).collect();
    options
}

fn order<T, const N: usize>(random: &mut Draw, mut list: [T; N]) -> [T; N] {
    random.shuffle(&mut list);
    list
}

fn text(random: &mut Draw) -> String {
    let texts = ["", "a", "ab", "odd", "An artist", "Größe", "\u{a0}\u{ff}", "漢字", "tab\there", "\"quoted\\\""];
    random.pick(&texts).to_string()
}

fn marker(random: &mut Draw, area: &Area, latin: bool) -> Marker {
    let kinds = [MarkerKind::TrackStart, MarkerKind::TrackStop, MarkerKind::ProgramStart, MarkerKind::Index];
    let mut texts = vec![b"".to_vec(), b"x".to_vec(), b"xy".to_vec(), b"a mark".to_vec()];
    if latin {
        texts.push(b"\xA0\xFFz".to_vec());
    }
    Marker {
        frame: random.range(area.first..area.end + 1),
        kind: random.pick(&kinds),
        track_flags: random.pick(&[0, 1, 0x8001]),
        text: random.pick(&texts),
    }
}

fn comment(random: &mut Draw, area: &Area) -> Comment {
    let kinds = [CommentKind::General, CommentKind::Channel, CommentKind::SoundSource, CommentKind::FileHistory];
    let kind = random.pick(&kinds);
    let most = match kind {
        CommentKind::General => 1000,
        CommentKind::Channel => area.channels,
        CommentKind::SoundSource => 2,
        CommentKind::FileHistory => 4,
    };
    Comment {
        year: random.range(0..65_536),
        month: random.range(0..13),
        day: random.range(0..32),
        hour: random.range(0..24),
        minutes: random.range(0..60),
        kind,
        reference: random.range(0..most + 1),
        text: text(random),
    }
}

fn chunk(random: &mut Draw) -> CallerChunk {
    let name = random.pick(&[*b"ABCD", *b"ID3 ", *b"EMID", *b"DSTF", *b"X   "]);
    let count = random.under(40) as usize;
    CallerChunk { name, data: random.bytes(count) }
}
