//! Random areas, options and lengths: mostly accepted, with values at and past every limit among them.

use jangqeruz::{
    Area, ArtistTitle, ArtistTitleSource, CallerChunk, Comment, CommentKind, IndexOffset, InfoChunk, Kind, Layout,
    LocalChunk, Marker, MarkerKind, Options, PropertyChunk, Track,
};

use crate::random::Random;

const WIDE: [u32; 12] = [0, 1, 2, 74, 255, 256, 65_535, 65_536, 1_151_999, 6_479_999, u32::MAX - 1, u32::MAX];

/// A small number, now and then any.
fn number(random: &mut Random, below: u32) -> u32 {
    match random.below(40) {
        0 => random.pick(&WIDE),
        1 => random.next() as u32,
        _ => random.below(below),
    }
}

fn text(random: &mut Random) -> String {
    let characters = ['A', 'z', ' ', '~', '\n', 'é', 'ř', '語', '\u{7F}', '\u{9F}', '\u{A0}', '\u{10FFFF}'];
    random.list(9, |random| random.pick(&characters)).into_iter().collect()
}

fn bytes(random: &mut Random) -> Vec<u8> {
    let odd = random.once_in(20);
    random.list(9, |random| if odd { random.next() as u8 } else { 0x20 + random.below(0x5F) as u8 })
}

fn artist_title(random: &mut Random) -> ArtistTitle {
    let some = |random: &mut Random| random.coin().then(|| text(random));
    ArtistTitle { artist: some(random), title: some(random) }
}

/// A list in another order, now and then with a repeat or without its last.
fn shuffled<T: Copy>(random: &mut Random, items: &mut [T]) {
    if random.coin() {
        return;
    }
    for i in (1..items.len()).rev() {
        items.swap(i, random.below(i as u32 + 1) as usize);
    }
    if random.once_in(20) {
        items[0] = items[items.len() - 1];
    }
}

pub fn area(random: &mut Random) -> Area {
    let layouts = [Layout::Stereo, Layout::ThreeTwo, Layout::FivePointOne, Layout::Unspecified];
    let channels = number(random, 7);
    let layout = if random.once_in(20) { random.pick(&layouts) } else { Layout::of_channels(channels) };
    let playtime = 1 + number(random, 300) % (u32::MAX - 1);
    let (mut first, mut end) = (0, playtime);
    if random.coin() {
        (first, end) = (number(random, playtime), number(random, playtime));
        if first > end && !random.once_in(20) {
            (first, end) = (end, first);
        }
    }
    let mut at = 0;
    let most = if random.once_in(100) { 600 } else { 4 };
    let tracks = random.list(most, |random| {
        let start = if random.once_in(20) { number(random, 300) } else { at };
        let duration = number(random, 100);
        at = start.saturating_add(duration);
        Track { start, duration, title: text(random) }
    });
    let kind = random.pick(&[Kind::Dsd, Kind::Dst]);
    Area { kind, channels, layout, playtime, first, end, tracks }
}

pub fn lengths(random: &mut Random, area: &Area) -> Vec<u32> {
    let positions = match area.kind {
        Kind::Dsd => 0,
        Kind::Dst => area.end.saturating_sub(area.first).min(2_000),
    };
    let other = if random.once_in(40) { random.below(5) } else { positions };
    (0..other).map(|_| if random.once_in(4_000) { number(random, 2) } else { 1 + random.below(65_536) }).collect()
}

fn marker(random: &mut Random, area: &Area) -> Marker {
    let kinds = [MarkerKind::TrackStart, MarkerKind::TrackStop, MarkerKind::ProgramStart, MarkerKind::Index];
    let inside = area.end.saturating_sub(area.first).saturating_add(1).max(1);
    Marker {
        frame: area.first.saturating_add(number(random, inside)),
        kind: random.pick(&kinds),
        track_flags: random.next() as u16,
        text: bytes(random),
    }
}

fn comment(random: &mut Random) -> Comment {
    let kinds = [CommentKind::General, CommentKind::Channel, CommentKind::SoundSource, CommentKind::FileHistory];
    Comment {
        year: number(random, 65_536),
        month: number(random, 13),
        day: number(random, 32),
        hour: number(random, 24),
        minutes: number(random, 60),
        kind: random.pick(&kinds),
        reference: number(random, 2),
        text: text(random),
    }
}

fn chunk(random: &mut Random) -> CallerChunk {
    let names = [*b"ID3 ", *b"ABCD", *b"A   ", *b"    "];
    let faulty = [*b"PROP", *b"A BC", [0; 4], [0xFF; 4]];
    let name = if random.once_in(30) { random.pick(&faulty) } else { random.pick(&names) };
    let bytes = random.below(50) as usize;
    CallerChunk { name, data: random.bytes(bytes) }
}

pub fn options(random: &mut Random, area: &Area) -> Options {
    let mut o = Options::default();
    if random.once_in(4) {
        let count = if random.once_in(20) { random.below(9) } else { area.channels.min(9) };
        o.channel_numbers = Some((0..count).map(|k| number(random, 1).saturating_add(3 * k)).collect());
    }
    o.unspecified_loudspeaker_configuration = random.coin();
    o.loudspeaker_configuration = !random.once_in(4);
    o.absolute_start = random.coin().then(|| number(random, 6_000_000));
    o.dst_crc = random.coin();
    o.dst_index = random.coin();
    o.dst_index_offset = random.pick(&[IndexOffset::ChunkHeader, IndexOffset::FrameData]);
    o.source_track = if random.once_in(4) { number(random, area.tracks.len() as u32 + 1) } else { 0 };
    o.edited_master = random.once_in(6);
    o.edited_master_info = random.coin();
    o.edited_master_id = (!random.once_in(4)).then(|| bytes(random));
    o.custom_markers = random.once_in(3).then(|| random.list(4, |random| marker(random, area)));
    o.source_track_markers = random.coin();
    o.clipped_program = random.coin();
    o.marker_titles = random.coin();
    o.text_pad_counted = random.coin();
    o.artist_title = random.pick(&[None, Some(true), Some(false)]);
    o.artist_title_source =
        random.pick(&[ArtistTitleSource::Album, ArtistTitleSource::Track, ArtistTitleSource::TrackThenAlbum]);
    o.album = artist_title(random);
    o.track = artist_title(random);
    o.text_replacement = random.coin().then(|| 0x20 + number(random, 0x5F) % 0x70);
    o.empty_text = random.coin();
    o.empty_info = random.coin();
    o.d1 = random.coin();
    o.d2 = random.coin();
    shuffled::<PropertyChunk>(random, &mut o.property_order);
    shuffled::<InfoChunk>(random, &mut o.info_order);
    o.local_order = local_order(random);
    o.comments = random.list(3, comment);
    o.chunks = random.list(2, chunk);
    o
}

fn local_order(random: &mut Random) -> Vec<LocalChunk> {
    let mut order = Options::default().local_order;
    if random.once_in(10) {
        shuffled(random, &mut order);
    } else {
        // All but PROP and the sound go anywhere.
        for _ in 0..3 {
            let moved = random.below(5) as usize;
            if ![LocalChunk::Prop, LocalChunk::Sound].contains(&order[moved]) {
                let chunk = order.remove(moved);
                order.insert(random.below(5) as usize, chunk);
            }
        }
    }
    match random.below(30) {
        0 => order.truncate(random.below(5) as usize),
        1 => order.extend_from_within(..random.below(5) as usize),
        _ => (),
    }
    order
}
