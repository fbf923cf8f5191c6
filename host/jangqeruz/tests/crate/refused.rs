//! Each refusal that area, options or lengths can cause, by the verdict and by the build.

use jangqeruz::{
    Area, ArtistTitle, BuildError, CallerChunk, Comment, CommentKind, File, InfoChunk, Kind, Layout, LocalChunk,
    Marker, MarkerKind, Options, PropertyChunk, Refusal, Track, text_bytes, verdict,
};

use crate::sources::Silence;

/// How many values a text may have.
const LONGEST_TEXT: usize = 1_048_576;

/// What is given to a build.
struct Given {
    area: Area,
    options: Options,
    lengths: Vec<u32>,
}

/// Ten seconds of stereo DSD.
fn plain() -> Given {
    Given { area: Area::new(Kind::Dsd, 2, Layout::Stereo, 750), options: Options::default(), lengths: Vec::new() }
}

/// The same as an edited master of two tracks.
fn master() -> Given {
    let mut given = plain();
    given.area.tracks = vec![track(0, 75), track(75, 75)];
    given.options.edited_master = true;
    given
}

fn unspecified(numbers: &[u32]) -> Given {
    let mut given = plain();
    given.area.layout = Layout::Unspecified;
    given.options.channel_numbers = Some(numbers.to_vec());
    given
}

fn track(start: u32, duration: u32) -> Track {
    Track { start, duration, title: "Title".into() }
}

fn marker(frame: u32, text: &str) -> Marker {
    Marker { frame, kind: MarkerKind::Index, track_flags: 0, text: text_bytes(text) }
}

fn comment() -> Comment {
    Comment {
        year: 2024,
        month: 6,
        day: 11,
        hour: 23,
        minutes: 59,
        kind: CommentKind::Channel,
        reference: 2,
        text: "A comment".into(),
    }
}

fn chunk(name: &[u8; 4], bytes: usize) -> CallerChunk {
    CallerChunk { name: *name, data: vec![0; bytes] }
}

fn outcome(given: &Given) -> Result<(), BuildError> {
    let Given { area, options, lengths } = given;
    let said = verdict(area, options, lengths);
    let built = File::build(area, options, lengths, Silence);
    assert_eq!(built.map(|_| ()), said, "the build says the same as the verdict");
    said
}

#[track_caller]
fn accepted(mut given: Given, change: impl FnOnce(&mut Given)) {
    change(&mut given);
    assert_eq!(outcome(&given), Ok(()));
}

#[track_caller]
fn refused(number: u64, mut given: Given, change: impl FnOnce(&mut Given)) {
    refused_with(Refusal::new(number, 0).unwrap(), &mut given, change);
}

#[track_caller]
fn refused_with(refusal: Refusal, given: &mut Given, change: impl FnOnce(&mut Given)) {
    change(given);
    assert_eq!(outcome(given), Err(BuildError::Refused(refusal)));
}

#[test]
fn limits() {
    // A character of one byte in UTF-8, and one of four: what counts is characters.
    for (values, character) in [(65_536, "x"), (1_048_576, "x"), (1_048_577, "x"), (1_048_576, "𝄞"), (1_048_577, "𝄞")]
    {
        let outcome = |change: &dyn Fn(&mut Given)| match values <= LONGEST_TEXT {
            true => accepted(plain(), change),
            false => refused(1, plain(), change),
        };
        let long = character.repeat(values);
        let artist_title =
            |artist: &str, title: &str| ArtistTitle { artist: Some(artist.into()), title: Some(title.into()) };
        outcome(&|g| g.options.album = artist_title(&long, ""));
        outcome(&|g| g.options.album = artist_title("", &long));
        outcome(&|g| g.options.track = artist_title(&long, ""));
        outcome(&|g| g.options.track = artist_title("", &long));
        outcome(&|g| g.options.edited_master_id = Some(text_bytes(&long)));
        outcome(&|g| g.options.custom_markers = Some(vec![marker(0, ""), marker(0, &long)]));
        outcome(&|g| g.options.comments = vec![comment(), Comment { text: long.clone(), ..comment() }]);
        outcome(&|g| g.area.tracks = vec![track(0, 75), Track { title: long.clone(), ..track(75, 75) }]);
    }
    for count in [255, 256, 65_535] {
        accepted(plain(), |g| g.area.tracks = vec![track(0, 75); count]);
    }
    refused(1, plain(), |g| g.area.tracks = vec![track(0, 75); 65_536]);
    accepted(plain(), |g| g.options.chunks = vec![chunk(b"ABCD", 1); 255]);
    refused(1, plain(), |g| g.options.chunks = vec![chunk(b"ABCD", 1); 256]);
    accepted(plain(), |g| g.options.chunks = vec![chunk(b"ABCD", 16_777_216)]);
    refused(1, plain(), |g| g.options.chunks = vec![chunk(b"ABCD", 16_777_217)]);
    accepted(plain(), |g| g.options.custom_markers = Some(vec![marker(0, ""); 65_535]));
    refused(1, plain(), |g| g.options.custom_markers = Some(vec![marker(0, ""); 65_536]));
}

#[test]
fn caller_names() {
    accepted(plain(), |g| g.options.chunks = vec![chunk(b"ID3 ", 3)]);
    refused(4, plain(), |g| g.options.chunks = vec![chunk(b"A BC", 3)]);
    refused(4, plain(), |g| g.options.chunks = vec![chunk(b"ABC\x7F", 3), chunk(b"PROP", 3)]);
    refused(5, plain(), |g| g.options.chunks = vec![chunk(b"ID3 ", 3), chunk(b"DSD ", 3), chunk(b"A BC", 3)]);
}

#[test]
fn areas() {
    refused(6, plain(), |g| g.area.playtime = 1_152_000);
    for channels in [0, 7, 256, 258, 300, u32::MAX] {
        refused(7, plain(), |g| g.area.channels = channels);
    }
    refused(8, plain(), |g| g.area.channels = 3);
    refused(8, plain(), |g| g.area.layout = Layout::ThreeTwo);
    refused(9, plain(), |g| g.lengths = vec![1]);
    refused(9, plain(), |g| g.area.kind = Kind::Dst);
    refused(9, plain(), |g| (g.area.kind, g.area.first, g.area.end) = (Kind::Dst, 2, 1));
    let dst = |g: &mut Given, length| (g.area.kind, g.lengths) = (Kind::Dst, vec![length; 750]);
    accepted(plain(), |g| dst(g, 65_536));
    refused(10, plain(), |g| dst(g, 65_537));
    refused(10, plain(), |g| dst(g, 0));
    refused(11, plain(), |g| (g.area.first, g.area.end) = (2, 1));
    refused(11, plain(), |g| g.area.end = 751);
    refused(11, plain(), |g| (g.area.first, g.area.end) = (u32::MAX, u32::MAX));
    refused(12, plain(), |g| g.area.first = 750);
}

#[test]
fn source_tracks() {
    let with = |g: &mut Given, number| (g.area.tracks, g.options.source_track) = (vec![track(0, 75)], number);
    accepted(plain(), |g| with(g, 1));
    for number in [2, 255, 256, 257, 65_535, 65_536, 65_537, u32::MAX] {
        refused(13, plain(), |g| with(g, number));
    }
    refused(14, plain(), |g| {
        with(g, 1);
        g.area.first = 75;
    });
}

#[test]
fn edited_masters() {
    accepted(master(), |_| ());
    refused(15, master(), |g| g.area.first = 1);
    refused(16, master(), |g| g.area.layout = Layout::Unspecified);
    refused(17, master(), |g| g.area.tracks = Vec::new());
    refused(17, master(), |g| g.area.tracks = vec![track(0, 75); 256]);
    refused(1, master(), |g| g.area.tracks = vec![track(0, 75); 65_536]);
    refused_with(Refusal::TrackShort(1), &mut master(), |g| g.area.tracks[0].duration = 74);
    refused_with(Refusal::TrackShort(2), &mut master(), |g| g.area.tracks[1].duration = 0);
    refused(19, master(), |g| g.area.tracks[1].start = 74);
    refused(20, master(), |g| g.area.tracks[1].duration = 1_151_999 - 74);
    refused(21, master(), |g| g.options.custom_markers = Some(Vec::new()));
    refused(22, master(), |g| g.options.loudspeaker_configuration = false);
    refused(23, master(), |g| g.options.edited_master_id = None);
}

#[test]
fn properties() {
    accepted(plain(), |g| g.options.text_replacement = None);
    for value in [0, 0x1F, 0x7F, 256 + 0x3F, 300, u32::MAX] {
        refused(24, plain(), |g| g.options.text_replacement = Some(value));
    }
    accepted(unspecified(&[0, 999]), |_| ());
    for numbers in [&[][..], &[1], &[1, 2, 3], &[1, 2, 3, 4, 5, 6, 7]] {
        refused(25, unspecified(numbers), |_| ());
    }
    refused(26, unspecified(&[1, 1_000]), |_| ());
    refused(26, unspecified(&[70_000, 1]), |_| ());
    refused(26, unspecified(&[1, u32::MAX]), |_| ());
    refused(27, unspecified(&[5, 5, 1_000]), |g| g.area.channels = 3);
    refused(28, plain(), |g| g.options.property_order[1] = PropertyChunk::Fs);
    refused(29, plain(), |g| g.options.absolute_start = Some(6_480_000 - 750));
    refused(29, plain(), |g| g.options.absolute_start = Some(u32::MAX));
}

#[test]
fn infos() {
    let info = |g: &mut Given| g.options.edited_master_info = true;
    // Without info there is nothing to refuse.
    accepted(plain(), |g| g.options.info_order[1] = InfoChunk::Diti);
    refused(30, plain(), |g| (info(g), g.options.info_order[1] = InfoChunk::Diti).0);
    refused(31, plain(), |g| (info(g), g.options.edited_master_id = Some(text_bytes("Größe"))).0);
    accepted(plain(), |g| (info(g), g.options.custom_markers = Some(vec![marker(750, "at the end")])).0);
    refused(32, plain(), |g| (info(g), g.options.custom_markers = Some(vec![marker(751, "")])).0);
    refused(33, plain(), |g| (info(g), g.options.custom_markers = Some(vec![marker(1, "Größe")])).0);
    accepted(plain(), |g| {
        info(g);
        g.options.d2 = true;
        g.options.custom_markers = Some(vec![marker(1, "Größe")]);
    });
    refused(33, plain(), |g| {
        info(g);
        g.options.d2 = true;
        g.options.custom_markers = Some(vec![marker(1, "Dvořák")]);
    });
}

#[test]
fn comments() {
    let with = |change: fn(&mut Comment)| {
        move |g: &mut Given| {
            let mut faulty = comment();
            change(&mut faulty);
            g.options.comments = vec![comment(), faulty];
        }
    };
    accepted(plain(), with(|_| ()));
    refused(34, plain(), with(|c| c.year = 65_536));
    refused(34, plain(), with(|c| c.month = 13));
    refused(34, plain(), with(|c| c.day = 32));
    refused(34, plain(), with(|c| c.hour = 24));
    refused(34, plain(), with(|c| c.minutes = u32::MAX));
    refused(35, plain(), with(|c| c.reference = 3));
    refused(35, plain(), with(|c| (c.kind, c.reference) = (CommentKind::SoundSource, 3)));
    refused(35, plain(), with(|c| (c.kind, c.reference) = (CommentKind::FileHistory, 5)));
    accepted(plain(), with(|c| (c.kind, c.reference) = (CommentKind::General, u32::MAX)));
    accepted(plain(), |g| g.options.comments = vec![comment(); 65_535]);
    refused(36, plain(), |g| g.options.comments = vec![comment(); 65_536]);
}

#[test]
fn local_orders() {
    use LocalChunk::{Comt, Diin, Dsti, Prop, Sound};
    accepted(plain(), |g| g.options.local_order = vec![Prop, Sound]);
    refused(37, plain(), |g| g.options.local_order = vec![Prop, Sound, Prop]);
    refused(37, plain(), |g| g.options.local_order = vec![Prop, Comt, Diin, Sound, Dsti, Prop]);
    refused(37, plain(), |g| g.options.local_order = vec![Prop; 300]);
    refused(38, plain(), |g| g.options.local_order = vec![Prop]);
    refused(38, plain(), |g| g.options.local_order = Vec::new());
    refused(38, plain(), |g| {
        g.options.local_order = vec![Prop, Sound];
        g.options.comments = vec![comment()];
    });
    refused(39, plain(), |g| g.options.local_order = vec![Sound, Prop]);
}
