//! The walk takes each drawn file, and what it tells is what the file was made of.

mod made;

use jangqeruz::{Comment, CommentKind, IndexOffset, Kind, Layout, Marker, MarkerKind, Options};
use made::{Draw, Made, draw};
use walk::{Leads, Name, SoundKind, Walk};

const FILES: u64 = if cfg!(debug_assertions) { 300 } else { 3000 };
const RATE: u32 = 2_822_400;

#[test]
fn the_values_are_the_given_ones() {
    let mut random = Draw(11);
    let (mut markers, mut texts, mut comments) = (0, 0, 0);
    for _ in 0..FILES {
        let made = draw::made(&mut random);
        let walked = walk::walk(&made.bytes[..]).unwrap();
        assert_eq!(walked.faults, [], "{:?}", made.options);
        assert_eq!((walked.size, walked.pads.wrong), (made.bytes.len() as u64, 0));
        property(&made, &walked);
        sound(&made, &walked);
        markers += given_markers(&made, &walked);
        texts += info_texts(&made, &walked);
        comments += given_comments(&made, &walked);
        let top = walked.form.as_ref().unwrap().chunks.iter();
        let known: [&[u8; 4]; 7] = [b"FVER", b"PROP", b"DSD ", b"DST ", b"DSTI", b"DIIN", b"COMT"];
        let callers: Vec<_> = top.filter(|chunk| !known.contains(&&chunk.name.0)).collect();
        assert_eq!(callers.len(), made.options.chunks.len());
        for (chunk, given) in callers.iter().zip(&made.options.chunks) {
            assert_eq!(chunk.name.0, given.name);
            assert_eq!(stretch(&made, chunk.data(), chunk.size), given.data);
        }
    }
    assert!(markers > FILES / 3 && texts > FILES / 3 && comments > FILES / 2);
}

fn stretch(made: &Made, place: u64, length: u64) -> &[u8] {
    &made.bytes[place as usize..][..length as usize]
}

fn property(made: &Made, walked: &Walk) {
    assert_eq!(walked.version.as_ref().unwrap().value, 0x0105_0000);
    assert_eq!(walked.rate.as_ref().unwrap().value, RATE);
    let names: Vec<Name> = match made.area.layout {
        Layout::Stereo => [b"SLFT", b"SRGT"].map(|name| Name(*name)).to_vec(),
        Layout::ThreeTwo => [b"MLFT", b"MRGT", b"C   ", b"LS  ", b"RS  "].map(|name| Name(*name)).to_vec(),
        Layout::FivePointOne => [b"MLFT", b"MRGT", b"C   ", b"LFE ", b"LS  ", b"RS  "].map(|name| Name(*name)).to_vec(),
        Layout::Unspecified => {
            let count = 0..made.area.channels;
            let numbers = made.options.channel_numbers.clone().unwrap_or(count.collect());
            numbers.iter().map(|number| Name(format!("C{number:03}").as_bytes().try_into().unwrap())).collect()
        }
    };
    assert_eq!(walked.channels.as_ref().unwrap().value, names);
    let compression = walked.compression.as_ref().unwrap();
    let (kind, name, size) = match made.area.kind {
        Kind::Dsd => (b"DSD ", &b"not compressed"[..], if made.options.d1 { 20 } else { 19 }),
        Kind::Dst => (b"DST ", &b"DST Encoded"[..], 16),
    };
    assert_eq!((compression.value.kind.0, compression.value.name.as_slice(), compression.size), (*kind, name, size));
    let start = made.options.absolute_start.or(made.options.edited_master.then_some(0));
    let found = walked.start.as_ref().map(|start| start.value.frame(RATE).unwrap());
    assert_eq!(found, start.map(u64::from));
    let (switch, code) = match made.area.layout {
        Layout::Stereo => (made.options.loudspeaker_configuration, 0),
        Layout::ThreeTwo => (made.options.loudspeaker_configuration, 3),
        Layout::FivePointOne => (made.options.loudspeaker_configuration, 4),
        Layout::Unspecified => (made.options.unspecified_loudspeaker_configuration, 65_535),
    };
    assert_eq!(walked.speakers.as_ref().map(|speakers| speakers.value), switch.then_some(code));
}

fn sound(made: &Made, walked: &Walk) {
    let (sound, range) = (walked.sound.as_ref().unwrap(), made.range());
    assert_eq!(walked.frame_count(), range.len() as u64);
    let (kind, frames) = match made.area.kind {
        Kind::Dsd => (SoundKind::Dsd, &made.frames.plain[range.clone()]),
        Kind::Dst => (SoundKind::Dst, &made.frames.coded[range.clone()]),
    };
    assert_eq!(sound.kind, kind);
    for (number, frame) in frames.iter().enumerate() {
        let found = sound.frame(number as u64, walked.frame_bytes()).unwrap();
        assert!(stretch(made, found.place, found.length) == frame);
    }
    let dst = made.area.kind == Kind::Dst;
    let crcs: Vec<_> = sound.crcs.iter().map(|crc| (crc.frame, crc.value)).collect();
    let given: Vec<_> =
        (0u32..).zip(&made.frames.plain[range]).map(|(n, plain)| (Some(n), jangqeruz::crc(plain))).collect();
    assert_eq!(crcs, if dst && made.options.dst_crc { given } else { vec![] });
    assert_eq!(walked.index.is_some(), dst && made.options.dst_index);
    if let Some(index) = &walked.index {
        let report = index.against(&sound.frames);
        assert!(report.is_right());
        let leads = match made.options.dst_index_offset {
            IndexOffset::ChunkHeader => Leads::ToHeader,
            IndexOffset::FrameData => Leads::ToData,
        };
        assert_eq!(report.leads, leads);
    }
}

/// A text as the rules of the options write it.
fn written(text: &str, options: &Options) -> Vec<u8> {
    let value = |c: char| match (c as u32, options.d2, options.text_replacement) {
        (c @ 0x20..=0x7E, _, _) | (c @ 0xA0..=0xFF, true, _) => Some(c as u8),
        (_, true, _) | (_, _, None) => None,
        (_, _, Some(byte)) => Some(byte as u8),
    };
    text.chars().filter_map(value).collect()
}

fn has_info(made: &Made) -> bool {
    made.options.edited_master_info || made.options.edited_master
}

fn given_markers(made: &Made, walked: &Walk) -> u64 {
    let Some(markers) = made.options.custom_markers.as_ref().filter(|_| has_info(made)) else { return 0 };
    assert_eq!(walked.markers.len(), markers.len());
    let start = made.options.absolute_start.unwrap_or(0);
    for (found, given) in walked.markers.iter().zip(markers) {
        let Marker { frame, kind, track_flags, text } = given;
        let (number, flags) = match kind {
            MarkerKind::TrackStart => (0, *track_flags),
            MarkerKind::TrackStop => (1, 0),
            MarkerKind::ProgramStart => (2, 0),
            MarkerKind::Index => (4, 0),
        };
        let value = &found.value;
        assert_eq!(value.time.frame(RATE), Some(u64::from(start + frame - made.area.first)));
        assert_eq!((value.offset, value.kind, value.channel, value.flags), (0, number, 0, flags));
        assert_eq!(value.text.bytes, *text);
        let pad = made.options.text_pad_counted && text.len() % 2 == 1;
        assert_eq!(found.size, (22 + text.len() + usize::from(pad)) as u64);
    }
    markers.len() as u64
}

fn info_texts(made: &Made, walked: &Walk) -> u64 {
    let options = &made.options;
    let id = options.edited_master_id.as_ref().filter(|_| has_info(made));
    assert_eq!(walked.id.as_ref().map(|id| &id.value.bytes), id);
    let on = has_info(made) && options.artist_title.unwrap_or(options.edited_master);
    let given = |text: &Option<String>| {
        let text = text.as_ref().filter(|_| on).map(|text| written(text, options));
        text.filter(|text| options.empty_text || !text.is_empty())
    };
    let (artist, title) = (given(&options.album.artist), given(&options.album.title));
    assert_eq!(walked.artist.as_ref().map(|text| &text.value.bytes), artist.as_ref());
    assert_eq!(walked.title.as_ref().map(|text| &text.value.bytes), title.as_ref());
    u64::from(artist.is_some()) + u64::from(title.is_some())
}

fn given_comments(made: &Made, walked: &Walk) -> u64 {
    let options = &made.options;
    let texts = options.comments.iter().map(|comment| (comment, written(&comment.text, options)));
    let given: Vec<_> = texts.filter(|(_, text)| options.empty_text || !text.is_empty()).collect();
    let found = walked.comments.as_ref().map_or(&[][..], |comments| &comments.value);
    assert_eq!((walked.comments.is_some(), found.len()), (!given.is_empty(), given.len()));
    for (found, (comment, text)) in found.iter().zip(&given) {
        let Comment { year, month, day, hour, minutes, kind, reference, .. } = comment;
        let date = [found.month, found.day, found.hour, found.minutes].map(u32::from);
        assert_eq!((u32::from(found.year), date), (*year, [*month, *day, *hour, *minutes]));
        let (number, reference) = match kind {
            CommentKind::General => (0, 0),
            CommentKind::Channel => (1, *reference),
            CommentKind::SoundSource => (2, *reference),
            CommentKind::FileHistory => (3, *reference),
        };
        assert_eq!((found.kind, u32::from(found.reference), &found.text.bytes), (number, reference, text));
    }
    given.len() as u64
}
