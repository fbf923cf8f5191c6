//! Thousands of tracks: how many there may be, and that a source track's number means that track and no other.

use jangqeruz::{Area, BuildError, File, Kind, Layout, Options, Refusal, Track, verdict};

use crate::sources::Silence;

/// The most tracks.
const MOST: u32 = 65_535;
/// A track begins every so many frames.
const STEP: u32 = 17;

/// The track of a number: no two have the same place or title, and one in 17 ends where the next begins.
fn track(number: u32) -> Track {
    Track { start: (number - 1) * STEP, duration: 1 + number % STEP, title: format!("Item {number}") }
}

fn area(tracks: Vec<Track>) -> Area {
    Area { tracks, ..Area::new(Kind::Dsd, 2, Layout::Stereo, MOST * STEP) }
}

fn area_of(tracks: u32) -> Area {
    area((1..=tracks).map(track).collect())
}

/// The options of a file of one track, with its markers and their title.
fn source_track(number: u32) -> Options {
    let info = Options::default().edited_master_info(true).marker_titles(true);
    info.source_track(number).source_track_markers(true)
}

/// The header, which must be all that the build writes.
fn header(area: &Area, options: &Options) -> Vec<u8> {
    let file = File::build(area, options, &[], Silence).unwrap();
    assert_eq!(file.trailer(), []);
    file.header().to_vec()
}

/// The time of a frame as markers have it: hours, minutes, seconds, samples.
fn time(frame: u32) -> Vec<u8> {
    let seconds = frame / 75;
    let mut bytes = ((seconds / 3_600) as u16).to_be_bytes().to_vec();
    bytes.extend([(seconds / 60 % 60) as u8, (seconds % 60) as u8]);
    bytes.extend((frame % 75 * 37_632).to_be_bytes());
    bytes
}

/// A MARK.
fn mark(frame: u32, kind: u8, text: &str) -> Vec<u8> {
    let mut data = time(frame);
    data.extend([0, 0, 0, 0, 0, kind, 0, 0, 0, 0]);
    data.extend((text.len() as u32).to_be_bytes());
    data.extend(text.bytes());
    let mut bytes = b"MARK".to_vec();
    bytes.extend((data.len() as u64).to_be_bytes());
    bytes.extend(&data);
    bytes.resize(bytes.len() + data.len() % 2, 0);
    bytes
}

/// All MARKs of a header, from the first to the end of the last.
fn marks(header: &[u8]) -> &[u8] {
    let size = |place: usize| header[place + 4..place + 12].iter().fold(0, |size, &byte| size << 8 | usize::from(byte));
    let start = header.windows(4).position(|name| name == b"MARK").unwrap();
    let mut end = start;
    while &header[end..end + 4] == b"MARK" {
        end += 12 + size(end) + size(end) % 2;
    }
    &header[start..end]
}

const START: u8 = 0;
const STOP: u8 = 1;
const PROGRAM: u8 = 2;

#[track_caller]
fn refused(refusal: Refusal, area: &Area, options: &Options) {
    let wanted = Err(BuildError::Refused(refusal));
    assert_eq!(verdict(area, options, &[]), wanted);
    assert_eq!(File::build(area, options, &[], Silence).map(|_| ()), wanted);
}

#[track_caller]
fn accepted(area: &Area, options: &Options) {
    assert_eq!(verdict(area, options, &[]), Ok(()));
    assert_eq!(File::build(area, options, &[], Silence).map(|_| ()), Ok(()));
}

#[test]
fn up_to_65535_tracks_without_a_master() {
    for options in [Options::default(), Options::default().edited_master_info(true).marker_titles(true)] {
        for count in [0, 1, 255, 256, 257, 2_000, MOST] {
            accepted(&area_of(count), &options);
        }
        for count in [MOST + 1, MOST + 2, MOST + 256] {
            refused(Refusal::Limits, &area_of(count), &options);
        }
    }
}

#[test]
fn all_tracks_make_their_markers() {
    for count in [255, 256, 2_000, MOST] {
        let mut wanted = mark(0, PROGRAM, "");
        for number in 1..=count {
            let Track { start, duration, title } = track(number);
            wanted.extend(mark(start, START, &title));
            if duration < STEP || number == count {
                wanted.extend(mark(start + duration, STOP, ""));
            }
        }
        let options = Options::default().edited_master_info(true).marker_titles(true);
        assert!(marks(&header(&area_of(count), &options)) == wanted, "{count}");
    }
}

/// Tracks of a second each, one after the other.
fn master_area(tracks: u32) -> Area {
    let seconds = (0..tracks).map(|place| Track { start: place * 75, duration: 75, title: format!("{place}") });
    let playtime = (tracks * 75).clamp(75, 1_151_999);
    Area { tracks: seconds.collect(), ..Area::new(Kind::Dsd, 2, Layout::Stereo, playtime) }
}

#[test]
fn a_master_has_1_to_255_tracks() {
    let master = Options::default().edited_master(true);
    for count in [1, 2, 254, 255] {
        accepted(&master_area(count), &master);
    }
    for count in [0, 256, 257, 511, 512, 15_359, MOST] {
        refused(Refusal::MasterTracks, &master_area(count), &master);
    }
    for count in [MOST + 1, MOST + 2, MOST + 256] {
        refused(Refusal::Limits, &master_area(count), &master);
    }
}

/// 17 comes before 18, 19 and 20, and behind 15 and 16.
#[test]
fn too_many_tracks_of_a_master_beside_other_faults() {
    let master = Options::default().edited_master(true);
    for (count, first) in [(255, false), (256, true), (1_000, true)] {
        let last = count as usize - 1;
        let beside = |refusal, change: &dyn Fn(&mut Area)| {
            let mut area = master_area(count);
            change(&mut area);
            refused(if first { Refusal::MasterTracks } else { refusal }, &area, &master);
        };
        beside(Refusal::TrackShort(1), &|area| area.tracks[0].duration = 74);
        beside(Refusal::TrackShort(u64::from(count)), &|area| area.tracks[last].duration = 0);
        beside(Refusal::MasterSpans, &|area| area.tracks[last].start -= 1);
        beside(Refusal::MasterEnd, &|area| area.tracks[last].duration = 1_152_000);
        beside(Refusal::TrackShort(2), &|area| {
            area.tracks[1] = Track { start: 0, duration: 1, title: String::new() };
            area.tracks[last].duration = 1_152_000;
        });
        let mut area = master_area(count);
        area.first = 1;
        refused(Refusal::MasterRange, &area, &master);
        let mut area = master_area(count);
        area.layout = Layout::Unspecified;
        refused(Refusal::MasterLayout, &area, &master);
    }
}

/// A cut of the number to a byte or to less than 16 bits would give another track's markers, or a refusal.
#[test]
fn a_source_track_is_the_track_of_its_number() {
    let all = area_of(MOST);
    for number in [1, 2, 127, 128, 254, 255, 256, 257, 511, 512, 513, 32_767, 32_768, 32_769, MOST - 1, MOST] {
        let own = track(number);
        let mut wanted = mark(0, PROGRAM, "");
        wanted.extend(mark(own.start, START, &own.title));
        wanted.extend(mark(own.start + own.duration, STOP, ""));
        let found = header(&all, &source_track(number));
        assert!(marks(&found) == wanted, "{number}");
        // The same as where that track is the only one, or the last.
        assert!(found == header(&area(vec![own]), &source_track(1)), "{number}");
        assert!(found == header(&area_of(number), &source_track(number)), "{number}");
        for other in [number & 0xFF, number & 0x7FFF, number >> 8] {
            if other != number && other != 0 {
                assert!(found != header(&all, &source_track(other)), "{number} is not {other}");
            }
        }
    }
}

#[test]
fn past_the_tracks_there_is_no_source_track() {
    for count in [0, 1, 2, 254, 255, 256, 257, 2_000, MOST] {
        let area = area_of(count);
        if count > 0 {
            accepted(&area, &source_track(count));
        }
        for number in [count + 1, count + 2, count + 256, count + 65_536] {
            refused(Refusal::SourceTrack, &area, &source_track(number));
        }
    }
}

/// Their low bytes would be the number of a track, or 0.
#[test]
fn no_number_above_65535_is_a_source_track() {
    for area in [area_of(1), area_of(256), area_of(MOST)] {
        for low in [0, 1, 2, 255, 256, 257, MOST] {
            for high in [1 << 16, 1 << 17, 1 << 24, 0xFFFF << 16] {
                refused(Refusal::SourceTrack, &area, &source_track(high + low));
            }
        }
        refused(Refusal::SourceTrack, &area, &source_track(u32::MAX));
        // Also where it is of no use: without info, or in a master, which has no source track.
        refused(Refusal::SourceTrack, &area, &Options::default().source_track(65_536));
    }
    let master = Options::default().edited_master(true);
    for number in [3, 4, 255, 256, MOST] {
        accepted(&master_area(3), &master.clone().source_track(number));
    }
    refused(Refusal::SourceTrack, &master_area(3), &master.clone().source_track(65_537));
    refused(Refusal::SourceTrack, &master_area(256), &master.source_track(65_536));
}

/// The number is of the first fault found: a track past the tracks (13), one outside the range (14).
#[test]
fn a_source_track_outside_the_range() {
    for number in [255, 256, 257, MOST] {
        let mut area = area_of(MOST);
        let own = track(number);
        (area.first, area.end) = (own.start, own.start + 1);
        accepted(&area, &source_track(number));
        for other in [number - 1, number - 254] {
            refused(Refusal::SourceTrackOutside, &area, &source_track(other));
        }
        let mut wanted = mark(0, PROGRAM, "");
        wanted.extend(mark(0, START, &own.title));
        wanted.extend(mark(1, STOP, ""));
        assert!(marks(&header(&area, &source_track(number))) == wanted, "{number}");
    }
}
