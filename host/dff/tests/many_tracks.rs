//! Thousands of tracks: their markers, and what each command says of them.

mod common;

use common::{Draw, Folder, Ran, dff};
use std::fmt::Write;
use std::fs;
use std::process::Command;

/// The most tracks of a file.
const MOST: usize = 65_535;

struct Track {
    start: u32,
    duration: u32,
    title: String,
}

impl Track {
    fn end(&self) -> u32 {
        self.start + self.duration
    }
}

/// So many tracks; about one in three begins where the one before ends.
fn adjacent_and_apart(count: usize, draw: &mut Draw) -> Vec<Track> {
    let mut end = 0;
    let mut track = |number| {
        let start = end + draw.below(3) as u32;
        let duration = 1 + draw.below(3) as u32;
        end = start + duration;
        let title = match draw.below(10) {
            0 => String::new(),
            1 => format!("~{number} \\\"{}\\\"", "quoted".repeat(draw.below(9))),
            _ => format!("Item {number}"),
        };
        Track { start, duration, title }
    };
    (1..=count).map(&mut track).collect()
}

/// So many tracks, none of which begins where the one before ends: they make the most markers.
fn all_apart(count: usize) -> Vec<Track> {
    let track = |place| Track { start: 2 * place, duration: 1, title: format!("Item {}", place + 1) };
    (0..count as u32).map(track).collect()
}

/// How the tracks stand in the manifest.
#[derive(Clone, Copy)]
enum Form {
    /// `[[file.track]]` for each.
    Tables,
    /// One list, `track = [..]`.
    List,
}

/// The manifest of a file with these tracks.
fn manifest(tracks: &[Track], form: Form, keys: &str) -> String {
    let source = "source = { dst = 'frames.dst', lengths = 'frames.txt', channels = 2 }";
    let mut text = format!("version = 1\n[[file]]\nname = 'many.dff'\n{source}\n{keys}\n");
    // Writing to a string doesn't fail.
    let _ = match form {
        Form::Tables => tracks.iter().try_for_each(|Track { start, duration, title }| {
            writeln!(text, "[[file.track]]\nstart = {start}\nduration = {duration}\ntitle = \"{title}\"")
        }),
        Form::List => {
            text += "track = [\n";
            let line = |Track { start, duration, title }: &Track| {
                writeln!(text, "    {{ start = {start}, duration = {duration}, title = \"{title}\" }},")
            };
            tracks.iter().try_for_each(line).and_then(|()| writeln!(text, "]"))
        }
    };
    text
}

const TITLES: &str = "edited_master_info = true\nmarker_titles = true";

/// A folder with DST frames of a byte each, one more than the tracks have, which are only carried.
fn folder(name: &str, tracks: &[Track]) -> Folder {
    let folder = Folder::new(name);
    let frames = tracks.iter().map(Track::end).max().unwrap_or(0) as usize + 1;
    folder.write("frames.dst", vec![0xA5; frames]);
    folder.write("frames.txt", "1\n".repeat(frames));
    folder
}

/// A marker: its frame, kind and text.
type Marker = (u32, u16, String);

const TRACK_START: u16 = 0;
const TRACK_STOP: u16 = 1;
const PROGRAM_START: u16 = 2;

/// The program's start, each track's start with its title, and its stop unless the next track starts there.
fn wanted(tracks: &[Track]) -> Vec<Marker> {
    let mut markers = vec![(0, PROGRAM_START, String::new())];
    for (place, track) in tracks.iter().enumerate() {
        markers.push((track.start, TRACK_START, track.title.replace('\\', "")));
        if tracks.get(place + 1).is_none_or(|next| next.start != track.end()) {
            markers.push((track.end(), TRACK_STOP, String::new()));
        }
    }
    markers
}

/// The markers of a file, read by the walk.
fn found(bytes: &[u8]) -> Vec<Marker> {
    let walked = walk::walk(bytes).unwrap();
    assert_eq!(walked.faults, []);
    let marker = |marker: &walk::Field<walk::Marker>| {
        let walk::Marker { time, offset, kind, channel, flags, text } = &marker.value;
        assert_eq!((*offset, *channel, *flags), (0, 0, 0));
        (time.frame(2_822_400).unwrap() as u32, *kind, String::from_utf8(text.bytes.clone()).unwrap())
    };
    walked.markers.iter().map(marker).collect()
}

/// `dff cut many.dff` of a folder, and the bytes of what it wrote.
fn cut(folder: &Folder, args: &[&str]) -> (Ran, Option<Vec<u8>>) {
    let (input, output) = (folder.text("out/many.dff"), folder.text("part.dff"));
    let all: Vec<&str> = ["cut", &input, "-o", &output].iter().chain(args).copied().collect();
    let ran = dff(&all);
    let bytes = fs::read(folder.path("part.dff")).ok();
    let _ = fs::remove_file(folder.path("part.dff"));
    (ran, bytes)
}

/// Builds, shows, verifies and cuts a file of these tracks.
fn all_commands(name: &str, tracks: &[Track], form: Form) -> (Folder, Vec<u8>) {
    let folder = folder(name, tracks);
    let text = manifest(tracks, form, TITLES);
    let said = folder.run("check", &text).with(0, "").out;
    assert_eq!(said, format!("{}:3: many.dff: accepted\n", folder.text("album.toml")));
    folder.run("build", &text).with(0, "");
    let bytes = folder.read("out/many.dff");
    let wanted = wanted(tracks);
    assert!(found(&bytes) == wanted);
    let file = folder.text("out/many.dff");
    let shown = dff(&["show", &file]).with(0, "").out;
    assert_eq!(shown.matches("MARK at ").count(), wanted.len());
    assert!(shown.contains(&format!(" bytes: {} markers\n", wanted.len())));
    let json = dff(&["show", "--json", &file]).with(0, "").out;
    assert_eq!(json.matches("\"name\": \"MARK\"").count(), wanted.len());
    let verified = dff(&["verify", &file]).with(0, "").out;
    assert!(verified.ends_with("many.dff: right\n") && verified.lines().count() < 10, "{verified}");
    let (ran, whole) = cut(&folder, &[]);
    ran.with(0, "");
    assert!(whole.as_ref() == Some(&bytes), "a cut of the whole has the same bytes");
    (folder, bytes)
}

#[test]
fn two_thousand_titles_are_markers() {
    let tracks = adjacent_and_apart(2_000, &mut Draw(10));
    let stops = wanted(&tracks).iter().filter(|(_, kind, _)| *kind == TRACK_STOP).count();
    assert!((1_000..1_700).contains(&stops), "{stops}");
    let (folder, bytes) = all_commands("many_2000", &tracks, Form::Tables);
    // The same tracks as a list are the same file.
    let _ = fs::remove_dir_all(folder.path("out"));
    folder.run("build", &manifest(&tracks, Form::List, TITLES)).with(0, "");
    assert!(folder.read("out/many.dff") == bytes);
    // A span has the markers inside it, at its end only stops.
    let (from, to) = (tracks[300].start, tracks[1_700].start);
    let (ran, span) = cut(&folder, &["--from", &from.to_string(), "--to", &to.to_string()]);
    let ran = ran.with(0, "");
    let all = wanted(&tracks);
    let inside: Vec<Marker> = all
        .iter()
        .filter(|(frame, kind, _)| (from..to).contains(frame) || *frame == to && *kind == TRACK_STOP)
        .map(|(frame, kind, text)| (frame - from, *kind, text.clone()))
        .collect();
    assert!(inside.len() > 1_400 && found(&span.unwrap()) == inside);
    let left_out = format!("{} of {} markers are outside the span and left out\n", all.len() - inside.len(), all.len());
    assert!(ran.out.contains(&left_out) && ran.out.lines().count() == 2, "{}", ran.out);
}

/// 131,071 markers: a cut of the whole has them again, though no more than 65,535 can be given; of a span they must be
/// so few, or it is refused.
#[test]
fn as_many_tracks_as_can_be() {
    let tracks = all_apart(MOST);
    assert_eq!(wanted(&tracks).len(), 131_071);
    let (folder, bytes) = all_commands("many_most", &tracks, Form::List);
    let (ran, part) = cut(&folder, &["--from", "1"]);
    let ran = ran.with(3, "cannot be written again: refused (1): ");
    let hint = "\n  131069 markers are in the span; --from and --to give a shorter one\n  --drop-markers leaves all \
                markers out\n";
    assert!(ran.err.ends_with(hint) && ran.out.is_empty() && part.is_none(), "{ran:?}");
    let (ran, part) = cut(&folder, &["--from", "1", "--drop-markers"]);
    assert!(ran.with(0, "").out.contains("131071 markers are left out") && found(&part.unwrap()).is_empty());
    let (ran, part) = cut(&folder, &["--from", "2", "--to", "65536"]);
    assert!(ran.with(0, "").out.contains("65537 of 131071 markers are outside the span and left out"));
    assert_eq!(found(&part.unwrap()).len(), 65_534);
    // The first 40,000 tracks are a program too.
    let (ran, part) = cut(&folder, &["--to", "80000"]);
    assert!(ran.with(0, "").out.contains("51070 of 131071 markers are outside the span and left out"));
    assert!(found(&part.unwrap()) == wanted(&tracks)[..80_001]);
    drop(bytes);
}

/// What is no program of tracks is not made one: more than 65,535 markers are then refused.
#[test]
fn markers_that_no_tracks_make_are_refused() {
    let mut tracks = all_apart(40_000);
    tracks[1].title.clear();
    let folder = folder("many_changed", &tracks);
    folder.run("build", &manifest(&tracks, Form::List, TITLES)).with(0, "");
    let file = folder.path("out/many.dff");
    let bytes = fs::read(&file).unwrap();
    let walked = walk::walk(&bytes[..]).unwrap();
    // The places of a marker's samples, kind and flags, behind name and size.
    let (samples, kind, flags) = (12 + 4, 12 + 12, 12 + 16);
    let put = |bytes: &mut [u8], number: usize, at: usize, value: &[u8]| {
        let place = walked.markers[number].place as usize + at;
        bytes[place..place + value.len()].copy_from_slice(value);
    };
    type Change<'c> = (&'c str, &'c dyn Fn(&mut [u8]));
    let changes: [Change; 9] = [
        ("a flag", &|bytes| put(bytes, 1, flags, &[0, 1])),
        ("an index", &|bytes| put(bytes, 1, kind, &[0, 4])),
        ("no program's start", &|bytes| put(bytes, 0, kind, &[0, 1])),
        ("a program's start later", &|bytes| put(bytes, 0, samples, &37_632_u32.to_be_bytes())),
        ("two stops", &|bytes| put(bytes, 3, kind, &[0, 1])),
        ("a stop with a text", &|bytes| {
            // A start, the stop, a start; before and behind them start and stop take turns as they did.
            for (number, other) in [(4, 0), (5, 1), (6, 0)] {
                put(bytes, number, kind, &[0, other]);
            }
        }),
        ("no stop at the end", &|bytes| put(bytes, 80_000, kind, &[0, 0])),
        ("an empty track", &|bytes| put(bytes, 2, samples, &0_u32.to_be_bytes())),
        ("a stop where the next starts", &|bytes| put(bytes, 3, samples, &37_632_u32.to_be_bytes())),
    ];
    for (what, change) in changes {
        let mut other = bytes.clone();
        change(&mut other);
        assert!(other != bytes);
        fs::write(&file, &other).unwrap();
        let (ran, part) = cut(&folder, &[]);
        assert!(ran.status == 3 && ran.err.contains("refused (1)") && part.is_none(), "{what}: {ran:?}");
        assert!(ran.err.contains("  80001 markers are in the span; "), "{what}: {ran:?}");
    }
    fs::write(&file, &bytes).unwrap();
    assert!(cut(&folder, &[]).1 == Some(bytes));
}

/// Of thousands of markers that can't be carried over the first are listed.
#[test]
fn faults_of_thousands_of_markers_are_few() {
    let tracks = all_apart(2_000);
    let folder = folder("many_faults", &tracks);
    folder.run("build", &manifest(&tracks, Form::List, TITLES)).with(0, "");
    let file = folder.path("out/many.dff");
    let mut bytes = fs::read(&file).unwrap();
    for marker in walk::walk(&bytes[..]).unwrap().markers {
        bytes[marker.place as usize + 12 + 13] = 9;
    }
    fs::write(&file, &bytes).unwrap();
    let (ran, part) = cut(&folder, &[]);
    let ran =
        ran.with(1, ": the marker's kind is 9, which can't be carried over\n  --drop-markers leaves all markers out\n");
    assert!(part.is_none() && ran.err.matches("the marker's kind is 9").count() == 50, "{ran:?}");
    assert!(ran.err.ends_with("many.dff: and 3951 more faults\n"), "{ran:?}");
    let (ran, part) = cut(&folder, &["--drop-markers"]);
    assert!(ran.with(0, "").out.contains("4001 markers are left out") && found(&part.unwrap()).is_empty());
}

/// What `check` says against a file of these tracks.
fn refused(folder: &Folder, number: u32, tracks: &[Track], keys: &str) -> String {
    let ran = folder.run("check", &manifest(tracks, Form::List, keys));
    ran.with(3, &format!("many.dff: refused ({number}): ")).err.lines().last().unwrap().to_string()
}

#[test]
fn refusals_name_the_track() {
    let most = all_apart(MOST + 1);
    let folder = folder("many_refused", &most);
    let count = |count: usize| &most[..count];
    for keys in ["", TITLES, "edited_master = true"] {
        let cause = refused(&folder, 1, &most, keys);
        assert_eq!(cause, "  there are 65536 tracks; the longest text is the title of track 10000, 10 characters");
    }
    for number in [0, 256, 257, MOST] {
        let cause = refused(&folder, 17, count(number), "edited_master = true");
        assert_eq!(cause, format!("  there are {number} tracks"));
    }
    for (tracks, number) in [(255, 256), (256, 257), (MOST, MOST + 1), (MOST, 65_537), (MOST, 4_294_967_295)] {
        let cause = refused(&folder, 13, count(tracks), &format!("source_track = {number}"));
        assert_eq!(cause, format!("  source_track is {number}, there are {tracks} tracks"));
    }
    assert_eq!(refused(&folder, 13, count(1), "source_track = 2"), "  source_track is 2, there is 1 track");
    let cause = refused(&folder, 14, count(300), "source_track = 257\nrange = { from = 9, to = 12 }");
    assert_eq!(cause, "  track 257 is 512 to 513, the range is 9 to 12");
    let seconds = |count: u32| {
        let track = |place| Track { start: 75 * place, duration: 75, title: String::new() };
        (0..count).map(track).collect::<Vec<_>>()
    };
    let master = "edited_master = true";
    let mut tracks = seconds(255);
    tracks[254].duration = 74;
    assert_eq!(refused(&folder, 18, &tracks, master), "  track 255 has 74 frames");
    tracks[254].duration = 1_151_999;
    assert_eq!(refused(&folder, 20, &tracks, master), "  track 255 ends at 1171049");
    tracks[254].duration = 75;
    tracks[200].start -= 1;
    assert_eq!(refused(&folder, 19, &tracks, master), "  track 201 begins at 14999, track 200 ends at 15000");
}

#[test]
fn a_source_track_is_not_cut_to_a_byte() {
    let tracks = all_apart(MOST);
    let folder = folder("many_source", &tracks);
    for number in [1, 255, 256, 257, MOST] {
        let keys = format!("{TITLES}\nsource_track = {number}\nsource_track_markers = true");
        let _ = fs::remove_dir_all(folder.path("out"));
        folder.run("build", &manifest(&tracks, Form::List, &keys)).with(0, "");
        let Track { start, title, .. } = &tracks[number - 1];
        let own = [
            (0, PROGRAM_START, String::new()),
            (*start, TRACK_START, title.clone()),
            (start + 1, TRACK_STOP, String::new()),
        ];
        assert_eq!(found(&folder.read("out/many.dff")), own);
    }
}

/// Of thousands of notes on the same the first are listed.
#[test]
fn notes_on_thousands_of_titles_are_few() {
    let mut tracks = all_apart(2_000);
    tracks.iter_mut().for_each(|track| track.title += "é");
    let folder = folder("many_notes", &tracks);
    let said = |tracks: &[Track]| {
        let out = folder.run("check", &manifest(tracks, Form::Tables, TITLES)).with(0, "").out;
        out.lines().filter_map(|line| Some(line.split_once(": note: ")?.1.to_string())).collect::<Vec<_>>()
    };
    for (count, more) in [(20, None), (21, Some("and 1 more note")), (2_000, Some("and 1980 more notes"))] {
        let notes = said(&tracks[..count]);
        for (number, note) in (1..).zip(notes.iter().take(20)) {
            assert_eq!(*note, format!("title of track {number}: 1 character is written as `?`"));
        }
        let more = more.map(|more| format!("{more} on titles of tracks"));
        assert_eq!((notes.len(), notes.get(20)), (20 + usize::from(more.is_some()), more.as_ref()));
    }
    tracks[1_500].start -= 2;
    let words = "tracks are empty, overlap or are out of order, so they make no markers";
    assert_eq!(said(&tracks), [format!("{words}; the first of these is track 1501")]);
}

/// mediainfo takes the file for what it is, and its trace has all markers and titles.
#[test]
fn mediainfo_reads_two_thousand_markers() {
    let mediainfo = |args: &[&str]| -> Option<String> {
        let output = Command::new("mediainfo").args(args).output().ok()?;
        assert!(output.status.success(), "{output:?}");
        Some(String::from_utf8(output.stdout).unwrap())
    };
    if mediainfo(&["--Version"]).is_none() {
        println!("skipped: there is no mediainfo");
        return;
    }
    let tracks = adjacent_and_apart(2_000, &mut Draw(11));
    let folder = folder("many_mediainfo", &tracks);
    folder.run("build", &manifest(&tracks, Form::Tables, TITLES)).with(0, "");
    let file = folder.text("out/many.dff");
    let frames = folder.read("frames.dst").len();
    let told = mediainfo(&["--Inform=General;%Format%|%Duration%|%AudioCount%", &file]).unwrap();
    assert_eq!(told.trim(), format!("DSDIFF|{}|1", (frames as f64 / 0.075).round()));
    let trace = mediainfo(&["--Details=1", &file]).unwrap();
    let values = |name: &str| -> Vec<String> {
        let value = |line: &str| Some(line.split_once(name)?.1.trim_start().to_string());
        trace.lines().filter_map(value).collect()
    };
    let wanted = wanted(&tracks);
    let kinds: Vec<String> = wanted.iter().map(|(_, kind, _)| format!("{kind} (0x{kind:04X})")).collect();
    assert_eq!(values(" markType:"), kinds);
    let texts: Vec<&str> = wanted.iter().map(|(_, _, text)| text.as_str()).filter(|text| !text.is_empty()).collect();
    assert_eq!(values(" markerText:"), texts);
    assert!(!trace.contains("Size is wrong"));
}
