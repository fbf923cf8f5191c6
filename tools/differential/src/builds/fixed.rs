//! Fixed cases: document 01's figures, orders, and what a file can have or lack; then those of the checks.

use library::checks::{COMT, DIIN, DSTI, PROP, SOUND};
use library::markers::{ChannelNumbers, Start, UNSPECIFIED};
use library::markers::{INDEX, OF_TRACK, PROGRAM_START, TRACK_START, TRACK_STOP};
use library::text::{Extent, D2, REMOVE, REPLACE};

use super::figures::{Figure, Figures};
use super::limits::limits;
use super::Case;
use crate::checks::fixed::{self as checks, caller, comments, marker, plain, track, Context, Fixed, Part, NONE};
use crate::checks::{layout_of, Caller, Case as Build, Comments};
use crate::markers::draw::{LAST_FRAME, LAYOUTS};
use crate::markers::{MarkerOf, TrackOf};
use crate::random::Random;

pub const DSD: Context = Context { dst: false, edited_master: false };
pub const DST: Context = Context { dst: true, edited_master: false };

/// Accepted or refused with this number, on both sides.
fn named(name: &'static str, number: u32, mut build: Build) -> Case {
    build.fixed = Some(Fixed { part: Part::Named(name), ours: number, original: number });
    Case::of(build)
}

/// The case with a change.
pub fn with(mut build: Build, change: impl FnOnce(&mut Build)) -> Build {
    change(&mut build);
    build
}

pub fn set_range(build: &mut Build, positions: u32) {
    (build.of.info.playtime, build.of.info.first, build.of.info.end) = (positions, 0, positions);
}

pub fn set_start(build: &mut Build, frame: u32) {
    build.of.properties.start = Start { given: true, frame };
    build.of.info.start = build.of.properties.start;
}

pub fn set_order(build: &mut Build, names: &[u8]) {
    build.local_order = [SOUND; 5];
    build.local_order[..names.len()].copy_from_slice(names);
    build.local_count = names.len() as u32;
}

/// Stereo DST of the lengths 3 and 4.
fn two_frames() -> Build {
    with(plain(DST), |build| {
        set_range(build, 2);
        build.lengths.usual = vec![3, 4];
    })
}

/// A text of the pool, added to it.
fn text(build: &mut Build, text: &str) -> [u32; 3] {
    let start = build.of.pool.len() as u32;
    build.of.pool.extend(text.chars().map(u32::from));
    [1, start, build.of.pool.len() as u32 - start]
}

/// A text of the byte pool, added to it.
pub fn bytes(build: &mut Build, text: &[u8]) -> Extent {
    let start = build.of.raw.len() as u32;
    build.of.raw.extend(text);
    Extent { start, length: text.len() as u32 }
}

/// DIIN with an ID, a marker, an artist and a title, all of odd lengths.
fn full_info(build: &mut Build) {
    let (id, mark) = (bytes(build, b"ID0"), bytes(build, b"M"));
    let (artist, title) = (text(build, "Art"), text(build, "T"));
    let info = &mut build.of.info;
    (info.on, info.custom_markers, info.artist_title) = (true, true, true);
    info.emid = [1, id.start, id.length];
    (info.album_artist, info.album_title) = (artist, title);
    build.of.custom = vec![MarkerOf { flags: 9, ..marker(info.first, mark) }];
}

/// DIIN without anything in it.
pub fn empty_info(build: &mut Build) {
    (build.of.info.on, build.of.info.emid) = (true, [0; 3]);
}

fn figures(cases: &mut Vec<Case>) {
    use Figure::{CompressionSize, DstSize, Entries, File, FormSize, Header, PropertySize};
    let mut add = |name, build, figures: &[Figure]| {
        cases.push(Case { figures: Some(Figures(figures.to_vec())), ..named(name, 0, build) });
    };
    let dsd = [Header(144), FormSize(9_540), File(9_552), PropertySize(88)];
    add("figures of DSD", plain(DSD), &[&dsd[..], &[CompressionSize(19)]].concat());
    let d1 = with(plain(DSD), |build| build.of.properties.d1 = true);
    add("figures of DSD with D1", d1, &[&dsd[..], &[CompressionSize(20)]].concat());
    let dst = [Header(158), DstSize(50), FormSize(214), File(226), CompressionSize(16)];
    add("figures of DST", two_frames(), &[&dst[..], &[Entries([158, 174])]].concat());
    let d1 = with(two_frames(), |build| build.of.properties.d1 = true);
    add("figures of DST with D1", d1, &[&dst[..], &[Entries([158, 174])]].concat());
    let data = with(two_frames(), |build| build.frame_data = true);
    add("figures of DST, FrameData", data, &[&dst[..], &[Entries([170, 186])]].concat());
    let crc = with(two_frames(), |build| build.dst_crc = true);
    add("figures of DST with CRC", crc, &[Header(158), File(258), Entries([158, 190])]);

    let start = |frame: u32| with(plain(DSD), |build| set_start(build, frame));
    cases.push(named("the last start", 0, start(LAST_FRAME - 1)));
    cases.push(named("a start too late", 29, start(LAST_FRAME)));
    let tracks = with(plain(DSD), |build| {
        set_range(build, 150);
        build.of.info.on = true;
        build.of.tracks = vec![track(0, 75), track(75, 75)];
    });
    cases.push(named("two tracks", 0, tracks));
    let marked = |frame: u32| {
        with(plain(DSD), |build| {
            (build.of.info.on, build.of.info.custom_markers) = (true, true);
            build.of.custom = vec![marker(frame, NONE)];
        })
    };
    cases.push(named("a marker at the end", 0, marked(1)));
    cases.push(named("a marker past the end", 32, marked(2)));
    for (name, number, length) in
        [("the longest frame", 0, 65_536), ("a frame too long", 10, 65_537), ("an empty frame", 10, 0)]
    {
        cases.push(named(name, number, with(plain(DST), |build| build.lengths.value = length)));
    }
    let numbers = with(plain(DSD), |build| {
        set_layout(build, 3, 0);
        build.of.properties.numbers = ChannelNumbers { given: true, count: 3, numbers: [5, 5, 1000, 0, 0, 0] };
    });
    cases.push(named("channel numbers 5, 5, 1000", 27, numbers));
}

pub fn set_layout(build: &mut Build, channels: u8, config: u8) {
    build.of.config = config;
    (build.of.properties.channels, build.of.properties.layout) = (channels, layout_of(channels, config));
}

/// All orders of the names.
pub fn permutations(names: &[u8]) -> Vec<Vec<u8>> {
    if names.is_empty() {
        return vec![Vec::new()];
    }
    let mut all = Vec::new();
    for (place, &first) in names.iter().enumerate() {
        let rest = [&names[..place], &names[place + 1..]].concat();
        all.extend(permutations(&rest).into_iter().map(|rest| [&[first], &rest[..]].concat()));
    }
    all
}

/// All orders of PROP, the sound and the others in which PROP is before the sound.
pub fn local_orders(others: &[u8]) -> Vec<Vec<u8>> {
    let mut all = permutations(&[&[PROP, SOUND], others].concat());
    all.retain(|order| order.iter().find(|&&name| name <= SOUND) == Some(&PROP));
    all
}

/// The sets of chunks that a file can have beside PROP and the sound.
pub fn others(dst: bool) -> Vec<Vec<u8>> {
    let all: &[u8] = if dst { &[DSTI, DIIN, COMT] } else { &[DIIN, COMT] };
    let chosen = |set: u32| (0..).zip(all).filter(|&(place, _)| set >> place & 1 == 1).map(|(_, &name)| name).collect();
    (0..1 << all.len()).map(chosen).collect()
}

/// A file that has these chunks beside PROP and the sound, in this order.
fn ordered(dst: bool, order: &[u8]) -> Build {
    let mut build = if dst { two_frames() } else { plain(DSD) };
    if order.contains(&DIIN) {
        full_info(&mut build);
    }
    if order.contains(&COMT) {
        build.comments = vec![comments(1, [2, 1], 1)];
    }
    build.dst_index = order.contains(&DSTI);
    set_order(&mut build, order);
    build
}

fn orders(cases: &mut Vec<Case>) {
    for dst in [true, false] {
        for others in others(dst) {
            for (place, order) in local_orders(&others).into_iter().enumerate() {
                // An index with both kinds of offset, with and without CRCs, beginning with another for each order.
                let times = if others.contains(&DSTI) { 4 } else { 1 };
                for number in (place..).take(times) {
                    let mut build = ordered(dst, &order);
                    (build.frame_data, build.dst_crc) = (number % 2 == 1, number / 2 % 2 == 1);
                    let name = match (dst, order.len()) {
                        (true, 5) if number == place => "the five local chunks of DST in any order",
                        (true, 5) => "these five, other switches of DST",
                        (true, _) => "fewer local chunks of DST in any order",
                        (false, _) => "the local chunks of DSD in any order",
                    };
                    cases.push(named(name, 0, build));
                }
            }
        }
    }
    for order in permutations(&[0, 1, 2, 3, 4]) {
        let mut build = plain(DSD);
        set_start(&mut build, 1);
        build.of.properties.order.copy_from_slice(&order);
        cases.push(named("PROP in any order", 0, build));
    }
    for order in permutations(&[0, 1, 2, 3]) {
        let mut build = plain(DSD);
        full_info(&mut build);
        build.of.info.order.copy_from_slice(&order);
        cases.push(named("DIIN in any order", 0, build));
    }
}

const BEHIND: [u8; 5] = [PROP, SOUND, DIIN, COMT, DSTI];

/// What a file lacks, or has without anything in it.
fn empty(cases: &mut Vec<Case>, context: Context) {
    let mut add = |name, build| cases.push(named(name, 0, build));
    let info = with(plain(context), empty_info);
    add("an empty DIIN", info.clone());
    add("an empty DIIN", with(info.clone(), |build| set_order(build, &BEHIND)));
    let unwritten = with(info, |build| build.of.info.empty_info = false);
    add("an empty DIIN that is not written", unwritten.clone());
    add("an empty DIIN that is not written", with(unwritten, |build| set_order(build, &[PROP, SOUND, DSTI])));

    // Texts that vanish, and one that is empty whatever the rule.
    for (rule, values) in [(REMOVE, vec![0x1F, 0x100]), (D2, vec![0x9F]), (REPLACE, Vec::new())] {
        let none = with(plain(context), |build| {
            build.of.info.conversion.rule = rule;
            build.comments = vec![Comments { text: values, ..comments(1, [0, 0], 2) }];
        });
        add("comments, no COMT", none.clone());
        add("comments, no COMT", with(none.clone(), |build| set_order(build, &[PROP, SOUND, DSTI])));
        let few = |build: &mut Build| {
            build.comments.insert(0, comments(2, [3, 4], 1));
            build.comments.push(comments(3, [1, 2], 1));
        };
        add("comments, some left out", with(none.clone(), few));
        add("comments of empty texts", with(none, |build| build.of.info.switches.empty_text = true));
    }
}

fn callers(cases: &mut Vec<Case>, context: Context) {
    let mut add = |callers: Vec<Caller>| {
        let build = with(plain(context), |build| build.callers = callers);
        cases.push(named("caller chunks of odd and zero size", 0, build));
    };
    for sizes in [&[0][..], &[1], &[2], &[3], &[0, 1, 2], &[5, 0, 0, 1]] {
        let caller = |&size: &u8| Caller { data: (1..=size).collect(), ..caller(b"CALL") };
        add(sizes.iter().map(caller).collect());
    }
    add(vec![caller(b"    "), caller(b"~   ")]);
}

/// Markers of all kinds, texts odd and even.
fn texts(cases: &mut Vec<Case>, context: Context) {
    for counted in [false, true] {
        let full = with(plain(context), |build| {
            full_info(build);
            build.of.info.switches.text_pad_counted = counted;
            let text = bytes(build, b"EVEN");
            let kinds = [TRACK_START, TRACK_STOP, PROGRAM_START, INDEX, INDEX];
            build.of.custom.extend(kinds.map(|kind| MarkerOf { kind, flags: 0x8001, ..marker(1, text) }));
        });
        cases.push(named(if counted { "pads counted" } else { "pads not counted" }, 0, full.clone()));
        cases.push(named("DIIN behind the sound", 0, with(full, |build| set_order(build, &BEHIND))));
    }
}

fn layouts(cases: &mut Vec<Case>, context: Context) {
    for (channels, config) in LAYOUTS.into_iter().chain((1..=6).map(|channels| (channels, 7))) {
        for loudspeakers in [false, true] {
            let build = with(plain(context), |build| {
                set_layout(build, channels, config);
                let properties = &mut build.of.properties;
                properties.loudspeaker_configuration = loudspeakers;
                properties.unspecified_loudspeaker_configuration = loudspeakers;
                if properties.layout >= UNSPECIFIED && !loudspeakers {
                    let numbers = [999, 0, 10, 100, 7, 998];
                    properties.numbers = ChannelNumbers { given: true, count: channels.into(), numbers };
                }
            });
            cases.push(named("layouts", 0, build));
        }
    }
}

/// A source track, edited masters, and more tracks than those can have.
fn tracks(cases: &mut Vec<Case>, context: Context) {
    let source = with(plain(context), |build| {
        set_range(build, 9);
        (build.of.info.first, build.of.info.end) = (2, 7);
        build.of.tracks = vec![track(0, 4), track(4, 2)];
        let (artist, title) = (text(build, "Artist"), text(build, "Title"));
        let info = &mut build.of.info;
        (info.on, info.source_track, info.source_track_markers) = (true, 2, true);
        (info.artist_title, info.artist_title_source) = (true, OF_TRACK);
        (info.track_artist, info.track_title) = (artist, title);
    });
    cases.push(named("a source track", 0, source));
    let master = plain(Context { edited_master: true, ..context });
    cases.push(named("an edited master", 0, master.clone()));
    let full = with(master, |build| {
        set_range(build, 150);
        let titles = [text(build, "One"), text(build, "Two\u{e9}")];
        build.of.tracks = vec![track(0, 75), track(75, 75)];
        for (track, [_, start, length]) in build.of.tracks.iter_mut().zip(titles) {
            track.title = Extent { start, length };
        }
        build.of.info.titles = true;
        build.of.info.album_title = text(build, "Album");
        build.of.info.conversion.rule = D2;
    });
    cases.push(named("an edited master", 0, full));
    let many = with(plain(context), |build| {
        set_range(build, 600);
        let [_, start, length] = text(build, "Title");
        let (info, duration) = (&mut build.of.info, if context.dst { 1 } else { 2 });
        (info.on, info.titles) = (true, true);
        build.of.tracks = (0..300)
            .map(|number| TrackOf {
                title: Extent { start, length: number % (length + 1) },
                ..track(2 * number, duration)
            })
            .collect();
    });
    cases.push(named("more than 255 tracks", 0, many));
}

fn index_in_front(cases: &mut Vec<Case>) {
    let orders = [[PROP, DSTI, SOUND, COMT, DIIN], [DSTI, PROP, COMT, DIIN, SOUND], [PROP, COMT, DIIN, DSTI, SOUND]];
    for (crc, data) in [(false, false), (false, true), (true, false), (true, true)] {
        for order in orders {
            let front = with(two_frames(), |build| {
                (build.dst_crc, build.frame_data) = (crc, data);
                set_order(build, &order);
            });
            cases.push(named("DSTI in front", 0, front));
        }
    }
}

/// Long sound, and long indices.
fn large(cases: &mut Vec<Case>) {
    let mut add = |build| cases.push(named("more than 4 GiB, or very many frames", 0, build));
    let longest = 1_151_999;
    let dsd = with(plain(DSD), |build| {
        set_layout(build, 6, 4);
        set_range(build, longest);
    });
    add(dsd);
    for order in [[PROP, COMT, DIIN, SOUND, DSTI], [PROP, DSTI, SOUND, COMT, DIIN]] {
        for crc in [false, true] {
            add(with(plain(DST), |build| {
                set_range(build, 65_600);
                (build.lengths.value, build.lengths.usual) = (65_536, vec![65_536, 65_535]);
                build.dst_crc = crc;
                set_order(build, &order);
                build.callers = vec![Caller { data: vec![1], ..caller(b"LAST") }];
            }));
        }
    }
    add(with(plain(DST), |build| {
        set_range(build, longest);
        (build.lengths.value, build.lengths.usual) = (1, vec![1]);
    }));
}

/// What this subject has of its own.
pub fn own() -> Vec<Case> {
    let mut cases = Vec::new();
    figures(&mut cases);
    for context in [DSD, DST] {
        empty(&mut cases, context);
        callers(&mut cases, context);
        texts(&mut cases, context);
        layouts(&mut cases, context);
        tracks(&mut cases, context);
    }
    index_in_front(&mut cases);
    orders(&mut cases);
    large(&mut cases);
    cases
}

/// The pairs of refusals and the limits.
pub fn of_checks() -> Vec<Case> {
    checks::fixed().into_iter().map(Case::of).collect()
}

pub fn fixed() -> Vec<Case> {
    let cases = own().into_iter().chain(limits()).chain(of_checks());
    let cases = (0..).zip(cases).map(|(number, mut case)| {
        case.build.beside = number + 1;
        case.with_windows(&mut Random::of_case(WINDOWS, number))
    });
    cases.collect()
}

/// The seed of the windows.
const WINDOWS: u64 = 17;
