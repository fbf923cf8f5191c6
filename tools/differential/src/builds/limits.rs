//! Fixed cases: document 01's limits of the refusals, both sides of each, one fault at a time.

use library::checks::{COMT, DIIN, DSTI, PROP, SOUND};
use library::markers::{ChannelNumbers, FIVE_POINT_ONE, STEREO, THREE_TWO};
use library::text::{D2, REPLACE};

use super::fixed::{bytes, set_layout, set_order, set_range, set_start, with, DSD, DST};
use super::Case;
use crate::checks::fixed::{caller, comments, marker, plain, track, Context, Fixed, Part, NONE, TEXTS};
use crate::checks::{Beyond, Case as Build, Comments, Place, LONGEST_TEXT};
use crate::markers::draw::LAST_FRAME;
use crate::markers::TrackOf;

pub const NAME: &str = "limits";

const MASTER: Context = Context { dst: false, edited_master: true };

/// With these numbers answered, 0 if it is accepted.
fn case(ours: u32, original: u32, mut build: Build) -> Case {
    build.fixed = Some(Fixed { part: Part::Named(NAME), ours, original });
    Case::of(build)
}

struct Limits {
    cases: Vec<Case>,
}

impl Limits {
    /// A plain build with a change, which both sides answer with this number.
    fn both(&mut self, context: Context, number: u32, change: impl FnOnce(&mut Build)) {
        self.cases.push(case(number, number, with(plain(context), change)));
    }

    /// The same where the original has no such refusal, or is not told of the fault.
    fn ours(&mut self, context: Context, number: u32, change: impl FnOnce(&mut Build)) {
        self.cases.push(case(number, 0, with(plain(context), change)));
    }
}

/// 1, of a caller chunk (other limits of 1 are among those of the checks), 2 and 3: extents and rows that end too late, values
/// that are no scalars.
fn pools(limits: &mut Limits) {
    for (length, number) in [(16_777_216, 2), (16_777_217, 1)] {
        limits.ours(DSD, number, |build| build.beyond.push(Beyond::NoPool(Place::Caller, length)));
    }
    let places =
        [Place::Tag(0), Place::Tag(3), Place::Emid, Place::Track, Place::Marker, Place::Comment, Place::Caller];
    for place in places {
        limits.ours(DSD, 2, |build| build.beyond.push(Beyond::Outside(place)));
    }
    for place in [Place::Track, Place::Marker, Place::Comment, Place::Caller] {
        limits.ours(DSD, 2, |build| build.beyond.push(Beyond::CutShort(place)));
    }
    for place in [Place::Tag(1), Place::Track, Place::Comment] {
        for value in [0xD800, 0xDFFF, 0x11_0000, u32::MAX] {
            limits.ours(DSD, 3, |build| build.beyond.push(Beyond::NoScalar(place, value)));
        }
    }
    for value in [0, 0xD7FF, 0xE000, 0x10_FFFF] {
        limits.both(DSD, 0, |build| build.comments = vec![Comments { text: vec![value], ..comments(1, [0, 0], 1) }]);
    }
}

/// 4 and 5.
fn caller_names(limits: &mut Limits) {
    let mut name = |number, name: &[u8; 4]| limits.both(DSD, number, |build| build.callers = vec![caller(name)]);
    for good in [b"    ", b"A   ", b"AA  ", b"AAA ", b"~~~~", b"!!!!"] {
        name(0, good);
    }
    for bad in [b" AAA", b"A AA", b"AA A", b"\x1FAAA", b"AAA\x1F", b"\x7FAAA", b"AAA\x7F", b"AA\x80A", b"A\0  "] {
        name(4, bad);
    }
    for reserved in [b"FRM8", b"FVER", b"PROP", b"DSD ", b"DST ", b"DSTI", b"COMT", b"DIIN", b"MANF"] {
        name(5, reserved);
    }
    for free in [b"FRM9", b"frm8", b"SND ", b"DSD1", b"DSTA", b"DSTF", b"DSTC", b"FRTE", b"EMID", b"MARK", b"MANE"] {
        name(0, free);
    }
}

/// 6 to 14: the area, the lengths, the range, the source track.
fn area(limits: &mut Limits) {
    limits.both(DSD, 0, |build| build.of.info.playtime = 1_151_999);
    limits.ours(DSD, 6, |build| build.of.info.playtime = 1_152_000);
    for (channels, number) in [(0, 7), (1, 0), (6, 0), (7, 7), (255, 7)] {
        limits.both(DSD, number, |build| set_layout(build, channels, 7));
    }
    for (layout, channels) in [(STEREO, 1), (STEREO, 3), (THREE_TWO, 4), (THREE_TWO, 6), (FIVE_POINT_ONE, 5)] {
        limits.ours(DSD, 8, |build| {
            set_layout(build, channels, 7);
            build.beyond.push(Beyond::Layout(layout));
        });
    }
    for (more, number) in [(-1, 9), (0, 0), (1, 9)] {
        limits.both(DST, number, |build| {
            set_range(build, 3);
            build.lengths.more = more;
        });
    }
    limits.ours(DSD, 9, |build| build.beyond.push(Beyond::DsdLengths(1)));
    for (length, number) in [(0, 10), (1, 0), (65_536, 0), (65_537, 10), (u32::MAX, 10)] {
        for place in [0, 2] {
            limits.both(DST, number, |build| {
                set_range(build, 3);
                (build.lengths.value, build.lengths.place) = (length, place);
            });
        }
    }
    for (first, end, number) in [(0, 5, 0), (0, 6, 11), (4, 5, 0), (5, 4, 11), (6, 6, 11), (5, 5, 12), (0, 0, 12)] {
        limits.both(DSD, number, |build| {
            set_range(build, 5);
            (build.of.info.first, build.of.info.end) = (first, end);
        });
    }
    for (source_track, number) in [(1, 0), (2, 0), (3, 13), (255, 13), (256, 13), (257, 13), (65_535, 13)] {
        limits.both(DSD, number, |build| {
            build.of.tracks = vec![track(0, 1), track(0, 1)];
            build.of.info.source_track = source_track;
        });
    }
    // It is the only one in the range, or the only one outside, or one past the last.
    for count in [255, 256, 257, 65_535] {
        for source_track in [255, 256, 257, 65_535].into_iter().filter(|&number| number <= count) {
            for (others, own, number) in [(1, 0, 0), (0, 1, 14)] {
                limits.both(DSD, number, |build| {
                    build.of.tracks = vec![track(others, 1); count.into()];
                    build.of.tracks[usize::from(source_track) - 1] = track(own, 1);
                    let info = &mut build.of.info;
                    (info.on, info.source_track, info.source_track_markers) = (true, source_track, true);
                });
            }
        }
        limits.both(DSD, 13, |build| {
            build.of.tracks = vec![track(0, 1); usize::from(count) - 1];
            build.of.info.source_track = count;
        });
    }
    // The range is 2 to 4.
    for (start, duration, number) in [(1, 1, 14), (1, 2, 0), (3, 1, 0), (4, 1, 14), (2, 0, 14), (0, u32::MAX, 0)] {
        limits.both(DSD, number, |build| {
            set_range(build, 5);
            (build.of.info.first, build.of.info.end) = (2, 4);
            build.of.tracks = vec![track(start, duration)];
            build.of.info.source_track = 1;
        });
    }
}

/// 15 to 23.
fn edited_master(limits: &mut Limits) {
    for (first, end, number) in [(0, 75, 0), (0, 74, 15), (1, 75, 15)] {
        limits.both(MASTER, number, |build| {
            set_range(build, 75);
            (build.of.info.first, build.of.info.end) = (first, end);
        });
    }
    limits.both(MASTER, 16, |build| set_layout(build, 3, 0));
    limits.both(MASTER, 17, |build| build.of.tracks.clear());
    let in_a_row = |count: u32| (0..count).map(|number| track(75 * number, 75)).collect::<Vec<TrackOf>>();
    for (context, count, number) in [(DSD, 255, 0), (MASTER, 255, 0), (DSD, 256, 0), (MASTER, 256, 17)] {
        limits.both(context, number, |build| build.of.tracks = in_a_row(count));
    }
    // The last of them too short, or overlapping, or ending late.
    for (number, early, duration) in [(18, 0, 74), (19, 1, 75), (20, 0, 1_152_000)] {
        for (count, number) in [(255, number), (256, 17)] {
            limits.both(MASTER, number, |build| {
                build.of.tracks = in_a_row(count - 1);
                build.of.tracks.push(track(75 * (count - 1) - early, duration));
            });
        }
    }
    for (durations, number) in [([75, 75], 0), ([74, 75], 18), ([75, 74], 18), ([0, 0], 18)] {
        limits.both(MASTER, number, |build| build.of.tracks = vec![track(0, durations[0]), track(75, durations[1])]);
    }
    for (start, number) in [(76, 0), (75, 0), (74, 19), (0, 19)] {
        limits.both(MASTER, number, |build| build.of.tracks = vec![track(0, 75), track(start, 75)]);
    }
    for (start, number) in [(1_151_924, 0), (1_151_925, 20), (u32::MAX - 75, 20), (u32::MAX, 19)] {
        limits.both(MASTER, number, |build| build.of.tracks = vec![track(start, 75)]);
    }
    limits.both(MASTER, 21, |build| build.of.info.custom_markers = true);
    limits.both(MASTER, 22, |build| build.of.properties.loudspeaker_configuration = false);
    limits.both(MASTER, 23, |build| build.of.info.emid[0] = 0);
}

/// The bytes on both sides of what a text can have, and whether D2 takes them too.
const BYTES: [(u8, bool, bool); 8] = [
    (0x1F, false, false),
    (0x20, true, true),
    (0x7E, true, true),
    (0x7F, false, false),
    (0x80, false, false),
    (0x9F, false, false),
    (0xA0, false, true),
    (0xFF, false, true),
];

/// 24 to 29.
fn properties(limits: &mut Limits) {
    let refused = |number, passes| if passes { 0 } else { number };
    for (byte, passes, _) in BYTES {
        for rule in [REPLACE, D2] {
            limits.both(DSD, refused(24, passes), |build| {
                (build.of.info.conversion.rule, build.of.info.conversion.replacement) = (rule, byte);
                build.idle = Some(byte);
            });
        }
    }
    let given = |count, numbers| {
        move |build: &mut Build| {
            set_layout(build, 3, 0);
            build.of.properties.numbers = ChannelNumbers { given: true, count, numbers };
        }
    };
    for (count, number) in [(0, 25), (2, 25), (3, 0), (4, 25), (7, 25)] {
        limits.both(DSD, number, given(count, [1, 2, 3, 4, 5, 6]));
    }
    for (numbers, number) in [
        ([999, 0, 998], 0),
        ([1_000, 0, 1], 26),
        ([0, 1, 1_000], 26),
        ([0, 1, 65_535], 26),
        ([5, 5, 1_000], 27),
        ([1_000, 5, 5], 26),
        ([7, 0, 7], 27),
        ([0, 7, 7], 27),
    ] {
        let [a, b, c] = numbers;
        limits.both(DSD, number, given(3, [a, b, c, 0, 0, 0]));
    }
    for (order, number) in [([4, 3, 2, 1, 0], 0), ([0, 1, 2, 3, 3], 28), ([0, 0, 1, 2, 3], 28)] {
        limits.both(DSD, number, |build| build.of.properties.order = order);
    }
    for (start, positions, number) in [(LAST_FRAME - 3, 3, 0), (LAST_FRAME - 2, 3, 29), (u32::MAX, 1, 29)] {
        limits.both(DSD, number, |build| {
            set_range(build, positions);
            set_start(build, start);
        });
    }
}

/// 30 to 33.
fn info(limits: &mut Limits) {
    let refused = |number, passes| if passes { 0 } else { number };
    for (on, number) in [(true, 30), (false, 0)] {
        limits.both(DSD, number, |build| (build.of.info.on, build.of.info.order) = (on, [0, 1, 2, 2]));
    }
    for (byte, passes, _) in BYTES {
        for (on, number) in [(true, refused(31, passes)), (false, 0)] {
            limits.both(DSD, number, |build| {
                let id = bytes(build, &[b'A', byte]);
                (build.of.info.on, build.of.info.emid) = (on, [1, id.start, id.length]);
            });
        }
    }
    // The range is 1 to 3.
    for (frame, number) in [(0, 32), (1, 0), (3, 0), (4, 32), (u32::MAX, 32)] {
        limits.both(DSD, number, |build| {
            set_range(build, 4);
            let info = &mut build.of.info;
            (info.first, info.end, info.on, info.custom_markers) = (1, 3, true, true);
            build.of.custom = vec![marker(2, NONE), marker(frame, NONE)];
        });
    }
    for (byte, passes, passes_d2) in BYTES {
        for (rule, passes) in [(REPLACE, passes), (D2, passes_d2)] {
            limits.both(DSD, refused(33, passes), |build| {
                let text = bytes(build, &[b'A', byte]);
                let info = &mut build.of.info;
                (info.on, info.custom_markers, info.conversion.rule) = (true, true, rule);
                build.of.custom = vec![marker(0, text)];
            });
        }
    }
}

/// 34 to 36.
fn comment_limits(limits: &mut Limits) {
    for (place, most) in [(1, 12), (2, 31), (3, 23), (4, 59)] {
        for (value, number) in [(0, 0), (most, 0), (most + 1, 34), (255, 34)] {
            limits.both(DSD, number, |build| {
                build.comments = vec![comments(1, [0, 0], 1), comments(1, [0, 0], 1)];
                build.comments[1].date[place] = value;
            });
        }
        limits.ours(DSD, 34, |build| build.beyond.push(Beyond::Date(place, 256)));
    }
    for (kind, most) in [(1, 2), (2, 2), (3, 4)] {
        for (reference, number) in [(0, 0), (most, 0), (most + 1, 35), (65_535, 35)] {
            limits.both(DSD, number, |build| build.comments = vec![comments(1, [kind, reference], 1)]);
        }
        limits.ours(DSD, 35, |build| build.beyond.push(Beyond::Reference(kind, 65_536)));
    }
    limits.ours(DSD, 35, |build| build.beyond.push(Beyond::Kind(4)));
    for (count, number) in [(65_535, 0), (65_536, 36)] {
        limits.both(DSD, number, |build| build.comments = vec![comments(1, [0, 0], count)]);
    }
    // Empty texts are not written, and do not count.
    limits.both(DSD, 0, |build| {
        let empty = Comments { text: Vec::new(), ..comments(1, [0, 0], 1) };
        build.comments = vec![comments(1, [0, 0], 65_535), empty];
    });
}

/// 37 to 39.
fn local_order(limits: &mut Limits) {
    let mut order = |number, names: &[u8]| {
        limits.both(DST, number, |build| {
            build.of.info.on = true;
            build.comments = vec![comments(1, [0, 0], 1)];
            set_order(build, names);
        });
    };
    order(0, &[PROP, SOUND, DSTI, DIIN, COMT]);
    order(37, &[PROP, SOUND, DSTI, DIIN, DIIN]);
    for gone in [PROP, SOUND, DSTI, DIIN, COMT] {
        let names: Vec<u8> = [PROP, SOUND, DSTI, DIIN, COMT].into_iter().filter(|&name| name != gone).collect();
        order(38, &names);
    }
    order(38, &[]);
    order(39, &[SOUND, PROP, DSTI, DIIN, COMT]);
    limits.both(DST, 37, |build| build.local_count = 6);
}

/// 1 and 2, of texts that no pool has.
fn long_texts(limits: &mut Limits) {
    for place in TEXTS {
        for (length, number) in [(LONGEST_TEXT, 2), (LONGEST_TEXT + 1, 1), (u32::MAX, 1)] {
            limits.ours(DSD, number, |build| build.beyond.push(Beyond::NoPool(place, length)));
        }
    }
}

pub fn limits() -> Vec<Case> {
    let mut limits = Limits { cases: Vec::new() };
    for of in [pools, caller_names, area, edited_master, properties, info, comment_limits, local_order, long_texts] {
        of(&mut limits);
    }
    limits.cases
}
