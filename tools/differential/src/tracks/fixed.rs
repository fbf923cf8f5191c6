//! Fixed cases: programs of tracks on both sides of each limit.

use library::text::Extent;

use crate::builds::fixed::{set_range, with};
use crate::builds::Case;
use crate::checks::fixed::{plain, track, Context, Fixed, Part};
use crate::checks::{LONGEST_PLAYTIME, MOST_MASTER_TRACKS, MOST_TRACKS};
use crate::markers::TrackOf;
use crate::random::Random;

/// Tracks of 2 frames, or of 75 of an edited master, with gaps of one frame or without, titled or not.
fn program(context: Context, count: usize, gap: u32, titles: bool) -> Case {
    let duration = if context.edited_master { 75 } else { 2 };
    let step = duration + gap;
    let build = with(plain(context), |build| {
        set_range(build, LONGEST_PLAYTIME.min(step * count as u32));
        build.of.pool = vec![0x41, 0xE9, 0x42];
        build.of.tracks = (0..count as u32)
            .map(|number| TrackOf { title: Extent { start: 0, length: number % 4 }, ..track(step * number, duration) })
            .collect();
        (build.of.info.on, build.of.info.titles) = (true, titles);
        let [ours, original] = match (count > MOST_TRACKS, context.edited_master && count > MOST_MASTER_TRACKS) {
            (true, true) => [1, 17],
            (true, false) => [1, 0],
            (false, true) => [17, 17],
            (false, false) => [0, 0],
        };
        build.fixed = Some(Fixed { part: Part::Named("a program"), ours, original });
    });
    Case::of(build)
}

/// The program with a range from within its second track to within the last but one.
fn clipped(mut case: Case) -> Case {
    let [second, last] = [1, 2].map(|place| case.build.of.tracks[place]);
    let info = &mut case.build.of.info;
    (info.first, info.end) = (second.end() - 1, info.end - (last.end() - second.start));
    (info.clipped_program, info.titles) = (true, true);
    case
}

/// The program with a source track: on both sides of what a byte can tell, and of the last track.
fn sources(cases: &mut Vec<Case>, count: usize) {
    let context = Context { dst: false, edited_master: false };
    let mut numbers = vec![1, 254, 255, 256, 257, count - 1, count, count + 1, MOST_TRACKS];
    numbers.retain(|&number| number <= MOST_TRACKS);
    numbers.sort_unstable();
    numbers.dedup();
    for source_track in numbers {
        let number = if source_track <= count { 0 } else { 13 };
        let mut case = program(context, count, 1, true);
        let info = &mut case.build.of.info;
        (info.source_track, info.source_track_markers) = (source_track as u16, true);
        case.build.fixed = Some(Fixed { part: Part::Named("a source track"), ours: number, original: number });
        cases.push(case);
    }
}

pub fn fixed() -> Vec<Case> {
    let mut cases = Vec::new();
    for count in [254, 255, 256, 257, 65_534, 65_535, 65_536] {
        for edited_master in [false, true] {
            let context = Context { dst: false, edited_master };
            cases.push(program(context, count, 0, false));
            cases.push(program(context, count, 1, true));
        }
        let context = Context { dst: false, edited_master: false };
        cases.push(clipped(program(context, count, 0, false)));
    }
    for dst_count in [255, 256, 257] {
        cases.push(program(Context { dst: true, edited_master: false }, dst_count, 1, true));
    }
    for count in [255, 256, 257, 65_534, 65_535] {
        sources(&mut cases, count);
    }
    let cases = (0..).zip(cases).map(|(number, mut case)| {
        case.build.beside = number + 1;
        case.with_windows(&mut Random::of_case(0, number))
    });
    cases.collect()
}
