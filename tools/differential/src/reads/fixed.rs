//! Fixed cases: small files with all windows that there are, and files with windows around boundaries or far back.

use std::ops::RangeInclusive;

use library::checks::{COMT, DIIN, DSTI, PROP, SOUND};

use super::file::File;
use super::{Case, Spoilt, Window, Windows};
use crate::builds::fixed::{empty_info, set_layout, set_order, set_range, with, DSD, DST};
use crate::checks::fixed::{caller, comments, plain};
use crate::checks::{Caller, Case as Build};

pub fn fixed() -> Vec<Case> {
    let small = small().into_iter().map(|build| case(build, Windows::All));
    let dsd = dsd().into_iter().map(|build| case(build, Windows::Boundaries));
    let long = long().into_iter().map(|build| case(build, Windows::Far));
    small.chain(dsd).chain(long).chain(spoilt()).collect()
}

fn case(build: Build, windows: Windows) -> Case {
    let mut case = Case::of(build, 17, Vec::new());
    if let Ok(file) = &case.built {
        case.asked.reads = match windows {
            Windows::All => all_windows(file),
            Windows::Boundaries => boundary_windows(file),
            Windows::Far => far_windows(file),
        };
    }
    case.asked.choices = 1;
    Case { fixed: Some(windows), ..case }
}

/// DST of one channel with frames of these lengths, without an index.
fn frames(lengths: &[u32]) -> Build {
    with(plain(DST), |build| {
        set_layout(build, 1, 0);
        set_range(build, lengths.len() as u32);
        build.lengths.usual = lengths.to_vec();
        build.lengths.value = lengths[0];
        build.dst_index = false;
        set_order(build, &[PROP, SOUND]);
    })
}

fn small() -> Vec<Build> {
    let mut builds = Vec::new();
    let lengths: [&[u32]; 5] = [&[1], &[2], &[3, 4], &[2, 2], &[1, 1, 1]];
    for lengths in lengths {
        for crc in [false, true] {
            for order in [&[PROP, SOUND][..], &[PROP, DSTI, SOUND], &[PROP, SOUND, DSTI]] {
                builds.push(with(frames(lengths), |build| {
                    build.dst_crc = crc;
                    build.dst_index = order.contains(&DSTI);
                    set_order(build, order);
                }));
            }
        }
    }
    let odd = |size: u8| Caller { data: (1..=size).collect(), ..caller(b"LAST") };
    builds.push(with(frames(&[1, 1]), |build| {
        build.dst_crc = true;
        build.callers = vec![odd(1)];
    }));
    builds.push(with(frames(&[2, 1, 5]), |build| {
        (build.dst_index, build.frame_data) = (true, true);
        build.callers = vec![odd(3), odd(0)];
        set_order(build, &[PROP, SOUND, DSTI]);
    }));
    builds.push(with(frames(&[1]), |build| {
        (build.dst_crc, build.dst_index) = (true, true);
        build.comments = vec![comments(1, [0, 0], 1)];
        empty_info(build);
        set_order(build, &[PROP, DSTI, COMT, SOUND, DIIN]);
    }));
    builds.push(with(frames(&[4]), |build| {
        build.comments = vec![comments(1, [0, 0], 1)];
        empty_info(build);
        set_order(build, &[DIIN, PROP, SOUND, COMT]);
    }));
    builds
}

/// DSD of so many channels and positions, with a trailer and without.
fn dsd() -> Vec<Build> {
    let sizes = [(1, 1), (1, 2), (1, 3), (2, 2), (6, 1)];
    let builds = sizes.map(|(channels, positions)| {
        with(plain(DSD), |build| {
            set_layout(build, channels, 0);
            set_range(build, positions);
            if positions != 3 {
                build.callers = vec![Caller { data: vec![1], ..caller(b"LAST") }];
            }
        })
    });
    builds.to_vec()
}

/// More than 4 GiB, and as many positions as there can be.
fn long() -> Vec<Build> {
    let longest = 1_151_999;
    let dsd = with(plain(DSD), |build| {
        set_layout(build, 6, 4);
        set_range(build, longest);
        build.callers = vec![Caller { data: vec![1], ..caller(b"LAST") }];
    });
    let dst = [false, true].map(|crc| {
        with(plain(DST), |build| {
            set_range(build, 70_000);
            (build.lengths.value, build.lengths.usual) = (65_536, vec![65_536, 65_535]);
            (build.dst_crc, build.dst_index) = (crc, !crc);
            set_order(build, &[PROP, DSTI, SOUND]);
            build.callers = vec![Caller { data: vec![1, 2], ..caller(b"LAST") }];
        })
    });
    let many = [false, true].map(|crc| {
        with(plain(DST), |build| {
            set_range(build, longest);
            (build.lengths.value, build.lengths.usual) = (1, vec![1]);
            (build.dst_crc, build.dst_index) = (crc, false);
        })
    });
    [dsd].into_iter().chain(dst).chain(many).collect()
}

/// Small files of which a position is lent something else, too few or too many bytes.
fn spoilt() -> Vec<Case> {
    let mut cases = Vec::new();
    let mut add = |build: Build, windows: Windows, spoilt: [(bool, usize); 3]| {
        let case = case(build, windows);
        cases.extend(spoilt.map(|(content, bytes)| {
            let spoilt = Some(Spoilt { position: 1, content, bytes });
            Case { spoilt, ..case.clone() }
        }));
    };
    add(frames(&[3, 4, 1]), Windows::All, [(false, 0), (false, 3), (false, 5)]);
    let crc = with(frames(&[3, 4]), |build| build.dst_crc = true);
    add(crc, Windows::All, [(false, 5), (true, 4_703), (true, 4_705)]);
    let dsd = with(plain(DSD), |build| {
        set_layout(build, 1, 0);
        set_range(build, 3);
    });
    add(dsd, Windows::Boundaries, [(true, 0), (true, 4_703), (true, 4_705)]);
    cases
}

/// From every place up to 2 past the end, so many bytes of every number up to 2 past the end.
fn all_windows(file: &File) -> Vec<Window> {
    let most = file.size() + 2;
    let windows = (0..=most).flat_map(|offset| (0..=most - offset).map(move |length| Window { offset, length }));
    windows.collect()
}

/// The places within 2 of a place.
fn near(place: u64) -> RangeInclusive<u64> {
    place.saturating_sub(2)..=place + 2
}

/// From each place within 2 of a boundary to each such place.
fn boundary_windows(file: &File) -> Vec<Window> {
    let mut places: Vec<u64> = file.boundaries().into_iter().flat_map(near).collect();
    places.sort_unstable();
    places.dedup();
    let to = |offset: u64| places.iter().filter(move |&&end| offset <= end).map(move |end| (offset, end - offset));
    let windows = places.iter().flat_map(|&offset| to(offset));
    windows.map(|(offset, length)| Window { offset, length }).collect()
}

/// From each place near the sound's first and last byte, near 4 GiB and the boundaries on both sides of it, or in the
/// middle of a shorter file, and near the file's end.
fn far_windows(file: &File) -> Vec<Window> {
    let (far, long) = if file.size() > 1 << 32 { (1 << 32, 70_000) } else { (file.size() / 2, 1_000) };
    let boundaries = file.boundaries();
    let above = boundaries.partition_point(|&boundary| boundary < far);
    let places = [file.header_bytes(), far, boundaries[above - 1], boundaries[above], file.sound_end(), file.size()];
    let lengths = [0, 1, 5, 40, long];
    let windows = places.map(near).into_iter().flatten();
    windows.flat_map(|offset| lengths.map(|length| Window { offset, length })).collect()
}
