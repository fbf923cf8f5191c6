//! Dates of comments and windows of them, by the functions on dates, and what a build says of such comments.

use std::fs;
use std::path::Path;

use jangqeruz::{
    Area, BuildError, Comment, CommentKind, DateError, DateRefusal, File, Kind, Layout, Options, Refusal, Stamp,
    date_fault, earlier, falls_in, note_fault, verdict,
};

use crate::random::Random;
use crate::sources::Silence;

const fn at(year: u32, month: u32, day: u32, hour: u32, minutes: u32) -> Stamp {
    Stamp { year, month, day, hour, minutes }
}

const fn on(year: u32, month: u32, day: u32) -> Stamp {
    at(year, month, day, 0, 0)
}

/// No date by 34, no date by 46, and no date at all.
const PAST: Stamp = on(2024, 13, 1);
const NO_SUCH: Stamp = on(2023, 2, 29);
const UNDATED: Stamp = on(0, 0, 0);

fn number(outcome: Result<(), DateError>) -> u32 {
    match outcome {
        Ok(()) => 0,
        Err(DateError::Refused(refusal)) => refusal.number(),
        Err(error) => panic!("{error}"),
    }
}

/// The numbers that a date is refused with in a window, and as a comment's. A build takes a comment unless it is 34.
#[track_caller]
fn faults(stamp: Stamp, of_date: u32, of_note: u32) {
    assert_eq!((number(date_fault(stamp)), number(note_fault(stamp))), (of_date, of_note), "{stamp:?}");
    assert_eq!(built(&[comment(stamp)]), if of_note == 34 { 34 } else { 0 }, "{stamp:?}");
}

fn comment(stamp: Stamp) -> Comment {
    let Stamp { year, month, day, hour, minutes } = stamp;
    Comment { year, month, day, hour, minutes, kind: CommentKind::General, reference: 0, text: "Note".into() }
}

/// The number that a build of these comments is refused with, 0 if it is not.
fn built(comments: &[Comment]) -> u32 {
    let area = Area::new(Kind::Dsd, 2, Layout::Stereo, 1);
    let options = Options { comments: comments.to_vec(), ..Options::default() };
    let said = verdict(&area, &options, &[]);
    assert_eq!(File::build(&area, &options, &[], Silence).map(|_| ()), said, "the build says the same");
    match said {
        Ok(()) => 0,
        Err(BuildError::Refused(refusal)) => refusal.number(),
        Err(error) => panic!("{error}"),
    }
}

#[test]
fn days_of_the_calendar() {
    for (year, leap) in [(1900, false), (2000, true), (2023, false), (2024, true), (2100, false), (65_500, false)] {
        let number = if leap { 0 } else { 46 };
        faults(on(year, 2, 29), number, number);
        faults(on(year, 2, 28), 0, 0);
        faults(on(year, 2, 30), 46, 46);
    }
    for (month, last) in (1..).zip([31, 29, 31, 30, 31, 30, 31, 31, 30, 31, 30, 31]) {
        faults(on(2024, month, last), 0, 0);
        let number = if last == 31 { 34 } else { 46 };
        faults(on(2024, month, last + 1), number, number);
    }
    for date in [on(1, 1, 1), on(1, 12, 31), on(65_535, 12, 31), at(65_535, 12, 31, 23, 59)] {
        faults(date, 0, 0);
    }
    for no_date in [on(0, 1, 1), on(0, 12, 31), on(2024, 0, 1), on(2024, 1, 0), on(0, 0, 31), on(0, 12, 0)] {
        faults(no_date, 46, 46);
    }
}

#[test]
fn limits_come_first() {
    for past in [
        on(65_536, 1, 1),
        on(2024, 13, 1),
        on(2024, 1, 32),
        at(2024, 1, 1, 24, 0),
        at(2024, 1, 1, 0, 60),
        on(0, 13, 31),
        at(2023, 2, 29, 24, 0),
        on(u32::MAX, u32::MAX, u32::MAX),
    ] {
        faults(past, 34, 34);
    }
}

#[test]
fn undated_notes() {
    for undated in [UNDATED, at(0, 0, 0, 23, 59), at(2024, 0, 0, 12, 30), at(65_535, 0, 0, 0, 0)] {
        faults(undated, 46, 0);
    }
    for past in [on(65_536, 0, 0), at(0, 0, 0, 24, 0), at(0, 0, 0, 0, 60)] {
        faults(past, 34, 34);
    }
}

/// A build looks at 34 alone, comment by comment, also of one that is left out as empty.
#[test]
fn a_build_asks_less() {
    let referring = |stamp| Comment { kind: CommentKind::SoundSource, reference: 3, ..comment(stamp) };
    let empty = |stamp| Comment { text: String::new(), ..comment(stamp) };
    assert_eq!(built(&[comment(NO_SUCH), comment(UNDATED), comment(on(0, 0, 1))]), 0);
    assert_eq!(built(&[comment(NO_SUCH), comment(PAST)]), 34);
    assert_eq!(built(&[referring(NO_SUCH)]), 35);
    assert_eq!(built(&[referring(PAST)]), 34);
    assert_eq!(built(&[empty(NO_SUCH)]), 0);
    assert_eq!(built(&[empty(PAST)]), 34);
}

#[track_caller]
fn falls(start: Stamp, end: Stamp, note: Stamp, wanted: Result<bool, u32>) {
    let told = falls_in(start, end, note).map_err(|error| match error {
        DateError::Refused(refusal) => refusal.number(),
        error => panic!("{error}"),
    });
    assert_eq!(told, wanted, "{start:?} {end:?} {note:?}");
}

#[test]
fn edges_of_a_window() {
    let (start, end) = (at(2024, 2, 29, 12, 0), at(2024, 3, 1, 0, 0));
    falls(start, end, at(2024, 2, 29, 11, 59), Ok(false));
    falls(start, end, start, Ok(true));
    falls(start, end, at(2024, 2, 29, 12, 1), Ok(true));
    falls(start, end, at(2024, 2, 29, 23, 59), Ok(true));
    falls(start, end, end, Ok(false));
    falls(start, end, at(2024, 3, 1, 0, 1), Ok(false));
    for undated in [UNDATED, at(2024, 0, 0, 12, 0), at(65_535, 0, 0, 23, 59)] {
        falls(on(1, 1, 1), at(65_535, 12, 31, 23, 59), undated, Ok(false));
    }
    // An end that is not after its start is no refusal.
    for note in [start, end, at(2024, 2, 29, 18, 0), UNDATED] {
        falls(start, start, note, Ok(false));
        falls(end, start, note, Ok(false));
    }
}

/// Start, end and comment, each 34 before 46: what comes first is told, whatever comes behind.
#[test]
fn order_of_a_windows_refusals() {
    let right = on(2024, 2, 29);
    let all = [right, PAST, NO_SUCH, UNDATED];
    for start in all {
        for end in all {
            for note in all {
                let wanted = match (number(date_fault(start)), number(date_fault(end)), number(note_fault(note))) {
                    (0, 0, 0) => Ok(false),
                    (0, 0, number) | (0, number, _) | (number, _, _) => Err(number),
                };
                falls(start, end, note, wanted);
            }
        }
    }
    falls(PAST, NO_SUCH, NO_SUCH, Err(34));
    falls(NO_SUCH, PAST, PAST, Err(46));
    falls(UNDATED, PAST, PAST, Err(46));
    falls(right, PAST, NO_SUCH, Err(34));
    falls(right, NO_SUCH, PAST, Err(46));
    falls(right, UNDATED, PAST, Err(46));
    falls(right, right, PAST, Err(34));
    falls(right, right, NO_SUCH, Err(46));
    falls(right, right, UNDATED, Ok(false));
    // Both in one stamp.
    falls(at(2023, 2, 29, 24, 0), right, right, Err(34));
    falls(right, at(0, 0, 0, 0, 60), right, Err(34));
    falls(right, right, on(65_536, 0, 0), Err(34));
}

/// By year, then month, day, hour and minutes; and windows that meet split what is in both.
#[test]
fn order_of_dates() {
    let random = &mut Random::new(34);
    let mut stamp = || at(random.below(3), random.below(3), random.below(3), random.below(2), random.below(2));
    for _ in 0..2_000 {
        let (a, b) = (stamp(), stamp());
        let units = |s: Stamp| [s.year, s.month, s.day, s.hour, s.minutes];
        assert_eq!(earlier(a, b), units(a) < units(b), "{a:?} {b:?}");
    }
    assert!(earlier(on(2024, 12, 31), on(65_535, 1, 1)) && !earlier(on(u32::MAX, 0, 0), on(u32::MAX, 0, 0)));
    let (from, middle, to) = (on(2024, 1, 1), at(2024, 7, 1, 12, 0), on(2025, 1, 1));
    for note in [from, middle, to, at(2024, 7, 1, 11, 59), at(2024, 12, 31, 23, 59), UNDATED] {
        let [first, second, both] =
            [(from, middle), (middle, to), (from, to)].map(|(start, end)| falls_in(start, end, note).unwrap());
        assert!(both == (first || second) && !(first && second), "{note:?}");
    }
}

#[test]
fn what_is_told() {
    let refused = |stamp| match note_fault(stamp) {
        Err(DateError::Refused(refusal)) => refusal,
        other => panic!("{other:?}"),
    };
    let (past, no_such) = (refused(PAST), refused(NO_SUCH));
    assert_eq!((past, no_such), (DateRefusal::CommentDate, DateRefusal::NoSuchDate));
    assert_eq!(past.words(), Refusal::CommentDate.words());
    assert!(no_such.to_string().starts_with("refused (46): A comment's date must be a Gregorian date"), "{no_such}");
    assert!(Refusal::new(46, 0).is_none());
    let root = Path::new(env!("CARGO_MANIFEST_DIR")).join("../..");
    for refusal in [past, no_such] {
        for text in [refusal.words(), refusal.remedy()] {
            assert!(text.ends_with('.') && text.is_ascii() && !text.contains("  "), "{text}");
        }
        let (file, name) = refusal.definition().split_once(": ").unwrap();
        let text = fs::read_to_string(root.join(file)).unwrap();
        assert!(text.contains(&format!("pub {name} :")) && Refusal::CommentDate.definition().contains(file));
    }
}
