//! `dff comments`: the order of the list, windows, dates that are none, JSON, and files at fault.

mod made;

use jangqeruz::{Area, Comment, CommentKind, Kind, Layout, Options};
use made::common::{Ran, dff};
use made::edit::{Part, parts};
use made::{Draw, Frames, Made, dff_on, folder};
use serde_json::{Value, json};
use std::fs;
use std::path::{Path, PathBuf};

/// Year, month, day, hour, minutes, and the text.
type Note = (u16, u8, u8, u8, u8, &'static str);

/// COMT of general comments, with whatever dates.
fn comt(notes: &[Note]) -> Part {
    let mut data = (notes.len() as u16).to_be_bytes().to_vec();
    for (year, month, day, hour, minutes, text) in notes {
        data.extend(year.to_be_bytes());
        data.extend([*month, *day, *hour, *minutes, 0, 0, 0, 0]);
        data.extend((text.len() as u32).to_be_bytes());
        data.extend(text.as_bytes());
        data.resize(data.len().next_multiple_of(2), 0);
    }
    Part::leaf(b"COMT", &data)
}

/// A file without comments, in parts.
fn bare() -> Part {
    let frames = Frames { coded: vec![], plain: vec![vec![0x69; 4_704]] };
    let area = Area::new(Kind::Dsd, 1, Layout::Unspecified, 1);
    parts(&Made::new(area, Options::default(), frames).unwrap().bytes)
}

/// A file with these comments, in a folder of its own.
fn file(name: &str, notes: &[Note]) -> PathBuf {
    let mut form = bare();
    form.chunks.push(comt(notes));
    written(name, &form.bytes())
}

fn written(name: &str, bytes: &[u8]) -> PathBuf {
    let path = folder(&format!("comments_{name}")).join("a.dff");
    fs::write(&path, bytes).unwrap();
    path
}

fn comments(path: &Path, args: &[&str]) -> Ran {
    dff_on("comments", path, args)
}

/// The texts that are listed, and the notes beside them, of a run that ended well.
#[track_caller]
fn listed(path: &Path, args: &[&str]) -> (Vec<String>, Vec<String>) {
    let ran = comments(path, args);
    assert_eq!(ran.status, 0, "{ran:?}");
    let text = |line: &str| line.split('"').nth(1).unwrap().to_string();
    let start = format!("dff: note: {}: ", path.display());
    let note = |line: &str| line.strip_prefix(&start).unwrap_or_else(|| panic!("{line}")).to_string();
    (ran.out.lines().map(text).collect(), ran.err.lines().map(note).collect())
}

const MIXED: [Note; 10] = [
    (0, 0, 0, 0, 0, "undated"),
    (2024, 2, 29, 18, 30, "leap evening"),
    (2023, 2, 29, 0, 0, "no such day"),
    (65_535, 12, 31, 23, 59, "last minute"),
    (2024, 2, 29, 0, 0, "leap day"),
    (1, 1, 1, 0, 0, "first day"),
    (2024, 0, 0, 12, 0, "undated in 2024"),
    (2024, 2, 29, 0, 0, "leap day again"),
    (2024, 13, 1, 0, 0, "month 13"),
    (2024, 3, 1, 0, 0, "day after"),
];

#[test]
fn by_date() {
    let path = file("by_date", &MIXED);
    let ran = comments(&path, &[]);
    assert_eq!((ran.status, ran.err.as_str()), (0, ""));
    let wanted = "\
0001-01-01 00:00, general 0: \"first day\"
2024-02-29 00:00, general 0: \"leap day\"
2024-02-29 00:00, general 0: \"leap day again\"
2024-02-29 18:30, general 0: \"leap evening\"
2024-03-01 00:00, general 0: \"day after\"
65535-12-31 23:59, general 0: \"last minute\"
2023-02-29 00:00 (no date: refusal 46), general 0: \"no such day\"
2024-13-01 00:00 (no date: refusal 34), general 0: \"month 13\"
undated, general 0: \"undated\"
undated (2024-00-00 12:00), general 0: \"undated in 2024\"
";
    assert_eq!(ran.out, wanted);
}

#[test]
fn windows() {
    let path = file("windows", &MIXED);
    let left_out = "2 comments are left out, having no date of the calendar; without a window they are listed";
    let day = ["leap day", "leap day again", "leap evening"];
    let in_window = |args: &[&str], texts: &[&str]| {
        let (found, notes) = listed(&path, args);
        assert_eq!(found, texts, "{args:?}");
        assert_eq!(notes, [left_out], "{args:?}");
    };
    // The whole day; its first minute is in, the next day's is not.
    in_window(&["--from", "2024-02-29", "--to", "2024-03-01"], &day);
    in_window(&["--from", "2024-02-29T00:00", "--to", "2024-02-29 18:30"], &day[..2]);
    in_window(&["--from", "2024-02-29T00:00", "--to", "2024-02-29T18:31"], &day);
    in_window(&["--from", "2024-02-29T00:01", "--to", "2024-03-01T00:01"], &["leap evening", "day after"]);
    in_window(&["--from", "2024-01-01", "--to", "2025-01-01"], &[&day[..], &["day after"]].concat());
    // A side that is open.
    in_window(&["--from", "2024-02-29T18:30"], &["leap evening", "day after", "last minute"]);
    in_window(&["--from", "2024-02-29T18:31"], &["day after", "last minute"]);
    in_window(&["--to", "2024-02-29"], &["first day"]);
    in_window(&["--to", "2024-02-29T00:01"], &["first day", "leap day", "leap day again"]);
    in_window(&["--from", "65535-12-31T23:59"], &["last minute"]);
}

#[test]
fn windows_that_nothing_falls_in() {
    let path = file("empty_windows", &[(2024, 2, 29, 0, 0, "a"), (0, 0, 0, 0, 0, "b")]);
    let none = |args: &[&str], note: &str| {
        assert_eq!(listed(&path, args), (vec![], vec![note.to_string()]), "{args:?}");
    };
    let not_after = "--to 2024-02-29 00:00 is not after --from 2024-02-29 00:00, so nothing falls in";
    none(&["--from", "2024-02-29", "--to", "2024-02-29"], not_after);
    let not_after = "--to 2023-01-01 00:00 is not after --from 2025-01-01 12:00, so nothing falls in";
    none(&["--from", "2025-01-01T12:00", "--to", "2023-01-01"], not_after);
    none(&["--to", "2024-02-29"], "no comment falls in the window");
    none(&["--from", "2024-02-29T00:01"], "no comment falls in the window");
    none(&["--from", "0001-01-01", "--to", "0001-01-02"], "no comment falls in the window");
    assert_eq!(comments(&path, &["--json", "--to", "2024-02-29"]).with(0, "no comment falls in").out, "[]\n");
    let quiet = comments(&path, &["--quiet", "--to", "2024-02-29"]).with(0, "");
    assert_eq!((quiet.out.as_str(), quiet.err.as_str()), ("", ""));
}

#[test]
fn dates_that_are_refused() {
    let path = file("wrong_dates", &MIXED);
    let not_read = "not a date as 2024-02-29, or with a time as 2024-02-29T18:30";
    let no_date = "refused (46): A comment's date must be a Gregorian date";
    let past = "refused (34): ";
    for option in ["--from", "--to"] {
        for (date, words) in [
            ("yesterday", not_read),
            ("2024-2-29", not_read),
            ("2024-02-29T18:30:00", not_read),
            ("", not_read),
            ("-5", not_read),
            ("2024-02-31", no_date),
            ("0000-01-01", no_date),
            ("2024-00-00", no_date),
            ("2024-13-01", past),
            ("2024-02-29T24:00", past),
            ("65536-01-01", past),
        ] {
            let ran = comments(&path, &[option, date]).with(2, words);
            assert!(ran.out.is_empty() && ran.err.starts_with("dff: ") && ran.err.contains(option), "{ran:?}");
            assert_eq!(ran.err.contains("\n  remedy: "), words != not_read, "{ran:?}");
        }
    }
    // Told before the file is looked for.
    comments(&path.with_file_name("none"), &["--from", "2024-02-31"]).with(2, no_date);
}

#[test]
fn as_json() {
    let path = file("json", &MIXED);
    let ran = comments(&path, &["--json"]).with(0, "");
    let list: Vec<Value> = serde_json::from_str(&ran.out).unwrap();
    let told = |value: &Value| (value["text"].clone(), value["dated"].clone(), value["fault"].clone());
    let of = |text: &str| told(list.iter().find(|value| value["text"] == text).unwrap());
    assert_eq!(of("leap day"), (json!("leap day"), json!(true), Value::Null));
    assert_eq!(of("no such day"), (json!("no such day"), json!(false), json!(46)));
    assert_eq!(of("month 13"), (json!("month 13"), json!(false), json!(34)));
    assert_eq!(of("undated"), (json!("undated"), json!(false), Value::Null));
    // The order is that of the lines, and the other fields are those of `dff show`.
    let (texts, _) = listed(&path, &[]);
    assert_eq!(list.iter().map(|value| value["text"].as_str().unwrap()).collect::<Vec<_>>(), texts);
    let shown: Value = serde_json::from_str(&dff_on("show", &path, &["--json"]).out).unwrap();
    let chunks = shown["chunks"][0]["chunks"].as_array().unwrap();
    let shown = &chunks.iter().find(|chunk| chunk["name"] == "COMT").unwrap()["value"]["comments"];
    for mut value in list {
        let fields = value.as_object_mut().unwrap();
        fields.remove("dated").unwrap();
        fields.remove("fault").unwrap();
        assert!(shown.as_array().unwrap().contains(&value), "{value}");
    }
}

#[test]
fn texts_and_kinds_are_as_show_has_them() {
    let long: &'static str = Box::leak("x".repeat(1_001).into_boxed_str());
    let mut form = bare();
    let mut part = comt(&[(2024, 1, 1, 0, 0, "two\nlines\u{1b}[2J \"é\""), (2024, 1, 2, 0, 0, long)]);
    part.data[8..12].copy_from_slice(&[0, 3, 0, 2]);
    form.chunks.push(part);
    let path = written("texts", &form.bytes());
    let out = comments(&path, &[]).with(0, "").out;
    let shown = dff_on("show", &path, &[]).with(0, "").out;
    let of_show: Vec<&str> = shown
        .lines()
        .filter_map(|line| line.trim().strip_prefix("at ")?.split_once(": "))
        .map(|(_, rest)| rest)
        .collect();
    assert_eq!(out.lines().collect::<Vec<_>>(), of_show);
    assert!(out.starts_with("2024-01-01 00:00, file history 2: \"two\\x0alines\\x1b[2J \\\"Ã©\\\"\"\n"), "{out}");
    assert!(out.ends_with("x\" (the first 1000 of 1001 bytes)\n"), "{out}");
    let json: Value = serde_json::from_str(&comments(&path, &["--json"]).out).unwrap();
    assert_eq!((&json[1]["text"], &json[0]["kind_name"]), (&json!(long), &json!("file history")));
}

#[test]
fn files_without_comments() {
    let path = written("none", &bare().bytes());
    assert_eq!(listed(&path, &[]), (vec![], vec!["no comments".to_string()]));
    assert_eq!(listed(&path, &["--from", "2024-01-01"]), (vec![], vec!["no comments".to_string()]));
    assert_eq!(comments(&path, &["--json"]).with(0, "no comments").out, "[]\n");
    let path = file("zero", &[]);
    assert_eq!(listed(&path, &[]), (vec![], vec!["no comments".to_string()]));
}

#[test]
fn files_at_fault() {
    let mut form = bare();
    let mut part = comt(&MIXED[..2]);
    part.data[1] = 3; // one more than there are
    form.chunks.push(part);
    let path = written("short", &form.bytes());
    let ran = comments(&path, &[]).with(1, "COMT ends in comment 2 of 3");
    assert_eq!(ran.out.lines().count(), 2, "{ran:?}");
    fs::write(&path, b"RIFF and so on, no DSDIFF").unwrap();
    let ran = comments(&path, &[]).with(1, "doesn't begin with FRM8");
    assert!(ran.out.is_empty() && !ran.err.contains("no comments"), "{ran:?}");
    comments(path.parent().unwrap(), &[]).with(4, "");
    comments(&path.with_file_name("none"), &[]).with(4, "No such file");
    // A second COMT is read by nobody.
    let mut form = bare();
    form.chunks.extend([comt(&MIXED[..1]), comt(&MIXED[1..2])]);
    let path = written("repeated", &form.bytes());
    let (texts, notes) = listed(&path, &[]);
    assert_eq!(texts, ["undated"]);
    assert!(notes.len() == 1 && notes[0].ends_with(" is a repeated one, and is passed over"), "{notes:?}");
}

/// Drawn comments: all are listed, dates rise, and windows that meet list what the window over both does.
#[test]
fn drawn_comments() {
    let mut draw = Draw(46);
    for number in 0..20 {
        let mut notes = vec![];
        for _ in 0..40 {
            let mut under = |end: usize| draw.below(end) as u8;
            let (month, day) = (under(14), under(33));
            notes.push((2_020 + u16::from(under(4)), month, day, under(25), under(61), "a"));
        }
        let path = file(&format!("drawn_{number}"), &notes);
        let out = |args: &[&str]| comments(&path, args).with(0, "").out;
        let all = out(&[]);
        assert_eq!(all.lines().count(), notes.len());
        let dates: Vec<&str> = all.lines().map(|line| line.split(", ").next().unwrap()).collect();
        let (dated, others): (Vec<&str>, Vec<&str>) = dates.into_iter().partition(|date| date.len() == 16);
        assert!(dated.is_sorted() && all.starts_with(dated.first().unwrap_or(&"")), "{all}");
        let first_undated = others.iter().position(|date| date.starts_with("undated")).unwrap_or(others.len());
        assert!(others[first_undated..].iter().all(|date| date.starts_with("undated")), "{all}");
        let (before, middle, after) = ("2020-06-01", "2021-12-31T12:30", "2023-02-01");
        let halves = out(&["--from", before, "--to", middle]) + &out(&["--from", middle, "--to", after]);
        assert_eq!(halves, out(&["--from", before, "--to", after]));
        let open = out(&["--to", before]) + &halves + &out(&["--from", after]);
        assert_eq!(open.lines().count(), dated.len());
    }
}

/// Takes nothing.
struct Closed;

impl std::io::Write for Closed {
    fn write(&mut self, _: &[u8]) -> std::io::Result<usize> {
        Err(std::io::ErrorKind::BrokenPipe.into())
    }

    fn flush(&mut self) -> std::io::Result<()> {
        Err(std::io::ErrorKind::BrokenPipe.into())
    }
}

#[test]
fn nobody_who_reads_is_no_fault() {
    let path = file("closed", &MIXED);
    let args = ["dff", "comments", path.to_str().unwrap()].map(Into::into);
    assert_eq!(dff::run_into(args, &mut Closed, &mut Closed), 0);
}

#[test]
fn explain_has_46_apart() {
    let ran = dff(&["explain", "46"]).with(0, "");
    let lines: Vec<&str> = ran.out.lines().collect();
    assert!(lines[0].starts_with("refusal 46: A comment's date must be a Gregorian date"), "{ran:?}");
    assert!(lines[1].starts_with("  remedy: Give a day that its month has"), "{ran:?}");
    assert!(lines[2].starts_with("  definition: crates/calendar/specs/Date.antt: "), "{ran:?}");
    assert!(lines[3].starts_with("  only of dates and windows") && lines.len() == 4, "{ran:?}");
    for number in ["45", "47", "4294967295"] {
        dff(&["explain", number]).with(2, &format!("{number} is not in 1..=43, and not 46"));
    }
}

/// A build takes comments of any date inside the limits; `dff comments` lists what the calendar has not.
#[test]
fn a_built_file_may_have_no_dates() {
    let frames = Frames { coded: vec![], plain: vec![vec![0x69; 4_704]] };
    let note = |day, text: &str| Comment {
        year: 2024,
        month: 2,
        day,
        hour: 0,
        minutes: 0,
        kind: CommentKind::General,
        reference: 0,
        text: text.into(),
    };
    let options = Options { comments: vec![note(31, "none"), note(29, "leap day")], ..Options::default() };
    let made = Made::new(Area::new(Kind::Dsd, 1, Layout::Unspecified, 1), options, frames).unwrap();
    let path = written("built", &made.bytes);
    let out = comments(&path, &[]).with(0, "").out;
    let none = "2024-02-31 00:00 (no date: refusal 46), general 0: \"none\"";
    assert_eq!(out, format!("2024-02-29 00:00, general 0: \"leap day\"\n{none}\n"));
}
