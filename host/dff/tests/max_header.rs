//! `--max-header`: a file whose header and trailer would have more bytes is turned away before anything is read or
//! written, by `build`, `check` and `cut` alike.

mod common;

use common::{Folder, Ran, dff};
use std::fs;
use std::process::Command;

const SOURCE: &str = "source = { raw = 'one.raw', channels = 2 }";
const REMEDY: &str = "\n  remedy: shorten or leave out comments, titles, marker texts or chunks";

fn folder(name: &str) -> Folder {
    let folder = Folder::new(name);
    folder.write("one.raw", [0x69; 9_408]);
    folder
}

fn manifest(rest: &str) -> String {
    format!("version = 1\n[[file]]\nname = 'one.dff'\n{SOURCE}\n{rest}\n")
}

fn comment(characters: usize) -> String {
    format!("[[file.comment]]\nyear = 1\nmonth = 1\nday = 1\ntext = '{}'\n", "é".repeat(characters))
}

/// `check` and `build` with this limit, which must say the same and, if it is too much, leave nothing.
fn run(folder: &Folder, manifest: &str, limit: &str) -> Ran {
    folder.write("album.toml", manifest);
    let album = folder.text("album.toml");
    let _ = fs::remove_dir_all(folder.path("out"));
    let checked = dff(&["check", &album, "--max-header", limit]);
    let built = dff(&["build", &album, "--max-header", limit, "-o", &folder.text("out")]);
    assert_eq!((checked.status, &checked.err), (built.status, &built.err));
    assert_eq!(folder.path("out").exists(), built.status == 0);
    built
}

fn above(folder: &Folder, manifest: &str, limit: &str, said: &str) {
    let start = format!("dff: {}:3: one.dff: ", folder.text("album.toml"));
    let ran = run(folder, manifest, limit);
    assert_eq!((ran.status, ran.err, ran.out), (2, format!("{start}{said}\n"), String::new()));
}

#[test]
fn each_measure_of_a_manifest() {
    let folder = folder("max_header_each");
    let chunk = "[[file.chunk]]\nname = 'ABCD'\nhex = '00ff07'\n";
    let text = manifest(&format!("{}{chunk}", comment(1_000)));
    // COMT has 12 + 2 + 14 + 1,000 bytes, the chunk behind the sound 12 + 3 + 1.
    let (header, trailer) = (144 + 12 + 2 + 14 + 1_000, 16);
    let limited = "the limit on header and trailer together is";
    for (limit, what, bytes) in [
        (0, "texts and chunks that are given have up to", 1_003),
        (1_002, "texts and chunks that are given have up to", 1_003),
        (1_003, "the header has", header),
        (header - 1, "the header has", header),
        (header, "header and trailer have", header + trailer),
        (header + trailer - 1, "header and trailer have", header + trailer),
    ] {
        let raise = if bytes < 1_024 { "1KiB" } else { "2KiB" };
        // What was not measured comes on top.
        let more = if what.starts_with("header and trailer") { "" } else { " or more" };
        let hint = format!("--max-header {raise}{more} raises the limit");
        let said = format!("{what} {bytes} bytes; {limited} {limit}{REMEDY}\n  {hint}");
        above(&folder, &text, &limit.to_string(), &said);
    }
    for limit in [(header + trailer).to_string(), "2KiB".into(), "1MiB".into(), "16777215TiB".into()] {
        run(&folder, &text, &limit).with(0, "");
    }
}

#[test]
fn no_bytes_at_all() {
    let said = format!(
        "the header has 144 bytes; the limit on header and trailer together is 0{REMEDY}\n  \
         --max-header 256 or more raises the limit"
    );
    above(&folder("max_header_none"), &manifest(""), "0", &said);
}

/// A text is turned away by its length also where it would be refused, or not be written.
#[test]
fn before_the_library_is_asked() {
    let folder = folder("max_header_before");
    let given = |bytes| format!("texts and chunks that are given have up to {bytes} bytes; ");
    run(&folder, &manifest(&comment(1_048_577)), "1MiB").with(2, &given(1_048_577));
    run(&folder, &manifest(&comment(1_048_577)), "2MiB").with(3, "refused (1)");
    run(&folder, &manifest(&comment(1_048_576)), "1MiB").with(2, "the header has 1048748 bytes; ");
    run(&folder, &manifest(&comment(1_048_576)), "2MiB").with(0, "");
    let unwritten = format!("edited_master_info = false\nedited_master_id = '{}'", "i".repeat(2_000));
    run(&folder, &manifest(&unwritten), "1KiB").with(2, &given(2_000));
    run(&folder, &manifest(&unwritten), "2KiB").with(0, "");
}

const LARGEST: u64 = 16_777_216;

/// So many chunks of the largest size, of a sparse file.
fn chunks(folder: &Folder, count: usize) -> String {
    fs::File::create(folder.path("chunk")).unwrap().set_len(LARGEST).unwrap();
    "[[file.chunk]]\nname = 'ABCD'\npath = 'chunk'\n".repeat(count)
}

/// What `check` and `build` say who have 512 MiB of memory, of chunks of 65 times the largest size in the file of this
/// line.
fn above_in_little_memory(folder: &Folder, manifest: &str, file: &str) {
    folder.write("album.toml", manifest);
    let bytes = 65 * LARGEST;
    let said = format!(
        "dff: album.toml:{file}: texts and chunks that are given have up to {bytes} bytes; \
         the limit on header and trailer together is 1073741824{REMEDY}\n  --max-header 2GiB or more raises the limit\n"
    );
    for command in ["check", "build"] {
        let program = format!("exec '{}' {command} album.toml", env!("CARGO_BIN_EXE_dff"));
        let mut shell = Command::new("sh");
        let ran = shell.args(["-c", &format!("ulimit -v 524288; {program}")]).current_dir(&folder.0).output().unwrap();
        let texts = [ran.stdout, ran.stderr].map(|bytes| String::from_utf8(bytes).unwrap());
        assert_eq!((ran.status.code(), texts), (Some(2), [String::new(), said.clone()]));
    }
}

/// The data of chunks is added up by the sizes of their files: it is not read, for which there would be no memory.
#[test]
fn files_of_chunks_are_not_read() {
    let folder = folder("max_header_sparse");
    above_in_little_memory(&folder, &manifest(&chunks(&folder, 65)), "3: one.dff");
    let given = format!("given have up to {} bytes; ", 3 * LARGEST);
    run(&folder, &manifest(&chunks(&folder, 3)), "32MiB").with(2, &given);
    run(&folder, &manifest(&chunks(&folder, 1)), "16MiB").with(2, "header and trailer have 16777372 bytes; ");
    run(&folder, &manifest(&chunks(&folder, 1)), "17MiB").with(0, "");
}

fn file(name: &str, rest: &str) -> String {
    format!("[[file]]\nname = '{name}'\n{SOURCE}\n{rest}\n")
}

/// Nor are those of the files before, which are not too much: of all files the sums come first.
#[test]
fn files_before_one_above_are_not_read() {
    let folder = folder("max_header_before_read");
    let first = file("first.dff", &chunks(&folder, 60));
    let line = 3 + first.lines().count();
    let text = format!("version = 1\n{first}{}", file("second.dff", &chunks(&folder, 65)));
    above_in_little_memory(&folder, &text, &format!("{line}: second.dff"));
}

/// What is known before anything is built is told of all files; if nothing is above then, all that is known after it.
#[test]
fn all_files_of_a_manifest_are_told() {
    let folder = folder("max_header_all");
    let long = file("long.dff", &comment(2_000));
    let longer = file("longer.dff", &comment(3_000));
    let rest = [
        file("good.dff", ""),
        file("seven.dff", "").replace("channels = 2", "channels = 7"),
        file("none.dff", "").replace("one.raw", "none.raw"),
        file("near.dff", &comment(1_000)),
    ];
    let told = |ran: &Ran| -> Vec<String> {
        let line = |line: &str| line.split_once(".toml:")?.1.split_once(": ").map(|(_, words)| words.to_string());
        ran.err.lines().filter_map(line).collect()
    };
    let starts = |ran: Ran, wanted: &[&str]| {
        let told = told(&ran);
        assert_eq!(told.len(), wanted.len(), "{ran:?}");
        assert!(told.iter().zip(wanted).all(|(told, wanted)| told.contains(wanted)), "{ran:?}");
    };
    let given = "given have up to";
    let text = format!("version = 1\n{long}{}{longer}", rest.concat());
    let [first, last] = [format!("long.dff: texts and chunks that are {given} 2000"), format!("{given} 3000 bytes; ")];
    starts(run(&folder, &text, "1KiB").with(2, ""), &[&first, "none.raw: ", &last]);
    let text = format!("version = 1\n{}{longer}{long}", rest.concat());
    let ran = run(&folder, &text, "2KiB").with(4, "");
    starts(ran, &["none.raw: ", "longer.dff: texts and chunks "]);
    let text = format!("version = 1\n{}{}", file("near.dff", &comment(1_000)), rest[..3].concat());
    let ran = run(&folder, &text, "1KiB").with(2, "");
    starts(ran, &["near.dff: the header has 1172 bytes; ", "seven.dff: refused (7): ", "none.raw: "]);
}

#[test]
fn of_a_cut() {
    let folder = folder("max_header_cut");
    let marker = "[[file.marker]]\nframe = 0\nkind = 'index'\ntext = 'here'\n";
    let chunk = "[[file.chunk]]\nname = 'ABCD'\ntext = 'of a house'\n";
    let rest =
        format!("edited_master_info = true\nedited_master_id = false\nd2 = true\n{marker}{}{chunk}", comment(999));
    folder.run("build", &manifest(&rest)).with(0, "");
    let (input, output) = (folder.text("out/one.dff"), folder.text("part.dff"));
    let cut = |limit: &str, more: &[&str]| {
        let ran = dff(&[&["cut", &input, "-o", &output, "--max-header", limit], more].concat());
        assert_eq!(folder.path("part.dff").exists(), ran.status == 0);
        let _ = fs::remove_file(folder.path("part.dff"));
        ran
    };
    let both = folder.read("out/one.dff").len() - 9_408;
    let dropped =
        "\n  --drop-comments leaves all comments out\n  --drop-markers leaves all markers out\n  --max-header ";
    for (limit, what) in [
        (999 + 4 + 9, "texts and chunks that are given have up to 1013 bytes; ".to_string()),
        (both - 1, format!("header and trailer have {both} bytes; ")),
    ] {
        let ran = cut(&limit.to_string(), &[]).with(2, &format!("out/one.dff: {what}"));
        assert!(ran.err.contains(dropped) && ran.out.is_empty(), "{ran:?}");
    }
    cut(&both.to_string(), &[]).with(0, "");
    let ran = cut("193", &["--drop-comments"]).with(2, "the header has 194 bytes; ");
    assert!(ran.err.contains("--drop-markers") && !ran.err.contains("--drop-comments"), "{ran:?}");
    let ran = cut("150", &["--drop-comments", "--drop-markers"]).with(2, "the header has ");
    assert!(!ran.err.contains("--drop"), "{ran:?}");
    cut("250", &["--drop-comments", "--drop-markers"]).with(0, "");
}

/// Only what there is can be left out.
#[test]
fn of_a_cut_of_chunks() {
    let folder = folder("max_header_cut_chunks");
    let chunk = |bytes: usize| format!("[[file.chunk]]\nname = 'ABCD'\ntext = '{}'\n", "c".repeat(bytes));
    for (rest, limit, hints) in [
        (chunk(501), 500, "\n  chunks that are not known here have 501 bytes; they are always carried over"),
        (chunk(501), 600, "\n  chunks that are not known here have 501 bytes; they are always carried over"),
        (format!("{}{}", comment(500), chunk(500)), 900, "\n  --drop-comments leaves all comments out"),
        (
            format!("{}{}", comment(500), chunk(501)),
            900,
            "\n  chunks that are not known here have 501 bytes; they are always carried over\n  \
             --drop-comments leaves all comments out",
        ),
        (String::new(), 100, ""),
    ] {
        let _ = fs::remove_dir_all(folder.path("out"));
        folder.run("build", &manifest(&format!("d2 = true\n{rest}"))).with(0, "");
        let (input, output) = (folder.text("out/one.dff"), folder.text("part.dff"));
        let ran = dff(&["cut", &input, "-o", &output, "--max-header", &limit.to_string()]);
        let said = format!("the limit on header and trailer together is {limit}{hints}\n  --max-header ");
        ran.with(2, &said);
    }
}

#[test]
fn a_size_that_is_none_is_usage() {
    let commands: [&[&str]; 3] =
        [&["build", "none.toml"], &["check", "none.toml"], &["cut", "none.dff", "-o", "part.dff"]];
    for command in commands {
        for size in ["", "-1", "1.5GiB", "1gib", "1GB", "99999999999TiB", "18446744073709551616", "many"] {
            let ran = dff(&[command, &["--max-header", size]].concat());
            let ran = ran.with(2, "'--max-header <SIZE>'").with(2, "not a size: a whole number of bytes below 2^64");
            assert!(ran.err.contains(&format!("'{size}'")), "{ran:?}");
        }
        let help = dff(&[command[0], "--help"]).with(0, "").out;
        assert!(help.contains("--max-header <SIZE>") && help.contains("[default: 1GiB]"), "{help}");
    }
    for shell in ["bash", "zsh", "fish"] {
        assert!(
            dff(&["completions", shell]).with(0, "").out.matches("max-header").count() >= commands.len(),
            "{shell}"
        );
    }
}
