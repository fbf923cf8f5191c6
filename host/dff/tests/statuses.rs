//! How runs end that are not refused: usage and manifest (2), sources (4), outputs (5); and what they say.

mod common;

use common::{Folder, dff};
use std::fs;
use std::os::unix::fs::symlink;

const DSD: &str = "source = { raw = 'one.raw', channels = 2 }";
const DST: &str = "source = { dst = 'two.dst', lengths = 'two.txt', channels = 2 }";

fn folder(name: &str) -> Folder {
    let folder = Folder::new(name);
    folder.write("one.raw", [0x69; 9_408]);
    folder.write("two.raw", [0x69; 18_816]);
    folder.write("two.dst", [0; 7]);
    folder.write("two.txt", "3\n4\n");
    folder
}

fn manifest(rest: &str) -> String {
    format!("version = 1\n[[file]]\nname = 'one.dff'\n{rest}\n")
}

#[test]
fn usage_is_2() {
    dff::<&str>(&[]).with(2, "Usage: dff");
    dff(&["bild"]).with(2, "dff: ");
    dff(&["build"]).with(2, "MANIFEST");
    dff(&["build", "a", "b"]).with(2, "dff: ");
    dff(&["cut", "a.dff", "--from", "00:00:00:75", "-o", "b"]).with(2, "00:00:00:75");
    dff(&["cut", "a.dff", "--plain", "c", "--drop-crc", "-o", "b"]).with(2, "cannot be used with");
    let help = dff(&["--help"]).with(0, "");
    assert!(help.out.contains("Exit status: 0 done"), "{help:?}");
    for command in ["build", "cut", "check", "show", "verify", "explain", "sample", "completions"] {
        let help = dff(&[command, "--help"]).with(0, "");
        assert!(help.out.contains("Example"), "{help:?}");
    }
    let version = dff(&["--version"]).with(0, "");
    assert_eq!(version.out, format!("dff {}\n", env!("CARGO_PKG_VERSION")));
    for shell in ["bash", "zsh", "fish"] {
        assert!(dff(&["completions", shell]).with(0, "").out.contains("drop-crc"));
    }
    for (shell, offered) in [("zsh", ":_files"), ("zsh", "_files -/"), ("fish", "__fish_complete_directories")] {
        assert!(dff(&["completions", shell]).with(0, "").out.contains(offered), "{shell}: {offered}");
    }
}

#[test]
fn a_manifest_at_fault_is_2_with_its_place() {
    let folder = folder("manifest");
    for (text, said) in [
        (manifest(&format!("{DSD}\nplaytme = 1")), "album.toml:5:1: unknown field `playtme`"),
        (manifest("source = { raw = 'one.raw', chanels = 2 }"), "album.toml:4:29: unknown field `chanels`"),
        (manifest(&format!("{DSD}\n[[file.track]]\nstart = 0\n lenght = 1")), "album.toml:7:2: unknown field `lenght`"),
        (manifest(&format!("{DSD}\n[[file.trak]]\nstart = 0")), "album.toml:5:8: unknown field `trak`"),
        (format!("{}[other]\n", manifest(DSD)), "album.toml:5:2: unknown field `other`"),
        (manifest(&format!("{DSD}\nd1 = 1")), "album.toml:5:6: invalid type"),
        (
            manifest(&format!("{DSD}\nlayout = 'quad'")),
            "album.toml:5:10: invalid value: string \"quad\", expected one of",
        ),
        (manifest(&format!("{DSD}\nplaytime = -1")), "album.toml:5:12: invalid value: integer `-1`"),
        (manifest(&format!("{DSD}\nplaytime = 4294967296")), "album.toml:5:12: "),
        (manifest(&format!("{DSD}\nplaytime = '00:00:60:00'")), "album.toml:5:12: `00:00:60:00` is not a time"),
        (manifest(&format!("{DSD}\nedited_master_id = true")), "album.toml:5:20: "),
        (manifest(&format!("{DSD}\ntext_replacement = '??'")), "album.toml:5:20: "),
        (manifest(&format!("{DSD}\nproperty_order = ['FS']")), "album.toml:5:18: 1 names where 5 are wanted"),
        (manifest(&format!("{DSD}\ninfo_order = ['EMID', 'FS', 'DIAR', 'DITI']")), "album.toml:5:23: "),
        (manifest(&format!("{DSD}\n[[file.marker]]\nframe = 0\nkind = 'stop'")), "album.toml:7:8: "),
        (manifest(&format!("{DSD}\n[[file.chunk]]\nname = 'ABC'\ntext = ''")), "album.toml:6:8: name: "),
        (manifest(&format!("{DSD}\n[[file.chunk]]\nname = 'ABCD'")), "album.toml:6:8: chunk: just one of"),
        (manifest(&format!("{DSD}\n[[file.chunk]]\nname = 'ABCD'\nhex = '0'")), "album.toml:7:7: hex: "),
        (manifest(&format!("{DSD}\n[[file.chunk]]\nname = 'ABCD'\nhex = '0g'")), "album.toml:7:7: hex: "),
        (manifest("source = { raw = 'one.raw' }"), "album.toml:4:18: source: `channels` is wanted"),
        (manifest("source = { raw = 'a', dst = 'b', channels = 1 }"), "album.toml:3:8: source: just one of"),
        (manifest("source = { }"), "album.toml:3:8: source: just one of"),
        (manifest("source = { dst = 'two.dst', channels = 2 }"), "album.toml:4:18: source: `dst` wants `lengths`"),
        (
            manifest("source = { raw = 'one.raw', channels = 2, plain = 'x' }"),
            "album.toml:4:51: source: `plain` does not",
        ),
        (manifest("source = { dff = 'one.dff', channels = 2 }"), "album.toml:4:40: source: `channels` does not go"),
        (manifest(&format!("{DST}\ndst_crc = true")), "album.toml:5:11: dst_crc: "),
        ("version = 2\n".into(), "album.toml:1:11: version 2 is not known"),
        ("version = 1\n".into(), "album.toml: no [[file]]"),
        ("".into(), "album.toml: missing field `version`"),
        ("version = 1\nversion = 1\n".into(), "album.toml:1:1: duplicate field `version`"),
        ("version = 1\n[[file]]\n".into(), "album.toml:2:1: missing field `name`"),
        ("version = 1\n[file]\n".into(), "album.toml:2:1: "),
        ("version = [\n".into(), "album.toml:2:1: "),
        (format!("version = {}", "[".repeat(100_000)), "album.toml:1:43: tables and lists stand too deep"),
        (format!("version = {}", "{a=".repeat(100_000)), "album.toml:1:107: tables and lists stand too deep"),
        (format!("version{} = 1", ".a".repeat(100_000)), "stand too deep"),
        (format!("[version{}]", ".a".repeat(100_000)), "stand too deep"),
    ] {
        let shown: String = text.chars().take(300).collect();
        let ran = folder.run("check", &text);
        assert!(ran.status == 2 && ran.err.contains(said), "{shown}\nwanted: {said}\n{ran:?}");
        assert!(ran.err.starts_with("dff: "), "{ran:?}");
    }
    folder.write("latin.toml", b"version = 1\n# \xE9\n");
    dff(&["check", &folder.text("latin.toml")]).with(2, "latin.toml:2: not UTF-8 text");
    dff(&["check", &folder.text("missing.toml")]).with(2, "missing.toml: No such file");
    dff(&["check", &folder.text("")]).with(2, "Is a directory");
}

#[test]
fn brackets_in_texts_and_comments_are_no_depth() {
    let folder = folder("brackets");
    let many = "[{.".repeat(100);
    let texts = [
        format!("\"{many}\\\"{many}\""),
        format!("'{many}'"),
        format!("'''\n{many}'{many}'''"),
        format!("\"\"\"{many}\"{many}\\\"\"\"\""),
    ];
    for text in texts {
        folder.run("check", &manifest(&format!("{DSD}\nalbum = {{ title = {text} }} # {many}"))).with(0, "");
    }
}

#[test]
fn names_stay_beneath_their_folder() {
    let folder = folder("names");
    fs::create_dir_all(folder.path("elsewhere")).unwrap();
    folder.write("elsewhere/one.raw", [0x69; 9_408]);
    fs::create_dir_all(folder.path("in/deep")).unwrap();
    fs::create_dir_all(folder.path("out/inside")).unwrap();
    for (link, target) in [
        ("in/file.raw", "../elsewhere/one.raw"),
        ("in/whole.raw", folder.path("elsewhere/one.raw").to_str().unwrap()),
        ("in/folder", "../elsewhere"),
        ("in/deep/back.raw", "../one.raw"),
        ("in/loop.raw", "loop.raw"),
        ("out/link", "../elsewhere"),
        ("out/within", "inside"),
    ] {
        symlink(target, folder.path(link)).unwrap();
    }
    fs::copy(folder.path("one.raw"), folder.path("in/one.raw")).unwrap();
    let run = |name: &str, source: &str| {
        let text = format!("version = 1\n[[file]]\nname = '{name}'\nsource = {{ raw = '{source}', channels = 2 }}\n");
        folder.write("album.toml", text);
        dff(&["build", &folder.text("album.toml"), "-o", &folder.text("out"), "--sources", &folder.text("in")])
    };
    run("../one.dff", "one.raw").with(2, "album.toml:3:8: name: `../one.dff` has a `..` in it");
    run("a/../one.dff", "one.raw").with(2, "album.toml:3:8: name: ");
    run("/tmp/one.dff", "one.raw").with(2, "album.toml:3:8: name: `/tmp/one.dff` is absolute");
    run("", "one.raw").with(2, "album.toml:3:8: name: ");
    run(".", "one.raw").with(2, "album.toml:3:8: name: ");
    run("a/", "one.raw").with(2, "album.toml:3:8: name: ");
    run("link/one.dff", "one.raw").with(2, "a symbolic link leads out");
    run("one.dff", "../elsewhere/one.raw").with(2, "album.toml:4:18: `../elsewhere/one.raw` has a `..` in it");
    run("one.dff", folder.path("elsewhere/one.raw").to_str().unwrap()).with(2, "is absolute");
    for outside in ["file.raw", "whole.raw", "folder/one.raw"] {
        run("one.dff", outside).with(2, "album.toml:4: ").with(2, "a symbolic link leads out");
    }
    run("one.dff", "loop.raw").with(4, "album.toml:4: ");
    assert_eq!(fs::read_dir(folder.path("elsewhere")).unwrap().count(), 1);
    run("within/one.dff", "deep/back.raw").with(0, "");
    run("./new/./folder/one.dff", "./one.raw").with(0, "");
    assert_eq!(folder.read("out/inside/one.dff").len(), 9_552);
    assert_eq!(folder.read("out/new/folder/one.dff").len(), 9_552);
    for (one, two) in [("a.dff", "a.dff"), ("a.dff", "./a.dff"), ("a", "a/b.dff"), ("a/b.dff", "a")] {
        let file = |name| format!("[[file]]\nname = '{name}'\n{DSD}\n");
        folder.run("check", &format!("version = 1\n{}{}", file(one), file(two))).with(2, "album.toml:6:8: name: ");
    }
}

#[test]
fn a_source_at_fault_is_4() {
    let folder = folder("sources");
    folder.write("odd.raw", [0x69; 9_409]);
    folder.write("wrong.txt", "3\n\n# two\n+4\n");
    folder.write("sum.txt", "3\n3\n");
    folder.write("more.txt", "3\n5\n");
    fs::create_dir(folder.path("folder")).unwrap();
    let dst = |lengths: &str| format!("source = {{ dst = 'two.dst', lengths = '{lengths}', channels = 2 }}");
    for (rest, said) in [
        ("source = { raw = 'none.raw', channels = 2 }".into(), "album.toml:4: "),
        ("source = { raw = 'none.raw', channels = 2 }".into(), "none.raw: No such file"),
        ("source = { raw = 'folder', channels = 2 }".into(), "not a regular file"),
        ("source = { raw = 'odd.raw', channels = 2 }".into(), "album.toml:3: one.dff: "),
        (
            "source = { raw = 'odd.raw', channels = 2 }".into(),
            "its last frame has 1 of 9408 bytes\n  remedy: `pad = true`",
        ),
        (format!("{DSD}\nplaytime = 2\nrange = {{ to = 2 }}"), "the source has 1 frame, the range ends at 2"),
        (format!("{DST}\nplaytime = 9\nrange = {{ to = 3 }}"), "the source has 2 frames, the range ends at 3"),
        (dst("none.txt"), "none.txt: No such file"),
        (dst("wrong.txt"), "wrong.txt:4: `+4` is no frame's length"),
        (dst("two.dst"), "two.dst:1: "),
        (dst("sum.txt"), "two.dst: has 7 bytes; its 2 lengths add up to 6"),
        (dst("more.txt"), "two.dst: has 7 bytes; its 2 lengths add up to 8"),
        (
            "source = { dst = 'two.dst', lengths = 'two.txt', channels = 2, plain = 'one.raw' }\ndst_crc = true".into(),
            "one.raw: has 9408 bytes; 18816 are wanted for 2 frames",
        ),
        (format!("{DSD}\n[[file.chunk]]\nname = 'ABCD'\npath = 'none'"), "album.toml:7: "),
    ] {
        let ran = folder.run("build", &manifest(&rest)).with(4, said);
        assert!(!folder.path("out").exists(), "{ran:?}");
    }
    dff(&["check", &folder.text("album.toml"), "--sources", &folder.text("none")]).with(4, "none: No such file");
}

#[test]
fn a_pipe_is_no_source() {
    let folder = folder("pipe");
    let made = std::process::Command::new("mkfifo").arg(folder.path("pipe.raw")).status().unwrap();
    assert!(made.success());
    folder.run("check", &manifest("source = { raw = 'pipe.raw', channels = 2 }")).with(4, "not a regular file");
}

#[test]
fn an_output_at_fault_is_5() {
    let folder = folder("outputs");
    fs::create_dir(folder.path("out")).unwrap();
    folder.write("out/one.dff", "old");
    // Told before any work: the source is not even looked for.
    folder.run("build", &manifest("source = { raw = 'none.raw', channels = 2 }")).with(5, "--force");
    let ran = folder.run("build", &manifest(DSD)).with(5, "out/one.dff: is there already; --force replaces it");
    assert!(ran.err.starts_with("dff: ") && ran.err.contains("album.toml:3: "), "{ran:?}");
    assert_eq!(folder.read("out/one.dff"), b"old");

    let build = |more: &[&str]| {
        let (manifest, out) = (folder.text("album.toml"), folder.text("out"));
        dff(&[&["build", &manifest, "-o", &out], more].concat())
    };
    build(&["--force", "--sources", &folder.text("out")]).with(4, "No such file");
    assert_eq!(folder.read("out/one.dff"), b"old");
    let ran = build(&["--force"]).with(0, "");
    assert!(ran.out.ends_with("out/one.dff: 9552 bytes\n"), "{ran:?}");
    assert_eq!(folder.read("out/one.dff").len(), 9_552);
    assert_eq!(build(&["--force", "--quiet"]).with(0, "").out, "");

    // A symbolic link is replaced, not followed.
    fs::remove_file(folder.path("out/one.dff")).unwrap();
    symlink("../one.raw", folder.path("out/one.dff")).unwrap();
    build(&[]).with(5, "--force");
    build(&["--force"]).with(0, "");
    assert!(folder.path("out/one.dff").symlink_metadata().unwrap().is_file());
    assert_eq!(folder.read("one.raw"), [0x69; 9_408]);

    // A folder in its place is never replaced.
    fs::remove_file(folder.path("out/one.dff")).unwrap();
    fs::create_dir(folder.path("out/one.dff")).unwrap();
    build(&["--force"]).with(5, "not a regular file");
    fs::remove_dir(folder.path("out/one.dff")).unwrap();
    assert!(Folder(folder.path("out")).names().is_empty());

    // A file where a folder is wanted.
    folder.write("out/a", "");
    folder.run("build", &manifest(DSD).replace("one.dff", "a/b.dff")).with(5, "Not a directory");
    dff(&["build", &folder.text("album.toml"), "-o", &folder.text("one.raw")]).with(5, "Not a directory");
    assert_eq!(Folder(folder.path("out")).names(), ["a"]);
}

#[test]
fn a_name_is_no_order_to_the_terminal() {
    let folder = folder("orders");
    let text = format!("version = 1\n[[file]]\nname = \"\\u001B[2J\\u009B.dff\"\n{DSD}\n");
    let ran = folder.run("build", &text).with(0, "");
    assert!(ran.out.contains("\\u{1b}[2J\\u{9b}.dff: 9552 bytes\n"), "{ran:?}");
    let ran = folder.run("build", &text).with(5, "\\u{1b}[2J\\u{9b}.dff: is there already");
    assert!(!ran.err.contains('\u{1b}'), "{ran:?}");
}

#[test]
fn what_is_read_is_not_replaced() {
    let folder = folder("own-source");
    folder.write("chunk", "a");
    let read = ["one.raw", "two.dst", "two.txt", "two.raw", "chunk"];
    let before = read.map(|name| folder.read(name));
    let rest = "source = { dst = 'two.dst', lengths = 'two.txt', channels = 2, plain = 'two.raw' }\ndst_crc = true\n\
        [[file.chunk]]\nname = 'ABCD'\npath = 'chunk'\n";
    for name in read {
        // A file before it is not made either.
        let text = format!("{}[[file]]\nname = '{name}'\n{rest}", manifest(DSD));
        folder.write("album.toml", text);
        dff(&["build", &folder.text("album.toml"), "-o", &folder.text(""), "--force"]).with(5, "is read for this");
        assert!(!folder.path("one.dff").exists());
        // Nor is force told to help.
        let ran = dff(&["build", &folder.text("album.toml"), "-o", &folder.text("")]).with(5, "is read for this");
        assert!(!ran.err.contains("--force"), "{ran:?}");
    }
    assert_eq!(read.map(|name| folder.read(name)), before);
    // A file that leads there is another matter: the link is replaced.
    symlink("one.raw", folder.path("one.dff")).unwrap();
    folder.write("album.toml", manifest(DSD));
    dff(&["build", &folder.text("album.toml"), "-o", &folder.text(""), "--force"]).with(0, "");
    assert_eq!(folder.read("one.raw"), before[0]);
    // Of `cut` too.
    let one = folder.text("one.dff");
    dff(&["cut", &one, "-o", &one, "--force"]).with(5, "is read for this");
    assert!(!dff(&["cut", &one, "-o", &one]).with(5, "is read for this").err.contains("--force"));
}

#[test]
fn the_manifest_is_not_replaced() {
    let folder = folder("own-manifest");
    let text = manifest(DSD).replace("one.dff", "album.toml");
    folder.write("album.toml", &text);
    symlink("album.toml", folder.path("link.toml")).unwrap();
    fs::hard_link(folder.path("album.toml"), folder.path("twin.toml")).unwrap();
    let build = |name: &str| dff(&["build", &folder.text(name), "-o", &folder.text(""), "--force"]);
    for name in ["album.toml", "link.toml", "twin.toml"] {
        build(name).with(5, "album.toml: is read for this");
    }
    dff(&["build", &folder.text("album.toml"), "-o", &folder.text("")]).with(5, "is read for this");
    // Nor the link that it was named by.
    folder.write("album.toml", text.replace("album.toml", "link.toml"));
    build("link.toml").with(5, "link.toml: is read for this");
    assert!(folder.path("link.toml").is_symlink());
    assert_eq!(folder.names().len(), 7);
}

#[test]
fn links_to_what_is_no_file_are_kept() {
    let folder = folder("links");
    fs::create_dir_all(folder.path("out/folder")).unwrap();
    let made = std::process::Command::new("mkfifo").arg(folder.path("out/pipe")).status().unwrap();
    assert!(made.success());
    folder.run("build", &manifest(DSD)).with(0, "");
    fs::rename(folder.path("out/one.dff"), folder.path("in.dff")).unwrap();
    let (input, out) = (folder.text("in.dff"), folder.text("out/one.dff"));
    for (target, kept) in [("folder", true), ("pipe", true), ("loop", true), ("../one.raw", false), ("none", false)] {
        let _ = fs::remove_file(folder.path("out/loop"));
        symlink("loop", folder.path("out/loop")).unwrap();
        for cut in [false, true] {
            let _ = fs::remove_file(folder.path("out/one.dff"));
            symlink(target, folder.path("out/one.dff")).unwrap();
            let run = |more: &[&str]| match cut {
                true => dff(&[&["cut", &input, "-o", &out], more].concat()),
                false => dff(&[&["build", &folder.text("album.toml"), "-o", &folder.text("out")], more].concat()),
            };
            let without = run(&[]).with(5, if kept { "not a regular file" } else { "--force replaces it" });
            assert!(!kept || !without.err.contains("--force"), "{without:?}");
            let forced = run(&["--force"]);
            if kept {
                forced.with(5, "not a regular file");
                assert!(folder.path("out/one.dff").is_symlink());
            } else {
                forced.with(0, "");
                assert!(folder.path("out/one.dff").symlink_metadata().unwrap().is_file());
            }
        }
    }
    assert!(!folder.path("out/none").exists());
    assert_eq!(folder.read("one.raw"), [0x69; 9_408]);
}

#[test]
fn standard_output_is_no_output() {
    let folder = folder("dash");
    let album = folder.write("album.toml", manifest(DSD)).to_str().unwrap().to_string();
    dff(&["cut", &folder.text("none.dff"), "-o", "-"]).with(2, "standard output").with(2, "`./-` names a file");
    dff(&["build", &album, "-o", "-"]).with(2, "`./-` names a folder");
    // A file that is called so.
    let run = |args: &[&str]| {
        let program = std::process::Command::new(env!("CARGO_BIN_EXE_dff")).args(args).current_dir(&folder.0).output();
        assert!(program.as_ref().unwrap().status.success(), "{program:?}");
    };
    run(&["build", "album.toml"]);
    run(&["cut", "one.dff", "-o", "./-"]);
    assert_eq!(folder.read("-"), folder.read("one.dff"));
}

#[test]
fn a_refused_range_is_told() {
    let folder = folder("ranges");
    for (rest, status, said) in [
        (format!("{DSD}\nrange = {{ from = 1 }}"), 3, "refused (12)"),
        (format!("{DSD}\nrange = {{ from = 1 }}"), 3, "\n  the source has 1 frame, the range is 1 to 1\n"),
        (format!("{DST}\nrange = {{ to = 3 }}"), 4, "the source has 2 frames, the range ends at 3\n"),
        (format!("{DSD}\nrange = {{ to = 3 }}"), 3, "\n  the source has 1 frame, the range is 0 to 3\n"),
        (format!("{DST}\nrange = {{ from = 2, to = 1 }}"), 3, "\n  the source has 2 frames, the range is 2 to 1\n"),
        (format!("{DST}\nplaytime = 1"), 3, "refused (11): First exceeds end, or end playtime.\n  remedy: "),
        (format!("{DST}\nplaytime = 1"), 3, "\n  the source has 2 frames, the range is 0 to 2, the playtime is 1\n"),
    ] {
        folder.run("check", &manifest(&rest)).with(status, said);
    }
}

#[test]
fn a_frame_that_is_its_own_content_must_have_it() {
    let folder = folder("own-content");
    let (one, two) = ([vec![0], vec![1; 9_408]].concat(), vec![0x80; 9_409]);
    folder.write("two.dst", [one.as_slice(), &two, &one].concat());
    folder.write("two.txt", "9409\n9409\n9409\n");
    let rest = "source = { dst = 'two.dst', lengths = 'two.txt', channels = 2, plain = 'plain.raw' }\ndst_crc = true";
    let content = |last: u8| [vec![1; 9_408], vec![7; 9_408], vec![1; 9_407], vec![last]].concat();
    folder.write("plain.raw", content(2));
    let ran = folder.run("build", &manifest(rest)).with(4, "two.dst: frame 2 is not compressed");
    assert!(ran.err.contains("plain.raw") && !ran.err.contains("one.dff"), "{ran:?}");
    assert!(Folder(folder.path("out")).names().is_empty());
    folder.write("plain.raw", content(1));
    folder.run("build", &manifest(rest)).with(0, "");
}

#[test]
fn many_sources_are_open_at_once() {
    let folder = folder("many");
    let mut text = String::from("version = 1\n");
    for number in 0..60 {
        folder.write(&format!("{number}.raw"), [0x69; 4_704]);
        let source = format!("source = {{ raw = '{number}.raw', channels = 1 }}");
        text += &format!("[[file]]\nname = '{number}.dff'\n{source}\n");
    }
    folder.write("album.toml", text);
    let script = format!("ulimit -S -n 30; exec '{}' build album.toml -o out", env!("CARGO_BIN_EXE_dff"));
    let ran = std::process::Command::new("sh").arg("-c").arg(script).current_dir(&folder.0).output().unwrap();
    assert!(ran.status.success(), "{ran:?}");
    assert_eq!(Folder(folder.path("out")).names().len(), 60);
}

#[test]
fn no_room_is_5_and_leaves_nothing() {
    let folder = folder("room");
    folder.write("album.toml", manifest(DSD));
    // Files of at most 8 blocks of 512 bytes; the signal that goes with it is ignored, as a service may have it.
    let script = format!("trap '' XFSZ; ulimit -f 8; exec '{}' build album.toml -o out", env!("CARGO_BIN_EXE_dff"));
    let ran = std::process::Command::new("sh").arg("-c").arg(script).current_dir(&folder.0).output().unwrap();
    assert_eq!(ran.status.code(), Some(5), "{ran:?}");
    assert!(String::from_utf8_lossy(&ran.stderr).contains("dff: out/one.dff: File too large"), "{ran:?}");
    assert!(Folder(folder.path("out")).names().is_empty());
}

/// Takes nothing.
struct Broken(std::io::ErrorKind);

impl std::io::Write for Broken {
    fn write(&mut self, _: &[u8]) -> std::io::Result<usize> {
        Err(self.0.into())
    }

    fn flush(&mut self) -> std::io::Result<()> {
        Err(self.0.into())
    }
}

#[test]
fn nobody_who_reads_is_no_fault_and_a_full_disk_is() {
    for args in [vec!["dff", "explain"], vec!["dff", "--help"], vec!["dff", "completions", "bash"]] {
        let run = |kind| dff::run_into(args.iter().map(Into::into), &mut Broken(kind), &mut Broken(kind));
        assert_eq!(run(std::io::ErrorKind::BrokenPipe), 0);
        assert_eq!(run(std::io::ErrorKind::StorageFull), 5);
    }
}
