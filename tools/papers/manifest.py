#!/usr/bin/env python3
"""Holds what the papers say of dff's manifest and command line to its code.

    tools/papers/manifest.py

Each key of a manifest (the fields of the structs in host/dff/src/manifest/entries.rs) and each name that a value can
have (names.rs beside it) is named in docs/USING.md and in dff-manifest(5), each command and option
(host/dff/src/cli.rs) in dff(1).
Exit status: 0 nothing is listed, 1 something is."""
import re, sys
from pathlib import Path

ROOT = Path(__file__).resolve().parents[2]
DFF = ROOT / "host" / "dff" / "src"


def read(path):
    return (ROOT / path).read_text(encoding="utf-8")


def plain(page):
    """A man page without its escapes and macros' names, as words."""
    return re.sub(r"^\.\w+", "", page.replace("\\-", "-"), flags=re.M)


def structs(text, ending):
    """The fields of each struct with such an end of its name."""
    for name, body in re.findall(r"^(?:pub )?struct (\w+) \{\n(.*?)^\}", text, re.M | re.S):
        if name.endswith(ending):
            yield from re.findall(r"^    (?:pub )?(\w+):", body, re.M)


def options(text):
    """The long options of the command line: each field with `long`, by its name."""
    for attributes, field in re.findall(r"#\[arg\(([^]]*)\)\]\s*pub (\w+):", text):
        if re.search(r"\blong\b", attributes):
            yield "--" + field.replace("_", "-")


def lacking(words, text):
    return [word for word in sorted(words) if not re.search(rf"(?<![\w-]){word}(?![\w-])", text)]


def main():
    entries, cli = read(DFF / "manifest" / "entries.rs"), read(DFF / "cli.rs")
    keys = set(structs(entries, ("Entry", "Keys"))) - {"file"}
    names = set(re.findall(r'\("([\w-]+)", \w+::', read(DFF / "manifest" / "names.rs")))
    commands = {name.lower() for name in re.findall(r"^    (\w+)\(\w+Args\),", cli, re.M)}
    using = read("docs/USING.md")
    manifest, program = plain(read("host/man/dff-manifest.5")), plain(read("host/man/dff.1"))
    faults = [f"docs/USING.md lacks {word}" for word in lacking(keys | names, using)]
    faults += [f"host/man/dff-manifest.5 lacks {word}" for word in lacking(keys | names, manifest)]
    faults += [f"host/man/dff.1 lacks {word}" for word in lacking(commands | set(options(cli)), program)]
    if not (keys and names and commands):
        faults.append("host/dff/src: keys, names or commands were not found")
    print("\n".join(faults), end="\n" * bool(faults))
    return 1 if faults else 0


sys.exit(main())
