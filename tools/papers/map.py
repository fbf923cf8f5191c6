#!/usr/bin/env python3
"""Holds the tables of crates in docs/MAP.md to the tree.

    tools/papers/map.py

The table of crates has just one row for each crate of crates.txt, and no other. What a row rests on are crates of its
line there; all of that line (but for the kit's own crates) are among them, or below them where the row says "and what
it rests on". The tables of files name each file of specs/, src/ and proofs/ once or more, and only files that are
there: `Unit` in the column of definitions is specs/Unit.antt of the row's crates, `sound.rt of file_layout` a file of
another crate. Left out are the proofs of functions, which have folders of their own, and the files lib.rt and
Lib.antt that define nothing.
Exit status: 0 nothing is listed, 1 something is."""
import re, sys
from pathlib import Path

ROOT = Path(__file__).resolve().parents[2]
CRATES = ROOT / "crates"
PAPER = (ROOT / "docs" / "MAP.md").read_text(encoding="utf-8")
LINES = dict(re.findall(r"^(\w+)(?: staticlib)?:(.*)$", (ROOT / "crates.txt").read_text(encoding="utf-8"), re.M))
DEFINITIONS, CODE, LAWS = "definitions (specs/)", "code (src/)", "laws (proofs/)"
COLUMNS = {DEFINITIONS: ("specs", ".antt"), CODE: ("src", ""), LAWS: ("proofs", ".antt")}
BELOW = re.compile(r" and what (?:it rests|they rest) on")
DEFINES = re.compile(r"^(?!\s*(?:--|//|#!\[|(?:pub |ghost )?use |module |(?:pub )?mod |$))", re.M)


def tables():
    """Each table's rows, as dictionaries by its head."""
    for table in re.findall(r"(?:^\|.*\n)+", PAPER, re.M):
        head, _, *rows = [[cell.strip() for cell in line.strip("|").split(" | ")] for line in table.splitlines()]
        yield head, [dict(zip(head, row)) for row in rows]


def rows_with(column):
    return [row for head, rows in tables() if column in head for row in rows]


def named_crates(cell):
    return [] if cell == "-" else BELOW.sub("", cell).split(", ")


def below(crate, cells):
    """The crates that a crate rests on by the map, directly or not."""
    found, left = set(), named_crates(cells.get(crate, "-"))
    while left:
        at = left.pop()
        if at not in found:
            found.add(at)
            left += named_crates(cells.get(at, "-"))
    return found


def faults_of_crates():
    rows = rows_with("rests on")
    listed, cells = [row["crate"] for row in rows], {row["crate"]: row["rests on"] for row in rows}
    for crate in LINES:
        if listed.count(crate) != 1:
            yield f"{crate} has {listed.count(crate)} rows in the table of crates"
    yield from (f"{crate} is not in crates.txt" for crate in listed if crate not in LINES)
    for crate in set(listed) & set(LINES):
        wanted, named = {name for name in LINES[crate].split() if name in LINES}, set(named_crates(cells[crate]))
        reached = named | (below(crate, cells) if BELOW.search(cells[crate]) else set())
        yield from (f"{crate} rests on {name} by the map, not by crates.txt" for name in sorted(named - wanted))
        yield from (f"{crate} rests on {name} by crates.txt, not by the map" for name in sorted(wanted - reached))


def named_files():
    """The files that the tables of files name."""
    for row in rows_with(CODE):
        for column, (folder, ending) in COLUMNS.items():
            for part in row[column].split("; ") if row[column] != "-" else []:
                names, _, other = part.partition(" of ")
                for crate in [other] if other else row["crate"].split(", "):
                    yield from (CRATES / crate / folder / (name + ending) for name in names.split(", "))


def files_to_name():
    for pattern in ("*/specs/**/*.*", "*/src/**/*.*", "*/proofs/*.*"):
        for path in CRATES.glob(pattern):
            if path.name not in ("lib.rt", "Lib.antt") or DEFINES.search(path.read_text(encoding="utf-8")):
                yield path


def main():
    named, there = set(named_files()), set(files_to_name())
    faults = sorted(faults_of_crates())
    faults += [f"there is no {path.relative_to(ROOT)}" for path in sorted(named) if not path.is_file()]
    faults += [f"lacks {path.relative_to(ROOT)}" for path in sorted(there - named)]
    for fault in faults:
        print(f"docs/MAP.md: {fault}")
    return 1 if faults else 0


sys.exit(main())
