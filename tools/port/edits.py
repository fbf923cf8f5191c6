#!/usr/bin/env python3
"""Lists the must-fail edits whose text does not fit today's files.

usage: tools/port/edits.py [NAME..]     NAME: a crate below crates/; all, if none is given

It tells of each `old:` that does not stand exactly once in its file, as the pairs before it left that (they are to be
mended), and of each name in a `new:` that stands nowhere in the crate's src/, specs/ and proofs/ (they are to be looked
at: a name of another crate or of Rattle is fine).
"""
import glob
import os
import re
import sys

ROOT = os.path.join(os.path.dirname(os.path.abspath(__file__)), "..", "..")
NAME = re.compile(r"(?<!\w)[A-Za-z_][\w'?₀-₉-]*", re.UNICODE)
BOUND = re.compile(r"λ ([^.]*)\.")


def pairs(path):
    """The file that the edit turns, and its pairs."""
    file, old, found = "", "", []
    with open(path, encoding="utf-8") as f:
        for line in f.read().split("\n"):
            if line.startswith("file: "):
                file = line[6:].strip()
            elif line.startswith("old: "):
                old = line[5:]
            elif line.startswith("new:"):
                found.append((old, line[4:].removeprefix(" ")))
    return file, found


def words_of(crate):
    found = set()
    for part in ("src/**/*.rt", "specs/**/*.antt", "proofs/**/*.antt"):
        for path in glob.glob(os.path.join(crate, part), recursive=True):
            with open(path, encoding="utf-8") as f:
                found.update(NAME.findall(f.read()))
    return found


def main(names):
    wrong = 0
    for name in names or sorted(os.listdir(os.path.join(ROOT, "crates"))):
        crate = os.path.join(ROOT, "crates", name)
        known = words_of(crate)
        for edit in sorted(glob.glob(os.path.join(crate, "must-fail", "*.edit"))):
            file, found = pairs(edit)
            where = f"{name}/{os.path.basename(edit)[:-5]}: {file}"
            text = ""
            if os.path.isfile(os.path.join(crate, file)):
                with open(os.path.join(crate, file), encoding="utf-8") as f:
                    text = f.read()
            for old, new in found:
                if text.count(old) != 1:
                    print(f"{where}: stands {text.count(old)} times: {old}")
                    wrong += 1
                text = text.replace(old, new, 1)
                bound = NAME.findall(" ".join(BOUND.findall(new)))
                for word in sorted(set(NAME.findall(new)) - known - set(bound)):
                    print(f"{where}: to be looked at: {word}")
    print(f"{wrong} to mend")
    return wrong > 0


sys.exit(main(sys.argv[1:]))
