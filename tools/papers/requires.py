#!/usr/bin/env python3
"""Holds the table of functions with a `requires` in docs/PROOFS.md to the files.

    tools/papers/requires.py

Prints what the table lacks and what it has too much, and nothing if it is right. Exit status: 0 it is right, 1 it is not."""
import re, sys
from pathlib import Path

ROOT = Path(__file__).resolve().parents[2]
FUNCTION = re.compile(r"^ *(?:pub(?:\(crate\))? )?fn (\w+)", re.M)


def with_requires():
    """Each function that has one: (crate, file, name)."""
    for path in ROOT.glob("crates/*/src/**/*.rt"):
        text = path.read_text(encoding="utf-8")
        functions = list(FUNCTION.finditer(text))
        ends = [f.start() for f in functions[1:]] + [len(text)]
        for function, end in zip(functions, ends):
            if re.search(r"^ *requires(?: \w+)? \{", text[function.end() : end], re.M):
                yield path.relative_to(ROOT).parts[1], path.name, function.group(1)


def listed():
    paper = (ROOT / "docs" / "PROOFS.md").read_text(encoding="utf-8")
    table = paper.split("| crate | functions with a `requires` |\n")[1].split("\n\n")[0]
    for crate, cell in re.findall(r"^\| (\w+) \| (.*) \|$", table, re.M):
        for part in cell.split("; "):
            names, file = part.split(" of src/")
            yield from ((crate, file, name) for name in re.findall(r"`(\w+)`", names))


there, told = set(with_requires()), set(listed())
for words, items in ("lacks", there - told), ("has, though it has no `requires`,", told - there):
    for crate, file, name in sorted(items):
        print(f"docs/PROOFS.md, functions with a `requires`: {words} {name} of crates/{crate}/src/{file}")
sys.exit(there != told)
