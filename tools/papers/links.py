#!/usr/bin/env python3
"""Lists the links of the papers that lead nowhere; README.md is held to its size too.

    tools/papers/links.py

Looked at are all .md files but those in target/: a link leads to a file or folder that is there, and one with # to a
heading of it. README.md has fewer than 120 lines, of at most 120 characters.
Exit status: 0 nothing is listed, 1 something is."""
import re, sys
from pathlib import Path

ROOT = Path(__file__).resolve().parents[2]
LINK = re.compile(r"\]\(([^)\s]+)\)")
MOST_LINES, MOST_CHARACTERS = 119, 120


def without_code(text):
    for code in (r"^```.*?^```", r"^ {4}[^\n]*$", r"`[^`\n]*`"):
        text = re.sub(code, "", text, flags=re.M | re.S)
    return text


def headings(path):
    """The anchors of a paper's headings, as forges make them."""
    for title in re.findall(r"^#+ (.*)$", path.read_text(encoding="utf-8"), re.M):
        yield re.sub(r"[^\w\- ]", "", title.lower()).replace(" ", "-")


def faults_of(paper):
    for link in LINK.findall(without_code(paper.read_text(encoding="utf-8"))):
        name, _, anchor = link.partition("#")
        target = paper.parent / name if name else paper
        if re.match(r"\w+:", link):
            continue
        if not target.exists():
            yield f"{link} is not there"
        elif anchor and target.suffix == ".md" and anchor not in headings(target):
            yield f"{link}: no such heading"


def main():
    papers = [path for path in sorted(ROOT.glob("**/*.md")) if path.relative_to(ROOT).parts[0] != "target"]
    faults = [f"{paper.relative_to(ROOT)}: {fault}" for paper in papers for fault in faults_of(paper)]
    lines = (ROOT / "README.md").read_text(encoding="utf-8").splitlines()
    if len(lines) > MOST_LINES:
        faults.append(f"README.md: {len(lines)} lines")
    wide = [i for i, line in enumerate(lines, 1) if len(line) > MOST_CHARACTERS]
    faults += [f"README.md: line {i} has more than {MOST_CHARACTERS} characters" for i in wide]
    print("\n".join(faults), end="\n" * bool(faults))
    return 1 if faults else 0


sys.exit(main())
