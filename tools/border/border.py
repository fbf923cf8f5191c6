#!/usr/bin/env python3
"""Makes what the border has in other languages from the exported functions (crates/abi/src) and the tables beside this file: the C header, the
Rust declarations, names and refusals, and two papers.

    tools/border/border.py            writes the files
    tools/border/border.py --check    only compares them
    tools/border/border.py --try      compares, with each parameter of each exported function changed in turn: none may pass

In each case crates/abi_c/src, which a C program is linked with, has just abi's functions, with the same clauses.
Exit status: 0 all is well; 1 a file differs, or a table does not agree with crates/*/specs."""
import re, sys

sys.dont_write_bytecode = True
import c, exports, papers, rust, tables
from exports import ROOT


def made(texts, words, refusals):
    """The text of each file."""
    subjects = exports.subjects(texts)
    return {
        "include/jangqeruz.h": c.header(subjects, words, refusals),
        "host/library/src/exports.rs": rust.exports(subjects),
        "host/library/src/names.rs": rust.names(words),
        "host/jangqeruz/src/refusals.rs": rust.refusals(refusals),
        "docs/REFUSALS.md": papers.refusals(refusals),
        "docs/WORDS.md": papers.words(words),
    }


def differing(files):
    """The files whose text is another."""
    for name, text in files.items():
        path = ROOT / name
        if not path.exists() or path.read_text(encoding="utf-8") != text:
            yield name, path, text


def changed(text):
    """The text of a file with one parameter or answer of an exported function changed, in each way."""
    for head in re.finditer(r'pub extern "C" fn \w+\([^)]*\)(?: -> \w+)?', text):
        for kind in re.finditer(r"\b(u8|u16|u32|u64|usize|bool)\b|&mut |(?<=; )\d+|\w+(?=: )", head.group()):
            other = {"u32": "u64", "&mut ": "&", "bool": "u8", "4": "5"}.get(kind.group(), "u32" if kind.group(1) else kind.group() + "1")
            start, end = (head.start() + place for place in kind.span())
            yield kind.group(), text[:start] + other + text[end:]


def try_all():
    """Changes each exported function in each way; a change that no file shows is told."""
    texts, told, tried, unseen = exports.sources(), (tables.words([]), tables.refusals([])), 0, 0
    for path, text in texts.items():
        for what, other in changed(text):
            tried += 1
            if not list(differing(made({**texts, path: other}, *told))):
                unseen += 1
                print(f"{path.name}: a changed {what} is not seen")
    print(f"{tried} changes of exported functions, {unseen} of them not seen")
    return 1 if unseen or not tried else 0


def main():
    if "--try" in sys.argv:
        return try_all()
    problems = list(exports.not_for_c(exports.sources()))
    for name, path, text in differing(made(exports.sources(), tables.words(problems), tables.refusals(problems))):
        if "--check" in sys.argv:
            problems.append(f"{name} differs from crates/abi/src and the tables; run tools/border/border.py")
        else:
            path.parent.mkdir(parents=True, exist_ok=True)
            path.write_text(text, encoding="utf-8")
    print("\n".join(problems), end="\n" * bool(problems))
    return 1 if problems else 0


sys.exit(main())
