#!/usr/bin/env python3
"""Holds the reading order at the head of docs/PROOFS.md to the files.

    tools/papers/reading.py [--check]

A table of it has a row for each file, `| [crate: specs/File](..) | lines | .. |`, and ends with `All N lines, about M minutes.`; the numbers are
written anew (--check: only compared). A comment before a table, `<!-- reads: crate.File.name .. -->`, names statements: all that they cite, and
what that cites, has to stand in files of the tables up to there. A file cites only files that are listed before it, unless its table stands
after a comment `<!-- top down -->`. Every file of specs/ is in just one table, but for those of private steps (PRIVATE). A table of names, `| names | file | .. |`, has all that the files of the table before it take from elsewhere.
Exit status: 0 it holds, 1 it does not."""
import re, sys
from pathlib import Path

ROOT = Path(__file__).resolve().parents[2]
PAPER = ROOT / "docs" / "PROOFS.md"
FILE = re.compile(r"^\| \[(\w+): specs/(\w+)\]\([^)]*\) \| (\d*) \|(.*)$")
NAMES = re.compile(r"^\| (`.*`) \| \[(\w+): specs/(\w+)\]\([^)]*\) \|")
TOTAL = re.compile(r"^All [\d,]+ lines, about \d+ minutes\.")
LINES_A_MINUTE = 10
PRIVATE = {"Steps", "Pass", "Table", "Measure", "Sized"}
PRIVATE_TOO = {("header_trailer", "Fill")}
HEAD = re.compile(r"^(?:  )?(?:(?:abbrev|unfoldable) )?(?:pub )?(?:record |data )?([^\s:(){}=]+)(?= |$)")
WORD = re.compile(r"[^\s(){}\[\],;:λ.]+")


def spec(crate, file):
    return ROOT / "crates" / crate / "specs" / f"{file}.antt"


def read_specs():
    """What each definition cites: (crate, file, name) -> set of the same."""
    cited = {}
    for path in ROOT.glob("crates/*/specs/*.antt"):
        crate, file, text = path.parts[-3], path.stem, path.read_text(encoding="utf-8")
        imported, modules, bodies, name = {}, {}, {}, None
        for c, f, names in re.findall(r"^use Rattle\.(\w+)\.specs\.(\w+)\.\{(.*)\}", text, re.M):
            if (ROOT / "crates" / c).is_dir():  # what the kit's own libraries have is not told here
                imported |= {n: (c, f, n) for n in names.split(", ")}
        for c, f, short in re.findall(r"^use Rattle\.(\w+)\.specs\.(\w+) as (\S+)", text, re.M):
            modules[short] = (c, f)
        for line in text.split("\n"):
            if line.startswith(("use ", "--", "module ", "pub mod ")) or not line.strip():
                continue
            starts = re.match(r"(?:  )?(?:abbrev|unfoldable|pub record|pub data) |[^\s|]+ :", line)
            if starts and (head := HEAD.match(line)):
                name = head.group(1)
            bodies[name] = bodies.get(name, "") + line + "\n"
        imported |= {n: (crate, file, n) for n in bodies}
        for n, body in bodies.items():
            found = {imported[w] for w in WORD.findall(body) if w in imported}
            for short, (c, f) in modules.items():
                found |= {(c, f, w) for w in re.findall(rf"(?<![\w.]){re.escape(short)}\.([^\s(){{}},;.]+)", body)}
            cited[crate, file, n] = found
    return cited


def reached(cited, roots):
    seen, left = set(), list(roots)
    while left:
        at = left.pop()
        if at not in seen and at in cited:
            seen.add(at)
            left += cited[at]
    return seen


def main():
    cited, faults, out = read_specs(), [], []
    files, table, named, wanted, total, top_down = set(), set(), set(), set(), 0, False
    paper = PAPER.read_text(encoding="utf-8").split("\n")
    rows = [m.group(1, 2) for line in paper if (m := FILE.match(line))]
    listed, there = set(rows), {(c, f) for c, f, _ in cited if f not in PRIVATE} - PRIVATE_TOO
    faults += [f"lacks {c}: specs/{f}" for c, f in sorted(there - listed)] + [f"has {c}: specs/{f} twice" for c, f in sorted(listed) if rows.count((c, f)) > 1]
    for line in paper:
        if m := re.match(r"<!-- reads: (.*) -->", line):
            roots = [tuple(r.split(".")) for r in m.group(1).split()]
            faults += [f"there is no {'.'.join(r)}" for r in roots if r not in cited]
            wanted = reached(cited, roots)
        elif m := FILE.match(line):
            if not spec(m.group(1), m.group(2)).exists():
                faults.append(f"there is no crates/{m.group(1)}/specs/{m.group(2)}.antt")
                continue
            lines = len(spec(m.group(1), m.group(2)).read_text(encoding="utf-8").splitlines())
            if not total:
                table = set()
            table.add(m.group(1, 2))
            files |= table
            total += lines
            later = {d[:2] for user, uses in cited.items() if user[:2] == m.group(1, 2) for d in uses} & (listed - files)
            if not top_down:
                faults += [f"{m.group(1)}: specs/{m.group(2)} comes before {c}: specs/{f}, which it cites" for c, f in sorted(later)]
            line = f"{line[: m.start(3)]}{lines} |{m.group(4)}"
        elif m := NAMES.match(line):
            named |= {(m.group(2), m.group(3), n) for n in re.findall(r"`([^`]+)`", m.group(1))}
        elif m := TOTAL.match(line):
            minutes = -(-total // LINES_A_MINUTE // 5) * 5
            line = f"All {total:,} lines, about {minutes} minutes." + line[m.end() :]
            total, top_down = 0, False
        elif line == "<!-- top down -->":
            top_down = True
        elif line.startswith("#"):
            if named:
                wanted = {d for user, uses in cited.items() if user[:2] in table for d in uses if d[:2] not in table} - named
                faults += [f"{c}: specs/{f} has no {n}" for c, f, n in sorted(named) if n not in WORD.findall(spec(c, f).read_text(encoding="utf-8"))]
            else:
                wanted = {d for d in wanted if d[:2] not in files}
            faults += [f"lacks {d[2]} ({d[0]}: specs/{d[1]})" for d in sorted(wanted)]
            wanted, named = set(), set()
        out.append(line)
    if "--check" in sys.argv:
        if out != paper:
            faults.append("numbers of the reading order in docs/PROOFS.md are old: run tools/papers/reading.py")
    else:
        PAPER.write_text("\n".join(out), encoding="utf-8")
    for fault in faults:
        print(f"docs/PROOFS.md, reading order: {fault}")
    return 1 if faults else 0


sys.exit(main())
