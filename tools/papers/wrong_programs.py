#!/usr/bin/env python3
"""Writes the two tables of docs/PROOFS.md that are made from the wrong programs (crates/X/must-fail/*.edit) and the definitions.

    tools/papers/wrong_programs.py            writes them
    tools/papers/wrong_programs.py --check    only compares them

The first lines of an edit are `refusal: N, M` (the refusals whose condition, number, place or detail it gets wrong; an edit that spoils
all of them alike names none) and `says: ..` (what it does). Definitions and 01's words are found by refusals.py.
README's number of wrong programs is held too.
Exit status: 0 all is well; 1 a table or the number differs, or a refusal lacks its words, its definition or a wrong program, or an edit says nothing."""
import re, sys, textwrap
from refusals import CRATES, ROOT, defined, files, quoted

PAPER = ROOT / "docs" / "PROOFS.md"
REFUSALS = [*range(1, 44), 46]  # 01's, and 46 of 02, which is only of dates that are asked about


def edits():
    """Of each edit: its crate, its label, the refusals, what it says, whether it changes a definition."""
    for crate, path in files("must-fail/*.edit"):
        lines = dict(reversed([line.split(": ", 1) for line in path.read_text(encoding="utf-8").splitlines() if ": " in line]))
        numbers = [int(n) for n in re.findall(r"\d+", lines.get("refusal", ""))]
        yield crate, path.stem, numbers, lines.get("says", ""), lines["file"].startswith("specs/")


def linked(where):
    crate, file = where
    return f"[{crate}: specs/{file}](../crates/{crate}/specs/{file}.antt)"


def refusals_table(all_edits, problems):
    rows, found, quotes = ["| number | 01's words (of 46: 02's) | definition | wrong programs |", "|---|---|---|---|"], defined(), quoted()
    for number in REFUSALS:
        places = found.get(number, [])
        words = [quotes[number, where] for where, _ in places if (number, where) in quotes]
        wrong = [f"{crate}/{label}" for crate, label, numbers, _, _ in all_edits if number in numbers]
        lacks = {"definition": places, "words of 01 in the file of its definition": words, "wrong program": wrong}
        problems += [f"refusal {number} has no {what}" for what, there in lacks.items() if not there]
        named = [f"`{name}` ({linked(where)})" for where, name in places]
        named += [f"more of it in {linked(where)}" for n, where in quotes if n == number and where not in [at for at, _ in places]]
        rows.append(f"| {number} | {''.join(words[:1])} | {'; '.join(named)} | {', '.join(wrong)} |")
    return "\n".join(rows)


def programs_list(all_edits, problems):
    items = []
    for crate in CRATES:
        of_crate = [edit for edit in all_edits if edit[0] == crate]
        problems += [f"{crate}/{label} has no `says:` line" for _, label, _, says, _ in of_crate if not says]
        said = [says + " (a wrong definition)" * definition for _, _, _, says, definition in of_crate]
        if said:
            items.append(textwrap.fill(f"- {crate}: {'; '.join(said)}.", 150, subsequent_indent="  ", break_on_hyphens=False))
    return "\n".join(items)


def main():
    all_edits, problems = list(edits()), []
    problems += [f"{e[0]}/{e[1]}: there is no refusal {n}" for e in all_edits for n in e[2] if n not in REFUSALS]
    made = {"refusals": refusals_table(all_edits, problems), "wrong programs": programs_list(all_edits, problems)}
    paper = text = PAPER.read_text(encoding="utf-8")
    for name, table in made.items():
        marks = re.compile(rf"(<!-- {name}: made by [^>]*-->\n).*?(<!-- end of {name} -->)", re.S)
        before, text = text, marks.sub(lambda m: f"{m.group(1)}\n{table}\n\n{m.group(2)}", text)
        if not marks.search(before):
            problems.append(f"docs/PROOFS.md has no place for the {name}: its marks are missing")
        elif before != text and "--check" in sys.argv:
            problems.append(f"docs/PROOFS.md: the {name} differ from the edits and definitions; run tools/papers/wrong_programs.py")
    if f" {len(all_edits)} wrong programs" not in (ROOT / "README.md").read_text(encoding="utf-8"):
        problems.append(f"README.md has another number of wrong programs than {len(all_edits)}")
    if "--check" not in sys.argv and text != paper:
        PAPER.write_text(text, encoding="utf-8")
    print("\n".join(problems), end="\n" * bool(problems))
    return 1 if problems else 0


sys.exit(main())
