#!/usr/bin/env python3
"""Brings the names of definitions and lemmas to today's spelling: words in snake case, a dash only between names.

usage: tools/port/names.py [--dry] [FOLDER]     FOLDER: the repository, this one if left out

Run once, right after port.py. It renames what .antt files below crates/ define (camelCase, and kebab-case whose parts
are no names), wherever the name stands in .antt and .rt files, in must-fail edits and in src/'s clauses and comments.
Names of src/, strings, and names of the kit stay. It says where two names would fall together, and then writes nothing.
"""
import collections
import os
import re
import sys

TOKEN = re.compile(r"[A-Za-z_][\w'?₀-₉-]*", re.UNICODE)
# Words of the kit between which a dash stands in a lemma's name.
KIT = set("""length take drop append cons snoc nil suc zero set get_or map replicate min max add sub mul div mod le lt
eq and or not cond reverse filter concat paste list_sum sum one true false eqb leb ltb get none some flat_map num""".split())


def snake(part):
    part = re.sub(r"([a-z0-9])([A-Z])", r"\1_\2", part)
    part = re.sub(r"([A-Z])([A-Z][a-z])", r"\1_\2", part)
    return part.lower() if part[:1].islower() else part


def files(root, *ends):
    for folder, dirs, names in os.walk(os.path.join(root, "crates")):
        dirs[:] = sorted(d for d in dirs if d != "out")
        for name in sorted(names):
            if name.endswith(ends):
                yield os.path.join(folder, name)


DEFINED = re.compile(
    r"^(\s*)(?:(?:abbrev|unfoldable)\s+)?(?:pub\s+)?(?:(?:record|data|ruleset)\s+)?([^\s:(){},.]+)\s*(?::|\(|\{|where|$)"
)


def defined(root):
    """name -> the .antt files that define it."""
    found = collections.defaultdict(set)
    for path in files(root, ".antt"):
        for line in open(path, encoding="utf-8"):
            if line.lstrip().startswith(("--", "use ", "let ", "pub mod", "mod ", "module", "unfolding", "λ", "|")):
                continue
            at = DEFINED.match(line)
            if at and re.match(r"[a-z]", at.group(2)) and (" : " in line or line.rstrip().endswith(" :")):
                found[at.group(2)].add(path)
    return found


def renamed(name, known):
    """The name in today's spelling."""
    parts = [snake(p) for p in name.split("-")]
    made = parts[0]
    for before, part in zip(parts, parts[1:]):
        both = all(p in known or p in KIT for p in (before, part))
        made += ("-" if both or part.isdigit() or not part[:1].islower() or not before[:1].isalpha() else "_") + part
    return made


# Names that Rattle makes: goals, places, fields of contexts. They are no definitions of ours.
MADE = re.compile(
    r"^(invariant|decreases|returns|loop|In|After|At|Need|need|told|fits|arm|branch|if|then|else|match|untold)(-|$)"
)


# By hand: lemmas that would have the name of a function, of ours or of the kit, and where they stand.
BY_HAND = {
    "bit-xor": ("bit_xor_lem", ""),
    "entry_length": ("entry_length_lem", ""),
    "too_large": ("too_large_lem", "TableLaws.antt"),
}


def main(words):
    dry = "--dry" in words
    words = [w for w in words if w != "--dry"]
    root = words[0] if words else os.path.join(os.path.dirname(os.path.abspath(__file__)), "..", "..")
    found = defined(root)
    known = {snake(n) for n in found if "-" not in n}
    table = {}
    for name in found:
        if MADE.match(name):
            continue
        if all(p.endswith("Proof.antt") for p in found[name]) and "-" in name:
            continue
        new = renamed(name, known)
        # A lemma or a field that would have the name of a function, ours or Rust's, gets _lem.
        if new != name and "-" in name and (new in known or new in found):
            new += "_lem"
        if new != name:
            table[name] = new
    table |= {old: new for old, (new, where) in BY_HAND.items() if not where}
    # Where names fall together: two old ones with one new, or a new one that some file has already.
    used = collections.defaultdict(set)
    for path in files(root, ".antt", ".rt"):
        for token in set(TOKEN.findall(open(path, encoding="utf-8").read())):
            used[token].add(path)
    bad = 0
    news = collections.defaultdict(list)
    for old, new in sorted(table.items()):
        news[new].append(old)
    for new, olds in sorted(news.items()):
        places = [used[o] for o in olds] + ([used[new]] if new in used else [])
        names = olds + ([new] if new in used else [])
        if len(names) > 1:
            for a in range(len(names)):
                for b in range(a + 1, len(names)):
                    both = sorted(p for p in places[a] & places[b])
                    if both:
                        bad += 1
                        print(f"{names[a]} and {names[b]}: {new}: {', '.join(os.path.relpath(p, root) for p in both[:6])}")
    print(f"{len(table)} names, {bad} meet in a file")
    if dry:
        for old, new in sorted(table.items()):
            print(f"  {old} -> {new}")
        return 0
    for path in files(root, ".antt", ".rt", ".edit"):
        with open(path, encoding="utf-8") as f:
            text = f.read()
        here = table | {old: new for old, (new, where) in BY_HAND.items() if where and path.endswith(where)}
        new = TOKEN.sub(lambda m: here.get(m.group(0), m.group(0)), text)
        if new != text:
            with open(path, "w", encoding="utf-8") as f:
                f.write(new)
    return 0


if __name__ == "__main__":
    sys.exit(main(sys.argv[1:]))
