#!/usr/bin/env python3
"""Lists the names that two definitions of the specs have, and prints nothing if there are none: one name for one thing.

    tools/papers/names.py

Exit status: 0 nothing is listed, 1 something is."""
import re, sys
from collections import defaultdict
from pathlib import Path

CRATES = Path(__file__).resolve().parents[2] / "crates"
DEFINED = re.compile(r"^(?:  )?(?:(?:unfoldable|abbrev) (?:pub )?([^\s:(){}]+) [:({]|pub (?:record|data) ([^\s:(){}]+))", re.M)

homes = defaultdict(list)
for path in sorted(CRATES.glob("*/specs/*.antt")):
    for one in DEFINED.finditer(path.read_text(encoding="utf-8")):
        homes[one.group(1) or one.group(2)].append(f"{path.parts[-3]}: specs/{path.stem}")
twice = {name: where for name, where in homes.items() if len(where) > 1}
for name, where in sorted(twice.items()):
    print(f"{name} is defined in {' and in '.join(where)}")
sys.exit(1 if twice else 0)
