"""The papers made from the tables: docs/REFUSALS.md and docs/WORDS.md."""


def refusals(table):
    out = """# Refusals

Made by tools/border/border.py from tools/border/refusals.toml and crates/*/specs; not edited by hand. `dff explain NUMBER` prints the same.

Every build and every read ends with bytes or with one of these numbers, and a refusal writes nothing. They are tested in this order: the first
that applies is the answer. "Definition" is the one that the proofs go by.
"""
    for r in table:
        out += f"\n## {r['number']}\n\n"
        out += f"**{r['words']}**\n\n"
        if "only" in r:
            out += f"Only {r['only']}.\n\n"
        if "detail" in r:
            out += f"Detail: {r['detail']}.\n\n"
        out += f"What to do: {r['remedy']}\n\n"
        told = "; ".join(f"`{name}` in [{path}](../{path})" for path, name in r["definitions"])
        kind = "DateRefusal" if "only" in r else "Refusal"
        out += f"Definition: {told}. In C `JANGQERUZ_REFUSED_{upper(r['name'])}`, in Rust `{kind}::{r['name']}`.\n"
    return out


def upper(name):
    return "".join("_" * (letter.isupper() and i > 0) + letter.upper() for i, letter in enumerate(name))


def words(table):
    out = """# The words of a build

Made by tools/border/border.py from tools/border/words.toml and crates/words/specs; not edited by hand. In C the names begin with `JANGQERUZ_`
([include/jangqeruz.h](../include/jangqeruz.h)); in Rust they stand in the crate `library` (host/library/src/names.rs). Users of the crate
`jangqeruz` and of `dff` need none of them.

A build is told its single values as a list of words (u32), each at its own place; `jangqeruz_defaults` fills in the defaults, and what is not
optional is still to be told: sound, playtime, channels, layout and range. A switch is on if its word is not 0.

| word | name | default | what it says |
|---|---|---|---|
"""
    for word in table["word"]:
        last = word["at"] + word["count"] - 1
        at = f"{word['at']} to {last}" if word["count"] > 1 else word["at"]
        told = word["says"] + (f" (`{word['values']}_..`)" if "values" in word else "")
        default = ", ".join(f"0x{n:02X}" if word["name"] == "TEXT_REPLACEMENT" else str(n) for n in word["default"])
        out += f"| {at} | `WORD_{word['name']}` | {default} | {told} |\n"
    out += "\n## Values\n\n| name | value | what it says |\n|---|---|---|\n"
    for values in table["values"]:
        for name, number, says in values["item"]:
            out += f"| `{values['name']}_{name}` | {number} | {says or values['says']} |\n"
    out += """
## Rows

Tracks, markers, comments and the caller's chunks are rows of words, one after the other. `pool` are texts as Unicode scalar values (u32), `raw` are
bytes; a text is named by where it starts there and by its length.

| row | word | name | what it says |
|---|---|---|---|
"""
    for row in table["row"]:
        for i, (name, says) in enumerate(row["word"]):
            out += f"| {row['says']} | {i} | `{row['name']}_{name}` | {says} |\n"
    return out
