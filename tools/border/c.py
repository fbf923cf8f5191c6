"""The C header."""
import textwrap

TYPES = {"u8": "uint8_t", "u16": "uint16_t", "u32": "uint32_t", "u64": "uint64_t", "usize": "size_t", "bool": "bool"}
MADE = "Made by tools/border/border.py from crates/abi/src and the tables beside it; not edited by hand."

HEAD = """\
/* Jangqeruz: the proved DSDIFF writer, for C99 and C++.
 *
 * {made}
 *
 * A file is never stored. jangqeruz_build writes what stands before and behind the sound, jangqeruz_query tells which
 * frames a read needs, and jangqeruz_read fills a buffer with the file's bytes from any offset on. examples/c/one.c
 * does all three; docs/USING.md tells more.
 *
 * Of every function:
 * - A list is a pointer and the number of its elements, NAME and NAME_len. A pointer may be NULL only if its number is
 *   0. Pointers without a number, as range[2], have just so many elements.
 * - Lists that are written to overlap no other list of the call.
 * - Nothing is kept after the call, nothing is allocated, there is no global state: any thread may call at any time.
 * - 32 KiB of stack are enough.
 * - Every input is answered: with bytes, or with the number of a refusal (enum jangqeruz_refusal; docs/REFUSALS.md),
 *   and then no buffer of bytes is altered. The build, the query, the read and the dates are proved so.
 * - A switch is on if its word is not 0.
 */
#ifndef JANGQERUZ_H
#define JANGQERUZ_H

#include <stdbool.h>
#include <stddef.h>
#include <stdint.h>

#ifdef __cplusplus
extern "C" {{
#endif
"""

# What a caller has to know of a function beside what crates/abi/src tells of it.
NOTES = {
    "jangqeruz_build": [
        "Stretches may overlap, so that a small input can ask for very much: 65,535 comments of the same 1,048,576 values are a COMT of",
        "68,719,345,652 bytes, and markers can make about as much of DIIN. The time, also of a build that is refused, grows with the",
        "values that words and rows name, added up, whether they are written or not (docs/PERFORMANCE.md has the cost of one); of",
        "comments there may be any number of rows, since 36 counts those that are written. A server adds up the lengths in all words",
        "and rows before it calls, and turns away what is above a limit of its own.",
    ],
    "jangqeruz_note_fault": ["A build asks less: it refuses a comment's date with 34 alone."],
    "jangqeruz_verdict": ["The time grows as that of `jangqeruz_build`, and a server does the same about it."],
}

FOOT = """
#ifdef __cplusplus
}
#endif

#endif
"""


def comment(lines, indent=""):
    text = " ".join(lines)
    wrapped = textwrap.wrap(text, 120 - len(indent) - 3)
    if len(wrapped) == 1 and len(wrapped[0]) + len(indent) + 6 <= 120:
        return f"{indent}/* {wrapped[0]} */"
    return "\n".join(f"{indent}{'/*' if i == 0 else ' *'} {line}" for i, line in enumerate(wrapped)) + f"\n{indent} */"


def upper(name):
    """NoFile as NO_FILE."""
    return "".join("_" * (letter.isupper() and i > 0) + letter.upper() for i, letter in enumerate(name))


def told_of(refusal):
    return refusal["words"] + (f" Only {refusal['only']}." if "only" in refusal else "")


def members(rows):
    """Members of an enum: name, number and what it says."""
    lines = []
    for name, number, says in rows:
        line = f"    JANGQERUZ_{name} = {number},"
        told = f" /* {says} */" if says else ""
        lines += [line + told] if len(line + told) <= 120 else [comment([says], "    "), line]
    return "\n".join(lines)


def enum(name, says, rows):
    return f"\n{comment([says])}\nenum{' ' + name if name else ''} {{\n{members(rows)}\n}};\n"


def word_rows(words):
    for word in words:
        told = word["says"]
        if word["count"] > 1:
            told += f" ({word['count']} words)"
        if "values" in word:
            told += f": JANGQERUZ_{word['values']}_.."
        yield f"WORD_{word['name']}", word["at"], told


def declaration(function):
    parts = []
    for p in function.parameters:
        kind = ("const " if p.listed and not p.written else "") + TYPES[p.element]
        if p.count is not None:
            parts.append(f"{kind} {p.name}[{p.count}]")
        elif p.listed:
            parts += [f"{kind} *{p.name}", f"size_t {p.name}_len"]
        else:
            parts.append(f"{kind} {p.name}")
    head = f"{TYPES[function.answer] if function.answer else 'void'} {function.name}"
    one = f"{head}({', '.join(parts)});"
    return one if len(one) <= 100 else f"{head}(\n    " + ",\n    ".join(parts) + ");"


def header(subjects, table, refusals):
    out = HEAD.format(made=MADE)
    count = table["word"][-1]["at"] + table["word"][-1]["count"]
    rows = list(word_rows(table["word"])) + [("WORDS", count, "how many words a build has")]
    out += enum("jangqeruz_word", "The places of a build's words.", rows)
    for values in table["values"]:
        rows = [(f"{values['name']}_{name}", number, says) for name, number, says in values["item"]]
        out += enum("", f"{values['says'][0].upper()}{values['says'][1:]}.", rows)
    for row in table["row"]:
        rows = [(f"{row['name']}_{name}", i, says) for i, (name, says) in enumerate(row["word"])]
        rows.append((f"{row['name']}_WORDS", len(row["word"]), "words a row"))
        out += enum("", f"The places in a row: {row['says']}.", rows)
    out += "\n/* The word of a marker's kind and flags, and the word of a chunk's name, as 'A', 'B', 'C', 'D'. */\n"
    out += "#define JANGQERUZ_KIND_AND_FLAGS(kind, flags) ((uint32_t)(kind) * 65536u + (uint32_t)(flags))\n"
    out += "#define JANGQERUZ_NAME(a, b, c, d) \\\n    (((uint32_t)(a) << 24) | ((uint32_t)(b) << 16) | ((uint32_t)(c) << 8) | (uint32_t)(d))\n"
    rows = [("ACCEPTED", 0, "")] + [(f"REFUSED_{upper(r['name'])}", r["number"], told_of(r)) for r in refusals]
    out += enum("jangqeruz_refusal", "The numbers of the refusals.", rows)
    for subject in subjects:
        out += f"\n/* {'-' * 115} */\n\n{comment(subject.comment)}\n"
        for function in subject.functions:
            told = function.comment + NOTES.get(function.name, [])
            out += "\n" + (comment(told) + "\n" if told else "") + declaration(function) + "\n"
    return out + FOOT
