#!/usr/bin/env python3
"""Lists what falls short in the promises of the library's public functions, and prints nothing if nothing does.

    tools/papers/promises.py [ROOT]

A public function has no `requires`; it has an `ensures`; each `ensures` is an equation, or a record of equations, without a condition; the
answer and every buffer that is lent to be written are in them, and of an answer that is told field by field, every field. A bound of what
was given may stand beside such equations. What a function that is handed a closure F asks is only that F can be called
(`F.IsAlwaysCallable`), and its equations may rest on what F does (`F.post`), for values below a bound. Functions of programs are not `pub`.
Exit status: 0 nothing is listed, 1 something is."""
import re, sys
from pathlib import Path

ROOT = Path(sys.argv[1]) if len(sys.argv) > 1 else Path(__file__).resolve().parents[2]
CRATES = ROOT / "crates"
FUNCTION = re.compile(r'^ *pub (?:extern "C" )?fn (\w+)', re.M)


def balanced(text, at):
    """The text inside the braces that open at a place, and the place behind them."""
    depth = 0
    for i in range(at, len(text)):
        depth += {"{": 1, "}": -1}.get(text[i], 0)
        if depth == 0:
            return text[at + 1 : i], i + 1
    raise ValueError("a brace is not closed")


def heads(text):
    """Of each public function: its name, its parameters and answer, its `requires` and its `ensures`."""
    for found in FUNCTION.finditer(text):
        signature_end = re.compile(r"\n\s*(?:requires|ensures)(?: \w+)? \{|\{").search(text, found.end())
        at, clauses = signature_end.start(), {"requires": [], "ensures": []}
        while clause := re.compile(r"\s*(requires|ensures)(?: \w+)? (?=\{)").match(text, at):
            inside, at = balanced(text, clause.end())
            clauses[clause.group(1)].append(" ".join(inside.split()))
        yield found.group(1), text[found.end() : signature_end.start()], clauses


def definitions():
    """Of each record: its fields' types. Of each other definition of a type: the name that it stands for. Of one that makes a record of a value's fields: these."""
    records, names, wholes = {}, {}, {}
    for path in CRATES.glob("*/specs/*.antt"):
        text = path.read_text(encoding="utf-8")
        for m in re.finditer(r"^pub record (\S+).*?where\n((?:  .*\n?|--.*\n)*)", text, re.M):
            fields = re.findall(r"^  pub \S+ : (.*(?:\n    .*)*)", m.group(2), re.M)
            records.setdefault(m.group(1), []).append([" ".join(f.split()) for f in fields])
        for m in re.finditer(r"^(?:abbrev|unfoldable) pub (\S+) : .*→ Type 0\n\1 [^=]*= (.*)", text, re.M):
            names[m.group(1)] = m.group(2)
        for m in re.finditer(r"^(\w+) x = record \{\n((?:  \w+ = [^{}]*;\n)+)\}$", text, re.M):
            wholes.setdefault(m.group(1), []).append(set(re.findall(r"^  \w+ = x\.([\w.]+?)(?:\.now)?;$", m.group(2), re.M)))
    return records, names, wholes


RECORDS, NAMES, WHOLES = definitions()
# what an equation is to tell: the answer, a field of it, what a lent buffer holds in the end, or the answer's fields as a record
TOLD = r"(?:result|result\.\S+|\S+\.new|\w+ result)"
BOUND = re.compile(r"[^→≡<]+ < 2 \^ \d+")
SOURCES = "\n".join(p.read_text(encoding="utf-8") for p in sorted(CRATES.glob("*/src/**/*.rt")))


def places_of(answer):
    """The places of a struct's answer: its fields, and of a field that is such a struct, of lent slices and all, that struct's."""
    name = re.match(r"\w+", answer)
    struct = name and re.search(rf"pub struct {name.group()}(?:<'\w+>)? \{{(.*?)\n\}}", SOURCES, re.S)
    for field, kind in re.findall(r"pub (\w+): ([^,\n]*)", struct.group(1)) if struct else []:
        inside = list(places_of(kind)) if "<'" in kind else []
        yield from (f"{field}.{place}" for place in inside) if inside else [field]


def is_whole(name, answer):
    """A definition that has each place of such an answer in a record, as it is."""
    places = set(places_of(answer))
    return bool(places) and name in WHOLES and all(places == told for told in WHOLES[name])


def without_let(fact):
    """`let x = e in f` with e for x."""
    while found := re.match(r"let (\w+) = (.*?) in (.*)", fact):
        name, value, inside = found.groups()
        fact = re.sub(rf"(?<![\w.]){name}(?!\w)", f"({value})", inside)
    return fact


def closures(signature):
    """The parameters that are closures, by their types' names: F of `write: F`, where F: FnOnce(..)."""
    kinds = re.findall(r"(\w+): Fn(?:Once|Mut)?\(", signature)
    return {kind: re.findall(rf"(\w+): (?:&mut |&)?{kind}\b", signature) for kind in kinds}


def without_closures(fact, called):
    """An equation without the conditions that closures bring: values, bounds of these, and what a closure does."""
    *conditions, last = fact.split(" → ")
    does = "|".join(rf"\({kind}\.post {name}\)" for kind, names in called.items() for name in names)
    fits = rf"\(\w+ : [\w ]+\)|{BOUND.pattern}|[\w.]+ (?:{does}) [\w ]+"
    return last if does and conditions and all(re.fullmatch(fits, c) for c in conditions) else fact


def is_callable(clause, called):
    return clause in [f"{kind}.IsAlwaysCallable {name}" for kind, names in called.items() for name in names]


def outside_brackets(fact):
    while (inner := re.sub(r"\([^()]*\)", "()", fact)) != fact:
        fact = re.sub(r"\(\)", "", inner)
    return fact


def is_equation(fact, left=r".+"):
    """An equation with this on its left, or a record all of whose fields are equations; none has a condition."""
    outside = outside_brackets(fact)
    if "→" in outside:
        return False
    if "≡" in outside:
        return bool(re.match(rf"{left} ≡ ", fact)) and not re.fullmatch(r"(.*) ≡ \1", fact)
    head = fact.split()[0]
    if head in NAMES:
        return is_equation(NAMES[head])
    return head in RECORDS and all(fields and any(is_equation(f) for f in fields) and all(is_field(f) for f in fields) for fields in RECORDS[head])


def is_field(fact):
    """What may stand in such a record: an equation, a bound on what was given, or the type of a value."""
    return " < 2 ^ 63" in fact or len(fact.split()) == 1 or is_equation(fact)


def shortcomings(signature, clauses):
    called = closures(signature)
    if any(not is_callable(clause, called) for clause in clauses["requires"]):
        yield "has a `requires`"
    if not clauses["ensures"]:
        yield "has no `ensures`"
        return
    answer, equations = re.search(r"-> (\S.*)", signature), []
    for clause in clauses["ensures"]:
        fact = without_closures(without_let(clause), called)
        whole = re.match(r"(\w+) result ≡ ", fact)
        if not is_equation(fact, TOLD) or (whole and not (answer and is_whole(whole.group(1), answer.group(1)))):
            if not BOUND.fullmatch(fact):
                yield f"promises what is no equation: {clause[:90]}"
        else:
            equations.append(fact)
    told = " ".join(equations)
    for lent in re.findall(r"(\w+): &(?:'\w+ )?mut", signature):
        if not re.search(rf"(?<![\w.]){lent}\.new\b", told):
            yield f"does not say what `{lent}` holds in the end"
    by_field = set(re.findall(r"\bresult\.(\w+)", told))
    if answer and not re.search(r"\bresult\b", told):
        yield "does not say what it answers"
    if answer and by_field and not re.search(r"\bresult\b(?!\.)", told):
        struct = re.search(r"pub struct " + re.escape(answer.group(1)) + r" \{(.*?)\n\}", SOURCES, re.S)
        for field in re.findall(r"pub (\w+):", struct.group(1) if struct else ""):
            if field not in by_field:
                yield f"does not say `{field}` of its answer"


def main():
    found = 0
    for crate in sorted(p for p in CRATES.iterdir() if (p / "src").is_dir()):
        program = (crate / "src" / "main.rt").exists()
        source = "\n".join(p.read_text(encoding="utf-8") for p in sorted(crate.glob("src/**/*.rt")))
        for name, signature, clauses in heads(source):
            faults = ["is `pub`, though nothing but its program calls it"] if program else shortcomings(signature, clauses)
            for fault in faults:
                found += 1
                print(f"{crate.name}: {name} {fault}")
    return 1 if found else 0


sys.exit(main())
