#!/usr/bin/env python3
"""Turns the proofs of a crate's functions, proofs/F/Proof.antt, to Invariants.antt and Answers.antt.

usage: tools/port/answers.py CRATE..    in the repository; the crates below CRATE must be proved

It reads each goal's place and today's name from `rt check --generated DIR --old-names`. An answer that says only
`search rules` or `omega arith` is left out, since a check tries these itself. What it cannot turn is told in a line
`left:`, and the old file stays beside as Proof.antt.old, which is not to be committed.
"""
import json
import os
import re
import subprocess
import sys
import tempfile

ROOT = os.path.realpath(os.path.join(os.path.dirname(os.path.abspath(__file__)), "..", ".."))
PLAIN = re.compile(r"^\(?λ [\wκ ]+\. (search (rules|needs)|omega arith|tt)\)?$")


def names_of(crate):
    with tempfile.TemporaryDirectory() as folder:
        said = subprocess.run(
            ["rt", "check", "--generated", folder, "--old-names"],
            cwd=os.path.join(ROOT, "crates", crate), capture_output=True, text=True)
        path = os.path.join(folder, "names.json")
        if not os.path.exists(path):
            print(said.stdout[-3000:], said.stderr[-2000:])
            raise SystemExit(f"{crate}: no names")
        with open(path) as f:
            return json.load(f)


def alike(name):
    return name.replace("-", "_").lower()


def split_top(text):
    """The words of an application, parentheses kept together."""
    out, depth, word = [], 0, ""
    for ch in text:
        if ch in "([{":
            depth += 1
        if ch in ")]}":
            depth -= 1
        if ch.isspace() and depth == 0:
            if word:
                out.append(word)
            word = ""
        else:
            word += ch
    if word:
        out.append(word)
    return out


class Places:
    def __init__(self, about):
        self.places = {p[0]: p for p in about["places"]}
        self.args = {}
        for old, new in about["args"]:
            o, n = old.replace(" ", "").lstrip("."), new.replace(" ", "").lstrip(".")
            self.args[o] = n
        self.params = about["params"]
        # what a match's arm tells: (old step, old path) -> its name now
        self.arms = {}
        for arm in about["arms"]:
            for new, step, path in (arm[2] if arm else []):
                self.arms.setdefault(alike(step), {})[tuple(path)] = f"{arm[0]}.{new}"
        self.left = []
        self.clauses = {p[0]: c.get("fields") for p, c in zip(about["places"], about["clauses"]) if c}

    def parent(self, place):
        return self.places.get(place, [None, None])[1]

    def walk(self, place, fields):
        """`fields` after `c` at `place`: (place, None) where it ends at a place, else (None, text after 'c.')."""
        i = 0
        while i < len(fields) and fields[i] == "before":
            place = self.parent(place) or place
            i += 1
        if i == len(fields):
            return place, None
        head, rest = fields[i], fields[i + 1:]
        if head in ("args", "ranges", "told"):
            key = f"{head}.{rest[0]}" if rest else head
            new = self.args.get(key, key)
            return None, ".".join([new] + rest[1:])
        rest = [alike(r) if alike(r) in ("type_inv", "well_formed") else r for r in rest]
        if alike(head) in ("requires", "type_inv", "utf8", "auto", "well_formed", "blocks", "lifetimes"):
            return None, ".".join([alike(head)] + rest)
        here = self.places.get(place)
        for path, new in self.arms.get(alike(head), {}).items():
            if path and tuple(rest[: len(path)]) == path:
                return None, ".".join([new] + rest[len(path):])
        # a step's own name, here or, where it was left out, at a place above
        at = place
        while at is not None:
            p = self.places[at]
            old, new = p[2]
            if old and alike(old) == alike(head):
                return None, ".".join([new] + self.step(p, rest))
            at = p[1]
        # names of another kit between: by the step's first word
        head = re.sub(r"_lem$", "", head)
        near = [p for p in self.places.values() if p[2] and p[2][0] and alike(p[2][0]) == alike(head)]
        near = near or [p for p in self.places.values() if p[2] and p[2][1] and (alike(p[2][1]) + "_").startswith(alike(re.sub(r"\d+$", "", head)) + "_")]
        if near:
            return None, ".".join([near[0][2][1]] + self.step(near[0], rest))
        self.left.append(f"no step {head} at {place}: {here[2] if here else None}")
        return None, ".".join([head] + rest)

    def step(self, place, rest):
        # a clause of several has a name now, where it was a place in nested pairs
        fields = self.clauses.get(place[0])
        if fields and len(fields) > 1 and rest and rest[0] in ("ensures", "requires"):
            k, path = 0, rest[1:]
            while path and path[0] == "1" and k < len(fields) - 1:
                k, path = k + 1, path[1:]
            if k < len(fields) - 1 and path and path[0] == "0":
                path = path[1:]
            elif k < len(fields) - 1:
                return rest
            return [rest[0], fields[k]] + path
        if len(rest) >= 2 and rest[0] == "new" and place[3] in self.params:
            names = self.params[place[3]]
            match = re.fullmatch(r"t(\d+)", rest[1])
            if match and int(match.group(1)) <= len(names):
                return ["new", names[int(match.group(1)) - 1]] + rest[2:]
        return rest


PATH = re.compile(r"(?<![\w.'₀-₉-])([A-Za-z_][\w'₀-₉-]*)((?:\.[A-Za-z0-9_][\w'₀-₉-]*)*)")


def turn_paths(text, env, places):
    """Paths that begin at a name of env, which says at which place it is (or what text stands for it)."""

    def one(match):
        name, tail = match.group(1), match.group(2)
        if name not in env:
            return match.group(0)
        kind, value = env[name]
        fields = [f for f in tail.split(".") if f]
        after = text[match.end():match.end() + 2]
        if not tail and (name == "at" or after == " =" and re.search(r"[{;]\s*$", text[:match.start()])):
            return match.group(0)
        if kind == "text":
            return value + tail
        place, rest = places.walk(value, fields)
        if rest is None:
            return match.group(0) if not fields and name == "c" else f"c⟨{place}⟩"
        return "c." + rest

    return PATH.sub(one, text)


LET = re.compile(r"let ([\w'₀-₉-]+) = ([A-Za-z_][\w'₀-₉-]*)((?:\.[A-Za-z0-9_][\w'₀-₉-]*)*) in\n?\s*")


def turn_body(body, place, places, bound="c"):
    env = {bound: ("place", place)}
    body = body.strip("\n")
    # lets of a place, or of a step, are put where they are used
    out = ""
    while True:
        match = LET.search(body)
        if not match:
            out += turn_paths(body, env, places)
            break
        name, base, tail = match.groups()
        out += turn_paths(body[:match.start()], env, places)
        if base in env:
            fields = [f for f in tail.split(".") if f]
            kind, value = env[base]
            if kind == "place":
                at, rest = places.walk(value, fields)
                env = dict(env)
                env[name] = ("place", at) if rest is None else ("text", "c." + rest)
            else:
                env[name] = ("text", value + tail)
        else:
            out += match.group(0)
        body = body[match.end():]
    return out


def blocks_of(text):
    """The file's head of comments, its use lines, and its declarations in order."""
    head, uses, decls = [], [], []
    lines = text.split("\n")
    i = 0
    pending = []
    while i < len(lines):
        line = lines[i]
        if line.startswith("use "):
            uses.append(line)
            i += 1
            continue
        if line.startswith("--"):
            (pending if uses or decls else head).append(line)
            i += 1
            continue
        if not line.strip():
            i += 1
            continue
        # a declaration: up to the next line at the margin that begins another
        match = re.match(r"(?:abbrev |unfoldable )?(?:pub )?([^\s:]+)", line)
        name = match.group(1)
        j = i + 1
        while j < len(lines):
            nxt = lines[j]
            if nxt.startswith((" ", "\t")) or nxt.startswith("unfolding") or re.match(re.escape(name) + r"(\s|$)", nxt):
                j += 1
                continue
            if not nxt.strip():
                k = j
                while k < len(lines) and not lines[k].strip():
                    k += 1
                if k < len(lines) and (lines[k].startswith((" ", "\t")) or re.match(re.escape(name) + r"(\s|$)", lines[k])):
                    j = k
                    continue
            break
        decls.append((name, pending, "\n".join(lines[i:j]).rstrip()))
        pending = []
        i = j
    return head, uses, decls


def function(crate, folder, about):
    path = os.path.join(folder, "Proof.antt")
    with open(path, encoding="utf-8") as f:
        text = f.read()
    if "tie.close" not in text:
        return [f"left: {path}: a walk by hand"]
    head, uses, decls = blocks_of(text)
    uses = [u for u in uses if ".Statement.{statement}" not in u and not u.endswith(".Tie as tie")]
    module = "Rattle." + crate + ".proofs." + os.path.relpath(folder, os.path.join(ROOT, "crates", crate, "proofs")).replace("/", ".")
    by_name = {n: d for n, _, d in decls}
    last = decls[-1][2]
    match = re.search(r"tie\.spec(.*)\)\s*$", last, re.S)
    if not match:
        return [f"left: {path}: no tie.spec at its end"]
    words = [re.sub(r"^\(\s+", "(", w) for w in split_top(match.group(1))]
    loops, needs = about["loops"], about["needs"]
    said = []
    places = Places(about)
    asked = [a[0] for a in about["asked_at"]]
    if len(words) != 2 * len(loops) + len(needs):
        # other goals than then: those that have a name, by their name
        flat, named = words[: 2 * len(loops)], []
        by_need = {alike(o): (o, n, a) for (o, n), a in zip(needs, asked)}
        lost = []
        for word in words[2 * len(loops):]:
            decl = by_name.get(word, "")
            need = re.match(r"(?:abbrev |pub )*\S+ : tie\.Need-(\S+)", decl)
            if need and alike(need.group(1)) in by_need:
                named.append((word, by_need.pop(alike(need.group(1)))))
            elif not PLAIN.match(word):
                lost.append(word)
        if lost:
            said.append(f"left: {path}: {len(words)} parts, and {len(loops)} loops and {len(needs)} goals; lost {lost}")
            return said
        rest = [(f"(λ c. search rules)", v) for v in by_need.values()]
        words = flat + [w for w, _ in named + rest]
        needs = [[o, n] for _, (o, n, _) in named + rest]
        asked = [a for _, (_, _, a) in named + rest]
    whole = re.search(r"^unfolding .*(?:\n    .*)*$", last, re.M)
    whole = whole.group(0) if whole else ""
    table_of_goals = {}
    used = set()
    # invariants and measures
    invariants = []
    order = []
    for k in range(len(loops)):
        order.append((words[2 * k], "invariant", k))
        order.append((words[2 * k + 1], "decreases", k))
    flat = words[: 2 * len(loops)]
    if flat and all("invariant" in w for w in flat[: len(loops)]) and len(loops) > 1:
        order = [(flat[k], "invariant", k) for k in range(len(loops))] + [(flat[len(loops) + k], "decreases", k) for k in range(len(loops))]
    for word, kind, k in order:
        (old, new), variables = loops[k][0], loops[k][1]
        goal = f"{kind}-{new}"
        used.add(word)
        decl = by_name.get(word)
        if decl is None:
            lam = re.fullmatch(r"\(λ (.*?)\. (.*)\)", word, re.S)
            if not lam:
                said.append(f"left: {path}: {word}")
                continue
            params, body = lam.group(1).split(), lam.group(2)
        else:
            eq = re.search(r"\n" + re.escape(word) + r"\s+([^=]*)=(.*)", decl, re.S)
            params, body = eq.group(1).split(), eq.group(2).strip("\n")
        changed = about["changed"][k]
        want = [(v, True) for v in variables] + [(v, False) for v, c in zip(variables, changed) if c]
        if len(params) != len(want):
            said.append(f"left: {path}: {goal} has {len(params)} variables, and {len(want)} are known: {params} {want}")
        table = {}
        for p, (v, first) in zip(params, want):
            is_changed = changed[variables.index(v)]
            table[p] = f"l.initial.{v}" if first and is_changed else f"l.{v}"
        body = re.sub(r"(?<![\w.'₀-₉-])([A-Za-z_][\w'₀-₉-]*)", lambda m: table.get(m.group(1), m.group(1)), body)
        sep = "" if body.startswith("\n") else " "
        if kind == "invariant" and body.strip() in ("Unit {0}", "⊤"):
            continue
        invariants.append(f"abbrev pub {goal} : goal.{goal}\n{goal} l ={sep if not body.startswith(' ') else ''}{body}")
    # answers
    answers = []
    made = set()
    for k, (word, (old, new)) in enumerate(zip(words[2 * len(loops):], needs)):
        place = asked[k]
        used.add(word)
        if PLAIN.match(word):
            if whole and re.match(r"returns|.*-(init|preserved|requires)", new) and "κs. tt" not in word and new not in made:
                made.add(new)
                answers.append((new, f"pub {new} : goal.{new}\n{whole}\n{new} c = search rules"))
            continue
        table_of_goals[word] = new
        unfolding = ""
        decl = by_name.get(word)
        note = []
        if decl is not None and re.match(r"(abbrev |pub )*" + re.escape(word) + r" : tie\.Need", decl):
            note = next(p for n, p, _ in decls if n == word)
            unfold = re.search(r"^unfolding .*(?:\n    .*)*$", decl, re.M)
            unfolding = unfold.group(0) + "\n" if unfold else ""
            eq = re.search(r"\n" + re.escape(word) + r"((?:\s+[\w'κ]+)*)\s*=(.*)", decl, re.S)
            if not eq:
                said.append(f"left: {path}: {word}")
                continue
            params, body = eq.group(1).split(), eq.group(2)
        else:
            lam = re.fullmatch(r"\(λ ([\wκ ]+)\. (.*)\)", word, re.S)
            unfolding = whole + "\n" if whole else ""
            if lam:
                params, body = lam.group(1).split(), " " + lam.group(2)
            else:
                params, body = ["c"], " " + word + " c"
        if not params:
            said.append(f"left: {path}: {word} takes no c")
            continue
        if body.strip() in ("search rules", "omega arith", "search needs") and not unfolding:
            continue
        if new in made:
            said.append(f"left: {path}: two answers of {new}")
            continue
        made.add(new)
        turned = " " + turn_body(body, place, places, params[0]).strip()
        if "c⟨" in turned:
            said.append(f"left: {path}: {new}: a place by itself")
        note = "".join(n + "\n" for n in note)
        answers.append((new, f"{note}pub {new} : goal.{new}\n{unfolding}{new} c ={turned}"))
    # a test of `!x` tells of x now
    IFNOT = r"c\.if-not-[\w'-]+\.(?:true|false)"
    fixed = []
    for n, t in answers:
        t = re.sub(r"\(not-(?:true|false) _ (" + IFNOT + r")\)", r"\1", t)
        t = re.sub(r"not-(?:true|false) (?:_|\((?:[^()]|\((?:[^()]|\((?:[^()]|\([^()]*\))*\))*\))*\)|[\w.'-]+\.result) (" + IFNOT + r")", r"\1", t)
        head_, body = t.split(f"{n} c =", 1)
        was = "not-true" in body or "not-false" in body or any(re.search(r"not-(true|false)", d) for d in by_name.values())
        if not was:
            body2 = re.sub(IFNOT, lambda m: f"(ap not {m.group(0)})", body)
            if body2 != body:
                for u in ("use mathlib.Core.Path.{ap}", "use mathlib.Core.Bool.{not}"):
                    mod, item = re.match(r"use (.*)\.\{(.*)\}", u).groups()
                    same = [k for k, x in enumerate(uses) if x.startswith(f"use {mod}.{{")]
                    if same:
                        items = re.match(r"use .*\.\{(.*)\}", uses[same[0]]).group(1).split(", ")
                        if item not in items:
                            uses[same[0]] = f"use {mod}.{{{', '.join(items + [item])}}}"
                    else:
                        uses.append(u)
            body = body2
        fixed.append((n, head_ + f"{n} c =" + body))
    answers = fixed
    helpers = []
    for name, note, decl in decls[:-1]:
        if name in used and (decl.startswith("abbrev") or " : tie." in decl.split("\n")[0]):
            continue
        if "tie." in decl:
            said.append(f"left: {path}: the helper {name} names tie")
        helpers.append("\n".join(note + [decl]))
    said += [f"left: {path}: {l}" for l in dict.fromkeys(places.left)]
    def named(text):
        for place in about["places"]:
            fields = places.clauses.get(place[0])
            if fields and len(fields) > 1 and place[2][1]:
                text = re.sub(
                    r"c\." + re.escape(place[2][1]) + r"\.((?:ensures|requires)(?:\.[01])+)(?![\w'-])",
                    lambda m: f"c.{place[2][1]}." + ".".join(places.step(place, m.group(1).split("."))), text)
        return text

    answers = [(n, named(t)) for n, t in answers]
    # an answer that another one cites stands above it, under its name now
    cited = {w: n for w, n in table_of_goals.items() if w in by_name}
    rename = lambda t: re.sub(r"(?<![\w.'₀-₉-])([A-Za-z_][\w'₀-₉-]*)(?![\w'₀-₉-])", lambda m: cited.get(m.group(1), m.group(1)), t)
    turned = []
    for n, t in answers:
        sig, body = t.split(f"\n{n} c =", 1)
        turned.append((n, sig + f"\n{n} c =" + rename(body)))
    ordered, names = [], [n for n, _ in turned]
    while turned:
        for k, (n, t) in enumerate(turned):
            body = t.split(f"{n} c =", 1)[1]
            if not any(re.search(r"(?<![\w.'-])" + re.escape(m) + r"(?![\w'-])", body) for m, _ in turned if m != n):
                break
        else:
            k = 0
        ordered.append(turned.pop(k)[1])
    answers = ordered
    uses_text = "\n".join(uses)
    title = "\n".join(head)

    def needed(body):
        out = []
        for u in uses:
            m = re.match(r"use (.*)\.\{(.*)\}$", u)
            if not m:
                m2 = re.match(r"use (.*?)(?: as (\S+))?$", u)
                name = m2.group(2) or m2.group(1).split(".")[-1]
                if re.search(r"(?<![\w'-])" + re.escape(name) + r"(?![\w'-])", body):
                    out.append(u)
                continue
            keep = []
            for item in m.group(2).split(", "):
                shown = item.split(" as ")[-1]
                parts = [p for p in shown.split("◌") if p]
                if all(re.search(r"(?<![\w'₀-₉-])" + re.escape(p) + r"(?![\w'₀-₉-])" if re.match(r"\w", p) else re.escape(p), body) for p in parts):
                    keep.append(item)
            if keep:
                out.append(f"use {m.group(1)}.{{{', '.join(keep)}}}")
        return "\n".join(out)

    for name in ("Invariants.antt", "Answers.antt"):
        if os.path.exists(os.path.join(folder, name)):
            return said + [f"left: {path}: {name} is there already"]
    if invariants:
        body = "\n\n".join(invariants)
        for name, note, decl in reversed(decls[:-1]):
            if decl.startswith("abbrev") and "tie." not in decl and re.search(r"(?<![\w.'-])" + re.escape(name) + r"(?![\w'-])", body):
                body = "\n".join(note + [decl]) + "\n\n" + body
        with open(os.path.join(folder, "Invariants.antt"), "w", encoding="utf-8") as f:
            f.write(title + "\n" + needed(body) + f"\nuse {module}.Given as goal\n\n" + body + "\n")
    if answers:
        body = "\n\n".join([h for h in helpers] + answers)
        with open(os.path.join(folder, "Answers.antt"), "w", encoding="utf-8") as f:
            f.write((title if not invariants else "-- The goals that a check leaves.") + "\n" + needed(body) + f"\nuse {module}.Goals as goal\n\n" + body + "\n")
    os.rename(path, path + ".old")
    return said


def main(crates):
    for crate in crates:
        names = names_of(crate)
        table = {}
        for key, about in names.items():
            match = re.fullmatch(r"Rattle-" + crate + r"-proofs\.(.*)\.Lts", key)
            if match:
                table[match.group(1)] = about
        base = os.path.join(ROOT, "crates", crate, "proofs")
        done = 0
        for folder, _, files in sorted(os.walk(base)):
            if "Proof.antt" not in files:
                continue
            key = os.path.relpath(folder, base).replace("/", ".")
            if key not in table:
                print(f"left: {folder}: no names; known: {[k for k in table if k.split('.')[-1] == key.split('.')[-1]]}")
                continue
            for line in function(crate, folder, table[key]):
                print(line)
            done += 1
        print(f"{crate}: {done} proofs")


if __name__ == "__main__":
    main(sys.argv[1:])
