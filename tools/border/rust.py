"""The Rust declarations, names and refusals."""
import textwrap

from c import upper

MADE = "//! Made by tools/border/border.py from {of}; not edited by hand."


def parameter(p):
    pointer = "*mut " if p.written else "*const "
    if p.count is not None:
        return [f"{p.name}: {pointer}[{p.element}; {p.count}]"]
    if p.listed:
        return [f"{p.name}: {pointer}{p.element}", f"{p.name}_len: usize"]
    return [f"{p.name}: {p.element}"]


def declaration(function):
    parts = [part for p in function.parameters for part in parameter(p)]
    answer = f" -> {function.answer}" if function.answer else ""
    one = f"    pub fn {function.name}({', '.join(parts)}){answer};"
    if len(one) <= 120:
        return one
    return f"    pub fn {function.name}(\n" + "".join(f"        {part},\n" for part in parts) + f"    ){answer};"


def exports(subjects):
    head = "//! The exported functions of the library, declared.\n//!\n" + MADE.format(of="crates/abi/src") + "\n\n"
    body = "\n\n".join(declaration(function) for subject in subjects for function in subject.functions)
    return f'{head}unsafe extern "C" {{\n{body}\n}}\n'


def doc(text, indent):
    return "".join(f"{indent}/// {line}\n" for line in textwrap.wrap(text, 116 - len(indent)))


def constant(name, number, kind, says):
    return (doc(f"{says[0].upper()}{says[1:]}.", "") if says else "") + f"pub const {name}: {kind} = {number};\n"


def names(table):
    out = "//! Names for the border's numbers: the places of a build's words, the values of those that choose, the places in rows.\n//!\n"
    out += MADE.format(of="tools/border/words.toml") + "\n\n"
    count = table["word"][-1]["at"] + table["word"][-1]["count"]
    out += constant("WORDS", count, "usize", "how many words a build has") + "\n"
    for word in table["word"]:
        told = word["says"] + (f" ({word['count']} words)" if word["count"] > 1 else "")
        out += constant(f"WORD_{word['name']}", word["at"], "usize", told)
    switches = [word["at"] for word in table["word"] if word["says"].startswith(("switch", "text"))]
    listed = textwrap.fill(", ".join(map(str, sorted(switches))), 112, initial_indent="    ", subsequent_indent="    ")
    out += f"\n/// The words that are switches, on if not 0.\npub const SWITCHES: [usize; {len(switches)}] = [\n{listed},\n];\n"
    for values in table["values"]:
        out += f"\n// {values['says'][0].upper()}{values['says'][1:]}.\n"
        out += "".join(constant(f"{values['name']}_{name}", number, "u32", says) for name, number, says in values["item"])
    for row in table["row"]:
        out += f"\n// The places in a row of {row['says']}.\n"
        out += constant(f"{row['name']}_WORDS", len(row["word"]), "usize", "words a row")
        out += "".join(constant(f"{row['name']}_{name}", i, "usize", says) for i, (name, says) in enumerate(row["word"]))
    return out


def string(text):
    return '"' + text.replace("\\", "\\\\").replace('"', '\\"') + '"'


def told(r, indent):
    definition = "; ".join(f"{path}: {name}" for path, name in r["definitions"])
    lines = [f"words: {string(r['words'])}", f"remedy: {string(r['remedy'])}", f"definition: {string(definition)}"]
    return "Told {\n" + "".join(f"{indent}    {line},\n" for line in lines) + indent + "}"


def refusals(all_refusals):
    table, others = ([r for r in all_refusals if ("only" in r) == of_dates] for of_dates in (False, True))
    out = "//! The refusals, in checking order.\n//!\n"
    out += MADE.format(of="tools/border/refusals.toml and the definitions in crates/*/specs") + "\n\n"
    out += "/// Why a build or a read is refused. Each has its number, the words of the rule, and what to do about it.\n"
    out += "#[derive(Clone, Copy, Debug, PartialEq, Eq, Hash)]\npub enum Refusal {\n"
    for r in table:
        out += doc(f"{r['number']}: {r['words']}", "    ") + f"    {r['name']}{'(u64)' if 'detail' in r else ''},\n"
    out += "}\n\n/// What is told of a refusal.\npub(crate) struct Told {\n    pub words: &'static str,\n    pub remedy: &'static str,\n"
    out += "    pub definition: &'static str,\n}\n\n"
    out += f"/// How many refusals there are: the numbers are 1 to this.\npub const REFUSALS: usize = {len(table)};\n\nimpl Refusal {{\n"
    out += "    /// The refusal of this number, which takes the detail if it has one; `None` for a number that is no refusal's.\n"
    out += "    pub fn new(number: u64, detail: u64) -> Option<Refusal> {\n        match number {\n"
    for r in table:
        out += f"            {r['number']} => Some(Refusal::{r['name']}{'(detail)' if 'detail' in r else ''}),\n"
    out += "            _ => None,\n        }\n    }\n\n"
    out += "    /// All refusals, in checking order; those that have a detail have 0.\n    pub fn all() -> [Refusal; REFUSALS] {\n        [\n"
    out += "".join(f"            Refusal::{r['name']}{'(0)' if 'detail' in r else ''},\n" for r in table) + "        ]\n    }\n\n"
    out += "    /// Its number, from 1 on.\n    pub fn number(&self) -> u32 {\n        match self {\n"
    out += "".join(f"            Refusal::{r['name']}{'(_)' if 'detail' in r else ''} => {r['number']},\n" for r in table) + "        }\n    }\n\n"
    out += "    /// Its detail, or 0: " + "; ".join(f"of {r['number']} {r['detail']}" for r in table if "detail" in r) + ".\n"
    out += "    pub fn detail(&self) -> u64 {\n        match *self {\n            "
    out += " | ".join(f"Refusal::{r['name']}(detail)" for r in table if "detail" in r) + " => detail,\n            _ => 0,\n        }\n    }\n\n"
    out += "    pub(crate) fn told(&self) -> Told {\n        match self {\n"
    for r in table:
        out += f"            Refusal::{r['name']}{'(_)' if 'detail' in r else ''} => {told(r, ' ' * 12)},\n"
    out += "        }\n    }\n}\n"
    for r in others:
        out += "\n" + doc(f"Of {r['number']}, which is only {r['only']}.", "")
        out += f"pub(crate) const {upper(r['name'])}: Told = {told(r, '')};\n"
    return out
