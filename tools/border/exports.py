"""The exported functions, read from crates/abi/src; crates/abi_c/src, which C is linked with, is held to it."""
import re
from pathlib import Path

ROOT = Path(__file__).resolve().parents[2]
SCALARS = ("u8", "u16", "u32", "u64", "usize", "bool")
EXPORT = re.compile(r'((?:^//.*\n)*)#\[unsafe\(no_mangle\)\]\npub extern "C" fn (\w+)\(([^)]*)\)(?: -> (\w+))?', re.M)


class Parameter:
    """A parameter: its name, the type of its elements, whether it is written to, and of an array how many elements it has; a slice has None, a number is no list."""

    def __init__(self, text, where):
        self.name, kind = (part.strip() for part in text.split(":", 1))
        found = re.fullmatch(r"&(mut )?\[(\w+)(?:; (\d+))?\]", kind)
        self.listed, self.written = bool(found), bool(found and found.group(1))
        self.element = found.group(2) if found else kind
        self.count = int(found.group(3)) if found and found.group(3) else None
        if self.element not in SCALARS:
            raise SystemExit(f"{where}: {self.name}: no type for C and Rust: {kind}")


class Function:
    def __init__(self, comment, name, parameters, answer, where):
        self.name, self.answer = name, answer
        self.comment = [line[2:].strip() for line in comment.splitlines()]
        parts = [part for part in re.split(r",\s*", parameters.strip()) if part.strip()]
        self.parameters = [Parameter(part, f"{where}: {name}") for part in parts]


class Subject:
    """A file of exported functions, and the comment at its head."""

    def __init__(self, path, text):
        self.name = path.stem
        self.comment = [line[2:].strip() for line in re.match(r"((?:^//.*\n)*)", text, re.M).group(1).splitlines()]
        self.functions = [Function(*found, path.name) for found in EXPORT.findall(text)]
        if len(self.functions) != text.count("#[unsafe(no_mangle)]"):
            raise SystemExit(f"{path}: an exported function that is not understood")


HEAD = re.compile(r'#\[unsafe\(no_mangle\)\]\n(pub extern "C" fn (\w+)\(([^)]*)\).*?)\n\{\n(.*?)\n\}\n', re.S)


def heads(text):
    """Of each exported function of a file: its head with all clauses, its parameters and its body."""
    return {name: (head, re.findall(r"(\w+):", parameters), body) for head, name, parameters, body in HEAD.findall(text)}


def not_for_c(texts):
    """Where abi_c has another function than abi, another head of one, or a body that is not the call of abi's."""
    folder = ROOT / "crates" / "abi_c" / "src"
    theirs = {path.name: path.read_text(encoding="utf-8") for path in sorted(folder.glob("*.rt"))}
    if sorted(theirs) != sorted(path.name for path in texts):
        yield "crates/abi_c/src has other files than crates/abi/src"
    for path, text in texts.items():
        for_c, ours = theirs.get(path.name, ""), heads(text)
        if sorted(heads(for_c)) != sorted(ours) or for_c.count("#[unsafe(no_mangle)]") != len(ours):
            yield f"crates/abi_c/src/{path.name} has other functions than abi's"
        for name, (head, _, body) in heads(for_c).items():
            wanted, parameters, _ = ours.get(name, ("", [], ""))
            if head != wanted:
                yield f"crates/abi_c/src/{path.name}: {name} is told otherwise than in abi"
            call = f"abi::{path.stem}::{name}({','.join(parameters)})"
            if "".join(body.split()).replace(",)", ")").rstrip(";") != call:
                yield f"crates/abi_c/src/{path.name}: {name} does more than to call abi's"


# the functions that a program calls come first, those of single chunks after them
ORDER = ["defaults", "build", "verdict", "reads", "property", "diin", "text", "dates", "sound"]


def sources():
    """The files of crates/abi/src, and their texts."""
    return {path: path.read_text(encoding="utf-8") for path in sorted((ROOT / "crates" / "abi" / "src").glob("*.rt"))}


def subjects(texts):
    """The files of exported functions."""
    found = [subject for subject in (Subject(path, text) for path, text in texts.items()) if subject.functions]
    return sorted(found, key=lambda s: ORDER.index(s.name) if s.name in ORDER else len(ORDER))
