"""The refusals as crates/*/specs define them: each has a name, and its number by `refusal_number` of crates/refusal/specs/Verdict.antt. A refusal's
definition is the one that hands its name to `refuse_if`, and 01's words are quoted in the comments of specs/ as `7: "Channels aren't 1 to 6"`;
whether they are 01's own is for a reader to see, who has 01."""
import re
from pathlib import Path

ROOT = Path(__file__).resolve().parents[2]
CRATES = re.findall(r"^(\w+)(?: staticlib)?:", (ROOT / "crates.txt").read_text(encoding="utf-8"), re.M)
QUOTE = re.compile(r'(?<!\d)([1-9]\d*):? "(.+?)"(?=[.;)]| \(|$)')
SIGNATURE = re.compile(r"^ *(?:abbrev |unfoldable )?(?:pub )?(\S+) : .*\n", re.M)


def files(pattern):
    """The files that fit a pattern, crate by crate, in the order of crates.txt."""
    return [(crate, path) for crate in CRATES for path in sorted((ROOT / "crates" / crate).glob(pattern))]


def arguments(text):
    """The arguments at the front of a text, what is in brackets kept together."""
    found, depth = [""], 0
    for letter in text:
        depth += {"(": 1, ")": -1}.get(letter, 0)
        if depth < 0:
            break
        found = found + [""] if letter == " " and depth == 0 else found[:-1] + [found[-1] + letter]
    return found


def definitions():
    """Of each definition: where it stands, its name, its parameters and its text on one line."""
    for crate, path in files("specs/*.antt"):
        text = re.sub(r"^ *--.*\n", "", path.read_text(encoding="utf-8"), flags=re.M)
        parts = SIGNATURE.split(text)[1:]
        for name, body in zip(parts[::2], parts[1::2]):
            left, _, right = " ".join(body.split()).partition(" = ")
            yield (crate, path.stem), name, left.split()[1:], right


def numbers():
    """Of each refusal's name its number, as `refusal_number` has it; the comments of the enum are held to it."""
    spec = (ROOT / "crates/refusal/specs/Verdict.antt").read_text(encoding="utf-8")
    found = {name: int(number) for name, number in re.findall(r"^refusal_number \(?(\w+)(?: \w+\))? = (\d+)$", spec, re.M)}
    code = (ROOT / "crates/refusal/src/verdict.rt").read_text(encoding="utf-8")
    listed = re.search(r"^pub enum Refusal \{\n(.*?)^\}", code, re.M | re.S).group(1)
    told = {name: int(number) for name, number in re.findall(r"^    (\w+)(?: \{ \w+: u64 \})?, // (\d+): ", listed, re.M)}
    if not found or told != found or len(told) != len(listed.splitlines()) or len(set(found.values())) != len(found):
        raise SystemExit("crates/refusal: the refusals of src/verdict.rt, their numbers there and those of specs/Verdict.antt are not the same")
    return found


def name_in(given):
    """What an argument names: of `refused.Range`, `(ShortTrack (k + 1))`, `(λ n. HeaderRoom n)` and `(refusal n)` what is applied there."""
    return re.fullmatch(r"\(?(?:λ \w+\. )?(?:refused\.)?(\w+)(?: .*\))?\)?", given).group(1)


def defined():
    """Of each number: the definitions that hand its refusal to `refuse_if`, themselves or by one that takes the refusal (`short`, `beyond`)."""
    by_file, found, number_of = {}, {}, numbers()
    for where, name, parameters, text in definitions():
        place_of_refusal = by_file.setdefault(where, {"refuse_if": 1})
        for call in re.finditer(r"(?<!\S)\(?(%s) " % "|".join(place_of_refusal), text):
            given = name_in(arguments(text[call.end() :])[place_of_refusal[call.group(1)]])
            if given in parameters:
                place_of_refusal[name] = parameters.index(given)
            elif (where, name) not in found.setdefault(number_of[given], []):
                found[number_of[given]].append((where, name))
    return found


def quoted():
    """Of each number and file of definitions: 01's words."""
    found = {}
    for crate, path in files("specs/*.antt"):
        for comment in re.findall(r"^(?: *--.*\n)+", path.read_text(encoding="utf-8"), re.M):
            for number, words in QUOTE.findall(" ".join(re.sub(r"^ *--", "", comment, flags=re.M).split())):
                found.setdefault((int(number), (crate, path.stem)), words)
    return found
