"""The tables of names and of refusals, held to the definitions in crates/."""
import re, sys, tomllib
from pathlib import Path

ROOT = Path(__file__).resolve().parents[2]
HERE = Path(__file__).resolve().parent
sys.path.insert(0, str(ROOT / "tools" / "papers"))
import refusals as definitions_of_refusals


def load(name):
    return tomllib.loads((HERE / name).read_text(encoding="utf-8"))


def spec(crate, name):
    text = (ROOT / "crates" / crate / "specs" / f"{name}.antt").read_text(encoding="utf-8")
    return re.sub(r"^ *--.*\n", "", text, flags=re.M)


def default_words():
    """The numbers of `default_words`, its parts joined."""
    text = spec("words", "Defaults")
    parts = re.search(r"^default_words = (.*)$", text, re.M).group(1).split(" ++ ")
    return [int(n, 0) for part in parts for n in re.search(rf"^{part} = (.*) ∷ \[\]$", text, re.M).group(1).split(" ∷ ")]


def fields(body):
    """The fields of the first record in a definition's body, each with its text; of a record inside a field only the text."""
    depth, found = 0, []
    for letter in body.partition("{")[2]:
        depth += {"{": 1, "(": 1, "}": -1, ")": -1}.get(letter, 0)
        if depth < 0:
            break
        if letter == ";" and depth == 0 or not found:
            found.append("")
        found[-1] += letter
    return [(name.strip(" ;«»"), made) for name, _, made in (field.partition(" = ") for field in found) if made]


def places():
    """Of each field of the records in Inputs.antt: the words that it is made of, by itself or by a definition of that file."""
    parts = re.split(r"^(?:abbrev|unfoldable) pub (\w+) : .*\n", spec("words", "Inputs"), flags=re.M)[1:]
    bodies = {name: " ".join(text.partition(" =")[2].split()) for name, text in zip(parts[::2], parts[1::2])}

    def numbers(made):
        found = {int(n) for n in re.findall(r"\bw (\d+)", made)}
        for start, count in re.findall(r"low_bytes w (\d+) (\d+)", made):
            found |= set(range(int(start), int(start) + int(count)))
        for start in re.findall(r"text_at w (\d+)", made):
            found |= set(range(int(start), int(start) + 3))
        for other in re.findall(r"\b(\w+) w(?! \d)", made):
            found |= numbers(bodies[other])
        return found

    return {field: numbers(made) for body in bodies.values() for field, made in fields(body)}


def count_of_words():
    return int(re.search(r"^word_count = (\d+)$", spec("words", "Border"), re.M).group(1))


def words(problems):
    """The table of words, each with its defaults."""
    table, defaults, at, known = load("words.toml"), default_words(), 0, places()
    for word in table["word"]:
        word.setdefault("count", 1)
        if word["at"] != at:
            problems.append(f"words.toml: {word['name']} is word {word['at']}, and the words before it end at {at}")
        at = word["at"] + word["count"]
        if not set(range(word["at"], at)) <= known.get(word["field"], set()):
            problems.append(f"words.toml: {word['name']}: no field {word['field']} of these words in crates/words/specs/Inputs.antt")
        word["default"] = defaults[word["at"] : at]
    if not at == count_of_words() == len(defaults):
        problems.append(f"words.toml has {at} words, Border.antt {count_of_words()}, Defaults.antt {len(defaults)}")
    return table


def refusals(problems):
    """The table of refusals, each with its words (01's; 02's of one that only dates have) and its definitions."""
    defined, quoted = definitions_of_refusals.defined(), definitions_of_refusals.quoted()
    table = load("refusals.toml")["refusal"]
    if [refusal["number"] for refusal in table] != sorted(defined):
        problems.append(f"refusals.toml has other numbers than the definitions: {sorted(defined)}")
    for refusal in table:
        number = refusal["number"]
        at = defined.get(number, [])
        told = [quoted[number, where] for where, _ in at if (number, where) in quoted]
        if not told:
            problems.append(f"refusals.toml: {number} has no definition with its words")
        refusal["words"] = (told or [""])[0].rstrip(".") + "."
        refusal["definitions"] = [(f"crates/{crate}/specs/{file}.antt", name) for (crate, file), name in at]
    return table
