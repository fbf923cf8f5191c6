"""Holds the original Rust's answers against document 01's rules.

    compare.py write SEED COUNT            prints the chosen cases and COUNT random ones
    compare.py compare CASES ANSWERS       compares; the status is 1 if anything is not as expected
"""

import sys
from collections import Counter
from itertools import zip_longest

from cases import BadFile, parse_case, read_blocks, to_hex, write_case
from chosen import chosen_cases
from intended import INTENDED
from model import Refusal, build
from random_cases import random_cases
from reading import Frames, needed_positions, read

NOTHING = "(no line)"


# Document 01's answers in the words of the harness, without the message that follows a refusal

def refusal_words(refusal):
    return f"refused {refusal.number} {refusal.detail}"


def build_lines(built):
    return [
        f"accepted {built.size}",
        f"header {len(built.header)} {to_hex(built.header)}",
        f"sound {built.sound_length}",
        f"trailer {len(built.trailer)} {to_hex(built.trailer)}",
    ]


def read_line(built, frames, ask):
    """0xEE marks what a read leaves alone."""
    try:
        data = read(built, frames, ask.offset, ask.length)
        result = f"filled {len(data)}"
    except Refusal as refusal:
        data = b""
        result = refusal_words(refusal)
    buffer = data + b"\xee" * (ask.length - len(data))
    return f"read {ask.offset} {ask.length} {to_hex(buffer)} {result}"


# Comparing one case: pairs of document 01's line and the Rust's, where they differ

def agrees(model_line, rust_line):
    """The same line; a refusal is followed by the Rust's message."""
    if "refused" in model_line:
        return rust_line.startswith(model_line + " ")
    return rust_line == model_line


def different_lines(model, rust):
    pairs = zip_longest(model, rust, fillvalue=NOTHING)
    return [pair for pair in pairs if not agrees(*pair)]


def asked_as_allowed(line, first, end):
    """The Rust asked for positions of the query's answer only, and for none of them twice."""
    key, *asked = line.split()
    if key != "asked":
        return False
    return len(set(asked)) == len(asked) and all(first <= int(each[1:]) < end for each in asked)


def different_asks(case, built, rust):
    """Reads and queries of an accepted file. The Rust's line for a read is followed by what it asked for."""
    model_lines = []
    rust_lines = []
    frames = Frames(case)
    answers = iter(rust)
    for ask in case.asks:
        first, end = needed_positions(built, ask.offset, ask.length)
        rust_lines.append(next(answers, NOTHING))
        if ask.kind == "query":
            model_lines.append(f"query {ask.offset} {ask.length} {first} {end}")
            continue
        model_lines.append(read_line(built, frames, ask))
        asked = next(answers, NOTHING)
        if not asked_as_allowed(asked, first, end):
            model_lines.append(f"asked once each, of positions {first} to {end}")
            rust_lines.append(asked)
    return different_lines(model_lines, rust_lines + list(answers))


# The whole comparison

def outcome(line):
    """What became of a build: `accepted`, `panic`, or `refused` and the number."""
    words = line.split(" ")
    return " ".join(words[:2]) if words[0] == "refused" else words[0]


def excerpt(line, place=0):
    """A line; of a long one its beginning, and what is around a place."""
    if len(line) <= 140:
        return line
    begin = max(40, place - 30)
    return f"{line[:40]}[...]{line[begin:begin + 70]}[...]"


def first_difference(one, other):
    for place, (a, b) in enumerate(zip(one, other)):
        if a != b:
            return place
    return min(len(one), len(other))


class Comparison:
    """What was seen so far; `expected` has the chosen cases' names and the beginnings of their answers' lines."""

    def __init__(self, expected):
        self.expected = expected
        self.not_run = set(expected)
        self.cases = 0
        self.same = 0
        self.intended = 0
        self.reads = 0
        self.queries = 0
        self.model_outcomes = Counter()
        self.rust_outcomes = Counter()
        self.intended_answers = {row: [] for row in INTENDED}
        self.faults = []

    def take(self, name, case, rust):
        """Compares one case with the Rust's answer."""
        self.cases += 1
        self.rust_outcomes[outcome(rust[0])] += 1
        self.check_expected(name, rust)
        try:
            built = build(case)
        except Refusal as refusal:
            self.model_outcomes[f"refused {refusal.number}"] += 1
            pairs = different_lines([refusal_words(refusal)], rust[:1])
        else:
            self.model_outcomes["accepted"] += 1
            pairs = different_lines(build_lines(built), rust[:4])[:1]
            if not pairs:
                self.reads += sum(ask.kind == "read" for ask in case.asks)
                self.queries += sum(ask.kind == "query" for ask in case.asks)
                pairs = different_asks(case, built, rust[4:])
        self.sort_differences(name, pairs)

    def check_expected(self, name, rust):
        """Of a chosen case, each expected beginning is one of a line of the answer."""
        self.not_run.discard(name)
        for beginning in self.expected.get(name, ()):
            if not any(line.startswith(beginning) for line in rust):
                self.faults.append(f"{name}: expected: {excerpt(beginning)} | the Rust: {excerpt(rust[0])}")

    def sort_differences(self, name, pairs):
        """Differences are intended, or a fault."""
        unexpected = 0
        for pair in pairs:
            row = next((row for row in INTENDED if row.covers(name, *pair)), None)
            if row is not None:
                self.intended_answers[row].append(name)
                continue
            unexpected += 1
            place = first_difference(*pair)
            model_line, rust_line = (excerpt(line, place) for line in pair)
            self.faults.append(f"{name}: document 01: {model_line} | the Rust: {rust_line}")
        if not pairs:
            self.same += 1
        elif not unexpected:
            self.intended += 1

    def close(self):
        """Faults that show only at the end."""
        for name in sorted(self.not_run):
            self.faults.append(f"{name}: a chosen case that was not run")
        for row, names in self.intended_answers.items():
            if len(names) != row.count:
                seen = " ".join(names) or "none"
                self.faults.append(f"{len(names)} intended differences, not {row.count}: {row.reason} Seen: {seen}")

    def report(self):
        chosen = len(self.expected) - len(self.not_run)
        print(f"cases: {self.cases} ({chosen} chosen, {self.cases - chosen} random)")
        print("outcome       document 01   the Rust")
        outcomes = {*self.model_outcomes, *self.rust_outcomes}
        for each in sorted(outcomes, key=lambda name: (len(name), name)):
            print(f"{each:12} {self.model_outcomes[each]:12} {self.rust_outcomes[each]:10}")
        print(f"compared in accepted files: {self.reads} reads, {self.queries} queries")
        unexpected = self.cases - self.same - self.intended
        print(f"cases the same: {self.same}, with intended differences: {self.intended}, with others: {unexpected}")
        print("answers that differ as intended:")
        for row, names in self.intended_answers.items():
            print(f"{len(names):5}  {row.reason}")
        for fault in self.faults:
            print(f"UNEXPECTED {fault}")
        print(f"NOT AS EXPECTED: {len(self.faults)}" if self.faults else "all as expected")


def write(seed, count):
    for name, (lines, _) in chosen_cases().items():
        sys.stdout.write(write_case(name, lines))
    for name, lines in random_cases(seed, count).items():
        sys.stdout.write(write_case(name, lines))


def compare(cases_path, answers_path):
    comparison = Comparison({name: expected for name, (_, expected) in chosen_cases().items()})
    with open(cases_path, encoding="utf-8") as cases, open(answers_path, encoding="utf-8") as answers:
        blocks = zip_longest(read_blocks(cases), read_blocks(answers), fillvalue=(None, []))
        for (name, lines), (answer_name, answer) in blocks:
            if name != answer_name:
                raise BadFile(f"the answer to {name} has the name {answer_name}")
            comparison.take(name, parse_case(lines), answer or [NOTHING])
    comparison.close()
    comparison.report()
    return 1 if comparison.faults else 0


def main(arguments):
    match arguments:
        case ["write", seed, count]:
            write(int(seed), int(count))
            return 0
        case ["compare", cases_path, answers_path]:
            return compare(cases_path, answers_path)
    print(__doc__, file=sys.stderr)
    return 2


if __name__ == "__main__":
    try:
        sys.exit(main(sys.argv[1:]))
    except BadFile as error:
        sys.exit(f"compare.py: {error}")
