"""Holds what the library answers about dates against Python's own calendar.

    compare.py ANSWERS SEED COUNT      ANSWERS is the compiled answers.c

Prints what was asked and what was answered. Status: 0 no disagreement, 1 one, 2 something could not be run.
"""

import subprocess
import sys
from array import array
from collections import Counter
from itertools import chain, pairwise

from drawn import LAST_YEAR, U32_MAX, Draw
from python_calendar import date_fault, falls_in, is_undated, moments, note_fault

SHOWN = 20
WORD = next(code for code in "IL" if array(code).itemsize == 4)
MONTHS = range(14)
DAYS = range(33)
# The year 0 and all of datetime's; of the later ones the first and the last 400, and two past them.
YEARS = (*range(10_400), *range(LAST_YEAR - 399, LAST_YEAR + 2), U32_MAX)
YEARS_AT_ONCE = 1_000
MOST_IN_A_ROW = 12


class Failed(Exception):
    """The answers could not be had."""


class Comparison:
    """The library, how many answers it gave, and where they are others than Python's."""

    def __init__(self, program):
        self.program = program
        self.answers = 0
        self.disagreements = 0

    def ask(self, what, rows, size):
        """The library's answers, `size` bytes for each row of words."""
        words = array(WORD, chain.from_iterable(rows))
        run = subprocess.run([self.program, what], input=words.tobytes(), stdout=subprocess.PIPE, check=False)
        if run.returncode != 0 or len(run.stdout) != size * len(rows):
            raise Failed(f"{self.program} {what}: status {run.returncode}, {len(run.stdout)} answers")
        self.answers += len(run.stdout)
        return [run.stdout[at:at + size] for at in range(0, len(run.stdout), size)]

    def hold(self, what, row, given, wanted):
        if given == wanted:
            return
        self.disagreements += 1
        if self.disagreements <= SHOWN:
            print(f"DISAGREEMENT {what} {row}: the library {list(given)}, Python {list(wanted)}")


# Single stamps: note_fault, date_fault, the number and the detail of the verdict on a build, which has no 46

ANSWERS = {
    "date": bytes((0, 0, 0, 0)),
    "undated": bytes((0, 46, 0, 0)),
    "34": bytes((34, 34, 34, 0)),
    "46": bytes((46, 46, 0, 0)),
}


def kind(stamp):
    fault = date_fault(stamp)
    if fault == 0:
        return "date"
    return str(fault) if note_fault(stamp) else "undated"


def told(what, kinds):
    counts = ", ".join(f"{count} {name}" for name, count in sorted(kinds.items()))
    print(f"{what}: {counts}", flush=True)


def compare_years(comparison):
    """Each month 0 to 13 and day 0 to 32 of the years."""
    kinds = Counter()
    for first in range(0, len(YEARS), YEARS_AT_ONCE):
        years = YEARS[first:first + YEARS_AT_ONCE]
        given = comparison.ask("years", [(year,) for year in years], 4 * len(MONTHS) * len(DAYS))
        for year, of_year in zip(years, given):
            time = year % 24, year % 60
            stamps = [(year, month, day, *time) for month in MONTHS for day in DAYS]
            of_stamps = [kind(stamp) for stamp in stamps]
            wanted = [ANSWERS[each] for each in of_stamps]
            kinds.update(of_stamps)
            if of_year != b"".join(wanted):
                for place, (stamp, each) in enumerate(zip(stamps, wanted)):
                    comparison.hold("stamp", stamp, of_year[4 * place:4 * place + 4], each)
    told(f"every day of {len(YEARS)} years", kinds)


def compare_stamps(comparison, draw, count):
    kinds = Counter()
    stamps = [draw.stamp() for _ in range(count)]
    for stamp, given in zip(stamps, comparison.ask("stamps", stamps, 4)):
        of_stamp = kind(stamp)
        kinds[of_stamp] += 1
        comparison.hold("stamp", stamp, given, ANSWERS[of_stamp])
    told("drawn stamps", kinds)


# Two stamps: earlier

def compare_pairs(comparison, draw, count):
    """By Python's order of tuples; of two dates also by its moments."""
    kinds = Counter()
    pairs = [draw.pair() for _ in range(count)]
    for (one, other), given in zip(pairs, comparison.ask("pairs", [a + b for a, b in pairs], 1)):
        orders = {one < other}
        if date_fault(one) == 0 == date_fault(other):
            first, second = moments(one, other)
            orders.add(first < second)
        kinds["earlier" if one < other else "not earlier"] += 1
        for order in orders:
            comparison.hold("pair", (one, other), given, bytes((order,)))
    told("drawn pairs", kinds)


# Windows: the number and `falls`, three times, with another value in `falls` before each

def window_kind(window, number, falls):
    """What is answered, and of a refusal whose it is: the first of start, end and note that has a fault."""
    if number == 0:
        return "undated" if is_undated(window[2]) else "in" if falls else "out"
    faults = date_fault(window[0]), date_fault(window[1])
    whose = "start" if faults[0] else "end" if faults[1] else "note"
    return f"{whose} {number}"


def compare_windows(comparison, draw, count):
    kinds = Counter()
    windows = [draw.window() for _ in range(count)]
    rows = [start + end + note for start, end, note in windows]
    for window, given in zip(windows, comparison.ask("windows", rows, 6)):
        number, falls = falls_in(*window)
        kinds[window_kind(window, number, falls)] += 1
        comparison.hold("window", window, given, bytes((number, falls)) * 3)
    told("drawn windows", kinds)


def compare_rows_of_windows(comparison, draw, count):
    """Windows that meet: a note from the first start to before the last end falls in just one, the others in none."""
    rows = [draw.row_of_windows(draw.random.randint(2, MOST_IN_A_ROW)) for _ in range(count)]
    asked = [(dates, note) for dates, notes in rows for note in notes if len(dates) > 1]
    windows = [start + end + note for dates, note in asked for start, end in pairwise(dates)]
    given = iter(comparison.ask("windows", windows, 6))
    kinds = Counter()
    for dates, note in asked:
        first, last, at = moments(dates[0], dates[-1], note)
        wanted = int(first <= at < last)
        falls = sum(next(given)[1] for _ in pairwise(dates))
        kinds["in one" if wanted else "in none"] += 1
        comparison.hold("windows that meet", (dates, note), bytes((min(falls, 255),)), bytes((wanted,)))
    told("notes of windows that meet", kinds)


def main(program, seed, count):
    comparison = Comparison(program)
    draw = Draw(seed)
    compare_years(comparison)
    compare_stamps(comparison, draw, count)
    compare_pairs(comparison, draw, count)
    compare_windows(comparison, draw, count)
    compare_rows_of_windows(comparison, draw, count // 100)
    found = f"{comparison.disagreements} DISAGREEMENTS" if comparison.disagreements else "no disagreement"
    print(f"calendar: {comparison.answers} answers, {found}")
    return 1 if comparison.disagreements else 0


if __name__ == "__main__":
    try:
        sys.exit(main(sys.argv[1], int(sys.argv[2]), int(sys.argv[3])))
    except (Failed, OSError, IndexError, ValueError) as error:
        print(f"compare.py: {error}", file=sys.stderr)
        sys.exit(2)
