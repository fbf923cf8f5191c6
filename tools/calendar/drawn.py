"""Stamps and windows drawn from a seed: most are dates, many are near each other, and every kind of fault is met."""

import calendar
from datetime import datetime, timedelta
from random import Random

from python_calendar import PERIOD_YEARS, is_date

U32_MAX = 2**32 - 1
LAST_YEAR = 65_535
YEARS = (1, 2, 4, 100, 400, 1900, 1999, 2000, 2023, 2024, 2100, 2400, 9_999, 10_000, 10_100, 12_000, 65_532, LAST_YEAR)
# Per place of a stamp: what is at its limits and past them.
EDGES = (
    (0, 1, LAST_YEAR, LAST_YEAR + 1, U32_MAX),
    (0, 1, 2, 4, 12, 13, 256 + 2, U32_MAX),
    (0, 1, 28, 29, 30, 31, 32, 256 + 1, U32_MAX),
    (0, 23, 24, 256, U32_MAX),
    (0, 59, 60, 256, U32_MAX),
)


class Draw:
    """Drawn values of one seed."""

    def __init__(self, seed):
        self.random = Random(seed)

    def year(self):
        return self.random.choice(YEARS) if self.random.random() < 0.6 else self.random.randint(1, LAST_YEAR)

    def date(self):
        """A date, every fourth the last or the first of a month."""
        year = self.year()
        month = self.random.choice((1, 2, 2, 3, 4, 12, self.random.randint(1, 12)))
        last = calendar.monthrange(year, month)[1]
        day = self.random.choice((1, last, *self.random.choices(range(1, last + 1), k=6)))
        hour = self.random.choice((0, 23, self.random.randint(0, 23)))
        minutes = self.random.choice((0, 59, self.random.randint(0, 59)))
        return year, month, day, hour, minutes

    def near(self, stamp):
        """The date some minutes, days or years before or after another, or that date itself."""
        less = max(0, (stamp[0] - 2_000) // PERIOD_YEARS) * PERIOD_YEARS
        moment = datetime(stamp[0] - less, *stamp[1:])
        minutes = self.random.choice((0, 0, 1, 1, 59, 60, 1_440, 28 * 1_440, 31 * 1_440, 365 * 1_440, 366 * 1_440))
        minutes *= self.random.choice((-1, 1))
        try:
            moment += timedelta(minutes=minutes)
        except OverflowError:
            return stamp
        year = moment.year + less
        return (year, *moment.timetuple()[1:5]) if year <= LAST_YEAR else stamp

    def undated(self):
        return self.random.choice((0, 1, 2024, LAST_YEAR)), 0, 0, self.random.randint(0, 23), self.random.randint(0, 59)

    def stamp(self):
        """A date or an undated note with up to three numbers changed, mostly to what is at a limit."""
        words = list(self.undated() if self.random.random() < 0.1 else self.date())
        for place in self.random.sample(range(5), self.random.choice((0, 1, 1, 1, 2, 3))):
            at_limit = self.random.random() < 0.9
            words[place] = self.random.choice(EDGES[place]) if at_limit else self.random.randint(0, U32_MAX)
        return tuple(words)

    def no_date(self):
        """A day that its month has not, or a year, month or day 0."""
        year, month, day, *time = self.date()
        wrong = [(0, month, day), (year, 0, day), (year, month, 0)]
        wrong += [(year, month, each) for each in range(29, 32) if not is_date(year, month, each)]
        return *self.random.choice(wrong), *time

    def pair(self):
        """Two stamps, near each other or alike up to some place."""
        one = self.random.choice((self.date, self.stamp))()
        kind = self.random.random()
        if kind < 0.3 and is_date(*one[:3]) and one[0] <= LAST_YEAR and one[3] < 24 and one[4] < 60:
            other = self.near(one)
        elif kind < 0.8:
            place = self.random.randint(0, 5)
            other = one[:place] + self.stamp()[place:]
        else:
            other = self.stamp()
        return self.random.choice(((one, other), (other, one)))

    def window(self):
        """Start, end and note: dates near each other, and in a third of the windows some that are no dates."""
        start = self.date()
        end = self.near(start) if self.random.random() < 0.7 else self.date()
        if self.random.random() < 0.8:
            start, end = sorted((start, end))
        note = self.near(self.random.choice((start, end))) if self.random.random() < 0.9 else self.date()
        if self.random.random() < 0.1:
            note = self.undated()
        window = [start, end, note]
        if self.random.random() < 0.35:
            for place in self.random.sample(range(3), self.random.choice((1, 1, 1, 2, 3))):
                window[place] = self.random.choice((self.undated, self.no_date, self.stamp, self.stamp))()
        return tuple(window)

    def row_of_windows(self, length):
        """The dates, in their order and no two alike, where windows meet; and notes on, before and after each."""
        start = self.date()
        dates = {start}
        for _ in range(length):
            start = self.near(start) if self.random.random() < 0.7 else self.date()
            dates.add(start)
        notes = {self.near(each) for each in dates} | dates | {self.date()}
        return sorted(dates), sorted(notes)
