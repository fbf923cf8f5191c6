"""The rules of dates by Python's own calendar: its modules datetime and calendar.

A stamp is (year, month, day, hour, minutes). datetime ends with the year 9,999. Of later years the days of a month are
calendar.monthrange's, and a moment is counted from that of the same day some whole 400 years before, a period in which
the Gregorian calendar has 146,097 days and repeats.
"""

import calendar
from datetime import MAXYEAR, date, datetime

PERIOD_YEARS = 400
PERIOD_DAYS = date(PERIOD_YEARS + 1, 1, 1).toordinal() - date(1, 1, 1).toordinal()


def is_date(year, month, day):
    if year > MAXYEAR:
        return 1 <= month <= 12 and 1 <= day <= calendar.monthrange(year, month)[1]
    try:
        date(year, month, day)
    except (ValueError, OverflowError):
        return False
    return True


def is_undated(stamp):
    return stamp[1] == 0 == stamp[2]


def date_fault(stamp):
    """34 or 46 of a window's start or end, 0 for none."""
    year, month, day, hour, minutes = stamp
    if year > 65_535 or month > 12 or day > 31 or hour > 23 or minutes > 59:
        return 34
    return 0 if is_date(year, month, day) else 46


def note_fault(stamp):
    """The same of a note, which may be undated."""
    fault = date_fault(stamp)
    return 0 if fault == 46 and is_undated(stamp) else fault


def minutes_counted(stamp):
    """Minutes from the start of year 1 to a date."""
    year, month, day, hour, minutes = stamp
    periods = (year - 1) // PERIOD_YEARS
    days = periods * PERIOD_DAYS + date(year - periods * PERIOD_YEARS, month, day).toordinal()
    return (days * 24 + hour) * 60 + minutes


def moments(*dates):
    """What Python compares: datetime's own where it has all of the dates, else the minutes counted."""
    if all(stamp[0] <= MAXYEAR for stamp in dates):
        return [datetime(*stamp) for stamp in dates]
    return [minutes_counted(stamp) for stamp in dates]


def falls_in(start, end, note):
    """The refusal, 0 for none, and whether the note falls in the window."""
    fault = date_fault(start) or date_fault(end) or note_fault(note)
    if fault or is_undated(note):
        return fault, 0
    first, stop, at = moments(start, end, note)
    return 0, int(first <= at < stop)
