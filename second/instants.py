"""UTC instants (02, request 2): from a stamp to its instant and back, sums and
differences of instants; or refusal 2, 9.

An instant is a number of microseconds from 0001-01-01T00:00 UTC, below 0 before
it. A stamp is a DatetimeTz: year, month, day, micros, offset. Each call answers
a refusal number or a tuple, 0 and the result. All that is handed in is tested
(2) before the result is (9) (R2.3). Nothing of writing and reading is used here.
"""

from common import *

MICROS_OF_MINUTE = 60_000_000
# An instant that no stamp has is out of range; every number between these two
# is the instant of a stamp (R2.1).
FIRST_INSTANT = -86_340_000_000          # 0001-01-01T00:00+23:59
LAST_INSTANT = 315_537_983_940_000_000   # 9999-12-31T24:00-23:59


def instant(year, month, day, micros, offset):
    """(0, instant) or 2: "local reading less offset". "24:00 counts as the next
    day's start", which it does where days are added up in microseconds."""
    if not is_stamp(year, month, day, micros, offset):
        return 2
    local = day_number(year, month, day) * MICROS_OF_DAY + micros
    return 0, local - offset * MICROS_OF_MINUTE


def add(instant, micros):
    """(0, sum), 2 or 9. Any number may be added (R2.3). The sum may be the last
    instant, which only a stamp with 24:00 has (R2.4)."""
    if not is_instant(instant):
        return 2
    later = instant + micros
    if not is_instant(later):
        return 9
    return 0, later


def difference(a, b):
    """(0, a less b) or 2 (R2.5). Any difference may be the result (R2.3)."""
    if not is_instant(a) or not is_instant(b):
        return 2
    return 0, a - b


def at(instant, offset):
    """(0, year, month, day, micros, offset), 2 or 9: the stamp of an instant at
    an offset. The micros are what whole days leave over, so never 24:00."""
    if not is_instant(instant) or not is_offset(offset):
        return 2
    local = instant + offset * MICROS_OF_MINUTE
    days = local // MICROS_OF_DAY        # the floor: local may be below 0
    if not 0 <= days <= LAST_DAY_NUMBER:
        return 9
    micros = local - days * MICROS_OF_DAY
    return (0,) + date_of_day_number(days) + (micros, offset)


def restate(year, month, day, micros, offset, to):
    """(0, year, month, day, micros, to), 2 or 9: the stamp at another offset.

    Its own way, without the instant: the local reading moves by what `to` is
    ahead of `offset`, from day to day over each midnight. 24:00 lies beyond
    one, so "the result never uses 24:00", at the own offset too (R2.2)."""
    if not is_stamp(year, month, day, micros, offset) or not is_offset(to):
        return 2
    micros += (to - offset) * MICROS_OF_MINUTE
    while micros >= MICROS_OF_DAY:
        year, month, day = day_after(year, month, day)
        micros -= MICROS_OF_DAY
    while micros < 0:
        year, month, day = day_before(year, month, day)
        micros += MICROS_OF_DAY
    if not 1 <= year <= LAST_YEAR:
        return 9
    return 0, year, month, day, micros, to


# What may be handed in.

def is_offset(offset):
    """01 Values."""
    return -LAST_OFFSET <= offset <= LAST_OFFSET


def is_stamp(year, month, day, micros, offset):
    """01 Values: all parts of a DatetimeTz; 24:00 may have any offset."""
    return (is_date(year, month, day) and 0 <= micros <= MICROS_OF_DAY
            and is_offset(offset))


def is_instant(number):
    return FIRST_INSTANT <= number <= LAST_INSTANT


# Calendar for instants: day numbers by spans of years, both ways, and the days
# beside a day.

# Years, their days, and how often they come whole within the span before (400
# years: within all years). The fourth century and the fourth year are not
# whole in this sense: they may have a day more.
SPANS = ((400, 146_097, 24), (100, 36_524, 3), (4, 1_461, 24), (1, 365, 3))


def day_number(year, month, day):
    """Days since 0001-01-01 (01 Values)."""
    number = day - 1
    for earlier_month in range(1, month):
        number += days_in_month(year, earlier_month)
    years = year - 1
    for span, days, _ in SPANS:
        number += years // span * days
        years %= span
    return number


def date_of_day_number(number):
    """(year, month, day) of a day number 0 to 3,652,058."""
    year = month = 1
    for span, days, most in SPANS:
        times = min(number // days, most)
        year += times * span
        number -= times * days
    while number >= days_in_month(year, month):
        number -= days_in_month(year, month)
        month += 1
    return year, month, number + 1


def day_after(year, month, day):
    """The day after 9999-12-31 is in the year 10000."""
    if day < days_in_month(year, month):
        return year, month, day + 1
    if month < 12:
        return year, month + 1, 1
    return year + 1, 1, 1


def day_before(year, month, day):
    """The day before 0001-01-01 is in the year 0."""
    if day > 1:
        return year, month, day - 1
    if month > 1:
        return year, month - 1, days_in_month(year, month - 1)
    return year - 1, 12, 31
