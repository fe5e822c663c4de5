"""The five calls of instants over again, reckoned by Python's datetime, which
knows zones and the years 1 to 9999 but no 24:00. For the self-test."""

import datetime

from common import MICROS_OF_DAY
from examples import micros_of

MICROSECOND = datetime.timedelta(microseconds=1)
START_OF_UTC = datetime.datetime(1, 1, 1, tzinfo=datetime.timezone.utc)
START = datetime.datetime(1, 1, 1)


def zone(offset):
    """ValueError beyond 23:59 either way."""
    return datetime.timezone(datetime.timedelta(minutes=offset))


def moved(local, micros, minutes):
    """(year, month, day, micros) of a local reading so much later, or 9."""
    try:
        local += datetime.timedelta(microseconds=micros, minutes=minutes)
    except OverflowError:
        return 9
    return local.year, local.month, local.day, micros_of(
        local.hour, local.minute, local.second, local.microsecond)


def has_stamp(number):
    """Whether a stamp has this instant. The ends of the offsets tell; datetime
    has no 24:00, but the microsecond before it."""
    return (moved(START, number, 1439) != 9 or moved(START, number, -1439) != 9
            or moved(START, number - 1, -1439) != 9)


def instant_by_datetime(year, month, day, micros, offset):
    """By its difference of two stamps with zones; micros come in afterwards."""
    try:
        midnight = datetime.datetime(year, month, day, tzinfo=zone(offset))
    except (ValueError, OverflowError):
        return 2
    if micros > MICROS_OF_DAY:
        return 2
    return 0, (midnight - START_OF_UTC) // MICROSECOND + micros


def add_by_datetime(instant, micros):
    if not has_stamp(instant):
        return 2
    return (0, instant + micros) if has_stamp(instant + micros) else 9


def difference_by_datetime(a, b):
    return (0, a - b) if has_stamp(a) and has_stamp(b) else 2


def at_by_datetime(instant, offset):
    if not has_stamp(instant) or abs(offset) > 1439:
        return 2
    local = moved(START, instant, offset)
    return local if local == 9 else (0,) + local + (offset,)


def restate_by_datetime(year, month, day, micros, offset, to):
    """Also by its change of zone, which there is where UTC is in its years."""
    if instant_by_datetime(year, month, day, micros, offset) == 2 or abs(to) > 1439:
        return 2
    midnight = datetime.datetime(year, month, day)
    local = moved(midnight, micros, to - offset)
    try:
        stamp = midnight.replace(tzinfo=zone(offset)) + micros * MICROSECOND
        there = stamp.astimezone(zone(to)).replace(tzinfo=None)
        assert moved(there, 0, 0) == local
    except OverflowError:
        pass
    return local if local == 9 else (0,) + local + (to,)


BY_DATETIME = {"I": instant_by_datetime, "A": add_by_datetime,
               "D": difference_by_datetime, "T": at_by_datetime,
               "S": restate_by_datetime}
