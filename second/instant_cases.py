"""The cases of instants: the letter of the call and what is handed in, in a fixed
order and none twice. cases.py says which numbers belong to which letter."""

import examples
import instants
from chance import Chance
from common import *
from instants import FIRST_INSTANT, LAST_INSTANT, date_of_day_number

CALLS = {"I": instants.instant, "A": instants.add, "D": instants.difference,
         "T": instants.at, "S": instants.restate}

MAX32, MAX64 = 2 ** 32 - 1, 2 ** 64 - 1          # unsigned
LEAST_32, MOST_32 = -2 ** 31, 2 ** 31 - 1        # signed
LEAST_64, MOST_64 = -2 ** 63, 2 ** 63 - 1
END = MICROS_OF_DAY
MINUTE = instants.MICROS_OF_MINUTE
NOON = END // 2
END_OF_YEARS = (LAST_DAY_NUMBER + 1) * END       # as a local reading: R2.2

OFFSETS = (0, 1, -1, 30, -30, 59, -59, 60, -60, 61, -61, 270, -270,
           1_438, -1_438, 1_439, -1_439)
FEW_OFFSETS = (0, 30, -30, 1_439, -1_439)
# Just outside; in range again once cut to 16 bits; the ends of 32.
WRONG_OFFSETS = (1_440, -1_440, 1_441, -1_441, 2_047, -2_048, 32_767, -32_768,
                 65_536, 65_566, -65_506, MOST_32, LEAST_32 + 1, LEAST_32)

INSTANTS = (FIRST_INSTANT, FIRST_INSTANT + 1, -MINUTE, -1, 0, 1,
            END_OF_YEARS - 1, END_OF_YEARS, END_OF_YEARS + 1,
            LAST_INSTANT - 1, LAST_INSTANT)
# Just outside; a whole day too far; in range again without the sign or once
# high bits are lost; the ends of 64 bits.
WRONG_INSTANTS = (FIRST_INSTANT - 1, LAST_INSTANT + 1, -END, END_OF_YEARS + END,
                  -LAST_INSTANT, 2 ** 59 + 1, -2 ** 59, MOST_64 - 1, MOST_64,
                  LEAST_64 + 1, LEAST_64)

DATES = ((1, 1, 1), (1, 12, 31), (4, 2, 29), (100, 2, 28), (400, 2, 29),
         (1900, 2, 28), (2000, 2, 29), (2020, 2, 29), (2021, 2, 28),
         (2020, 4, 30), (9996, 2, 29), (9999, 12, 31))
WRONG_DATES = ((0, 1, 1), (0, 12, 31), (10_000, 1, 1), (65_536 + 2020, 1, 1),
               (MAX32, 1, 1), (2020, 0, 1), (2020, 13, 1), (2020, 257, 1),
               (2020, MAX32, 1), (2020, 1, 0), (2020, 1, 32), (2020, 1, 257),
               (2020, 1, MAX32), (2020, 2, 30), (2021, 2, 29), (2021, 2, 30),
               (2000, 2, 30), (1900, 2, 29), (2100, 2, 29), (100, 2, 29),
               (2020, 4, 31), (2020, 6, 31), (2020, 9, 31), (2020, 11, 31),
               (2020, 12, 32), (0, 0, 0), (MAX32, MAX32, MAX32))
MICROS = (0, 1, MINUTE - 1, MINUTE, NOON, END - MINUTE, END - 1, END)
# 2 ** 40 and 2 ** 64 are 0 once cut; what is near 2 ** 64 is a small negative
# number to who takes it for signed.
WRONG_MICROS = (END + 1, 2 * END, 2 ** 40, 2 ** 63 - 1, 2 ** 63,
                MAX64 - MINUTE, MAX64)


class Cases:
    """Collects the cases in order, without repetition."""

    def __init__(self):
        self.seen = {}                   # keeps the order

    def add(self, letter, *numbers):
        self.seen[(letter,) + numbers] = True

    def add_stamp(self, stamp, to):
        """Its instant, and the stamp restated."""
        self.add("I", *stamp)
        self.add("S", *stamp, to)


def documents_examples(cases):
    for letter, numbers, _ in examples.REQUEST_2:
        cases.add(letter, *numbers)


def numbers_at_limits(cases):
    """Every instant at a limit, right and wrong, with each other, with numbers
    that lead to both sides of the limits, and with offsets right and wrong."""
    every = INSTANTS + WRONG_INSTANTS
    for instant in every:
        added = [0, 1, -1, END, -END, MOST_64 - 1, MOST_64, LEAST_64 + 1, LEAST_64]
        for limit in (FIRST_INSTANT, LAST_INSTANT):
            added += [limit - instant + near for near in (-1, 0, 1)]
        for micros in added:
            if LEAST_64 <= micros <= MOST_64:
                cases.add("A", instant, micros)
        for other in INSTANTS + WRONG_INSTANTS[:2]:
            cases.add("D", instant, other)
            cases.add("D", other, instant)
        for offset in (0, 1, -1, 1_438, -1_438, 1_439, -1_439, 1_440, -1_440,
                       MOST_32, LEAST_32):
            cases.add("T", instant, offset)


def powers(cases):
    """Both sides of what so many bits hold: 32, the 53 of a double, and others."""
    for bits in (31, 32, 33, 36, 37, 47, 48, 52, 53, 54, 57, 58):
        for number in (2 ** bits - 1, 2 ** bits, 2 ** bits + 1, -2 ** bits):
            cases.add("T", number, 0)
            cases.add("T", number, -270)
            cases.add("A", 1, number)
            cases.add("A", LAST_INSTANT - 2, number)
            cases.add("D", number, -3)
            cases.add("D", LAST_INSTANT, number)


def every_offset(cases):
    """At both ends of the years: the instant of the end itself; the end or a
    neighbour restated at every offset, mostly from the one beside it."""
    first = ((0, 0), (0, 1), (0, -1), (MINUTE - 1, 1), (MINUTE, 1), (1, 0))
    last = ((END, 0), (END, 1), (END, -1), (END - 1, 0), (END - MINUTE, -1),
            (END - MINUTE - 1, -1))
    for offset in range(-LAST_OFFSET, LAST_OFFSET + 1):
        cases.add("I", 1, 1, 1, 0, offset)
        cases.add("I", 9999, 12, 31, END, offset)
        micros, ahead = first[offset % 6]
        cases.add("S", 1, 1, 1, micros, offset + ahead, offset)
        micros, ahead = last[offset // 6 % 6]
        cases.add("S", 9999, 12, 31, micros, offset + ahead, offset)
    # The instants of the first and last local readings, from both sides.
    for offset in range(-LAST_OFFSET, LAST_OFFSET + 1, 14):
        for local in (-1, 0, END_OF_YEARS - 1, END_OF_YEARS):
            cases.add("T", local - offset * MINUTE, offset)


def dates(cases):
    """Each date in and out of range; a wrong one also where the result would
    be out of range as well."""
    for date in DATES + WRONG_DATES:
        for micros, offset, to in ((0, 0, 30), (END, -30, -1_439), (NOON, 270, 0)):
            cases.add_stamp(date + (micros, offset), to)


def times(cases):
    for micros in MICROS + WRONG_MICROS:
        for date in ((1, 1, 1), (1969, 12, 31), (2020, 2, 29), (9999, 12, 31)):
            for offset in (0, 30, -30):
                cases.add_stamp(date + (micros, offset), 0)


def offsets(cases):
    """Each offset, right and wrong, in each place that takes one; also where
    the local reading would be in range with a wrong one."""
    moments = ((1, 1, 1, 0), (1, 1, 2, NOON), (2020, 1, 1, 0), (9999, 12, 31, END))
    for offset in OFFSETS + WRONG_OFFSETS:
        for moment in moments:
            cases.add("I", *moment, offset)
            for other in (0, -30):
                cases.add("S", *moment, offset, other)
                cases.add("S", *moment, other, offset)
            cases.add("S", *moment, offset, offset)
        for instant in (FIRST_INSTANT - 1, -1, 0, END, examples.OF_2020,
                        END_OF_YEARS - 1, END_OF_YEARS, LAST_INSTANT + 1):
            cases.add("T", instant, offset)


def faults_together(cases):
    """Two faults at once, every pair of parts, where the result would be right,
    and where it would be outside at either end: 2 before 9."""
    wrong = ((0, 10_000), (0, 13), (0, 32), (END + 1,), (1_440, -1_440),
             (1_440, -1_440))
    for stamp in ((2020, 2, 29, NOON, 30, -30), (1, 1, 1, 0, 0, -1),
                  (9999, 12, 31, END, 0, 0)):
        for letter, parts in (("I", 5), ("S", 6)):
            for first in range(parts):
                for second in range(first, parts):
                    for one in wrong[first]:
                        for other in wrong[second]:
                            numbers = list(stamp[:parts])
                            numbers[first], numbers[second] = one, other
                            cases.add(letter, *numbers)
    for instant in (FIRST_INSTANT - 1, LAST_INSTANT + 1, LEAST_64, MOST_64):
        for offset in WRONG_OFFSETS:
            cases.add("T", instant, offset)


def month_ends():
    """(year, month, last day) of months of common, leap and limiting years."""
    for year in (1, 4, 1900, 1969, 2000, 2019, 2020, 9999):
        for month in range(1, 13) if year in (2019, 2020) else (2, 6, 12):
            yield year, month, days_in_month(year, month)


def ends_of_days(cases):
    """24:00 of the last days of months, and of the days before these, restated
    at the own offset, which is the next day's start, and at others."""
    for year, month, last in month_ends():
        for day in (last, last - 1):
            for offset in (0, -30, 1_439) if month in (2, 12) else (0,):
                cases.add_stamp((year, month, day, END, offset), offset)
            for offset, to in ((0, 1), (0, -1), (-30, 30), (30, -30)):
                cases.add("S", year, month, day, END, offset, to)


def midnights(cases):
    """Over one midnight and over two, both ways, at the ends of months: the
    last microsecond before it, the one after, and neighbours."""
    for year, month, last in month_ends():
        for micros, offset, to in (
                (END - MINUTE, 0, 1), (END - MINUTE - 1, 0, 1), (END - 1, -30, 0),
                (END - 1, -1_439, 1_439), (2 * MINUTE - 1, -1_439, 1_439),
                (2 * MINUTE, -1_439, 1_439)):
            cases.add("S", year, month, last, micros, offset, to)
        for day, micros, offset, to in (
                (1, 0, 0, -1), (1, MINUTE - 1, 1, 0), (1, MINUTE, 1, 0),
                (1, 0, 1_439, -1_439), (2, 0, 1_439, -1_439),
                (2, END - 2 * MINUTE - 1, 1_439, -1_439)):
            cases.add("S", year, month, day, micros, offset, to)


def instants_of_days(cases):
    """The midnights at which centuries and cycles of years begin, the years of
    other counts, and leap days: the stamps on both sides, and from one to the
    other."""
    for date in ((2, 1, 1), (5, 1, 1), (101, 1, 1), (201, 1, 1), (301, 1, 1),
                 (401, 1, 1), (1601, 1, 1), (1900, 3, 1), (1901, 1, 1),
                 (1970, 1, 1), (2000, 1, 1), (2000, 2, 29), (2000, 3, 1),
                 (2000, 12, 31), (2001, 1, 1), (2020, 1, 1), (2020, 2, 29),
                 (2020, 3, 1), (2020, 12, 31), (2100, 3, 1), (2400, 12, 31),
                 (2401, 1, 1), (9601, 1, 1), (9999, 1, 1), (9999, 12, 31)):
        for offset in FEW_OFFSETS:
            _, midnight = instants.instant(*date, 0, offset)
            cases.add("I", *date, 0, offset)
            cases.add("T", midnight, offset)
            cases.add("T", midnight - 1, offset)
            cases.add("S", *date, 0, offset, offset - 1)


# By chance, over the whole range. Of stamps and instants one in ten is wrong.

def some_offset(chance):
    return chance.pick((chance.pick(OFFSETS), chance.between(-1_439, 1_439)))


def some_stamp(chance):
    stamp = list(date_of_day_number(chance.below(LAST_DAY_NUMBER + 1)))
    stamp.append(chance.pick((chance.pick(MICROS), chance.below(END + 1))))
    stamp.append(some_offset(chance))
    if chance.below(10) == 0:
        part = chance.below(5)
        stamp[part] = chance.pick((
            (0, 10_000, chance.below(2 ** 32)), (0, 13, chance.below(2 ** 32)),
            (0, 31, 32), (END + 1, chance.below(2 ** 64)),
            (1_440, -1_440, chance.between(LEAST_32, MOST_32)))[part])
    return stamp


def some_instant(chance):
    if chance.below(10) == 0:
        return chance.pick((chance.pick(WRONG_INSTANTS),
                            chance.between(LEAST_64, MOST_64)))
    away = chance.below(3 * END)                 # near one of the ends
    return chance.pick((chance.between(FIRST_INSTANT, LAST_INSTANT),
                        FIRST_INSTANT + away, LAST_INSTANT - away))


def some_number(chance):
    """To add: as far as instants are apart, or of any size."""
    span = LAST_INSTANT - FIRST_INSTANT
    return chance.pick((chance.between(-span, span),
                        chance.with_bits(63) * chance.pick((1, -1))))


def by_chance(cases):
    chance = Chance(20_200_229)
    for _ in range(620):
        cases.add("I", *some_stamp(chance))
        cases.add("A", some_instant(chance), some_number(chance))
        cases.add("D", some_instant(chance), some_instant(chance))
        cases.add("T", some_instant(chance), some_offset(chance))
        cases.add("S", *some_stamp(chance), some_offset(chance))


def instant_cases():
    cases = Cases()
    for group in (documents_examples, numbers_at_limits, powers, every_offset, dates,
                  times, offsets, faults_together, ends_of_days, midnights,
                  instants_of_days, by_chance):
        group(cases)
    return list(cases.seen)
