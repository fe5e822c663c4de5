"""The writing cases: (kind, year, month, day, micros, offset, binary, version,
digits, room), in a fixed order and none twice."""

import examples
from chance import Chance
from common import *
from reading import date_of_day_number
from writing import write

MAX32, MAX64 = 2 ** 32 - 1, 2 ** 64 - 1
END = MICROS_OF_DAY

# Settings (binary, version, digits). Those of one form stand together, but
# 24:00 turns the new ones with other digits than 6 into extended.
TEXT_SETTINGS = tuple((0, 0, digits) for digits in range(7)) + (
    (0, 35_500, 6), (0, MAX32, 3))
COMPACT_SETTINGS = ((1, 0, 3), (1, 0, 6), (1, 35_499, 6), (1, 35_499, 0),
                    (1, 35_500, 5), (1, 35_500, 0), (1, MAX32, 3))
EXTENDED_SETTINGS = ((1, 35_500, 6), (1, MAX32, 6))
SETTINGS = TEXT_SETTINGS + COMPACT_SETTINGS + EXTENDED_SETTINGS
THREE_FORMS = ((0, 0, 3), (1, 0, 3), (1, 35_500, 6))

YEARS = (1, 2, 4, 100, 400, 1900, 2000, 2019, 2020, 2100, 2400, 9999)
MICROS = (0, 1, 5, 999, 1_000, 1_001, 999_999, 1_000_000, 59_999_999,
          60_000_000, 3_599_999_999, 3_600_000_000, 45_296_789_012,
          86_399_999_000, END - 1, END, END + 1, MAX64)
OFFSETS = (0, 1, -1, 30, -30, 59, -59, 60, -60, 270, -270, 1_439, -1_439)
WRONG_OFFSETS = (1_440, -1_440, 2_047, -2_048, 32_767, -32_768, 65_535,
                 2 ** 31 - 1, -2 ** 31)

GOOD = {DATE: (2024, 2, 29, 0, 0), DATE_TZ: (1969, 7, 20, 0, -30),
        TIME: (0, 0, 0, 45_296_789_012, 0), TIME_TZ: (0, 0, 0, 3_723_000_005, 270),
        DATETIME: (2020, 5, 8, 86_399_999_999, 0),
        DATETIME_TZ: (1, 1, 1, 0, 1_439)}


class Cases:
    """Collects the cases in order, without repetition."""

    def __init__(self):
        self.seen = {}                   # keeps the order
        self.chance = Chance(1)

    def add(self, kind, value, setting, room=None):
        """value is (year, month, day, micros, offset). Where no room is given,
        the image mostly fits, exactly or with an octet or two over; now and
        then the buffer is one too short. A refusal has any room."""
        call = (kind,) + tuple(value) + tuple(setting)
        if room is None:
            number, image = write(*call)
            if number == 0:
                room = len(image) + self.chance.pick((-1, 0, 0, 0, 1, 2))
            else:
                room = self.chance.pick((0, 1, 9, 33))
        self.seen[call + (room,)] = True

    def add_forms(self, kind, value):
        for setting in THREE_FORMS:
            self.add(kind, value, setting)


def moment(t, extra_micros=0):
    """(year, month, day, micros) of T milliseconds from 2020-01-01."""
    days, millis = divmod(t, MILLIS_OF_DAY)
    return date_of_day_number(days + DAY_NUMBER_OF_2020) + (
        millis * 1000 + extra_micros,)


def documents_examples(cases):
    """Each with an exact, an empty, a too short, a longer and a long buffer."""
    calls = [call for _, call in examples.BENCH]
    calls += [call for call, _ in examples.WRITING]
    for call in calls:
        number, image = write(*call)
        for room in (len(image), 0, max(len(image) - 1, 0), len(image) + 5, 48):
            cases.add(call[0], call[1:6], call[6:], room)


def dates(cases):
    """Each month's last day and the day after; parts out of their range."""
    for kind in KINDS_WITH_DATE:
        for year in YEARS:
            for month in range(1, 13):
                last = days_in_month(year, month)
                for day in (last, last + 1):
                    value = (year, month, day, 1_500, 90)
                    # All forms for February, one of them for the others.
                    if month == 2:
                        cases.add_forms(kind, value)
                    else:
                        cases.add(kind, value, cases.chance.pick(THREE_FORMS))
        for value in ((0, 1, 1), (0, 12, 31), (1, 1, 1), (9999, 12, 31),
                      (10_000, 1, 1), (MAX32, 1, 1), (2020, 0, 1), (2020, 13, 1),
                      (2020, MAX32, 1), (2020, 1, 0), (2020, 1, MAX32),
                      (2020, 2, 0), (65_536 + 2020, 1, 1), (2020, 257, 1),
                      (2020, 1, 257), (0, 0, 0), (MAX32, MAX32, MAX32)):
            cases.add_forms(kind, value + (0, 1))


def day_counts(cases):
    """Days from 2020 around each octet count and at the ends."""
    for days in (-737_424, -737_423, -32_770, -32_769, -32_768, -32_767, -130,
                 -129, -128, -127, -2, -1, 0, 1, 2, 126, 127, 128, 129, 255, 256,
                 32_766, 32_767, 32_768, 32_769, 65_535, 65_536,
                 2_914_633, 2_914_634):
        date = date_of_day_number(days + DAY_NUMBER_OF_2020)
        cases.add_forms(DATE, date + (0, 0))
        for offset in (0, 1, -270):
            cases.add_forms(DATE_TZ, date + (0, offset))


def times(cases):
    """Microseconds and offsets at their limits under all settings; the
    octet counts of milliseconds, cut from just below, at and above."""
    for micros in MICROS:
        for setting in SETTINGS:
            cases.add(TIME, (0, 0, 0, micros, 0), setting)
            cases.add(DATETIME, (2019, 12, 31, micros, 0), setting)
            offset = cases.chance.pick((0, -270, 1))
            cases.add(TIME_TZ, (0, 0, 0, micros, offset), setting)
            cases.add(DATETIME_TZ, (2019, 12, 31, micros, offset), setting)
    for millis in (127, 128, 255, 256, 32_767, 32_768, 65_535, 65_536, 8_388_607,
                   8_388_608, 16_777_215, 16_777_216, 86_399_999, 86_400_000):
        for micros in (millis * 1000 - 1, millis * 1000, millis * 1000 + 999):
            cases.add_forms(TIME, (0, 0, 0, micros, 0))
            for offset in (0, 1, -1):
                cases.add(TIME_TZ, (0, 0, 0, micros, offset), (1, 0, 3))


def offsets(cases):
    for kind in KINDS_WITH_OFFSET:
        for offset in OFFSETS + WRONG_OFFSETS:
            for setting in ((0, 0, 0), (0, 0, 6), (1, 0, 3), (1, 35_499, 6),
                            (1, 35_500, 3), (1, 35_500, 6)):
                for micros in (0, 1_000, END) if kind != DATE_TZ else (0,):
                    cases.add(kind, (2020, 1, 1, micros, offset), setting)


def settings(cases):
    """Versions and digits at their limits, with and without 24:00."""
    for kind in range(6):
        for version in (0, 1, 35_499, 35_500, 35_501, 2 ** 16, 2 ** 31, MAX32):
            for digits in (0, 1, 2, 3, 4, 5, 6, 7, 8, MAX32):
                for binary in (0, 1):
                    value = GOOD[kind][:3] + (
                        END if digits in (2, 6, 7) else GOOD[kind][3],
                        GOOD[kind][4])
                    # Text and the dates do not ask for the version: a few do.
                    if binary == 1 or version in (0, 35_500):
                        cases.add(kind, value, (binary, version, digits))


def date_times(cases):
    """T around each octet count, before 2020, and at its three limits."""
    limits = [FIRST_T, -1, 0, 1, LAST_T_WITHOUT_OFFSET, LAST_T_WITH_OFFSET,
              -MILLIS_OF_DAY, MILLIS_OF_DAY]
    for bits in (7, 8, 15, 16, 23, 24, 31, 32, 39, 40, 46, 47):
        limits += [2 ** bits, -2 ** bits]
    for limit in limits:
        for t in (limit - 2, limit - 1, limit, limit + 1):
            if not FIRST_T <= t <= LAST_T_WITH_OFFSET:
                continue
            for extra in (0, 999):
                value = moment(t, extra)
                cases.add(DATETIME, value + (0,), (1, 0, 3))
                for offset in (0, 1, -1):
                    cases.add(DATETIME_TZ, value + (offset,), (1, 0, 3))
            cases.add_forms(DATETIME_TZ, moment(t, 1) + (-1_439,))
    # 24:00 of days on both sides of the limits.
    for days in (-737_424, -737_423, -1, 0, 1, 1_628_906, 1_628_907, 1_628_908,
                 2_914_633, 2_914_634):
        date = date_of_day_number(days + DAY_NUMBER_OF_2020)
        for micros in (END, END - 1, END - 1_000, 0):
            for setting in THREE_FORMS + ((1, 35_500, 3),):
                cases.add(DATETIME, date + (micros, 0), setting)
                for offset in (0, 1, -1_439):
                    cases.add(DATETIME_TZ, date + (micros, offset), setting)


def faults_together(cases):
    """1 before 2 before 3 before 4: mixtures of right and wrong, all of them
    for the date-times, some for the rest."""
    dates_and_wrong = ((2020, 1, 1), (0, 1, 1), (2020, 13, 1), (2021, 2, 29),
                       (9999, 12, 31))
    for kind in range(6):
        for date in dates_and_wrong:
            for micros in (0, END, END + 1):
                for offset in (0, 1_440, -1):
                    for digits in (3, 6, 7):
                        for binary, version in ((0, 0), (1, 0), (1, 35_500)):
                            if kind >= DATETIME or cases.chance.below(4) == 0:
                                cases.add(kind, date + (micros, offset),
                                          (binary, version, digits),
                                          cases.chance.pick((0, 0, 8, 40)))
    # T beyond its limit and an offset out of range: 2, not 3.
    for value in (examples.CASE_O, (9999, 12, 31, END), (9000, 1, 1, 0)):
        for offset in WRONG_OFFSETS:
            cases.add(DATETIME_TZ, value + (offset,), (1, 0, 3),
                      cases.chance.pick((0, 8, 40)))


def lacking_parts(cases):
    """Wild numbers in the parts that a kind lacks change nothing."""
    wild = ((MAX32, MAX32, MAX32, MAX64, -2 ** 31),
            (0, 0, 0, END + 1, 1_440), (10_000, 13, 32, MAX64, 2 ** 31 - 1),
            (2021, 2, 29, END, -1_440), (1900, 2, 29, END, 1))
    for kind in range(6):
        good = GOOD[kind]
        for parts in wild:
            date = good[:3] if kind in KINDS_WITH_DATE else parts[:3]
            micros = good[3] if kind in KINDS_WITH_TIME else parts[3]
            offset = good[4] if kind in KINDS_WITH_OFFSET else parts[4]
            for setting in SETTINGS:
                cases.add(kind, date + (micros, offset), setting)


def rooms(cases):
    """Each buffer from none to two over, and the longest, for each form."""
    for kind in range(6):
        for setting in ((0, 0, 0), (0, 0, 6), (1, 0, 3), (1, 35_500, 6)):
            _, image = write(kind, *GOOD[kind], *setting)
            for room in tuple(range(len(image) + 3)) + (47, 48):
                cases.add(kind, GOOD[kind], setting, room)


def by_chance(cases):
    """Values and settings by chance; one in five has a part out of range."""
    chance = Chance(20_200_101)
    for turn in range(2_700):
        kind = turn % 6
        if chance.below(2) == 0:
            days = chance.between(0, LAST_DAY_NUMBER)
        else:                                    # near 2020: few octets
            days = DAY_NUMBER_OF_2020 + (
                chance.with_bits(19) * chance.pick((1, -1)))
        value = list(date_of_day_number(days)) + [
            chance.pick((chance.below(END + 1), chance.with_bits(36), END)),
            chance.pick((0, chance.between(-1_439, 1_439)))]
        if chance.below(5) == 0:
            part = chance.below(5)
            value[part] = chance.pick((
                (0, 10_000, chance.below(2 ** 32)), (0, 13, chance.below(2 ** 32)),
                (0, 31, 32), (END + 1, chance.below(2 ** 64)),
                (1_440, -1_440, chance.between(-2 ** 31, 2 ** 31 - 1)))[part])
        setting = (chance.below(2),
                   chance.pick((0, 35_499, 35_500, chance.below(2 ** 32))),
                   chance.pick((3, 6, chance.below(7), chance.below(8))))
        cases.add(kind, value, setting)


def writing_cases():
    cases = Cases()
    for group in (documents_examples, dates, day_counts, times, offsets, settings,
                  date_times, faults_together, lacking_parts, rooms, by_chance):
        group(cases)
    return list(cases.seen)
