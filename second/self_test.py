"""The self-test: python3 stamp.py --self-test

Checks the calendar against Python's datetime for every day there is, the
examples of the documents, that writing and reading, which share no procedure,
agree, instants against datetime and their laws, and schedules (schedule_test.py)
against a description of the whole file: see the docstrings.
"""

import datetime

import examples
import instants
import reading
import schedule_cases
import schedule_examples
import writing
from chance import Chance
from common import *
from instant_cases import (CALLS, instant_cases, some_instant, some_number,
                           some_offset, some_stamp)
from instants import FIRST_INSTANT, LAST_INSTANT, add, at, difference, restate
from instants_by_datetime import BY_DATETIME
from reading import read
from reading_cases import reading_cases
from reading_rules import EITHER
from schedule_test import test_over, test_questions, test_schedules
from writing import write
from writing_cases import writing_cases


def test_calendar():
    """Both directions and "is there such a day", for all ordinals; the days
    beside each day."""
    number = 0
    before = (0, 12, 31)
    for year in range(1, 10_000):
        for month in range(1, 13):
            for day in range(0, 33):
                try:
                    ordinal = datetime.date(year, month, day).toordinal()
                except ValueError:
                    assert not is_date(year, month, day)
                    continue
                assert is_date(year, month, day)
                assert ordinal - 1 == number
                assert writing.day_number(year, month, day) == number
                date = year, month, day
                assert reading.date_of_day_number(number) == date
                assert instants.day_number(year, month, day) == number
                assert instants.date_of_day_number(number) == date
                assert instants.day_after(*before) == date
                assert instants.day_before(year, month, day) == before
                before = date
                number += 1
    assert number - 1 == LAST_DAY_NUMBER == 3_652_058
    assert writing.day_number(2020, 1, 1) == DAY_NUMBER_OF_2020
    for wrong in ((0, 1, 1), (10_000, 1, 1), (2020, 0, 1), (2020, 13, 1)):
        assert not is_date(*wrong)
    # 01 Values: the 400 year starts of the cycle.
    for i in range(400):
        assert writing.YEAR_START[i + 1] == 365 * i + i // 4 - i // 100


def test_constants():
    """Numbers that 01 states follow from others that it states."""
    assert FIRST_T == -DAY_NUMBER_OF_2020 * MILLIS_OF_DAY
    assert LAST_T_WITHOUT_OFFSET == 2 ** 47 - 1
    assert LAST_T_WITH_OFFSET == (
        (LAST_DAY_NUMBER - DAY_NUMBER_OF_2020 + 1) * MILLIS_OF_DAY - 1)
    assert LAST_DAY_NUMBER - DAY_NUMBER_OF_2020 == 2_914_634
    assert FIRST_INSTANT == -LAST_OFFSET * 60_000_000
    assert LAST_INSTANT == (
        (LAST_DAY_NUMBER + 1) * MICROS_OF_DAY + LAST_OFFSET * 60_000_000)


def test_integers():
    """BER integers around every limit, against Python's own conversion."""
    for bits in range(0, 64):
        for near in range(-3, 4):
            for number in (2 ** bits + near, -(2 ** bits) + near):
                octets = writing.ber_integer(number, 1)
                assert int.from_bytes(octets, "big", signed=True) == number
                assert reading.signed(octets) == number
                assert not reading.first_octet_is_redundant(octets)
                longer = writing.ber_integer(number, len(octets) + 1)
                assert len(longer) == len(octets) + 1
                assert reading.signed(longer) == number
                assert reading.first_octet_is_redundant(longer)


def test_examples():
    """The fifteen bench lines, "Run, not proved", docs/DECISIONS.md, and
    requests 1, 2, 4, 5 and 6 of 02."""
    output = ""
    for letter, call in examples.BENCH:
        number, octets = write(*call)
        output += "%s %d %s\n" % (letter, number, octets.hex().upper() or "-")
    assert output == examples.BENCH_OUTPUT, output
    for call, (number, octets) in examples.WRITING:
        assert write(*call) == (number, bytes.fromhex(octets)), call
    for kind, octets, answer in examples.READING + examples.REQUEST_1:
        assert read(kind, octets) == answer, (kind, octets, read(kind, octets))
    for letter, numbers, answer in examples.REQUEST_2:
        assert CALLS[letter](*numbers) == answer, (letter, numbers)
    for letter, given, answer in (
            schedule_examples.REQUEST_4 + schedule_examples.REQUEST_5
            + schedule_examples.REQUEST_6):
        assert schedule_cases.CALLS[letter](*given) == answer, (letter, given)


def value_kept(kind, form, year, month, day, micros, offset, digits):
    """The value that an image of it stands for, by B6; parts lacking are 0."""
    if kind not in KINDS_WITH_DATE:
        year = month = day = 0
    if kind not in KINDS_WITH_TIME:
        micros = 0
    if kind not in KINDS_WITH_OFFSET:
        offset = 0
    if form == TEXT:
        micros -= micros % 10 ** (6 - digits)
    if form == COMPACT:
        micros -= micros % 1000
        if kind in (DATETIME, DATETIME_TZ) and micros == MICROS_OF_DAY:
            next_day = datetime.date(year, month, day) + datetime.timedelta(1)
            year, month, day = next_day.year, next_day.month, next_day.day
            micros = 0
    if form != TEXT or kind in (DATE, DATE_TZ):
        digits = 0
    return kind, form, digits, year, month, day, micros, offset


PLAIN = {TIME_TZ: TIME, DATETIME_TZ: DATETIME}


def check_written(call):
    """What is written is read back as the value that the form keeps, also by
    the either-or reader. Its one exception is compact with offset zero, which
    it reads as the plain kind (B33); text without a fraction is none (R1.1)."""
    number, octets = write(*call)
    if number != 0:
        return
    kind, year, month, day, micros, offset, binary, version, digits = call
    form = writing.form_to_write(kind, micros, binary, version, digits)
    wanted = value_kept(kind, form, year, month, day, micros, offset, digits)
    assert read(kind, octets) == wanted, (call, octets)
    if kind in PLAIN and form == COMPACT and offset == 0:
        wanted = (PLAIN[kind],) + wanted[1:]
    assert read(EITHER[kind], octets) == wanted, (call, octets)


def check_read(kind, octets):
    """What is read is written again as the same octets (settings by B31)."""
    answer = read(kind, octets)
    if isinstance(answer, int):
        assert 5 <= answer <= 8
        return
    kind, form, digits, year, month, day, micros, offset = answer
    binary, version, digits = ((0, 0, digits), (1, 0, 3), (1, 35_500, 6))[form]
    call = kind, year, month, day, micros, offset, binary, version, digits
    assert write(*call) == (0, octets), (call, octets)


def test_both_ways():
    """Every short octet string, values and octets by chance, all cases."""
    for kind in range(9):
        for first in range(256):
            check_read(kind, bytes([first]))
            for second in range(256):
                check_read(kind, bytes([first, second]))
    chance = Chance(7)
    for _ in range(60_000):
        kind = chance.below(6)
        check_written((
            kind, chance.between(1, 9999), chance.between(1, 12),
            chance.between(1, 31),
            chance.pick((0, MICROS_OF_DAY, chance.with_bits(37))),
            chance.between(-1439, 1439) * chance.below(2), chance.below(2),
            chance.pick((0, 35_499, 35_500)), chance.below(7)))
        check_read(chance.below(9), chance.octets(chance.between(1, 10)))
    for case in writing_cases():
        check_written(case[:9])
    for case in reading_cases():
        check_read(*case)


def check_call(letter, *numbers):
    answer = CALLS[letter](*numbers)
    assert answer == BY_DATETIME[letter](*numbers), (letter, numbers, answer)


def check_stamp(stamp, to):
    """Its instant gives the stamp back, but for 24:00; restating goes where
    the instant does and keeps it."""
    answer = instants.instant(*stamp)
    if answer == 2:
        assert restate(*stamp, to) == 2
        return
    _, instant = answer
    own = at(instant, stamp[4])
    if stamp[3] < MICROS_OF_DAY:
        assert own == (0, *stamp), stamp
    assert restate(*stamp, stamp[4]) == own, stamp
    restated = restate(*stamp, to)
    assert restated == at(instant, to), (stamp, to)
    if isinstance(restated, tuple):
        assert instants.instant(*restated[1:]) == (0, instant), (stamp, to)
        assert restated[4] < MICROS_OF_DAY


def check_two(a, b):
    """02, request 2: adding zero, and the difference of a and b. The one added
    to b gives a."""
    answer = difference(a, b)
    if answer == 2:
        assert difference(b, a) == 2
        return
    _, apart = answer
    assert difference(b, a) == (0, -apart), (a, b)
    assert add(b, apart) == (0, a) and add(a, 0) == (0, a), (a, b)


def test_instants():
    """All cases and more by chance against datetime; the laws by chance and at
    the limits of the cases."""
    for case in instant_cases():
        check_call(*case)
        if case[0] == "S":
            check_stamp(case[1:6], case[6])
        if case[0] == "D":
            check_two(*case[1:])
    chance = Chance(11)
    for _ in range(30_000):
        stamp, to = some_stamp(chance), some_offset(chance)
        a, b = some_instant(chance), some_instant(chance)
        check_call("I", *stamp)
        check_call("S", *stamp, to)
        check_call("T", a, to)
        check_call("A", a, some_number(chance))
        check_stamp(stamp, to)
        check_two(a, b)


def run():
    for test in (test_constants, test_integers, test_examples, test_calendar,
                 test_both_ways, test_instants, test_schedules, test_questions,
                 test_over):
        test()
        print("%-16s good" % test.__name__)
