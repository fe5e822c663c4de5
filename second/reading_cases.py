"""The reading cases: (kind, octets), in a fixed order and none twice.

Here: the documents' examples, images of values and what becomes of them when
they are damaged, cut and lengthened, all lengths, short inputs, and chance;
last what request 1 of 02 brought. The cases made by hand for each rule are in
reading_rules.py.
"""

import examples
import reading_rules
from chance import Chance
from common import *
from reading import date_of_day_number
from reading_rules import EITHER, NINE, Cases
from writing import write

END = MICROS_OF_DAY

DAYS_FROM_2020 = (-737_424, -737_423, -32_769, -32_768, -129, -128, -1, 0, 1, 127,
                  128, 32_767, 32_768, -7_246, 1_520, 2_914_633, 2_914_634)
MICROS = (0, 1, 999, 1_000, 127_999, 128_000, 32_767_000, 32_768_000,
          8_388_607_999, 8_388_608_000, 45_296_789_012, END - 1_000, END - 1, END)
T = (FIRST_T, FIRST_T + 1, -2 ** 39 - 1, -2 ** 39, -2 ** 31 - 1, -2 ** 31, -129,
     -128, -1, 0, 1, 127, 128, 32_767, 32_768, 2 ** 23 - 1, 2 ** 23, 2 ** 31 - 1,
     2 ** 31, 2 ** 39 - 1, 2 ** 39, LAST_T_WITHOUT_OFFSET,
     LAST_T_WITHOUT_OFFSET + 1, LAST_T_WITH_OFFSET)
OFFSETS = (0, 1, -1, 30, -30, 59, -60, 270, -270, 1_439, -1_439)
OLD, NEW = (1, 0, 3), (1, 35_500, 6)


def values(chance):
    """(kind, year, month, day, micros, offset): boundaries, then chance."""
    for days in DAYS_FROM_2020:
        date = date_of_day_number(days + DAY_NUMBER_OF_2020)
        yield (DATE,) + date + (0, 0)
        yield (DATE_TZ,) + date + (0, chance.pick(OFFSETS))
    for micros in MICROS:
        yield TIME, 0, 0, 0, micros, 0
        yield TIME_TZ, 0, 0, 0, micros, chance.pick(OFFSETS)
        yield DATETIME, 2019, 12, 31, micros, 0
        yield DATETIME_TZ, 2020, 2, 29, micros, chance.pick(OFFSETS)
    for t in T:
        days, millis = divmod(t, MILLIS_OF_DAY)
        date = date_of_day_number(days + DAY_NUMBER_OF_2020)
        yield (DATETIME,) + date + (millis * 1000, 0)
        yield (DATETIME_TZ,) + date + (millis * 1000, chance.pick((0, 1, -270)))
    for offset in OFFSETS:
        kind = chance.pick(KINDS_WITH_OFFSET)
        yield kind, 1999, 12, 31, 3_723_000_005, offset
    for turn in range(60):
        days = chance.pick((
            chance.below(LAST_DAY_NUMBER + 1),
            DAY_NUMBER_OF_2020 + chance.with_bits(19) * chance.pick((1, -1))))
        micros = chance.pick((chance.below(END + 1), chance.with_bits(36)))
        offset = chance.pick((0, chance.between(-1_439, 1_439)))
        yield (turn % 6,) + date_of_day_number(days) + (micros, offset)


def images(chance):
    """(kind, image) of the values above in every form that their kind has,
    but only some of the long texts."""
    seen = {}
    for value in values(chance):
        text = (0, 0, chance.below(7))
        for setting in chance.pick(((text, OLD, NEW), (OLD, NEW))):
            number, image = write(*value, *setting)
            if number == 0:
                seen[value[0], image] = True
    return list(seen)


def documents_examples(cases):
    """All examples for all nine readers: also what they are not meant for."""
    for _, octets, _ in examples.READING:
        cases.add(NINE, octets)
    for call in [c for _, c in examples.BENCH] + [c for c, _ in examples.WRITING]:
        number, image = write(*call)
        if number == 0:
            cases.add(NINE, image)


def whole_images(cases, made):
    """By the own, the either-or and the other kinds' readers."""
    for kind, image in made:
        cases.add(NINE, image)


def changes(octet, place):
    """What an octet is changed to; 80 to 9F choose the form at place 0."""
    signs = [(octet - 1) % 256, (octet + 1) % 256, 0x00, 0xFF, octet ^ 0x80,
             ord("0"), ord("9"), ord("/"), ord(":"), ord("."), ord("T"), ord("+"),
             ord("-")]
    if place == 0:
        signs += [0x80, 0x8F, 0x90, 0x9F, 0x7F]
    return signs


def damaged_once(cases, chance, made):
    """Each image at each place, changed to one of the changes; cut at the end
    and in front; lengthened by something in front, inside or at the end."""
    for kind, image in made:
        reader = chance.pick((kind, kind, EITHER[kind]))
        for place in range(len(image)):
            octet = chance.pick(changes(image[place], place))
            cases.add((reader,),
                      image[:place] + bytes([octet]) + image[place + 1:])
        cases.add((kind,), image[:-1])
        cases.add((kind,), image[1:])
        cases.add((reader,), image[:chance.below(len(image))])
        cases.add((reader,), image + bytes([chance.pick((0, 0x30, 0xFF))]))
        cases.add((kind,), bytes([chance.pick((0, 0x30, 0xFF))]) + image)
        place = chance.below(len(image))
        cases.add((kind,), image[:place] + image[place:place + 1] + image[place:])


def damaged_in_all_ways(cases, chance):
    """One image of each kind and length of form, each place, all changes."""
    chosen = (
        (DATE, b"2024-02-29"), (DATE_TZ, b"1969-12-31-10:30"),
        (TIME, b"23:59:59"), (TIME, b"12:30:09.120456"),
        (TIME_TZ, b"24:00:00.00-00:01"), (TIME_TZ, b"00:00:00+23:59"),
        (DATETIME, b"2020-10-31T20:00:00.5"),
        (DATETIME_TZ, b"0001-01-01T19:59:10.999-00:30"),
        (DATETIME_TZ, b"9999-12-31T24:00:00+00:00"),
        (DATE, b"\x7F"), (DATE, b"\xFF\x7F"), (DATE, b"\x2C\x79\x4A"),
        (DATE_TZ, b"\x00\x00\xFF\xFF"), (DATE_TZ, b"\x05\x9F\xF4\xBF\x70"),
        (TIME, b"\x00\x80"), (TIME, b"\x05\x26\x5C\x00"),
        (TIME_TZ, b"\x01\x00\x00"), (TIME_TZ, b"\xFF\xFF\x00\x00\x00"),
        (TIME_TZ, b"\xFA\x61\x05\x26\x5C\x00"),
        (DATETIME, b"\xC6\x0D\x9D\x5D\x10\x00"), (DATETIME, b"\x00\x80\x00\x00"),
        (DATETIME_TZ, b"\x7F\xFF\xFF\xFF\xFF\xFF"),
        (DATETIME_TZ, b"\x00\x01\x00\x00\x00\x00\x00"),
        (DATETIME_TZ, b"\xFE\xF2\xFF\x7F\xFF\xFF\xFF\xFF"),
        (DATETIME_TZ, b"\x05\x9F\x00\xE5\x08\xD0\xB0\x2B\xFF"),
        (TIME, b"\x80\x00\x14\x1D\xD7\x60\x00"),
        (TIME_TZ, b"\x9A\x61\x14\x1D\xD7\x5F\xFF"),
        (DATETIME, b"\x80\x00\x37\xB9\xDA\x14\x1D\xD7\x60\x00"),
        (DATETIME_TZ, b"\x95\x9F\x00\x00\x00\x00\x00\x00\x00\x00"),
    )
    for kind, image in chosen:
        cases.add(NINE, image)
        for place in range(len(image)):
            for octet in changes(image[place], place):
                changed = image[:place] + bytes([octet]) + image[place + 1:]
                if len(image) > 10:
                    cases.add((chance.pick((kind, kind, EITHER[kind])),), changed)
                else:
                    cases.add_own(kind, changed)


def all_lengths(cases):
    """Every length 0 to 40 with several fillings, for all nine readers."""
    long_text = b"2020-02-29T12:34:56.789012+04:30+04:30+04:30"
    time_text = b"12:34:56.789012+04:30+04:30+04:30+04:30+04:30"
    fillings = (b"\x00" * 40, b"\xFF" * 40, b"\x80" + b"\x00" * 39, b"\x90" * 40,
                b"0" * 40, long_text, time_text)
    for length in range(41):
        for filling in fillings:
            cases.add(NINE, filling[:length])


def short_inputs(cases, chance):
    """All of one octet; of 2 to 9 octets those that start at the limits."""
    for octet in range(256):
        cases.add(NINE, bytes([octet]))
    edge = (0x00, 0x01, 0x7F, 0x80, 0x81, 0xFE, 0xFF)
    compact_readers = (DATE, TIME, TIME_TZ, DATETIME, DATETIME_TZ)
    for first in edge:
        for second in edge:
            cases.add(compact_readers, bytes([first, second]))
            for third in (0x00, 0x7F, 0x80, 0xFF):
                cases.add((DATE, TIME_TZ), bytes([first, second, third]))
    for turn in range(2_000):
        count = chance.pick((2, 2, 3, 3, 4, 5, 6, 7, 8, 9))
        octets = bytearray(chance.octets(count))
        if chance.below(2) == 0:
            octets[0] = chance.pick(edge)
        if count in (4, 5, 6, 7, 8, 9) and chance.below(2) == 0:
            octets[0] = chance.pick((0x00, 0x05, 0xFA, 0xFF))
            octets[2] = chance.pick((0x00, 0x00, 0x05, 0x2C, 0xFF, 0xFF))
        cases.add((turn % 9,), octets)


def by_chance(cases, chance):
    """Texts of digits that may be out of range, and octets, by chance."""
    for turn in range(1_200):
        kind = turn % 6
        fields = reading_rules.Fields(0)
        fields.date = "%04d-%02d-%02d" % (chance.below(10_000), chance.below(14),
                                          chance.below(33))
        fields.time = "%02d:%02d:%02d" % (chance.below(26), chance.below(62),
                                          chance.below(62))
        digits = chance.below(7)
        if digits > 0:
            number = chance.pick((0, chance.below(10 ** digits)))
            fields.fraction = "." + str(number).zfill(digits)
        if chance.below(8) == 0:
            fields.time = "24:00:00"
        fields.offset = "%s%02d:%02d" % (chance.pick("+-"), chance.below(25),
                                         chance.below(61))
        if chance.below(6) == 0:
            fields.offset = chance.pick("+-") + "00:00"
        text = bytearray(fields.text(kind))
        if chance.below(5) == 0:
            text[chance.below(len(text))] = chance.pick(b"0:-+.T x")
        cases.add((chance.pick((kind, EITHER[kind])),), text)
    for turn in range(600):
        octets = bytearray(chance.octets(chance.pick((7, 10, 10, 14, 16, 25))))
        octets[0] = chance.pick((0x80, 0x90, 0x95, 0x9A, 0x9F))
        if chance.below(3) > 0:
            octets[-5] = chance.below(0x16)
            octets[1] = chance.pick((0, octets[1]))
            octets[2] = chance.below(0x39)
        cases.add((2 + turn % 4, 7 + turn % 2), octets)


def request_1(cases):
    """02, request 1: its examples, and the cases made for its rule."""
    for kind, octets, _ in examples.REQUEST_1:
        cases.add((kind,), octets)
    reading_rules.choice_by_sign(cases)


def reading_cases():
    cases = Cases()
    chance = Chance(3_652_058)
    documents_examples(cases)
    for group in reading_rules.GROUPS:
        group(cases)
    made = images(chance)
    whole_images(cases, made)
    damaged_once(cases, chance, made)
    damaged_in_all_ways(cases, chance)
    all_lengths(cases)
    short_inputs(cases, chance)
    by_chance(cases, chance)
    # Behind all others, so that these stay line for line as they were.
    request_1(cases)
    return list(cases.seen)
