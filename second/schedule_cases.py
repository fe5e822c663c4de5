"""The cases of schedules: the letter of the call and what is handed in, in a fixed
order and none twice: F and a file, P and a file and a place.

Here: the documents' examples, several faults at once, each octet of a file
damaged, places, many records, and chance. The cases made by hand for each rule are
in schedule_rules.py, those of the question which correction holds, Q, in
question_cases.py, those of manual over plan, O, in over_cases.py.
"""

import schedule
import schedule_examples
import schedule_rules
from chance import Chance
from common import *
from examples import OF_2020
from instants import LAST_INSTANT
from schedule import MOST_RECORDS
from schedule_files import *

CALLS = {"F": schedule.schedule_read, "P": schedule.schedule_record,
         "Q": schedule.schedule_holds, "O": schedule.schedule_over}


def documents_examples(cases):
    for letter, given, _ in schedule_examples.REQUEST_4:
        cases.seen[(letter,) + given] = True


# Several faults

def with_faults(stamps, faults):
    """The file of the stamps with a fault at each of some places: (place,
    another stamp or none, field and number or none)."""
    for place, stamp, _ in faults:
        if stamp is not None:
            stamps = replaced(stamps, place, stamp)
    file = card(stamps)
    for place, _, field in faults:
        if field is not None:
            file = put(file, in_record(place, field[0]), field[1])
    return file


def faults_together(cases):
    """Two at one record, at one and the next, at the first and the last; and
    beside a header that is refused: header, then each record in turn, there 14
    before 5 to 8 before 15."""
    single = ([(None, field) for field in BAD_FIELDS]
              + [(stamp, None) for stamp in BAD_STAMPS])
    for place in (1, 2, 3):
        for stamp in BAD_STAMPS:
            for field in BAD_FIELDS:
                cases.read(with_faults(SHORT, [(place, stamp, field)]))
        for one in single:
            for other in single:
                cases.read(with_faults(SHORT, [(place, *one), (place + 1, *other)]))
    for one in single:
        for other in single:
            cases.record(with_faults(SHORT, [(1, *one), (4, *other)]), 2)
    # Wrong, and earlier than the one before to who would read it all the same.
    for stamp in (b"2019-01-01T00:00:00-00:00", b"2019-13-01T00:00:00+00:00",
                  b"2019-02-29T00:00:00+00:00", b"2019-01-01t00:00:00+00:00",
                  b"2019-01-01T00:00:00", b"\xFF\x80", b"\x00" * 7):
        for place in (2, 3, 4):
            cases.both(card(replaced(SHORT, place, stamp)), place)
    # 14 for the end of the region, at the last record, behind all before it.
    for stamp in (None,) + BAD_STAMPS:
        for place in (3, 4):
            stamps = SHORT[:3] + (SHORT[3] + b"\x00",)
            if stamp is not None:
                stamps = replaced(stamps, place, stamp + b"\x00" * (place - 3))
            cases.both(move(card(stamps), in_record(4, LENGTH), -1), place)
    for one in single:
        for place in (1, 4):
            file = with_faults(SHORT, [(place, *one)])
            cases.read(file + b"\x00")
            cases.read(file[:-1])
            for where in HEADER_NUMBERS:
                cases.read(move(file, where, 1))
            cases.record(move(file, COUNT, 2 ** 31), 0)


# Damage, places, many records

def damaged(cases):
    """Each octet of a small file in turn, in several ways."""
    for file, ways in ((card(MIXED), (0x01, 0x80, 0xFF)),
                       (card(SHORT[:2]), (0x01, 0x10))):
        for place in range(len(file)):
            octet = file[place]
            for other in [octet ^ way for way in ways] + [(octet + 1) % 256, 0x00]:
                cases.read(put(file, (place, 1), other))
            cases.record(put(file, (place, 1), (octet - 1) % 256), 2)


def places(cases):
    """Each place of some files and those beside them; of refused files too,
    whatever record is refused."""
    for stamps in (SHORT[:1], SHORT[:2], MIXED, MIXED[:1] + SHORT + MIXED[1:]):
        file = card(stamps)
        records = len(stamps)
        for place in [*range(records + 3), 256 + 1, 2 ** 16, 2 ** 16 + 1, 2 ** 31,
                      2 ** 31 + 1, MAX32 - records, MAX32]:
            cases.record(file, place)
            cases.record(file + b"\x00", place)
            cases.record(put(file, in_record(records, CHANNEL), 0), place)
            cases.record(card(stamps + (EARLY,)), place)
            cases.record(card(stamps + (BAD[7][0],)), place)


def many_records(cases):
    """1,000 records and 1,001, in few octets; the last too early; and the longest
    file that there can be."""
    stamps = tuple(stamp_at(OF_2020 + place // 8 * MILLI)
                   for place in range(MOST_RECORDS))
    for place in (MOST_RECORDS, MOST_RECORDS + 1):
        cases.both(card(stamps), place)
    cases.read(card(stamps[:-1] + (stamps[0],)))
    cases.read(card(stamps + stamps[-1:]))
    cases.record(card(tuple(stamp_at(LAST_INSTANT - END - place, -1_439, TEXT, 6)
                            for place in range(MOST_RECORDS, 0, -1))), MOST_RECORDS)


# By chance

def some_stamps(chance, most):
    """Of instants that do not decrease, but for what a form cuts."""
    instant = chance.below(150_000_000_000_000) * MILLI + 2 * END
    stamps = []
    for _ in range(chance.below(most + 1)):
        instant += chance.pick((0, MILLI, SECOND, chance.with_bits(40) * MILLI,
                                chance.with_bits(20)))
        stamps.append(stamp_at(instant, chance.between(-1_439, 1_439) * chance.below(2),
                               chance.below(3), chance.pick((3, 6, chance.below(7)))))
    return stamps


def some_change(chance, file, records):
    """A number or an octet moved or replaced, the file cut or lengthened, or the
    border between two stamps moved, which then are others."""
    place = chance.between(1, max(records, 1))
    where = chance.pick(HEADER_NUMBERS + tuple(
        in_record(place, field) for field in (START, LENGTH, CHANNEL, CORRECTION)))
    way = chance.below(6)
    if way == 0:
        return move(file, where, chance.pick((1, -1, 12, 2 ** 31)))
    if way == 1:
        return put(file, where, chance.with_bits(32))
    if way == 2:
        return put(file, (chance.below(len(file)), 1), chance.below(256))
    if way == 3:
        return move(file, (chance.below(len(file)), 1), chance.pick((1, -1, 16)))
    if way == 4:
        return file[:chance.between(16, len(file))] + chance.octets(chance.below(3))
    by = chance.pick((1, -1, 2))
    file = move(file, in_record(place, LENGTH), by)
    if place >= records:
        return file
    return move(move(file, in_record(place + 1, START), by),
                in_record(place + 1, LENGTH), -by)


def some_file(chance, most=5):
    """Right as often as not."""
    stamps = some_stamps(chance, most)
    if chance.below(8) == 0:
        stamps.reverse()
    if stamps and chance.below(8) == 0:
        stamps[chance.below(len(stamps))] = chance.pick(BAD[chance.between(5, 8)])
    file = card(stamps)
    for _ in range(chance.pick((0, 0, 1, 1, 2))):
        file = some_change(chance, file, len(stamps))
    return file


def by_chance(cases):
    chance = Chance(1_000_000)
    for _ in range(210):
        cases.both(some_file(chance), chance.below(7))


def schedule_cases():
    cases = Cases()
    for group in ((documents_examples,) + schedule_rules.GROUPS
                  + (faults_together, damaged, places, many_records, by_chance)):
        group(cases)
    return list(cases.seen)
