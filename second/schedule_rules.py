"""The cases of schedules made by hand, rule by rule: 13, 14, 5 to 8, 15; each limit,
one below, one above."""

import schedule
from common import *
from examples import OF_2020
from schedule_files import *

CHANNELS = (0, 1, 2, 15, 16, 17, 32, 255, 256, 257, 272, 32_767, 32_768, 32_769,
            MAX16 - 1, MAX16)
CORRECTIONS = (0, 1, -1, 999_999, 1_000_000, 1_000_001, -999_999, -1_000_000,
               -1_000_001, 2 ** 24, -2 ** 24, 2 ** 31 - 1, -2 ** 31 + 1, -2 ** 31)


# 13

def no_records(cases):
    """The file without records, and what may be wrong with it."""
    empty = card(())
    for place in (0, 1, 2, MAX32):
        cases.both(empty, place)
    for more in range(1, 14):
        cases.read(empty + bytes(more))
        cases.read(put(empty, STAMP_OCTETS, more) + bytes(more))
        cases.read(put(empty, STAMP_OCTETS, more))
    # A stamp that would be good, and a record that no count tells of.
    cases.both(put(empty, STAMP_OCTETS, 1) + SHORT[0])
    cases.both(put(card(SHORT[:1]), COUNT, 0))
    cases.both(put(put(card(SHORT[:1]), COUNT, 0), STAMPS_AT, HEADER_OCTETS))


def lengths(cases):
    """Cut anywhere, and lengthened: the header's own octets too."""
    for file in (card(()), card(SHORT[:1]), card(MIXED)):
        for length in range(len(file)):
            cases.read(file[:length])
        for more in (b"\x00", b"\xFF", bytes(12), file):
            cases.both(file + more)
    for length in range(16):
        cases.both(bytes(length), 0)
        cases.read(b"\xFF" * length)
    cases.both(bytes(16))
    cases.both(b"\xFF" * 16)


def header_numbers(cases):
    """Each number of the header by itself, beside the right one, with bits set
    that do not belong there, and other numbers of the file."""
    for stamps in ((), SHORT[:1], SHORT[:3], MIXED):
        file = card(stamps)
        for where in HEADER_NUMBERS:
            right = number_at(file, where)
            for number in (right - 12, right - 1, right + 1, right + 12, 0, 1, 15,
                           16, 17, 28, len(file), len(file) - 16, 1_000, 1_001,
                           right + 2 ** 16, right + 2 ** 24, right + 2 ** 31,
                           2 ** 31, MAX32, -right):
                cases.read(put(file, where, number))
        cases.both(move(file, COUNT, 2 ** 31))


def regions(cases):
    """Gaps and overlaps that the length goes along with; the two regions in the
    other order."""
    for stamps in (SHORT[:1], SHORT[:3]):
        file = card(stamps)
        records_end = HEADER_OCTETS + RECORD_OCTETS * len(stamps)
        head, records, body = file[:16], file[16:records_end], file[records_end:]
        for gap in (1, 2, 12, 16):
            moved = move(move(head, RECORDS_AT, gap), STAMPS_AT, gap)
            cases.both(moved + bytes(gap) + records + body)
            cases.both(move(head, STAMPS_AT, gap) + records + bytes(gap) + body)
            cases.both(file + bytes(gap))                # behind the regions
            cases.both(move(file, STAMP_OCTETS, gap))
        for overlap in (1, 2, 4, 12):
            moved = move(move(head, RECORDS_AT, -overlap), STAMPS_AT, -overlap)
            cases.both(moved[:16 - overlap] + records + body)
            cases.both(move(head, STAMPS_AT, -overlap) + records[:-overlap] + body)
            cases.both(move(move(file, STAMPS_AT, -overlap), STAMP_OCTETS, overlap))
        turned = put(put(head, STAMPS_AT, 16), RECORDS_AT, 16 + len(body))
        cases.both(turned + body + records)


def wrapping(cases):
    """Counts whose sums come out right once 32 bits have wrapped: 2 to the 32 is
    four times 2 to the 30, of which 12 is three times; octets below zero; both;
    and the same at the records' own numbers."""
    for stamps in ((), SHORT[:1], SHORT[:3]):
        file = card(stamps)
        for turn in (1, 2, 3):
            cases.both(move(file, COUNT, turn * 2 ** 30))
    for missing in range(1, 13):
        file = card(SHORT[:1])[:28 - missing]
        cases.read(put(file, STAMP_OCTETS, -missing))
    for records in (2, 3, 1_000, 1_001, 2 ** 30 + 1, 2 ** 31, MAX32 // 12,
                    MAX32 // 12 + 1, MAX32):
        # The stamps start where the records wrap to, and end the file.
        for length in (16, 17, 28, 29):
            file = put(put(card(SHORT[:1])[:length], COUNT, records),
                       STAMPS_AT, 16 + 12 * records)
            cases.read(put(file, STAMP_OCTETS, length - 16 - 12 * records))
    for place in (1, 2, 3):
        file = card(SHORT[:3])
        for length in (2, 256, MAX16):
            cases.both(put(put(file, in_record(place, LENGTH), length),
                           in_record(place, START), place - length))


# 14

def fields(cases):
    """Every number of a record at the first, a middle and the last record, at
    its limits, beyond them, and with bits in its other octets."""
    for stamps in (SHORT[:1], SHORT[:3], MIXED):
        file = card(stamps)
        for place in range(1, len(stamps) + 1):
            for number in CHANNELS:
                cases.both(put(file, in_record(place, CHANNEL), number), place)
            for number in CORRECTIONS:
                cases.both(put(file, in_record(place, CORRECTION), number), place)
            start = in_record(place, START)
            for by in (1, -1, 12, 2 ** 8, 2 ** 16, 2 ** 31):
                cases.read(move(file, start, by))
            for number in (0, 1, 28, len(file), number_at(file, STAMPS_AT), MAX32):
                cases.read(put(file, start, number))
            length = in_record(place, LENGTH)
            for by in (1, -1, 2, 2 ** 8, 2 ** 15):
                cases.read(move(file, length, by))
            for number in (0, 25, 33, len(file), MAX16):
                cases.read(put(file, length, number))


def places_of_stamps(cases):
    """A gap or an overlap of two stamps, octets over behind the last, an end
    past the region, the stamps in another order than the records."""
    for stamps in (SHORT[:1], SHORT[:3], TEXTS):
        last = len(stamps)
        for place in range(1, last + 1):
            # An octet more before a stamp; the starts from there on tell so.
            before, behind = stamps[:place - 1], stamps[place - 1:]
            gap = card(before + (b"\x00" + behind[0],) + behind[1:])
            gap = move(gap, in_record(place, START), 1)
            cases.both(move(gap, in_record(place, LENGTH), -1), place)
            # An octet more behind a stamp that its record does not tell of.
            over = card(replaced(stamps, place, behind[0] + b"\x00"))
            cases.both(move(over, in_record(place, LENGTH), -1), place)
            # The region ends before the stamp does, and with it the file.
            cut = card(replaced(stamps, place, behind[0][:-1]))
            cases.both(move(cut, in_record(place, LENGTH), 1), place)
            # Two records with one stamp.
            if place > 1:
                for field in (START, LENGTH):
                    where = in_record(place, field)
                    other = in_record(place - 1, field)
                    cases.both(put(card(stamps), where,
                                   number_at(card(stamps), other)), place)
        # All start at 0, or where they do in the file.
        for start in (0, number_at(card(stamps), STAMPS_AT)):
            file = card(stamps)
            for place in range(1, last + 1):
                file = put(file, in_record(place, START), start)
            cases.both(file, last)
    turned = card((SHORT[1], SHORT[0]))
    cases.both(put(put(turned, in_record(1, START), 1), in_record(2, START), 0))
    # Between two stamps the border moves: no gap, but other stamps.
    for by in (1, -1, 2, -2, 7, -7):
        file = move(card(MIXED), in_record(1, LENGTH), by)
        file = move(file, in_record(2, START), by)
        cases.both(move(file, in_record(2, LENGTH), -by), 2)


# 5 to 8

def bad_stamps(cases):
    """Each at the first, a middle and the last record, and alone."""
    for refusal in (5, 6, 7, 8):
        for stamp in BAD[refusal]:
            for place in (1, 2, 3):
                cases.both(card(replaced(MIXED, place, stamp)), place)
            cases.both(card((stamp,)))
    # As long as a record can tell; as long as the low octet tells.
    for length in (34, 256, 256 + 25, 512 + 1):
        cases.read(card((b"2020-01-01T00:00:00+00:00" + b"0" * (length - 25),)))
        cases.read(card((bytes(length),) + SHORT[:1]))
    for many in (1, 2, 4):
        cases.both(card((b"",) * many))
        cases.both(card(SHORT[:many] + (b"",)), many)


def good_stamps(cases):
    """Every form, the limits of years, offsets and T, each behind itself and
    before another."""
    stamps = [image(*date, micros, offset, form, digits)
              for date in ((1, 1, 1), (2020, 2, 29), (9999, 12, 31))
              for micros in (0, END - 1, END) for offset in (0, -30, 1_439, -1_439)
              for form, digits in ((TEXT, 0), (TEXT, 6), (EXTENDED, 6))]
    stamps += [image(*date, micros, offset, COMPACT)
               for date in ((1, 1, 1), (2019, 12, 31), (2020, 1, 1), (6479, 10, 16))
               for micros in (0, 1_000, END - 1_000) for offset in (0, 1, -1_439)]
    stamps += [image(9999, 12, 31, END - 1_000, offset, COMPACT)
               for offset in (1, 1_439, -1_439)]
    stamps += [stamp_at(OF_2020 + SECOND // 3, -270, TEXT, digits)
               for digits in range(7)]
    for stamp in stamps:
        cases.record(card((stamp, stamp)), 2)
        cases.read(card((stamp,) + SHORT[:1]))


# 15

def order(cases):
    """Too early at the second, a middle and the last record, by as little as a
    form can tell; whatever the channels are."""
    for number, form in ((1, EXTENDED), (1, TEXT), (1_000, COMPACT), (END, COMPACT)):
        stamps = tuple(stamp_at(OF_2020 + place * number, 0, form, 6)
                       for place in (1, 2, 3, 4))
        cases.read(card(stamps))
        for place in (2, 3, 4):
            before = OF_2020 + (place - 1) * number
            for early in (0, 1, 2):
                stamp = stamp_at(before - early * number, 0, form, 6)
                cases.both(card(replaced(stamps, place, stamp)), place)
            # Behind it all is well again, or not.
            cases.read(card(stamps[:place] + stamps[:1] + stamps[place:]))
            cases.read(card(stamps[:place] + stamps[:1] * 2))
        for turned in (stamps[::-1], stamps[:2] * 2, stamps[1:] + stamps[:1]):
            cases.both(card(turned))
    # Of one channel and of several.
    for channels in ((1, 1, 1), (1, 2, 1), (1, 2, 3), (16, 1, 16)):
        for moments in ((1, 2, 3), (1, 3, 2), (2, 1, 3), (3, 3, 1)):
            file = card(tuple(stamp_at(OF_2020 + m * MILLI) for m in moments))
            for place, channel in enumerate(channels, 1):
                file = put(file, in_record(place, CHANNEL), channel)
            cases.both(file, 2)


def equal_instants(cases):
    """One instant at several offsets and in several forms, both ways round; what
    is a microsecond earlier beside it; 24:00 and the next day's 00:00 (R4.5)."""
    for instant in (0, OF_2020, OF_2020 + 12 * 3_600 * SECOND):
        ways = [stamp_at(instant + away, offset, EXTENDED)
                for away, offset in ((0, 0), (0, 1), (0, 720), (0, 1_439))]
        ways += [stamp_at(instant, 60, TEXT, 0), stamp_at(instant, 60)]
        for one in ways:
            for other in ways:
                cases.read(card((one, other)))
            early = stamp_at(instant - 1, 1, EXTENDED)
            cases.read(card((one, early)))
            cases.read(card((early, one)))
    for year, month, day, offset in ((2019, 12, 31, 0), (2020, 2, 28, -30),
                                     (1999, 12, 31, 1_439), (1, 1, 1, -1_439)):
        for form, digits in ((TEXT, 0), (TEXT, 6), (EXTENDED, 6)):
            end = image(year, month, day, END, offset, form, digits)
            _, _, instant, _, _ = schedule.read_all(card((end,)))[2][0]
            for other in (stamp_at(instant, offset, EXTENDED),
                          stamp_at(instant, offset), end,
                          stamp_at(instant - 1, offset, EXTENDED),
                          stamp_at(instant + 1, offset, EXTENDED),
                          image(year, month, day, 0, offset)):
                cases.read(card((end, other)))
                cases.record(card((other, end)), 2)
    # The last instant of all, and the first.
    last = image(9999, 12, 31, END, -1_439)
    first = image(1, 1, 1, 0, 1_439)
    for stamps in ((last,), (first, last), (last, last), (last, first),
                   (image(9999, 12, 31, END, 0), last),
                   (last, image(9999, 12, 31, END, -1_438)),
                   (first, image(1, 1, 1, 0, 1_438)),
                   (image(1, 1, 1, 0, 1_438), first)):
        cases.both(card(stamps), len(stamps))


GROUPS = (no_records, lengths, header_numbers, regions, wrapping, fields,
          places_of_stamps, bad_stamps, good_stamps, order, equal_instants)
