"""The cases of the question which correction holds (02, request 5) made by hand, rule
by rule: what may be asked, what holds, how far is read, which faults are met."""

from common import *
from examples import LEAST_64, MOST_64, OF_2020
from instants import FIRST_INSTANT, LAST_INSTANT
from schedule_cases import with_faults
from schedule_files import *

BAD_CHANNELS = (0, 17, 32, 255, 256, 257, 272, 2 ** 16, 2 ** 16 + 1, 2 ** 31 + 1,
                MAX32 - 15, MAX32)
FAR = (LEAST_64, LEAST_64 + 1, FIRST_INSTANT - 1, FIRST_INSTANT, -2 ** 32, -1, 0, 1,
       LAST_INSTANT, LAST_INSTANT + 1, MOST_64 - 1, MOST_64)

# Four records of two channels, a millisecond apart.
FOUR = with_channels(card(SHORT), (1, 2, 1, 2))
# Six of three channels, a second apart.
SIX = with_channels(card(tuple(stamp_at(OF_2020 + place * SECOND, 60 * place)
                               for place in range(6))), (3, 3, 16, 3, 16, 1))


def beside(instants):
    """Each of them, the one before it and the one after it."""
    return sorted({instant + by for instant in instants for by in (-1, 0, 1)})


def stops(instants):
    """Asked at these, the reading stops at the first record, at the second, and
    so on; at the last of them all records are read."""
    return [instants[0] - 1, *instants[:-1], MOST_64]


# What may be asked

def instants_asked(cases):
    """Beside each record, where no stamp is, and what wraps to a record's own."""
    for file, channels in (
            (card(()), (1, 16)),
            (with_channels(card(SHORT[:1]), (16,)), (16, 1)),
            (FOUR, (1, 2, 3)),
            (with_channels(card(MIXED), (4, 16, 4)), (4, 16, 5)),
            (SIX, (3, 16, 1, 2))):
        for channel in channels:
            for instant in beside(moments(file)) + list(FAR):
                cases.holds(file, instant, channel)
        for instant in moments(file):
            for other in (instant + 2 ** 32, instant - 2 ** 32, instant - 2 ** 63,
                          -instant):
                cases.holds(file, other, channels[0])
    # The first and the last instant that a stamp has.
    ends = card((image(1, 1, 1, 0, 1_439), image(9999, 12, 31, END, -1_439)))
    for instant in beside((FIRST_INSTANT, LAST_INSTANT)) + [LEAST_64, 0, MOST_64]:
        for channel in (1, 6):
            cases.holds(ends, instant, channel)


def channels_asked(cases):
    """Every channel, of a file that has them all; bad ones, of good and bad files:
    2 comes before the file (R5.4)."""
    at = moments(FOUR)
    every = with_channels(card(tuple(stamp_at(OF_2020 + place * MILLI)
                                     for place in range(16))), range(16, 0, -1))
    for channel in range(1, 17):
        for instant in (OF_2020 + 7 * MILLI, MOST_64):
            cases.holds(every, instant, channel)
    for channel in (*range(17), *BAD_CHANNELS):
        for instant in (at[0] - 1, at[2], MOST_64):
            cases.holds(FOUR, instant, channel)
    for channel in BAD_CHANNELS:
        for file in (b"", FOUR[:15], FOUR[:-1], move(FOUR, COUNT, 2 ** 31), card(()),
                     put(FOUR, in_record(1, CHANNEL), channel),
                     card(replaced(SHORT, 4, BAD[7][0]))):
            cases.holds(file, MOST_64, channel)
    # A record's channel with bits above the low octet is bad, and not the low one.
    for number in (256 + 1, 2 ** 15 + 1, 256 * 2):
        for instant in stops(at):
            cases.holds(put(FOUR, in_record(2, CHANNEL), number), instant, 1)


# What holds

def one_instant(cases):
    """Several records at one instant, of one channel and of several: the last of
    the channel holds. Alone, and between an earlier one and a later one."""
    ways = [stamp_at(OF_2020), stamp_at(OF_2020, 60, EXTENDED),
            image(2019, 12, 31, END, 0), stamp_at(OF_2020, -30),
            stamp_at(OF_2020, 0, EXTENDED)]
    before, behind = stamp_at(OF_2020 - MILLI), stamp_at(OF_2020 + MILLI)
    for channels in ((1, 1), (1, 2), (2, 1), (1, 1, 1), (1, 2, 1), (2, 1, 2),
                     (1, 2, 2, 1), (1, 1, 2, 2), (2, 1, 1, 2, 1)):
        stamps = tuple(ways[:len(channels)])
        alone = with_channels(card(stamps), channels)
        between = with_channels(card((before,) + stamps + (behind,)),
                                (1,) + channels + (2,))
        for instant in beside((OF_2020,)):
            for channel in (1, 2, 3):
                cases.holds(alone, instant, channel)
                cases.holds(between, instant, channel)


def corrections(cases):
    """Zero is a correction, and not none; each end, and each octet's sign."""
    at = moments(FOUR)
    for number in (0, 1, -1, 127, 128, -128, -129, 32_768, -32_769, 65_535, -65_536,
                   999_999, 1_000_000, -1_000_000):
        file = put(FOUR, in_record(3, CORRECTION), number)
        for instant in (at[2] - 1, at[2], MOST_64):
            cases.holds(file, instant, 1)


def end_of_day(cases):
    """24:00 and the next day's 00:00 are one instant, either may come first; and
    24:00 of one day and of the next, asked between them."""
    for offset in (0, -30, 1_439):
        for form, digits in ((TEXT, 0), (EXTENDED, 6)):
            end = image(2019, 12, 31, END, offset, form, digits)
            start = image(2020, 1, 1, 0, offset, form, digits)
            next_end = image(2020, 1, 1, END, offset, form, digits)
            last = image(2020, 1, 1, END - SECOND, offset, form, digits)
            for stamps in ((end, start), (start, end), (end, next_end),
                           (end, last, next_end)):
                file = with_channels(card(stamps), (1, 2, 1)[:len(stamps)])
                asked = beside(moments(file)) if offset == 0 else moments(file)
                for instant in asked:
                    cases.holds(file, instant, 1)
                cases.holds(file, moments(file)[0], 2)


def none_yet(cases):
    """No record, the first is later, none of the channel among all; the channel
    only at the later record, and only behind it."""
    for instant in (LEAST_64, -1, 0, OF_2020, MOST_64):
        for channel in (1, 7, 16):
            cases.holds(card(()), instant, channel)
    for many in range(1, 5):
        for channels in ((1,) * many, (2,) * (many - 1) + (1,),
                         (1,) + (2,) * (many - 1)):
            file = with_channels(card(SHORT[:many]), channels)
            for instant in stops(moments(file)):
                for channel in (1, 3):
                    cases.holds(file, instant, channel)


# Faults before the stop, at it, and behind it

FIELD_FAULTS = ((CHANNEL, 0), (CHANNEL, 17), (CORRECTION, 1_000_001),
                (CORRECTION, -1_000_001), (START, MAX32), (START, 28), (LENGTH, 0),
                (LENGTH, MAX16))
# Wrong, and later or earlier to who would read it all the same.
STAMP_FAULTS = BAD_STAMPS + (
    b"2021-01-01T00:00:00-00:00", b"2019-01-01T00:00:00-00:00",
    b"2021-01-01T00:00:00", b"2021-13-01T00:00:00+00:00", b"\x00" * 7, b"")


def faulty(place, fault):
    """FOUR with a fault at a place: a stamp, or a field and its number."""
    if isinstance(fault, bytes):
        return with_channels(card(replaced(SHORT, place, fault)), (1, 2, 1, 2))
    field, number = fault
    return put(FOUR, in_record(place, field), number)


def faults_and_stops(cases):
    """Each fault at each record, with every stop: it is met at the stop and before
    it (R5.1), and no matter behind it."""
    at = moments(FOUR)
    for place in (1, 2, 3, 4):
        for number, fault in enumerate(FIELD_FAULTS + STAMP_FAULTS):
            for instant in stops(at):
                cases.holds(faulty(place, fault), instant, 1 + number % 2)
            cases.holds(faulty(place, fault), at[place - 1] - 1, 2 - number % 2)
            cases.holds(faulty(place, fault), at[place - 1], 2 - number % 2)


def faults_together(cases):
    """At the second record and at the third; the first that is read counts. And
    one that only the order tells (15), behind which all is well again."""
    at = moments(FOUR)
    single = ([(None, field) for field in BAD_FIELDS]
              + [(stamp, None) for stamp in BAD_STAMPS])
    for one in single:
        for other in single:
            file = with_faults(SHORT, [(2, *one), (3, *other)])
            for instant in (at[0] - 1, at[0]):
                cases.holds(file, instant, 1)
    for order in ((2, 1, 3, 4), (1, 3, 2, 4), (1, 2, 4, 3), (4, 3, 2, 1), (2, 2, 1, 1)):
        file = with_channels(card(tuple(SHORT[number - 1] for number in order)),
                             (1, 2, 1, 2))
        for instant in beside(at):
            cases.holds(file, instant, 1)


def headers(cases):
    """The whole header counts with every stop: each number of it, the length of
    the file, stamp octets without records, sums that wrap."""
    for stamps in ((), SHORT[:1], SHORT[:3]):
        file = card(stamps)
        asked = stops(moments(file)) if stamps else (LEAST_64, MOST_64)
        for instant in (*asked[:1], *asked[-1:]):
            for where in HEADER_NUMBERS:
                for by in (1, -1, 12, -12, 2 ** 16, 2 ** 30, 2 ** 31):
                    cases.holds(move(file, where, by), instant, 1)
                for number in (0, MAX32):
                    cases.holds(put(file, where, number), instant, 1)
        for instant in asked:
            for other in (file + b"\x00", file[:-1], file + file, file[:16],
                          put(file, STAMP_OCTETS, 1) + b"\x00"):
                cases.holds(other, instant, 1)
    for length in range(len(FOUR)):
        cases.holds(FOUR[:length], LEAST_64, 1)


# Places of stamps

def last_stamps(cases):
    """The last stamp ends before its region or beyond it: met if the last record is
    read, and only then (R5.2)."""
    for stamps in (SHORT[:1], SHORT[:2], SHORT, TEXTS):
        last = len(stamps)
        length = in_record(last, LENGTH)
        over = move(card(replaced(stamps, last, stamps[-1] + b"\x00")), length, -1)
        cut = move(card(replaced(stamps, last, stamps[-1][:-1])), length, 1)
        two_more = move(card(stamps[:-1] + (stamps[-1] + bytes(2),)), length, -2)
        at = moments(card(stamps))
        for file in (over, cut, two_more, put(card(stamps), length, 0)):
            for instant in sorted({*stops(at), *beside(at[-1:])}):
                cases.holds(file, instant, 1)


def stamp_places(cases):
    """A gap or an overlap between two stamps, with every stop; two records with one
    stamp; a border between two stamps that has moved."""
    at = moments(FOUR)
    for place in (1, 2, 3, 4):
        gap = card(replaced(SHORT, place, b"\x00" + SHORT[place - 1]))
        gap = move(move(gap, in_record(place, START), 1), in_record(place, LENGTH), -1)
        over = move(card(replaced(SHORT, place, SHORT[place - 1] + b"\x00")),
                    in_record(place, LENGTH), -1)
        overlap = move(card(SHORT), in_record(place, LENGTH), 1)
        again = move(card(SHORT), in_record(place, START), -1)
        for file in (gap, over, overlap, again):
            for instant in stops(at):
                cases.holds(file, instant, 1)
    at = moments(card(MIXED))
    for by in (1, -1, 7):
        file = move(card(MIXED), in_record(1, LENGTH), by)
        file = move(file, in_record(2, START), by)
        file = move(file, in_record(2, LENGTH), -by)
        for instant in stops(at):
            cases.holds(file, instant, 1)


GROUPS = (instants_asked, channels_asked, one_instant, corrections, end_of_day,
          none_yet, faults_and_stops, faults_together, headers, last_stamps,
          stamp_places)
