"""The cases of manual over plan (02, request 6) made by hand, rule by rule: which
instant is later, who holds, what is refused, what may be asked. The files are
small; the stamps in them start at different places and have different lengths, so
that each answer names its record."""

from common import *
from examples import LEAST_64, MOST_64, OF_2020
from instants import FIRST_INSTANT, LAST_INSTANT
from question_rules import BAD_CHANNELS, FAR, beside, stops
from schedule_files import *


def of(*records):
    """A file of records: stamp and channel of each."""
    return with_channels(card(tuple(stamp for stamp, _ in records)),
                         [channel for _, channel in records])


def after(millis):
    """So long after the start of 2020, mostly in one octet."""
    return stamp_at(OF_2020 + millis * MILLI)


def fine(instant):
    """To the microsecond, at an offset where there is such a stamp."""
    if instant == LAST_INSTANT:
        return image(9999, 12, 31, END, -1_439)
    offset = 1_439 if instant < END else -1_439 if instant > LAST_INSTANT - END else 0
    return stamp_at(instant, offset, EXTENDED)


# No record, or some of channels 1 and 2: before the start of 2020, but for the
# second of LATE_TWO.
NOTHING = card(())
EARLY_ONE = of((after(-9), 1))
TWO = of((after(-8), 2), (after(-7), 1))
LATE_TWO = of((after(-8), 2), (after(9), 1))
LONG_TWO = of((stamp_at(OF_2020 - 6 * MILLI, 90), 1), (after(-5), 2))


# Which is later

def equal_instants(cases):
    """The manual one, however the two stamps say their one instant: in each form,
    at other offsets, and as 24:00."""
    ahead = after(-1)
    ways = (after(0), stamp_at(OF_2020, -30), stamp_at(OF_2020, 60, EXTENDED),
            image(2019, 12, 31, END, 0), stamp_at(OF_2020, 0, TEXT, 0),
            image(2019, 12, 31, END, 0, TEXT, 0))
    for one in ways:
        for other in ways:
            cases.over(of((one, 1)), of((ahead, 2), (other, 1)), OF_2020, 1)
            cases.over(of((ahead, 1), (one, 1)), of((other, 1)), OF_2020 + 1, 1)
    at_90 = OF_2020 - 90 * 60 * SECOND
    for one in (image(2019, 12, 31, END, 90), image(2020, 1, 1, 0, 90),
                stamp_at(at_90), stamp_at(at_90, -90)):
        for instant in beside((at_90,)):
            cases.over_either(of((one, 1)), of((fine(at_90 - 1), 1),
                                               (image(2020, 1, 1, 0, 90), 1)),
                              instant, 1)


def instants_apart(cases):
    """By little, either way; by what 32 bits do not tell; across 0, where instants
    change their sign; and at the ends."""
    pairs = [(OF_2020, OF_2020 + apart)
             for apart in (1, MILLI, 2 ** 31, 2 ** 32 - 1, 2 ** 32, 2 ** 32 + 1)]
    pairs += [(-1, 0), (-1, 1), (-2 ** 32, 5), (FIRST_INSTANT, FIRST_INSTANT + 1),
              (FIRST_INSTANT, LAST_INSTANT), (LAST_INSTANT - 1, LAST_INSTANT)]
    for first, second in pairs:
        one, other = of((fine(first), 1)), of((fine(first), 2), (fine(second), 1))
        for instant in (*beside((first, second)), MOST_64):
            cases.over_either(one, other, instant, 1)
    # In compact, where the number of octets and the sign change.
    for millis in (-32_769, -129, -1, 0, 127, 32_767):
        one, other = of((after(millis), 1)), of((after(millis + 1), 1))
        for instant in beside(moments(one) + moments(other)):
            cases.over_either(one, other, instant, 1)
    # By other offsets than by local readings.
    one = of((stamp_at(OF_2020 + SECOND, -60), 1))
    other = of((stamp_at(OF_2020, 60), 1))
    for instant in beside((OF_2020, OF_2020 + SECOND)):
        cases.over_either(one, other, instant, 1)


def several_at_one(cases):
    """Several records at one instant in one file or in both: the last of the
    channel in that file, and the manual one."""
    ways = (after(0), stamp_at(OF_2020, -30), after(0))
    files = [of(*zip(ways, channels))
             for channels in ((1,), (1, 1), (1, 2), (2, 1), (1, 2, 1), (2, 1, 1))]
    for plan in files:
        for manual in files:
            cases.over(plan, manual, OF_2020, 1)
            cases.over(plan, manual, OF_2020 + MILLI, 2)
    for plan in files[1:4]:
        for manual in files[1:4]:
            cases.over(plan, manual, OF_2020 - 1, 1)
            cases.over(plan, manual, OF_2020, 2)


def taking_turns(cases):
    """Two files of four records each, one behind the other in time, of two
    channels, with stamps of four lengths."""
    plan = of((after(0), 1), (stamp_at(OF_2020 + 2 * SECOND, 90), 2),
              (after(4_000), 1), (stamp_at(OF_2020 + 6 * SECOND, 0, EXTENDED), 1))
    manual = of((stamp_at(OF_2020 + SECOND, -60), 1), (after(3_000), 2),
                (after(5_000), 2), (stamp_at(OF_2020 + 7 * SECOND, -1), 1))
    for instant in sorted(beside(moments(plan) + moments(manual))):
        for channel in (1, 2):
            cases.over_either(plan, manual, instant, channel)


# Who holds

def who_holds(cases):
    """Plan only, manual only, both, neither: the record at the instant or before
    it, a later one, one of another channel, none; each beside each."""
    files = (NOTHING, of((after(1), 2)), of((after(20), 1)),
             of((after(2), 2), (after(20), 1)), of((after(3), 1)),
             of((after(4), 1), (after(21), 1)), of((after(5), 2), (after(10), 1)),
             of((after(6), 1), (after(7), 2), (after(8), 1), (after(11), 1)))
    for plan in files:
        for manual in files:
            cases.over(plan, manual, OF_2020 + 10 * MILLI, 1)
            cases.over(plan, manual, OF_2020 + 10 * MILLI - 1, 1)


def empty_files(cases):
    """No octets at all: refused (13), whatever the other is. No records: none
    holds there."""
    for other in (b"", NOTHING, EARLY_ONE, TWO, LATE_TWO, TWO[:-1], TWO[:16],
                  TWO[:15]):
        for instant in (LEAST_64, OF_2020, MOST_64):
            cases.over_either(b"", other, instant, 1)
            cases.over_either(NOTHING, other, instant, 1)


def same_octets(cases):
    """The same file as both: the manual one wherever a record holds."""
    for file in (EARLY_ONE, TWO, LATE_TWO, LONG_TWO, of((after(0), 1), (after(0), 1))):
        for instant in sorted({*beside(moments(file)), LEAST_64, MOST_64}):
            cases.over(file, file, instant, 1)
        cases.over(file, file, MOST_64, 2)
        cases.over(file, file, MOST_64, 3)
        cases.over(file[:-1], file[:-1], MOST_64, 1)


# What is refused

# One of each refusal, as a stamp or as a field and its number; 13 is of the file.
FAULTS = ((CHANNEL, 0), (CORRECTION, 1_000_001), (START, MAX32), BAD[5][0], BAD[6][0],
          BAD[7][0], bytes.fromhex("05A00000000000"), EARLY)


def faulty(stamps, place, fault):
    """A file of these stamps, of channel 1, with a fault at a place."""
    if isinstance(fault, bytes):
        stamps = replaced(stamps, place, fault)
    file = with_channels(card(stamps), (1,) * len(stamps))
    if isinstance(fault, bytes):
        return file
    return put(file, in_record(place, fault[0]), fault[1])


def refused_files():
    """13, 14, 5, 6, 7, 8, 15: at a record behind one that would hold."""
    return [EARLY_ONE + b"\x00"] + [faulty((after(-4), after(-3)), 2, fault)
                                    for fault in FAULTS]


def one_refused(cases):
    """Beside one that holds, one that has none yet and one without records; at an
    instant at which the refused one too would hold, and at one before it."""
    for file in refused_files():
        for other in (TWO, LATE_TWO, NOTHING):
            for instant in (OF_2020 - 4 * MILLI, OF_2020 - 5 * MILLI):
                cases.over_either(file, other, instant, 1)


def both_refused(cases):
    """Each refusal beside each."""
    files = refused_files()
    files = files[:2] + files[4:]        # one of 14 is enough here
    for plan in files:
        for manual in files:
            cases.over(plan, manual, OF_2020, 1)


def faults_and_stops(cases):
    """Each fault at each of three records, with every stop: behind the stop it is
    no matter."""
    stamps = after(5), after(6), after(7)
    at = moments(card(stamps))
    for place in (1, 2, 3):
        for fault in FAULTS:
            if place == 1 and fault == EARLY:
                continue                 # nothing is before it
            for number, instant in enumerate(stops(at)):
                file = faulty(stamps, place, fault)
                if number + place <= 3:
                    cases.over_either(file, EARLY_ONE, instant, 1)
                elif number % 2 == 0:
                    cases.over(file, TWO, instant, 1)
                else:
                    cases.over(TWO, file, instant, 1)


def headers(cases):
    """The whole header counts, of each file, with every stop."""
    for where in HEADER_NUMBERS:
        for by in (-1, 2 ** 31):
            for instant in (OF_2020 - 10 * MILLI, OF_2020):
                cases.over_either(move(TWO, where, by), EARLY_ONE, instant, 1)
    for other in (TWO + b"\x00", TWO[:-1], put(NOTHING, STAMP_OCTETS, 1) + b"\x00"):
        cases.over_either(other, EARLY_ONE, OF_2020, 1)


# What may be asked

def channels_asked(cases):
    """Every channel, of two files with some of them; bad ones, of good files and
    of bad ones."""
    plan = of((after(0), 1), (after(1), 16), (after(2), 9))
    manual = of((after(0), 16), (after(0), 2), (after(2), 9))
    for channel in range(1, 17):
        cases.over(plan, manual, MOST_64, channel)
    for channel in BAD_CHANNELS:
        cases.over_either(plan, manual, OF_2020, channel)
        cases.over(NOTHING, TWO, OF_2020, channel)
        cases.over(TWO, TWO, MOST_64, channel)
        cases.over(b"", b"", OF_2020, channel)
        cases.over_either(put(TWO, in_record(2, CHANNEL), channel), EARLY_ONE,
                          OF_2020, channel)
    # A record's channel with bits above the low octet is bad, and not the low one.
    for number in (256 + 1, 2 ** 15 + 1):
        for instant in (OF_2020 - 9 * MILLI, OF_2020):
            cases.over_either(put(TWO, in_record(2, CHANNEL), number), EARLY_ONE,
                              instant, 1)


def instants_asked(cases):
    """Beside each record, where no stamp is, and what wraps to a record's own."""
    for instant in (*beside(moments(TWO) + moments(LONG_TWO)), *FAR):
        cases.over_either(TWO, LONG_TWO, instant, 1)
        cases.over(TWO, LONG_TWO, instant, 2)
    for instant in moments(TWO):
        for other in (instant + 2 ** 32, instant - 2 ** 32, instant - 2 ** 63,
                      -instant):
            cases.over_either(TWO, LONG_TWO, other, 1)
    ends = of((fine(FIRST_INSTANT), 1), (fine(LAST_INSTANT), 1))
    for instant in (*beside((FIRST_INSTANT, LAST_INSTANT)), *FAR):
        cases.over_either(ends, EARLY_ONE, instant, 1)


GROUPS = (equal_instants, instants_apart, several_at_one, taking_turns, who_holds,
          empty_files, same_octets, one_refused, both_refused, faults_and_stops,
          headers, channels_asked, instants_asked)
