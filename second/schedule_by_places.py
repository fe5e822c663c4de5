"""The four calls on schedules over again, by a description of the whole file: all
faults at all places, each told without regard to the others, of which the first
is the answer. Which correction holds is looked up among all records of an
accepted file, without a stop; of two files, among all records that are read of
both. Instants are reckoned by datetime. For the self-test."""

import struct

from common import DATETIME_TZ
from instants_by_datetime import instant_by_datetime
from reading import read


def counts(file):
    """(records, stamp octets), or None where 13 is the answer. Two counts that
    fit the length give the whole header, so it is held to each such pair."""
    for records in range(1_001):
        stamp_octets = len(file) - 16 - 12 * records
        header = (records, 16, stamp_octets, 16 + 12 * records)
        if stamp_octets < 0:
            break
        if file[:16] == struct.pack(">4I", *header):
            return header[::2] if records > 0 or stamp_octets == 0 else None
    return None


def described(file, records, stamp_octets):
    """(start within the file, start told, length, channel, correction, instant
    or its refusal) of each record. The start is where the stamps before, one
    behind the other, have ended, whatever the record tells."""
    start = len(file) - stamp_octets
    for place in range(records):
        told, length, channel, correction = struct.unpack_from(
            ">IHHi", file, 16 + 12 * place)
        answer = read(DATETIME_TZ, file[start:start + length])
        if isinstance(answer, tuple):
            answer = instant_by_datetime(*answer[3:])
        yield start, told, length, channel, correction, answer
        start += length


def faults(file, rows, stamp_octets):
    """(place, turn at that place, refusal) of every fault."""
    for place, (start, told, length, channel, correction, answer) in enumerate(
            rows, 1):
        within = start - (len(file) - stamp_octets)
        left = stamp_octets - within - length
        if (channel not in range(1, 17) or abs(correction) > 1_000_000
                or told != within or left < 0 or (place == len(rows) and left > 0)):
            yield place, 1, 14
        if isinstance(answer, int):
            yield place, 2, answer
        elif any(isinstance(before, tuple) and answer < before
                 for *_, before in rows[:place - 1]):
            yield place, 3, 15


def schedule_read_by_places(file):
    header = counts(file)
    if header is None:
        return 13, 0
    rows = list(described(file, *header))
    first = min(faults(file, rows, header[1]), default=None)
    return (0, len(rows)) if first is None else (first[2], first[0])


def schedule_record_by_places(file, place):
    refusal, number = schedule_read_by_places(file)
    if refusal != 0:
        return refusal
    if place not in range(1, number + 1):
        return 2
    start, _, length, channel, correction, (_, instant) = list(
        described(file, *counts(file)))[place - 1]
    return 0, channel, correction, instant, start, length


def last_of(rows, instant, channel):
    """Of these records the last of the channel at or before the instant, behind
    whatever others."""
    found = [(place, start, length, moment, correction)
             for place, (start, _, length, own, correction, (_, moment))
             in enumerate(rows, 1) if own == channel and moment <= instant]
    return found[-1] if found else ("none",)


def schedule_holds_by_places(file, instant, channel):
    if channel not in range(1, 17):
        return 2
    header = counts(file)
    if header is None:
        return 13
    rows = list(described(file, *header))
    first = min(faults(file, rows, header[1]), default=None)
    if first is None:
        # As many as are at or before the instant, and one more if there is one.
        read = sum(moment <= instant for *_, (_, moment) in rows) + 1
        return (0, min(read, len(rows))) + last_of(rows, instant, channel)
    # Those before the first bad one: a later one is among them, or it is read.
    place, _, refusal = first
    later = [one for one, (*_, (_, moment)) in enumerate(rows[:place - 1], 1)
             if moment > instant]
    if not later:
        return refusal
    return (0, later[0]) + last_of(rows[:later[0]], instant, channel)


def schedule_over_by_places(plan, manual, instant, channel):
    """All records of both files that could hold, in one heap: the greatest by
    instant, then by file, then by place."""
    found = []
    for which, file in enumerate((plan, manual)):
        answer = schedule_holds_by_places(file, instant, channel)
        if isinstance(answer, int):
            return 0, 0, 0
        read = list(described(file, *counts(file)))[:answer[1]]
        found += [(moment, which, place, start, length)
                  for place, (start, _, length, own, _, (_, moment))
                  in enumerate(read, 1) if own == channel and moment <= instant]
    _, which, _, start, length = max(found, default=(0,) * 5)
    return which, start, length


BY_PLACES = {"F": schedule_read_by_places, "P": schedule_record_by_places,
             "Q": schedule_holds_by_places, "O": schedule_over_by_places}
