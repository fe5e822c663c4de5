"""Schedule files put together for the cases: right in all (`card`), then numbers in
them are replaced. The stamps in them are written by the writer, or by hand where
they are wrong."""

from common import *
from examples import OF_2020
from instants import at
from schedule import (HEADER_OCTETS, RECORD_OCTETS, instant_of, is_header,
                      read_record)
from writing import write

MAX16, MAX32 = 2 ** 16 - 1, 2 ** 32 - 1
END = MICROS_OF_DAY
SECOND, MILLI = 1_000_000, 1_000

# The numbers of the header, and of a record: place in it and octets.
COUNT, RECORDS_AT, STAMP_OCTETS, STAMPS_AT = (0, 4), (4, 4), (8, 4), (12, 4)
HEADER_NUMBERS = COUNT, RECORDS_AT, STAMP_OCTETS, STAMPS_AT
START, LENGTH, CHANNEL, CORRECTION = (0, 4), (4, 2), (6, 2), (8, 4)


class Cases:
    """Collects the cases in order, without repetition."""

    def __init__(self):
        self.seen = {}                   # keeps the order

    def read(self, file):
        self.seen["F", bytes(file)] = True

    def record(self, file, place):
        self.seen["P", bytes(file), place] = True

    def both(self, file, place=1):
        self.read(file)
        self.record(file, place)

    def holds(self, file, instant, channel):
        self.seen["Q", bytes(file), instant, channel] = True

    def over(self, plan, manual, instant, channel):
        self.seen["O", bytes(plan), bytes(manual), instant, channel] = True

    def over_either(self, one, other, instant, channel):
        """Each of the two as the plan."""
        self.over(one, other, instant, channel)
        self.over(other, one, instant, channel)


# Files

def card(stamps):
    """A file of these stamps, each in its place; channels and corrections vary."""
    header = (len(stamps), HEADER_OCTETS, sum(len(stamp) for stamp in stamps),
              HEADER_OCTETS + RECORD_OCTETS * len(stamps))
    file = b"".join(number.to_bytes(4, "big") for number in header)
    start = 0
    for place, stamp in enumerate(stamps):
        file += start.to_bytes(4, "big") + len(stamp).to_bytes(2, "big")
        file += (place * 5 % 16 + 1).to_bytes(2, "big")
        file += (place * 271_828 % 2_000_001 - 1_000_000).to_bytes(
            4, "big", signed=True)
        start += len(stamp)
    return file + b"".join(stamps)


def in_record(place, field):
    """Where a number of the record at a place, from one, stands in the file."""
    within, octets = field
    return HEADER_OCTETS + RECORD_OCTETS * (place - 1) + within, octets


def number_at(file, where):
    start, octets = where
    return int.from_bytes(file[start:start + octets], "big")


def put(file, where, number):
    """Another number there; of a number that does not fit, the low octets."""
    start, octets = where
    number %= 256 ** octets
    return file[:start] + number.to_bytes(octets, "big") + file[start + octets:]


def move(file, where, by):
    return put(file, where, number_at(file, where) + by)


def with_channels(file, channels):
    """The channels of the first records replaced by these."""
    for place, channel in enumerate(channels, 1):
        file = put(file, in_record(place, CHANNEL), channel)
    return file


def moments(file):
    """The instants of the records up to the first bad one, to ask at."""
    found, before = [], None
    if not is_header(file):
        return found
    for place in range(1, number_at(file, COUNT) + 1):
        before = read_record(file, place, before)
        if isinstance(before, int):
            break
        found.append(instant_of(before))
    return found


# Stamps

def stamp_at(instant, offset=0, form=COMPACT, digits=3):
    """The stamp of an instant at an offset."""
    _, *parts = at(instant, offset)
    return image(*parts, form, digits)


def image(year, month, day, micros, offset, form=EXTENDED, digits=3):
    settings = {TEXT: (0, 0, digits), COMPACT: (1, 0, 3), EXTENDED: (1, 35_500, 6)}
    number, octets = write(DATETIME_TZ, year, month, day, micros, offset,
                           *settings[form])
    assert number == 0
    return octets


def replaced(stamps, place, stamp):
    """The stamps with another at a place, from one."""
    return stamps[:place - 1] + (stamp,) + stamps[place:]


MIXED = (stamp_at(OF_2020, 120, TEXT, 0), stamp_at(OF_2020 + SECOND, -270),
         stamp_at(OF_2020 + SECOND + 1, 1_439, EXTENDED))
SHORT = tuple(stamp_at(OF_2020 + number * MILLI) for number in (5, 6, 7, 8))
TEXTS = tuple(stamp_at(OF_2020 + number * SECOND, 30 * number, TEXT, 0)
              for number in range(3))

# Stamps that DatetimeTz's reader refuses. Of 5 the empty one, those that
# another kind's reader or an either-or reader takes, and 33 octets (R4.2, R4.5).
BAD = {
    5: (b"", b"2020-01-01T00:00:00", b"2020-01-01T00:00:00.5", bytes(10),
        bytes.fromhex("80000B40900000000000"), b"\x90" * 9 + b"\x00" * 2,
        b"2020-01-01T00:00:00+00:0", b"2020-01-01T00:00:00.+00:00",
        b"2020-01-01T00:00:00.000000+00:000"),
    6: (b"2020-01-01t00:00:00+00:00", b"2020-01-01T00:00:00.00000",
        b"2020-01-01T00:00:00 00:00", b"2O20-01-01T00:00:00.000-00:00",
        b"\x80" + bytes(24)),
    7: (b"\x00\x00", b"\xFF\xFF\xFF", b"\x00" * 7, b"2020-01-01T00:00:00-00:00",
        b"\x00\x01" + b"\x00" * 6, b"2020-13-01T00:00:00.000-00:00"),
    8: (b"2020-13-01T00:00:00+00:00", b"2021-02-29T00:00:00+00:00",
        b"2020-01-01T24:00:01+00:00", b"2020-01-01T00:00:00+24:00",
        b"0000-01-01T00:00:00-23:59", b"\x05\xA0" + b"\x00" * 5,
        b"\x80" + b"\x00" * 5, bytes.fromhex("95A00B40900000000000"),
        bytes.fromhex("90000B4090141DD76001"), bytes.fromhex("900037B9DB0000000000")),
}
# One of each, and one that is only too early.
EARLY = stamp_at(OF_2020 - SECOND)
BAD_STAMPS = tuple(BAD[refusal][0] for refusal in (5, 6, 7, 8)) + (EARLY,)
BAD_FIELDS = ((CHANNEL, 0), (CORRECTION, 1_000_001), (START, MAX32))
