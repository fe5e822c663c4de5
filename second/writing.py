"""Writing: from a value and settings to the octets, or to refusal 1, 2, 3, 4."""

from common import *


def write(kind, year, month, day, micros, offset, binary, version, digits):
    """(0, image) or (refusal 1 to 3, no octets), tested in that order (01)."""
    # 1: digits above 6, for every kind and form (B1).
    if digits > LAST_DIGITS:
        return 1, b""
    # 2: only the parts that the kind has count (B3).
    if kind in KINDS_WITH_DATE and not is_date(year, month, day):
        return 2, b""
    if kind in KINDS_WITH_TIME and not 0 <= micros <= MICROS_OF_DAY:
        return 2, b""
    if kind in KINDS_WITH_OFFSET and not -LAST_OFFSET <= offset <= LAST_OFFSET:
        return 2, b""
    form = form_to_write(kind, micros, binary, version, digits)
    if form == TEXT:
        return 0, text_image(kind, year, month, day, micros, offset, digits)
    if form == EXTENDED:
        return 0, extended_image(kind, year, month, day, micros, offset)
    if kind in (DATE, DATE_TZ):
        return 0, compact_date(kind, day_number(year, month, day), offset)
    if kind in (TIME, TIME_TZ):
        return 0, compact_time(kind, micros, offset)
    return compact_datetime(kind, day_number(year, month, day), micros, offset)


def write_into(kind, year, month, day, micros, offset, binary, version, digits,
               room):
    """(number, count, buffer after the call) for a buffer of `room` times 5A.

    01 Refusal numbers: 4 comes last; a refused write has count 0 and leaves
    the buffer as lent; octets past the image stay as lent.
    """
    lent = b"\x5A" * room
    number, image = write(kind, year, month, day, micros, offset,
                          binary, version, digits)
    if number != 0:
        return number, 0, lent
    if room < len(image):
        return 4, 0, lent
    return 0, len(image), image + lent[len(image):]


def form_to_write(kind, micros, binary, version, digits):
    """01 Choice of form; B4 for how "and" and "or" bind."""
    if not binary:
        return TEXT
    if kind in (DATE, DATE_TZ):
        return COMPACT
    if version >= EXTENDED_SINCE_VERSION and (
            digits == 6 or micros == MICROS_OF_DAY):
        return EXTENDED
    return COMPACT


def text_image(kind, year, month, day, micros, offset, digits):
    """01 Text. Digits do not matter to Date and DateTz (B10)."""
    text = ""
    if kind in KINDS_WITH_DATE:
        text += "%04d-%02d-%02d" % (year, month, day)
    if kind in (DATETIME, DATETIME_TZ):
        text += "T"
    if kind in KINDS_WITH_TIME:
        # 24:00 comes out as hour 24 with nothing after it.
        text += "%02d:%02d:%02d" % (micros // 3_600_000_000,
                                    micros // 60_000_000 % 60,
                                    micros // 1_000_000 % 60)
        if digits > 0:
            # All six digits first, then cut: never rounded, zeros kept.
            six_digits = "%06d" % (micros % 1_000_000)
            text += "." + six_digits[:digits]
    if kind in KINDS_WITH_OFFSET:
        # The sign is that of the whole offset, so that -30 is -00:30.
        text += "-" if offset < 0 else "+"
        text += "%02d:%02d" % (abs(offset) // 60, abs(offset) % 60)
    return text.encode("ascii")


def big_endian(number, count):
    """`count` octets, big-endian; two's complement where negative."""
    number %= 256 ** count
    octets = []
    for _ in range(count):
        octets.insert(0, number % 256)
        number //= 256
    return bytes(octets)


def ber_integer(number, at_least):
    """01 Compact, X.690 8.3: fewest octets that hold it, or `at_least`."""
    count = at_least
    while not -(2 ** (8 * count - 1)) <= number <= 2 ** (8 * count - 1) - 1:
        count += 1
    return big_endian(number, count)


def compact_date(kind, number, offset):
    """01 Compact, Date and DateTz: days from 2020-01-01; DateTz always has
    its offset in front, zero too, and at least 2 octets of days."""
    days = number - DAY_NUMBER_OF_2020
    if kind == DATE:
        return ber_integer(days, 1)
    return big_endian(offset, 2) + ber_integer(days, 2)


def compact_time(kind, micros, offset):
    """01 Compact, Time and TimeTz: whole milliseconds, cut; at least 3 octets
    after an offset; offset zero as Time. Digits do not matter (B5)."""
    millis = micros // 1000
    if kind == TIME or offset == 0:
        return ber_integer(millis, 1)
    return big_endian(offset, 2) + ber_integer(millis, 3)


def compact_datetime(kind, number, micros, offset):
    """01 Compact, Datetime and DatetimeTz: (0, image) or (3, no octets).

    The milliseconds are cut within the day and then added to the days, so
    moments before 2020 are floored (01 case M). 24:00 becomes the next day.
    Offset zero is "written without an offset", so the plain limit holds (B8).
    """
    days = number - DAY_NUMBER_OF_2020
    t = MILLIS_OF_DAY * days + micros // 1000
    if kind == DATETIME or offset == 0:
        if t > LAST_T_WITHOUT_OFFSET:
            return 3, b""
        return 0, ber_integer(t, 1)
    if t > LAST_T_WITH_OFFSET:
        return 3, b""
    return 0, big_endian(offset, 2) + ber_integer(t, 5)


def extended_image(kind, year, month, day, micros, offset):
    """01 Extended: header of 16 bits, day number in 3, microseconds in 5."""
    if kind in KINDS_WITH_OFFSET:
        header = 0b1001 * 4096 + offset % 4096   # 12-bit two's complement
    else:
        header = 0b1000 * 4096
    image = big_endian(header, 2)
    if kind in KINDS_WITH_DATE:
        image += big_endian(day_number(year, month, day), 3)
    return image + big_endian(micros, 5)


# Calendar for writing: years and months are counted one after the other.

def count_year_starts():
    """Day number of 1 January of each year, by counting year after year."""
    starts = {}
    count = 0
    for year in range(1, LAST_YEAR + 1):
        starts[year] = count
        count += 366 if is_leap(year) else 365
    return starts


YEAR_START = count_year_starts()


def day_number(year, month, day):
    """Days since 0001-01-01, by counting (01 Values)."""
    number = YEAR_START[year]
    for earlier_month in range(1, month):
        number += days_in_month(year, earlier_month)
    return number + day - 1
