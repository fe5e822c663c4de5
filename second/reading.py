"""Reading: from the octets to a value, or to refusal 5, 6, 7, 8.

Its own procedure: it chooses the kind and the form, then tests 5, 6, 7 and 8 in
that order. It uses nothing of writing, not even to try whether an image fits.
"""

from common import *


def read(kind, octets):
    """A refusal number 5 to 8, or the tuple
    (kind, form, digits, year, month, day, micros, offset).

    01 Refusal numbers: 5, 6, 7, 8, each over the whole input before the next.
    Digits are 0 where the form is not text (B30); a part the kind lacks is 0.
    """
    kind = chosen_kind(kind, octets)
    form = chosen_form(kind, octets)
    if len(octets) not in LENGTHS[kind, form]:
        return 5
    if form == TEXT:
        return read_text(kind, octets)
    if form == EXTENDED:
        return read_extended(kind, octets)
    return read_compact(kind, octets)


# The lengths that each form of each kind can have (01 Text, Compact,
# Extended; B12). Zero is in none of them (B16).
LENGTHS = {
    (DATE, COMPACT): (1, 2, 3),
    (DATE, TEXT): (10,),
    (DATE_TZ, COMPACT): (4, 5),
    (DATE_TZ, TEXT): (16,),
    (TIME, COMPACT): (1, 2, 3, 4),
    (TIME, EXTENDED): (7,),
    (TIME, TEXT): (8, 10, 11, 12, 13, 14, 15),
    (TIME_TZ, COMPACT): (1, 2, 3, 4, 5, 6),
    (TIME_TZ, EXTENDED): (7,),
    (TIME_TZ, TEXT): (14, 16, 17, 18, 19, 20, 21),
    (DATETIME, COMPACT): (1, 2, 3, 4, 5, 6),
    (DATETIME, EXTENDED): (10,),
    (DATETIME, TEXT): (19, 21, 22, 23, 24, 25, 26),
    (DATETIME_TZ, COMPACT): (1, 2, 3, 4, 5, 6, 7, 8, 9),
    (DATETIME_TZ, EXTENDED): (10,),
    (DATETIME_TZ, TEXT): (25, 27, 28, 29, 30, 31, 32),
}


def first_bits(octets):
    """The first four bits; only asked where there is an octet."""
    return octets[0] // 16


def is_sign(octet):
    """The signs of an offset, + and - (01 Text)."""
    return octet in (0x2B, 0x2D)


def chosen_kind(kind, octets):
    """01 How a reader chooses, either-or, and 02, request 1: the first rule
    that fits. Request 1 counts places from one: the ninth is octets[8]."""
    length = len(octets)
    if kind == DATE_OR_TZ:
        if length <= 3:
            return DATE
        if length <= 5:
            return DATE_TZ
        return DATE if length <= 10 else DATE_TZ
    if kind == TIME_OR_TZ:
        if length <= 4:
            return TIME
        if length <= 6:
            return TIME_TZ
        if length == 7 and first_bits(octets) == 0b1000:
            return TIME
        if length == 7 and first_bits(octets) == 0b1001:
            return TIME_TZ
        # 02, request 1: only the length and this octet count (R1.1).
        if length == 14 and is_sign(octets[8]):
            return TIME_TZ
        return TIME if length <= 15 else TIME_TZ
    if kind == DATETIME_OR_TZ:
        if length <= 6:
            return DATETIME
        if length <= 9:
            return DATETIME_TZ
        if first_bits(octets) == 0b1000:
            return DATETIME
        if first_bits(octets) == 0b1001:
            return DATETIME_TZ
        # 02, request 1: the first bits have come before it (R1.1).
        if length == 25 and is_sign(octets[19]):
            return DATETIME_TZ
        return DATETIME if length <= 26 else DATETIME_TZ
    return kind


def chosen_form(kind, octets):
    """01 How a reader chooses, the table."""
    last_compact = {DATE: 3, DATE_TZ: 5, TIME: 4, TIME_TZ: 6,
                    DATETIME: 6, DATETIME_TZ: 9}[kind]
    if len(octets) <= last_compact:
        return COMPACT
    if kind in (TIME, DATETIME) and first_bits(octets) == 0b1000:
        return EXTENDED
    if kind in (TIME_TZ, DATETIME_TZ) and first_bits(octets) == 0b1001:
        return EXTENDED
    return TEXT


# Text

def text_shape(kind, digits):
    """01 Text, place by place: 9 is any digit, # a sign, the rest itself."""
    date = "9999-99-99"
    time = "99:99:99" + ("." + "9" * digits if digits > 0 else "")
    offset = "#99:99"
    return {DATE: date, DATE_TZ: date + offset,
            TIME: time, TIME_TZ: time + offset,
            DATETIME: date + "T" + time,
            DATETIME_TZ: date + "T" + time + offset}[kind]


def digits_by_length(kind, length):
    """The digits come from the length alone (B17); 0 for Date and DateTz.

    Without a fraction the text has `bare` octets, with one the point more.
    """
    if kind in (DATE, DATE_TZ):
        return 0
    bare = {TIME: 8, TIME_TZ: 14, DATETIME: 19, DATETIME_TZ: 25}[kind]
    return 0 if length == bare else length - bare - 1


def fits_place(octet, place):
    """Only ASCII digits, T, point, colon, dash and plus fit (B19)."""
    if place == "9":
        return 0x30 <= octet <= 0x39
    if place == "#":
        return is_sign(octet)
    return octet == ord(place)


def read_text(kind, octets):
    """01 Text; refusals 6, 7, 8 in that order over the whole text (B18)."""
    digits = digits_by_length(kind, len(octets))
    shape = text_shape(kind, digits)

    # 6: a digit, sign or separator is wrong.
    assert len(shape) == len(octets)     # refusal 5 has seen to that
    for octet, place in zip(octets, shape):
        if not fits_place(octet, place):
            return 6
    text = octets.decode("ascii")

    # 7: the offset -00:00, exactly these six octets (B20).
    if kind in KINDS_WITH_OFFSET and text[-6:] == "-00:00":
        return 7

    # 8: a field out of range. Take the fields one after the other.
    year = month = day = micros = offset = 0
    if kind in KINDS_WITH_DATE:
        year, month, day = int(text[0:4]), int(text[5:7]), int(text[8:10])
        if not is_date(year, month, day):
            return 8
        text = text[11:] if kind in KINDS_WITH_TIME else text[10:]
    if kind in KINDS_WITH_TIME:
        hour, minute, second = int(text[0:2]), int(text[3:5]), int(text[6:8])
        # ".5" is 500000 microseconds: fill with zeros on the right.
        fraction = int((text[9:9 + digits] + "000000")[:6])
        text = text[8:] if digits == 0 else text[9 + digits:]
        if hour > 24 or minute > 59 or second > 59:
            return 8
        # Hour 24 stands alone; the offset may be anything (B21).
        if hour == 24 and (minute > 0 or second > 0 or fraction > 0):
            return 8
        micros = ((hour * 60 + minute) * 60 + second) * 1_000_000 + fraction
    if kind in KINDS_WITH_OFFSET:
        hours, minutes = int(text[1:3]), int(text[4:6])
        if hours > 23 or minutes > 59:
            return 8
        offset = hours * 60 + minutes
        # The sign belongs to the whole offset, so -00:30 is -30.
        if text[0] == "-":
            offset = -offset
    return kind, TEXT, digits, year, month, day, micros, offset


# Compact

def signed(octets):
    """Big-endian two's complement of any length from 1 on (01 Compact)."""
    value = octets[0] - 256 if octets[0] >= 128 else octets[0]
    for octet in octets[1:]:
        value = value * 256 + octet
    return value


def first_octet_is_redundant(octets):
    """X.690 8.3.2: the first nine bits are all 0 or all 1."""
    if len(octets) < 2:
        return False
    return ((octets[0] == 0x00 and octets[1] < 0x80)
            or (octets[0] == 0xFF and octets[1] >= 0x80))


def read_compact(kind, octets):
    """01 Compact; refusals 7, then 8 (compact has no 6)."""
    # Whether an offset stands in front, and the padding of what follows it.
    if kind == DATE_TZ:
        has_offset, at_least = True, 2
    elif kind == TIME_TZ and len(octets) in (5, 6):
        has_offset, at_least = True, 3
    elif kind == DATETIME_TZ and len(octets) in (7, 8, 9):
        has_offset, at_least = True, 5
    else:
        has_offset, at_least = False, 1
    offset = signed(octets[:2]) if has_offset else 0
    rest = octets[2:] if has_offset else octets

    # 7: longer than fewest-or-padded, or offset zero where it had to be left
    # out. DateTz always has its offset, so zero is good there (B23).
    if len(rest) > at_least and first_octet_is_redundant(rest):
        return 7
    if has_offset and offset == 0 and kind != DATE_TZ:
        return 7

    # 8: the offset or the number is out of range.
    if not -LAST_OFFSET <= offset <= LAST_OFFSET:
        return 8
    number = signed(rest)
    if kind in (DATE, DATE_TZ):
        days_of_era = number + DAY_NUMBER_OF_2020
        if not 0 <= days_of_era <= LAST_DAY_NUMBER:
            return 8
        year, month, day = date_of_day_number(days_of_era)
        return kind, COMPACT, 0, year, month, day, 0, offset
    if kind in (TIME, TIME_TZ):
        if not 0 <= number <= MILLIS_OF_DAY:
            return 8
        return kind, COMPACT, 0, 0, 0, 0, number * 1000, offset
    last_t = LAST_T_WITH_OFFSET if has_offset else LAST_T_WITHOUT_OFFSET
    if not FIRST_T <= number <= last_t:
        return 8
    # The day is the floor, so that the milliseconds of the day are never
    # negative before 2020; a T at midnight is 00:00, never 24:00 (B6).
    days = number // MILLIS_OF_DAY
    millis = number - days * MILLIS_OF_DAY
    year, month, day = date_of_day_number(days + DAY_NUMBER_OF_2020)
    return kind, COMPACT, 0, year, month, day, millis * 1000, offset


# Extended

def unsigned(octets):
    """Big-endian, without a sign (01 Extended)."""
    value = 0
    for octet in octets:
        value = value * 256 + octet
    return value


def read_extended(kind, octets):
    """01 Extended; refusal 6 for plain kinds, then 8; never 7 (B22)."""
    twelve_bits = unsigned(octets[0:2]) % 4096

    # 6: the twelve bits of a plain kind are zero.
    if kind in (TIME, DATETIME) and twelve_bits != 0:
        return 6

    # 8: out of range. The twelve bits of a plain kind are an offset of 0.
    offset = twelve_bits - 4096 if twelve_bits >= 2048 else twelve_bits
    if not -LAST_OFFSET <= offset <= LAST_OFFSET:
        return 8
    micros = unsigned(octets[-5:])
    if micros > MICROS_OF_DAY:
        return 8
    if kind in (TIME, TIME_TZ):
        return kind, EXTENDED, 0, 0, 0, 0, micros, offset
    number = unsigned(octets[2:5])
    if number > LAST_DAY_NUMBER:
        return 8
    year, month, day = date_of_day_number(number)
    return kind, EXTENDED, 0, year, month, day, micros, offset


# Calendar for reading: by formula, not by the count that writing uses.

def days_before_year(year):
    """The days of all years before this one."""
    whole = year - 1
    return 365 * whole + whole // 4 - whole // 100 + whole // 400


def date_of_day_number(number):
    """(year, month, day) of a day number 0 to 3,652,058."""
    year = number // 366 + 1             # never too late; then step forward
    while days_before_year(year + 1) <= number:
        year += 1
    rest = number - days_before_year(year)
    leap_day = days_before_year(year + 1) - days_before_year(year) - 365
    month = 1
    for length in (31, 28 + leap_day, 31, 30, 31, 30, 31, 31, 30, 31, 30):
        if rest < length:
            break
        rest -= length
        month += 1
    return year, month, rest + 1
