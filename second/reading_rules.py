"""Reading cases made by hand, rule by rule: each limit, one below, one above,
and several faults at once. The octets are put together here field by field,
without the writer, so that they can also be wrong."""

from common import *

NINE = range(9)
EITHER = {DATE: DATE_OR_TZ, DATE_TZ: DATE_OR_TZ, TIME: TIME_OR_TZ,
          TIME_TZ: TIME_OR_TZ, DATETIME: DATETIME_OR_TZ,
          DATETIME_TZ: DATETIME_OR_TZ}

OFFSETS = (0, 1, -1, 30, -30, 60, -270, 1_439, -1_439, 1_440, -1_440,
           2_047, -2_048)
WILD_OFFSETS = (2_048, -2_049, 4_095, 32_767, -32_768, -256, 256)
DAYS = (0, 1, -1, 127, 128, -128, -129, 32_767, 32_768, -32_768, -32_769,
        -737_424, -737_425, 2_914_634, 2_914_635, 2 ** 23 - 1, -2 ** 23)
MILLIS = (0, 1, -1, 127, 128, -128, -129, 32_767, 32_768, -32_768, -32_769,
          2 ** 23 - 1, 2 ** 23, -2 ** 23, -2 ** 23 - 1, 86_399_999, 86_400_000,
          86_400_001, 2 ** 31 - 1, -2 ** 31)
T = (0, 1, -1, MILLIS_OF_DAY, -MILLIS_OF_DAY - 1, 2 ** 31 - 1, 2 ** 31, -2 ** 31,
     2 ** 39 - 1, 2 ** 39, -2 ** 39, -2 ** 39 - 1, FIRST_T, FIRST_T + 1,
     FIRST_T - 1, -2 ** 46, -2 ** 47, -2 ** 47 - 1, LAST_T_WITHOUT_OFFSET,
     LAST_T_WITHOUT_OFFSET + 1, LAST_T_WITH_OFFSET, LAST_T_WITH_OFFSET + 1,
     LAST_T_WITH_OFFSET - 1, 2 ** 55 - 1, -2 ** 55)
DAY_NUMBERS = (0, 737_424, 3_652_058, 3_652_059, 2 ** 23, 2 ** 24 - 1)
MICROS = (0, 1, 999_999, 86_399_999_999, 86_400_000_000, 86_400_000_001,
          2 ** 39, 2 ** 40 - 1)
HEADERS = (0x80, 0x8F, 0x90, 0x9F)       # first bits 1000 and 1001


class Cases:
    """Collects (kind, octets) in order, without repetition."""

    def __init__(self):
        self.seen = {}                   # keeps the order

    def add(self, kinds, octets):
        for kind in kinds:
            self.seen[kind, bytes(octets)] = True

    def add_own(self, kind, octets):
        """For the kind's own reader and the either-or reader."""
        self.add((kind, EITHER[kind]), octets)


def signed_octets(number, count):
    return number.to_bytes(count, "big", signed=True)


def fewest(number):
    """How many octets a signed number needs."""
    count = 1
    while not -2 ** (8 * count - 1) <= number < 2 ** (8 * count - 1):
        count += 1
    return count


# Text

class Fields:
    """The fields of a text, each of which a case may replace."""

    def __init__(self, digits):
        self.date = "2020-06-15"
        self.time = "12:34:56"
        self.fraction = "." + "120456"[:digits] if digits > 0 else ""
        self.offset = "+04:30"

    def text(self, kind):
        text = self.date if kind in KINDS_WITH_DATE else ""
        if kind in (DATETIME, DATETIME_TZ):
            text += "T"
        if kind in KINDS_WITH_TIME:
            text += self.time + self.fraction
        if kind in KINDS_WITH_OFFSET:
            text += self.offset
        return text.encode("ascii")


def digits_of_kind(kind):
    return range(7) if kind in KINDS_WITH_TIME else (0,)


def text_dates(cases):
    """Each month's days 28 to 32, the parts at their limits, year 0000."""
    dates = ["%s-%02d-%02d" % (year, month, day)
             for year, months in (("2021", range(1, 13)), ("2020", (2,)),
                                  ("2000", (2,)), ("1900", (2,)), ("0001", (2,)),
                                  ("0400", (2,)), ("9999", (2, 12)))
             for month in months for day in (28, 29, 30, 31, 32)]
    dates += ["0000-01-01", "0000-02-29", "0000-12-31", "0001-01-01",
              "9999-12-31", "2020-00-01", "2020-13-01", "2020-99-01",
              "2020-01-00", "2020-01-99", "0000-00-00", "9999-99-99",
              "-001-01-01", "+020-01-01", "2020-1--01", "2020-01-1 ",
              "20200-1-01", "2020/01/01", "2020-01:01", "2020:01-01"]
    for kind in KINDS_WITH_DATE:
        for date in dates:
            fields = Fields(3)
            fields.date = date
            cases.add_own(kind, fields.text(kind))


def text_times(cases):
    """Hour 24 with and without anything after it, minute and second 59, 60."""
    times = ("00:00:00", "23:59:59", "24:00:00", "24:00:01", "24:01:00",
             "24:59:59", "24:60:00", "25:00:00", "99:99:99", "12:59:00",
             "12:60:00", "12:99:00", "12:00:59", "12:00:60", "12:00:61",
             "1 :00:00", "12-00-00", "12:00.00", "2400:00:", "-1:00:00")
    for kind in KINDS_WITH_TIME:
        for digits in digits_of_kind(kind):
            for time in times:
                for fraction in ("000000", "000001", "999999", "100000"):
                    # Anything after 24:00 counts; elsewhere one will do.
                    if fraction != "000000" and not time.startswith("24:00:0"):
                        continue
                    fields = Fields(digits)
                    fields.time = time
                    if digits > 0:
                        # The end of it, so that 000001 keeps its 1.
                        fields.fraction = "." + fraction[6 - digits:]
                    cases.add((kind,), fields.text(kind))
                    if digits in (0, 3):
                        cases.add_own(kind, fields.text(kind))


def text_offsets(cases):
    offsets = ("+00:00", "-00:00", "+00:01", "-00:01", "-00:30", "-00:59",
               "-01:00", "-10:00", "-00:10", "+23:59", "-23:59", "+24:00",
               "-24:00", "+23:60", "-00:60", "+00:60", "+10:75", "-99:99",
               "+99:00", "00:000", "*00:00", "+0000:", "-00-00", "-00:0x",
               "-0:000", "-00:0 ", " 00:00", "+-1:00", "+1:+10")
    for kind in KINDS_WITH_OFFSET:
        for digits in digits_of_kind(kind):
            for offset in offsets:
                for time in ("12:34:56", "24:00:00"):
                    if time == "24:00:00" and offset[1:3] not in ("00", "23"):
                        continue
                    fields = Fields(digits)
                    fields.time = time
                    fields.offset = offset
                    if time == "24:00:00" and digits > 0:
                        fields.fraction = "." + "0" * digits
                    cases.add_own(kind, fields.text(kind))


def text_faults_together(cases):
    """6 before 7 before 8 over the whole text, wherever each fault stands;
    and 5 before all of them."""
    for kind in range(6):
        for digits in (0, 3, 6) if kind in KINDS_WITH_TIME else (0,):
            for offset in ("+04:30", "-00:00", "+24:00", "-00:60"):
                for date, time in (("2020-06-15", "12:34:56"),
                                   ("2020-13-01", "12:34:56"),
                                   ("0000-01-01", "24:00:01"),
                                   ("2020-02-30", "12:60:00"),
                                   ("2020-06-15", "25:00:00")):
                    fields = Fields(digits)
                    fields.date, fields.time = date, time
                    fields.offset = offset
                    good = fields.text(kind)
                    cases.add_own(kind, good)
                    cases.add_own(kind, b"x" + good[1:])
                    cases.add_own(kind, good[:-1] + b"x")
                    cases.add_own(kind, good[:-1] + b"\xB0")
                    cases.add((kind,), good + b"x")
                    cases.add((kind,), b"\x80" + good[1:])
                    cases.add((kind,), b"\x90" + good[1:])


# Compact

def plain_numbers(cases):
    """Numbers around all limits in fewest octets and with redundant ones."""
    numbers = set(DAYS + MILLIS + T)
    for bits in (7, 8, 15, 16, 23, 24, 31, 32, 39, 40, 47):
        numbers |= {2 ** bits, 2 ** bits - 1, -2 ** bits, -2 ** bits - 1}
    for number in sorted(numbers):
        for more in (0, 1, 2):
            octets = signed_octets(number, fewest(number) + more)
            if len(octets) <= 9:
                cases.add(NINE if more == 0 else (0, 2, 3, 4, 5, 8), octets)


def zoned_numbers(cases):
    """Offset and number, each good and wrong, padded and with one octet more:
    zero offsets, redundant octets and ranges meet in all ways."""
    for kind, numbers, padding in ((DATE_TZ, DAYS, 2), (TIME_TZ, MILLIS, 3),
                                   (DATETIME_TZ, T, 5)):
        for number in numbers:
            least = max(fewest(number), padding)
            for offset in OFFSETS + WILD_OFFSETS:
                start = signed_octets(offset, 2)
                cases.add((kind,), start + signed_octets(number, least))
                if offset in (0, 1, -1_439, 1_440, -32_768):
                    cases.add_own(kind, start + signed_octets(number, least))
                    cases.add_own(kind, start + signed_octets(number, least + 1))
                if offset in (0, 1) and fewest(number) < padding:
                    cases.add_own(kind, start + signed_octets(number, least - 1))
        cases.add_own(kind, b"\x00\x01" + b"\x00" * (padding + 2))


# Extended

def extended(cases):
    """Each of the twelve bits, offsets, day numbers and microseconds."""
    plain = [0x8000 + 2 ** bit for bit in range(12)] + [0x8000, 0x8FFF, 0x8800]
    zoned = [0x9000 + offset % 4096 for offset in OFFSETS]
    others = [0xA000, 0xB000, 0xC000, 0x7000, 0x0000, 0xF000, 0x8000, 0x9000]
    for header in plain + zoned + others:
        start = header.to_bytes(2, "big")
        usual = header in (0x8000, 0x8001, 0x8FFF, 0x9000, 0x95A0, 0x9800, 0x959F)
        for micros in MICROS if usual else (5_000_000, 86_400_000_001):
            end = micros.to_bytes(5, "big")
            cases.add((TIME, TIME_TZ, TIME_OR_TZ), start + end)
            for number in DAY_NUMBERS if usual else (737_424, 3_652_059):
                octets = start + number.to_bytes(3, "big") + end
                kind = DATETIME_TZ if header >= 0x9000 else DATETIME
                cases.add_own(kind, octets)
                if micros in (0, 5_000_000):
                    cases.add((DATETIME, DATETIME_TZ), octets)


# The choice between two kinds by a sign

def put(text, place, octet):
    """Another octet at a place; the first place is 1."""
    return text[:place - 1] + bytes([octet]) + text[place:]


def choice_by_sign(cases):
    """02, request 1 (R1.1): the ninth place of 13 to 16 octets and the
    twentieth of 24 to 28 with each octet; signs there behind the first bits
    of text, 1000 and 1001; at 14 and 25 octets signs beside that place."""
    for plain, zoned, place, digits_of_zoned in (
            (TIME, TIME_TZ, 9, (0, 1)), (DATETIME, DATETIME_TZ, 20, (0, 1, 2))):
        either = EITHER[plain]
        three = (plain, zoned, either)
        # A good text of each length: 13 to 16 and 24 to 28.
        texts = [Fields(digits).text(plain) for digits in (4, 6)]
        texts += [Fields(digits).text(zoned) for digits in digits_of_zoned]
        for text in texts:
            for octet in range(256):
                cases.add((either,), put(text, place, octet))
            for first in (text[0],) + HEADERS:
                for sign in b"+-":
                    cases.add(three, put(put(text, 1, first), place, sign))
        # Of 14 and 25 octets also the plain one, with a point at the place.
        for text in (Fields(5).text(plain), Fields(0).text(zoned)):
            for first in (text[0],) + HEADERS:
                start = put(text, 1, first)
                cases.add(three, start)
                for sign in b"+-":
                    cases.add((either,), put(start, place - 1, sign))
                    cases.add((either,), put(start, place + 1, sign))
    # Here 5 or 6 tells which kind was chosen: other octets do not count.
    for start in (b"\x80" + b"\x00" * 13, b"\x90" + b"+" * 13):
        for octet in range(256):
            cases.add((TIME_OR_TZ,), put(start, 9, octet))


GROUPS = (text_dates, text_times, text_offsets, text_faults_together,
          plain_numbers, zoned_numbers, extended)
