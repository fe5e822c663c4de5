"""The examples that the documents give, with the answers that they give.

A writing example: (kind, year, month, day, micros, offset, binary, version,
digits) and (refusal, octets in hex). A reading example: kind, octets, answer.
An example of instants: letter of the call, what is handed in, answer. The answers
here are copied from the documents or worked out by hand. Those of schedules are in
schedule_examples.py.
"""

from common import *

OLD, NEW = 0, 35_500


def micros_of(hour, minute, second, micros=0):
    return ((hour * 60 + minute) * 60 + second) * 1_000_000 + micros


END = 86_400_000_000
CASE_O = (6479, 10, 17, micros_of(2, 45, 55, 328_000))

# 01 Bench examples: the letter and the call.
BENCH = (
    ("A", (DATE, 2020, 1, 1, 0, 0, 1, OLD, 3)),
    ("B", (DATE, 2019, 12, 31, 0, 0, 1, OLD, 3)),
    ("C", (DATE, 2020, 5, 7, 0, 0, 1, OLD, 3)),
    ("D", (DATE, 2020, 5, 8, 0, 0, 1, OLD, 3)),
    ("E", (DATE, 1, 1, 1, 0, 0, 1, OLD, 3)),
    ("F", (DATE, 9999, 12, 31, 0, 0, 1, OLD, 3)),
    ("G", (DATE_TZ, 2020, 1, 1, 0, -270, 1, OLD, 3)),
    ("H", (TIME, 0, 0, 0, END, 0, 1, NEW, 3)),
    ("I", (TIME, 0, 0, 0, END, 0, 1, OLD, 3)),
    ("J", (TIME_TZ, 0, 0, 0, 1_000, 90, 1, OLD, 3)),
    ("K", (TIME_TZ, 0, 0, 0, 0, -270, 1, NEW, 6)),
    ("L", (DATETIME, 2020, 1, 1, 1, 0, 1, NEW, 6)),
    ("M", (DATETIME_TZ, 2019, 12, 31, END - 1, -270, 1, OLD, 3)),
    ("N", (DATETIME, 6479, 10, 17, micros_of(2, 45, 55, 327_000), 0, 1, OLD, 3)),
    ("O", (DATETIME,) + CASE_O + (0, 1, OLD, 3)),
)

BENCH_OUTPUT = """\
A 0 00
B 0 FF
C 0 7F
D 0 0080
E 0 F4BF70
F 0 2C794A
G 0 FEF20000
H 0 8000141DD76000
I 0 05265C00
J 0 005A000001
K 0 9EF20000000000
L 0 80000B40900000000001
M 0 FEF2FFFFFFFFFF
N 0 7FFFFFFFFFFF
O 3 -
"""

# 01 "Run, not proved", the writing ones, and B1 to B10.
WRITING = (
    ((DATETIME_TZ,) + CASE_O + (1, 1, OLD, 3), (0, "000100800000000000")),
    ((DATETIME_TZ,) + CASE_O + (0, 1, OLD, 3), (3, "")),
    ((DATETIME, 2019, 12, 31, END, 0, 1, OLD, 3), (0, "00")),
    ((DATETIME_TZ, 9999, 12, 31, END, 1, 1, OLD, 3), (3, "")),
    ((DATETIME_TZ, 9999, 12, 31, END, 0, 1, OLD, 3), (3, "")),
    ((DATETIME, 9999, 12, 31, END, 0, 1, OLD, 3), (3, "")),
    ((DATETIME, 9999, 12, 31, END, 0, 1, NEW, 3),
     (0, "800037B9DA" + "141DD76000")),
    ((DATETIME, 9999, 12, 31, END, 0, 0, OLD, 0),
     (0, b"9999-12-31T24:00:00".hex())),
    ((DATE, 2000, 2, 29, 0, 0, 0, OLD, 3), (0, b"2000-02-29".hex())),
    ((DATE, 2000, 2, 29, 0, 0, 1, OLD, 3), (0, "E3B2")),
    ((DATE, 1900, 2, 29, 0, 0, 0, OLD, 3), (2, "")),
    ((DATE, 1900, 2, 29, 0, 0, 1, OLD, 3), (2, "")),
    ((TIME, 0, 0, 0, micros_of(12, 34, 56, 789_012), 0, 0, OLD, 2),
     (0, b"12:34:56.78".hex())),
    ((TIME, 0, 0, 0, 5, 0, 0, OLD, 6), (0, b"00:00:00.000005".hex())),
    ((DATE_TZ, 2020, 1, 1, 0, -30, 0, OLD, 6), (0, b"2020-01-01-00:30".hex())),
    ((DATE, 2020, 1, 1, 0, 0, 1, OLD, 7), (1, "")),
    ((DATE, 0, 0, 0, 0, 0, 1, OLD, 7), (1, "")),
    ((TIME, 0, 0, 0, 1_999, 0, 1, OLD, 0), (0, "01")),
    ((TIME, 0, 0, 0, 1_999, 0, 1, 35_499, 6), (0, "01")),
)


def value(kind, form, digits, year, month, day, micros, offset):
    return kind, form, digits, year, month, day, micros, offset


NOON = micros_of(12, 0, 0)

# 01 "Run, not proved", the reading ones; then docs/DECISIONS.md. Request 1 of
# 02 has turned the answer to 12:00:00+04:30 by TIME_OR_TZ; it was 6.
READING = (
    (DATETIME, b"\x00", value(DATETIME, COMPACT, 0, 2020, 1, 1, 0, 0)),
    (DATE, b"\x00\x00", 7),
    (DATE_TZ, b"2020-01-01+10:75", 8),
    (TIME_TZ, b"12:00:00+10:75", 8),
    (DATETIME_TZ, b"2020-01-01T12:00:00+10:75", 8),
    (TIME_OR_TZ, b"12:00:00+04:30",                                 # R1.1
     value(TIME_TZ, TEXT, 0, 0, 0, 0, NOON, 270)),
    (TIME, b"12:00:00+04:30", 6),                                   # B32
    (TIME_TZ, b"12:00:00+04:30", value(TIME_TZ, TEXT, 0, 0, 0, 0, NOON, 270)),
    (TIME, b"\x80" * 8, 5),                                         # B13
    (TIME, b"\x80" * 12, 5),
    (TIME_TZ, b"\x90" * 14, 5),
    (TIME, b"\x90" * 9, 5),
    (TIME, b"\x90" * 8, 6),
    (TIME_TZ, b"\x80" * 15, 5),
    (TIME_TZ, b"\x80" * 16, 6),
    (TIME, b"\x80" * 5, 5),                                         # B14
    (TIME, b"\x80" * 6, 5),
    (DATETIME, b"\x80" * 7, 5),
    (DATETIME, b"0" * 9, 5),
    (TIME, b"\x90" + b"\x00" * 6, 5),                               # B15
    (DATETIME_TZ, b"\x80" + b"\x00" * 9, 5),
    (TIME, b"\x90" + b"\x00" * 9, 6),
    (TIME_TZ, b"\x80" + b"\x00" * 13, 6),
    (DATETIME, b"2020-01-01T00:00:00+00:00", 6),                    # B17
    (DATE_TZ, b"2020-13-01-00:0x", 6),                              # B18
    (DATE_TZ, b"2020-13-01-00:00", 7),
    (DATE_TZ, b"2020-13-01+00:00", 8),
    (DATETIME, b"2020-01-01t00:00:00", 6),                          # B19
    (DATETIME, b"2020-01-01 00:00:00", 6),
    (DATETIME, b"2020-01-01T00:00:00,5", 6),
    (DATE, b"2020_01_01", 6),
    (DATE_TZ, b"2020-01-01-00:60", 8),                              # B20
    (DATE_TZ, b"2020-01-01-24:00", 8),
    (TIME, b"24:00:00", value(TIME, TEXT, 0, 0, 0, 0, END, 0)),      # B21
    (TIME, b"24:00:00.000001", 8),
    (TIME, b"12:00:60", 8),
    (TIME_TZ, b"24:00:00+23:59", value(TIME_TZ, TEXT, 0, 0, 0, 0, END, 1439)),
    (TIME, b"\x80\x01\xFF\xFF\xFF\xFF\xFF", 6),                     # B22
    (TIME_TZ, b"\x90" + b"\x00" * 6, value(TIME_TZ, EXTENDED, 0, 0, 0, 0, 0, 0)),
    (DATE_TZ, b"\x00\x00\x00\x00", value(DATE_TZ, COMPACT, 0, 2020, 1, 1, 0, 0)),
    (DATE_TZ, b"\x00\x00\x00\x7F\xFF", 7),                          # B23
    (DATE_TZ, b"\x00\x00\x00\x80\x00",
     value(DATE_TZ, COMPACT, 0, 2109, 9, 19, 0, 0)),
    (TIME_TZ, b"\x00\x01\xFF\xFF\xFF", 8),                          # B24
    (TIME_TZ, b"\x00\x01\xFF\xFF\xFF\xFF", 7),
    (TIME_TZ, b"\x00\x01\x80\x00\x00\x00", 8),
    (TIME_TZ, b"\x00\x00\x00\x00\x01", 7),
    (DATETIME_TZ, b"\x00\x00\x00\x00\x00\x00\x01", 7),              # B25
    (DATETIME_TZ, b"\x00\x01\x00\x00\x00\x00\x01",
     value(DATETIME_TZ, COMPACT, 0, 2020, 1, 1, 1_000, 1)),
    (DATETIME_TZ, b"\x00\x01\x00\x00\x00\x00\x00\x01", 7),
    (DATETIME_TZ, b"\x00\x01\x00\x7F\xFF\xFF\xFF\xFF\xFF", 7),
    (TIME_TZ, b"\x7F\xFF\x00\x00\x00\x01", 7),                      # B26
    (TIME, b"\xFF", 8),                                             # B27
    (DATETIME, (-63_713_433_600_000).to_bytes(6, "big", signed=True),
     value(DATETIME, COMPACT, 0, 1, 1, 1, 0, 0)),                    # B28
    (DATETIME, (-63_713_433_600_001).to_bytes(6, "big", signed=True), 8),
    (DATE_TZ, b"\x80\x00\x00\x00", 8),                              # B29
    (TIME_TZ, b"\x98\x00\x00\x00\x00\x00\x00", 8),
    (TIME_OR_TZ, b"\x80" * 16, 6),                                  # B34
    (TIME_OR_TZ, b"\x90" * 16, 5),
    (TIME_OR_TZ, b"\x80" * 14, 5),
    (DATE_OR_TZ, b"0" * 6, 5),                                      # B35
    (DATE_OR_TZ, b"0" * 9, 5),
    (DATE_OR_TZ, b"0" * 11, 5),
    (DATE_OR_TZ, b"0" * 15, 5),
) + tuple((kind, b"", 5) for kind in range(9))                      # B16

# 02, request 1 (R1.1): what a sign chooses, and where other choices stand.
REQUEST_1 = (
    # 14 octets, the ninth a sign: TimeTz, whatever stands elsewhere.
    (TIME_OR_TZ, b"12:00:00-04:30",
     value(TIME_TZ, TEXT, 0, 0, 0, 0, NOON, -270)),
    (TIME_OR_TZ, b"12:00:00+00:00", value(TIME_TZ, TEXT, 0, 0, 0, 0, NOON, 0)),
    (TIME_OR_TZ, b"24:00:00-23:59",
     value(TIME_TZ, TEXT, 0, 0, 0, 0, END, -1439)),
    (TIME_OR_TZ, b"12:00:00-00:00", 7),
    (TIME_OR_TZ, b"99:00:00-00:00", 7),
    (TIME_OR_TZ, b"99:00:00+04:30", 8),
    (TIME_OR_TZ, b"12:00:00+24:00", 8),
    (TIME_OR_TZ, b"99:00:00+04:3x", 6),
    (TIME_OR_TZ, b"\x80" + b"2:00:00+04:30", 6),                    # as text
    (TIME_OR_TZ, b"\x8F" + b"2:00:00-04:30", 6),
    (TIME_OR_TZ, b"\x90" + b"2:00:00+04:30", 5),                    # extended
    (TIME_OR_TZ, b"\x9F" + b"2:00:00-04:30", 5),
    # The ninth no sign: Time.
    (TIME_OR_TZ, b"12:00:00.00001",
     value(TIME, TEXT, 5, 0, 0, 0, NOON + 10, 0)),
    (TIME_OR_TZ, b"12:00:0+004:30", 6),
    (TIME_OR_TZ, b"12:00:00.+4:30", 6),
    (TIME_OR_TZ, b"\x80" + b"2:00:0+004:30", 5),                    # extended
    (TIME_OR_TZ, b"\x80" + b"2:00:000+4:30", 5),
    (TIME_OR_TZ, b"\x90" + b"2:00:0-004:30", 6),                    # as text
    (TIME_OR_TZ, b"\x90" + b"2:00:000-4:30", 6),
    # Up to 15 octets Time, else TimeTz; a point belongs at the ninth place.
    (TIME_OR_TZ, b"12:00:00+04:3", 6),
    (TIME_OR_TZ, b"12:00:00+04:300", 6),
    (TIME_OR_TZ, b"12:00:00+04:3000", 6),
    (TIME_OR_TZ, b"12:00:00.0+04:30",
     value(TIME_TZ, TEXT, 1, 0, 0, 0, NOON, 270)),
    # 25 octets, the twentieth a sign: DatetimeTz, but first bits come before.
    (DATETIME_OR_TZ, b"2020-01-01T12:00:00-04:30",
     value(DATETIME_TZ, TEXT, 0, 2020, 1, 1, NOON, -270)),
    (DATETIME_OR_TZ, b"2020-01-01T12:00:00+04:30",
     value(DATETIME_TZ, TEXT, 0, 2020, 1, 1, NOON, 270)),
    (DATETIME_OR_TZ, b"2020-01-01T12:00:00-00:00", 7),
    (DATETIME_OR_TZ, b"2020-13-01T12:00:00+04:30", 8),
    (DATETIME_OR_TZ, b"2020-01-01T12:00:00+04:3x", 6),
    (DATETIME_OR_TZ, b"\x80" + b"020-01-01T12:00:00+04:30", 5),     # Datetime
    (DATETIME_OR_TZ, b"\x8F" + b"020-01-01T12:00:00-04:30", 5),
    (DATETIME_OR_TZ, b"\x90" + b"020-01-01T12:00:00+04:30", 5),     # DatetimeTz
    (DATETIME_OR_TZ, b"\x9F" + b"020-01-01T12:00:00-04:30", 5),
    # The twentieth no sign: Datetime.
    (DATETIME_OR_TZ, b"2020-01-01T12:00:00.00001",
     value(DATETIME, TEXT, 5, 2020, 1, 1, NOON + 10, 0)),
    (DATETIME_OR_TZ, b"2020-01-01T12:00:0+004:30", 6),
    (DATETIME_OR_TZ, b"2020-01-01T12:00:00.+4:30", 6),
    # Up to 26 octets Datetime, else DatetimeTz; a point at the twentieth place.
    (DATETIME_OR_TZ, b"2020-01-01T12:00:00+04:3", 6),
    (DATETIME_OR_TZ, b"2020-01-01T12:00:00+04:300", 6),
    (DATETIME_OR_TZ, b"2020-01-01T12:00:00+04:3000", 6),
    (DATETIME_OR_TZ, b"2020-01-01T12:00:00.0+04:30",
     value(DATETIME_TZ, TEXT, 1, 2020, 1, 1, NOON, 270)),
    # The own readers choose no kind.
    (TIME, b"12:00:00-04:30", 6),
    (TIME_TZ, b"12:00:00.00001", 6),
    (DATETIME, b"2020-01-01T12:00:00-04:30", 6),
    (DATETIME_TZ, b"2020-01-01T12:00:00-04:30",
     value(DATETIME_TZ, TEXT, 0, 2020, 1, 1, NOON, -270)),
    # A Date and a DateTz are told apart by their lengths, as before.
    (DATE_OR_TZ, b"2020-01-01-04:30",
     value(DATE_TZ, TEXT, 0, 2020, 1, 1, 0, -270)),
    (DATE_OR_TZ, b"12:00:00+04:30", 5),
)

# 02, request 2 (R2.1 to R2.5): the letter of the call in cases.py, what is
# handed in, and the answer. The sentences are the request's.
FIRST, LAST = -86_340_000_000, 315_537_983_940_000_000
OF_1970, OF_2020 = 62_135_596_800_000_000, 63_713_433_600_000_000
HALF_HOUR, MINUTE = 1_800_000_000, 60_000_000
LEAST_64, MOST_64 = -9_223_372_036_854_775_808, 9_223_372_036_854_775_807

REQUEST_2 = (
    # "microseconds from 0001-01-01T00:00 UTC, signed, as local reading less
    # offset"
    ("I", (1, 1, 1, 0, 0), (0, 0)),
    ("I", (1, 1, 1, 1, 0), (0, 1)),
    ("I", (1970, 1, 1, 0, 0), (0, OF_1970)),
    ("I", (2020, 1, 1, 0, 0), (0, OF_2020)),
    ("I", (2020, 1, 1, 0, 30), (0, OF_2020 - HALF_HOUR)),
    ("I", (2020, 1, 1, 0, -30), (0, OF_2020 + HALF_HOUR)),
    ("I", (1, 1, 1, 0, 1), (0, -MINUTE)),
    ("I", (1, 1, 1, 0, 1439), (0, FIRST)),                          # R2.1
    ("I", (9999, 12, 31, END, -1439), (0, LAST)),
    ("I", (9999, 12, 31, END, 0), (0, 315_537_897_600_000_000)),
    # "24:00 counts as the next day's start."
    ("I", (2019, 12, 31, END, 0), (0, OF_2020)),
    ("I", (2019, 12, 31, END, -30), (0, OF_2020 + HALF_HOUR)),
    # "Add a signed 64-bit number of microseconds to an instant"
    ("A", (OF_1970, 1_577_836_800_000_000), (0, OF_2020)),
    ("A", (OF_2020, -1_577_836_800_000_000), (0, OF_1970)),
    ("A", (0, -1), (0, -1)),
    ("A", (FIRST, 315_538_070_280_000_000), (0, LAST)),             # R2.4
    ("A", (LAST, -315_538_070_280_000_000), (0, FIRST)),
    # "take the difference of two": a less b (R2.5)
    ("D", (OF_2020, OF_1970), (0, 1_577_836_800_000_000)),
    ("D", (LAST, FIRST), (0, 315_538_070_280_000_000)),
    ("D", (0, -1), (0, 1)),
    ("D", (LAST, LAST), (0, 0)),
    # "restate a stamp at another offset"
    ("S", (2020, 1, 1, 0, 30, -30), (0, 2019, 12, 31, END - 2 * HALF_HOUR, -30)),
    ("S", (2020, 2, 28, END - HALF_HOUR, 0, 30), (0, 2020, 2, 29, 0, 30)),
    ("S", (2021, 2, 28, END - HALF_HOUR, 0, 30), (0, 2021, 3, 1, 0, 30)),
    ("S", (2020, 3, 1, 0, 1, 0), (0, 2020, 2, 29, END - MINUTE, 0)),
    ("S", (2019, 12, 31, NOON, -1439, 1439),
     (0, 2020, 1, 2, NOON - 2 * MINUTE, 1439)),
    ("S", (2020, 1, 2, NOON - 2 * MINUTE, 1439, -1439),
     (0, 2019, 12, 31, NOON, -1439)),
    ("S", (1969, 12, 31, END - 1, 0, 0), (0, 1969, 12, 31, END - 1, 0)),
    # "(the result never uses 24:00)"
    ("S", (2019, 12, 31, END, -30, -30), (0, 2020, 1, 1, 0, -30)),
    ("S", (2020, 1, 1, HALF_HOUR, 30, 0), (0, 2020, 1, 1, 0, 0)),
    ("T", (OF_2020, 0), (0, 2020, 1, 1, 0, 0)),
    ("T", (OF_2020, -30), (0, 2019, 12, 31, END - HALF_HOUR, -30)),
    ("T", (-1, 1), (0, 1, 1, 1, MINUTE - 1, 1)),
    ("T", (FIRST, 1439), (0, 1, 1, 1, 0, 1439)),
    ("T", (LAST - 1, -1439), (0, 9999, 12, 31, END - 1, -1439)),
    # "Adding zero changes nothing"
    ("A", (FIRST, 0), (0, FIRST)),
    ("A", (LAST, 0), (0, LAST)),
    # "the difference of a and b is the negative of that of b and a"
    ("D", (OF_1970, OF_2020), (0, -1_577_836_800_000_000)),
    ("D", (FIRST, LAST), (0, -315_538_070_280_000_000)),
    # "2, a stamp, offset or instant handed in that is out of range"
    ("I", (0, 12, 31, END, 0), 2),
    ("I", (10_000, 1, 1, 0, 1439), 2),
    ("I", (1900, 2, 29, 0, 0), 2),
    ("I", (2020, 1, 1, END + 1, 0), 2),
    ("I", (2020, 1, 1, 0, 1440), 2),
    ("S", (2020, 1, 1, 0, -1440, 0), 2),
    ("S", (2020, 1, 1, 0, 0, -1440), 2),
    ("T", (OF_2020, 1440), 2),
    # "(for an instant: one that no stamp has)"
    ("A", (FIRST - 1, 1), 2),
    ("A", (LAST + 1, -1), 2),
    ("A", (LEAST_64, MOST_64), 2),
    ("D", (LAST + 1, LAST + 1), 2),
    ("D", (0, FIRST - 1), 2),
    ("T", (LAST + 1, -1439), 2),
    ("T", (FIRST - 1, 1439), 2),
    # "then 9, the result isn't representable (an instant that no stamp has"
    ("A", (FIRST, -1), 9),
    ("A", (LAST, 1), 9),
    ("A", (0, MOST_64), 9),
    ("A", (0, LEAST_64), 9),
    # "or a local reading outside years 1 to 9999)"
    ("T", (0, -1), 9),
    ("T", (-1, 0), 9),
    ("T", (LAST, -1439), 9),                                        # R2.2
    ("T", (LAST, 0), 9),
    ("S", (1, 1, 1, 0, 0, -1), 9),
    ("S", (1, 1, 1, MINUTE - 1, 1, 0), 9),
    ("S", (9999, 12, 31, END - MINUTE, 0, 1), 9),
    ("S", (9999, 12, 31, END, 0, 0), 9),                            # R2.2
    ("S", (9999, 12, 31, END, 0, -1), (0, 9999, 12, 31, END - MINUTE, -1)),
    # 2 before 9 (R2.3)
    ("S", (9999, 12, 31, END, 0, 1440), 2),
    ("S", (1, 1, 1, 0, 1440, 0), 2),
    ("A", (LAST + 1, 1), 2),
    ("T", (0, -1440), 2),
)
