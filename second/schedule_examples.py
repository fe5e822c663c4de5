"""The examples of schedules (02, requests 4, 5 and 6): the letter of the call in
cases.py, what is handed in, and the answer, worked out by hand. The sentences are
the requests'.

The files are put down octet by octet: the four numbers of the header, the records
(stamp start, stamp length, channel, correction), the stamps.
"""

from examples import FIRST, HALF_HOUR, LAST, LEAST_64, MOST_64, OF_2020

octets = bytes.fromhex

# 02, request 4 (R4.1 to R4.6).
OF_M = OF_2020 - 1_000 + 9 * HALF_HOUR   # bench line M: 1 ms before 2020, -270

NO_RECORDS = octets("00000000 00000010 00000000 00000010")
ONE_RECORD = octets("00000001 00000010 00000001 0000001C"
                    "00000000 0001 0010 000F4240" "00")
TWO_RECORDS = octets("00000002 00000010 00000008 00000028"
                     "00000000 0001 0010 000F4240"
                     "00000001 0007 0001 FFF0BDC0" "00" "FEF2FFFFFFFFFF")
# The same with its two stamps the other way round.
TWO_TURNED = octets("00000002 00000010 00000008 00000028"
                    "00000000 0007 0010 000F4240"
                    "00000007 0001 0001 FFF0BDC0" "FEF2FFFFFFFFFF" "00")
# 2019-12-31T24:00, extended, then 2020-01-01T00:00, as text.
EQUAL_INSTANTS = (octets("00000002 00000010 00000023 00000028"
                         "00000000 000A 0001 00000000"
                         "0000000A 0019 0001 FFFFFFFF"
                         "90000B408F" "141DD76000")
                  + b"2020-01-01T00:00:00+00:00")


def one_record(record, stamp):
    """A file of one record; its octets in hex."""
    return (octets("00000001 00000010") + len(stamp).to_bytes(4, "big")
            + octets("0000001C" + record) + stamp)


REQUEST_4 = (
    # "full reading answers their number"
    ("F", (NO_RECORDS,), (0, 0)),
    ("F", (ONE_RECORD,), (0, 1)),
    ("F", (TWO_RECORDS,), (0, 2)),
    ("P", (ONE_RECORD, 1), (0, 16, 1_000_000, OF_2020, 28, 1)),
    ("P", (TWO_RECORDS, 1), (0, 16, 1_000_000, OF_2020, 40, 1)),
    ("P", (TWO_RECORDS, 2), (0, 1, -1_000_000, OF_M, 41, 7)),
    # A place that the file hasn't; the file's own refusal comes first.
    ("P", (TWO_RECORDS, 0), 2),
    ("P", (TWO_RECORDS, 3), 2),
    ("P", (NO_RECORDS, 1), 2),
    ("P", (TWO_TURNED, 3), 15),
    # 13: below 16 octets, the counts, the starts, the length (R4.4).
    ("F", (b"",), (13, 0)),
    ("F", (NO_RECORDS[:15],), (13, 0)),
    ("F", (NO_RECORDS + b"\x00",), (13, 0)),
    ("F", (TWO_RECORDS[:-1],), (13, 0)),
    ("F", (octets("80000000 00000010 00000000 00000010"),), (13, 0)),
    ("F", (octets("00000000 00000011 00000000 00000011 00"),), (13, 0)),
    ("F", (octets("00000000 00000010 00000000 00000011 00"),), (13, 0)),
    # "with no records there are no stamp octets (else 13)"
    ("F", (octets("00000000 00000010 00000001 00000010 00"),), (13, 0)),
    # 2 to the 30 records are 0 octets once 32 bits wrap.
    ("F", (octets("40000000 00000010 00000000 00000010"),), (13, 0)),
    # 14: channel 0 and 17, the correction beyond 1,000,000 either way.
    ("F", (one_record("00000000 0001 0000 00000000", b"\x00"),), (14, 1)),
    ("F", (one_record("00000000 0001 0011 00000000", b"\x00"),), (14, 1)),
    ("F", (one_record("00000000 0001 0001 000F4241", b"\x00"),), (14, 1)),
    ("F", (one_record("00000000 0001 0001 FFF0BDBF", b"\x00"),), (14, 1)),
    # 14: not at 0; past the region; not to its end (R4.1).
    ("F", (one_record("00000001 0001 0001 00000000", b"\x00\x00"),), (14, 1)),
    ("F", (one_record("00000000 0002 0001 00000000", b"\x00"),), (14, 1)),
    ("F", (one_record("00000000 0001 0001 00000000", b"\x00\x00"),), (14, 1)),
    # "then 5 to 8 for a stamp"; length alone is 5 (R4.2).
    ("F", (one_record("00000000 0000 0001 00000000", b""),), (5, 1)),
    ("F", (one_record("00000000 0021 0001 00000000", b"0" * 33),), (5, 1)),
    ("F", (one_record("00000000 0019 0001 00000000",
                      b"2020-01-01t00:00:00+00:00"),), (6, 1)),
    ("F", (one_record("00000000 0002 0001 00000000", b"\x00\x01"),), (7, 1)),
    ("F", (one_record("00000000 0019 0001 00000000",
                      b"2020-13-01T00:00:00+00:00"),), (8, 1)),
    # Strict: a Datetime is no DatetimeTz (R4.5).
    ("F", (one_record("00000000 0013 0001 00000000",
                      b"2020-01-01T00:00:00"),), (5, 1)),
    ("F", (one_record("00000000 000A 0001 00000000",
                      octets("80000B40900000000000")),), (5, 1)),
    # "15 order": by instants, not by local readings; equal ones are good.
    ("F", (TWO_TURNED,), (15, 2)),
    ("F", (EQUAL_INSTANTS,), (0, 2)),
    ("P", (EQUAL_INSTANTS, 1), (0, 1, 0, OF_2020, 40, 10)),
    ("P", (EQUAL_INSTANTS, 2), (0, 1, -1, OF_2020, 50, 25)),
    # "Header first, then each record in turn", and at one in that order (R4.3).
    ("F", (one_record("00000000 0002 0000 00000000", b"\x00\x01"),), (14, 1)),
    ("F", (one_record("00000000 0002 0001 00000000", b"\x00\x01") + b"\x00",),
     (13, 0)),
)

# 02, request 5 (R5.1 to R5.4).
# TWO_RECORDS with an octet behind the last stamp that its record does not tell of.
OCTET_OVER = octets("00000002 00000010 00000009 00000028"
                    "00000000 0001 0010 000F4240"
                    "00000001 0007 0001 FFF0BDC0" "00" "FEF2FFFFFFFFFF" "00")
# TWO_RECORDS with channel 0 in the second, and with offset 1440 in its stamp.
SECOND_BAD = octets("00000002 00000010 00000008 00000028"
                    "00000000 0001 0010 000F4240"
                    "00000001 0007 0000 FFF0BDC0" "00" "FEF2FFFFFFFFFF")
SECOND_STAMP_BAD = octets("00000002 00000010 00000008 00000028"
                          "00000000 0001 0010 000F4240"
                          "00000001 0007 0001 FFF0BDC0" "00" "05A00000000000")

REQUEST_5 = (
    # "For an instant and channel, answer the last record of that channel at or
    # before it."
    ("Q", (ONE_RECORD, OF_2020, 16), (0, 1, 1, 28, 1, OF_2020, 1_000_000)),
    ("Q", (TWO_RECORDS, OF_2020, 16), (0, 2, 1, 40, 1, OF_2020, 1_000_000)),
    ("Q", (TWO_RECORDS, OF_M, 16), (0, 2, 1, 40, 1, OF_2020, 1_000_000)),
    ("Q", (TWO_RECORDS, OF_M, 1), (0, 2, 2, 41, 7, OF_M, -1_000_000)),
    ("Q", (TWO_RECORDS, OF_M + 1, 1), (0, 2, 2, 41, 7, OF_M, -1_000_000)),
    ("Q", (EQUAL_INSTANTS, OF_2020, 1), (0, 2, 2, 50, 25, OF_2020, -1)),
    # "The answer carries the number of records read: that one's place counting
    # from one, or all of them if there is none". "'None yet' is a separate answer."
    ("Q", (NO_RECORDS, OF_2020, 1), (0, 0, "none")),                # R5.3
    ("Q", (TWO_RECORDS, OF_2020 - 1, 16), (0, 1, "none")),
    ("Q", (TWO_RECORDS, OF_M - 1, 1), (0, 2, "none")),
    ("Q", (TWO_RECORDS, OF_M, 2), (0, 2, "none")),
    ("Q", (EQUAL_INSTANTS, OF_2020 - 1, 1), (0, 1, "none")),
    # "Every signed 64-bit instant may be asked."
    ("Q", (TWO_RECORDS, LEAST_64, 16), (0, 1, "none")),
    ("Q", (TWO_RECORDS, FIRST - 1, 16), (0, 1, "none")),
    ("Q", (TWO_RECORDS, LAST + 1, 16), (0, 2, 1, 40, 1, OF_2020, 1_000_000)),
    ("Q", (TWO_RECORDS, MOST_64, 16), (0, 2, 1, 40, 1, OF_2020, 1_000_000)),
    # "For others the answer is fixed by the header and the records read, with
    # request 4's refusal if one of these is bad": the first later one too (R5.1).
    ("Q", (SECOND_BAD, OF_2020 - 1, 16), (0, 1, "none")),
    ("Q", (SECOND_BAD, OF_2020, 16), 14),
    ("Q", (SECOND_STAMP_BAD, OF_2020 - 1, 1), (0, 1, "none")),
    ("Q", (SECOND_STAMP_BAD, OF_2020, 1), 8),
    ("Q", (TWO_TURNED, OF_M - 1, 16), (0, 1, "none")),
    ("Q", (TWO_TURNED, OF_M, 16), 15),
    # The last stamp's end, if the last record is read (R5.2).
    ("Q", (OCTET_OVER, OF_2020 - 1, 16), (0, 1, "none")),
    ("Q", (OCTET_OVER, OF_2020, 16), 14),
    # The header always (R5.1).
    ("Q", (TWO_RECORDS[:-1], LEAST_64, 16), 13),
    ("Q", (TWO_RECORDS + b"\x00", OF_2020 - 1, 16), 13),
    ("Q", (b"", OF_2020, 16), 13),
    # "a bad channel is 2, before the file" (R5.4).
    ("Q", (TWO_RECORDS, OF_2020, 0), 2),
    ("Q", (TWO_RECORDS, OF_2020, 17), 2),
    ("Q", (TWO_RECORDS, OF_2020, 4_294_967_295), 2),
    ("Q", (SECOND_BAD, OF_2020, 0), 2),
    ("Q", (b"", LEAST_64, 17), 2),
)

# 02, request 6 (R6.1, R6.2): plan, manual, instant and channel.
# Channel 16, as in ONE_RECORD: 1 ms before 2020, 1 ms after its start, and at its
# start as 01:00+01:00.
EARLIER = one_record("00000000 0001 0010 00000000", octets("FF"))
LATER = one_record("00000000 0001 0010 00000000", octets("01"))
AT_PLUS_60 = one_record("00000000 0007 0010 00000000", octets("003C000036EE80"))
EMPTY_PART = (0, 0, 0)

REQUEST_6 = (
    # "as a part of whichever of the two lent files it stands in: the later instant"
    ("O", (ONE_RECORD, LATER, OF_2020 + 1_000, 16), (1, 28, 1)),
    ("O", (LATER, ONE_RECORD, OF_2020 + 1_000, 16), (0, 28, 1)),
    ("O", (TWO_RECORDS, EARLIER, OF_2020, 16), (0, 40, 1)),
    ("O", (EARLIER, TWO_RECORDS, OF_2020, 16), (1, 40, 1)),
    # One that is later than the instant asked for does not hold.
    ("O", (TWO_RECORDS, LATER, OF_2020 + 999, 16), (0, 40, 1)),
    ("O", (LATER, TWO_RECORDS, OF_2020 + 999, 16), (1, 40, 1)),
    # "and the manual one at equality", however the stamps say it
    ("O", (ONE_RECORD, TWO_RECORDS, OF_2020, 16), (1, 40, 1)),
    ("O", (TWO_RECORDS, ONE_RECORD, MOST_64, 16), (1, 28, 1)),
    ("O", (ONE_RECORD, AT_PLUS_60, OF_2020, 16), (1, 28, 7)),
    ("O", (AT_PLUS_60, ONE_RECORD, OF_2020, 16), (1, 28, 1)),
    ("O", (EQUAL_INSTANTS, EQUAL_INSTANTS, OF_2020, 1), (1, 50, 25)),
    # "if only one holds, that one"
    ("O", (TWO_RECORDS, NO_RECORDS, OF_M, 1), (0, 41, 7)),
    ("O", (NO_RECORDS, TWO_RECORDS, OF_M, 1), (1, 41, 7)),
    ("O", (TWO_RECORDS, ONE_RECORD, OF_M, 1), (0, 41, 7)),
    ("O", (EQUAL_INSTANTS, TWO_RECORDS, OF_M - 1, 1), (0, 50, 25)),
    ("O", (EQUAL_INSTANTS, TWO_RECORDS, OF_M, 1), (1, 41, 7)),
    # "If neither holds a correction"
    ("O", (NO_RECORDS, NO_RECORDS, MOST_64, 1), EMPTY_PART),
    ("O", (TWO_RECORDS, EQUAL_INSTANTS, OF_2020 - 1, 1), EMPTY_PART),
    ("O", (TWO_RECORDS, ONE_RECORD, MOST_64, 2), EMPTY_PART),
    ("O", (ONE_RECORD, ONE_RECORD, LEAST_64, 16), EMPTY_PART),
    # "or either question of request 5 is refused", though the other holds (R6.1)
    ("O", (TWO_RECORDS[:-1], ONE_RECORD, OF_2020, 16), EMPTY_PART),
    ("O", (ONE_RECORD, TWO_RECORDS[:-1], OF_2020, 16), EMPTY_PART),
    ("O", (b"", ONE_RECORD, OF_2020, 16), EMPTY_PART),
    ("O", (ONE_RECORD, b"", OF_2020, 16), EMPTY_PART),
    ("O", (b"", b"", OF_2020, 16), EMPTY_PART),
    ("O", (SECOND_BAD, EARLIER, OF_2020, 16), EMPTY_PART),
    ("O", (EARLIER, SECOND_STAMP_BAD, OF_2020, 16), EMPTY_PART),
    ("O", (LATER, TWO_TURNED, OF_M, 16), EMPTY_PART),
    # .. and a bad channel
    ("O", (ONE_RECORD, ONE_RECORD, OF_2020, 0), EMPTY_PART),
    ("O", (ONE_RECORD, ONE_RECORD, OF_2020, 17), EMPTY_PART),
    ("O", (ONE_RECORD, ONE_RECORD, OF_2020, 4_294_967_295), EMPTY_PART),
    # What is not read is no matter, as in request 5.
    ("O", (SECOND_BAD, EARLIER, OF_2020 - 1, 16), (1, 28, 1)),
    ("O", (EARLIER, SECOND_STAMP_BAD, OF_2020 - 1, 16), (0, 28, 1)),
)
