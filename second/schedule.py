"""The schedule file (02, request 4): full reading, and the record at a place; or
refusal 13, 14, 5 to 8, 15, and 2 for a place. And the question which correction
holds (02, request 5); or refusal 2 for a channel, then those of the file. And the
stamp that holds of two files, manual over plan (02, request 6), which refuses
nothing.

A file is octets. All numbers in it are big-endian. A stamp is read by reading's
own reader of DatetimeTz and has the instant that instants give it.
"""

from common import *
from instants import instant
from reading import read, signed, unsigned

HEADER_OCTETS = 16
RECORD_OCTETS = 12
MOST_RECORDS = 1_000
LAST_CHANNEL = 16
LAST_CORRECTION = 1_000_000              # either way
NONE_YET = "none"                        # "is a separate answer"
PLAN, MANUAL = 0, 1                      # "whichever of the two lent files"


def schedule_read(file):
    """(0, number of records), or (refusal, fault): the place, from one, of the
    record that is refused, 0 for the header (R4.6)."""
    refusal, fault, records = read_all(file)
    return (refusal, fault) if refusal != 0 else (0, len(records))


def schedule_record(file, place):
    """(0, channel, correction, instant, start of the stamp within the file, its
    length) of the record at a place, from one; or the file's own refusal, then
    2 for a place that the file hasn't."""
    refusal, _, records = read_all(file)
    if refusal != 0:
        return refusal
    if not 1 <= place <= len(records):
        return 2
    return (0,) + records[place - 1]


def schedule_holds(file, instant, channel):
    """(0, number of records read, place from one of the record that holds, start
    of its stamp within the file, its length, its instant, its correction), or
    (0, number of records read, NONE_YET) (R5.3); or refusal 2, then the file's
    own by its header and the records read, which stands for 0 of them too. Any
    instant may be asked (R5.4)."""
    # "a bad channel is 2, before the file"
    if not 1 <= channel <= LAST_CHANNEL:
        return 2
    # The header counts as a whole, however few records are read (R5.1).
    if not is_header(file):
        return 13
    holds = (NONE_YET,)
    before = None
    # "Read from the front": each record is checked in full, with "request 4's
    # refusal if one of these is bad", the first later one too (R5.1). Where the
    # stamps end is asked of the last record, so only if that is read (R5.2).
    for place in range(1, record_count(file) + 1):
        record = read_record(file, place, before)
        if isinstance(record, int):
            return record
        # "stop at the first record later than the instant": the number read is
        # "that one's place counting from one"
        if instant_of(record) > instant:
            return (0, place) + holds
        # "the last record of that channel at or before it"
        own, correction, moment, start, length = record
        if own == channel:
            holds = place, start, length, moment, correction
        before = record
    # "or all of them if there is none"
    return (0, record_count(file)) + holds


def schedule_over(plan, manual, instant, channel):
    """(PLAN or MANUAL, start of the stamp within that file, its length): "the
    stamp of the correction that holds, as a part of whichever of the two lent
    files it stands in". "An empty part of the plan" is (PLAN, 0, 0), its first
    none octets (R6.1). Both files are of the old form (R6.2)."""
    of_plan = schedule_holds(plan, instant, channel)
    of_manual = schedule_holds(manual, instant, channel)
    # "or either question of request 5 is refused", whatever the other one says,
    # and for a bad channel both are (R6.1)
    if isinstance(of_plan, int) or isinstance(of_manual, int):
        return PLAN, 0, 0
    # "If neither holds a correction .."
    if not holds_any(of_plan) and not holds_any(of_manual):
        return PLAN, 0, 0
    # "if only one holds, that one"
    if not holds_any(of_manual):
        return (PLAN,) + stamp_held(of_plan)
    if not holds_any(of_plan):
        return (MANUAL,) + stamp_held(of_manual)
    # "the later instant, and the manual one at equality"
    if instant_held(of_plan) > instant_held(of_manual):
        return (PLAN,) + stamp_held(of_plan)
    return (MANUAL,) + stamp_held(of_manual)


# Answers of schedule_holds

def holds_any(answer):
    return answer[2] != NONE_YET


def stamp_held(answer):
    """Its start within the file, and its length."""
    return answer[3:5]


def instant_held(answer):
    return answer[5]


# The whole file

def read_all(file):
    """(0, 0, the records), or (refusal, fault, none): "Header first, then each
    record in turn"."""
    if not is_header(file):
        return 13, 0, []
    records = []
    for place in range(1, record_count(file) + 1):
        record = read_record(file, place, records[-1] if records else None)
        if isinstance(record, int):
            return record, place, []
        records.append(record)
    return 0, 0, records


# Header

def header_number(file, place):
    """One of "four big-endian 32-bit numbers", the first is 0."""
    return unsigned(file[4 * place:4 * place + 4])


def record_count(file):
    return header_number(file, 0)


def is_header(file):
    """Header, counts and regions: else 13. Python's sums are exact, so none can
    wrap (R4.4)."""
    if len(file) < HEADER_OCTETS:
        return False
    records, records_at, stamp_octets, stamps_at = (
        header_number(file, place) for place in range(4))
    # "At most 1,000 records"
    if records > MOST_RECORDS:
        return False
    # "The two regions follow the header in that order, without gap or overlap,
    # and end the file."
    if records_at != HEADER_OCTETS:
        return False
    if stamps_at != records_at + records * RECORD_OCTETS:
        return False
    if len(file) != stamps_at + stamp_octets:
        return False
    # "with no records there are no stamp octets (else 13)"
    return records > 0 or stamp_octets == 0


# Records

def read_record(file, place, before):
    """(channel, correction, instant, start of the stamp within the file, its
    length), or refusal 14, 5 to 8, 15, in that order (R4.3). `before` is the
    record before this one, None at the first."""
    octets = file[HEADER_OCTETS + (place - 1) * RECORD_OCTETS:][:RECORD_OCTETS]
    stamps_at = header_number(file, 3)
    start = stamps_at + unsigned(octets[0:4])    # "within the stamp octets"
    length = unsigned(octets[4:6])
    channel = unsigned(octets[6:8])
    correction = signed(octets[8:12])

    # 14: "a record's channel, correction or stamp place".
    if not 1 <= channel <= LAST_CHANNEL:
        return 14
    if not -LAST_CORRECTION <= correction <= LAST_CORRECTION:
        return 14
    # "Stamps follow one another in record order without gaps, the first starts
    # at 0, and the last record's stamp ends its region", which ends the file
    # (R4.1). The length alone is no matter of place (R4.2).
    if start != (stamps_at if before is None else end_of_stamp(before)):
        return 14
    if start + length > len(file):
        return 14
    if place == record_count(file) and start + length != len(file):
        return 14

    # 5 to 8: "Stamps are DatetimeTz contents" (R4.5).
    answer = read(DATETIME_TZ, file[start:start + length])
    if isinstance(answer, int):
        return answer
    _, _, _, year, month, day, micros, offset = answer
    _, moment = instant(year, month, day, micros, offset)

    # 15: "instants never decrease", whatever the channels (R4.3).
    if before is not None and moment < instant_of(before):
        return 15
    return channel, correction, moment, start, length


def instant_of(record):
    return record[2]


def end_of_stamp(record):
    """Within the file."""
    return record[3] + record[4]
