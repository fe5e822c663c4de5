"""The self-test's part on schedules: full reading, the record at a place, which
correction holds, and manual over plan, against a description of the whole file, and
their laws."""

from chance import Chance
from common import DATETIME_TZ
from examples import MOST_64
from instants import instant as instant_of_stamp
from over_cases import over_cases, some_pair, some_question_of_two
from question_cases import question_cases, some_channels, some_question
from reading import read
from schedule import (MANUAL, NONE_YET, PLAN, holds_any, instant_held, read_all,
                      schedule_holds, schedule_over, schedule_read, schedule_record,
                      stamp_held)
from schedule_by_places import BY_PLACES
from schedule_cases import CALLS, schedule_cases, some_file
from schedule_files import (CHANNEL, CORRECTION, LENGTH, START, STAMPS_AT, card,
                            in_record, number_at, put)


def check_file(letter, *given):
    answer = CALLS[letter](*given)
    assert answer == BY_PLACES[letter](*given), (letter, given, answer)


def check_records(file):
    """The records that an accepted file is said to have give the file again."""
    refusal, number = schedule_read(file)
    if refusal != 0:
        assert schedule_record(file, 1) == schedule_record(file, 0) == refusal
        return
    records = [schedule_record(file, place) for place in range(1, number + 1)]
    again = card([file[start:start + length] for *_, start, length in records])
    for place, (_, channel, correction, *_) in enumerate(records, 1):
        again = put(again, in_record(place, CHANNEL), channel)
        again = put(again, in_record(place, CORRECTION), correction)
    assert again == file, file
    assert schedule_record(file, 0) == schedule_record(file, number + 1) == 2


def test_schedules():
    """All cases and more files by chance against the description of the whole
    file."""
    for case in schedule_cases():
        check_file(*case)
    chance = Chance(13)
    for _ in range(10_000):
        file = some_file(chance)
        check_file("F", file)
        check_file("P", file, chance.below(7))
        check_records(file)


def check_over_all(file, instant, channel):
    """"For every file that full reading accepts, the answer equals the one over all
    records." A refused one is refused alike when all records are read."""
    refusal, _, records = read_all(file)
    if refusal != 0:
        assert schedule_holds(file, MOST_64, 1) == refusal, file
        return
    if channel not in range(1, 17):
        return
    holds, later = (NONE_YET,), []
    for place, record in enumerate(records, 1):
        own, correction, moment, start, length = record
        if own == channel and moment <= instant:
            holds = place, start, length, moment, correction
        if moment > instant:
            later.append(place)
    wanted = (0, min(later, default=len(records))) + holds
    assert schedule_holds(file, instant, channel) == wanted, (file, instant, channel)


def check_unread(chance, file, instant, channel):
    """The answer "is fixed by the header and the records read": with any octets in
    place of the other records and their stamps it is the same."""
    answer = schedule_holds(file, instant, channel)
    if isinstance(answer, int) or answer[1] == 0:
        return
    last, stamps = answer[1], number_at(file, STAMPS_AT)
    records_end = in_record(last + 1, START)[0]
    stamps_end = stamps + sum(number_at(file, in_record(last, field))
                              for field in (START, LENGTH))
    other = (file[:records_end] + chance.octets(stamps - records_end)
             + file[stamps:stamps_end] + chance.octets(len(file) - stamps_end))
    assert schedule_holds(other, instant, channel) == answer, (file, instant, channel)


def check_question(chance, file, instant, channel):
    check_file("Q", file, instant, channel)
    check_over_all(file, instant, channel)
    check_unread(chance, file, instant, channel)


def test_questions():
    """All cases and more by chance: against the description, over all records,
    and with what is not read replaced."""
    chance = Chance(17)
    for _, *question in question_cases():
        check_question(chance, *question)
    for _ in range(8_000):
        file = some_channels(chance, some_file(chance))
        for _ in range(2):
            check_question(chance, file, *some_question(chance, file))


EMPTY = PLAN, 0, 0


def check_part(plan, manual, instant, channel):
    """"an accepted stamp is never empty": the part is empty exactly where neither
    holds or a question is refused; any other is a stamp that DatetimeTz's reader
    takes, at the instant asked for or before it, of the later of the two."""
    answers = [schedule_holds(file, instant, channel) for file in (plan, manual)]
    refused = any(isinstance(answer, int) for answer in answers)
    held = [] if refused else [answer for answer in answers if holds_any(answer)]
    which, start, length = schedule_over(plan, manual, instant, channel)
    assert (length == 0) == (held == []), (plan, manual, instant, channel)
    if length == 0:
        assert (which, start) == (PLAN, 0), (plan, manual, instant, channel)
        return
    stamp = read(DATETIME_TZ, (plan, manual)[which][start:start + length])
    _, moment = instant_of_stamp(*stamp[3:])
    assert moment == max(instant_held(answer) for answer in held) <= instant


def check_exchanged(plan, manual, instant, channel):
    """Plan and manual exchanged: the same record in the other place; but at
    equality the manual one each time."""
    answer = schedule_over(plan, manual, instant, channel)
    turned = schedule_over(manual, plan, instant, channel)
    if answer == EMPTY:
        assert turned == EMPTY, (plan, manual, instant, channel)
        return
    of_plan, of_manual = (schedule_holds(file, instant, channel)
                          for file in (plan, manual))
    if (holds_any(of_plan) and holds_any(of_manual)
            and instant_held(of_plan) == instant_held(of_manual)):
        assert answer == (MANUAL,) + stamp_held(of_manual)
        assert turned == (MANUAL,) + stamp_held(of_plan)
        return
    which, *stamp = answer
    other = MANUAL if which == PLAN else PLAN
    assert turned == (other, *stamp), (plan, manual, instant, channel)


def check_same_file(file, instant, channel):
    """The same file as both: the manual one wherever a record holds."""
    answer = schedule_holds(file, instant, channel)
    wanted = EMPTY
    if not isinstance(answer, int) and holds_any(answer):
        wanted = (MANUAL,) + stamp_held(answer)
    assert schedule_over(file, file, instant, channel) == wanted, file


def check_over(plan, manual, instant, channel):
    check_file("O", plan, manual, instant, channel)
    check_part(plan, manual, instant, channel)
    check_exchanged(plan, manual, instant, channel)
    check_same_file(plan, instant, channel)
    check_same_file(manual, instant, channel)


def test_over():
    """All cases and more by chance: against the description, and the laws. Some of
    the files are those of the questions, which hardly ever meet."""
    for _, *asked in over_cases():
        check_over(*asked)
    chance = Chance(19)
    for _ in range(5_000):
        plan, manual = some_pair(chance)
        check_over(plan, manual, *some_question_of_two(chance, plan, manual))
    for _ in range(1_000):
        plan, manual = (some_channels(chance, some_file(chance)) for _ in range(2))
        check_over(plan, manual, *some_question(chance, plan))
