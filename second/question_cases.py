"""The cases of the question which correction holds (02, request 5): Q, a file, an
instant and a channel, in a fixed order and none twice.

Here: the documents' examples, each octet of a file damaged, many records, and
chance. The cases made by hand for each rule are in question_rules.py.
"""

import question_rules
import schedule_examples
from chance import Chance
from examples import LEAST_64, MOST_64, OF_2020
from question_rules import BAD_CHANNELS, FAR
from schedule import LAST_CHANNEL, MOST_RECORDS
from schedule_cases import some_file
from schedule_files import *


def documents_examples(cases):
    for letter, given, _ in schedule_examples.REQUEST_5:
        cases.seen[(letter,) + given] = True


def damaged(cases):
    """Each octet of a small file in turn, with some stops: behind the stop it is no
    matter, but in the header."""
    small = with_channels(card(SHORT[:3]), (1, 2, 1))
    mixed = with_channels(card(MIXED), (1, 1, 2))
    for file, ways in ((small, (0x01, 0x80, 0xFF)), (mixed, (0x01,))):
        at = moments(file)
        for place in range(len(file)):
            for way in ways:
                other = put(file, (place, 1), file[place] ^ way)
                for instant in (at[0] - 1, at[1], MOST_64):
                    cases.holds(other, instant, 1)


def many_records(cases):
    """1,000 records and 1,001, in few octets; the last too early, read and not read;
    and more places than an octet holds."""
    stamps = tuple(stamp_at(OF_2020 + place // 8 * MILLI)
                   for place in range(MOST_RECORDS))
    file = card(stamps)
    cases.holds(file, OF_2020 + 62 * MILLI, 1)
    cases.holds(file, OF_2020 + 124 * MILLI, 12)
    early = card(stamps[:-1] + (stamps[0],))
    cases.holds(early, OF_2020 + 124 * MILLI - 1, 12)
    cases.holds(early, OF_2020 + 124 * MILLI, 12)
    cases.holds(card(stamps + stamps[-1:]), LEAST_64, 1)
    some = card(stamps[:258])
    for instant, channel in ((OF_2020 + 31 * MILLI, 1), (OF_2020 + 31 * MILLI, 12),
                             (MOST_64, 6)):
        cases.holds(some, instant, channel)


def some_question(chance, file):
    """An instant beside a record's and a channel that a record has, mostly."""
    instants = moments(file) or [OF_2020]
    instant = chance.pick((chance.pick(instants), chance.pick(instants),
                           chance.pick(instants), instants[-1], chance.pick(FAR)))
    instant += chance.pick((0, 0, -1, 1, MILLI))
    channels = [1 + place * 5 % 16 for place in range(len(instants))]
    channel = chance.pick(channels)
    if chance.below(4) == 0:
        channel = chance.between(1, LAST_CHANNEL)
    if chance.below(16) == 0:
        channel = chance.pick(BAD_CHANNELS)
    return max(LEAST_64, min(instant, MOST_64)), channel


def some_channels(chance, file):
    """Half of the time the records share few channels."""
    if chance.below(2) == 0:
        return file
    few = (1, 6, 11)[:chance.between(1, 3)]
    return with_channels(file, [chance.pick(few) for _ in moments(file)])


def by_chance(cases):
    chance = Chance(1_000_003)
    for _ in range(320):
        file = some_channels(chance, some_file(chance))
        for _ in range(2):
            cases.holds(file, *some_question(chance, file))


def question_cases():
    cases = Cases()
    for group in ((documents_examples,) + question_rules.GROUPS
                  + (damaged, many_records, by_chance)):
        group(cases)
    return list(cases.seen)
