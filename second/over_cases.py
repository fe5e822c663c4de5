"""The cases of manual over plan (02, request 6): O, a plan, a manual file, an instant
and a channel, in a fixed order and none twice.

Here: the documents' examples, each octet of a file damaged, more records, and
chance. The cases made by hand for each rule are in over_rules.py.
"""

import over_rules
import schedule_examples
from chance import Chance
from common import *
from examples import MOST_64, OF_2020
from over_rules import EARLY_ONE, after, of
from schedule_cases import some_change
from schedule_files import *


def documents_examples(cases):
    for letter, given, _ in schedule_examples.REQUEST_6:
        cases.seen[(letter,) + given] = True


def damaged(cases):
    """Each octet of a small plan and of a small manual file, beside one that holds
    too; all of it read, and where some of it is not read behind the stop."""
    small = of((after(-8), 1), (after(7), 1), (after(8), 2))
    for place in range(len(small)):
        other = put(small, (place, 1), small[place] ^ 0x01)
        for instant in (OF_2020, MOST_64):
            cases.over_either(other, EARLY_ONE, instant, 1)


def more_records(cases):
    """A part that starts beyond what an octet tells."""
    many = of(*((after(number), 1 + number % 2) for number in range(24)))
    for instant, channel in ((OF_2020, 1), (OF_2020 + 9 * MILLI, 1), (MOST_64, 2)):
        cases.over_either(many, EARLY_ONE, instant, channel)


# By chance

def some_times(chance):
    """Of up to three records, in milliseconds: mostly near one another."""
    millis = chance.pick((0, -100, 40_000, chance.with_bits(40)))
    times = []
    for _ in range(chance.pick((0, 1, 1, 1, 2, 2, 2, 3, 3))):
        millis += chance.pick((0, 1, 1, 7, 900))
        times.append(OF_2020 + millis * MILLI)
    return times


def some_times_beside(chance, times):
    """The same ones, or some of them a little earlier or later."""
    away = (0, 0, MILLI, -MILLI, 1, -1)
    return sorted(instant + chance.pick(away) for instant in times
                  if chance.below(4) > 0)


def some_file_at(chance, times):
    """Compact where that tells the instant, mostly; of few channels; changed once in
    a while."""
    stamps = []
    for instant in times:
        form = COMPACT if instant % MILLI == 0 and chance.below(6) > 0 else EXTENDED
        stamps.append(stamp_at(instant, chance.pick((0, 0, 60, -1_439)), form))
    file = with_channels(card(stamps), [chance.pick((1, 1, 6)) for _ in stamps])
    if chance.below(8) == 0:
        file = some_change(chance, file, len(stamps))
    return file


def some_pair(chance):
    """Of instants that meet, most of the time."""
    times = some_times(chance)
    others = some_times(chance)
    if chance.below(4) > 0:
        others = some_times_beside(chance, times)
    return some_file_at(chance, times), some_file_at(chance, others)


def some_question_of_two(chance, plan, manual):
    """Beside a record of one of them, mostly behind the first; a channel that a
    record has, mostly."""
    instants = moments(plan) + moments(manual) or [OF_2020]
    instant = max(chance.pick(instants), chance.pick(instants))
    return (instant + chance.pick((0, 0, 0, 1, -1, MILLI)),
            chance.pick((1, 1, 1, 1, 6, 6, 2)))


def by_chance(cases):
    """Every third pair also the other way round."""
    chance = Chance(1_000_033)
    for number in range(168):
        plan, manual = some_pair(chance)
        asked = some_question_of_two(chance, plan, manual)
        if number % 3 == 0:
            cases.over_either(plan, manual, *asked)
        else:
            cases.over(plan, manual, *asked)


def over_cases():
    cases = Cases()
    for group in ((documents_examples,) + over_rules.GROUPS
                  + (damaged, more_records, by_chance)):
        group(cases)
    return list(cases.seen)
