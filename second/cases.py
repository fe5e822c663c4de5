#!/usr/bin/env python3
"""Writes the cases and their answers: cases.py writing|reading|instants|schedule|over OUTDIR

Two text files, `cases` and `answers`; line i of one belongs to line i of the
other. Fields are separated by one space, every line ends with a newline.

    W kind year month day micros offset binary version digits room
        answer: number count hex      (the whole buffer afterwards, - if room 0)
    R kind hex                        (- for zero octets)
        answer: number                (after a refusal), or
                0 kind form digits year month day micros offset

Instants (02, request 2); a refused one has only its number as answer:

    I year month day micros offset    answer: 0 instant
    A instant micros                  (an instant and a number added)
        answer: 0 sum
    D a b                             answer: 0 difference
    T instant offset                  (the stamp of an instant at an offset)
        answer: 0 year month day micros offset
    S year month day micros offset to (a stamp restated at an offset)
        answer: 0 year month day micros offset

Schedule files (02, request 4):

    F hex                             (full reading; - for zero octets)
        answer: 0 records             or
                number fault          (its place from one, 0 for the header)
    P place hex                       (the record at a place)
        answer: number                (after a refusal), or
                0 channel correction instant start length
    Q instant channel hex             (which correction holds; 02, request 5)
        answer: number                (after a refusal), or
                0 read none           (none yet; read: the number of records read)
                0 read place start length instant correction
    O instant channel plan manual     (manual over plan; 02, request 6; both in hex)
        answer: which start length hex
                (which: 0 the plan, 1 the manual one; the part of it, and its octets;
                0 0 0 - for the empty one)

Years, months, days, kinds, versions, digits, places and the channel asked for are
unsigned numbers of 32 bits, the micros of a day unsigned of 64, offsets signed of
32, instants and micros that are added signed of 64. Each lent octet is 5A before
the call. Afterwards a table is printed: how many cases of each kind, or of each
letter of instants and schedules, have each answer number; those of O by which file.
"""

import os
import sys

from stamp import read, schedule_over, write_into


def hex_or_dash(octets):
    return octets.hex().upper() or "-"


def fields(parts):
    return " ".join(str(part) for part in parts)


def writing_lines():
    from writing_cases import writing_cases
    for case in writing_cases():
        number, count, buffer = write_into(*case)
        yield "W " + fields(case), fields((number, count, hex_or_dash(buffer)))


def reading_lines():
    from reading_cases import reading_cases
    for kind, octets in reading_cases():
        answer = read(kind, octets)
        if isinstance(answer, tuple):
            answer_line = "0 " + fields(answer)
        else:
            answer_line = str(answer)
        yield "R %d %s" % (kind, hex_or_dash(octets)), answer_line


def instant_lines():
    from instant_cases import CALLS, instant_cases
    for letter, *numbers in instant_cases():
        answer = CALLS[letter](*numbers)
        answer_line = fields(answer) if isinstance(answer, tuple) else str(answer)
        yield letter + " " + fields(numbers), answer_line


def schedule_lines():
    from question_cases import question_cases
    from schedule_cases import CALLS, schedule_cases
    for letter, file, *asked in schedule_cases() + question_cases():
        answer = CALLS[letter](file, *asked)
        answer_line = fields(answer) if isinstance(answer, tuple) else str(answer)
        yield fields([letter, *asked, hex_or_dash(file)]), answer_line


def over_lines():
    from over_cases import over_cases
    for _, plan, manual, *asked in over_cases():
        which, start, length = schedule_over(plan, manual, *asked)
        part = (plan, manual)[which][start:start + length]
        yield (fields(["O", *asked, hex_or_dash(plan), hex_or_dash(manual)]),
               fields([which, start, length, hex_or_dash(part)]))


def row_of(case):
    """The kind of a W or R, the letter of another."""
    letter, first = case.split()[:2]
    return first if letter in "WR" else letter


def print_table(lines):
    """Kinds or letters down, answer numbers across."""
    count = {}
    for case, answer in lines:
        place = row_of(case), int(answer.split()[0])
        count[place] = count.get(place, 0) + 1
    rows = sorted({row for row, _ in count})
    numbers = sorted({number for _, number in count})
    print("kind" + "".join("%8d" % number for number in numbers))
    for row in rows:
        print("%4s" % row + "".join(
            "%8d" % count.get((row, number), 0) for number in numbers))
    print("%d cases" % len(lines))


def main():
    makers = {"writing": writing_lines, "reading": reading_lines,
              "instants": instant_lines, "schedule": schedule_lines,
              "over": over_lines}
    if len(sys.argv) != 3 or sys.argv[1] not in makers:
        sys.exit("usage: cases.py writing|reading|instants|schedule|over OUTDIR")
    lines = list(makers[sys.argv[1]]())
    os.makedirs(sys.argv[2], exist_ok=True)
    for column, name in enumerate(("cases", "answers")):
        path = os.path.join(sys.argv[2], name)
        with open(path, "w", encoding="ascii", newline="\n") as file:
            for line in lines:
                file.write(line[column] + "\n")
    print_table(lines)


if __name__ == "__main__":
    main()
