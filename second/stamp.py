#!/usr/bin/env python3
"""Writes and reads the contents octets of date-and-time stamps, reckons with their
UTC instants, reads schedule files and asks them which correction holds, or two of
them which stamp does.

Kinds:  0 Date, 1 DateTz, 2 Time, 3 TimeTz, 4 Datetime, 5 DatetimeTz;
        for reading also 6, 7, 8: Date, Time, Datetime, each "or its Tz".
Forms:  0 text, 1 compact, 2 extended.

    write(kind, year, month, day, micros, offset, binary, version, digits)
        -> (0, octets) or (refusal 1 to 3, no octets)
    write_into(the same, room)
        -> (0 or refusal 1 to 4, count, the buffer of `room` octets afterwards)
    read(kind, octets)
        -> refusal 5 to 8, or
           (kind, form, digits, year, month, day, micros, offset)
    instant(year, month, day, micros, offset)   -> refusal 2, or (0, instant)
    add(instant, micros)                        -> refusal 2, 9, or (0, sum)
    difference(a, b)                            -> refusal 2, or (0, a less b)
    at(instant, offset), restate(year, month, day, micros, offset, to)
        -> refusal 2, 9, or (0, year, month, day, micros, offset)
    schedule_read(file)
        -> (0, number of records), or (refusal 13, 14, 5 to 8, 15, its place)
    schedule_record(file, place)
        -> refusal 13, 14, 5 to 8, 15, then 2, or
           (0, channel, correction, instant, start of the stamp, its length)
    schedule_holds(file, instant, channel)
        -> refusal 2, then 13, 14, 5 to 8, 15, or
           (0, number of records read, place, start of the stamp, its length,
           instant, correction), or (0, number of records read, NONE_YET)
    schedule_over(plan, manual, instant, channel)
        -> (PLAN or MANUAL, start of the stamp in that file, its length), or
           (PLAN, 0, 0)

Writing, reading and instants are separate procedures in files of their own. They
share only the numbers of document 01, the leap rule and the lengths of the months.
Schedules use reading and instants.
"""

import sys

from common import *
from instants import add, at, difference, instant, restate
from reading import read
from schedule import (MANUAL, NONE_YET, PLAN, schedule_holds, schedule_over,
                      schedule_read, schedule_record)
from writing import write, write_into


if __name__ == "__main__":
    if sys.argv[1:] != ["--self-test"]:
        sys.exit("usage: stamp.py --self-test")
    import self_test
    self_test.run()
