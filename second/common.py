"""What writing, reading and instants share: the numbers of document 01 and the
calendar's own rules, and nothing else.

Sources named in all files: "01" is 01-scope.md, which rules; "02" is the
requests that came later, of which request 1 changes a rule of 01, request 2
adds instants, request 4 schedule files, request 5 a question to them and request
6 one to two of them; "000" is the BDE BER Date-and-Time Format 1.0; "B1" to "B40",
"R1.1", "R2.1" to "R2.5", "R4.1" to "R4.6", "R5.1" to "R5.4", "R6.1" and "R6.2"
are entries of docs/DECISIONS.md.
"""

DATE, DATE_TZ, TIME, TIME_TZ, DATETIME, DATETIME_TZ = 0, 1, 2, 3, 4, 5
DATE_OR_TZ, TIME_OR_TZ, DATETIME_OR_TZ = 6, 7, 8
TEXT, COMPACT, EXTENDED = 0, 1, 2

KINDS_WITH_DATE = (DATE, DATE_TZ, DATETIME, DATETIME_TZ)
KINDS_WITH_TIME = (TIME, TIME_TZ, DATETIME, DATETIME_TZ)
KINDS_WITH_OFFSET = (DATE_TZ, TIME_TZ, DATETIME_TZ)

LAST_YEAR = 9999
LAST_DAY_NUMBER = 3_652_058              # 9999-12-31; 0001-01-01 is 0
DAY_NUMBER_OF_2020 = 737_424             # 2020-01-01
MICROS_OF_DAY = 86_400_000_000           # 24:00, the end of the day
MILLIS_OF_DAY = 86_400_000
LAST_OFFSET = 1_439                      # minutes, ahead of or behind UTC
LAST_DIGITS = 6
EXTENDED_SINCE_VERSION = 35_500
LAST_T_WITHOUT_OFFSET = 140_737_488_355_327
LAST_T_WITH_OFFSET = 251_824_463_999_999
FIRST_T = -63_713_433_600_000            # 0001-01-01T00:00 (B28)


def is_leap(year):
    """Gregorian leap rule, taken back to year 1 (01 Values: proleptic)."""
    return year % 4 == 0 and (year % 100 != 0 or year % 400 == 0)


def days_in_month(year, month):
    """Lengths of the months (01 Values)."""
    if month == 2:
        return 29 if is_leap(year) else 28
    if month in (4, 6, 9, 11):
        return 30
    return 31


def is_date(year, month, day):
    """A day of the years 1 to 9999 that exists (01 Values; refusals 2, 8)."""
    return (1 <= year <= LAST_YEAR and 1 <= month <= 12
            and 1 <= day <= days_in_month(year, month))
