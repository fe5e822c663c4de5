/* common.py in C: what writing, reading and instants share, the numbers of document 01 and the calendar's own rules.
 *
 * Functions stand under the names that they have in Python, to be held beside it; "01", "02", "000", "B1" to "B40",
 * "R1.1", "R2.1" to "R2.5", "R4.1" to "R4.6", "R5.1" to "R5.4", "R6.1" and "R6.2" are the sources that common.py names.
 * Python's whole numbers are int64_t here: every number that comes up is far within it once refusals 1 and 2 have been
 * tested on the numbers as given; an instant that is asked for may be any, and is only compared. */
#ifndef FAST_COMMON_H
#define FAST_COMMON_H

#include <stdbool.h>
#include <stddef.h>
#include <stdint.h>

enum { DATE, DATE_TZ, TIME, TIME_TZ, DATETIME, DATETIME_TZ, DATE_OR_TZ, TIME_OR_TZ, DATETIME_OR_TZ };
enum { TEXT, COMPACT, EXTENDED };

#define LAST_YEAR 9999
#define LAST_DAY_NUMBER 3652058          /* 9999-12-31; 0001-01-01 is 0 */
#define DAY_NUMBER_OF_2020 737424        /* 2020-01-01 */
#define MICROS_OF_DAY 86400000000        /* 24:00, the end of the day */
#define MILLIS_OF_DAY 86400000
#define LAST_OFFSET 1439                 /* minutes, ahead of or behind UTC */
#define LAST_DIGITS 6
#define EXTENDED_SINCE_VERSION 35500
#define LAST_T_WITHOUT_OFFSET 140737488355327
#define LAST_T_WITH_OFFSET 251824463999999
#define FIRST_T (-63713433600000)        /* 0001-01-01T00:00 (B28) */

static inline bool has_date(uint32_t kind)
{
    return kind == DATE || kind == DATE_TZ || kind == DATETIME || kind == DATETIME_TZ;
}

static inline bool has_time(uint32_t kind)
{
    return kind == TIME || kind == TIME_TZ || kind == DATETIME || kind == DATETIME_TZ;
}

static inline bool has_offset(uint32_t kind)
{
    return kind == DATE_TZ || kind == TIME_TZ || kind == DATETIME_TZ;
}

/* Gregorian leap rule, taken back to year 1 (01 Values: proleptic). */
static inline bool is_leap(int64_t year)
{
    return year % 4 == 0 && (year % 100 != 0 || year % 400 == 0);
}

/* Lengths of the months (01 Values). */
static inline int64_t days_in_month(int64_t year, int64_t month)
{
    if (month == 2)
        return is_leap(year) ? 29 : 28;
    if (month == 4 || month == 6 || month == 9 || month == 11)
        return 30;
    return 31;
}

/* A day of the years 1 to 9999 that exists (01 Values; refusals 2, 8). */
static inline bool is_date(int64_t year, int64_t month, int64_t day)
{
    return 1 <= year && year <= LAST_YEAR && 1 <= month && month <= 12 && 1 <= day && day <= days_in_month(year, month);
}

#endif
