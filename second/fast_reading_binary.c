/* The two binary forms of reading.py in C, and its calendar. */
#include "fast_reading.h"

/* Calendar for reading: by formula, not by the count that writing uses. */

static int64_t days_before_year_table[LAST_YEAR + 2];

static void fill_days_before_year(void)
{
    for (int64_t year = 1; year <= LAST_YEAR + 1; year++) {
        int64_t whole = year - 1;
        days_before_year_table[year] = 365 * whole + whole / 4 - whole / 100 + whole / 400;
    }
}

/* The days of all years before this one. */
static int64_t days_before_year(int64_t year)
{
    if (days_before_year_table[2] == 0)
        fill_days_before_year();
    return days_before_year_table[year];
}

/* Year, month and day of a day number 0 to 3,652,058. */
static void date_of_day_number(int64_t number, answer *into)
{
    int64_t year = number / 366 + 1;     /* never too late; then step forward */
    while (days_before_year(year + 1) <= number)
        year++;
    int64_t rest = number - days_before_year(year);
    int64_t leap_day = days_before_year(year + 1) - days_before_year(year) - 365;
    const int64_t lengths[11] = {31, 28 + leap_day, 31, 30, 31, 30, 31, 31, 30, 31, 30};
    int64_t month = 1;
    while (month <= 11 && rest >= lengths[month - 1]) {
        rest -= lengths[month - 1];
        month++;
    }
    into->year = year;
    into->month = month;
    into->day = rest + 1;
}

/* Compact */

/* Big-endian two's complement of any length from 1 on (01 Compact). */
int64_t signed_number(const uint8_t *octets, size_t length)
{
    int64_t value = octets[0] >= 128 ? octets[0] - 256 : octets[0];
    for (size_t i = 1; i < length; i++)
        value = value * 256 + octets[i];
    return value;
}

/* X.690 8.3.2: the first nine bits are all 0 or all 1. */
static bool first_octet_is_redundant(const uint8_t *octets, size_t length)
{
    if (length < 2)
        return false;
    return (octets[0] == 0x00 && octets[1] < 0x80) || (octets[0] == 0xFF && octets[1] >= 0x80);
}

/* The day is the floor, so that the milliseconds of the day are never negative before 2020; a T at midnight is 00:00,
 * never 24:00 (B6). */
static void moment_of_t(int64_t t, answer *into)
{
    int64_t days = t / MILLIS_OF_DAY;
    if (days * MILLIS_OF_DAY > t)        /* C's / goes toward zero, Python's // is the floor */
        days--;
    date_of_day_number(days + DAY_NUMBER_OF_2020, into);
    into->micros = (t - days * MILLIS_OF_DAY) * 1000;
}

/* 8: the number is out of range. */
static uint32_t read_compact_number(uint32_t kind, int64_t number, bool offset_in_front, answer *into)
{
    if (kind == DATE || kind == DATE_TZ) {
        int64_t days_of_era = number + DAY_NUMBER_OF_2020;
        if (!(0 <= days_of_era && days_of_era <= LAST_DAY_NUMBER))
            return 8;
        date_of_day_number(days_of_era, into);
        return 0;
    }
    if (kind == TIME || kind == TIME_TZ) {
        if (!(0 <= number && number <= MILLIS_OF_DAY))
            return 8;
        into->micros = number * 1000;
        return 0;
    }
    if (!(FIRST_T <= number && number <= (offset_in_front ? LAST_T_WITH_OFFSET : LAST_T_WITHOUT_OFFSET)))
        return 8;
    moment_of_t(number, into);
    return 0;
}

/* 01 Compact; refusals 7, then 8 (compact has no 6). */
uint32_t read_compact(uint32_t kind, const uint8_t *octets, size_t length, answer *into)
{
    /* Whether an offset stands in front, and the padding of what follows it. */
    bool offset_in_front = false;
    size_t at_least = 1;
    if (kind == DATE_TZ) {
        offset_in_front = true;
        at_least = 2;
    } else if (kind == TIME_TZ && (length == 5 || length == 6)) {
        offset_in_front = true;
        at_least = 3;
    } else if (kind == DATETIME_TZ && (length == 7 || length == 8 || length == 9)) {
        offset_in_front = true;
        at_least = 5;
    }
    into->offset = offset_in_front ? signed_number(octets, 2) : 0;
    const uint8_t *rest = offset_in_front ? octets + 2 : octets;
    size_t rest_length = offset_in_front ? length - 2 : length;

    /* 7: longer than fewest-or-padded, or offset zero where it had to be left out. DateTz always has its offset, so
     * zero is good there (B23). */
    if (rest_length > at_least && first_octet_is_redundant(rest, rest_length))
        return 7;
    if (offset_in_front && into->offset == 0 && kind != DATE_TZ)
        return 7;

    /* 8: the offset or the number is out of range. */
    if (!(-LAST_OFFSET <= into->offset && into->offset <= LAST_OFFSET))
        return 8;
    return read_compact_number(kind, signed_number(rest, rest_length), offset_in_front, into);
}

/* Extended */

/* Big-endian, without a sign (01 Extended). */
int64_t unsigned_number(const uint8_t *octets, size_t length)
{
    int64_t value = 0;
    for (size_t i = 0; i < length; i++)
        value = value * 256 + octets[i];
    return value;
}

/* 01 Extended; refusal 6 for plain kinds, then 8; never 7 (B22). */
uint32_t read_extended(uint32_t kind, const uint8_t *octets, size_t length, answer *into)
{
    int64_t twelve_bits = unsigned_number(octets, 2) % 4096;

    /* 6: the twelve bits of a plain kind are zero. */
    if ((kind == TIME || kind == DATETIME) && twelve_bits != 0)
        return 6;

    /* 8: out of range. The twelve bits of a plain kind are an offset of 0. */
    into->offset = twelve_bits >= 2048 ? twelve_bits - 4096 : twelve_bits;
    if (!(-LAST_OFFSET <= into->offset && into->offset <= LAST_OFFSET))
        return 8;
    into->micros = unsigned_number(octets + length - 5, 5);
    if (into->micros > MICROS_OF_DAY)
        return 8;
    if (kind == TIME || kind == TIME_TZ)
        return 0;
    int64_t number = unsigned_number(octets + 2, 3);
    if (number > LAST_DAY_NUMBER)
        return 8;
    date_of_day_number(number, into);
    return 0;
}
