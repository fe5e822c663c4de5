/* instants.py in C: UTC instants (02, request 2): from a stamp to its instant and back, sums and differences of
 * instants; or refusal 2, 9.
 *
 * All that is handed in is tested (2) before the result is (9) (R2.3). What is lent stays as lent after a refusal.
 * Nothing of writing and reading is used here. */
#include "fast.h"
#include "fast_common.h"

#define MICROS_OF_MINUTE INT64_C(60000000)
/* An instant that no stamp has is out of range; every number between these two is the instant of a stamp (R2.1). */
#define FIRST_INSTANT INT64_C(-86340000000)        /* 0001-01-01T00:00+23:59 */
#define LAST_INSTANT INT64_C(315537983940000000)   /* 9999-12-31T24:00-23:59 */

/* Python's (year, month, day). */
typedef struct date {
    int64_t year, month, day;
} date;

/* What may be handed in. */

/* 01 Values. */
static bool is_offset(int64_t offset)
{
    return -LAST_OFFSET <= offset && offset <= LAST_OFFSET;
}

/* 01 Values: all parts of a DatetimeTz; 24:00 may have any offset. */
static bool is_stamp(uint32_t year, uint32_t month, uint32_t day, uint64_t micros, int32_t offset)
{
    return is_date(year, month, day) && micros <= MICROS_OF_DAY && is_offset(offset);
}

static bool is_instant(int64_t number)
{
    return FIRST_INSTANT <= number && number <= LAST_INSTANT;
}

/* Calendar for instants: day numbers by spans of years, both ways, and the days beside a day. */

/* Years, their days, and how often they come whole within the span before (400 years: within all years). The fourth
 * century and the fourth year are not whole in this sense: they may have a day more. */
static const struct {
    int64_t span, days, most;
} SPANS[4] = {{400, 146097, 24}, {100, 36524, 3}, {4, 1461, 24}, {1, 365, 3}};

/* Days since 0001-01-01 (01 Values). */
static int64_t day_number(int64_t year, int64_t month, int64_t day)
{
    int64_t number = day - 1;
    for (int64_t earlier_month = 1; earlier_month < month; earlier_month++)
        number += days_in_month(year, earlier_month);
    int64_t years = year - 1;
    for (int i = 0; i < 4; i++) {
        number += years / SPANS[i].span * SPANS[i].days;
        years %= SPANS[i].span;
    }
    return number;
}

/* Year, month and day of a day number 0 to 3,652,058. */
static date date_of_day_number(int64_t number)
{
    date found = {1, 1, 1};
    for (int i = 0; i < 4; i++) {
        int64_t times = number / SPANS[i].days;
        if (times > SPANS[i].most)
            times = SPANS[i].most;
        found.year += times * SPANS[i].span;
        number -= times * SPANS[i].days;
    }
    while (number >= days_in_month(found.year, found.month)) {
        number -= days_in_month(found.year, found.month);
        found.month++;
    }
    found.day = number + 1;
    return found;
}

/* The day after 9999-12-31 is in the year 10000. */
static date day_after(date of)
{
    if (of.day < days_in_month(of.year, of.month))
        return (date){of.year, of.month, of.day + 1};
    if (of.month < 12)
        return (date){of.year, of.month + 1, 1};
    return (date){of.year + 1, 1, 1};
}

/* The day before 0001-01-01 is in the year 0. */
static date day_before(date of)
{
    if (of.day > 1)
        return (date){of.year, of.month, of.day - 1};
    if (of.month > 1)
        return (date){of.year, of.month - 1, days_in_month(of.year, of.month - 1)};
    return (date){of.year - 1, 12, 31};
}

/* The calls. */

static void put_parts(int64_t parts[5], date local, int64_t micros, int64_t offset)
{
    parts[0] = local.year;
    parts[1] = local.month;
    parts[2] = local.day;
    parts[3] = micros;
    parts[4] = offset;
}

/* "Local reading less offset". "24:00 counts as the next day's start", which it does where days are added up in
 * microseconds. */
uint32_t fast_instant(uint32_t year, uint32_t month, uint32_t day, uint64_t micros, int32_t offset, int64_t *instant)
{
    if (!is_stamp(year, month, day, micros, offset))
        return 2;
    int64_t local = day_number(year, month, day) * MICROS_OF_DAY + (int64_t)micros;
    *instant = local - offset * MICROS_OF_MINUTE;
    return 0;
}

/* Any number may be added (R2.3). The sum may be the last instant, which only a stamp with 24:00 has (R2.4). */
uint32_t fast_add(int64_t instant, int64_t micros, int64_t *sum)
{
    if (!is_instant(instant))
        return 2;
    /* Whether instant + micros is an instant. The sum may be beyond 64 bits; what is left to a limit never is. */
    if (!(FIRST_INSTANT - instant <= micros && micros <= LAST_INSTANT - instant))
        return 9;
    *sum = instant + micros;
    return 0;
}

/* a less b (R2.5). Any difference may be the result (R2.3). */
uint32_t fast_difference(int64_t a, int64_t b, int64_t *difference)
{
    if (!is_instant(a) || !is_instant(b))
        return 2;
    *difference = a - b;
    return 0;
}

/* The stamp of an instant at an offset. The micros are what whole days leave over, so never 24:00. */
uint32_t fast_at(int64_t instant, int32_t offset, int64_t parts[5])
{
    if (!is_instant(instant) || !is_offset(offset))
        return 2;
    int64_t local = instant + offset * MICROS_OF_MINUTE;
    int64_t days = local / MICROS_OF_DAY;
    if (days * MICROS_OF_DAY > local)    /* C's / goes toward zero, Python's // is the floor */
        days--;
    if (!(0 <= days && days <= LAST_DAY_NUMBER))
        return 9;
    put_parts(parts, date_of_day_number(days), local - days * MICROS_OF_DAY, offset);
    return 0;
}

/* The stamp at another offset. Its own way, without the instant: the local reading moves by what `to` is ahead of
 * `offset`, from day to day over each midnight. 24:00 lies beyond one, so "the result never uses 24:00", at the own
 * offset too (R2.2). */
uint32_t fast_restate(uint32_t year, uint32_t month, uint32_t day, uint64_t micros, int32_t offset, int32_t to,
                      int64_t parts[5])
{
    if (!is_stamp(year, month, day, micros, offset) || !is_offset(to))
        return 2;
    date local = {year, month, day};
    int64_t moved = (int64_t)micros + (to - offset) * MICROS_OF_MINUTE;
    while (moved >= MICROS_OF_DAY) {
        local = day_after(local);
        moved -= MICROS_OF_DAY;
    }
    while (moved < 0) {
        local = day_before(local);
        moved += MICROS_OF_DAY;
    }
    if (!(1 <= local.year && local.year <= LAST_YEAR))
        return 9;
    put_parts(parts, local, moved, to);
    return 0;
}
