/* The plain C version: UTC instants. See plain.h, and plain_common.h for the calendar.
 *
 * Sums are unsigned and may wrap: so one comparison tells both ends of a range, and a sum that wrapped is beyond it.
 *
 * The usual way through a call is one line of code without a jump; what is seldom is a function of its own. */
#include "plain_common.h"

#define LEAST_INSTANT (-INT64_C(86340000000))           /* 0001-01-01T00:00+23:59 */
#define MOST_INSTANT INT64_C(315537983940000000)        /* 9999-12-31T24:00-23:59 */

/* ---- what is handed in ------------------------------------------------------------------------------------- */

INLINE bool is_instant(uint64_t number)
{
    return number - (uint64_t)LEAST_INSTANT <= (uint64_t)(MOST_INSTANT - LEAST_INSTANT);
}

INLINE bool is_stamp(uint32_t year, uint32_t month, uint32_t day, uint64_t micros, int32_t offset)
{
    return is_day(year, month, day) && micros <= MICROS_A_DAY && is_offset(offset);
}

/* A stamp, and not of 29 February. */
INLINE bool is_usual_stamp(uint32_t year, uint32_t month, uint32_t day, uint64_t micros, int32_t offset)
{
    return is_usual_day(year, month, day) && LIKELY(micros <= MICROS_A_DAY) && LIKELY(is_offset(offset));
}

/* ---- microseconds ------------------------------------------------------------------------------------------ */

/* For a stamp. */
INLINE uint64_t instant_of(uint32_t year, uint32_t month, uint32_t day, uint64_t micros, int32_t offset)
{
    return day_number(year, month, day) * MICROS_A_DAY + micros - ahead_of_utc(offset);
}

/* The quotient of any number by MICROS_A_DAY: a product with 2^98 / MICROS_A_DAY, rounded up. Where a quotient by `/` is
 * compared, the compiler compares the dividend in its place, with a constant that is longer. */
INLINE uint64_t whole_days(uint64_t micros)
{
    return (uint64_t)((unsigned __int128)micros * UINT64_C(0x32E73FB956A1B897) >> 98);
}

/* The same of less than five days: MICROS_A_DAY is 2^13 * 10546875, and the factor 2^47 / 10546875, rounded up. */
INLINE uint32_t few_whole_days(uint64_t micros)
{
    return (uint32_t)((micros >> 13) * 13343999 >> 47);
}

/* ---- stamps that are given --------------------------------------------------------------------------------- */

INLINE uint32_t give(const struct stamp *stamp, int64_t parts[5])
{
    parts[0] = stamp->year;
    parts[1] = stamp->month;
    parts[2] = stamp->day;
    parts[3] = (int64_t)stamp->micros;
    parts[4] = stamp->offset;
    return PLAIN_ACCEPTED;
}

/* For a number up to LAST_DAY_NUMBER. */
INLINE uint32_t give_by_number(uint32_t number, uint64_t micros, int32_t offset, int64_t parts[5])
{
    struct stamp stamp;

    set_date(&stamp, number);
    stamp.micros = micros;
    stamp.offset = offset;
    return give(&stamp, parts);
}

/* Of any number: where the local reading has a day, it is an instant, so that this is asked only where there is none. */
INLINE uint32_t give_at(uint64_t instant, int32_t offset, int64_t parts[5])
{
    const uint64_t local = instant + ahead_of_utc(offset);
    const uint64_t number = whole_days(local);

    if (!LIKELY(is_offset(offset)))
        return PLAIN_BAD_VALUE;
    if (!LIKELY(number <= LAST_DAY_NUMBER))
        return is_instant(instant) ? PLAIN_BAD_RESULT : PLAIN_BAD_VALUE;
    return give_by_number((uint32_t)number, local - number * MICROS_A_DAY, offset, parts);
}

/* ---- the calls --------------------------------------------------------------------------------------------- */

OUTLINE uint32_t unusual_instant(uint32_t year, uint32_t month, uint32_t day, uint64_t micros, int32_t offset,
                                 int64_t *instant)
{
    if (!is_stamp(year, month, day, micros, offset))
        return PLAIN_BAD_VALUE;
    *instant = (int64_t)instant_of(year, month, day, micros, offset);
    return PLAIN_ACCEPTED;
}

uint32_t plain_instant(uint32_t year, uint32_t month, uint32_t day, uint64_t micros, int32_t offset, int64_t *instant)
{
    if (!is_usual_stamp(year, month, day, micros, offset))
        return unusual_instant(year, month, day, micros, offset, instant);
    *instant = (int64_t)instant_of(year, month, day, micros, offset);
    return PLAIN_ACCEPTED;
}

uint32_t plain_add(int64_t instant, int64_t micros, int64_t *sum)
{
    const uint64_t moved = (uint64_t)instant + (uint64_t)micros;

    if (!LIKELY(is_instant((uint64_t)instant)))
        return PLAIN_BAD_VALUE;
    if (!LIKELY(is_instant(moved)))
        return PLAIN_BAD_RESULT;
    *sum = (int64_t)moved;
    return PLAIN_ACCEPTED;
}

uint32_t plain_difference(int64_t a, int64_t b, int64_t *difference)
{
    if (!LIKELY(is_instant((uint64_t)a)))
        return PLAIN_BAD_VALUE;
    if (!LIKELY(is_instant((uint64_t)b)))
        return PLAIN_BAD_VALUE;
    *difference = a - b;
    return PLAIN_ACCEPTED;
}

uint32_t plain_at(int64_t instant, int32_t offset, int64_t parts[5])
{
    return give_at((uint64_t)instant, offset, parts);
}

OUTLINE uint32_t unusual_restate(uint32_t year, uint32_t month, uint32_t day, uint64_t micros, int32_t offset,
                                 int32_t to, int64_t parts[5])
{
    if (!is_stamp(year, month, day, micros, offset))
        return PLAIN_BAD_VALUE;
    return give_at(instant_of(year, month, day, micros, offset), to, parts);
}

/* `day` lies a day or two before the month, or behind the days that it has in every year. */
OUTLINE uint32_t restate_beyond(uint32_t year, uint32_t month, uint32_t day, uint64_t micros, int32_t to,
                                int64_t parts[5])
{
    const uint32_t number = day_number(year, month, day);

    return number > LAST_DAY_NUMBER ? PLAIN_BAD_RESULT : give_by_number(number, micros, to, parts);
}

/* Two offsets are less than two days apart, so that most stamps stay in their month: these need no day number. */
uint32_t plain_restate(uint32_t year, uint32_t month, uint32_t day, uint64_t micros, int32_t offset, int32_t to,
                       int64_t parts[5])
{
    const uint32_t minutes = 2 * MINUTES_A_DAY + (uint32_t)to - (uint32_t)offset;
    const uint64_t moved = micros + (uint64_t)minutes * MICROS_A_MINUTE;    /* from the start of two days before */
    const uint32_t days = few_whole_days(moved);
    const struct stamp stamp = { year, month, day + days - 2, moved - days * MICROS_A_DAY, to };

    if (!(is_usual_stamp(year, month, day, micros, offset) && LIKELY(is_offset(to))))
        return unusual_restate(year, month, day, micros, offset, to, parts);
    if (!LIKELY(stamp.day - 1 < least_month_length(month)))
        return restate_beyond(year, month, stamp.day, stamp.micros, to, parts);
    return give(&stamp, parts);
}
