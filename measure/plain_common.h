/* What reading and writing share in the plain C version: words, the calendar, digits in words, BER integers, and the
 * facts of a kind.
 *
 * Each of the two calls is a switch over the kind into one body that is inlined six times with constant `dated`,
 * `timed` and `zoned`. So the rules are written once, and the compiler drops from each copy what its kind lacks.
 *
 * Text is handled a word of 8 octets at a time. "yy-mm-dd" and "hh:mm:ss" have one shape, three pairs of digits
 * with an octet between, so both go the same way; the century is the one pair that stands before. Nothing here
 * loops, and no octet outside the lent ones is loaded or stored: where a field's length varies, two fixed stores
 * (or loads) that overlap take the place of a loop.
 *
 * Conversion to a signed type of a number that it can't hold is left to the implementation by C99, and so is a shift
 * of a negative number to the right; gcc and clang both wrap, and shift the sign in. Sign extensions use that.
 */
#ifndef PLAIN_COMMON_H
#define PLAIN_COMMON_H

#include "plain.h"

#include <string.h>

#if __BYTE_ORDER__ != __ORDER_LITTLE_ENDIAN__
#error "the text words below take the first octet for the lowest"
#endif

#define INLINE static inline __attribute__((always_inline))
#define OUTLINE static __attribute__((noinline))    /* so that others save no registers for it */
#define LIKELY(condition) __builtin_expect(condition, true)

#define LAST_YEAR 9999u
#define LAST_DAY_NUMBER 3652058u
#define EPOCH_DAY 737424                            /* 2020-01-01 */
#define MOST_OFFSET 1439u                           /* minutes, to either side */
#define MOST_DIGITS 6u
#define MICROS_A_SECOND 1000000u
#define MICROS_A_MINUTE 60000000
#define MINUTES_A_DAY 1440u
#define MILLIS_A_DAY 86400000
#define MICROS_A_DAY UINT64_C(86400000000)          /* as a time: 24:00 */
#define LEAST_T (-INT64_C(63713433600000))          /* 0001-01-01T00:00 in milliseconds from 2020 */
#define MOST_T INT64_C(251824463999999)             /* 9999-12-31T23:59:59.999 */
#define MOST_PLAIN_T INT64_C(140737488355327)       /* what 6 octets hold */
#define EXTENDED_VERSION 35500u

enum { DATE_OCTETS = 10, CLOCK_OCTETS = 8, MOST_FRACTION_OCTETS = 7, OFFSET_OCTETS = 6 };

/* The values of a stamp; what the kind lacks stays unused in writing and zero in reading. */
struct stamp {
    uint32_t year, month, day;
    uint64_t micros;
    int32_t offset;
};

/* ---- words ------------------------------------------------------------------------------------------------- */

INLINE uint64_t load64(const uint8_t *octets) { uint64_t word; memcpy(&word, octets, sizeof word); return word; }
INLINE uint32_t load32(const uint8_t *octets) { uint32_t word; memcpy(&word, octets, sizeof word); return word; }
INLINE uint16_t load16(const uint8_t *octets) { uint16_t word; memcpy(&word, octets, sizeof word); return word; }

INLINE void store64(uint8_t *octets, uint64_t word) { memcpy(octets, &word, sizeof word); }
INLINE void store32(uint8_t *octets, uint32_t word) { memcpy(octets, &word, sizeof word); }
INLINE void store16(uint8_t *octets, uint16_t word) { memcpy(octets, &word, sizeof word); }

/* Big-endian. */
INLINE uint64_t load64_big(const uint8_t *octets) { return __builtin_bswap64(load64(octets)); }
INLINE uint32_t load32_big(const uint8_t *octets) { return __builtin_bswap32(load32(octets)); }
INLINE uint16_t load16_big(const uint8_t *octets) { return __builtin_bswap16(load16(octets)); }

INLINE void store64_big(uint8_t *octets, uint64_t word) { store64(octets, __builtin_bswap64(word)); }
INLINE void store32_big(uint8_t *octets, uint32_t word) { store32(octets, __builtin_bswap32(word)); }
INLINE void store16_big(uint8_t *octets, uint16_t word) { store16(octets, __builtin_bswap16(word)); }

/* ---- calendar ---------------------------------------------------------------------------------------------- */

INLINE bool is_leap(uint32_t year)
{
    /* A multiple of 25 is one of 100 or no multiple of 4; of 100 and 16 is of 400. So no second division. */
    return (year & (year % 25 == 0 ? 15u : 3u)) == 0;
}

INLINE uint32_t month_length(uint32_t year, uint32_t month)
{
    if (month == 2)
        return is_leap(year) ? 29 : 28;
    return (month ^ month >> 3) | 30;               /* odd months up to July and even ones from August on: 31 */
}

INLINE bool is_day(uint32_t year, uint32_t month, uint32_t day)
{
    /* Less one, each range is one comparison. Every month has 28 days, so that its length is seldom worked out. */
    if (year - 1 >= LAST_YEAR || month - 1 >= 12)
        return false;
    return day - 1 < 28 || day - 1 < month_length(year, month);
}

/* The days that a month has in every year. */
INLINE uint32_t least_month_length(uint32_t month)
{
    static const uint8_t lengths[] = { 0, 31, 28, 31, 30, 31, 30, 31, 31, 30, 31, 30, 31 };

    return lengths[month];
}

/* A day, and not 29 February. Days above 28 come so often that is_day, which has them go another way, is guessed wrong.
 * LIKELY keeps the tests apart, as x86-64 would join them, by more instructions. */
INLINE bool is_usual_day(uint32_t year, uint32_t month, uint32_t day)
{
    return LIKELY(year - 1 < LAST_YEAR) && LIKELY(month - 1 < 12) && LIKELY(day - 1 < least_month_length(month));
}

/* For a day that exists. Years run from March, so that the leap day is their last. The century is
 * a product with a rounded constant, right below the year 43,699; its quarter is one more shift, and no second division. */
INLINE uint32_t day_number(uint32_t year, uint32_t month, uint32_t day)
{
    static const uint16_t days_before_month[] = { 0, 306, 337, 0, 31, 61, 92, 122, 153, 184, 214, 245, 275 };
    const uint32_t march_year = year - (month <= 2);
    const uint32_t century = march_year * 5243 >> 19;
    const uint32_t days_before_year = (1461 * march_year >> 2) - century + (century >> 2);

    return days_before_year + days_before_month[month] + day - 307; /* 306 from March to the year's end, day from 1 */
}

/* For a number up to LAST_DAY_NUMBER. After Neri and Schneider, "Euclidean affine functions and their application to
 * calendar algorithms" (2022): divisions by multiplication, and month and day out of one line. The days that centuries
 * lack are put back first (Joffe's "Julian map"), so that one product gives the year and its day. */
INLINE void set_date(struct stamp *stamp, uint32_t number)
{
    const uint64_t days = number + 306;                             /* from 0000-03-01 */
    const uint64_t century = (days * 15051803 + 11288853) >> 39;    /* (4 * days + 3) / 146097 */
    const uint64_t years = (days + century - (century >> 2)) * 11758980 + 8819235;  /* in 2^32nds */
    const uint32_t day_of_year = (uint32_t)years / 11758980;        /* from 1 March */
    const uint32_t months = 2141 * day_of_year + 197913;            /* the month, in 2^16ths */
    const bool late = day_of_year >= 306;                           /* January or February: the next year's */

    stamp->year = (uint32_t)(years >> 32) + late;
    stamp->month = (months >> 16) - (late ? 12 : 0);
    stamp->day = (months & 0xFFFF) / 2141 + 1;
}

/* One comparison for both ends; unsigned, as the sum may wrap. */
INLINE bool is_offset(int32_t offset)
{
    return (uint32_t)offset + MOST_OFFSET <= 2 * MOST_OFFSET;
}

/* In microseconds; unsigned, as sums with it may wrap. */
INLINE uint64_t ahead_of_utc(int32_t offset)
{
    return (uint64_t)((int64_t)offset * MICROS_A_MINUTE);
}

/* ---- digits in words --------------------------------------------------------------------------------------- */

/* Text words, first octet lowest. */
#define ZERO_DATE UINT64_C(0x30302D30302D3030)      /* 00-00-00 */
#define ZERO_CLOCK UINT64_C(0x30303A30303A3030)     /* 00:00:00 */
#define ZERO_FRACTION UINT64_C(0x303030303030302E)  /* .0000000 */
#define ZERO_OFFSET UINT64_C(0x30303A30302B)        /* +00:00 */
#define PLUS_TO_MINUS ((uint64_t)('+' ^ '-'))

/* Where the pairs of digits of these words begin: bit 0 of each such octet. */
#define CLOCK_PAIRS UINT64_C(0x0001000001000001)
#define FRACTION_PAIRS UINT64_C(0x0000010001000100)
#define OFFSET_PAIRS UINT64_C(0x000100000100)

/* Which octets are digits, for a word whose pairs begin at `pairs`: bit 0 of each. */
#define DIGITS_OF(pairs) ((pairs) * 0x0101)

/* The numbers, each below 100 and in the octet where its pair begins, as digits: the tens there, the ones after it.
 * 103 / 1024 is near enough to a tenth, and pairs are 16 bits apart or more, so that they can't meet. */
INLINE uint64_t spread_digits(uint64_t numbers, uint64_t pairs)
{
    const uint64_t tens = numbers * 103 >> 10 & pairs * 15;

    return tens + ((numbers - 10 * tens) << 8);
}

/* The other way: in the octet where a pair begins, its number. */
INLINE uint64_t join_digits(uint64_t digits)
{
    return 10 * digits + (digits >> 8);
}

/* Not zero where a word less its zero word has a digit above 9 or another octet that differs. Adding 6 sends 10 to 15
 * to the high half; a carry out of an octet comes only from one that is wrong itself. */
INLINE uint64_t wrong_octets(uint64_t word, uint64_t pairs)
{
    return (word | (word + DIGITS_OF(pairs) * 6)) & ~(DIGITS_OF(pairs) * 15);
}

INLINE uint32_t octet_at(uint64_t word, unsigned place)
{
    return (uint32_t)(word >> 8 * place) & 0xFF;
}

/* ---- BER integers ------------------------------------------------------------------------------------------ */

/* The fewest octets of a number in two's complement: one bit for the sign, and those after the leading sign bits. */
INLINE size_t fewest_octets(int64_t number)
{
    const uint64_t magnitude = (uint64_t)(number < 0 ? ~number : number) | 1;

    return (64u - (unsigned)__builtin_clzll(magnitude)) / 8 + 1;
}

/* The low octets of a number, 1 to 8 of them; two stores that overlap. */
INLINE void put_number(uint8_t *octets, int64_t number, size_t count)
{
    const uint64_t word = (uint64_t)number;

    if (count >= 4) {
        store32_big(octets, (uint32_t)(word >> 8 * (count - 4)));
        store32_big(octets + count - 4, (uint32_t)word);
    } else if (count >= 2) {
        store16_big(octets, (uint16_t)(word >> 8 * (count - 2)));
        store16_big(octets + count - 2, (uint16_t)word);
    } else {
        octets[0] = (uint8_t)word;
    }
}

/* The sign comes with the first load; shifting is done unsigned, as a negative number may not be shifted. */
INLINE int64_t get_number(const uint8_t *octets, size_t count)
{
    if (count >= 4) {
        const uint64_t high = (uint64_t)(int32_t)load32_big(octets);
        return (int64_t)(high << 8 * (count - 4) | load32_big(octets + count - 4));
    }
    if (count >= 2) {
        const uint64_t high = (uint64_t)(int16_t)load16_big(octets);
        return (int64_t)(high << 8 * (count - 2) | load16_big(octets + count - 2));
    }
    return (int8_t)octets[0];
}

/* ---- facts of a kind, constants after inlining ------------------------------------------------------------- */

/* Of the text without a fraction. */
INLINE size_t text_octets(bool dated, bool timed, bool zoned)
{
    return (dated ? DATE_OCTETS : 0u) + (dated && timed ? 1u : 0u) + (timed ? CLOCK_OCTETS : 0u)
        + (zoned ? OFFSET_OCTETS : 0u);
}

/* The most octets of the compact form without an offset. */
INLINE size_t plain_compact_octets(bool dated, bool timed)
{
    return dated && timed ? 6 : timed ? 4 : 3;
}

/* The most octets of the compact form of a zoned kind: two for the offset, and a T may have 7 after it. */
INLINE size_t zoned_compact_octets(bool dated, bool timed)
{
    return dated && timed ? 9 : timed ? 6 : 5;
}

/* The fewest octets of the compact number: padded after an offset, so that the length tells whether one is there. */
INLINE size_t least_compact_octets(bool dated, bool timed, bool with_offset)
{
    return !with_offset ? 1 : dated && timed ? 5 : timed ? 3 : 2;
}

INLINE size_t extended_octets(bool dated)
{
    return dated ? 10 : 7;
}

#endif
