/* The plain C version: the instant of a stamp in the usual way, for schedule files. See plain_common.h for the calendar
 * and for digits in words.
 *
 * This way asks nothing but whether a stamp is good, and says no to a text with 24:00 as well, which is seldom. What it
 * says no to goes by plain_read and plain_instant.
 *
 * A header and a record stand before the stamps, so that the 8 octets which end with a stamp are all lent ones. */
#ifndef PLAIN_USUAL_H
#define PLAIN_USUAL_H

#include "plain_common.h"

/* ---- a text's month ---------------------------------------------------------------------------------------- */

/* 8 octets of a text: with all digits 0; what makes 16 or more of each digit that is too large at its place; and the
 * bits that are zero then if nothing is wrong. Tens are bounded: 1 of a month, 3 of a day, 2 of an hour, 5 of a minute
 * and a second. */
struct word {
    uint64_t zero, most, wrong;
};

/* Borrows in taking the zero away, and carries here, come only from an octet that is wrong itself. */
INLINE uint64_t wrong_in(uint64_t digits, const struct word *word)
{
    return (digits | (digits + word->most)) & word->wrong;
}

/* As join_digits, but in the octet where the pair ends: one product, and no sum. */
INLINE uint64_t join_behind(uint64_t digits)
{
    return digits * 0xA01;
}

/* Stamps that follow one another are mostly of one month: what it decides is kept. At first no day is in it. */
struct month {
    uint64_t word;                                  /* yyyy-mm- */
    uint32_t days;
    int64_t start;                                  /* in microseconds; of day 0, as days count from 1 */
};

INLINE bool set_month(struct month *month, uint64_t text)
{
    static const struct word word = { 0x2D30302D30303030, 0x00060E0006060606, 0xFFF0F0FFF0F0F0F0 };
    const uint64_t digits = text - word.zero, numbers = join_behind(digits);
    const uint32_t year = 100 * octet_at(numbers, 1) + octet_at(numbers, 3), number = octet_at(numbers, 6);

    if (wrong_in(digits, &word) != 0 || year - 1 >= LAST_YEAR || number - 1 >= 12)
        return false;
    month->word = text;
    month->days = month_length(year, number);
    month->start = ((int64_t)day_number(year, number, 1) - 1) * (int64_t)MICROS_A_DAY;
    return true;
}

/* ---- a text's instant -------------------------------------------------------------------------------------- */

/* The words ddThh:mm, :ss.ffff and, its last 8 octets, ff+hh:mm; and which octets of the latter two are there. '-' is
 * '+' and 2. */
struct text {
    struct word minute, second, offset;
    uint64_t second_there, offset_there;
};

#define ALL (~UINT64_C(0))
#define MINUTE_WORD { 0x30303A3030543030, 0x060A00060D00060C, 0xF0F0FFF0F0FFF0F0 }
#define SECOND_WORD(there) { 0x303030302E30303A & (there), 0x0606060600060A00, 0xF0F0F0F0FFF0F0FF }
#define OFFSET_WORD(there) { 0x30303A30302B3030 & (there), 0x060A00060D000606, 0xF0F0FFF0F0FDF0F0 }
#define TEXT(second, offset) { MINUTE_WORD, SECOND_WORD(second), OFFSET_WORD(offset), second, offset }
#define NEVER { 0, 1, ALL }                         /* always wrong: of a number and the next, one is not zero */
#define MINUS_ZERO 2                                /* the offset's word from the sign on */

/* By the octets of the fraction; no fraction has one. All that a text is compared with is here and not in the code,
 * where a constant takes up to four instructions; the compiler leaves it here, as one entry differs in everything. */
static const struct text texts[MOST_FRACTION_OCTETS + 1] = {
    TEXT(ALL >> 40, ALL << 16),
    { NEVER, NEVER, NEVER, 0, 0 },
    TEXT(ALL >> 24, ALL << 16),
    TEXT(ALL >> 16, ALL << 16),
    TEXT(ALL >> 8, ALL << 16),
    TEXT(ALL, ALL << 16),
    TEXT(ALL, ALL << 8),
    TEXT(ALL, ALL),
};

/* Whether an hour is 24 to 29: the numbers of a minute's word and of an offset's word have it in the same octet. */
INLINE bool has_late_hour(uint64_t minute_numbers, uint64_t offset_numbers)
{
    const uint64_t to_128 = (uint64_t)(128 - 24) << 32;

    return (((minute_numbers + to_128) | (offset_numbers + to_128)) & UINT64_C(128) << 32) != 0;
}

/* For 25 to 32 octets. */
INLINE bool usual_text(const uint8_t *octets, size_t length, struct month *month, int64_t *instant)
{
    const size_t fraction_octets = length - text_octets(true, true, true);
    const struct text *const text = &texts[fraction_octets];
    const uint64_t month_word = load64(octets);
    const uint64_t minute = load64(octets + 8) - text->minute.zero;
    const uint64_t second = (load64(octets + 16) & text->second_there) - text->second.zero;
    const uint64_t offset = (load64(octets + length - 8) & text->offset_there) - text->offset.zero;
    const uint64_t minutes = join_behind(minute), seconds = join_behind(second), offsets = join_behind(offset);
    const uint32_t last_micros = octet_at(offsets, 1) * (fraction_octets == 6 ? 10 : 1);    /* a fifth digit alone */
    const uint32_t micros = 10000 * octet_at(seconds, 5) + 100 * octet_at(seconds, 7) + last_micros;
    const uint32_t day = octet_at(minutes, 1);
    const uint32_t ahead = 60 * octet_at(offsets, 4) + octet_at(offsets, 7);
    uint32_t since;                                 /* minutes; some, as days count from 1 and no offset is of a day */

    if (!LIKELY((wrong_in(minute, &text->minute) | wrong_in(second, &text->second)
                 | wrong_in(offset, &text->offset)) == 0))
        return false;
    if (!(LIKELY(offset >> 16 != MINUS_ZERO) && LIKELY(!has_late_hour(minutes, offsets))))
        return false;
    if (!LIKELY(month_word == month->word) && !set_month(month, month_word))
        return false;
    if (!LIKELY(day - 1 < month->days))
        return false;
    since = day * MINUTES_A_DAY + 60 * octet_at(minutes, 4) + octet_at(minutes, 7);
    since -= (offset >> 16 & 2) != 0 ? -ahead : ahead;
    *instant = month->start + (int64_t)((uint64_t)(since * 60 + octet_at(seconds, 2)) * MICROS_A_SECOND + micros);
    return true;
}

/* ---- a binary stamp's instant ------------------------------------------------------------------------------ */

/* For 1 to 9 octets. */
INLINE bool usual_compact(const uint8_t *octets, size_t length, struct month *month, int64_t *instant)
{
    const bool with_offset = length > plain_compact_octets(true, true);
    const size_t number_octets = length - (with_offset ? 2 : 0);
    const unsigned unused = 64 - 8 * (unsigned)number_octets;
    const int64_t number = (int64_t)(load64_big(octets + length - 8) << unused) >> unused;
    const int32_t offset = with_offset ? (int16_t)load16_big(octets) : 0;
    const uint64_t millis = (uint64_t)(number - LEAST_T);

    (void)month;
    if (number_octets > least_compact_octets(true, true, with_offset) && number_octets > fewest_octets(number))
        return false;
    if (with_offset && !(LIKELY(offset != 0) && LIKELY(is_offset(offset))))
        return false;
    if (!LIKELY(millis <= (uint64_t)(MOST_T - LEAST_T)))
        return false;
    *instant = (int64_t)(millis * 1000 - ahead_of_utc(offset));
    return true;
}

/* For 10 octets. The header's first four bits are 9; less that, an offset that is in range has twelve bits. */
INLINE bool usual_extended(const uint8_t *octets, size_t length, struct month *month, int64_t *instant)
{
    const uint64_t word = load64_big(octets);
    const uint32_t number = (uint32_t)(word >> 24) & 0xFFFFFF;
    const uint64_t micros = (word & 0xFFFFFF) << 16 | load16_big(octets + length - 2);
    const int32_t offset = (int32_t)(((uint32_t)(word >> 48) - 0x9000) ^ 0x800) - 0x800;

    (void)month;
    if (!LIKELY(micros <= MICROS_A_DAY) || !LIKELY(number <= LAST_DAY_NUMBER) || !LIKELY(is_offset(offset)))
        return false;
    *instant = (int64_t)(number * MICROS_A_DAY + micros - ahead_of_utc(offset));
    return true;
}

#endif
