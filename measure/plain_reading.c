/* The plain C version: reading. See plain.h, and plain_common.h for how. */
#include "plain_common.h"

INLINE uint32_t give(bool dated, bool timed, bool zoned, uint32_t form, uint32_t digits, const struct stamp *stamp,
                     int64_t parts[8])
{
    parts[PLAIN_KIND] = (dated && timed ? 4 : timed ? 2 : 0) + (zoned ? 1 : 0);
    parts[PLAIN_FORM] = form;
    parts[PLAIN_DIGITS] = digits;
    parts[PLAIN_YEAR] = stamp->year;
    parts[PLAIN_MONTH] = stamp->month;
    parts[PLAIN_DAY] = stamp->day;
    parts[PLAIN_MICROS] = (int64_t)stamp->micros;
    parts[PLAIN_OFFSET] = stamp->offset;
    return PLAIN_ACCEPTED;
}

/* Every octet is looked at before any range, as refusal 6 anywhere comes before 7, and 7 before 8. So what is wrong is
 * gathered in one word, and asked once. */
INLINE uint32_t read_text(bool dated, bool timed, bool zoned, const uint8_t *octets, size_t length, int64_t parts[8])
{
    const size_t fraction_octets = length - text_octets(dated, timed, zoned);   /* too short: wraps to a huge one */
    struct stamp stamp = { 0, 0, 0, 0, 0 };
    uint64_t wrong = 0;
    uint32_t minutes = 0, seconds = 0, offset_hours = 0, offset_minutes = 0;
    bool minus_zero = false;

    if (timed ? fraction_octets > MOST_FRACTION_OCTETS || fraction_octets == 1 : fraction_octets != 0)
        return PLAIN_BAD_LENGTH;

    if (dated) {
        const uint64_t century = load16(octets) ^ (ZERO_DATE & 0xFFFF);
        const uint64_t date = load64(octets + 2) ^ ZERO_DATE;
        const uint64_t numbers = join_digits(date);

        wrong |= wrong_octets(century, 1) | wrong_octets(date, CLOCK_PAIRS);
        stamp.year = 100 * octet_at(join_digits(century), 0) + octet_at(numbers, 0);
        stamp.month = octet_at(numbers, 3);
        stamp.day = octet_at(numbers, 6);
        octets += DATE_OCTETS;
    }
    if (dated && timed)
        wrong |= *octets++ ^ 'T';
    if (timed) {
        const unsigned bits = 8 * (unsigned)fraction_octets;
        const uint64_t there = (UINT64_C(1) << bits) - 1;
        const uint64_t clock = load64(octets) ^ ZERO_CLOCK;
        /* The load ends with the fraction, as in put_time; digits that are not there become zeros. */
        const uint64_t fraction = load64(octets + fraction_octets) >> 8 >> (56 - bits) ^ (ZERO_FRACTION & there);
        const uint64_t numbers = join_digits(clock);
        const uint64_t fraction_numbers = join_digits(fraction);

        wrong |= wrong_octets(clock, CLOCK_PAIRS) | wrong_octets(fraction, FRACTION_PAIRS);
        minutes = octet_at(numbers, 3);
        seconds = octet_at(numbers, 6);
        stamp.micros = (uint64_t)(3600 * octet_at(numbers, 0) + 60 * minutes + seconds) * MICROS_A_SECOND
            + 10000 * octet_at(fraction_numbers, 1) + 100 * octet_at(fraction_numbers, 3)
            + octet_at(fraction_numbers, 5);
        octets += CLOCK_OCTETS + fraction_octets;
    }
    if (zoned) {
        /* A date or a time stands before, so that the 8 octets which end with the offset are all lent ones. Signs
         * come at random, so that none of this branches on them; + and - differ in bits 1 and 2. */
        const uint64_t word = load64(octets + OFFSET_OCTETS - 8) >> 16 ^ ZERO_OFFSET;
        const uint64_t negative = word >> 1 & 1;
        const uint64_t offset = word ^ negative * PLUS_TO_MINUS;
        const uint64_t numbers = join_digits(offset);

        wrong |= wrong_octets(offset, OFFSET_PAIRS);
        minus_zero = word == PLUS_TO_MINUS;
        offset_hours = octet_at(numbers, 1);
        offset_minutes = octet_at(numbers, 4);
        stamp.offset = (int32_t)(60 * offset_hours + offset_minutes) * (1 - 2 * (int32_t)negative);
    }

    if (wrong != 0)
        return PLAIN_BAD_OCTET;
    if (zoned && minus_zero)
        return PLAIN_NOT_SHORTEST;
    if (dated && !is_day(stamp.year, stamp.month, stamp.day))
        return PLAIN_OUT_OF_RANGE;
    if (timed && (stamp.micros > MICROS_A_DAY || minutes > 59 || seconds > 59))
        return PLAIN_OUT_OF_RANGE;
    if (zoned && (offset_hours > 23 || offset_minutes > 59))
        return PLAIN_OUT_OF_RANGE;
    return give(dated, timed, zoned, PLAIN_TEXT, fraction_octets != 0 ? (uint32_t)fraction_octets - 1 : 0, &stamp,
                parts);
}

INLINE uint32_t read_compact(bool dated, bool timed, bool zoned, const uint8_t *octets, size_t length,
                             int64_t parts[8])
{
    const bool with_offset = zoned && length > plain_compact_octets(dated, timed);
    const size_t offset_octets = with_offset ? 2 : 0;
    const size_t number_octets = length - offset_octets;
    const size_t least = least_compact_octets(dated, timed, with_offset);
    struct stamp stamp = { 0, 0, 0, 0, 0 };
    int64_t number;

    if (length == 0 || (zoned && !timed && !with_offset))       /* a DateTz always has its offset */
        return PLAIN_BAD_LENGTH;

    if (with_offset)
        stamp.offset = (int16_t)load16_big(octets);
    number = get_number(octets + offset_octets, number_octets);

    if (number_octets > least && number_octets > fewest_octets(number))
        return PLAIN_NOT_SHORTEST;
    if (with_offset && timed && stamp.offset == 0)
        return PLAIN_NOT_SHORTEST;
    if (with_offset && !is_offset(stamp.offset))
        return PLAIN_OUT_OF_RANGE;

    /* Counted from the least, a number has one limit, and is divided unsigned. */
    if (dated && timed) {
        const uint64_t millis = (uint64_t)(number - LEAST_T);
        uint32_t days;
        if (millis > (uint64_t)(MOST_T - LEAST_T))              /* MOST_PLAIN_T is kept by its 6 octets */
            return PLAIN_OUT_OF_RANGE;
        days = (uint32_t)(millis / MILLIS_A_DAY);
        set_date(&stamp, days);
        stamp.micros = (millis - (uint64_t)days * MILLIS_A_DAY) * 1000;
    } else if (dated) {
        const uint64_t days = (uint64_t)(number + EPOCH_DAY);
        if (days > LAST_DAY_NUMBER)
            return PLAIN_OUT_OF_RANGE;
        set_date(&stamp, (uint32_t)days);
    } else {
        if ((uint64_t)number > MILLIS_A_DAY)
            return PLAIN_OUT_OF_RANGE;
        stamp.micros = (uint64_t)number * 1000;
    }
    return give(dated, timed, zoned, PLAIN_COMPACT, 0, &stamp, parts);
}

INLINE uint32_t read_extended(bool dated, bool zoned, const uint8_t *octets, size_t length, int64_t parts[8])
{
    struct stamp stamp = { 0, 0, 0, 0, 0 };
    uint32_t low_header;

    if (length != extended_octets(dated))
        return PLAIN_BAD_LENGTH;

    low_header = load16_big(octets) & 0xFFF;
    if (!zoned && low_header != 0)
        return PLAIN_BAD_OCTET;
    stamp.micros = (uint64_t)octets[length - 5] << 32 | load32_big(octets + length - 4);
    if (stamp.micros > MICROS_A_DAY)
        return PLAIN_OUT_OF_RANGE;
    if (zoned) {
        stamp.offset = (int32_t)(low_header ^ 0x800) - 0x800;   /* twelve bits, two's complement */
        if (!is_offset(stamp.offset))
            return PLAIN_OUT_OF_RANGE;
    }
    if (dated) {
        const uint32_t number = load32_big(octets + 1) & 0xFFFFFF;
        if (number > LAST_DAY_NUMBER)
            return PLAIN_OUT_OF_RANGE;
        set_date(&stamp, number);
    }
    return give(dated, true, zoned, PLAIN_EXTENDED, 0, &stamp, parts);
}

INLINE uint32_t read_kind(bool dated, bool timed, bool zoned, const uint8_t *octets, size_t length, int64_t parts[8])
{
    const size_t most_compact_octets = zoned ? zoned_compact_octets(dated, timed) : plain_compact_octets(dated, timed);

    if (length <= most_compact_octets)
        return read_compact(dated, timed, zoned, octets, length, parts);
    if (timed && octets[0] >> 4 == (zoned ? 9 : 8))
        return read_extended(dated, zoned, octets, length, parts);
    return read_text(dated, timed, zoned, octets, length, parts);
}

INLINE bool is_sign(uint8_t octet)
{
    return octet == '+' || octet == '-';
}

/* The kind that an either-or kind stands for. A zoned text without a fraction is as long as a plain one with five
 * digits: the octet behind the seconds tells them apart. */
INLINE uint32_t chosen_kind(uint32_t kind, const uint8_t *octets, size_t length)
{
    switch (kind) {
    case 6:
        return length <= 3 ? 0 : length <= 5 ? 1 : length <= 10 ? 0 : 1;
    case 7:
        if (length <= 6)
            return length <= 4 ? 2 : 3;
        if (length == 7 && octets[0] >> 4 == 9)
            return 3;
        if (length == 14 && is_sign(octets[8]))
            return 3;
        return length <= 15 ? 2 : 3;
    case 8:
        if (length <= 9)
            return length <= 6 ? 4 : 5;
        if (octets[0] >> 5 == 4)                                /* 1000 or 1001 */
            return 4 + (octets[0] >> 4 & 1);
        if (length == 25 && is_sign(octets[19]))
            return 5;
        return length <= 26 ? 4 : 5;
    default:
        return kind;
    }
}

uint32_t plain_read(uint32_t kind, const uint8_t *octets, size_t length, int64_t parts[8])
{
    switch (chosen_kind(kind, octets, length)) {
    /*                       dated  timed  zoned */
    case 0: return read_kind(true,  false, false, octets, length, parts);
    case 1: return read_kind(true,  false, true,  octets, length, parts);
    case 2: return read_kind(false, true,  false, octets, length, parts);
    case 3: return read_kind(false, true,  true,  octets, length, parts);
    case 4: return read_kind(true,  true,  false, octets, length, parts);
    case 5: return read_kind(true,  true,  true,  octets, length, parts);
    default: return PLAIN_BAD_VALUE;
    }
}
