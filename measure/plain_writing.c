/* The plain C version: writing. See plain.h, and plain_common.h for how. */
#include "plain_common.h"

INLINE uint32_t refuse(size_t *count, uint32_t refusal)
{
    *count = 0;
    return refusal;
}

INLINE uint32_t accept(size_t *count, size_t length)
{
    *count = length;
    return PLAIN_ACCEPTED;
}

INLINE void put_date(uint8_t *octets, uint32_t year, uint32_t month, uint32_t day)
{
    const uint32_t century = year / 100;
    const uint64_t numbers = (uint64_t)day << 48 | (uint64_t)month << 24 | (year - 100 * century);

    store16(octets, (uint16_t)(spread_digits(century, 1) + (ZERO_DATE & 0xFFFF)));
    store64(octets + 2, spread_digits(numbers, CLOCK_PAIRS) + ZERO_DATE);
}

/* hh:mm:ss and the first octets of .ffffff, 0 to 7 of these. The second store begins so far into the clock that it
 * ends with the fraction: one way for all digits, and no octet too many. */
INLINE void put_time(uint8_t *octets, uint64_t micros, size_t fraction_octets)
{
    const uint32_t seconds = (uint32_t)(micros / MICROS_A_SECOND);
    const uint32_t minutes = seconds / 60;
    const uint32_t hours = seconds / 3600;
    const uint64_t clock_numbers = (uint64_t)(seconds - 60 * minutes) << 48
        | (uint64_t)(minutes - 60 * hours) << 24 | hours;
    const uint64_t clock = spread_digits(clock_numbers, CLOCK_PAIRS) + ZERO_CLOCK;

    const uint32_t fraction = (uint32_t)(micros - (uint64_t)seconds * MICROS_A_SECOND);
    const uint32_t hundreds = fraction / 100;
    const uint32_t ten_thousands = fraction / 10000;
    const uint64_t fraction_numbers = (uint64_t)(fraction - 100 * hundreds) << 40
        | (uint64_t)(hundreds - 100 * ten_thousands) << 24 | (uint64_t)ten_thousands << 8;
    const uint64_t tail = spread_digits(fraction_numbers, FRACTION_PAIRS) + ZERO_FRACTION;
    const unsigned bits = 8 * (unsigned)fraction_octets;

    store64(octets, clock);
    store64(octets + fraction_octets, clock >> bits | tail << 8 << (56 - bits));    /* in two, as 64 is no shift */
}

INLINE void put_offset(uint8_t *octets, int32_t offset)
{
    const bool negative = offset < 0;               /* signs come at random: no branch on them */
    const uint32_t minutes = (uint32_t)(negative ? -offset : offset);
    const uint32_t hours = minutes / 60;
    const uint64_t numbers = (uint64_t)(minutes - 60 * hours) << 32 | hours << 8;
    const uint64_t word = (spread_digits(numbers, OFFSET_PAIRS) + ZERO_OFFSET) ^ negative * PLUS_TO_MINUS;

    store32(octets, (uint32_t)word);
    store16(octets + 4, (uint16_t)(word >> 32));
}

INLINE uint32_t write_text(bool dated, bool timed, bool zoned, const struct stamp *stamp, uint32_t digits,
                           uint8_t *octets, size_t room, size_t *count)
{
    const size_t fraction_octets = timed ? digits + (digits != 0) : 0;
    const size_t length = text_octets(dated, timed, zoned) + fraction_octets;

    if (room < length)
        return refuse(count, PLAIN_NO_ROOM);

    if (dated) {
        put_date(octets, stamp->year, stamp->month, stamp->day);
        octets += DATE_OCTETS;
    }
    if (dated && timed)
        *octets++ = 'T';
    if (timed) {
        put_time(octets, stamp->micros, fraction_octets);
        octets += CLOCK_OCTETS + fraction_octets;
    }
    if (zoned)
        put_offset(octets, stamp->offset);
    return accept(count, length);
}

INLINE uint32_t write_compact(bool dated, bool timed, bool zoned, const struct stamp *stamp,
                              uint8_t *octets, size_t room, size_t *count)
{
    const bool with_offset = zoned && (!timed || stamp->offset != 0);
    const size_t offset_octets = with_offset ? 2 : 0;
    const size_t least = least_compact_octets(dated, timed, with_offset);
    int64_t number = 0;
    size_t number_octets;

    if (dated)
        number = (int64_t)day_number(stamp->year, stamp->month, stamp->day) - EPOCH_DAY;
    if (dated && timed)
        number *= MILLIS_A_DAY;
    if (timed)
        number += (int64_t)(stamp->micros / 1000);      /* cut in the day, so that it is cut down before 2020 too */
    if (dated && timed && number > (with_offset ? MOST_T : MOST_PLAIN_T))
        return refuse(count, PLAIN_NO_COMPACT);

    number_octets = fewest_octets(number);
    if (number_octets < least)
        number_octets = least;
    if (room < offset_octets + number_octets)
        return refuse(count, PLAIN_NO_ROOM);

    if (with_offset)
        store16_big(octets, (uint16_t)stamp->offset);
    put_number(octets + offset_octets, number, number_octets);
    return accept(count, offset_octets + number_octets);
}

INLINE uint32_t write_extended(bool dated, bool zoned, const struct stamp *stamp,
                               uint8_t *octets, size_t room, size_t *count)
{
    const uint64_t header = zoned ? 0x9000 | ((uint32_t)stamp->offset & 0xFFF) : 0x8000;

    if (room < extended_octets(dated))
        return refuse(count, PLAIN_NO_ROOM);

    if (dated) {
        const uint64_t number = day_number(stamp->year, stamp->month, stamp->day);
        store64_big(octets, header << 48 | number << 24 | stamp->micros >> 16);
        store16_big(octets + 8, (uint16_t)stamp->micros);
    } else {
        put_number(octets, (int64_t)(header << 40 | stamp->micros), 7);
    }
    return accept(count, extended_octets(dated));
}

INLINE uint32_t write_kind(bool dated, bool timed, bool zoned, const struct stamp *stamp,
                           bool binary, uint32_t version, uint32_t digits,
                           uint8_t *octets, size_t room, size_t *count)
{
    if (dated && !is_day(stamp->year, stamp->month, stamp->day))
        return refuse(count, PLAIN_BAD_VALUE);
    if (timed && stamp->micros > MICROS_A_DAY)
        return refuse(count, PLAIN_BAD_VALUE);
    if (zoned && !is_offset(stamp->offset))
        return refuse(count, PLAIN_BAD_VALUE);

    if (!binary)
        return write_text(dated, timed, zoned, stamp, digits, octets, room, count);
    if (timed && version >= EXTENDED_VERSION && (digits == MOST_DIGITS || stamp->micros == MICROS_A_DAY))
        return write_extended(dated, zoned, stamp, octets, room, count);
    return write_compact(dated, timed, zoned, stamp, octets, room, count);
}

uint32_t plain_write(uint32_t kind, uint32_t year, uint32_t month, uint32_t day, uint64_t micros, int32_t offset,
                     bool binary, uint32_t version, uint32_t digits, uint8_t *octets, size_t room, size_t *count)
{
    const struct stamp stamp = { year, month, day, micros, offset };

    if (digits > MOST_DIGITS)
        return refuse(count, PLAIN_BAD_DIGITS);

    switch (kind) {
    /*                        dated  timed  zoned */
    case 0: return write_kind(true,  false, false, &stamp, binary, version, digits, octets, room, count);
    case 1: return write_kind(true,  false, true,  &stamp, binary, version, digits, octets, room, count);
    case 2: return write_kind(false, true,  false, &stamp, binary, version, digits, octets, room, count);
    case 3: return write_kind(false, true,  true,  &stamp, binary, version, digits, octets, room, count);
    case 4: return write_kind(true,  true,  false, &stamp, binary, version, digits, octets, room, count);
    case 5: return write_kind(true,  true,  true,  &stamp, binary, version, digits, octets, room, count);
    default: return refuse(count, PLAIN_BAD_VALUE);
    }
}
