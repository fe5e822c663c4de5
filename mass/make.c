#include "make.h"


#define PICK(by, from) ((from)[chance_below((by), sizeof (from) / sizeof (from)[0])])

stamp_settings as_text(uint32_t digits)
{
    return stamp_make_settings(false, 0, digits);
}

stamp_settings as_compact(void)
{
    return stamp_make_settings(true, STAMP_EXTENDED_FROM - 1, STAMP_MAX_DIGITS);
}

stamp_settings as_extended(void)
{
    return stamp_make_settings(true, STAMP_EXTENDED_FROM, STAMP_MAX_DIGITS);
}

uint64_t some_micros(chance *by)
{
    static const uint64_t edges[] = {0, 1, 5, 999, 1000, 1001, 127999, 128000, 32767999, 32768000, 8388607999,
                                     8388608000, STAMP_END_OF_DAY - 1000, STAMP_END_OF_DAY - 1, STAMP_END_OF_DAY};
    switch (chance_below(by, 8)) {
    case 0: return PICK(by, edges);
    case 1: return chance_below(by, 86401) * 1000000;
    case 2: return chance_below(by, 86400001) * 1000;
    case 3: return chance_below(by, (uint64_t)1 << chance_below(by, 37));
    default: return chance_below(by, STAMP_END_OF_DAY + 1);
    }
}

int32_t some_offset(chance *by)
{
    static const int32_t edges[] = {0, 0, 1, -1, 30, -30, 59, -59, 60, -60, 61, -61, 127, 128, -128, -129, 255, 256,
                                    -256, -257, 1438, -1438, 1439, -1439};
    if (chance_once_in(by, 3))
        return PICK(by, edges);
    return (int32_t)chance_below(by, 2 * STAMP_MAX_OFFSET + 1) - STAMP_MAX_OFFSET;
}

static uint32_t some_year(chance *by)
{
    static const uint32_t edges[] = {1, 2, 4, 99, 100, 400, 1582, 1900, 1999, 2000, 2001, 2019, 2020, 2021, 2100, 4000,
                                     6479, 6480, 9996, 9998, 9999};
    if (chance_once_in(by, 3))
        return PICK(by, edges);
    return 1 + (uint32_t)chance_below(by, STAMP_MAX_YEAR);
}

stamp_value some_value(chance *by, uint32_t kind)
{
    uint32_t year = some_year(by);
    uint32_t month = 1 + (uint32_t)chance_below(by, 12);
    uint32_t day = 1 + (uint32_t)chance_below(by, 31);
    uint64_t micros = some_micros(by);
    return stamp_make_value(kind, year, month, day, micros, some_offset(by));
}

static uint32_t some_version(chance *by)
{
    static const uint32_t edges[] = {0, 1, STAMP_EXTENDED_FROM - 1, STAMP_EXTENDED_FROM, STAMP_EXTENDED_FROM + 1, 65535,
                                     65536, 2147483647, 2147483648, 4294967295};
    if (chance_once_in(by, 4))
        return (uint32_t)chance_bits(by);
    return PICK(by, edges);
}

stamp_settings some_settings(chance *by)
{
    bool binary = chance_below(by, 2) == 0;
    uint32_t version = some_version(by);
    return stamp_make_settings(binary, version, (uint32_t)chance_below(by, STAMP_MAX_DIGITS + 1));
}

/* A number near or far from the range of a part: its first and last, and one beyond, 0, and what 32 bits can hold. */
static uint32_t any_number(chance *by, uint32_t last)
{
    const uint32_t edges[] = {0, 1, last - 1, last, last + 1, 256 + 1, 65536 + 1, 2147483647, 2147483648, 4294967294,
                              4294967295};
    if (chance_once_in(by, 2))
        return 1 + (uint32_t)chance_below(by, last);
    return chance_once_in(by, 8) ? (uint32_t)chance_bits(by) : PICK(by, edges);
}

static uint64_t any_micros(chance *by)
{
    static const uint64_t edges[] = {STAMP_END_OF_DAY, STAMP_END_OF_DAY + 1, 2 * STAMP_END_OF_DAY, 4294967295,
                                     4294967296, 1099511627775, 1099511627776, 9223372036854775807u,
                                     9223372036854775808u, 18446744073709551614u, 18446744073709551615u};
    if (chance_below(by, 4) != 0)
        return some_micros(by);
    return chance_once_in(by, 4) ? chance_bits(by) : PICK(by, edges);
}

int32_t any_offset(chance *by)
{
    static const int32_t edges[] = {1439, -1439, 1440, -1440, 2047, 2048, -2048, -2049, 4095, 4096, 32767, -32768,
                                    65535, 65536, -65536, 2147483647, -2147483647, INT32_MIN};
    if (chance_below(by, 4) != 0)
        return some_offset(by);
    return chance_once_in(by, 4) ? (int32_t)(uint32_t)chance_bits(by) : PICK(by, edges);
}

/* Wrong in at most one part half of the time, since of two wrong parts the second is never asked. */
stamp_value any_value(chance *by)
{
    uint32_t kind = (uint32_t)chance_below(by, 6);
    stamp_value made = some_value(by, kind);
    uint64_t which = chance_below(by, 12);
    if (which == 0)
        made.kind = any_number(by, STAMP_DATETIME_OR_DATETIMETZ);
    if (which == 1 || which >= 10)
        made.year = any_number(by, STAMP_MAX_YEAR);
    if (which == 2 || which >= 10)
        made.month = any_number(by, 12);
    if (which == 3 || which >= 10)
        made.day = any_number(by, 31);
    if (which == 4 || which >= 10)
        made.micros = any_micros(by);
    if (which == 5 || which >= 10)
        made.offset = any_offset(by);
    return made;
}

stamp_settings any_settings(chance *by)
{
    static const uint32_t digits[] = {7, 8, 9, 255, 256, 262, 65536, 2147483648, 4294967295};
    stamp_settings made = some_settings(by);
    if (chance_once_in(by, 10))
        made.digits = PICK(by, digits);
    return made;
}

void add_octet(image *to, uint8_t octet)
{
    if (to->length < LONGEST_TRIED)
        to->octets[to->length++] = octet;
}

void add_text(image *to, const char *text)
{
    for (; *text != '\0'; text++)
        add_octet(to, (uint8_t)*text);
}

void add_decimal(image *to, uint64_t number, int places)
{
    char text[24];
    int length = 0;
    while (length < places || number > 0) {
        text[length++] = (char)('0' + number % 10);
        number /= 10;
    }
    while (length > 0)
        add_octet(to, (uint8_t)text[--length]);
}

void add_number(image *to, uint64_t number, int octets)
{
    for (int after = octets - 1; after >= 0; after--)
        add_octet(to, after < 8 ? (uint8_t)(number >> (8 * after)) : (uint8_t)(number >> 63 ? 0xFF : 0));
}
