/* writing.py in C: from a value and settings to the octets, or to refusal 1, 2, 3, 4. */
#include <string.h>

#include "fast.h"
#include "fast_common.h"

/* Python's octet string, which grows at its end. */
typedef struct image {
    uint8_t octets[32];
    size_t count;
} image;

static void add_octet(image *to, int64_t octet)
{
    to->octets[to->count++] = (uint8_t)octet;
}

/* "%04d" and "%02d": decimal, with zeros in front. */
static void add_decimal(image *to, int64_t number, int places)
{
    int64_t unit = 1;
    for (int place = 1; place < places; place++)
        unit *= 10;
    for (; unit > 0; unit /= 10)
        add_octet(to, '0' + number / unit % 10);
}

/* 01 Choice of form; B4 for how "and" and "or" bind. */
static int form_to_write(uint32_t kind, int64_t micros, bool binary, uint32_t version, uint32_t digits)
{
    if (!binary)
        return TEXT;
    if (kind == DATE || kind == DATE_TZ)
        return COMPACT;
    if (version >= EXTENDED_SINCE_VERSION && (digits == 6 || micros == MICROS_OF_DAY))
        return EXTENDED;
    return COMPACT;
}

static void add_text_time(image *to, int64_t micros, uint32_t digits)
{
    /* 24:00 comes out as hour 24 with nothing after it. */
    add_decimal(to, micros / 3600000000, 2);
    add_octet(to, ':');
    add_decimal(to, micros / 60000000 % 60, 2);
    add_octet(to, ':');
    add_decimal(to, micros / 1000000 % 60, 2);
    if (digits > 0) {
        /* All six digits first, then cut: never rounded, zeros kept. */
        add_octet(to, '.');
        add_decimal(to, micros % 1000000, 6);
        to->count -= 6 - digits;
    }
}

/* 01 Text. Digits do not matter to Date and DateTz (B10). */
static void text_image(image *to, uint32_t kind, int64_t year, int64_t month, int64_t day, int64_t micros,
                       int64_t offset, uint32_t digits)
{
    if (has_date(kind)) {
        add_decimal(to, year, 4);
        add_octet(to, '-');
        add_decimal(to, month, 2);
        add_octet(to, '-');
        add_decimal(to, day, 2);
    }
    if (kind == DATETIME || kind == DATETIME_TZ)
        add_octet(to, 'T');
    if (has_time(kind))
        add_text_time(to, micros, digits);
    if (has_offset(kind)) {
        /* The sign is that of the whole offset, so that -30 is -00:30. */
        int64_t absolute = offset < 0 ? -offset : offset;
        add_octet(to, offset < 0 ? '-' : '+');
        add_decimal(to, absolute / 60, 2);
        add_octet(to, ':');
        add_decimal(to, absolute % 60, 2);
    }
}

/* `count` octets, big-endian; two's complement where negative. */
static void big_endian(image *to, int64_t number, int count)
{
    uint8_t lowest_first[8];
    for (int i = 0; i < count; i++) {
        int64_t lowest = number % 256;   /* C's % has the sign of the number, Python's has not */
        if (lowest < 0)
            lowest += 256;
        lowest_first[i] = (uint8_t)lowest;
        number = (number - lowest) / 256;
    }
    for (int i = count - 1; i >= 0; i--)
        add_octet(to, lowest_first[i]);
}

/* 01 Compact, X.690 8.3: fewest octets that hold it, or `at_least`. */
static void ber_integer(image *to, int64_t number, int at_least)
{
    int count = at_least;
    int64_t beyond = 128;                /* 2 ** (8 * count - 1), the first number that is too large */
    for (int i = 1; i < count; i++)
        beyond *= 256;
    while (!(-beyond <= number && number <= beyond - 1)) {
        count++;
        beyond *= 256;
    }
    big_endian(to, number, count);
}

/* 01 Compact, Date and DateTz: days from 2020-01-01; DateTz always has its offset in front, zero too, and at least
 * 2 octets of days. */
static void compact_date(image *to, uint32_t kind, int64_t number, int64_t offset)
{
    int64_t days = number - DAY_NUMBER_OF_2020;
    if (kind == DATE) {
        ber_integer(to, days, 1);
        return;
    }
    big_endian(to, offset, 2);
    ber_integer(to, days, 2);
}

/* 01 Compact, Time and TimeTz: whole milliseconds, cut; at least 3 octets after an offset; offset zero as Time. Digits
 * do not matter (B5). */
static void compact_time(image *to, uint32_t kind, int64_t micros, int64_t offset)
{
    int64_t millis = micros / 1000;
    if (kind == TIME || offset == 0) {
        ber_integer(to, millis, 1);
        return;
    }
    big_endian(to, offset, 2);
    ber_integer(to, millis, 3);
}

/* 01 Compact, Datetime and DatetimeTz: 0, or 3 and no octets.
 *
 * The milliseconds are cut within the day and then added to the days, so moments before 2020 are floored (01 case M).
 * 24:00 becomes the next day. Offset zero is "written without an offset", so the plain limit holds (B8). */
static uint32_t compact_datetime(image *to, uint32_t kind, int64_t number, int64_t micros, int64_t offset)
{
    int64_t days = number - DAY_NUMBER_OF_2020;
    int64_t t = MILLIS_OF_DAY * days + micros / 1000;
    if (kind == DATETIME || offset == 0) {
        if (t > LAST_T_WITHOUT_OFFSET)
            return 3;
        ber_integer(to, t, 1);
        return 0;
    }
    if (t > LAST_T_WITH_OFFSET)
        return 3;
    big_endian(to, offset, 2);
    ber_integer(to, t, 5);
    return 0;
}

/* Calendar for writing: years and months are counted one after the other. */

static int64_t year_start[LAST_YEAR + 1];

/* Day number of 1 January of each year, by counting year after year. */
static void count_year_starts(void)
{
    int64_t count = 0;
    for (int64_t year = 1; year <= LAST_YEAR; year++) {
        year_start[year] = count;
        count += is_leap(year) ? 366 : 365;
    }
}

/* Days since 0001-01-01, by counting (01 Values). */
static int64_t day_number(int64_t year, int64_t month, int64_t day)
{
    if (year_start[2] == 0)
        count_year_starts();
    int64_t number = year_start[year];
    for (int64_t earlier_month = 1; earlier_month < month; earlier_month++)
        number += days_in_month(year, earlier_month);
    return number + day - 1;
}

/* 01 Extended: header of 16 bits, day number in 3, microseconds in 5. */
static void extended_image(image *to, uint32_t kind, int64_t year, int64_t month, int64_t day, int64_t micros,
                           int64_t offset)
{
    if (has_offset(kind))                /* 12-bit two's complement */
        big_endian(to, 9 * 4096 + (offset < 0 ? offset + 4096 : offset), 2);
    else
        big_endian(to, 8 * 4096, 2);
    if (has_date(kind))
        big_endian(to, day_number(year, month, day), 3);
    big_endian(to, micros, 5);
}

/* 0 and the image, or refusal 1 to 3, tested in that order (01). */
static uint32_t write_image(image *to, uint32_t kind, uint32_t year, uint32_t month, uint32_t day, uint64_t micros,
                            int32_t offset, bool binary, uint32_t version, uint32_t digits)
{
    /* 1: digits above 6, for every kind and form (B1). */
    if (digits > LAST_DIGITS)
        return 1;
    /* 2: a kind that is none (B40); then only the parts that the kind has count (B3). */
    if (kind > DATETIME_TZ)
        return 2;
    if (has_date(kind) && !is_date(year, month, day))
        return 2;
    if (has_time(kind) && micros > MICROS_OF_DAY)
        return 2;
    if (has_offset(kind) && !(-LAST_OFFSET <= offset && offset <= LAST_OFFSET))
        return 2;
    int64_t micros_within = has_time(kind) ? (int64_t)micros : 0;
    int form = form_to_write(kind, micros_within, binary, version, digits);
    if (form == TEXT)
        text_image(to, kind, year, month, day, micros_within, offset, digits);
    else if (form == EXTENDED)
        extended_image(to, kind, year, month, day, micros_within, offset);
    else if (kind == DATE || kind == DATE_TZ)
        compact_date(to, kind, day_number(year, month, day), offset);
    else if (kind == TIME || kind == TIME_TZ)
        compact_time(to, kind, micros_within, offset);
    else
        return compact_datetime(to, kind, day_number(year, month, day), micros_within, offset);
    return 0;
}

/* write_into: 4 comes last; a refused write has count 0 and leaves the buffer as lent; octets past the image stay as
 * lent (01 Refusal numbers). */
uint32_t fast_write(uint32_t kind, uint32_t year, uint32_t month, uint32_t day, uint64_t micros, int32_t offset,
                    bool binary, uint32_t version, uint32_t digits, uint8_t *octets, size_t room, size_t *count)
{
    image made;
    made.count = 0;
    *count = 0;
    uint32_t number = write_image(&made, kind, year, month, day, micros, offset, binary, version, digits);
    if (number != 0)
        return number;
    if (room < made.count)
        return 4;
    memcpy(octets, made.octets, made.count);
    *count = made.count;
    return 0;
}
