/* reading.py in C: from the octets to a value, or to refusal 5, 6, 7, 8.
 *
 * Its own procedure: it chooses the kind and the form, then tests 5, 6, 7 and 8 in that order. It uses nothing of
 * writing, not even to try whether an image fits. The two binary forms are in fast_reading_binary.c. */
#include <string.h>

#include "fast.h"
#include "fast_common.h"
#include "fast_reading.h"

/* The lengths that each form of each kind can have (01 Text, Compact, Extended; B12). Zero ends a row; it is a length
 * of none of them (B16). */
static const uint8_t LENGTHS[6][3][10] = {
    [DATE] = {[COMPACT] = {1, 2, 3}, [TEXT] = {10}},
    [DATE_TZ] = {[COMPACT] = {4, 5}, [TEXT] = {16}},
    [TIME] = {[COMPACT] = {1, 2, 3, 4}, [EXTENDED] = {7}, [TEXT] = {8, 10, 11, 12, 13, 14, 15}},
    [TIME_TZ] = {[COMPACT] = {1, 2, 3, 4, 5, 6}, [EXTENDED] = {7}, [TEXT] = {14, 16, 17, 18, 19, 20, 21}},
    [DATETIME] = {[COMPACT] = {1, 2, 3, 4, 5, 6}, [EXTENDED] = {10}, [TEXT] = {19, 21, 22, 23, 24, 25, 26}},
    [DATETIME_TZ] = {[COMPACT] = {1, 2, 3, 4, 5, 6, 7, 8, 9}, [EXTENDED] = {10},
                     [TEXT] = {25, 27, 28, 29, 30, 31, 32}},
};

static bool is_length(uint32_t kind, int form, size_t length)
{
    for (const uint8_t *allowed = LENGTHS[kind][form]; *allowed != 0; allowed++)
        if (*allowed == length)
            return true;
    return false;
}

/* The first four bits; only asked where there is an octet. */
static int first_bits(const uint8_t *octets)
{
    return octets[0] / 16;
}

/* The signs of an offset, + and - (01 Text). */
static bool is_sign(uint8_t octet)
{
    return octet == 0x2B || octet == 0x2D;
}

/* 01 How a reader chooses, either-or, and 02, request 1: the first rule that fits. 1000 is 8 and 1001 is 9. Request 1
 * counts places from one: the ninth is octets[8]. */
static uint32_t chosen_kind(uint32_t kind, const uint8_t *octets, size_t length)
{
    if (kind == DATE_OR_TZ) {
        if (length <= 3)
            return DATE;
        if (length <= 5)
            return DATE_TZ;
        return length <= 10 ? DATE : DATE_TZ;
    }
    if (kind == TIME_OR_TZ) {
        if (length <= 4)
            return TIME;
        if (length <= 6)
            return TIME_TZ;
        if (length == 7 && first_bits(octets) == 8)
            return TIME;
        if (length == 7 && first_bits(octets) == 9)
            return TIME_TZ;
        /* 02, request 1: only the length and this octet count (R1.1). */
        if (length == 14 && is_sign(octets[8]))
            return TIME_TZ;
        return length <= 15 ? TIME : TIME_TZ;
    }
    if (kind == DATETIME_OR_TZ) {
        if (length <= 6)
            return DATETIME;
        if (length <= 9)
            return DATETIME_TZ;
        if (first_bits(octets) == 8)
            return DATETIME;
        if (first_bits(octets) == 9)
            return DATETIME_TZ;
        /* 02, request 1: the first bits have come before it (R1.1). */
        if (length == 25 && is_sign(octets[19]))
            return DATETIME_TZ;
        return length <= 26 ? DATETIME : DATETIME_TZ;
    }
    return kind;
}

/* 01 How a reader chooses, the table. */
static int chosen_form(uint32_t kind, const uint8_t *octets, size_t length)
{
    static const size_t last_compact[6] = {
        [DATE] = 3, [DATE_TZ] = 5, [TIME] = 4, [TIME_TZ] = 6, [DATETIME] = 6, [DATETIME_TZ] = 9};
    if (length <= last_compact[kind])
        return COMPACT;
    if ((kind == TIME || kind == DATETIME) && first_bits(octets) == 8)
        return EXTENDED;
    if ((kind == TIME_TZ || kind == DATETIME_TZ) && first_bits(octets) == 9)
        return EXTENDED;
    return TEXT;
}

/* Text */

/* 01 Text, place by place: 9 is any digit, # a sign, the rest itself. */
static void text_shape(char shape[33], uint32_t kind, int64_t digits)
{
    shape[0] = '\0';
    if (has_date(kind))
        strcat(shape, "9999-99-99");
    if (kind == DATETIME || kind == DATETIME_TZ)
        strcat(shape, "T");
    if (has_time(kind)) {
        strcat(shape, "99:99:99");
        if (digits > 0)
            strncat(shape, ".999999", 1 + (size_t)digits);
    }
    if (has_offset(kind))
        strcat(shape, "#99:99");
}

/* The digits come from the length alone (B17); 0 for Date and DateTz. Without a fraction the text has `bare` octets,
 * with one the point more. */
static int64_t digits_by_length(uint32_t kind, size_t length)
{
    static const size_t bare[6] = {[TIME] = 8, [TIME_TZ] = 14, [DATETIME] = 19, [DATETIME_TZ] = 25};
    if (kind == DATE || kind == DATE_TZ)
        return 0;
    return length == bare[kind] ? 0 : (int64_t)(length - bare[kind] - 1);
}

/* Only ASCII digits, T, point, colon, dash and plus fit (B19). */
static bool fits_place(uint8_t octet, char place)
{
    if (place == '9')
        return 0x30 <= octet && octet <= 0x39;
    if (place == '#')
        return is_sign(octet);
    return octet == place;
}

static int64_t decimal(const uint8_t *text, int64_t places)
{
    int64_t number = 0;
    for (int64_t i = 0; i < places; i++)
        number = number * 10 + (text[i] - '0');
    return number;
}

/* The time at `text` into *micros; false where it is out of range. */
static bool read_text_time(const uint8_t *text, int64_t digits, int64_t *micros)
{
    int64_t hour = decimal(text, 2), minute = decimal(text + 3, 2), second = decimal(text + 6, 2);
    /* ".5" is 500000 microseconds: fill with zeros on the right. */
    int64_t fraction = digits > 0 ? decimal(text + 9, digits) : 0;
    for (int64_t filled = digits; filled < 6; filled++)
        fraction *= 10;
    if (hour > 24 || minute > 59 || second > 59)
        return false;
    /* Hour 24 stands alone; the offset may be anything (B21). */
    if (hour == 24 && (minute > 0 || second > 0 || fraction > 0))
        return false;
    *micros = ((hour * 60 + minute) * 60 + second) * 1000000 + fraction;
    return true;
}

/* The offset at `text` into *offset; false where it is out of range. */
static bool read_text_offset(const uint8_t *text, int64_t *offset)
{
    int64_t hours = decimal(text + 1, 2), minutes = decimal(text + 4, 2);
    if (hours > 23 || minutes > 59)
        return false;
    *offset = hours * 60 + minutes;
    /* The sign belongs to the whole offset, so -00:30 is -30. */
    if (text[0] == '-')
        *offset = -*offset;
    return true;
}

/* 01 Text; refusals 6, 7, 8 in that order over the whole text (B18). */
static uint32_t read_text(uint32_t kind, const uint8_t *octets, size_t length, answer *into)
{
    char shape[33];
    const uint8_t *text = octets;
    into->digits = digits_by_length(kind, length);
    text_shape(shape, kind, into->digits);

    /* 6: a digit, sign or separator is wrong. The shape is as long as the text: refusal 5 has seen to that. */
    for (size_t i = 0; i < length; i++)
        if (!fits_place(octets[i], shape[i]))
            return 6;

    /* 7: the offset -00:00, exactly these six octets (B20). */
    if (has_offset(kind) && memcmp(octets + length - 6, "-00:00", 6) == 0)
        return 7;

    /* 8: a field out of range. Take the fields one after the other. */
    if (has_date(kind)) {
        into->year = decimal(text, 4);
        into->month = decimal(text + 5, 2);
        into->day = decimal(text + 8, 2);
        if (!is_date(into->year, into->month, into->day))
            return 8;
        text += has_time(kind) ? 11 : 10;
    }
    if (has_time(kind)) {
        if (!read_text_time(text, into->digits, &into->micros))
            return 8;
        text += into->digits == 0 ? 8 : 9 + into->digits;
    }
    if (has_offset(kind) && !read_text_offset(text, &into->offset))
        return 8;
    return 0;
}

/* 01 Refusal numbers: 5, 6, 7, 8, each over the whole input before the next. Digits are 0 where the form is not text
 * (B30); a part the kind lacks is 0. A refused read leaves all parts as lent. A kind that is none is 2 (B40). */
uint32_t fast_read(uint32_t kind, const uint8_t *octets, size_t length, int64_t parts[8])
{
    answer found = {0, 0, 0, 0, 0, 0};
    uint32_t number;
    if (kind > DATETIME_OR_TZ)
        return 2;
    kind = chosen_kind(kind, octets, length);
    int form = chosen_form(kind, octets, length);
    if (!is_length(kind, form, length))
        return 5;
    if (form == TEXT)
        number = read_text(kind, octets, length, &found);
    else if (form == EXTENDED)
        number = read_extended(kind, octets, length, &found);
    else
        number = read_compact(kind, octets, length, &found);
    if (number != 0)
        return number;
    parts[0] = kind;
    parts[1] = form;
    parts[2] = found.digits;
    parts[3] = found.year;
    parts[4] = found.month;
    parts[5] = found.day;
    parts[6] = found.micros;
    parts[7] = found.offset;
    return 0;
}
