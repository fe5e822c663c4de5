#include "numbers.h"

#include <string.h>

bool is_digit(char octet)
{
    return octet >= '0' && octet <= '9';
}

/* A decimal number up to the limit, digits alone. */
static bool parse_digits(const char *word, uint64_t limit, uint64_t *number)
{
    uint64_t sum = 0, digit;
    if (word == NULL || *word == '\0')
        return false;
    for (; *word != '\0'; word++) {
        if (!is_digit(*word))
            return false;
        digit = (uint64_t)(*word - '0');
        if (sum > (limit - digit) / 10)
            return false;
        sum = sum * 10 + digit;
    }
    *number = sum;
    return true;
}

bool parse_number(const char *word, uint32_t *number)
{
    uint64_t found;
    if (!parse_digits(word, UINT32_MAX, &found))
        return false;
    *number = (uint32_t)found;
    return true;
}

/* The least number has no counterpart above 0, so what is below 0 is negated but for one. */
bool parse_signed(const char *word, int64_t *number)
{
    bool below = word != NULL && *word == '-';
    uint64_t size;
    if (below || (word != NULL && *word == '+'))
        word++;
    if (!parse_digits(word, (uint64_t)INT64_MAX + (below ? 1 : 0), &size))
        return false;
    *number = below && size != 0 ? -(int64_t)(size - 1) - 1 : (int64_t)size;
    return true;
}

/* The library reads it behind a time: so what is taken here is what a stamp's text takes, and no other spelling. */
bool parse_offset(const char *word, int32_t *offset)
{
    char text[] = "00:00:00+hh:mm";
    size_t at, clock = stamp_text_length(STAMP_TIME, 0), length = stamp_text_length(STAMP_TIMETZ, 0);
    stamp_decoded found;
    if (word == NULL || strlen(word) != length - clock)
        return false;
    for (at = clock; at < length; at++)
        text[at] = word[at - clock];
    if (stamp_decode(STAMP_TIMETZ, (const uint8_t *)text, length, &found) != STAMP_ACCEPTED)
        return false;
    *offset = found.value.offset;
    return true;
}
