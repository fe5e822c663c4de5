/* Numbers and offsets on the command line. What parses one is false for any other word, null too, and gives nothing
 * then. */
#ifndef TOOL_NUMBERS_H
#define TOOL_NUMBERS_H

#include "stamp.h"

bool is_digit(char octet);

/* Of 32 bits, decimal digits alone. */
bool parse_number(const char *word, uint32_t *number);

/* Of 64 bits, decimal digits, with or without a sign before them. */
bool parse_signed(const char *word, int64_t *number);

/* In minutes ahead of UTC: sign, two digits, colon, two digits. */
bool parse_offset(const char *word, int32_t *offset);

#endif
