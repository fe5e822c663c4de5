/* What the two files of reading.py in C share, and what schedule.py takes of it. */
#ifndef FAST_READING_H
#define FAST_READING_H

#include "fast_common.h"

/* What an accepted read answers beside kind and form. */
typedef struct answer {
    int64_t digits, year, month, day, micros, offset;
} answer;

/* 0, or refusal 6 to 8; the length is one that the form can have. Parts that the kind lacks are left as they are. */
uint32_t read_compact(uint32_t kind, const uint8_t *octets, size_t length, answer *into);
uint32_t read_extended(uint32_t kind, const uint8_t *octets, size_t length, answer *into);

/* Numbers in octets: Python's `signed` and `unsigned`. At most seven octets come up, so all fit. */
int64_t signed_number(const uint8_t *octets, size_t length);
int64_t unsigned_number(const uint8_t *octets, size_t length);

#endif
