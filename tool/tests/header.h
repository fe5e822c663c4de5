/* What the files of the header's tests share. */
#ifndef TESTS_HEADER_H
#define TESTS_HEADER_H

#include "stamp.h"

/* What is lent, to be found again after a refusal: no call answers such a number. */
static const int64_t lent_number = INT64_C(0x5A5A5A5A5A5A5A5A);

/* 2020-01-01T00:00 UTC. */
static const int64_t beginning = INT64_C(63713433600000000);

/* Five records, whose instants are so many milliseconds after the beginning:
 *     place  channel  correction  milliseconds  stamp
 *     1      1        +25         0             compact
 *     2      2        -40         5             compact
 *     3      2        +7          5             text
 *     4      1        -1          9             compact
 *     5      16       +1000000    10            compact */
#define PLAN_LENGTH 109
extern const uint8_t plan[PLAN_LENGTH];

/* A schedule without records. */
extern const uint8_t empty[STAMP_SCHEDULE_HEADER];

/* Numbers that no channel has. */
#define NO_CHANNELS 5
extern const uint32_t no_channels[NO_CHANNELS];

/* Counts a test, and tells where one fails. */
void try_that(bool holds, const char *what);

/* A number of so many octets, big-endian. */
void put_number(uint8_t *octets, size_t count, uint32_t number);

/* What holds, and that none does yet. */
stamp_held held(uint32_t place, uint32_t read, size_t start, size_t length, int64_t instant, int32_t correction);
stamp_held none_yet(uint32_t read);

/* An answer as lent, to be found again after a refusal. */
stamp_held lent_held(void);

bool same_held(const stamp_held *left, const stamp_held *right);

/* Full reading, and the record at a place. */
void try_schedules(void);

/* Which correction holds. */
void try_questions(void);

/* Manual over plan. */
void try_two_schedules(void);

#endif
