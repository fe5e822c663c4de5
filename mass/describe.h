/* Calls and answers in words, for differences. */
#ifndef MASS_DESCRIBE_H
#define MASS_DESCRIBE_H

#include "check.h"

#define GUARD 8                        /* octets before and after what is lent */
#define LENT_PART (-7000000000000000000) /* what is in a part before the call: far from every answer */
#define LENT_NUMBER 0xA5A5A500u        /* what is in a number of 32 bits before the call: so too */
#define LENT_SIZE (~(size_t)LENT_NUMBER) /* what is in a start or a length: so too, in its upper half as well */

typedef struct write_answer {
    uint32_t refusal;
    size_t count;
    uint8_t area[GUARD + LONGEST_TRIED + GUARD];
} write_answer;

/* Of a read, of a call on instants, of a record in a schedule, or of the one that holds. */
typedef struct parts_answer {
    uint32_t refusal;
    int64_t parts[1 + 8 + 1];          /* a guard, the eight of a read or the fewer of the others, guards */
} parts_answer;

/* Of the full reading of a schedule. */
typedef struct whole_answer {
    uint32_t refusal;
    uint32_t numbers[5];               /* guards around the two below */
} whole_answer;
enum { RECORDS = 1, FAULT = 3 };

/* Of the question which correction holds. */
typedef struct held_answer {
    parts_answer record;               /* the refusal too */
    uint32_t numbers[3];               /* guards around the one below */
} held_answer;
enum { RECORDS_READ = 1 };

/* Of manual over plan. */
typedef struct over_answer {
    uint32_t of;
    size_t part[4];                    /* guards around the two below */
} over_answer;
enum { PART_START = 1, PART_LENGTH = 2 };

/* True where the part is as it was lent; each of the ten was lent another number. */
static inline bool part_is_as_lent(const parts_answer *answer, int part)
{
    return answer->parts[part] == LENT_PART - part;
}

/* How many parts a call fills that is no write. */
int parts_filled(asked which);

/* Text that grows up to DIFFERENCE_ROOM; what is beyond is left out. */
typedef struct words {
    char *text;
    size_t length;
} words;

void say_call(words *to, const call *made);
void say_write(words *to, const char *who, const write_answer *answer);
/* A part that is as lent is a dash. */
void say_parts(words *to, const char *who, asked which, const parts_answer *answer);
void say_whole(words *to, const char *who, const whole_answer *answer);
void say_held(words *to, const char *who, const held_answer *answer);
void say_over(words *to, const char *who, const over_answer *answer);
void say_held_of(words *to, const char *who, uint32_t of, const stamp_held *answer);
void say_wanted_instant(words *to, int64_t instant);

#endif
