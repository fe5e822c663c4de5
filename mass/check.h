/* The compared calls. Each calls the library and the second program with the same input and holds everything that comes
 * back to each other: refusal number, count, every octet of the lent buffer and of the guards around it, all parts. A
 * part of a refused call, an octet past an image, a guard and the octets of an input must also be as lent, whatever
 * both say. */
#ifndef MASS_CHECK_H
#define MASS_CHECK_H

#include "stamp.h"

#define LONGEST_TRIED 40               /* octets lent or read at most */
#define LONGEST_FILE 65600             /* octets of a schedule file: the longest stamp that a record tells of fits */
#define DIFFERENCES_KEPT 20
#define DIFFERENCE_ROOM 1500           /* characters of one difference, printed whole */
#define OTHER_ANSWER (STAMP_LAST_REFUSAL + 1) /* counts answers that are no refusal number */

/* What is counted beside refusal numbers: how it came to the answer of manual over plan, which refuses nothing. */
enum {
    OVER_REFUSED = OTHER_ANSWER + 1,   /* a question to one of the files, or both */
    OVER_NEITHER,                      /* none holds yet in either */
    OVER_PLAN_ALONE,                   /* one holds in the plan only */
    OVER_MANUAL_ALONE,
    OVER_PLAN_LATER,                   /* one holds in each */
    OVER_MANUAL_LATER,
    OVER_EQUAL,
    ANSWERS
};

typedef struct image {
    uint8_t octets[LONGEST_TRIED];
    size_t length;
} image;

/* A schedule file. */
typedef struct card {
    uint8_t octets[LONGEST_FILE];
    size_t length;
} card;

typedef enum asked {
    ASKED_WRITE, ASKED_READ, ASKED_INSTANT, ASKED_ADD, ASKED_DIFFERENCE, ASKED_AT, ASKED_RESTATE, ASKED_SCHEDULE_READ,
    ASKED_SCHEDULE_RECORD, ASKED_SCHEDULE_HOLDS, ASKED_SCHEDULE_OVER
} asked;

/* The input of one call; what another would be asked is left as it was. */
typedef struct call {
    asked which;
    uint32_t kind;                     /* the reader */
    stamp_value value;                 /* written, asked for its instant or restated */
    stamp_settings settings;
    size_t room;
    image read;
    int64_t a, b;                      /* an instant and what is added to it, or two instants; a: what is asked at */
    int32_t to;                        /* the offset at which an instant or a stamp is asked for */
    uint32_t place;                    /* of a record in the file */
    uint32_t channel;                  /* for which it is asked what holds */
    card file;                         /* the plan, of two */
    card manual;
} call;

typedef struct difference {
    uint64_t unit;
    char text[DIFFERENCE_ROOM];
} difference;

/* What a worker counts. The parent sees it while the worker is at work, and after it has died. */
typedef struct tally {
    volatile uint64_t units_done;
    uint64_t unit;                     /* at work */
    uint64_t checks, failed;
    uint64_t again;                    /* checks that wrote again what was read, asked a result for its instant, or
                                        * asked a file again with other octets where it was not read */
    uint64_t answers[ANSWERS];
    size_t differences;
    difference kept[DIFFERENCES_KEPT];
    call last;                         /* so that a call that never came back can be named */
    char apart[256];                   /* from what the next worker counts: two cores are slow on one line of memory */
} tally;

/* The checks that follow belong to this unit of work and are counted there. */
void check_into(tally *to, uint64_t unit);

/* Writes; true and the image where it was accepted, and rightly. */
bool check_write(const stamp_value *value, stamp_settings settings, size_t room, image *written);

/* Reads; what was accepted is written again in the form and digits found and must be the same octets (demand 3). */
void check_read(uint32_t kind, const uint8_t *octets, size_t length);

/* By all nine readers. */
void check_read_by_all(const uint8_t *octets, size_t length);

/* By the reader of one of the six kinds and by the either-or reader of that kind. */
void check_read_by_two(uint32_t kind, const uint8_t *octets, size_t length);

/* Writes with room for everything; what was accepted is read by the two. */
bool check_both_ways(const stamp_value *value, stamp_settings settings);

/* The calls on instants. The kind of a value is not looked at: it is taken for a DatetimeTz. */

/* The instant of a stamp. `same_as` is the one that it must have, or null where any may that both agree on. */
void check_instant(const stamp_value *value, const int64_t *same_as);

void check_add(int64_t instant, int64_t micros);
void check_difference(int64_t a, int64_t b);

/* The stamp of an instant at an offset; true and the stamp where it was accepted, and rightly. It is asked for its
 * instant, which must be the one given. */
bool check_at(int64_t instant, int32_t offset, stamp_value *found);

/* A stamp restated; what was accepted is asked for its instant, which must be that of the stamp given. */
void check_restate(const stamp_value *value, int32_t to);

/* The calls on schedules. */

/* Reads a whole file; true where it was accepted, and rightly. */
bool check_schedule_read(const card *file);

/* The record at a place. */
void check_schedule_record(const card *file, uint32_t place);

/* Which correction holds. Where it was answered and records are left unread, it is asked again with other octets in
 * place of these and of their stamps, and must have the same answer. */
void check_schedule_holds(const card *file, int64_t instant, uint32_t channel);

/* Manual over plan, by the library's call and by the header's two forms of it, each a check. Where both are the same
 * card, they are lent as the very same memory. */
void check_schedule_over(const card *plan, const card *manual, int64_t instant, uint32_t channel);

#endif
