/* The values that are measured: drawn by chance, and all of them accepted. */
#ifndef VALUES_H
#define VALUES_H

#include <stdio.h>
#include <stdlib.h>

#include "stamp.h"

enum { VALUES = 4096 };
enum { LAST_NUMBER = 3652058, LAST_COMPACT_YEAR = 6428 };
enum { FILES = 4, RECORDS = FILES * STAMP_MAX_RECORDS };    /* as many records in all as there are values, nearly */
enum { MOST_READ = 32768 };             /* records that the questions of one pass read, about; of a pair, in each */
#define HOUR (STAMP_END_OF_DAY / 24)    /* microseconds */

/* A kind to write or read, in a form; or a schedule of such stamps. */
typedef struct {
    uint32_t kind;                      /* one of the nine: an either-or reader has samples of both its kinds */
    uint32_t form;
    uint32_t digits;                    /* of a text */
    uint32_t records;                   /* of a schedule */
    uint32_t place;                     /* of the record that a question is asked at, from one */
} stamps;

typedef struct {
    stamp_value value;
    uint32_t number;                    /* a day number */
    uint8_t octets[STAMP_LONGEST_IMAGE];
    size_t length;
} sample;

/* For the calls on instants. In a sample these would make all rows slower, as more had to be loaded. */
typedef struct {
    stamp_value value;
    int64_t instant, other;             /* the value's instant, and another */
    int64_t added;                      /* what leads from the one to the other */
    int32_t to;                         /* an offset to restate the value at */
} moment;

/* A schedule file. */
typedef struct {
    uint8_t octets[STAMP_LONGEST_SCHEDULE];
    size_t length;
} schedule;

/* Which correction holds. */
typedef struct {
    const schedule *of;                 /* the file; of a pair the plan */
    int64_t instant;
    uint32_t channel;
} question;

static sample samples[VALUES];
static moment moments[VALUES];
static schedule schedules[FILES];
static question questions[VALUES];

/* Fixed seed: every process measures the same values. */
static uint64_t chance(uint64_t below)
{
    static uint64_t state = UINT64_C(0x9E3779B97F4A7C15);
    state ^= state << 13;
    state ^= state >> 7;
    state ^= state << 17;
    return state % below;
}

static int32_t chance_offset(void)
{
    const int32_t minutes = (int32_t)(1 + chance(STAMP_MAX_OFFSET));
    return chance(2) ? minutes : -minutes;
}

/* A day or more from either end of the years 1 to 9999, so that there is a stamp of it at every offset. */
static int64_t chance_instant(void)
{
    const uint64_t day = 1 + chance(LAST_NUMBER - 1);
    return (int64_t)(day * STAMP_END_OF_DAY + chance(STAMP_END_OF_DAY));
}

static void expect_accepted(uint32_t refusal)
{
    if (refusal != STAMP_ACCEPTED) {
        fprintf(stderr, "measure: a value was refused\n");
        exit(1);
    }
}

static stamp_settings settings_for(const stamps *r)
{
    const bool extended = r->form == STAMP_EXTENDED;
    return stamp_make_settings(r->form != STAMP_TEXT, extended ? STAMP_EXTENDED_FROM : 0,
                               extended ? STAMP_MAX_DIGITS : r->digits);
}

/* No kind has an offset of zero here: compact, it would be written as the plain kind. */
static void fill_stamps(const stamps *r)
{
    for (int i = 0; i < VALUES; i++) {
        sample *s = &samples[i];
        const uint32_t kind = r->kind < STAMP_KINDS ? r->kind : 2 * (r->kind - STAMP_KINDS) + (uint32_t)chance(2);
        const uint32_t year = 1 + (uint32_t)chance(LAST_COMPACT_YEAR), month = 1 + (uint32_t)chance(12);
        const uint32_t day = 1 + (uint32_t)chance(28);
        const uint64_t micros = chance(STAMP_END_OF_DAY);
        const int32_t offset = chance_offset();
        s->value = stamp_make_value(kind, year, month, day, micros, offset);
        s->number = (uint32_t)chance(LAST_NUMBER + 1);
        expect_accepted(stamp_encode(&s->value, settings_for(r), s->octets, sizeof s->octets, &s->length));
    }
}

/* Every day of the calendar comes, also those above 28, by which a stamp that is restated may leave its month. */
static void fill_moments(const stamps *r)
{
    (void)r;
    for (moment *m = moments; m < moments + VALUES; m++) {
        m->instant = chance_instant();
        m->other = chance_instant();
        m->added = m->other - m->instant;
        m->to = chance_offset();
        expect_accepted(stamp_value_at(m->instant, chance_offset(), &m->value));
    }
}

static void put_big(uint8_t *octets, int count, uint32_t number)
{
    while (count-- > 0) {
        octets[count] = (uint8_t)number;
        number >>= 8;
    }
}

static void put_record(uint8_t *octets, size_t start, size_t length)
{
    put_big(octets, 4, (uint32_t)start);
    put_big(octets + 4, 2, (uint32_t)length);
    put_big(octets + 6, 2, 1 + (uint32_t)chance(STAMP_MAX_CHANNEL));
    put_big(octets + 8, 4, (uint32_t)chance(2 * STAMP_MAX_CORRECTION + 1) - STAMP_MAX_CORRECTION);
}

/* The next stamp's octets, and how many. */
static size_t put_stamp(uint8_t *octets, int64_t instant, const stamps *r)
{
    stamp_value value;
    size_t length;
    expect_accepted(stamp_value_at(instant, chance_offset(), &value));
    expect_accepted(stamp_encode(&value, settings_for(r), octets, STAMP_LONGEST_IMAGE, &length));
    return length;
}

/* A record an hour, at any moment of it, and of sites at any offset. So of two files that start at the same hour, the
 * record at a place is before the next one of either. */
static void fill_schedule(schedule *s, int64_t hour, const stamps *r)
{
    uint8_t *record = s->octets + STAMP_SCHEDULE_HEADER;
    uint8_t *const stamps_start = record + STAMP_SCHEDULE_RECORD * r->records;
    size_t end = 0;
    for (; record != stamps_start; record += STAMP_SCHEDULE_RECORD, hour += (int64_t)HOUR) {
        const size_t length = put_stamp(stamps_start + end, hour + (int64_t)chance(HOUR), r);
        put_record(record, end, length);
        end += length;
    }
    put_big(s->octets, 4, r->records);
    put_big(s->octets + 4, 4, STAMP_SCHEDULE_HEADER);
    put_big(s->octets + 8, 4, (uint32_t)end);
    put_big(s->octets + 12, 4, (uint32_t)(stamps_start - s->octets));
    s->length = (size_t)(stamps_start - s->octets) + end;
}

/* Pairs, a plan and behind it the manual one, from a day in 2020 to 2029 on: with 1,000 records some six weeks. */
static void fill_schedules(const stamps *r)
{
    for (schedule *s = schedules; s < schedules + FILES; s += 2) {
        const uint64_t day = 50 * 365 + 13 + chance(10 * 365);
        const int64_t start = STAMP_UNIX_EPOCH + (int64_t)(day * STAMP_END_OF_DAY);
        fill_schedule(s, start, r);
        fill_schedule(s + 1, start, r);
    }
}

/* How many questions a pass asks: fewer where each of them reads many records, as a pass would take too long. */
static int questions_of(const stamps *r)
{
    const int enough = MOST_READ / (int)r->place;
    return enough < VALUES ? enough : VALUES;
}

static int64_t instant_at(const schedule *s, uint32_t place)
{
    stamp_record found;
    expect_accepted(stamp_record_at(s->octets, s->length, place, &found));
    return found.instant;
}

/* Of one file or of two, a pair: at the instant of the record, of a pair the later one, on any channel. */
static void fill_asked(const stamps *r, uint64_t files)
{
    int64_t instants[FILES];
    fill_schedules(r);
    for (int i = 0; i < FILES; i++)
        instants[i] = instant_at(&schedules[i], r->place);
    for (question *q = questions; q < questions + questions_of(r); q++) {
        const uint64_t first = files * chance(FILES / files), last = first + files - 1;
        q->of = &schedules[first];
        q->instant = instants[first] > instants[last] ? instants[first] : instants[last];
        q->channel = 1 + (uint32_t)chance(STAMP_MAX_CHANNEL);
    }
}

static void fill_questions(const stamps *r) { fill_asked(r, 1); }
static void fill_pairs(const stamps *r) { fill_asked(r, 2); }

#endif
