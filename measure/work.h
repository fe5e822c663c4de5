/* The work that is measured: the values, one pass over them, ours and plain, and whether both accept and answer the
 * same. */
#ifndef WORK_H
#define WORK_H

#include <string.h>

#include "measured.h"
#include "plain.h"
#include "stamp.h"
#include "values.h"

static uint64_t kept;                   /* every answer goes here, so that no call is left out */

typedef struct {
    int count;                          /* of values, which the time of a pass is divided by */
    void (*fill)(const stamps *);
    void (*ours)(const stamps *);
    void (*plain)(const stamps *);
    bool (*same)(const stamps *, int i);
} work;

/* ---- stamps ---- */

typedef uint32_t writer(uint32_t kind, uint32_t year, uint32_t month, uint32_t day, uint64_t micros, int32_t offset,
                        bool binary, uint32_t version, uint32_t digits, uint8_t *octets, size_t room, size_t *count);

static uint32_t write_by(writer *write, const sample *s, stamp_settings t, uint8_t *octets, size_t room, size_t *count)
{
    const stamp_value *v = &s->value;
    return write(v->kind, v->year, v->month, v->day, v->micros, v->offset, t.binary, t.version, t.digits, octets, room,
                 count);
}

static inline void write_all(writer *write, const stamps *r)
{
    uint8_t octets[STAMP_LONGEST_IMAGE] = {0};
    const stamp_settings t = settings_for(r);
    for (int i = 0; i < VALUES; i++) {
        size_t count;
        kept += write_by(write, &samples[i], t, octets, sizeof octets, &count);
        kept += count;
    }
}

static void write_ours(const stamps *r) { write_all(stamp_write, r); }
static void write_plain(const stamps *r) { write_all(plain_write, r); }

static bool write_same(const stamps *r, int i)
{
    const sample *s = &samples[i];
    uint8_t octets[2][STAMP_LONGEST_IMAGE] = {{0}};
    size_t count[2];
    const stamp_settings t = settings_for(r);
    const uint32_t ours = write_by(stamp_write, s, t, octets[0], sizeof octets[0], &count[0]);
    const uint32_t plain = write_by(plain_write, s, t, octets[1], sizeof octets[1], &count[1]);
    return ours == STAMP_ACCEPTED && plain == STAMP_ACCEPTED && count[0] == count[1]
        && memcmp(octets[0], octets[1], sizeof octets[0]) == 0;
}

static const work writing = {VALUES, fill_stamps, write_ours, write_plain, write_same};

typedef uint32_t reader(uint32_t kind, const uint8_t *octets, size_t length, int64_t parts[8]);

static inline void read_all(reader *read, const stamps *r)
{
    int64_t parts[8] = {0};
    for (int i = 0; i < VALUES; i++) {
        kept += read(r->kind, samples[i].octets, samples[i].length, parts);
        kept += (uint64_t)parts[0];
    }
}

static void read_ours(const stamps *r) { read_all(stamp_read, r); }
static void read_plain(const stamps *r) { read_all(plain_read, r); }

static bool read_same(const stamps *r, int i)
{
    const sample *s = &samples[i];
    int64_t parts[2][8] = {{0}};
    const uint32_t ours = stamp_read(r->kind, s->octets, s->length, parts[0]);
    const uint32_t plain = plain_read(r->kind, s->octets, s->length, parts[1]);
    return ours == STAMP_ACCEPTED && plain == STAMP_ACCEPTED && memcmp(parts[0], parts[1], sizeof parts[0]) == 0;
}

static const work reading = {VALUES, fill_stamps, read_ours, read_plain, read_same};

/* ---- the calendar and instants ---- */

/* OURS and PLAIN are the calls on the sample s. */
#define CALENDAR_WORK(name, OURS, PLAIN) \
    static void name##_ours(const stamps *r) \
    { \
        (void)r; \
        for (const sample *s = samples; s < samples + VALUES; s++) \
            kept += (uint64_t)(OURS); \
    } \
    static void name##_plain(const stamps *r) \
    { \
        (void)r; \
        for (const sample *s = samples; s < samples + VALUES; s++) \
            kept += (uint64_t)(PLAIN); \
    } \
    static bool name##_same(const stamps *r, int i) \
    { \
        const sample *s = &samples[i]; \
        (void)r; \
        return (OURS) == (PLAIN); \
    } \
    static const work name##_work = {VALUES, fill_stamps, name##_ours, name##_plain, name##_same};

CALENDAR_WORK(number, measured_day_number(s->value.year, s->value.month, s->value.day),
              plain_day_number(s->value.year, s->value.month, s->value.day))
CALENDAR_WORK(date, measured_date_of(s->number), plain_date_of(s->number))

/* One pass of a call on instants, which gives one number or five. The shortest take as long as adding to `kept`, which
 * is in memory: so what they give is added up beside it. */
#define INSTANT_PASS(pass, CALL, ...) \
    static void pass(const stamps *r) \
    { \
        int64_t given[5] = {0}; \
        uint64_t sum = 0; \
        (void)r; \
        for (const moment *m = moments; m < moments + VALUES; m++) { \
            sum += CALL(__VA_ARGS__, given); \
            sum += (uint64_t)given[0]; \
        } \
        kept += sum; \
    }

/* The call stamp_NAME beside plain_NAME; behind the name, what is handed in of the moment m. */
#define INSTANT_WORK(name, ...) \
    INSTANT_PASS(name##_ours, stamp_##name, __VA_ARGS__) \
    INSTANT_PASS(name##_plain, plain_##name, __VA_ARGS__) \
    static bool name##_same(const stamps *r, int i) \
    { \
        const moment *m = &moments[i]; \
        int64_t given[2][5] = {{0}}; \
        const uint32_t ours = stamp_##name(__VA_ARGS__, given[0]), plain = plain_##name(__VA_ARGS__, given[1]); \
        (void)r; \
        return ours == STAMP_ACCEPTED && plain == STAMP_ACCEPTED && memcmp(given[0], given[1], sizeof given[0]) == 0; \
    } \
    static const work name##_work = {VALUES, fill_moments, name##_ours, name##_plain, name##_same};

#define PARTS m->value.year, m->value.month, m->value.day, m->value.micros, m->value.offset

INSTANT_WORK(instant, PARTS)
INSTANT_WORK(add, m->instant, m->added)
INSTANT_WORK(difference, m->instant, m->other)
INSTANT_WORK(at, m->instant, m->to)
INSTANT_WORK(restate, PARTS, m->to)

/* ---- schedules ---- */

typedef uint32_t schedule_reader(const uint8_t *file, size_t length, uint32_t *records, uint32_t *fault);

static inline void read_schedules(schedule_reader *read)
{
    for (const schedule *s = schedules; s < schedules + FILES; s++) {
        uint32_t records, fault;
        kept += read(s->octets, s->length, &records, &fault);
        kept += records + fault;
    }
}

static void schedule_ours(const stamps *r) { (void)r; read_schedules(stamp_schedule_read); }
static void schedule_plain(const stamps *r) { (void)r; read_schedules(plain_schedule_read); }

typedef uint32_t record_reader(const uint8_t *file, size_t length, uint32_t place, int64_t parts[5]);

static inline void read_last_records(record_reader *read)
{
    for (const schedule *s = schedules; s < schedules + FILES; s++) {
        int64_t parts[5] = {0};
        kept += read(s->octets, s->length, STAMP_MAX_RECORDS, parts);
        kept += (uint64_t)parts[2];
    }
}

static void record_ours(const stamps *r) { (void)r; read_last_records(stamp_schedule_record); }
static void record_plain(const stamps *r) { (void)r; read_last_records(plain_schedule_record); }

static bool reads_all(schedule_reader *read, const schedule *s)
{
    uint32_t records, fault;
    return read(s->octets, s->length, &records, &fault) == STAMP_ACCEPTED && records == STAMP_MAX_RECORDS && fault == 0;
}

/* The whole file, and the record at each place. */
static bool schedule_same(const stamps *r, int i)
{
    const schedule *s = &schedules[i / STAMP_MAX_RECORDS];
    const uint32_t place = 1 + (uint32_t)i % STAMP_MAX_RECORDS;
    int64_t parts[2][5] = {{0}};
    const uint32_t ours = stamp_schedule_record(s->octets, s->length, place, parts[0]);
    const uint32_t plain = plain_schedule_record(s->octets, s->length, place, parts[1]);
    (void)r;
    if (place == 1 && !(reads_all(stamp_schedule_read, s) && reads_all(plain_schedule_read, s)))
        return false;
    return ours == STAMP_ACCEPTED && plain == STAMP_ACCEPTED && memcmp(parts[0], parts[1], sizeof parts[0]) == 0;
}

static const work schedule_work = {RECORDS, fill_schedules, schedule_ours, schedule_plain, schedule_same};
static const work record_work = {RECORDS, fill_schedules, record_ours, record_plain, schedule_same};

typedef uint32_t asker(const uint8_t *file, size_t length, int64_t instant, uint32_t channel, uint32_t *read,
                       int64_t parts[5]);

static inline uint32_t ask_by(asker *ask, const question *q, uint32_t *read, int64_t parts[5])
{
    return ask(q->of->octets, q->of->length, q->instant, q->channel, read, parts);
}

static inline void ask_all(asker *ask, const stamps *r)
{
    for (const question *q = questions; q < questions + questions_of(r); q++) {
        int64_t parts[5] = {0};
        uint32_t read;
        kept += ask_by(ask, q, &read, parts);
        kept += read + (uint64_t)parts[3];
    }
}

static void ask_ours(const stamps *r) { ask_all(stamp_schedule_holds, r); }
static void ask_plain(const stamps *r) { ask_all(plain_schedule_holds, r); }

/* The record behind the one that is asked at is the first later one, and is read, if there is one. */
static bool answers_same(const stamps *r, const question *q)
{
    const uint32_t expected = r->place < r->records ? r->place + 1 : r->records;
    int64_t parts[2][5] = {{0}};
    uint32_t read[2];
    const uint32_t ours = ask_by(stamp_schedule_holds, q, &read[0], parts[0]);
    const uint32_t plain = ask_by(plain_schedule_holds, q, &read[1], parts[1]);
    return ours == STAMP_ACCEPTED && plain == STAMP_ACCEPTED && read[0] == expected && read[1] == expected
        && memcmp(parts[0], parts[1], sizeof parts[0]) == 0;
}

static bool ask_same(const stamps *r, int i) { return answers_same(r, &questions[i]); }

static work question_work(const stamps *r)
{
    const work w = {questions_of(r), fill_questions, ask_ours, ask_plain, ask_same};
    return w;
}

/* ---- two schedules ---- */

typedef uint32_t chooser(const uint8_t *plan, size_t plan_length, const uint8_t *manual, size_t manual_length,
                         int64_t instant, uint32_t channel, size_t part[2]);

static inline uint32_t choose_by(chooser *choose, const question *q, size_t part[2])
{
    const schedule *const plan = q->of, *const manual = plan + 1;
    return choose(plan->octets, plan->length, manual->octets, manual->length, q->instant, q->channel, part);
}

static inline void choose_all(chooser *choose, const stamps *r)
{
    for (const question *q = questions; q < questions + questions_of(r); q++) {
        size_t part[2];
        kept += choose_by(choose, q, part);
        kept += part[0] + part[1];
    }
}

static void over_ours(const stamps *r) { choose_all(stamp_schedule_over, r); }
static void over_plain(const stamps *r) { choose_all(plain_schedule_over, r); }

/* A refusal of either question answers as where nothing holds: so each file is asked by itself too. */
static bool over_same(const stamps *r, int i)
{
    const question *q = &questions[i];
    const question of_manual = {q->of + 1, q->instant, q->channel};
    size_t part[2][2] = {{0}};
    const uint32_t ours = choose_by(stamp_schedule_over, q, part[0]);
    const uint32_t plain = choose_by(plain_schedule_over, q, part[1]);
    return answers_same(r, q) && answers_same(r, &of_manual) && ours == plain
        && memcmp(part[0], part[1], sizeof part[0]) == 0;
}

static work over_work(const stamps *r)
{
    const work w = {questions_of(r), fill_pairs, over_ours, over_plain, over_same};
    return w;
}

#endif
