/* stamp.h - reads and writes date-and-time stamps (BDE BER date-and-time format), for C99 and C++.
 *
 * A stamp is the contents octets of one of six kinds in one of three forms. Identifier and length octets are the
 * caller's. The library (libstamp.a, libstamp.so) exports eleven functions: stamp_write and stamp_read for stamps,
 * stamp_instant, stamp_add, stamp_difference, stamp_at and stamp_restate for their UTC instants, and
 * stamp_schedule_read, stamp_schedule_record, stamp_schedule_holds and stamp_schedule_over for schedule files. All else
 * here is a constant, a struct, or a small inline function over these.
 *
 *     uint8_t lent[STAMP_LONGEST_IMAGE];
 *     size_t count;
 *     stamp_value night = stamp_datetimetz(2019, 12, 31, stamp_micros(23, 59, 59, 999999), -270);
 *     uint32_t refusal = stamp_encode(&night, stamp_default_settings(), lent, sizeof lent, &count);
 *
 * Every call takes any input and answers: a refusal number, 0 for none; but stamp_schedule_over refuses nothing, and
 * answers which of two files: its 1 is no refusal. After a refusal nothing has changed but *count, *records and *read,
 * which are 0, and *fault, which is the place of the bad record: a lent buffer and a lent answer stay as they were. An
 * octet past an accepted image stays too.
 * Nothing is allocated and nothing is kept between calls (no global state), so calls from several threads
 * need no lock; each thread lends its own buffers. A pointer to no octets (length or room 0) may be null; no other.
 * What is lent to one call must not overlap: octets[0 .. room-1] and *count of a write, octets[0 .. length-1] and
 * parts[0 .. 7] of a read, file[0 .. length-1] and the answers of a schedule; but two files may, as none is written to.
 * The calls on instants are handed numbers and lent one place to answer in. */
#ifndef STAMP_H
#define STAMP_H

#include <stddef.h>
#include <stdint.h>
#ifndef __cplusplus
#include <stdbool.h>
#endif

#define STAMP_RELEASE "1.4"

/* ---- Kinds, forms, limits ---- */

/* What a stamp says. Writers know the first six, readers all nine. Where the octets tell which of the two it is, what was
 * written reads back as its own kind; but compact leaves an offset of zero out, and a TimeTz or DatetimeTz written so
 * reads as a Time or Datetime. */
enum {
    STAMP_DATE = 0,                    /* year, month, day */
    STAMP_DATETZ = 1,                  /* a date and an offset from UTC */
    STAMP_TIME = 2,                    /* microseconds of the day */
    STAMP_TIMETZ = 3,                  /* a time and an offset from UTC */
    STAMP_DATETIME = 4,                /* a date and a time */
    STAMP_DATETIMETZ = 5,              /* a date, a time and an offset from UTC */
    STAMP_DATE_OR_DATETZ = 6,          /* readers only: the octets tell which of the two */
    STAMP_TIME_OR_TIMETZ = 7,          /* readers only: the octets tell which of the two */
    STAMP_DATETIME_OR_DATETIMETZ = 8   /* readers only: the octets tell which of the two */
};
#define STAMP_KINDS 6                  /* kinds that are written: 0 to 5 */
#define STAMP_READERS 9                /* kinds that are read: 0 to 8 */

/* How it is said. */
enum {
    STAMP_TEXT = 0,                    /* ISO 8601 text with 0 to 6 digits of the second */
    STAMP_COMPACT = 1,                 /* a BER integer of days or milliseconds, behind the offset if there is one */
    STAMP_EXTENDED = 2                 /* 7 or 10 octets, microseconds; Date and DateTz have no such form */
};
#define STAMP_FORMS 3

#define STAMP_LONGEST_IMAGE 32         /* octets: room for every stamp of every kind */
#define STAMP_MIN_YEAR 1
#define STAMP_MAX_YEAR 9999
#define STAMP_END_OF_DAY 86400000000ULL /* microseconds: 24:00, the largest time, which is not 00:00 */
#define STAMP_MAX_OFFSET 1439          /* minutes ahead of UTC, or behind it as a negative number */
#define STAMP_MAX_DIGITS 6
#define STAMP_DEFAULT_DIGITS 3
#define STAMP_EXTENDED_FROM 35500      /* the first version that may be sent extended forms */

/* Instants: microseconds from 0001-01-01T00:00 UTC, below 0 before it. The least and the greatest are those of
 * 0001-01-01T00:00+23:59 and 9999-12-31T24:00-23:59; every number between them is the instant of some stamp. */
#define STAMP_MIN_INSTANT (-86340000000LL)
#define STAMP_MAX_INSTANT 315537983940000000LL
#define STAMP_UNIX_EPOCH 62135596800000000LL /* of 1970-01-01T00:00+00:00, which Unix time counts from */

/* Schedule files. All numbers in one are big-endian. The header is four numbers of 32 bits: the count of records, where
 * they start (16), the count of stamp octets, where these start (16 + 12 * records). A record is 12 octets: where its
 * stamp starts within the stamp octets (32 bits), the stamp's length (16), channel (16), correction (32, signed). The
 * stamps are DatetimeTz contents, one behind the other in the order of the records; their instants never decrease. */
#define STAMP_SCHEDULE_HEADER 16       /* octets of the header */
#define STAMP_SCHEDULE_RECORD 12       /* octets of a record */
#define STAMP_MAX_RECORDS 1000
#define STAMP_MAX_CHANNEL 16           /* channels are 1 to 16 */
#define STAMP_MAX_CORRECTION 1000000   /* parts in 10 to the 18, or as much below 0 */
#define STAMP_LONGEST_SCHEDULE 44016   /* octets: no file that stamp_schedule_read accepts is longer */
#define STAMP_NONE_YET 0               /* for a place: no record of the channel holds yet */

/* Which of two schedule files: what stamp_schedule_over answers. These are no refusals. */
enum {
    STAMP_OF_PLAN = 0,
    STAMP_OF_MANUAL = 1
};

/* ---- Refusals ---- */

/* The one place of each refusal's name, number and sentence; the tool and the man page say the same words. Writers
 * give 1 to 4, readers 5 to 8, the calls on instants 2 and 9, those on schedules 13 to 15, 5 to 8 for a stamp in the
 * file, and 2 for a place or a channel; always the first that applies. A kind number that is no kind is 2, in reading
 * too. 10 to 12 are not used yet. */
#define STAMP_REFUSALS(X) \
    X(STAMP_REFUSED_DIGITS, 1, "the digits setting is above 6") \
    X(STAMP_REFUSED_VALUE, 2, "a part of the value or an offset is out of range, there is no such day, " \
                              "no stamp has such an instant, the schedule has no such record, " \
                              "or no channel has such a number") \
    X(STAMP_REFUSED_NO_COMPACT, 3, "the value is too late to have a compact form") \
    X(STAMP_REFUSED_BUFFER, 4, "the buffer is shorter than the stamp") \
    X(STAMP_REFUSED_LENGTH, 5, "the length is not one that the chosen form of this kind can have") \
    X(STAMP_REFUSED_OCTET, 6, "a digit, sign or separator of the text is wrong, " \
                              "or the twelve header bits that must be zero are not") \
    X(STAMP_REFUSED_REDUNDANT, 7, "an integer is longer than it may be, " \
                                  "or an offset of zero is written where it must be left out, or as -00:00") \
    X(STAMP_REFUSED_RANGE, 8, "a field is out of range: there is no such day, time of day or offset, " \
                              "or no value has such a number") \
    X(STAMP_REFUSED_RESULT, 9, "the result can't be given: no stamp has such an instant, " \
                               "or the local reading is outside the years 1 to 9999") \
    X(STAMP_REFUSED_HEADER, 13, "the schedule's header is wrong: it is cut short, " \
                                "says too many records or stamp octets without records, " \
                                "or its regions do not follow it one behind the other and end the file") \
    X(STAMP_REFUSED_RECORD, 14, "a record's channel or correction is out of range, " \
                                "or its stamp is not in its place") \
    X(STAMP_REFUSED_ORDER, 15, "a record's instant is before that of the record before it")

#define STAMP_REFUSAL_CONSTANT(name, number, sentence) name = number,
enum { STAMP_REFUSALS(STAMP_REFUSAL_CONSTANT) STAMP_ACCEPTED = 0 };
#undef STAMP_REFUSAL_CONSTANT
#define STAMP_LAST_REFUSAL 15

/* ---- The calls of the library ---- */

#ifdef __cplusplus
extern "C" {
#endif

/* Writes a stamp into octets[0 .. room-1]. Answers the refusal number, 0 for none. *count is the stamp's length, and 0
 * after a refusal. Parts that the kind lacks are ignored. stamp_encode is the same with names. */
uint32_t stamp_write(uint32_t kind, uint32_t year, uint32_t month, uint32_t day, uint64_t micros, int32_t offset,
                     bool binary, uint32_t version, uint32_t digits, uint8_t *octets, size_t room, size_t *count);

/* Reads a stamp of exactly `length` octets. Answers the refusal number, 0 for none. parts: kind (0 to 5), form, digits
 * (0 but for text), year, month, day, micros, offset; each 0 where the kind lacks it. All eight stay as lent after a
 * refusal. stamp_decode is the same with names. */
uint32_t stamp_read(uint32_t kind, const uint8_t *octets, size_t length, int64_t parts[8]);

/* A DatetimeTz, here by its parts, has an instant: its local reading less its offset. 24:00 counts as the next day's
 * start. Each call answers the refusal number, 0 for none; *instant, *sum, *difference and parts stay as lent after a
 * refusal. 2: a stamp, an offset or an instant handed in is out of range; then 9: the result is. Any number may be
 * handed in; no sum overflows. */

/* The instant of a stamp. Refusal 2. */
uint32_t stamp_instant(uint32_t year, uint32_t month, uint32_t day, uint64_t micros, int32_t offset, int64_t *instant);

/* The instant so many microseconds later, or earlier for a number below 0. Refusals 2, 9. */
uint32_t stamp_add(int64_t instant, int64_t micros, int64_t *sum);

/* The microseconds from b to a: a less b. Refusal 2; never 9. */
uint32_t stamp_difference(int64_t a, int64_t b, int64_t *difference);

/* The stamp of an instant at an offset, never at 24:00. parts: year, month, day, micros, offset. Refusals 2, 9.
 * stamp_value_at is the same with names. */
uint32_t stamp_at(int64_t instant, int32_t offset, int64_t parts[5]);

/* A stamp restated at another offset: the same instant there, never at 24:00. parts: as of stamp_at. Refusals 2, 9.
 * stamp_restate_value is the same with names. */
uint32_t stamp_restate(uint32_t year, uint32_t month, uint32_t day, uint64_t micros, int32_t offset, int32_t to,
                       int64_t parts[5]);

/* Reads a schedule file of exactly `length` octets from the front to the end: the header, then each record in turn.
 * Answers the refusal number, 0 for none. *records is the number of records, and 0 after a refusal. *fault is the place
 * of the refused record, from one; 0 where the header is refused, and where nothing is. Refusals 13, then for each
 * record 14, 5 to 8 (its stamp, as stamp_read of STAMP_DATETIMETZ refuses it), 15. */
uint32_t stamp_schedule_read(const uint8_t *file, size_t length, uint32_t *records, uint32_t *fault);

/* The record at a place, from one, of a schedule file that stamp_schedule_read accepts. parts: channel, correction,
 * instant, start of the stamp within the file, its length. All five stay as lent after a refusal. The file's own
 * refusals; then 2 for a place that the file hasn't. Each call reads the whole file. stamp_record_at is the same with
 * names. */
uint32_t stamp_schedule_record(const uint8_t *file, size_t length, uint32_t place, int64_t parts[5]);

/* Which correction holds on a channel at an instant: that of the last record of the channel at or before the instant.
 * Any instant may be asked. The file is read from the front, up to the first record later than the instant; that one is
 * read too, and those behind it are not looked at. Answers the refusal number, 0 for none. *read is the number of
 * records read: the place of that later record, from one, or all; and 0 after a refusal. parts: place of the record
 * that holds, from one, start of its stamp within the file, its length, instant, correction. If none holds yet, the
 * place is STAMP_NONE_YET, and all five are 0. All five stay as lent after a refusal. 2 for a channel that is not 1 to
 * 16; then those of stamp_schedule_read by the header and the records read. stamp_held_at is the same with names. */
uint32_t stamp_schedule_holds(const uint8_t *file, size_t length, int64_t instant, uint32_t channel, uint32_t *read,
                              int64_t parts[5]);

/* Manual over plan: the stamp of the correction that holds on a channel at an instant, as a part of whichever of two
 * schedule files it stands in. Both are asked as stamp_schedule_holds asks one. Where both have a record that holds, it
 * is the one with the later instant, and the manual one at equality; where only one has, that one. Answers which file,
 * STAMP_OF_PLAN or STAMP_OF_MANUAL, and no refusal. part: start of the stamp within that file, its length; both are
 * written in any case. Where neither file has a record that holds, or either question is refused, it is an empty part
 * of the plan: STAMP_OF_PLAN, start 0 and length 0. No stamp is empty. Why nothing holds, stamp_schedule_holds of each
 * file tells. The same file may be lent as both. stamp_over is the same with the part as a place in memory, and
 * stamp_held_over tells the whole answer of that file. */
uint32_t stamp_schedule_over(const uint8_t *plan, size_t plan_length, const uint8_t *manual, size_t manual_length,
                             int64_t instant, uint32_t channel, size_t part[2]);

#ifdef __cplusplus
}
#endif

/* ---- The same with names ---- */

/* What a stamp says. Any number may stand in any part; a writer refuses what is out of range. */
typedef struct stamp_value {
    uint32_t kind;
    uint32_t year, month, day;         /* Date, DateTz, Datetime, DatetimeTz */
    uint64_t micros;                   /* of the local day; Time, TimeTz, Datetime, DatetimeTz */
    int32_t offset;                    /* minutes ahead of UTC; DateTz, TimeTz, DatetimeTz */
} stamp_value;

/* How to say it. Not binary: text. Binary, version at least 35,500, and digits 6 or time 24:00: extended (but never for
 * Date and DateTz). Otherwise compact. */
typedef struct stamp_settings {
    bool binary;
    uint32_t version;                  /* of whoever will read it */
    uint32_t digits;                   /* of the second, 0 to 6; what is beyond them is cut, never rounded up */
} stamp_settings;

/* What was read, and how it was said. */
typedef struct stamp_decoded {
    stamp_value value;                 /* its kind is one of the six, also after an either-or reader */
    uint32_t form;
    uint32_t digits;                   /* of a text; 0 for the other forms */
} stamp_decoded;

static inline stamp_settings stamp_make_settings(bool binary, uint32_t version, uint32_t digits)
{
    stamp_settings made;
    made.binary = binary;
    made.version = version;
    made.digits = digits;
    return made;
}

/* Text, version 0, three digits. */
static inline stamp_settings stamp_default_settings(void)
{
    return stamp_make_settings(false, 0, STAMP_DEFAULT_DIGITS);
}

/* The settings that write what was read in the form and digits found, so that the same octets come out. */
static inline stamp_settings stamp_settings_found(const stamp_decoded *found)
{
    if (found->form == STAMP_TEXT)
        return stamp_make_settings(false, 0, found->digits);
    if (found->form == STAMP_COMPACT)
        return stamp_make_settings(true, 0, STAMP_DEFAULT_DIGITS);
    return stamp_make_settings(true, STAMP_EXTENDED_FROM, STAMP_MAX_DIGITS);
}

/* stamp_write of a value under settings. */
static inline uint32_t stamp_encode(const stamp_value *value, stamp_settings settings,
                                    uint8_t *octets, size_t room, size_t *count)
{
    return stamp_write(value->kind, value->year, value->month, value->day, value->micros, value->offset,
                       settings.binary, settings.version, settings.digits, octets, room, count);
}

/* stamp_read of a kind's stamp (or an either-or kind's). *found stays as lent after a refusal. */
static inline uint32_t stamp_decode(uint32_t kind, const uint8_t *octets, size_t length, stamp_decoded *found)
{
    int64_t parts[8] = {0};
    uint32_t refusal = stamp_read(kind, octets, length, parts);
    if (refusal != STAMP_ACCEPTED)
        return refusal;
    found->value.kind = (uint32_t)parts[0];
    found->form = (uint32_t)parts[1];
    found->digits = (uint32_t)parts[2];
    found->value.year = (uint32_t)parts[3];
    found->value.month = (uint32_t)parts[4];
    found->value.day = (uint32_t)parts[5];
    found->value.micros = (uint64_t)parts[6];
    found->value.offset = (int32_t)parts[7];
    return STAMP_ACCEPTED;
}

/* ---- Making values ---- */

static inline stamp_value stamp_make_value(uint32_t kind, uint32_t year, uint32_t month, uint32_t day,
                                           uint64_t micros, int32_t offset)
{
    stamp_value made;
    made.kind = kind;
    made.year = year;
    made.month = month;
    made.day = day;
    made.micros = micros;
    made.offset = offset;
    return made;
}

static inline stamp_value stamp_date(uint32_t year, uint32_t month, uint32_t day)
{
    return stamp_make_value(STAMP_DATE, year, month, day, 0, 0);
}

static inline stamp_value stamp_datetz(uint32_t year, uint32_t month, uint32_t day, int32_t offset)
{
    return stamp_make_value(STAMP_DATETZ, year, month, day, 0, offset);
}

static inline stamp_value stamp_time(uint64_t micros)
{
    return stamp_make_value(STAMP_TIME, 0, 0, 0, micros, 0);
}

static inline stamp_value stamp_timetz(uint64_t micros, int32_t offset)
{
    return stamp_make_value(STAMP_TIMETZ, 0, 0, 0, micros, offset);
}

static inline stamp_value stamp_datetime(uint32_t year, uint32_t month, uint32_t day, uint64_t micros)
{
    return stamp_make_value(STAMP_DATETIME, year, month, day, micros, 0);
}

static inline stamp_value stamp_datetimetz(uint32_t year, uint32_t month, uint32_t day, uint64_t micros, int32_t offset)
{
    return stamp_make_value(STAMP_DATETIMETZ, year, month, day, micros, offset);
}

/* The microseconds of the day at hour:minute:second and a fraction in microseconds. Fields that make no time (23:60,
 * 24:00:01, ..) give a number that no time has, so that the writer refuses it: never another time. */
static inline uint64_t stamp_micros(uint32_t hour, uint32_t minute, uint32_t second, uint32_t fraction)
{
    if (hour > 24 || minute > 59 || second > 59 || fraction > 999999)
        return STAMP_END_OF_DAY + 1;
    return (((uint64_t)hour * 60 + minute) * 60 + second) * 1000000 + fraction;
}

/* ---- Instants of values ---- */

/* stamp_instant of a value. A value of another kind than DatetimeTz has no instant: refusal 2. */
static inline uint32_t stamp_instant_of(const stamp_value *value, int64_t *instant)
{
    if (value->kind != STAMP_DATETIMETZ)
        return STAMP_REFUSED_VALUE;
    return stamp_instant(value->year, value->month, value->day, value->micros, value->offset, instant);
}

/* The DatetimeTz of the five parts that stamp_at and stamp_restate give. */
static inline stamp_value stamp_value_of_parts(const int64_t parts[5])
{
    return stamp_datetimetz((uint32_t)parts[0], (uint32_t)parts[1], (uint32_t)parts[2], (uint64_t)parts[3],
                            (int32_t)parts[4]);
}

/* stamp_at. *value stays as lent after a refusal. */
static inline uint32_t stamp_value_at(int64_t instant, int32_t offset, stamp_value *value)
{
    int64_t parts[5] = {0};
    uint32_t refusal = stamp_at(instant, offset, parts);
    if (refusal == STAMP_ACCEPTED)
        *value = stamp_value_of_parts(parts);
    return refusal;
}

/* stamp_restate of a value; of another kind than DatetimeTz: refusal 2. *restated stays as lent after a refusal, and may
 * be the value itself. */
static inline uint32_t stamp_restate_value(const stamp_value *value, int32_t to, stamp_value *restated)
{
    int64_t parts[5] = {0};
    if (value->kind != STAMP_DATETIMETZ)
        return STAMP_REFUSED_VALUE;
    uint32_t refusal = stamp_restate(value->year, value->month, value->day, value->micros, value->offset, to, parts);
    if (refusal == STAMP_ACCEPTED)
        *restated = stamp_value_of_parts(parts);
    return refusal;
}

/* ---- Records of schedules ---- */

/* A correction of one channel, from an instant on. */
typedef struct stamp_record {
    uint32_t channel;                  /* 1 to 16 */
    int32_t correction;                /* parts in 10 to the 18 */
    int64_t instant;                   /* of its stamp */
    size_t start, length;              /* of its stamp within the file */
} stamp_record;

/* stamp_schedule_record. *found stays as lent after a refusal. */
static inline uint32_t stamp_record_at(const uint8_t *file, size_t length, uint32_t place, stamp_record *found)
{
    int64_t parts[5] = {0};
    uint32_t refusal = stamp_schedule_record(file, length, place, parts);
    if (refusal != STAMP_ACCEPTED)
        return refusal;
    found->channel = (uint32_t)parts[0];
    found->correction = (int32_t)parts[1];
    found->instant = parts[2];
    found->start = (size_t)parts[3];
    found->length = (size_t)parts[4];
    return STAMP_ACCEPTED;
}

/* What holds on a channel at an instant. */
typedef struct stamp_held {
    uint32_t read;                     /* the number of records read */
    uint32_t place;                    /* of the record that holds, from one; STAMP_NONE_YET, and 0 below: none does */
    size_t start, length;              /* of its stamp within the file */
    int64_t instant;                   /* of its stamp: the correction holds from then on */
    int32_t correction;                /* parts in 10 to the 18 */
} stamp_held;

/* stamp_schedule_holds. After a refusal found->read is 0, and the rest stays as lent. */
static inline uint32_t stamp_held_at(const uint8_t *file, size_t length, int64_t instant, uint32_t channel,
                                     stamp_held *found)
{
    int64_t parts[5] = {0};
    uint32_t refusal = stamp_schedule_holds(file, length, instant, channel, &found->read, parts);
    if (refusal != STAMP_ACCEPTED)
        return refusal;
    found->place = (uint32_t)parts[0];
    found->start = (size_t)parts[1];
    found->length = (size_t)parts[2];
    found->instant = parts[3];
    found->correction = (int32_t)parts[4];
    return STAMP_ACCEPTED;
}

/* The stamp of what holds by two schedules, where it stands. */
typedef struct stamp_part {
    uint32_t of;                       /* STAMP_OF_PLAN or STAMP_OF_MANUAL */
    const uint8_t *octets;             /* the stamp, within that file; where nothing holds the plan, which may be null */
    size_t length;                     /* of the stamp; 0: nothing holds, or a question is refused */
} stamp_part;

/* stamp_schedule_over. */
static inline stamp_part stamp_over(const uint8_t *plan, size_t plan_length, const uint8_t *manual,
                                    size_t manual_length, int64_t instant, uint32_t channel)
{
    size_t part[2] = {0, 0};
    stamp_part found;
    found.of = stamp_schedule_over(plan, plan_length, manual, manual_length, instant, channel, part);
    found.octets = found.of == STAMP_OF_MANUAL ? manual : plan;
    found.length = part[1];
    if (found.length != 0)             /* a plan of no octets may be null: nothing is added to that */
        found.octets += part[0];
    return found;
}

/* The whole answer of the file that stamp_schedule_over names, as stamp_held_at gives it; that file is asked once more.
 * Answers which file, and no refusal. Where nothing holds, or a question is refused: STAMP_OF_PLAN, found->place is
 * STAMP_NONE_YET, and all else is 0, found->read too. */
static inline uint32_t stamp_held_over(const uint8_t *plan, size_t plan_length, const uint8_t *manual,
                                       size_t manual_length, int64_t instant, uint32_t channel, stamp_held *found)
{
    const stamp_held none = {0, STAMP_NONE_YET, 0, 0, 0, 0};
    size_t part[2] = {0, 0};
    uint32_t of = stamp_schedule_over(plan, plan_length, manual, manual_length, instant, channel, part);
    *found = none;
    if (of == STAMP_OF_MANUAL)
        stamp_held_at(manual, manual_length, instant, channel, found);
    else if (part[1] != 0)
        stamp_held_at(plan, plan_length, instant, channel, found);
    return of;
}

/* ---- Words and lengths ---- */

/* "Date" to "DatetimeTz"; "" for a number that is none of the six kinds. */
static inline const char *stamp_kind_name(uint32_t kind)
{
    static const char *const names[STAMP_KINDS] = {"Date", "DateTz", "Time", "TimeTz", "Datetime", "DatetimeTz"};
    return kind < STAMP_KINDS ? names[kind] : "";
}

/* "text", "compact" or "extended"; "" for any other number. */
static inline const char *stamp_form_name(uint32_t form)
{
    static const char *const names[STAMP_FORMS] = {"text", "compact", "extended"};
    return form < STAMP_FORMS ? names[form] : "";
}

/* The sentence of a refusal; "accepted" for 0, "no such refusal" for a number that is none. */
static inline const char *stamp_refusal_sentence(uint32_t refusal)
{
#define STAMP_REFUSAL_CASE(name, number, sentence) case number: return sentence;
    switch (refusal) {
    STAMP_REFUSALS(STAMP_REFUSAL_CASE)
    case STAMP_ACCEPTED: return "accepted";
    default: return "no such refusal";
    }
#undef STAMP_REFUSAL_CASE
}

/* How many octets the text of one of the six kinds has with so many digits; 0 where there is no such text. */
static inline size_t stamp_text_length(uint32_t kind, uint32_t digits)
{
    static const size_t bare[STAMP_KINDS] = {10, 16, 8, 14, 19, 25};
    if (kind >= STAMP_KINDS || digits > STAMP_MAX_DIGITS)
        return 0;
    return kind < STAMP_TIME || digits == 0 ? bare[kind] : bare[kind] + 1 + digits;
}

#endif
