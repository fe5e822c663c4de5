/* schedule.py in C: the schedule file (02, request 4): full reading, and the record at a place; or refusal 13, 14, 5 to
 * 8, 15, and 2 for a place. And the question which correction holds (02, request 5); or refusal 2 for a channel, then
 * those of the file. And the stamp that holds of two files, manual over plan (02, request 6), which refuses nothing.
 *
 * All numbers in a file are big-endian. A stamp is read by fast_read's reader of DatetimeTz and has the instant that
 * fast_instant gives it. Sums are int64_t here, far from its ends, so none can wrap (R4.4). */
#include "fast.h"
#include "fast_common.h"
#include "fast_reading.h"

#define HEADER_OCTETS 16
#define RECORD_OCTETS 12
#define MOST_RECORDS 1000
#define LAST_CHANNEL 16
#define LAST_CORRECTION 1000000          /* either way */
#define NONE_YET 0                       /* for a place; a word in Python */
enum { PLAN, MANUAL };                   /* "whichever of the two lent files" */

typedef struct record {
    int64_t channel, correction, instant;
    int64_t start, length;               /* of the stamp within the file */
} record;

/* Header */

/* One of "four big-endian 32-bit numbers", the first is 0. */
static int64_t header_number(const uint8_t *file, int place)
{
    return unsigned_number(file + 4 * place, 4);
}

static int64_t record_count(const uint8_t *file)
{
    return header_number(file, 0);
}

/* Header, counts and regions: else 13. */
static bool is_header(const uint8_t *file, int64_t file_length)
{
    if (file_length < HEADER_OCTETS)
        return false;
    int64_t records = header_number(file, 0), records_at = header_number(file, 1);
    int64_t stamp_octets = header_number(file, 2), stamps_at = header_number(file, 3);
    /* "At most 1,000 records" */
    if (records > MOST_RECORDS)
        return false;
    /* "The two regions follow the header in that order, without gap or overlap, and end the file." */
    if (records_at != HEADER_OCTETS)
        return false;
    if (stamps_at != records_at + records * RECORD_OCTETS)
        return false;
    if (file_length != stamps_at + stamp_octets)
        return false;
    /* "with no records there are no stamp octets (else 13)" */
    return records > 0 || stamp_octets == 0;
}

/* Records */

static int64_t end_of_stamp(const record *of)
{
    return of->start + of->length;
}

/* Refusal 14, 5 to 8, 15, in that order (R4.3), or 0 and the record. `before` is the record before this one, null at
 * the first. */
static uint32_t read_record(const uint8_t *file, int64_t file_length, int64_t place, const record *before,
                            record *found)
{
    const uint8_t *octets = file + HEADER_OCTETS + (place - 1) * RECORD_OCTETS;
    int64_t stamps_at = header_number(file, 3);
    int64_t parts[8];
    found->start = stamps_at + unsigned_number(octets, 4);     /* "within the stamp octets" */
    found->length = unsigned_number(octets + 4, 2);
    found->channel = unsigned_number(octets + 6, 2);
    found->correction = signed_number(octets + 8, 4);

    /* 14: "a record's channel, correction or stamp place". */
    if (!(1 <= found->channel && found->channel <= LAST_CHANNEL))
        return 14;
    if (!(-LAST_CORRECTION <= found->correction && found->correction <= LAST_CORRECTION))
        return 14;
    /* "Stamps follow one another in record order without gaps, the first starts at 0, and the last record's stamp ends
     * its region", which ends the file (R4.1). The length alone is no matter of place (R4.2). */
    if (found->start != (before == NULL ? stamps_at : end_of_stamp(before)))
        return 14;
    if (end_of_stamp(found) > file_length)
        return 14;
    if (place == record_count(file) && end_of_stamp(found) != file_length)
        return 14;

    /* 5 to 8: "Stamps are DatetimeTz contents" (R4.5). */
    uint32_t refusal = fast_read(DATETIME_TZ, file + found->start, (size_t)found->length, parts);
    if (refusal != 0)
        return refusal;
    fast_instant((uint32_t)parts[3], (uint32_t)parts[4], (uint32_t)parts[5], (uint64_t)parts[6], (int32_t)parts[7],
                 &found->instant);

    /* 15: "instants never decrease", whatever the channels (R4.3). */
    if (before != NULL && found->instant < before->instant)
        return 15;
    return 0;
}

/* Refusal 13, 14, 5 to 8, 15, or 0: "Header first, then each record in turn". *fault is the place of the record that is
 * refused, else 0. Python keeps all records; here `kept` is the one at a place, if the file has that. */
static uint32_t read_all(const uint8_t *file, int64_t file_length, int64_t place_kept, record *kept, uint32_t *fault)
{
    record before, found;
    *fault = 0;
    if (!is_header(file, file_length))
        return 13;
    for (int64_t place = 1; place <= record_count(file); place++) {
        uint32_t refusal = read_record(file, file_length, place, place == 1 ? NULL : &before, &found);
        if (refusal != 0) {
            *fault = (uint32_t)place;
            return refusal;
        }
        if (place == place_kept)
            *kept = found;
        before = found;
    }
    return 0;
}

/* The number of records, or 0 and the place, from one, of the record that is refused, 0 for the header (R4.6). */
uint32_t fast_schedule_read(const uint8_t *file, size_t length, uint32_t *records, uint32_t *fault)
{
    record kept;
    uint32_t refusal = read_all(file, (int64_t)length, 0, &kept, fault);
    *records = refusal == 0 ? (uint32_t)record_count(file) : 0;
    return refusal;
}

/* The file's own refusal, then 2 for a place that the file hasn't. */
uint32_t fast_schedule_record(const uint8_t *file, size_t length, uint32_t place, int64_t parts[5])
{
    record kept;
    uint32_t fault;
    uint32_t refusal = read_all(file, (int64_t)length, place, &kept, &fault);
    if (refusal != 0)
        return refusal;
    if (!(1 <= place && place <= record_count(file)))
        return 2;
    parts[0] = kept.channel;
    parts[1] = kept.correction;
    parts[2] = kept.instant;
    parts[3] = kept.start;
    parts[4] = kept.length;
    return 0;
}

/* The number of records read, and the record that holds, all parts 0 where there is none yet (R5.3); or refusal 2, then
 * the file's own by its header and the records read, and 0 of them. Any instant may be asked (R5.4). */
uint32_t fast_schedule_holds(const uint8_t *file, size_t length, int64_t instant, uint32_t channel, uint32_t *read,
                             int64_t parts[5])
{
    record before, found, held = {0};
    int64_t place_held = NONE_YET, place_later = 0;
    *read = 0;
    /* "a bad channel is 2, before the file" */
    if (!(1 <= channel && channel <= LAST_CHANNEL))
        return 2;
    /* The header counts as a whole, however few records are read (R5.1). */
    if (!is_header(file, (int64_t)length))
        return 13;
    /* "Read from the front": each record is checked in full, with "request 4's refusal if one of these is bad", the
     * first later one too (R5.1). Where the stamps end is asked of the last record, so only if that is read (R5.2). */
    for (int64_t place = 1; place <= record_count(file) && place_later == 0; place++) {
        uint32_t refusal = read_record(file, (int64_t)length, place, place == 1 ? NULL : &before, &found);
        if (refusal != 0)
            return refusal;
        /* "stop at the first record later than the instant"; else "the last record of that channel at or before it" */
        if (found.instant > instant) {
            place_later = place;
        } else if (found.channel == channel) {
            place_held = place;
            held = found;
        }
        before = found;
    }
    /* "that one's place counting from one, or all of them if there is none" */
    *read = (uint32_t)(place_later != 0 ? place_later : record_count(file));
    parts[0] = place_held;
    parts[1] = held.start;
    parts[2] = held.length;
    parts[3] = held.instant;
    parts[4] = held.correction;
    return 0;
}

/* An answer of fast_schedule_holds. */
typedef struct held_answer {
    uint32_t refusal;
    int64_t parts[5];                    /* place, start of the stamp, its length, instant, correction */
} held_answer;

static held_answer ask(const uint8_t *file, size_t length, int64_t instant, uint32_t channel)
{
    held_answer found;
    uint32_t read;
    found.refusal = fast_schedule_holds(file, length, instant, channel, &read, found.parts);
    return found;
}

static bool holds_any(const held_answer *of)
{
    return of->parts[0] != NONE_YET;
}

static int64_t instant_held(const held_answer *of)
{
    return of->parts[3];
}

/* The stamp that an answer tells of, as the part of that file. */
static uint32_t stamp_held(uint32_t which, const held_answer *of, size_t part[2])
{
    part[0] = (size_t)of->parts[1];
    part[1] = (size_t)of->parts[2];
    return which;
}

/* PLAN or MANUAL, and in `part` the start of the stamp within that file and its length: "the stamp of the correction
 * that holds, as a part of whichever of the two lent files it stands in". "An empty part of the plan" is PLAN, 0 and 0,
 * its first none octets (R6.1). Both files are of the old form (R6.2). */
uint32_t fast_schedule_over(const uint8_t *plan, size_t plan_length, const uint8_t *manual, size_t manual_length,
                            int64_t instant, uint32_t channel, size_t part[2])
{
    const held_answer of_plan = ask(plan, plan_length, instant, channel);
    const held_answer of_manual = ask(manual, manual_length, instant, channel);
    part[0] = part[1] = 0;
    /* "or either question of request 5 is refused", whatever the other one says, and for a bad channel both are
     * (R6.1) */
    if (of_plan.refusal != 0 || of_manual.refusal != 0)
        return PLAN;
    /* "If neither holds a correction .." */
    if (!holds_any(&of_plan) && !holds_any(&of_manual))
        return PLAN;
    /* "if only one holds, that one" */
    if (!holds_any(&of_manual))
        return stamp_held(PLAN, &of_plan, part);
    if (!holds_any(&of_plan))
        return stamp_held(MANUAL, &of_manual, part);
    /* "the later instant, and the manual one at equality" */
    if (instant_held(&of_plan) > instant_held(&of_manual))
        return stamp_held(PLAN, &of_plan, part);
    return stamp_held(MANUAL, &of_manual, part);
}
