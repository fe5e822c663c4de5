/* The plain C version: schedule files. See plain.h, and plain_runs.h for the usual way.
 *
 * A record that is not plainly good goes the exact way, by plain_read and plain_instant. That tells the refusal, and
 * takes what is seldom. */
#include "plain_runs.h"

#define MOST_RECORDS 1000u

enum { HEADER_OCTETS = 16, DATETIMETZ = 5 };

/* ---- a record, exactly ------------------------------------------------------------------------------------- */

struct record {
    uint32_t start, length;                         /* of its stamp, within the stamp octets */
    uint32_t channel;
    uint32_t correction;                            /* two's complement */
};

INLINE struct record record_at(const uint8_t *octets)
{
    const uint64_t word = load64_big(octets);
    const struct record record = { (uint32_t)(word >> 32), (uint32_t)word >> 16, (uint32_t)word & 0xFFFF,
                                   load32_big(octets + 8) };

    return record;
}

static uint32_t read_instant(const uint8_t *octets, size_t length, int64_t *instant)
{
    int64_t parts[8];
    const uint32_t refusal = plain_read(DATETIMETZ, octets, length, parts);

    if (refusal != PLAIN_ACCEPTED)
        return refusal;
    return plain_instant((uint32_t)parts[PLAIN_YEAR], (uint32_t)parts[PLAIN_MONTH], (uint32_t)parts[PLAIN_DAY],
                         (uint64_t)parts[PLAIN_MICROS], (int32_t)parts[PLAIN_OFFSET], instant);
}

/* A record of which all is right but the stamp itself. */
static bool is_in_place(const struct walk *walk, const struct record *record)
{
    const uint64_t end = walk->end + record->length;

    return record->start == walk->end && record->channel - 1 < MOST_CHANNEL && is_correction(record->correction)
        && (walk->record + RECORD_OCTETS == walk->stamps ? end == walk->stamp_octets : end <= walk->stamp_octets);
}

OUTLINE uint32_t pass_exactly(struct walk *walk)
{
    const struct record record = record_at(walk->record);
    int64_t instant;
    uint32_t refusal;

    if (!is_in_place(walk, &record))
        return PLAIN_BAD_RECORD;
    refusal = read_instant(walk->stamps + walk->end, record.length, &instant);
    if (refusal != PLAIN_ACCEPTED)
        return refusal;
    if (instant < walk->instant)
        return PLAIN_BAD_ORDER;
    walk->record += RECORD_OCTETS;
    walk->end += record.length;
    walk->instant = instant;
    return PLAIN_ACCEPTED;
}

/* ---- the records, from the front --------------------------------------------------------------------------- */

/* Whether any record was good so. */
INLINE bool pass_usual(struct walk *walk)
{
    const uint8_t *const before = walk->record;
    const size_t length = record_at(before).length;
    const bool all = walk->asked == ALL_RECORDS;

    if (length - text_octets(true, true, true) <= MOST_FRACTION_OCTETS)
        read_texts(walk, length);
    else if (length == extended_octets(true))
        all ? read_extendeds(walk) : ask_extendeds(walk);
    else if (length - 1 < zoned_compact_octets(true, true))
        all ? read_compacts(walk, length) : ask_compacts(walk, length);
    return walk->record != before;
}

/* The refusal number, and then the walk is at the record that is refused. */
INLINE uint32_t pass_all(struct walk *walk)
{
    while (walk->record != walk->stamps && walk->instant <= walk->asked)
        if (!pass_usual(walk)) {
            const uint32_t refusal = pass_exactly(walk);
            if (refusal != PLAIN_ACCEPTED)
                return refusal;
        }
    if (LIKELY(walk->record != walk->stamps || walk->end == walk->stamp_octets))
        return PLAIN_ACCEPTED;
    walk->record -= RECORD_OCTETS;
    return PLAIN_BAD_RECORD;
}

/* ---- a file, up to an instant ------------------------------------------------------------------------------ */

INLINE bool is_header(const uint8_t *file, size_t length)
{
    const uint32_t records = load32_big(file), stamp_octets = load32_big(file + 8);
    const uint32_t stamps = HEADER_OCTETS + RECORD_OCTETS * records;        /* may wrap if there are too many */

    return records <= MOST_RECORDS && load32_big(file + 4) == HEADER_OCTETS && load32_big(file + 12) == stamps
        && (uint64_t)stamps + stamp_octets == length && (records != 0 || stamp_octets == 0);
}

/* Of a file with a good header. */
INLINE struct walk start_of(const uint8_t *file, int64_t asked)
{
    const uint8_t *const first = file + HEADER_OCTETS;
    const struct walk walk = { first, first + RECORD_OCTETS * load32_big(file), load32_big(file + 8), 0, INT64_MIN,
                               asked };

    return walk;
}

/* No further than the first record later than the instant. The refusal number; no walk is given after the header's. */
INLINE uint32_t read_up_to(int64_t asked, const uint8_t *file, size_t length, struct walk *walk)
{
    if (length < HEADER_OCTETS || !is_header(file, length))
        return PLAIN_BAD_HEADER;
    *walk = start_of(file, asked);
    return pass_all(walk);
}

/* The records before this one. */
INLINE uint32_t records_before(const uint8_t *record, const uint8_t *file)
{
    return (uint32_t)(record - file - HEADER_OCTETS) / RECORD_OCTETS;
}

/* ---- the calls --------------------------------------------------------------------------------------------- */

uint32_t plain_schedule_read(const uint8_t *file, size_t length, uint32_t *records, uint32_t *fault)
{
    struct walk walk;
    const uint32_t refusal = read_up_to(ALL_RECORDS, file, length, &walk);

    *records = refusal == PLAIN_ACCEPTED ? load32_big(file) : 0;
    *fault = refusal == PLAIN_ACCEPTED || refusal == PLAIN_BAD_HEADER ? 0 : records_before(walk.record, file) + 1;
    return refusal;
}

/* Of a record of a file that was read: where its stamp starts within the file, and the instant. */
INLINE uint32_t start_of_stamp(const uint8_t *file, const struct record *record)
{
    return HEADER_OCTETS + RECORD_OCTETS * load32_big(file) + record->start;
}

INLINE int64_t instant_of(const uint8_t *file, const struct record *record)
{
    int64_t instant = 0;

    read_instant(file + start_of_stamp(file, record), record->length, &instant);
    return instant;
}

uint32_t plain_schedule_record(const uint8_t *file, size_t length, uint32_t place, int64_t parts[5])
{
    uint32_t records, fault;
    const uint32_t refusal = plain_schedule_read(file, length, &records, &fault);
    struct record record;

    if (refusal != PLAIN_ACCEPTED)
        return refusal;
    if (place - 1 >= records)
        return PLAIN_BAD_VALUE;
    record = record_at(file + HEADER_OCTETS + RECORD_OCTETS * (place - 1));
    parts[0] = record.channel;
    parts[1] = (int32_t)record.correction;
    parts[2] = instant_of(file, &record);
    parts[3] = start_of_stamp(file, &record);
    parts[4] = record.length;
    return PLAIN_ACCEPTED;
}

/* ---- the questions ----------------------------------------------------------------------------------------- */

/* Behind the reading: the last record of the channel that is not later, NULL for none. From behind, few are looked at;
 * that, and the stamp that is then read again, takes less than to keep what holds so far in the reading. */
INLINE const uint8_t *held_record(const uint8_t *file, const struct walk *walk, uint32_t channel)
{
    const uint8_t *record = walk->instant > walk->asked ? walk->record - RECORD_OCTETS : walk->record;

    while (record != file + HEADER_OCTETS) {
        record -= RECORD_OCTETS;
        if (record_at(record).channel == channel)
            return record;
    }
    return NULL;
}

INLINE void give_held(const uint8_t *file, const uint8_t *held, int64_t parts[5])
{
    const struct record record = record_at(held);

    parts[0] = records_before(held, file) + 1;
    parts[1] = start_of_stamp(file, &record);
    parts[2] = record.length;
    parts[3] = instant_of(file, &record);
    parts[4] = (int32_t)record.correction;
}

uint32_t plain_schedule_holds(const uint8_t *file, size_t length, int64_t instant, uint32_t channel, uint32_t *read,
                              int64_t parts[5])
{
    struct walk walk;
    const uint8_t *held;
    uint32_t refusal;

    *read = 0;
    if (channel - 1 >= MOST_CHANNEL)
        return PLAIN_BAD_VALUE;
    refusal = read_up_to(instant, file, length, &walk);
    if (refusal != PLAIN_ACCEPTED)
        return refusal;
    *read = records_before(walk.record, file);
    held = held_record(file, &walk, channel);
    if (held != NULL)
        give_held(file, held, parts);
    else
        parts[0] = parts[1] = parts[2] = parts[3] = parts[4] = 0;
    return PLAIN_ACCEPTED;
}

/* Where both hold. */
INLINE bool is_over(const uint8_t *manual, const uint8_t *by_hand, const uint8_t *plan, const uint8_t *planned)
{
    const struct record of_manual = record_at(by_hand), of_plan = record_at(planned);

    return instant_of(manual, &of_manual) >= instant_of(plan, &of_plan);
}

INLINE void give_part(const uint8_t *file, const uint8_t *held, size_t part[2])
{
    const struct record record = record_at(held);

    part[0] = start_of_stamp(file, &record);
    part[1] = record.length;
}

uint32_t plain_schedule_over(const uint8_t *plan, size_t plan_length, const uint8_t *manual, size_t manual_length,
                             int64_t instant, uint32_t channel, size_t part[2])
{
    const uint8_t *planned, *by_hand;
    struct walk walk;

    part[0] = part[1] = 0;
    if (channel - 1 >= MOST_CHANNEL || read_up_to(instant, plan, plan_length, &walk) != PLAIN_ACCEPTED)
        return PLAIN_OF_PLAN;
    planned = held_record(plan, &walk, channel);
    if (read_up_to(instant, manual, manual_length, &walk) != PLAIN_ACCEPTED)
        return PLAIN_OF_PLAN;
    by_hand = held_record(manual, &walk, channel);
    if (by_hand != NULL && (planned == NULL || is_over(manual, by_hand, plan, planned))) {
        give_part(manual, by_hand, part);
        return PLAIN_OF_MANUAL;
    }
    if (planned != NULL)
        give_part(plan, planned, part);
    return PLAIN_OF_PLAN;
}
