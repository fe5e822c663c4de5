/* The calls on schedule files: full reading, and the record at a place. */
#include "header.h"

#include <string.h>

void put_number(uint8_t *octets, size_t count, uint32_t number)
{
    for (; count > 0; number >>= 8)
        octets[--count] = (uint8_t)number;
}

const uint8_t empty[STAMP_SCHEDULE_HEADER] = {0, 0, 0, 0, 0, 0, 0, 16, 0, 0, 0, 0, 0, 0, 0, 16};

/* Two records: at channel 1 from 2020-01-01T00:00 UTC on, in compact form, and at channel 16 from 2020-02-28T00:00 UTC on, as text. */
#define CARD_LENGTH 66
static const uint8_t card[CARD_LENGTH] = {
    0, 0, 0, 2, 0, 0, 0, 16, 0, 0, 0, 26, 0, 0, 0, 40,
    0, 0, 0, 0, 0, 1, 0, 1, 0, 0, 0, 25,
    0, 0, 0, 1, 0, 25, 0, 16, 0xFF, 0xFF, 0xFF, 0xE7,
    0x00,
    '2', '0', '2', '0', '-', '0', '2', '-', '2', '8', 'T', '0', '0', ':', '0', '0', ':', '0', '0', '+', '0', '0', ':', '0', '0'
};

/* A record as lent, to be found again after a refusal. */
static stamp_record lent_record(void)
{
    stamp_record lent;
    memset(&lent, 0x5A, sizeof lent);
    return lent;
}

static bool same_record(const stamp_record *left, const stamp_record *right)
{
    return left->channel == right->channel && left->correction == right->correction && left->instant == right->instant
        && left->start == right->start && left->length == right->length;
}

/* The record at a place, by its parts and by its name. */
static void try_record(const uint8_t *file, size_t length, uint32_t place, uint32_t refusal, stamp_record expected, const char *what)
{
    int64_t parts[5] = {lent_number, lent_number, lent_number, lent_number, lent_number};
    stamp_record found = lent_record();
    size_t at;
    try_that(stamp_schedule_record(file, length, place, parts) == refusal, what);
    try_that(stamp_record_at(file, length, place, &found) == refusal && same_record(&found, &expected), what);
    if (refusal == STAMP_ACCEPTED) {
        try_that(parts[0] == expected.channel && parts[1] == expected.correction && parts[2] == expected.instant, what);
        try_that(parts[3] == (int64_t)expected.start && parts[4] == (int64_t)expected.length, what);
        return;
    }
    for (at = 0; at < 5; at++)
        try_that(parts[at] == lent_number, what);
}

/* Full reading; and where it refuses, so does a question for any record, with nothing answered. */
static void try_schedule(const uint8_t *file, size_t length, uint32_t refusal, uint32_t expected, const char *what)
{
    uint32_t records = 99, fault = 99;
    try_that(stamp_schedule_read(file, length, &records, &fault) == refusal, what);
    if (refusal == STAMP_ACCEPTED) {
        try_that(records == expected && fault == 0, what);
        return;
    }
    try_that(records == 0 && fault == expected, what);
    try_record(file, length, 1, refusal, lent_record(), what);
    try_record(file, length, 0, refusal, lent_record(), what);
}

/* The card with one octet changed, and what full reading says: the refusal and the place. */
static void try_changed_cards(void)
{
    static const struct { size_t at; uint8_t octet; uint32_t refusal, place; const char *what; } changes[] = {
        {3, 3, 13, 0, "a record too many"}, {0, 0x80, 13, 0, "very many records"}, {7, 17, 13, 0, "records elsewhere"},
        {11, 25, 13, 0, "a stamp octet too few"}, {11, 27, 13, 0, "one too many"}, {15, 41, 13, 0, "stamps elsewhere"},
        {16, 1, 14, 1, "a stamp far off"}, {19, 1, 14, 1, "a gap before the first"}, {21, 27, 14, 1, "a stamp past all"},
        {23, 0, 14, 1, "no channel 0"}, {23, 17, 14, 1, "no channel 17"}, {22, 1, 14, 1, "no channel 257"},
        {25, 16, 14, 1, "a correction too far"}, {24, 0x80, 14, 1, "one too far below"}, {31, 0, 14, 2, "an overlap"},
        {31, 2, 14, 2, "a gap"}, {33, 24, 14, 2, "the last stamp ends too early"}, {33, 26, 14, 2, "it ends too late"},
        {21, 0, 5, 1, "no stamp octets"}, {51, 'X', 6, 2, "no T"}, {60, '-', 7, 2, "-00:00"}, {46, '9', 8, 2, "month 92"},
        {43, '1', 15, 2, "2010 after 2020"}
    };
    uint8_t changed[CARD_LENGTH];
    size_t at;
    for (at = 0; at < sizeof changes / sizeof changes[0]; at++) {
        memcpy(changed, card, sizeof card);
        changed[changes[at].at] = changes[at].octet;
        try_schedule(changed, sizeof changed, changes[at].refusal, changes[at].place, changes[at].what);
    }
}

static stamp_record record_of(uint32_t channel, int32_t correction, int64_t instant, size_t start, size_t length)
{
    stamp_record made;
    made.channel = channel;
    made.correction = correction;
    made.instant = instant;
    made.start = start;
    made.length = length;
    return made;
}

static void try_cards(void)
{
    uint8_t longer[CARD_LENGTH + 1] = {0};
    size_t length;
    try_schedule(card, sizeof card, STAMP_ACCEPTED, 2, "two records");
    try_record(card, sizeof card, 1, STAMP_ACCEPTED, record_of(1, 25, beginning, 40, 1), "the first");
    try_record(card, sizeof card, 2, STAMP_ACCEPTED, record_of(16, -25, INT64_C(63718444800000000), 41, 25), "the second");
    try_record(card, sizeof card, 0, STAMP_REFUSED_VALUE, lent_record(), "places are counted from one");
    try_record(card, sizeof card, 3, STAMP_REFUSED_VALUE, lent_record(), "there is no third");
    try_record(card, sizeof card, UINT32_MAX, STAMP_REFUSED_VALUE, lent_record(), "nor a last");
    try_schedule(empty, sizeof empty, STAMP_ACCEPTED, 0, "no records");
    try_record(empty, sizeof empty, 1, STAMP_REFUSED_VALUE, lent_record(), "so there is no first");
    try_schedule(NULL, 0, STAMP_REFUSED_HEADER, 0, "no octets at a null pointer");
    for (length = 0; length < sizeof card; length++)
        try_schedule(card, length, STAMP_REFUSED_HEADER, 0, "a card cut short");
    memcpy(longer, card, sizeof card);
    try_schedule(longer, sizeof longer, STAMP_REFUSED_HEADER, 0, "an octet over");
}

/* As many records as there may be, each with the longest stamp. */
static void try_longest(void)
{
    static uint8_t longest[STAMP_LONGEST_SCHEDULE + 1];
    const size_t stamps = STAMP_SCHEDULE_HEADER + STAMP_SCHEDULE_RECORD * STAMP_MAX_RECORDS;
    stamp_value noon = stamp_datetimetz(2020, 2, 29, stamp_micros(12, 0, 0, 5), STAMP_MAX_OFFSET);
    uint32_t at;
    size_t count = 0;
    int64_t instant = 0;
    put_number(longest, 4, STAMP_MAX_RECORDS);
    put_number(longest + 4, 4, STAMP_SCHEDULE_HEADER);
    put_number(longest + 8, 4, STAMP_LONGEST_IMAGE * STAMP_MAX_RECORDS);
    put_number(longest + 12, 4, (uint32_t)stamps);
    for (at = 0; at < STAMP_MAX_RECORDS; at++) {
        uint8_t *record = longest + STAMP_SCHEDULE_HEADER + STAMP_SCHEDULE_RECORD * at;
        put_number(record, 4, STAMP_LONGEST_IMAGE * at);
        put_number(record + 4, 2, STAMP_LONGEST_IMAGE);
        put_number(record + 6, 2, STAMP_MAX_CHANNEL);
        put_number(record + 8, 4, (uint32_t)-STAMP_MAX_CORRECTION);
        stamp_encode(&noon, stamp_make_settings(false, 0, 6), longest + stamps + STAMP_LONGEST_IMAGE * at, STAMP_LONGEST_IMAGE, &count);
    }
    try_that(count == STAMP_LONGEST_IMAGE && stamp_instant_of(&noon, &instant) == STAMP_ACCEPTED, "the longest stamp");
    try_schedule(longest, STAMP_LONGEST_SCHEDULE, STAMP_ACCEPTED, STAMP_MAX_RECORDS, "the longest schedule");
    try_record(longest, STAMP_LONGEST_SCHEDULE, STAMP_MAX_RECORDS, STAMP_ACCEPTED,
               record_of(STAMP_MAX_CHANNEL, -STAMP_MAX_CORRECTION, instant, STAMP_LONGEST_SCHEDULE - STAMP_LONGEST_IMAGE,
                         STAMP_LONGEST_IMAGE), "its last record");
    try_schedule(longest, STAMP_LONGEST_SCHEDULE + 1, STAMP_REFUSED_HEADER, 0, "an octet more");
}

/* The least that a file of 1,001 records could be. */
static void try_too_many(void)
{
    static uint8_t many[STAMP_SCHEDULE_HEADER + (STAMP_SCHEDULE_RECORD + 1) * (STAMP_MAX_RECORDS + 1)];
    uint32_t at;
    put_number(many, 4, STAMP_MAX_RECORDS + 1);
    put_number(many + 4, 4, STAMP_SCHEDULE_HEADER);
    put_number(many + 8, 4, STAMP_MAX_RECORDS + 1);
    put_number(many + 12, 4, STAMP_SCHEDULE_HEADER + STAMP_SCHEDULE_RECORD * (STAMP_MAX_RECORDS + 1));
    for (at = 0; at <= STAMP_MAX_RECORDS; at++) {
        uint8_t *record = many + STAMP_SCHEDULE_HEADER + STAMP_SCHEDULE_RECORD * at;
        put_number(record, 4, at);
        put_number(record + 4, 2, 1);
        put_number(record + 6, 2, 1);
    }
    try_schedule(many, sizeof many, STAMP_REFUSED_HEADER, 0, "1,001 records");
}

void try_schedules(void)
{
    try_cards();
    try_changed_cards();
    try_longest();
    try_too_many();
}
